"""Access keys: the callers for whom clients sign, in a file that its owner alone may read (TOML)::

    [VK7Q2ZJ4N5T6W3XAPL2D]
    caller = "ann"
    secret = "..."
"""

from __future__ import annotations

import json
import os
import re
import secrets
import tomllib
from collections.abc import Mapping
from dataclasses import dataclass
from pathlib import Path

from vaultdesk import conf
from vaultdesk.errors import DeskError, UsageError
from vaultdesk.replacing import write_anew

KEY = re.compile(r"[A-Za-z0-9]{16,64}")
SHORTEST = 16  # characters of a secret
LETTERS = "ABCDEFGHIJKLMNOPQRSTUVWXYZ234567"


@dataclass(frozen=True)
class Key:
    """Who asks with an access key, and the secret that signs."""

    caller: str
    secret: str


def read(path: Path) -> dict[str, Key]:
    """The keys of the file.

    `DeskError` where others than its owner may read it, it isn't understood, or a secret in it can be guessed."""
    try:
        mode = path.stat().st_mode
        if mode & 0o077:
            raise DeskError(f"{path} may be read by others than its owner: chmod 600 {path}")
        found = tomllib.loads(path.read_text(encoding="utf-8"))
        keys = {name: Key(str(it["caller"]), str(it["secret"])) for name, it in found.items()}
    except (OSError, UnicodeDecodeError, tomllib.TOMLDecodeError) as error:
        raise DeskError(f"{path}: {getattr(error, 'strerror', None) or error}") from error
    except (KeyError, TypeError) as error:
        raise DeskError(f"{path}: each key has a caller and a secret") from error
    wrong = [name for name, it in keys.items() if not KEY.fullmatch(name) or not conf.CALLER.fullmatch(it.caller)]
    if wrong:
        raise DeskError(f"{path}: {wrong[0]} is no access key of a caller")
    short = [name for name, it in keys.items() if len(it.secret) < SHORTEST]
    if short:
        why = f"the secret of {short[0]} has less than {SHORTEST} characters, so anybody may find it"
        raise DeskError(f"{path}: {why}: take the key out of the file; vaultdesk s3 key add makes one")
    return keys


def write(path: Path, keys: Mapping[str, Key]) -> None:
    """Writes the file anew, with mode 0600 and the owner that it had. `DeskError` where it can't be written."""
    lines = [f'[{name}]\ncaller = "{it.caller}"\nsecret = {json.dumps(it.secret)}\n' for name, it in keys.items()]

    def place(new: Path) -> None:
        if path.exists():
            old = path.stat()
            os.chown(new, old.st_uid, old.st_gid)

    write_anew(path, "\n".join(lines), place)


def new(caller: str) -> tuple[str, Key]:
    """A new access key of a caller. `UsageError` where nobody can have that name."""
    if not conf.CALLER.fullmatch(caller):
        raise UsageError(f"{caller!r} can be no caller's name, which has 1 to 64 of a-z, 0-9, '-', '_' and '.'")
    name = "VK" + "".join(secrets.choice(LETTERS) for _ in range(18))
    return name, Key(caller, secrets.token_urlsafe(30))


class Keys:
    """The keys of a file as it stands: one that is added or removed counts from the next request on."""

    def __init__(self, path: Path) -> None:
        self.path = path
        self.place = str(path)
        self.seen: tuple[int, int, int] | None = None
        self.keys: dict[str, Key] = {}
        self.look()

    def look(self) -> None:
        """Reads the file, if it has changed. `DeskError` as of `read`."""
        try:
            there = os.stat(self.place)
        except OSError as error:
            raise DeskError(f"{self.path}: {error.strerror}") from error
        seen = there.st_mtime_ns, there.st_ino, there.st_mode
        if seen != self.seen:
            self.keys, self.seen = read(self.path), seen

    def find(self, name: str) -> Key | None:
        """The key of that name. `DeskError` where the file can't be read any more: then nobody is let in."""
        self.look()
        return self.keys.get(name)
