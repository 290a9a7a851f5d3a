"""Passwords of the pages' users: a file of names, each with a digest by argon2, which only this reads."""

from __future__ import annotations

import secrets
import threading
from pathlib import Path

from vaultdesk.errors import DeskError
from vaultdesk.users import ARGON2, read_users
from vaultdesk.web.libraries import library

argon2 = library("argon2")
# RFC 9106's second choice: 64 MiB for each password that is looked at.
HASHER = argon2.PasswordHasher(time_cost=3, memory_cost=65_536, parallelism=4)
AT_ONCE = threading.BoundedSemaphore(2)  # passwords that are looked at
COMING = threading.BoundedSemaphore(128)  # and those that wait for it besides: the other threads are for pages


class Crowded(DeskError):
    """So many log in that no more can wait."""


def digest_of(password: str) -> str:
    """The digest of a password, with a salt of its own."""
    return str(HASHER.hash(password))


def is_digest_of(digest: str, password: str) -> bool:
    """Whether that is the digest of the password. `Crowded` where too many wait for that."""
    if not COMING.acquire(blocking=False):
        raise Crowded("too many log in at this moment: try again in some seconds")
    try:
        with AT_ONCE:
            return bool(HASHER.verify(digest, password))
    except (argon2.exceptions.VerificationError, argon2.exceptions.InvalidHash):
        return False
    finally:
        COMING.release()


class Users:
    """The users of a file, which is read again as it changes."""

    def __init__(self, path: Path) -> None:
        self.path = path
        self._turn = threading.Lock()
        self._seen: tuple[int, int, int] | None = None
        self._users: dict[str, str] = {}
        self._nobody = digest_of(secrets.token_hex(16))
        self.digests()

    def digests(self) -> dict[str, str]:
        """The digest of each user. `DeskError` where the file can't be read, or has a digest that isn't argon2's."""
        try:
            there = self.path.stat()
        except OSError as error:
            raise DeskError(f"{self.path}: {error.strerror}: vaultdesk users add --argon2 makes it") from error
        seen = (there.st_ino, there.st_mtime_ns, there.st_size)
        with self._turn:
            if seen != self._seen:
                self._users, self._seen = self._read(), seen
            return self._users

    def _read(self) -> dict[str, str]:
        found = read_users(self.path)
        others = [name for name, digest in found.items() if not digest.startswith(ARGON2)]
        if others:
            why = f"the password of {others[0]} isn't kept by argon2"
            raise DeskError(f"{self.path}: {why}: vaultdesk users password --argon2 gives it one")
        return found

    def let_in(self, name: str, password: str) -> str:
        """The digest of a user whose password that is; empty where it isn't, or there is no such user. Both take the
        same time. `Crowded` where too many log in."""
        digest = self.digests().get(name)
        is_right = is_digest_of(digest or self._nobody, password)
        return digest if digest and is_right else ""
