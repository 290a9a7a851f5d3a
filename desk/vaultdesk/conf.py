"""The configuration of a vault with units, /etc/vaultctl/NAME.conf, of which systemd reads PORT too.

A line is `NAME=VALUE`, with the value as a shell would read one word: plain, or between quotes. Nothing is put in the
place of a variable, so what has a `$` stands between single quotes, as the command of ALARM.
"""

from __future__ import annotations

import os
import re
import shlex
from collections.abc import Mapping
from dataclasses import dataclass
from pathlib import Path

from vaultdesk.errors import DeskError
from vaultdesk.output import say

KNOWN = (
    "PORT", "LINES_GROUP", "ADMIN", "BUCKETS", "NIGHT", "BACKUP", "KEEP", "ALARM", "TRUST_CLOCK", "MAX_JUMP", "STANDBY",
    "HEALTH", "WEB", "DUE_MAIL",
)  # fmt: skip
NAME = re.compile(r"[A-Za-z0-9_][A-Za-z0-9_.-]*")  # of a vault: a file's name, and a unit's
CALLER = re.compile(r"[a-z0-9._-]{1,64}")
BUCKET = re.compile(r"[a-z0-9-]{3,63}")


def folder() -> Path:
    """Where the configurations are: $VAULT_CONF, or else /etc/vaultctl."""
    return Path(os.environ.get("VAULT_CONF", "/etc/vaultctl"))


def vaults_folder() -> Path:
    """Where the vaults with a configuration are: $VAULT_FOLDER, or else /var/lib/vaultctl."""
    return Path(os.environ.get("VAULT_FOLDER", "/var/lib/vaultctl"))


def run_folder() -> Path:
    """Where doors, locks and marks of alarms are, until the machine is started anew."""
    return Path(os.environ.get("VAULT_LOCKS", "/run/vaultctl"))


def make_run_folder() -> Path:
    """The same, made where it isn't there. Everybody may enter it: what is in it says by itself who may come."""
    place = run_folder()
    place.mkdir(parents=True, exist_ok=True)
    if place.stat().st_mode & 0o777 != 0o755:
        place.chmod(0o755)
    return place


def lines_of(name: str) -> Path:
    """The socket at which the server of a vault takes lines, as its unit says."""
    return run_folder() / name / "lines"


def path_of(name: str) -> Path:
    """Where the configuration of a vault is, or would be. `DeskError` where no vault can have that name."""
    if not NAME.fullmatch(name):
        raise DeskError(f"{name!r} is no vault's name: it is the one of NAME.vault and {folder()}/NAME.conf")
    return folder() / f"{name}.conf"


def value_of(text: str) -> str:
    """The value that a shell would read. `ValueError` where it would put something else in its place, or see two."""
    # Single quotes keep all that is between them; those within double quotes are no quotes.
    if re.search(r"[$`\\]", re.sub(r"'[^']*'|(\"[^\"]*\")", r"\1", text)):
        raise ValueError("what has $, ` or \\ belongs between single quotes")
    words = shlex.split(text, comments=True)
    if len(words) > 1:
        raise ValueError("a value with blanks belongs between quotes")
    return words[0] if words else ""


@dataclass(frozen=True)
class Configuration:
    """The configuration of a vault. A value is looked at where it is asked for."""

    name: str
    path: Path
    values: Mapping[str, str]

    def _number(self, name: str, value: str, least: int, most: int) -> int:
        if not value.isdecimal() or not least <= int(value) <= most:
            raise DeskError(f"{self.path}: {name}={value}: that isn't a number from {least:,} to {most:,}")
        return int(value)

    def port(self) -> int:
        """The port at which the vault is served."""
        if "PORT" not in self.values:
            raise DeskError(f"{self.path}: PORT is missing: the port of 127.0.0.1 at which the vault is served")
        return self._number("PORT", self.values["PORT"], 1, 65_535)

    def health(self) -> str:
        """Where load balancers ask how the vault is: PORT or ADDRESS:PORT."""
        if "HEALTH" not in self.values:
            raise DeskError(f"{self.path}: HEALTH is missing: the port at which load balancers ask, as HEALTH=8081")
        return self.values["HEALTH"]

    def buckets(self) -> list[tuple[str, str]]:
        """The buckets whose rules the night carries out, each with the caller who asks for it."""
        found = []
        for word in self.values.get("BUCKETS", "").split():
            bucket, colon, caller = word.partition(":")
            caller = caller if colon else self.values.get("NIGHT", "night")
            if not BUCKET.fullmatch(bucket) or not CALLER.fullmatch(caller):
                cause = "that isn't BUCKET or BUCKET:CALLER, or NIGHT isn't a caller"
                raise DeskError(f"{self.path}: BUCKETS has {word}: {cause}")
            found.append((bucket, caller))
        return found

    def admin(self) -> str:
        """The caller who ends the server as it is stopped."""
        return self.values.get("ADMIN") or "registrar"

    def lines_group(self) -> str:
        """The group whose members may come to the server's door for lines; empty where it stays the owner's."""
        return self.values.get("LINES_GROUP", "")

    def backup(self) -> Path:
        """The folder of the night's copies."""
        return Path(self.values.get("BACKUP") or "/var/backups/vaultctl")

    def keep(self) -> int | None:
        """How many copies stay; none where all do."""
        value = self.values.get("KEEP", "")
        return self._number("KEEP", value, 1, 1_000_000) if value else None

    def max_jump(self) -> int:
        """How many days the clock may be past all that is known."""
        return self._number("MAX_JUMP", self.values.get("MAX_JUMP") or "2", 0, 100_000)

    def trusts_clock(self) -> bool:
        """Whether somebody looks after a clock that nothing synchronizes."""
        return self.values.get("TRUST_CLOCK") == "yes"

    def standby(self) -> str:
        """The machine that follows the vault, as ssh has it; empty where none is named."""
        return self.values.get("STANDBY", "")

    def due_mail(self) -> str:
        """Who gets by mail what is due; empty where nobody is named."""
        return self.values.get("DUE_MAIL", "")

    def alarm(self) -> str:
        """The shell command that reports a failure; empty where none is set."""
        return self.values.get("ALARM", "")


def read(name: str) -> Configuration:
    """The configuration of a vault. `DeskError` where there is none, or a line of it isn't understood."""
    path = path_of(name)
    try:
        lines = path.read_text(encoding="utf-8").splitlines()
    except (OSError, UnicodeDecodeError) as error:
        raise DeskError(f"no vault has the name {name}: {path} isn't there, or can't be read") from error
    values = {}
    for number, line in enumerate(lines, start=1):
        if not line.strip() or line.lstrip().startswith("#"):
            continue
        try:
            member, equals, text = line.partition("=")
            if not equals or not re.fullmatch(r"[A-Za-z_]\w*", member):
                raise ValueError("a line is NAME=VALUE, without blanks around the =")
            values[member] = value_of(text)
        except ValueError as error:
            raise DeskError(f"{path}: line {number}: {error}") from error
        if member not in KNOWN:
            say(f"{path}: line {number}: {member} isn't asked for by anything: is it misspelt?")
    return Configuration(name, path, values)


def is_configured(vault: str) -> bool:
    """Whether that is the name of a vault with a configuration, and no path."""
    return bool(NAME.fullmatch(vault)) and path_of(vault).exists()


def names() -> list[str]:
    """The names of all vaults that have a configuration on this machine."""
    return sorted(it.stem for it in folder().glob("*.conf") if NAME.fullmatch(it.stem))
