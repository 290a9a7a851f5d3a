"""Which vault is meant, who asks, and which program is the engine.

An option is asked first, then the environment, then a file of settings (TOML)::

    vault = "records"        # the vault where none is named
    caller = "ann"           # who asks where nobody is named
    program = "vaultctl"

    [vaults]
    records = "/var/lib/vaultctl/records.vault"

    [doors]
    records = "/run/vaultctl/records/lines"    # where its server takes lines, if that is another place than usual

    [least]
    letters = "6 years"      # the shortest retention that the desk sets in that bucket

    [greatest]
    letters = "30 years"     # the longest one; a number of days or of years

    dates = "day-first"      # above the tables: how an inventory of CSV has dates as 01.02.2026; or "month-first"

    [columns]
    "Reference" = "key"      # what a column of an inventory is, which deliver --columns writes here; or "ignore"

    [keys]
    pattern = "[0-9/]+"      # the form of keys, as a regular expression of all of a key, for put and deliver

    [office]
    name = "County Archive"  # as it signs pages, certificates and what it hands over
    bucket = "office-court"  # where its own documents are, if that is another bucket than docs/RECORDS.md says
    keep = "30 years"        # how long plans of disposal, approvals and outcomes are kept
    fields = ["Box"]         # facts of documents that only this office has

A name that isn't there is that of a vault with units, if there is one: /var/lib/vaultctl/NAME.vault.
"""

from __future__ import annotations

import json
import os
import re
import tomllib
from collections.abc import Mapping
from dataclasses import dataclass
from pathlib import Path
from typing import Any

from vaultdesk import conf, limits
from vaultdesk.errors import DeskError, UsageError
from vaultdesk.limits import Limits, Period
from vaultdesk.replacing import write_anew

PLACES = (Path("~/.config/vaultdesk.toml"), Path("/etc/vaultctl/desk.toml"))


@dataclass(frozen=True)
class Office:
    """What the settings have of the office: its name, the bucket of its own documents (none: the one that is found),
    how long plans of disposal are kept, and the facts of documents that only it has."""

    name: str = ""
    bucket: str = ""
    keep: Period = Period(30, "year")
    fields: tuple[str, ...] = ()


@dataclass(frozen=True)
class Settings:
    """The members of a file of settings; all of it may be left out."""

    vault: str | None = None
    caller: str | None = None
    program: str | None = None
    vaults: Mapping[str, str] | None = None
    doors: Mapping[str, str] | None = None
    limits: Limits = limits.NONE
    columns: Mapping[str, str] | None = None
    dates: str | None = None
    office: Office = Office()
    keys: str | None = None

    def file_of(self, vault: str) -> Path:
        """The file of the vault that is named so, or else that path itself.

        A folder that may not be searched has no file of that name for whoever asks.
        """
        if vault not in (self.vaults or {}) and conf.is_configured(vault) and not os.path.exists(vault):
            return conf.vaults_folder() / f"{vault}.vault"
        return Path((self.vaults or {}).get(vault, vault)).expanduser()


@dataclass(frozen=True)
class Desk:
    """The engine's program, and where these were named, which vault is meant, who asks, where a server takes lines, how
    long retentions may be, and what the office is."""

    program: str
    vault: Path | None = None
    asker: str | None = None
    door: str | None = None
    limits: Limits = limits.NONE
    office: Office = Office()

    @property
    def file(self) -> Path:
        """The vault's file. `UsageError` where no vault is named anywhere."""
        if self.vault is None:
            raise UsageError("no vault is named: give --vault FILE, or set $VAULT")
        return self.vault

    @property
    def caller(self) -> str:
        """Who asks. `UsageError` where nobody is named anywhere."""
        if not self.asker:
            raise UsageError("nobody asks: give --as CALLER, or set $VAULT_CALLER")
        return self.asker


def _text(found: Mapping[str, Any], name: str) -> str | None:
    value = found.get(name)
    if value is not None and not isinstance(value, str):
        raise UsageError(f"settings: {name} is no text: give it in quotes")
    return value


def _of_table(found: Mapping[str, Any], table: str, name: str) -> str | None:
    """A text of a table; none where the table or the text isn't there."""
    there = found.get(table, {})
    if not isinstance(there, dict):
        raise UsageError(f"settings: [{table}] is a table, with {name} in it")
    return _text(there, name)


def _periods(found: Mapping[str, Any], name: str) -> dict[str, limits.Period]:
    given = found.get(name, {})
    if not _are_texts(given):
        raise UsageError(f"settings: [{name}] has buckets, each with a period: 6 years, or 90 days")
    return {bucket: limits.period(text) for bucket, text in given.items()}


def _office(found: Mapping[str, Any]) -> Office:
    given = found.get("office", {})
    fields = given.get("fields", []) if isinstance(given, dict) else None
    if not isinstance(fields, list) or not all(isinstance(it, str) and it.strip() for it in fields):
        raise UsageError('settings: [office] has name, bucket and keep, each in quotes, and fields as ["Box", "Shelf"]')
    name, bucket, keep = (_text(given, it) or "" for it in ("name", "bucket", "keep"))
    return Office(name, bucket, limits.period(keep) if keep else Office.keep, tuple(it.strip() for it in fields))


def _are_texts(found: Any) -> bool:
    return isinstance(found, dict) and all(isinstance(it, str) for it in found.values())


def read_settings(path: Path) -> Settings:
    """The settings of a file. `UsageError` where it is no TOML, or a value is of another kind."""
    try:
        found = tomllib.loads(path.read_text(encoding="utf-8"))
    except OSError as error:
        raise UsageError(f"settings {path}: {error.strerror}: mend the path, or unset $VAULTDESK_SETTINGS") from error
    except (UnicodeDecodeError, tomllib.TOMLDecodeError) as error:
        raise UsageError(f"settings {path}: {error}: they are TOML in UTF-8, where texts stand in quotes") from error
    vaults, doors = found.get("vaults", {}), found.get("doors", {})
    if not _are_texts(vaults):
        raise UsageError(f"settings {path}: [vaults] has names, each with the path of a file")
    if not _are_texts(doors):
        raise UsageError(f"settings {path}: [doors] has names, each with the path of a socket, or a port in quotes")
    columns = found.get("columns", {})
    if not _are_texts(columns):
        raise UsageError(f"settings {path}: [columns] has names of columns, each with what it is in quotes")
    keys = _of_table(found, "keys", "pattern")
    within = Limits(_periods(found, "least"), _periods(found, "greatest"))
    vault, caller, program_, dates = (_text(found, it) for it in ("vault", "caller", "program", "dates"))
    return Settings(vault, caller, program_, vaults, doors, within, columns, dates, _office(found), keys)


def _file() -> Path | None:
    """$VAULTDESK_SETTINGS, or else the first file that is there."""
    named = os.environ.get("VAULTDESK_SETTINGS")
    if named:
        return Path(named)
    return next((it for it in (place.expanduser() for place in PLACES) if _is_there(it)), None)


def settings() -> Settings:
    """Those of $VAULTDESK_SETTINGS, or else of the first file that is there; none where no file is."""
    file = _file()
    return read_settings(file) if file else Settings()


def office_name() -> str:
    """The office's name, as the settings have it; empty where they have none."""
    return settings().office.name


def _with_columns(text: str, given: Mapping[str, str]) -> str:
    """The text of a file of settings with these columns in its table; what else is there stays as it is."""
    table = [f"{json.dumps(name, ensure_ascii=False)} = {json.dumps(it)}" for name, it in given.items()]
    lines, is_in = list[str](), False
    for line in text.splitlines():
        if re.match(r"\s*\[", line):
            is_in = re.match(r"\s*\[\s*columns\s*\]", line) is not None
        if is_in and re.match(r"\s*[^\s\[#]", line) and {*tomllib.loads(line)} & {*given}:
            continue
        lines.append(line)
        if is_in and re.match(r"\s*\[", line):
            lines += table
            table = []
    return "\n".join([*lines, *(["", "[columns]", *table] if table else []), ""])


def _own(new: Path, old: os.stat_result) -> None:
    """Gives a new file the owner and the mode of the one in whose place it comes."""
    os.chown(new, old.st_uid, old.st_gid)
    new.chmod(old.st_mode & 0o777)


def keep_columns(given: Mapping[str, str]) -> str:
    """Writes what columns are into the file of settings, or into a new one of the user's own, and says where.

    What can't be written is said too: the settings stay as they were."""
    file = (_file() or PLACES[0].expanduser()).resolve()
    names = ", ".join(f"{name!r} is {it}" for name, it in given.items())
    try:
        is_new = not file.exists()
        text = "" if is_new else file.read_text(encoding="utf-8")
        old = tomllib.loads(text)
        new = _with_columns(text, given)
        if tomllib.loads(new) != {**old, "columns": {**old.get("columns", {}), **given}}:
            raise DeskError(f"{file}: its table [columns] isn't written as the desk writes it")
        if old.get("columns", {}) | given == old.get("columns", {}):
            return ""
        file.parent.mkdir(parents=True, exist_ok=True)
        write_anew(file, new, lambda it: None if is_new else _own(it, file.stat()))
    except (OSError, ValueError, DeskError) as error:
        return f"not kept for the next time: {names}: {error}: write it into [columns] of the settings"
    return f"kept for the next time in {file}, [columns]: {names}"


def _is_there(path: Path) -> bool:
    try:
        return path.is_file()
    except PermissionError:  # in the home of another user, as root's
        return False


def program() -> str:
    """The engine's program: $VAULTCTL, or that of the settings, or else vaultctl on the path."""
    return os.environ.get("VAULTCTL") or settings().program or "vaultctl"


def named_vault() -> str | None:
    """The vault that is meant where none is named: $VAULT, or that of the settings."""
    return os.environ.get("VAULT") or settings().vault


def desk(vault: str | None, caller: str | None, door: str | None = None) -> Desk:
    """The desk of these options; what a subcommand lacks is found where it asks for it."""
    given = settings()
    vault = vault or named_vault()
    caller = caller or os.environ.get("VAULT_CALLER") or given.caller
    door = door or os.environ.get("VAULT_DOOR") or (given.doors or {}).get(vault or "")
    return Desk(program(), given.file_of(vault) if vault else None, caller, door, given.limits, given.office)
