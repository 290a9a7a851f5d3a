"""Where copies of a vault are, how old they are, and whether there are enough: copies."""

from __future__ import annotations

import argparse
import datetime as dt
import re
import subprocess
from collections.abc import Iterator, Sequence
from pathlib import Path
from typing import Any

from vaultdesk import conf, config, moments, reading
from vaultdesk.errors import DeskError, UsageError
from vaultdesk.history import number
from vaultdesk.output import counted_off, print_json, print_rows
from vaultdesk.spelling import whole

Row = dict[str, Any]
COLUMNS = ("made", "days old", "bytes", "last change", "entries", "state", "copy")
STATE = "SELECT removed FROM entries WHERE id = ?"
ABOUT = """Lists the copies of a vault in one folder or in several, newest first: when each was made, how old it is, up
to which change it goes, and how many entries it has. With --version the state of that version in each: held, removed or
absent. With --audit each is audited by the engine, which takes as long as opening it. With --least the status is 1
where fewer copies count than that: those that can be read, are sound where they are audited, and hold the version where
one is named."""


def found_in(folder: Path, name: str) -> list[Path]:
    """The copies of a vault in a folder, as the night and `backup` name them, newest first.

    `DeskError` where the folder can't be read."""
    pattern = re.compile(re.escape(name) + r"-\d{8}T\d{6}Z\.vault(\.damaged)?")
    try:
        return sorted((it for it in folder.iterdir() if pattern.fullmatch(it.name)), reverse=True)
    except OSError as error:
        raise DeskError(f"{folder}: {error.strerror}") from error


def made_at(copy: Path) -> str:
    """The moment at which a copy was made, by its name."""
    text = copy.name.removesuffix(".damaged").removesuffix(".vault")[-16:]
    return moments.text_of(dt.datetime.strptime(text, "%Y%m%dT%H%M%SZ").replace(tzinfo=dt.timezone.utc))


def _audited(copy: Path) -> str:
    """What the engine's audit says of a copy."""
    done = subprocess.run([config.program(), "verify", str(copy)], stdout=subprocess.PIPE, check=False)
    return done.stdout.decode("utf-8", "replace").strip() or "no audit"


def _read(copy: Path, version: int | None) -> Row:
    """What a copy's tables have."""
    log, index = Path(f"{copy}-wal"), Path(f"{copy}-shm")
    had_index = index.exists()
    [(last,)] = reading.rows(copy, "SELECT last FROM meta")
    [(count,)] = reading.rows(copy, "SELECT count(*) FROM entries")
    row: Row = {"last change": moments.of_seconds(last), "entries": count}
    row["bytes"] = copy.stat().st_size + (log.stat().st_size if log.exists() else 0)
    if version is not None:
        states = reading.rows(copy, STATE, (version,))
        row["version"] = "absent" if not states else "held" if states[0][0] is None else "removed"
    if not had_index:  # SQLite leaves it beside a file whose log it reads
        index.unlink(missing_ok=True)
    return row


def _row(copy: Path, words: argparse.Namespace) -> Row:
    moment = made_at(copy)
    age = (moments.seconds_of(moments.now()) - moments.seconds_of(moment)) // 86_400
    row: Row = {"made": moment, "days old": age, "copy": str(copy), "state": "readable"}
    try:
        row |= _read(copy, words.version)
    except (DeskError, OSError) as error:
        return {**row, "state": f"can't be read: {error}"}
    if copy.name.endswith(".damaged"):
        row["state"] = "damaged"
    elif words.audit:
        row["state"] = _audited(copy)
    return row


def _counts(row: Row, words: argparse.Namespace) -> bool:
    """Whether a copy is one of those that have to be there."""
    is_good = row["state"] == ("sound" if words.audit else "readable")
    return is_good and (words.version is None or row["version"] == "held")


def _places(words: argparse.Namespace) -> Iterator[tuple[Path, str]]:
    """The folders that are looked at, and the vault's name."""
    is_configured = conf.is_configured(words.vault)
    name = words.vault if is_configured else config.settings().file_of(words.vault).name.removesuffix(".vault")
    folders: Sequence[Path] = [Path(it) for it in words.folders]
    if not folders and not is_configured:
        raise UsageError(f"{words.vault} has no configuration in {conf.folder()} that names a folder: give FOLDER")
    for it in folders or [conf.read(words.vault).backup()]:
        yield it, name


def copies(words: argparse.Namespace) -> int:
    """Lists the copies of a vault, and says whether enough of them are there."""
    there = [copy for folder, name in _places(words) for copy in found_in(folder, name)]
    rows = [_row(it, words) for it in counted_off(there, "copies were looked at")]
    count = sum(_counts(it, words) for it in rows)
    if words.json:
        print_json({"copies": rows, "count": count})
    else:
        print_rows(rows, [*COLUMNS[:5], *(["version"] if words.version is not None else []), *COLUMNS[5:]])
    if words.least is not None and count < words.least:
        what = "hold that version" if words.version is not None else "are there"
        raise DeskError(f"{count} copies {what}, and there are to be at least {words.least}")
    return 0


def add(commands: argparse._SubParsersAction[argparse.ArgumentParser], common: argparse.ArgumentParser) -> None:
    """Adds the subcommand to the desk's words."""
    what = "the copies of a vault: where, how old, and whether there are enough"
    example = "Example: vaultdesk copies records /var/backups/vaultctl /mnt/usb --version 17 --least 2"
    it = commands.add_parser("copies", parents=[common], help=what, description=ABOUT, epilog=example)
    it.add_argument("vault", metavar="VAULT", help="the vault's file, or its name in the settings")
    it.add_argument("folders", nargs="*", metavar="FOLDER", help="default: BACKUP in /etc/vaultctl/VAULT.conf")
    it.add_argument("--version", type=number, metavar="N", help="whether each holds that version")
    it.add_argument("--audit", action="store_true", help="have the engine audit each")
    it.add_argument("--least", type=whole(0), metavar="N", help="status 1 where fewer than that are there")
    it.set_defaults(do=copies)
