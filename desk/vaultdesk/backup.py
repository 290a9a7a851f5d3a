"""Copies of a vault: made while it may be read, audited, and the oldest removed."""

from __future__ import annotations

import argparse
import datetime as dt
import os
import re
import subprocess
import time
from pathlib import Path

from vaultdesk import conf, config, disk, reading, recheck, snapshot
from vaultdesk.errors import DeskError, UsageError
from vaultdesk.output import print_json
from vaultdesk.owner import Owner, is_roots, owner_of
from vaultdesk.spelling import whole

ABOUT = """Makes a copy of a vault, audits the copy, and prints its path, FOLDER/NAME-MOMENT.vault. The copy belongs to
the vault's owner, who alone can read it. It is made by SQLite's online backup, or while a server has the vault, of
both files as they are at one moment: the server goes on meanwhile. A copy that isn't sound keeps .damaged after its
name, and the status is 1; then no older copy is removed."""


def stamp() -> str:
    """This moment, as the names of copies have it."""
    return dt.datetime.now(dt.timezone.utc).strftime("%Y%m%dT%H%M%SZ")


def read_copy(source: Path, target: Path) -> None:
    """Copies a vault by SQLite's online backup, or its files as they are at one moment, where a program has it.

    `DeskError` where it can't be read or written."""
    # SQLite can't read a log in a folder that is read alone.
    if snapshot.is_taken(source) or recheck.vault.is_read_only(source.resolve().parent):
        snapshot.copy(source, target)
        return
    disk.new_file(target).close()
    try:
        reading.back_up(source, target)
    except DeskError:
        target.unlink(missing_ok=True)
        raise


def _unused(folder: Path, name: str) -> Path:
    """The path of a copy that isn't there: of this second, or where a copy of it is there, of a later one."""
    for wait in (0.0, 1.1):
        time.sleep(wait)
        copy = folder / f"{name}-{stamp()}.vault"
        if not any(os.path.lexists(it) for it in (copy, copy.with_name(f"{copy.name}.damaged"))):
            return copy
    raise DeskError(f"{copy} is there already")


def _make(source: Path, copy: Path, program: str, owner: Owner) -> None:
    """Makes a copy of a vault, audits it, and gives it that name."""
    trial = copy.with_name(f"{copy.name}.damaged")
    log, trial_log = Path(f"{copy}-wal"), Path(f"{trial}-wal")
    try:
        read_copy(source, trial)
        done = subprocess.run([program, "verify", trial], stdout=subprocess.PIPE, check=False)
        verdict = done.stdout.decode("utf-8", "replace").strip()
        owner.give(*(it for it in (trial, trial_log) if it.exists()))
        if verdict != "sound":
            raise DeskError(f"{trial}: {verdict or 'no audit'}")
        if trial_log.exists():
            trial_log.rename(log)
        trial.rename(copy)
        disk.sync(copy, copy.parent)
    except OSError as error:
        raise DeskError(f"{error.filename}: {error.strerror}") from error


def made(source: Path, folder: Path, program: str) -> Path:
    """Makes a copy of a vault in a folder, audits it, and returns its path: NAME-MOMENT.vault.

    It belongs to whom the vault belongs, who alone can read it, and who makes it in a folder where somebody else than
    root may lay a link. `DeskError` where it isn't sound: then it keeps `.damaged` after its name."""
    owner = owner_of(source)
    os.umask(0o077)
    try:
        if not folder.is_dir():
            folder.mkdir(parents=True)
            owner.give(folder)
        snapshot.look_for_room(folder, snapshot.size_of(source))
        does = owner.do if os.geteuid() == 0 and not is_roots(folder) else Owner(0, 0).do
    except OSError as error:
        raise DeskError(f"{error.filename}: {error.strerror}") from error
    copy = _unused(folder, source.name.removesuffix(".vault"))
    does(lambda: _make(source, copy, program, owner))
    return copy


def outdated(folder: Path, name: str, keep: int | None, coming: int = 0) -> list[Path]:
    """The oldest copies of a vault, where more than `keep` are there, or will be; none where all are kept.

    What isn't a copy of this vault isn't among them."""
    if keep is None or not folder.is_dir():
        return []
    pattern = re.compile(re.escape(name) + r"-\d{8}T\d{6}Z\.vault")
    copies = sorted(it for it in folder.iterdir() if pattern.fullmatch(it.name))
    return copies[: max(0, len(copies) + coming - keep)]


def remove(copies: list[Path]) -> None:
    """Removes copies, each with the files beside it."""
    for it in copies:
        for path in (it, Path(f"{it}-wal"), Path(f"{it}-shm")):
            path.unlink(missing_ok=True)


def _asked(words: argparse.Namespace) -> tuple[Path, Path, int | None]:
    """The vault's file, the folder of its copies, and how many stay."""
    if words.keep is not None and words.keep < 1:
        raise UsageError("--keep 0 would keep nothing: give a number from 1 on")
    is_configured = conf.is_configured(words.vault)
    named = conf.vaults_folder() / f"{words.vault}.vault" if is_configured else config.settings().file_of(words.vault)
    if words.folder:
        return named, Path(words.folder), words.keep
    if not is_configured:
        raise UsageError(f"{words.vault} has no configuration in {conf.folder()} that names a folder: give FOLDER")
    found = conf.read(words.vault)
    return named, found.backup(), words.keep or found.keep()


def backup(words: argparse.Namespace) -> int:
    """Makes a copy of a vault, audits it, and removes the oldest ones where a number is given."""
    file, folder, keep = _asked(words)
    if not file.is_file():
        raise DeskError(f"{file} isn't there")
    name = file.name.removesuffix(".vault")
    copy = None if words.dry_run else made(file, folder, config.program())
    old = outdated(folder, name, keep, coming=0 if copy else 1)
    if copy:
        remove(old)
    if words.json:
        print_json({"copy": str(copy) if copy else None, "removed": [str(it) for it in old]})
    elif copy:
        print(copy)
    else:
        print("\n".join([f"a copy of {file} would be made in {folder}", *(f"{it} would be removed" for it in old)]))
    return 0


def add(commands: argparse._SubParsersAction[argparse.ArgumentParser], common: argparse.ArgumentParser) -> None:
    """Adds the subcommands to the desk's words."""
    example = "Example: vaultdesk backup records.vault /srv/copies --keep 30"
    what = "make a copy of a vault, and audit the copy"
    it = commands.add_parser("backup", parents=[common], help=what, description=ABOUT, epilog=example)
    it.add_argument("vault", metavar="VAULT", help="the vault's file, or its name in the settings")
    text = "default: BACKUP in /etc/vaultctl/VAULT.conf, with its KEEP"
    it.add_argument("folder", nargs="?", metavar="FOLDER", help=text)
    it.add_argument("--keep", type=whole(0), metavar="N", help="remove all copies of the vault there but the newest N")
    it.add_argument("--dry-run", action="store_true", help="say what would be done, and change nothing")
    it.set_defaults(do=backup)
