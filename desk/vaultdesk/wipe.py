"""A vault's file that is written anew without the bytes of what was removed, and its old files overwritten: wipe.

SQLite copies the vault's log into its file, and writes what its tables have into a new one. The engine audits and seals
that, and its rows are compared with the vault's. Then the log is moved away, and both files exchange their names at
once. So whenever it ends, the vault is there as a whole, as it was or wiped; what is left beside it the next wipe
overwrites.
"""

from __future__ import annotations

import argparse
import contextlib
import os
import subprocess
from collections.abc import Iterator, Sequence
from pathlib import Path
from typing import Any

from vaultdesk import conf, config, disk, moments, reading, snapshot, whereabouts, wiped
from vaultdesk.asking import add_yes, confirm
from vaultdesk.errors import DeskError
from vaultdesk.output import counted_off, print_json, print_rows
from vaultdesk.owner import owner_of
from vaultdesk.units import Served
from vaultdesk.whereabouts import Place
from vaultdesk.wiped import Wipe, Wipes

ABOUT = """Writes the vault's file anew without the bytes of what was removed, overwrites the old file and its log with
zeros, and notes in NAME.wiped when that was done. The new file is audited, sealed and compared before it takes the old
one's place, so it takes room for it; however it ends, the vault is there as a whole. While a server has the vault it
does nothing: vaultdesk offline NAME vaultdesk wipe NAME stops that one meanwhile. It lists the copies and journals that
still have such bytes. Out of its reach is what no file has any more: free parts of the disk, as a log leaves them,
snapshots, older blocks of a file system that copies on write or of an SSD."""
BEYOND = "Not reached: free parts of the disk, snapshots, older blocks (copy-on-write, SSDs), and other copies."
SCHEMA = 3  # whose contents are in the tables
MADE = (".log", "", "-wal", "-shm", "-journal")  # the ends of the names of what is beside the vault meanwhile
COLUMNS = ("kind", "has", "may have", "place")
GONE = "SELECT id, removed, digest FROM entries WHERE digest IS NOT NULL AND removed IS NOT NULL"
IN_COPY = "SELECT id, removed FROM entries WHERE digest IS NOT NULL"
Row = dict[str, Any]


# ---- the new file


class Wiping:
    """Where the files of a wipe are, and its steps, which the vault's owner takes."""

    def __init__(self, file: Path, program: str) -> None:
        self.file, self.program = file, program
        self.new = file.with_name(f"{file.name}{whereabouts.OF_WIPE}")
        self.old_log = Path(f"{self.new}{MADE[0]}")

    def clear(self) -> None:
        """Overwrites and removes what is beside the vault, once the names that files have are on the disk."""
        disk.sync(self.file.parent)
        for it in (Path(f"{self.new}{end}") for end in MADE):
            if os.path.lexists(it):
                disk.overwrite(it)
        disk.sync(self.file.parent)

    def _says(self, *words: str | Path) -> str:
        """What the engine prints."""
        done = subprocess.run([self.program, *words], stdout=subprocess.PIPE, check=False)
        return done.stdout.decode("utf-8", "replace").strip()

    def audited_seal(self, file: Path) -> str:
        """The seal of a file. `DeskError` where its audit doesn't say that it is sound."""
        verdict = self._says("verify", file)
        if verdict != "sound":
            raise DeskError(f"{file} isn't sound ({verdict or 'no audit'}): nothing was wiped")
        return self._says("seal", file)

    def make(self, seal: str) -> Wipe:
        """Makes the new file, which is on the disk then. `DeskError` where it isn't the same vault."""
        snapshot.look_for_room(self.file.parent, snapshot.size_of(self.file))
        disk.new_file(self.new).close()
        number = reading.write_out(self.file, self.new)
        made = self.audited_seal(self.new)
        reading.take_in_log(self.new)
        table = reading.differing(self.file, self.new)
        if made != seal or table:
            raise DeskError(f"{self.new} isn't the same vault ({table or 'another seal'}): nothing was wiped")
        found = self.file.stat()
        os.chown(self.new, found.st_uid, found.st_gid)
        self.new.chmod(found.st_mode & 0o777)
        disk.sync(self.new, self.file, self.file.parent)
        [(last,)] = reading.rows(self.new, "SELECT last FROM meta")
        at_last = reading.rows(self.new, "SELECT id FROM entries WHERE removed = ?", (last,))
        return Wipe("", moments.of_seconds(last), frozenset(number for (number,) in at_last), number)

    def exchange(self) -> None:
        """Puts the new file in the vault's place. The vault's own has all that its log has."""
        log = snapshot.log_of(self.file)
        if log.exists():
            log.rename(self.old_log)
            disk.sync(self.file.parent)
        Path(f"{self.file}-shm").unlink(missing_ok=True)
        disk.exchange(self.new, self.file)

    def carry_out(self) -> str:
        """Does all of it, and returns when it was done. `DeskError` where it wasn't."""
        self.clear()
        seal = self.audited_seal(self.file)
        try:
            with snapshot.kept_still(self.file) as held:
                wipe = self.make(seal)
                if not os.path.samestat(os.fstat(held.fileno()), self.file.stat()):
                    raise DeskError(f"{self.file} was replaced meanwhile: nothing was wiped")
                self.exchange()
        finally:
            self.clear()
        done = moments.now()
        wiped.note(self.file, Wipe(done, wipe.last, wipe.at_last, wipe.number))
        return done


def _carried_out(file: Path, program: str) -> str:
    try:
        with disk.locked(file.parent):  # another wipe would overwrite what this one makes
            return Wiping(file, program).carry_out()
    except BlockingIOError as error:
        raise DeskError(f"another wipe is under way in {file.parent}") from error
    except OSError as error:
        raise DeskError(f"{error.filename}: {error.strerror}") from error


# ---- which copies still have the bytes


class Gone:
    """What a vault has removed, and which of it is in a copy or a journal still."""

    def __init__(self, file: Path) -> None:
        [(schema,)] = reading.rows(file, "SELECT schema FROM meta")
        if schema != SCHEMA:
            raise DeskError(f"{file}: its schema is {schema}, and {SCHEMA} is known here")
        self.file = file
        found = reading.rows(file, GONE)
        self.versions = {number: moments.of_seconds(removed) for number, removed, _ in found}
        self.digests = {digest.hex() for *_, digest in found}

    def unwiped(self, versions: dict[int, str], wipes: Wipes) -> int:
        """Of how many versions, each with the moment of its removal, no wipe is noted."""
        return sum(not wipes.when(number, removed) for number, removed in versions.items())

    def _in_copy(self, copy: Path) -> tuple[int, int]:
        """How many removed versions a copy holds, and of how many others it may have the bytes."""
        with whereabouts.tables_of(copy) as tables:
            rows = reading.rows(tables, IN_COPY)
        held = sum(removed is None and number in self.versions for number, removed in rows)
        removed_there = {number: moments.of_seconds(removed) for number, removed in rows if removed is not None}
        return held, self.unwiped(removed_there, wiped.of(self.file, copy))

    def _row(self, place: Place) -> Row:
        row: Row = {"kind": place.kind, "place": str(place.path)}
        try:
            if place.kind == "journal":
                has, may = len(self.digests.intersection(whereabouts.digests_in(place.path))), 0
            else:
                has, may = self._in_copy(place.path)
        except (DeskError, OSError) as error:
            return {**row, "has": "?", "may have": "?", "place": f"{place.path}{whereabouts.UNREAD}{error}"}
        return {**row, "has": has, "may have": may}

    def left(self, folders: Sequence[str]) -> list[Row]:
        """The copies and journals that have bytes of what was removed, or may have them, also in these folders."""
        configured = whereabouts.configured(self.file)
        of_conf = [configured.backup()] if configured and configured.backup().is_dir() else []
        places = list(whereabouts.places(self.file, [*map(Path, folders), *of_conf]))
        rows = [self._row(it) for it in counted_off(places, "copies were looked at")]
        if configured and configured.standby() and self.versions:
            there = whereabouts.on_other(configured.standby(), self.file)
            rows.append({"kind": "standby", "has": "?", "may have": "?", "place": there})
        return [it for it in rows if it["has"] or it["may have"]]


# ---- the subcommand


def _look_whether_taken(file: Path) -> None:
    """`DeskError` where a program has the vault."""
    if snapshot.is_taken(file):
        name = file.name.removesuffix(".vault")
        offline = f"vaultdesk offline {name} vaultdesk wipe {name} --yes"
        how = offline if whereabouts.configured(file) else "end it first"
        raise DeskError(f"{file}: a server or another program has the vault, and nothing was wiped: {how}")


@contextlib.contextmanager
def _alone(file: Path) -> Iterator[None]:
    """No other job of root works on the vault. Whoever has it as its owner is its job, or has none."""
    if whereabouts.configured(file) and owner_of(file).is_other():
        with Served(file.name.removesuffix(".vault")).locked(patience=0):
            yield
    else:
        yield


def _text(found: Row, is_dry: bool) -> str:
    """What was done, or would be, in a line."""
    count, one = found["documents"], "1 removed document"
    what = one if count == 1 else f"{count:,} removed documents"
    would = "would be" if is_dry else "are"
    return f"the bytes of {what} {would} wiped from {found['vault']}"


def _print(found: Row, left: Sequence[Row], words: argparse.Namespace) -> None:
    if words.json:
        print_json({**found, "left": left})
        return
    print(_text(found, words.dry_run))
    if left:
        print("Still with bytes of removed documents: remove these, or guard them as the vault")
        print_rows(left, COLUMNS)
    print(BEYOND)


def wipe(words: argparse.Namespace) -> int:
    """Wipes a vault's file, and lists what still has bytes of what was removed."""
    is_named = conf.is_configured(words.vault)
    named = conf.vaults_folder() / f"{words.vault}.vault" if is_named else config.settings().file_of(words.vault)
    reading.look_for(named)
    file, program = named.resolve(), config.program()
    os.umask(0o077)
    with _alone(file):
        _look_whether_taken(file)
        gone = Gone(file)
        count = gone.unwiped(gone.versions, wiped.of(file))
        found: Row = {"vault": str(named), "documents": count, "done": None, "before": file.stat().st_size}
        if not words.dry_run:
            confirm(words, f"the bytes of {count:,} removed documents can't be read any more")
            found["done"] = owner_of(file).do(lambda: _carried_out(file, program))
        found["bytes"] = file.stat().st_size
        _print(found, gone.left(words.folder or []), words)
    return 0


def add(commands: argparse._SubParsersAction[argparse.ArgumentParser], common: argparse.ArgumentParser) -> None:
    """Adds the subcommand to the desk's words."""
    what = "write a vault's file anew without the bytes of what was removed"
    example = "Example: vaultdesk wipe records.vault"
    it = commands.add_parser("wipe", parents=[common], help=what, description=ABOUT, epilog=example)
    it.add_argument("vault", metavar="VAULT", help="the vault's file, or its name in the settings")
    it.add_argument("--folder", action="append", metavar="FOLDER", help="list the vault's copies that lie there too")
    add_yes(it)
    it.set_defaults(do=wipe)
