"""The office's file of cases: for which case which version was put on hold, and who lifted that.

The file stands beside the vault, `records.cases` beside `records.vault`, and the engine knows nothing of it. It is CSV
in UTF-8, and only grows: desk/README.md has its form.
"""

from __future__ import annotations

import argparse
import contextlib
import csv
import io
import os
from collections.abc import Iterator
from dataclasses import dataclass, fields
from pathlib import Path
from typing import Any

from vaultdesk import disk, moments, reading
from vaultdesk.engine import Engine
from vaultdesk.errors import DeskError, UsageError
from vaultdesk.output import print_table

HOLD, RELEASE = "hold", "release"
Place = tuple[str, str, int]


@dataclass(frozen=True)
class Note:
    """A record of the file: `was` is the lock that the version had before."""

    moment: str
    by: str
    case: str
    done: str
    bucket: str
    key: str
    version: int
    was: str

    @property
    def place(self) -> Place:
        """Which version it is of."""
        return self.bucket, self.key, self.version


HEAD = [it.name for it in fields(Note)]


def file_beside(vault: Path) -> Path:
    """The file of cases of a vault."""
    return vault.with_suffix(".cases") if vault.suffix == ".vault" else vault.with_name(f"{vault.name}.cases")


def check_name(case: str) -> str:
    """A case's name. `UsageError` where it is empty, or has what ends a line or can't be seen."""
    if not case.strip() or not case.isprintable():
        raise UsageError(f"{case!r} is no name of a case: it has letters that can be seen, and no line's end")
    return case


class Cases:
    """What the file has, and a way to append records."""

    def __init__(self, path: Path) -> None:
        self.path = path
        self.notes: list[Note] = []
        self._on: dict[Place, dict[str, Note]] = {}
        self._file: io.FileIO | None = None
        for it in self._read():
            self._keep(it)

    def _read(self) -> Iterator[Note]:
        try:
            with self.path.open(encoding="utf-8", newline="") as file:
                rows = list(csv.reader(file, strict=True))
        except FileNotFoundError:
            return
        except PermissionError as error:
            raise DeskError(f"{self.path}: {error.strerror}: ask as who may read the file of cases") from error
        except (OSError, UnicodeDecodeError, csv.Error) as error:
            raise DeskError(f"{self.path}: {error}: mend the file of cases, or put its last copy back") from error
        if rows and rows[0] != HEAD:
            raise DeskError(f"{self.path}: the first record isn't {','.join(HEAD)}: it is no file of cases")
        for number, row in enumerate(rows[1:], start=2):
            if len(row) != len(HEAD) or row[3] not in (HOLD, RELEASE) or not row[6].isdecimal():
                raise DeskError(f"{self.path}: record {number} isn't one of a case: mend it, or put the last copy back")
            moment, by, case, done, bucket, key, version, was = row
            yield Note(moment, by, case, done, bucket, key, int(version), was)

    def _keep(self, note: Note) -> None:
        self.notes.append(note)
        cases = self._on.setdefault(note.place, {})
        if note.done == HOLD:
            cases.setdefault(note.case, note)
        else:
            cases.pop(note.case, None)

    def held_for(self, bucket: str, key: str, version: int) -> set[str]:
        """The cases for which the version is on hold."""
        return set(self._on.get((bucket, key, version), ()))

    def of_case(self, case: str) -> list[Note]:
        """For each version that is on hold for a case, the record of the first time that it was put on."""
        return [cases[case] for cases in self._on.values() if case in cases]

    @contextlib.contextmanager
    def open(self) -> Iterator[None]:
        """Opens the file for records that come. `DeskError` where it can't be written: before anything is changed."""
        try:
            opened = os.open(self.path, os.O_RDWR | os.O_CREAT | os.O_APPEND, 0o600)
        except OSError as error:
            raise DeskError(f"{self.path}: {error.strerror}: nothing was changed") from error
        with open(opened, "ab+", buffering=0) as self._file:
            if self._file.tell() == 0:
                self._write(HEAD, "nothing was changed")
                disk.sync(self.path.absolute().parent)
            yield

    def _write(self, row: list[str], otherwise: str) -> None:
        """Appends a record as a whole, on the disk, or nothing of it: `DeskError` says what is the case otherwise."""
        assert self._file
        text = io.StringIO()
        csv.writer(text, lineterminator="\n").writerow(row)
        try:
            disk.append(self._file, text.getvalue().encode())
        except OSError as error:
            raise DeskError(f"{self.path}: {error.strerror}: {otherwise}") from error

    def add(self, note: Note) -> None:
        """Appends a record at once: a change that was made has it, even if the next one fails."""
        otherwise = f"version {note.version} has its hold changed ({note.done}), which isn't noted for {note.case!r}"
        self._write([str(getattr(note, name)) for name in HEAD], otherwise)
        self._keep(note)


# ---- the subcommand


def _states(engine: Engine) -> dict[int, str]:
    """Of each version whether it is held under a legal hold now: ON or OFF."""
    held = reading.query(engine.tables, "held", at=engine.at or moments.now())
    return {it["version"]: it["hold"] for it in held}


def _overview(found: Cases, states: dict[int, str]) -> Iterator[dict[str, Any]]:
    for case in sorted({it.case for it in found.notes}):
        notes = [it for it in found.notes if it.case == case]
        on = found.of_case(case)
        yield {
            "case": case,
            "on hold": len(on),
            "lifted elsewhere": sum(states.get(it.version) != "ON" for it in on),
            "first": notes[0].moment,
            "last": notes[-1].moment,
        }


def cases(engine: Engine, words: argparse.Namespace) -> None:
    """Lists the cases, or what was put on hold and released for one."""
    found = Cases(file_beside(engine.desk.file))
    states = _states(engine)
    if words.name is None:
        columns = ("case", "on hold", "lifted elsewhere", "first", "last")
        print_table(list(_overview(found, states)), columns, words.json)
        return
    notes = [it for it in found.notes if it.case == words.name]
    if not notes:
        raise DeskError(f"{found.path} has no case {words.name!r}: vaultdesk cases lists them")
    rows = [{**vars(it), "now": states.get(it.version, "removed")} for it in notes]
    print_table(rows, ("moment", "by", "done", "bucket", "version", "was", "now", "key"), words.json)


def add(commands: argparse._SubParsersAction[argparse.ArgumentParser], common: argparse.ArgumentParser) -> None:
    """Adds the subcommand to the desk's words."""
    what = "the cases for which versions were put on hold, or the records of one case"
    example = 'Example: vaultdesk cases "4 O 17/25"'
    it = commands.add_parser("cases", parents=[common], help=what, epilog=example)
    it.add_argument("name", nargs="?", metavar="CASE")
    it.set_defaults(run=cases)
