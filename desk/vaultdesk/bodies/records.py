"""Records that are kept of bodies beside the vault, as CSV in UTF-8 with LF after each: which were erased
(`records.erased`), and what each look at them found (`records.fixity`). Both only grow."""

from __future__ import annotations

import csv
import fcntl
import io
import os
from collections.abc import Iterable, Sequence
from dataclasses import astuple, dataclass, fields
from pathlib import Path

from vaultdesk import disk
from vaultdesk.errors import of_file

LAST = 4_096  # bytes at the end of a file, in which the last record is


@dataclass(frozen=True)
class Erased:
    """A body that was erased, and the versions that had it, as `17 23`."""

    moment: str
    sha256: str
    size: int
    versions: str


@dataclass(frozen=True)
class Look:
    """A look at the bodies: `how` is `names`, `digests` or `slice 3/30`. `looked_at`, `missing` and `altered` count
    bodies of held versions, `spare` what no held version names."""

    moment: str
    how: str
    looked_at: int
    missing: int
    altered: int
    spare: int


def _text(rows: Iterable[Sequence[object]]) -> bytes:
    text = io.StringIO()
    csv.writer(text, lineterminator="\n").writerows(rows)
    return text.getvalue().encode()


def append(path: Path, records: Sequence[Erased] | Sequence[Look]) -> None:
    """Appends the records as a whole, on the disk, or nothing of them; the first of a file have the names of the
    columns above them. `DeskError` where they can't be written."""
    if not records:
        return
    try:
        with open(os.open(path, os.O_RDWR | os.O_CREAT | os.O_APPEND | os.O_NOFOLLOW, 0o600), "ab+", 0) as file:
            fcntl.flock(file, fcntl.LOCK_EX)
            is_new = not os.fstat(file.fileno()).st_size
            head = [[it.name for it in fields(records[0])]] if is_new else []
            disk.append(file, _text([*head, *map(astuple, records)]))
            if is_new:
                disk.sync(path.absolute().parent)
    except OSError as error:
        raise of_file(path, error) from error


def _look_of(row: Sequence[str]) -> Look | None:
    if len(row) != len(fields(Look)) or not all(it.isdecimal() for it in row[2:]):
        return None
    return Look(row[0], row[1], *map(int, row[2:]))


def last_look(path: Path) -> Look | None:
    """The last look that is recorded whole; none where there was no look. `DeskError` where the file can't be read."""
    try:
        with path.open("rb") as file:
            file.seek(max(file.seek(0, os.SEEK_END) - LAST, 0))
            lines = file.read().decode("utf-8", "replace").split("\n")[:-1]
    except FileNotFoundError:
        return None
    except OSError as error:
        raise of_file(path, error) from error
    looks = (_look_of(row) for row in csv.reader(reversed(lines)))
    return next((it for it in looks if it), None)
