"""A vault's files as they are at one moment, also while a program has them open: nothing is asked of that program.

A program that has a vault changes its file only as it copies the log into it, and then begins the log anew, under
another salt. Until then the log has all that the file is about to get. So where the head of the log is the same before
and after, the file and the whole changes of the log are the vault of one moment, as a crash then would leave it.
"""

from __future__ import annotations

import fcntl
import os
import shutil
import struct
import tempfile
import time
from collections.abc import Iterator
from contextlib import contextmanager
from pathlib import Path
from typing import BinaryIO

from vaultdesk import disk
from vaultdesk.errors import EngineError

HEAD = 32  # bytes of the log's head, which has the salt
FRAME = 24  # bytes of a frame's head, before its page
MAGIC = (0x377F0682, 0x377F0683)
PIECE = 1_048_576  # bytes that are read at once
LOCK = "hhqqi4x"  # a `struct flock`
READERS = (0x40000002, 510)  # the first byte that SQLite's readers lock, and how many they are
TRIES, PAUSE = 20, 0.5  # how often, and after how many seconds, a copy is tried again


def is_taken(file: Path) -> bool:
    """Whether a program has the vault open, so that no other may read it through SQLite.

    The system is asked who has locked the bytes that a reader locks. SQLite would make files beside the vault for that.
    """
    asked = struct.pack(LOCK, fcntl.F_RDLCK, os.SEEK_SET, *READERS, 0)
    try:
        with file.open("rb") as opened:
            found = fcntl.fcntl(opened, fcntl.F_OFD_GETLK, asked)
    except OSError:
        return False
    return bool(struct.unpack(LOCK, found)[0] != fcntl.F_UNLCK)


@contextmanager
def kept_still(file: Path) -> Iterator[BinaryIO]:
    """No engine opens the vault within the `with` block, which gets the file, while SQLite may read it. `EngineError`
    where a program has it."""
    asked = struct.pack(LOCK, fcntl.F_RDLCK, os.SEEK_SET, *READERS, 0)
    with file.open("rb") as opened:
        try:
            fcntl.fcntl(opened, fcntl.F_OFD_SETLK, asked)
        except BlockingIOError as error:
            raise EngineError(f"{file}: a server or another program has the vault") from error
        yield opened


def log_of(file: Path) -> Path:
    """The log of a vault's file, or of a copy."""
    return Path(f"{file}-wal")


def _head(log: Path) -> bytes:
    """The head of a log; empty where there is no log."""
    try:
        with log.open("rb") as file:
            return file.read(HEAD)
    except FileNotFoundError:
        return b""


def _page_size(head: bytes) -> int:
    """The bytes of a page, by the head of a log; 0 where that is none."""
    is_one = len(head) == HEAD and int.from_bytes(head[:4], "big") in MAGIC
    return int.from_bytes(head[8:12], "big") if is_one else 0


def whole_changes(log: BinaryIO) -> bytes:
    """The head of a log, and its frames up to the end of the last change that is whole; empty where it has none.

    The frames are read in their order, and each change opens with its first: so one that is appended meanwhile is there
    as a whole, or not at all."""
    found = bytearray(log.read(HEAD))
    page, salt, end = _page_size(bytes(found)), bytes(found[16:24]), 0
    while page:
        frame = log.read(FRAME + page)
        if len(frame) < FRAME + page or frame[8:16] != salt:
            break
        found += frame
        if frame[4:8] != bytes(4):  # the last frame of a change has the number of pages that there are then
            end = len(found)
    return bytes(found[:end])


def _copy_file(file: Path, target: Path) -> None:
    target.unlink(missing_ok=True)
    with file.open("rb") as source, disk.new_file(target) as made:
        while piece := source.read(PIECE):
            made.write(piece)


def _copied_once(file: Path, target: Path) -> bool:
    """Copies both files, and returns whether the log wasn't begun anew meanwhile."""
    log, before = log_of(file), _head(log_of(file))
    _copy_file(file, target)
    changes = b""
    if before:
        with log.open("rb") as opened:
            changes = whole_changes(opened)
    log_of(target).unlink(missing_ok=True)
    if changes:
        with disk.new_file(log_of(target)) as made:
            made.write(changes)
    return before == _head(log) and changes[:HEAD] in (b"", before)


def copy(file: Path, target: Path) -> None:
    """Copies a vault as it is at one moment: to `target`, and its log beside it. Both are the copier's alone.

    `EngineError` where a file can't be read or written, or the vault is changed too fast to be copied."""
    both = (target, log_of(target))
    try:
        for number in range(TRIES):
            time.sleep(PAUSE if number else 0)
            if _copied_once(file, target):
                return
        raise EngineError(f"{file}: it is changed too fast to be copied: try again when less is put in")
    except BaseException as error:
        for it in both:
            it.unlink(missing_ok=True)
        if not isinstance(error, OSError):
            raise
        remedy = ": ask as the vault's owner, or of a copy (--vault COPY)" if isinstance(error, PermissionError) else ""
        raise EngineError(f"{error.filename or target}: {error.strerror}{remedy}") from error


class NoRoom(EngineError):
    """A folder has too little room for what is to be copied there."""


def look_for_room(folder: Path, size: int) -> None:
    """`NoRoom` where a folder has no room for so many bytes more."""
    free = shutil.disk_usage(folder).free
    if size > free:
        raise NoRoom(f"{folder} has {free:,} bytes free, and a copy of the vault takes {size:,} there: make room")


def size_of(file: Path) -> int:
    """The bytes of a vault's file and its log."""
    return sum(it.stat().st_size for it in (file, log_of(file)) if it.exists())


@contextmanager
def readable(file: Path, folder: Path | None = None) -> Iterator[Path]:
    """A file whose tables can be read: the vault's own, or while a program has it open, a copy as the vault is now.

    The copy is in a new folder within `folder` (left out: that of temporary files), and goes with the `with` block.
    `NoRoom` where there is none for it, `EngineError` as of `copy`."""
    if not is_taken(file):
        yield file
        return
    look_for_room(folder or Path(tempfile.gettempdir()), size_of(file))
    with tempfile.TemporaryDirectory(prefix=".copy-", dir=folder) as place:
        target = Path(place) / file.name
        copy(file, target)
        yield target
