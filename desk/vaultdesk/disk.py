"""What stays after a loss of power: files and folders that are synced, records that are appended as a whole, and names
that two files exchange. And what doesn't: files that are overwritten."""

from __future__ import annotations

import ctypes
import errno
import fcntl
import io
import os
from collections.abc import Iterator
from contextlib import contextmanager
from pathlib import Path
from typing import BinaryIO

THIS_FOLDER, EXCHANGE = -100, 2  # AT_FDCWD and RENAME_EXCHANGE of Linux
PIECE = 1_048_576  # bytes that are overwritten at once


def sync(*paths: Path) -> None:
    """Has the content of files, and the names in folders, on the disk. `OSError` where that fails."""
    for it in paths:
        descriptor = os.open(it, os.O_RDONLY)
        try:
            os.fsync(descriptor)
        finally:
            os.close(descriptor)


def new_file(path: Path) -> BinaryIO:
    """A new file that is its owner's alone, to be written: a link or a file that is there is neither followed nor
    written over. `FileExistsError` then."""
    return open(os.open(path, os.O_WRONLY | os.O_CREAT | os.O_EXCL | os.O_NOFOLLOW, 0o600), "wb")


def append(file: io.FileIO, content: bytes) -> None:
    """Appends a record to a file that was opened for reading and appending: after a line's end, as a whole, and on the
    disk; or nothing of it. `OSError` where that fails."""
    end = file.seek(0, os.SEEK_END)
    if end and os.pread(file.fileno(), 1, end - 1) != b"\n":  # an earlier record was cut as it was written
        content = b"\n" + content
    written = file.write(content)
    if written != len(content):
        if file.seek(0, os.SEEK_END) == end + written:  # else somebody has a record after it by now
            file.truncate(end)
        raise OSError(errno.ENOSPC, os.strerror(errno.ENOSPC))
    os.fsync(file.fileno())


@contextmanager
def locked(folder: Path) -> Iterator[None]:
    """Nobody else who locks that folder has it within the `with` block. `BlockingIOError` where somebody has it."""
    descriptor = os.open(folder, os.O_RDONLY)
    try:
        fcntl.flock(descriptor, fcntl.LOCK_EX | fcntl.LOCK_NB)
        yield
    finally:
        os.close(descriptor)


def exchange(one: Path, other: Path) -> None:
    """Gives two files each other's names at once, so that neither name is ever without a file. `OSError` where that
    fails: not each file system can do it."""
    names = os.fsencode(one), os.fsencode(other)
    if ctypes.CDLL(None, use_errno=True).renameat2(THIS_FOLDER, names[0], THIS_FOLDER, names[1], EXCHANGE) != 0:
        number = ctypes.get_errno()
        raise OSError(number, f"{os.strerror(number)}, as names are to be exchanged", str(one))


def overwrite(path: Path) -> None:
    """Overwrites a file with zeros, on the disk, and removes it. Of a link, and of a file that has another name too,
    the name alone is removed. `OSError` where that fails."""
    if not path.is_symlink():
        descriptor = os.open(path, os.O_WRONLY | os.O_NOFOLLOW)
        try:
            found = os.fstat(descriptor)
            left = found.st_size if found.st_nlink == 1 else 0
            while left:
                left -= os.write(descriptor, bytes(min(left, PIECE)))
            os.fsync(descriptor)
        finally:
            os.close(descriptor)
    path.unlink()
