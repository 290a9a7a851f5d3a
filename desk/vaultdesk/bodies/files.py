"""Calls of the system that a store in a folder is made of: no link is followed below the store's own folder."""

from __future__ import annotations

import contextlib
import ctypes
import os
import stat
from collections.abc import Iterator
from pathlib import Path

NEW = os.O_WRONLY | os.O_CREAT | os.O_EXCL | os.O_NOFOLLOW
READ = os.O_RDONLY | os.O_NOFOLLOW | os.O_NONBLOCK  # a pipe in a file's place keeps nobody waiting
FOLDER = os.O_RDONLY | os.O_DIRECTORY | os.O_NOFOLLOW
ZEROS = bytes(1_048_576)
# Of the C library; a system that lacks it has each file and folder synced by itself.
_SYNCFS = getattr(ctypes.CDLL(None, use_errno=True), "syncfs", None)


@contextlib.contextmanager
def opened(name: str | Path, flags: int, at: int | None = None, mode: int = 0o600) -> Iterator[int]:
    """The descriptor of what is opened, closed at the end of the `with` block. `OSError` where it can't be opened."""
    descriptor = os.open(name, flags, mode, dir_fd=at)
    try:
        yield descriptor
    finally:
        os.close(descriptor)


def make_folder(name: str, at: int) -> None:
    """A folder of mode 0700, unless it is there. `OSError` where it can't be made."""
    with contextlib.suppress(FileExistsError):
        os.mkdir(name, 0o700, dir_fd=at)


def write(descriptor: int, content: bytes) -> None:
    """Writes all of it. `OSError` where that fails."""
    rest = memoryview(content)
    while rest:
        rest = rest[os.write(descriptor, rest):]


def sync(name: str, flags: int, at: int) -> None:
    """Has a file or a folder on the disk. `OSError` where that fails."""
    with opened(name, flags, at) as descriptor:
        os.fsync(descriptor)


def can_sync_all() -> bool:
    """Whether a file system can be synced as a whole."""
    return _SYNCFS is not None


def sync_all(descriptor: int) -> None:
    """Has all of the file system on the disk on which that file is. `OSError` where a write to it failed since the file
    was opened."""
    if _SYNCFS(descriptor):  # type: ignore[misc]
        number = ctypes.get_errno()
        raise OSError(number, os.strerror(number))


def size_of(name: str, at: int) -> int | None:
    """The size of a file; none where it is a link, a folder or another thing. `FileNotFoundError` where it isn't
    there."""
    found = os.stat(name, dir_fd=at, follow_symlinks=False)
    return found.st_size if stat.S_ISREG(found.st_mode) else None


def _wipe_file(name: str, at: int) -> None:
    """Writes zeros over a file, on the disk. Its mode lets nobody write it before that, its owner included."""
    with opened(name, READ, at) as read:
        os.fchmod(read, 0o600)
        with opened(name, os.O_WRONLY | os.O_NOFOLLOW, at) as descriptor:
            left = os.fstat(descriptor).st_size
            while left:
                left -= os.write(descriptor, memoryview(ZEROS)[:left])
            os.fsync(descriptor)


def wipe(name: str, at: int) -> None:
    """Writes zeros over a file, or all below a folder, on the disk; the names stay. `OSError` where that fails."""
    mode = os.stat(name, dir_fd=at, follow_symlinks=False).st_mode
    if stat.S_ISREG(mode):
        _wipe_file(name, at)
    elif stat.S_ISDIR(mode):
        with opened(name, FOLDER, at) as below:
            for it in os.listdir(below):
                wipe(it, below)


def drop(name: str, at: int) -> None:
    """Takes away a file's name, or a folder with all below it. `OSError` where that fails."""
    if stat.S_ISDIR(os.stat(name, dir_fd=at, follow_symlinks=False).st_mode):
        with opened(name, FOLDER, at) as below:
            for it in os.listdir(below):
                drop(it, below)
        os.rmdir(name, dir_fd=at)
    else:
        os.unlink(name, dir_fd=at)


def last_change(name: str, at: int) -> float:
    """The latest moment at which something at or below that name was changed, in seconds since 1970."""
    found = os.stat(name, dir_fd=at, follow_symlinks=False)
    if not stat.S_ISDIR(found.st_mode):
        return found.st_mtime
    with opened(name, FOLDER, at) as below:
        return max([found.st_mtime, *(last_change(it, below) for it in os.listdir(below))])
