"""What ends a subcommand before its end, each with the exit status that the program gives it."""

from __future__ import annotations

import errno

# What to do where a file can't be read or written, by the number of the system's error.
REMEDIES = {
    errno.ENOENT: "check every letter of the path",
    errno.EISDIR: "give the path of a file",
    errno.ENOTDIR: "give the path of a folder",
    errno.EEXIST: "a file is in that place: give another path",
    errno.EACCES: "ask as a user who may use it",
    errno.ENAMETOOLONG: "give a shorter name",
    errno.ENOSPC: "make room on the disk",
}


class DeskError(Exception):
    """A subcommand that wasn't done. The text says why, and what to do."""

    status = 1


def of_file(path: object, error: OSError) -> DeskError:
    """Says that a file or a folder can't be read or written, why, and what to do."""
    remedy = REMEDIES.get(error.errno or 0)
    return DeskError(f"{path}: {error.strerror}" + (f": {remedy}" if remedy else ""))


class UsageError(DeskError):
    """Words that aren't understood."""

    status = 2


class EngineError(DeskError):
    """The engine gave no reply: it couldn't be started, it couldn't open the vault, or it ended."""


class Refused(DeskError):
    """The engine refused a line. `code`, `number` and `reason` are those of its reply; `is_below_marker` says that a
    delete marker is on top of the key."""

    def __init__(self, code: str, number: int, reason: str, text: str, is_below_marker: bool = False) -> None:
        super().__init__(text)
        self.code = code
        self.number = number
        self.reason = reason
        self.is_below_marker = is_below_marker
