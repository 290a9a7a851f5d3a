"""Whether what a vault's versions have outside of its tables is in a folder: a file each, named by its SHA-256.

A body is looked for at `ab/cd/abcd..`, with the 64 hex digits of the digest that is registered. Versions may have one
body; its bytes are read once, and a block at a time.
"""

import errno
import hashlib
import io
import itertools
import os
import pathlib
import sqlite3
import stat
from typing import Iterator, NamedTuple, Optional, Sequence

from vault_recheck.vault import Body, bodies_of

# What is in the place of a body: a link or a socket can't be opened as a file, and a folder has no bytes.
NO_FILE = (errno.ELOOP, errno.ENXIO, errno.EISDIR)


class Found(NamedTuple):
    """What was found of a version's body: `there`, `missing`, `differs` or `unread`, and why."""

    id: int
    state: str
    why: str = ""

    def text(self) -> str:
        return f"{self.state} version {self.id}: {self.why}"


def path_of(digest: bytes) -> str:
    """Where a body is in its folder."""
    name = digest.hex()
    return f"{name[:2]}/{name[2:4]}/{name}"


def opened(path: pathlib.Path) -> io.BufferedReader:
    """A file to be read. No link is followed in its place, and a pipe there keeps nobody waiting."""
    flags = os.O_RDONLY | os.O_CLOEXEC | os.O_NOFOLLOW | os.O_NONBLOCK
    return open(path, "rb", opener=lambda name, _: os.open(name, flags))


def found_in(file: io.BufferedReader, versions: Sequence[Body], place: str) -> Iterator[Found]:
    """What a file is to the versions of one digest. It is read where it has the size of one of them."""
    facts = os.fstat(file.fileno())
    if not stat.S_ISREG(facts.st_mode):
        yield from (Found(it.id, "differs", f"{place} is no file") for it in versions)
        return
    digest: Optional[bytes] = None
    for it in versions:
        if facts.st_size != it.size:
            yield Found(it.id, "differs", f"{place} has {facts.st_size} bytes, and the version has {it.size}")
            continue
        digest = digest or hashlib.file_digest(file, "sha256").digest()
        same = digest == it.digest
        yield Found(it.id, "there") if same else Found(it.id, "differs", f"{place} has the digest {digest.hex()}")


def found_of(folder: pathlib.Path, digest: bytes, versions: Sequence[Body]) -> list[Found]:
    """What is in the folder of the versions of one digest."""
    place = path_of(digest)
    try:
        with opened(folder / place) as file:
            return list(found_in(file, versions, place))
    except (FileNotFoundError, NotADirectoryError):
        return [Found(it.id, "missing", f"there is no {place}") for it in versions]
    except OSError as error:
        is_other = error.errno in NO_FILE
        state, why = ("differs", f"{place} is no file") if is_other else ("unread", f"{place}: {error.strerror}")
        return [Found(it.id, state, why) for it in versions]


def look(base: sqlite3.Connection, folder: pathlib.Path) -> Iterator[Found]:
    """What is in the folder of each held version that is kept outside."""
    for digest, versions in itertools.groupby(bodies_of(base), lambda it: it.digest):
        yield from found_of(folder, digest, list(versions))
