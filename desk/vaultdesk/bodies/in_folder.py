"""A store of bodies in a folder: `ab/cd/abcd…`, a file of mode 0400 each, in folders of mode 0700."""

from __future__ import annotations

import contextlib
import errno
import os
import re
import stat
from collections.abc import Callable, Iterator, Sequence
from functools import partial
from pathlib import Path

from vaultdesk.bodies import files, store
from vaultdesk.bodies.body import DIGEST, Altered, Body, Found, Missing
from vaultdesk.bodies.reader import Reader
from vaultdesk.bodies.store import ASIDE, INCOMING, LOCK, OF_DISKS, Added, Bodies, Received

FEW = 8  # bodies up to which each is synced by itself: a file system as a whole has what others write, too
OTHERS = (INCOMING, ASIDE, LOCK, f"{LOCK}.next", f"{LOCK}.erase", *OF_DISKS)  # what isn't of bodies in a store
PART = re.compile("[0-9a-f]{2}")  # the name of a folder
NO_FOLDER = (errno.ENOTDIR, errno.ELOOP)  # something else is in a folder's place
NO_FILE = (errno.ELOOP, errno.ENXIO)  # a link, or a socket, is in a file's place


def _altered(body: Body, why: str) -> Altered:
    return Altered(f"body {body.digest}: {why}")


class FolderBodies(Bodies):
    """A store in a folder."""

    def __init__(self, folder: Path, erased: Path) -> None:
        super().__init__(folder, erased)
        self._durable: set[str] = set()  # folders that are in their own folders on the disk

    @classmethod
    def make(cls, folder: Path, erased: Path) -> FolderBodies:
        """A new store. `DeskError` where something is in its place, or it can't be made."""
        store.make_folder(folder)
        return cls(folder, erased)

    # ---- the five calls

    def has(self, body: Body) -> bool:
        """Whether the body is there, by its name and size. `Altered` where something else is in its place."""
        with self._failing(self.folder):
            try:
                with self._place(body) as place:
                    size = files.size_of(body.digest, place)
            except FileNotFoundError:
                return False
        if size != body.size:
            raise _altered(body, "no file is in its place" if size is None else f"its file has {size:,} bytes")
        return True

    def open(self, body: Body) -> Reader:
        """A reader of the body. `Missing` where it isn't there, `Altered` where something else is in its place."""
        with self._failing(self.folder):
            try:
                with self._place(body) as place:
                    descriptor = _opened(body, place)
            except FileNotFoundError as error:
                raise Missing(f"body {body.digest}: it isn't in {self.folder}") from error
        return Reader(body, _reads(body, descriptor), partial(os.close, descriptor))

    def walk(self) -> Iterator[Found]:
        """All that is in the store, in no order; not what is coming in, nor what is being erased."""
        with self._failing(self.folder):
            for one in self._in_folder(self.folder, OTHERS):
                for two in self._in_folder(one) if _is_part(one) else [one]:
                    for it in self._in_folder(two) if _is_part(two) else [two]:
                        with contextlib.suppress(FileNotFoundError):  # it was erased meanwhile
                            yield self._found(it)

    def _in_folder(self, place: os.DirEntry[str] | Path, but: Sequence[str] = ()) -> Iterator[os.DirEntry[str]]:
        with os.scandir(place) as found:
            yield from (it for it in found if it.name not in but)

    def _found(self, entry: os.DirEntry[str]) -> Found:
        name = str(Path(entry.path).relative_to(self.folder))
        digest, is_file = entry.name, entry.is_file(follow_symlinks=False)
        is_body = DIGEST.fullmatch(digest) and name == _path_of(digest)
        size = entry.stat(follow_symlinks=False).st_size if is_file else None
        return Found(name, digest if is_body else None, size)

    # ---- into its place

    def settle(self, received: Sequence[Received]) -> list[Added]:
        """Has all that was received in its place, durably; who settles shares the lock until the bodies are named.

        `RuntimeError` where this thread doesn't; `DeskError` where it fails: then some may be there."""
        self._must_share()
        with self._failing(self.folder), self._inside(INCOMING) as incoming:
            names = [(it.name, os.O_RDONLY | os.O_NOFOLLOW, incoming) for it in received]
            self._sync(incoming, [partial(files.sync, *it) for it in names])
            added = [self._settle(it, incoming) for it in received]
            self._sync(incoming, [partial(self._sync_place, it.body) for it in received])
        return added

    def _settle(self, received: Received, incoming: int) -> Added:
        """What was received comes into its place, unless the body is there."""
        try:
            was = "there" if self.has(received.body) else "new"
        except Altered:
            was = "altered"
        if was == "there":
            os.unlink(received.name, dir_fd=incoming)
        else:
            self._make_place(received.body)
            with self._place(received.body) as place:
                try:
                    os.rename(received.name, received.body.digest, src_dir_fd=incoming, dst_dir_fd=place)
                except IsADirectoryError as error:
                    why = f"a folder is in its place, {_path_of(received.body.digest)}: take it away"
                    raise _altered(received.body, why) from error
        return Added(received.body, was)

    def _sync(self, folder: int, each: Sequence[Callable[[], None]]) -> None:
        """Syncs a few by themselves, and many by the file system that the folder is on."""
        if len(each) > FEW and files.can_sync_all():
            files.sync_all(folder)
            return
        for it in each:
            it()

    # ---- out of its place

    def _set_aside(self, doomed: Sequence[Body]) -> list[Body]:
        with self._failing(self.folder), self._inside(ASIDE) as aside:
            for it in doomed:
                with contextlib.suppress(FileNotFoundError), self._place(it) as place:
                    os.rename(it.digest, store.aside_name(it), src_dir_fd=place, dst_dir_fd=aside)
            os.fsync(aside)
            self._sync(aside, [partial(self._sync_place, it) for it in doomed])
        return []

    # ---- places

    @contextlib.contextmanager
    def _place(self, body: Body) -> Iterator[int]:
        """The folder of a body. `FileNotFoundError` where it isn't there, `Altered` where no folder is in its place."""
        try:
            with self._inside(body.digest[:2]) as one, files.opened(body.digest[2:4], files.FOLDER, one) as two:
                yield two
        except OSError as error:
            if error.errno in NO_FOLDER:
                raise _altered(body, "no folder is in the place of its folder") from error
            raise

    def _make_place(self, body: Body) -> None:
        with files.opened(self.folder, os.O_RDONLY | os.O_DIRECTORY) as top:
            files.make_folder(body.digest[:2], top)
            with files.opened(body.digest[:2], files.FOLDER, top) as one:
                files.make_folder(body.digest[2:4], one)

    def _sync_place(self, body: Body) -> None:
        """Has the name of a body on the disk: also where another process made it, and its folders, a moment ago."""
        with contextlib.suppress(FileNotFoundError), self._place(body) as place:
            os.fsync(place)
            if body.digest[:4] not in self._durable:
                with self._inside(body.digest[:2]) as one:
                    os.fsync(one)
                with files.opened(self.folder, os.O_RDONLY | os.O_DIRECTORY) as top:
                    os.fsync(top)
                self._durable.add(body.digest[:4])


def _path_of(digest: str) -> str:
    return f"{digest[:2]}/{digest[2:4]}/{digest}"


def _is_part(entry: os.DirEntry[str]) -> bool:
    return bool(PART.fullmatch(entry.name)) and entry.is_dir(follow_symlinks=False)


def _opened(body: Body, place: int) -> int:
    """The descriptor of a body's file, of its size. `Altered` where it is another thing, or has another size."""
    try:
        descriptor = os.open(body.digest, files.READ, dir_fd=place)
    except OSError as error:
        if error.errno in NO_FILE:
            raise _altered(body, "no file is in its place") from error
        raise
    found = os.fstat(descriptor)
    if stat.S_ISREG(found.st_mode) and found.st_size == body.size:
        return descriptor
    os.close(descriptor)
    is_file = stat.S_ISREG(found.st_mode)
    raise _altered(body, f"its file has {found.st_size:,} bytes" if is_file else "no file is in its place")


def _reads(body: Body, descriptor: int) -> Callable[[int], bytes]:
    """Reads a file. A part of it that the disk doesn't give any more is altered."""

    def read(most: int) -> bytes:
        try:
            return os.read(descriptor, most)
        except OSError as error:
            raise _altered(body, f"it can't be read: {error.strerror}") from error

    return read
