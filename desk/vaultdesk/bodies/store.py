"""What each store of bodies does: five calls, of which two are in two steps, so that no lock is held for long.

`add` is `receive`, which may take as long as its client, and `settle`, under the shared lock. `erase` first takes the
bodies out of their places, under the lock alone, and then wipes them: a stop in between leaves no half of a body in a
place where the next who adds it would find it.
"""

from __future__ import annotations

import abc
import contextlib
import fcntl
import hashlib
import os
import secrets
import time
from collections.abc import Callable, Iterable, Iterator, Sequence
from dataclasses import dataclass
from pathlib import Path

from vaultdesk import disk, moments
from vaultdesk.bodies import files, reader, records
from vaultdesk.bodies.body import DIGEST, MOST, PIECE, Altered, Body, Found, Source, Versions
from vaultdesk.bodies.lock import Lock, flocked
from vaultdesk.bodies.reader import Reader
from vaultdesk.bodies.records import Erased
from vaultdesk.errors import DeskError, of_file

INCOMING, ASIDE, LOCK = "incoming", "aside", "lock"
OF_DISKS = ("lost+found",)  # what a file system has at its top
DAYS = 7  # that something incoming is kept
AT_ONCE = 256  # erased bodies whose records are appended together


@dataclass(frozen=True)
class Received:
    """A body that came, and isn't settled yet: in that file of `incoming`, and locked until that moment, if any."""

    body: Body
    name: str
    until: str | None = None


@dataclass(frozen=True)
class Added:
    """A body that is in its place. `was` says what was there before: nothing (`new`), the body by its size (`there`),
    or something else in whose place it came (`altered`)."""

    body: Body
    was: str


@dataclass(frozen=True)
class Erasure:
    """The bodies that were erased, and those that their store guards still."""

    done: list[Body]
    locked: list[Body]


class Bodies(abc.ABC):
    """A store of bodies. `folder` has what is coming in and what is being erased, `erased` is the record of that.

    `DeskError` where the folder isn't there: as a disk that isn't mounted is no empty store, only `make` makes one."""

    def __init__(self, folder: Path, erased: Path) -> None:
        self.folder = folder
        self.erased = erased
        self.lock = Lock(folder / LOCK)
        missing = next((it for it in (folder, folder / INCOMING, folder / ASIDE) if not it.is_dir()), None)
        if missing:
            raise DeskError(f"{missing}: the store of bodies isn't there: is its disk mounted?")

    # ---- the five calls

    @abc.abstractmethod
    def has(self, body: Body) -> bool:
        """Whether the body is there, by its name and size. `Altered` where something else is in its place."""

    @abc.abstractmethod
    def open(self, body: Body) -> Reader:
        """A reader of the body. `Missing` where it isn't there, `Altered` where something else is in its place."""

    @abc.abstractmethod
    def walk(self) -> Iterator[Found]:
        """All that is in the store, in no order; not what is coming in, nor what is being erased."""

    def add(self, source: Source, wanted: Body | None = None, until: str | None = None) -> Added:
        """Adds what comes from a source, durably, where it isn't there already; who adds shares the lock.

        `Altered` where it isn't the body that is wanted; `DeskError` where it has more than 5 GiB, or can't be
        written: then nothing is added."""
        return self._added(self.receive(it, wanted, until) for it in (source,))[0]

    def add_all(self, sources: Iterable[Source]) -> list[Added]:
        """Adds all of them, each as `add` does: first all bodies are synced at once, and then all folders."""
        return self._added(map(self.receive, sources))

    def erase(self, choose: Callable[[], Iterable[Body]], versions: Versions) -> Erasure:
        """Erases what is chosen, and what a stop left of an earlier call, with a record of each.

        `choose` is called while nobody adds. `DeskError` where something can't be wiped, after all else was, or where
        a record can't be written. After a stop in between a body may have its record twice."""
        with flocked(self.folder / f"{LOCK}.erase", fcntl.LOCK_EX):
            with self.lock.alone():
                locked = self._set_aside(list(choose()))
            return Erasure(self._wipe_aside(versions), locked)

    # ---- what they are made of

    def receive(self, source: Source, wanted: Body | None = None, until: str | None = None) -> Received:
        """Takes in what comes from a source, one piece in memory at a time. It needs no lock, and adds nothing yet."""
        name = f"in-{secrets.token_hex(16)}"
        with contextlib.ExitStack() as stack:
            with self._failing(self.folder / INCOMING):
                folder = stack.enter_context(self._inside(INCOMING))
                descriptor = stack.enter_context(files.opened(name, files.NEW, folder))
            try:
                body = self._taken(source, descriptor)
                if wanted and body != wanted:
                    raise Altered(f"body {wanted.digest}: what came has another SHA-256 or size")
            except BaseException:
                with contextlib.suppress(OSError):
                    os.unlink(name, dir_fd=folder)
                raise
        return Received(body, name, until)

    def _taken(self, source: Source, descriptor: int) -> Body:
        """Writes all that comes from a source to a file, and says which body it is. An error of the source is its
        own."""
        digest, size = hashlib.sha256(), 0
        while piece := source.read(PIECE):
            size += len(piece)
            if size > MOST:
                raise DeskError(f"a document has at most {MOST:,} bytes, and more came")
            digest.update(piece)
            with self._failing(self.folder / INCOMING):
                files.write(descriptor, piece)
        with self._failing(self.folder / INCOMING):
            os.fchmod(descriptor, 0o400)
        return Body(digest.hexdigest(), size)

    def _added(self, coming: Iterable[Received]) -> list[Added]:
        """Settles what comes. Where that fails, nothing is left of it in `incoming`, as the disk may be full."""
        received = list[Received]()
        try:
            for it in coming:
                received.append(it)
            return self.settle(received)
        except BaseException:
            for it in received:
                with contextlib.suppress(DeskError):  # it is in its place
                    self.drop(it)
            raise

    @abc.abstractmethod
    def settle(self, received: Sequence[Received]) -> list[Added]:
        """Has all that was received in its place, durably; who settles shares the lock until the bodies are named.

        `RuntimeError` where this thread doesn't; `DeskError` where it fails: then some may be there."""

    def keep(self, body: Body, until: str | None) -> None:
        """Guards a body until a moment, where the store can: never for less time than before. This one can't."""

    def drop(self, received: Received) -> None:
        """Removes what was received. `DeskError` where that fails."""
        with self._failing(self.folder / INCOMING), self._inside(INCOMING) as folder:
            os.unlink(received.name, dir_fd=folder)

    def copy_to(self, body: Body, path: Path) -> None:
        """Writes a body to a file, which takes its name only once all of it agrees. `Missing` where it isn't there,
        `Altered` where it isn't the body, `DeskError` where the file can't be written."""
        with self.open(body) as found:
            reader.copy(found, path)

    @abc.abstractmethod
    def _set_aside(self, doomed: Sequence[Body]) -> list[Body]:
        """Takes bodies out of their places, durably; each is in `aside` then, a file `DIGEST.SIZE.…`. Returns those
        that stay, as the store guards them."""

    def set_old_aside(self, now: float | None = None) -> int:
        """Has what is incoming and wasn't changed for seven days erased with the next bodies; returns how many these
        are. The lock is the caller's alone."""
        oldest = (now or time.time()) - DAYS * 86_400
        with self._failing(self.folder), self._inside(INCOMING) as incoming, self._inside(ASIDE) as aside:
            old = [it for it in os.listdir(incoming) if _is_older(it, oldest, incoming)]
            for it in old:
                os.rename(it, f"old.{secrets.token_hex(8)}", src_dir_fd=incoming, dst_dir_fd=aside)
            os.fsync(aside)
            os.fsync(incoming)
            return len(old)

    def _wipe_aside(self, versions: Versions) -> list[Body]:
        """Wipes all that is aside, some at once, and returns the bodies among it."""
        wiped, failed = list[Body](), list[OSError]()
        with self._failing(self.folder / ASIDE), self._inside(ASIDE) as aside:
            names = os.listdir(aside)
            for first in range(0, len(names), AT_ONCE):
                wiped += self._wipe(names[first:first + AT_ONCE], aside, versions, failed)
        if failed:
            raise of_file(self.folder / ASIDE, failed[0])
        return wiped

    def _wipe(self, names: Sequence[str], aside: int, versions: Versions, failed: list[OSError]) -> list[Body]:
        """Zeros, then the record, and then the name goes: so no body goes without its record."""
        done = []
        for it in names:
            try:
                files.wipe(it, aside)
                done.append(it)
            except OSError as error:
                failed.append(error)
        bodies = [body for it in done if (body := aside_body(it))]
        lines = [(it, " ".join(map(str, versions(it.digest)))) for it in bodies]
        records.append(self.erased, [Erased(moments.now(), it.digest, it.size, text) for it, text in lines])
        for it in done:
            files.drop(it, aside)
        os.fsync(aside)
        return bodies

    # ---- its folder

    @contextlib.contextmanager
    def _inside(self, name: str) -> Iterator[int]:
        """The descriptor of one of its folders."""
        with files.opened(self.folder, os.O_RDONLY | os.O_DIRECTORY) as store:
            with files.opened(name, files.FOLDER, store) as found:
                yield found

    @contextlib.contextmanager
    def _failing(self, path: Path) -> Iterator[None]:
        """An error of the system within is a `DeskError` of that path."""
        try:
            yield
        except OSError as error:
            raise of_file(path, error) from error

    def _must_share(self) -> None:
        """`RuntimeError` where this thread doesn't hold the lock: a sweep could take what it settles."""
        if not self.lock.is_shared:
            raise RuntimeError("bodies are settled under the lock of their store, until they are named")


def make_folder(folder: Path) -> None:
    """Makes the folder of a store, of mode 0700; a disk of its own may be there. `DeskError` where something else is in
    it, or it can't be made."""
    try:
        folder.mkdir(0o700, exist_ok=True)
        if not {it.name for it in folder.iterdir()} <= {INCOMING, ASIDE, *OF_DISKS}:
            raise DeskError(f"{folder}: something is in it: a new store of bodies has a folder of its own")
        folder.chmod(0o700)
        for it in (INCOMING, ASIDE):
            (folder / it).mkdir(0o700, exist_ok=True)
        disk.sync(folder, folder.absolute().parent)
    except OSError as error:
        raise of_file(folder, error) from error


def _is_older(name: str, moment: float, at: int) -> bool:
    """Whether what has that name wasn't changed since a moment. What its client gave up meanwhile isn't there."""
    try:
        return files.last_change(name, at) < moment
    except FileNotFoundError:
        return False


def aside_name(body: Body) -> str:
    """A new name for a body that is aside."""
    return f"{body.digest}.{body.size}.{secrets.token_hex(8)}"


def aside_body(name: str) -> Body | None:
    """The body that is aside under that name; none where it is something else."""
    digest, _, rest = name.partition(".")
    size = rest.partition(".")[0]
    return Body(digest, int(size)) if DIGEST.fullmatch(digest) and size.isdecimal() else None
