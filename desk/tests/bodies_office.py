"""A store of bodies for tests: in a folder, with a ledger that is a list; and calls of the system that are watched, or
stop at the n-th of them as a process does that is killed."""

from __future__ import annotations

import contextlib
import hashlib
import io
import os
import tempfile
import unittest
from collections.abc import Callable, Iterator
from pathlib import Path
from typing import Any
from unittest import mock

from tests.office import MEMORY
from vaultdesk.bodies import body, files
from vaultdesk.bodies.body import Body
from vaultdesk.bodies.in_folder import FolderBodies

IS_LONG = bool(os.environ.get("TRIALS_LONG"))
CALLS = (
    "open", "close", "read", "write", "fsync", "fchmod", "fstat", "stat", "mkdir", "rename", "unlink", "rmdir",
    "listdir",
)  # fmt: skip


class Stop(BaseException):
    """The process ends here; nothing of it runs any more."""


def body_of(content: bytes) -> Body:
    """The body that these bytes are."""
    return Body(hashlib.sha256(content).hexdigest(), len(content))


class Watched:
    """The calls of the system that the store makes. `before` and `after` are called with the name and the arguments of
    each, `after` with what it returned too; call number `stop_at` isn't made, and none after it."""

    def __init__(self, stop_at: int | None = None) -> None:
        self.count = 0
        self.stop_at = stop_at
        self.opened: set[int] = set()
        self.before: Callable[..., None] = lambda *_: None
        self.after: Callable[..., None] = lambda *_: None

    def _call(self, name: str, real: Callable[..., Any], args: tuple[Any, ...], named: dict[str, Any]) -> Any:
        self.count += 1
        if self.stop_at is not None and self.count >= self.stop_at:
            raise Stop
        self.before(name, args, named)
        found = real(*args, **named)
        if name == "open":
            self.opened.add(found)
        if name == "close":
            self.opened.discard(args[0])
        self.after(name, args, named, found)
        return found

    @contextlib.contextmanager
    def watching(self) -> Iterator[None]:
        """Watches within the `with` block; what a stop leaves open is closed at its end, as a process's end does."""

        def watched(name: str, real: Callable[..., Any]) -> Callable[..., Any]:
            return lambda *args, **named: self._call(name, real, args, named)

        with contextlib.ExitStack() as stack:
            stack.callback(self._close)
            for name in CALLS:
                stack.enter_context(mock.patch.object(os, name, watched(name, getattr(os, name))))
            stack.enter_context(mock.patch.object(files, "sync_all", watched("sync_all", files.sync_all)))
            yield

    def _close(self) -> None:
        for it in self.opened:
            with contextlib.suppress(OSError):
                os.close(it)


class BodiesTest(unittest.TestCase):
    """A store in a folder, and what the ledger holds."""

    def setUp(self) -> None:
        self.addCleanup(os.umask, os.umask(0o022))
        self.folder = Path(self.enterContext(tempfile.TemporaryDirectory(dir=MEMORY)))
        self.places = body.places_of(self.folder / "records.vault")
        self.bodies = FolderBodies.make(self.places.store, self.places.erased)
        self.named: set[Body] = set()

    def held(self) -> list[Body]:
        """The bodies of the versions that are held."""
        return list(self.named)

    @staticmethod
    def versions(digest: str) -> list[int]:
        """The versions that had a body."""
        return [int(digest[:4], 16), 99_999]

    def again(self) -> FolderBodies:
        """The store as another process finds it."""
        return FolderBodies(self.places.store, self.places.erased)

    def added(self, content: bytes, bodies: FolderBodies | None = None) -> Body:
        """The body of these bytes, added and named."""
        bodies = bodies or self.bodies
        with bodies.lock.shared():
            found = bodies.add(io.BytesIO(content)).body
            self.named.add(found)
        return found

    def path(self, it: Body) -> Path:
        """Where a body's file is."""
        return self.places.store / it.digest[:2] / it.digest[2:4] / it.digest

    def inside(self, name: str) -> list[str]:
        """What is in a folder of the store."""
        return os.listdir(self.places.store / name)

    def all_whole(self) -> dict[str, int]:
        """The bodies that are in their places, each of which has its digest: by these, the sizes."""
        there = {}
        for it in self.again().walk():
            assert it.digest and it.size is not None, it
            content = (self.places.store / it.name).read_bytes()
            self.assertEqual(hashlib.sha256(content).hexdigest(), it.digest, f"{it.name} isn't whole")
            there[it.digest] = it.size
        return there

    def records(self, path: Path) -> list[str]:
        """The lines of a record after the names of its columns."""
        return path.read_text(encoding="utf-8").splitlines()[1:] if path.exists() else []
