"""The lock of a store, which holds between processes and between threads."""

from __future__ import annotations

import contextlib
import fcntl
import os
import threading
from collections.abc import Iterator
from pathlib import Path

from vaultdesk.errors import of_file


@contextlib.contextmanager
def flocked(path: Path, how: int) -> Iterator[None]:
    """Has the lock of a file within the `with` block, and waits for it. `DeskError` where the file can't be opened."""
    try:
        descriptor = os.open(path, os.O_RDWR | os.O_CREAT | os.O_NOFOLLOW, 0o600)
    except OSError as error:
        raise of_file(path, error) from error
    try:
        fcntl.flock(descriptor, how)
        yield
    finally:
        os.close(descriptor)


class Lock:
    """Whoever adds bodies shares it until the line that names them is answered; whoever erases has it alone.

    Who wants it alone is next: they wait for those who share it, and whoever comes later waits for them."""

    def __init__(self, path: Path) -> None:
        self.path = path
        self._next = path.with_name(f"{path.name}.next")
        self._mine = threading.local()

    @property
    def is_shared(self) -> bool:
        """Whether this thread shares it, or has it alone."""
        return bool(getattr(self._mine, "is_held", False))

    @contextlib.contextmanager
    def _held(self, how: int) -> Iterator[None]:
        with contextlib.ExitStack() as stack:
            with flocked(self._next, how):
                stack.enter_context(flocked(self.path, how))
            self._mine.is_held = True
            try:
                yield
            finally:
                self._mine.is_held = False

    @contextlib.contextmanager
    def shared(self) -> Iterator[None]:
        """Shares it within the `with` block; a thread may do so again within. `DeskError` where it can't be opened."""
        if self.is_shared:
            yield
            return
        with self._held(fcntl.LOCK_SH):
            yield

    @contextlib.contextmanager
    def alone(self) -> Iterator[None]:
        """Has it alone within the `with` block. `RuntimeError` in a thread that holds it, which would wait for
        itself; `DeskError` where it can't be opened."""
        if self.is_shared:
            raise RuntimeError("this thread holds the lock of the store")
        with self._held(fcntl.LOCK_EX):
            yield
