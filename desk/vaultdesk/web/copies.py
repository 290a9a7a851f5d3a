"""Copies of the vault for what is read from its tables: one for all who ask until the vault is changed.

A server has the vault's files open, so lists and pasts are read from a copy, as the desk reads them. Here many ask at
once: they read the same copy, which goes with the last of them once there is a newer one. Where the vault is changed
all the time, those who wait for a copy share the next one: it was begun after each of them had asked.
"""

from __future__ import annotations

import tempfile
import threading
import time
from pathlib import Path
from typing import Any

from vaultdesk import reading, snapshot
from vaultdesk.errors import EngineError

Stamp = tuple[tuple[int, int, int], ...]
TICK = 50_000_000  # nanoseconds within which two changes of a file may have one moment


class Copy:
    """A copy, and how many read it. `begun` is when it was, in seconds of the machine; `known` has what was read of it
    once, by names."""

    def __init__(
        self, begun: float, stamp: Stamp, is_settled: bool, folder: tempfile.TemporaryDirectory[str], file: Path
    ) -> None:
        self.begun = begun
        self.stamp = stamp
        self.is_settled = is_settled
        self.folder = folder
        self.file = file
        self.readers = 0
        self.known: dict[str, Any] = {}


def stamp_of(file: Path) -> Stamp:
    """What a vault's files are by, as long as nothing is changed: `EngineError` where they can't be looked at."""
    found = []
    for it in (file, snapshot.log_of(file)):
        try:
            there = it.stat()
            found.append((there.st_ino, there.st_size, there.st_mtime_ns))
        except FileNotFoundError:
            found.append((0, 0, 0))
        except OSError as error:
            raise EngineError(f"{it}: {error.strerror}: the pages have to be of the vault's owner") from error
    return tuple(found)


class Copies:
    """The newest copy of a vault, and older ones that are read still."""

    def __init__(self, file: Path) -> None:
        self.file = file
        self._turn = threading.Lock()
        self._newest: Copy | None = None

    def take(self) -> Copy:
        """A copy of the vault as it is now, or was after this was asked for; it stays until it is given back.
        `EngineError` as of `snapshot.copy`."""
        asked = time.monotonic()
        with self._turn:
            if self._newest is None or not (self._newest.begun >= asked or self._is_fresh(self._newest)):
                made = self._made(time.monotonic())
                old, self._newest = self._newest, made
                if old is not None and not old.readers:
                    old.folder.cleanup()
            self._newest.readers += 1
            return self._newest

    def give_back(self, copy: Copy) -> None:
        """Ends the reading of a copy."""
        with self._turn:
            copy.readers -= 1
            if not copy.readers and copy is not self._newest:
                copy.folder.cleanup()

    def close(self) -> None:
        """Removes the newest copy."""
        with self._turn:
            if self._newest is not None and not self._newest.readers:
                self._newest.folder.cleanup()
            self._newest = None

    def _is_fresh(self, copy: Copy) -> bool:
        return copy.is_settled and copy.stamp == stamp_of(self.file)

    def _made(self, begun: float) -> Copy:
        reading.look_for(self.file)
        before, now = stamp_of(self.file), time.time_ns()
        snapshot.look_for_room(Path(tempfile.gettempdir()), snapshot.size_of(self.file))
        folder = tempfile.TemporaryDirectory(prefix="vaultdesk-web-")
        target = Path(folder.name) / self.file.name
        try:
            snapshot.copy(self.file, target)
            reading.take_in_log(target, is_kept=False)
        except BaseException:
            folder.cleanup()
            raise
        is_settled = all(now - moment > TICK for _, _, moment in before)
        return Copy(begun, before, is_settled, folder, target)
