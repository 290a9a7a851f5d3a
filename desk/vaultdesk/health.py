"""Whether a server still changes its vault: whether the files are where it opened them, and how often one failed."""

from __future__ import annotations

import contextlib
from dataclasses import dataclass
from pathlib import Path

from vaultdesk import snapshot
from vaultdesk.door import LinesDoor
from vaultdesk.errors import DeskError

PROCESSES = Path("/proc")


@dataclass(frozen=True)
class Health:
    """Which of a vault's files aren't where its server opened them, how often a file failed since the server was
    started, and why that isn't known: `failures` is none then, and `unknown` is empty where there is no door to ask."""

    moved: tuple[Path, ...] = ()
    failures: int | None = None
    unknown: str = ""

    def fault(self, unit: str) -> str:
        """What is wrong, and what to do about it; empty where nothing is."""
        anew = f"start the server anew: systemctl restart {unit}" if unit else "start the server anew"
        if self.moved:
            names = " and ".join(map(str, self.moved))
            cause = "not where the server opened it, so every change is refused: moved, removed or replaced"
            return f"{names}: {cause}. Put it back before the server is stopped, and then {anew}"
        if self.failures:
            times = "once" if self.failures == 1 else f"{self.failures} times"
            cause = f"the vault's file failed {times} since the server was started, and changes may still be refused"
            return f"{cause}. See that its files are in their place, and that the disk works and has room; then {anew}"
        return ""


def _opened_by(process: int) -> set[tuple[int, int]]:
    """The device and the inode of each file that a process has open. `OSError` where that can't be seen."""
    found = set()
    for it in (PROCESSES / str(process) / "fd").iterdir():
        with contextlib.suppress(FileNotFoundError):
            there = it.stat()
            found.add((there.st_dev, there.st_ino))
    return found


def _serves(process: int) -> bool:
    """Whether a process is `vaultctl serve`: another program may stand for a server."""
    try:
        words = (PROCESSES / str(process) / "cmdline").read_bytes().split(b"\0")
    except OSError:
        return False
    return words[1:2] == [b"serve"]


def _is_one_of(file: Path, opened: set[tuple[int, int]]) -> bool:
    try:
        there = file.stat()
    except FileNotFoundError:
        return False
    return (there.st_dev, there.st_ino) in opened


def moved(file: Path, process: int | None) -> tuple[Path, ...]:
    """Which of a vault's two files aren't where that server opened them.

    Of a server whose process isn't known, or not this user's to look at, it is seen only that the file is gone."""
    try:
        if process is not None and _serves(process):
            opened = _opened_by(process)
            return tuple(it for it in (file, snapshot.log_of(file)) if not _is_one_of(it, opened))
    except OSError:
        pass
    try:
        file.stat()
    except FileNotFoundError:
        return (file,)
    except OSError:
        return ()
    return ()


def health_of(file: Path, door: LinesDoor, caller: str, process: int | None = None) -> Health:
    """How a vault's server is, which is that process where its door doesn't say which one listens there."""
    try:
        if not door.is_there():
            return Health(moved(file, process))
        away = moved(file, door.process() or process)
        return Health(away, int(door.ask(caller, "status")["failures"]))
    except DeskError as error:
        return Health(moved(file, process), None, str(error))
