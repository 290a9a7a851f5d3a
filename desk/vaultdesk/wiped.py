"""When a vault's file was wiped: in `NAME.wiped` beside `NAME.vault`, a JSON list of wipes.

Each wipe raises a number that the file has, SQLite's `user_version`, and that copies of it have too. So a wipe counts
for the file that it made and for its later copies; a file of a lower number is older, or was put back.
"""

from __future__ import annotations

import json
from collections.abc import Sequence
from dataclasses import dataclass
from pathlib import Path

from vaultdesk.replacing import write_anew

LEFT = "The bytes stay readable in the vault's file until vaultdesk wipe, and in older copies."
NUMBER = slice(60, 64)  # where the head of a file of SQLite has `user_version`


@dataclass(frozen=True)
class Wipe:
    """A wipe: when it was done, by the machine's clock; the vault's last moment then, and the versions that were
    removed at just that one; and the file's number since."""

    done: str
    last: str
    at_last: frozenset[int]
    number: int

    def has(self, version: int, removed: str) -> bool:
        """Whether a version that was removed at that moment was removed before the wipe."""
        return removed < self.last or removed == self.last and version in self.at_last


@dataclass(frozen=True)
class Wipes:
    """The wipes that count for a file, the earliest first."""

    wipes: Sequence[Wipe] = ()

    def when(self, version: object, removed: str) -> str:
        """When the bytes of a version that was removed at that moment were wiped from the file; empty where that isn't
        noted."""
        return next((it.done for it in self.wipes if it.has(int(str(version)), removed)), "")

    @property
    def last(self) -> str:
        """When the file was wiped last; empty where that isn't noted."""
        return self.wipes[-1].done if self.wipes else ""


def path_of(file: Path) -> Path:
    """Where the wipes of a vault are noted."""
    real = file.resolve()
    return real.with_name(f"{real.name.removesuffix('.vault')}.wiped")


def number_of(file: Path) -> int:
    """How often a vault's file was wiped, by itself, also while a program has it; 0 where that can't be read."""
    try:
        with file.open("rb") as opened:
            return int.from_bytes(opened.read(NUMBER.stop)[NUMBER], "big")
    except OSError:
        return 0


def _noted(file: Path) -> list[Wipe]:
    """All that is noted; nothing where that can't be read."""
    try:
        found = json.loads(path_of(file).read_text(encoding="utf-8"))
        return [Wipe(it["done"], it["last"], frozenset(it["at_last"]), it["number"]) for it in found]
    except (OSError, ValueError, TypeError, KeyError):
        return []


def of(file: Path, copy: Path | None = None) -> Wipes:
    """The wipes that are noted beside a vault and count for its file, or for a copy of it."""
    number = number_of(copy or file)
    return Wipes([it for it in _noted(file) if it.number <= number])


def note(file: Path, wipe: Wipe) -> None:
    """Notes a wipe of a vault's file; what is noted of a file that was there before an older one was put back goes.

    `DeskError` where that can't be written."""
    noted = [*(it for it in _noted(file) if it.number < wipe.number), wipe]
    rows = [{"done": it.done, "last": it.last, "at_last": sorted(it.at_last), "number": it.number} for it in noted]
    write_anew(path_of(file), json.dumps(rows) + "\n", lambda _: None)
