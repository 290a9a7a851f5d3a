"""What happened to one version: its events, and the lock that it had at a moment."""

from __future__ import annotations

import csv
import io
from collections.abc import Callable, Iterable, Mapping, Sequence
from dataclasses import dataclass
from itertools import groupby
from pathlib import Path
from typing import Any

from vaultdesk import reading
from vaultdesk.engine import Engine
from vaultdesk.errors import DeskError


@dataclass(frozen=True)
class Event:
    """A record of the events (docs/formats/TEXTS.md), each cell as it is there."""

    version: int
    event: str
    moment: str
    by: str
    bucket: str
    key: str
    kind: str
    size: int
    sha256: str
    mode: str
    until: str
    hold: str
    bypass: str
    cause: str
    department: str
    move: str

    @property
    def who(self) -> str:
        """Who did it: a caller, `rule ID`, or `-` of a move, of which the tables don't say."""
        if self.event == "removed" and self.cause == "rule":
            return f"rule {self.by}"
        return self.by or "-"

    @property
    def retention(self) -> str:
        """The retention that was set, as `COMPLIANCE until 2034-01-01T00:00:00Z`; empty where there is none."""
        return f"{self.mode} until {self.until}" if self.mode else ""

    def in_force(self, at: str) -> bool:
        """Whether the retention that was set is in force at that moment."""
        return bool(self.mode) and at < self.until


def _event(row: Mapping[str, Any]) -> Event:
    cells = {name: str(row[name]) for name in Event.__annotations__}
    return Event(**{**cells, "version": int(row["version"]), "size": int(row["size"])})  # type: ignore[arg-type]


def _in_time(rows: Iterable[Mapping[str, Any]]) -> list[Event]:
    """The events of these rows in the order of time: of each version the rows have the settings before the moves."""
    return sorted(map(_event, rows), key=lambda it: it.moment)


def _printed(engine: Engine) -> Iterable[Mapping[str, str]]:
    """The events of all versions, as the engine prints them after an audit of the file."""
    # Split at LF alone: keys may have other characters that end a line elsewhere.
    return csv.DictReader(io.StringIO(engine.printed("events"), newline=""))


def of_all(engine: Engine) -> dict[int, list[Event]]:
    """All that happened to each version, in the order of time, as the engine prints it after an audit of the file.

    `EngineError` where the file isn't sound or can't be opened."""
    grouped = groupby(_printed(engine), lambda it: int(it["version"]))
    return {version: _in_time(rows) for version, rows in grouped}


def of_version(engine: Engine, version: int) -> list[Event]:
    """All that happened to a version, in the order of time, as the engine prints it after an audit of the file.

    `DeskError` where the vault has none of that number, `EngineError` where the file isn't sound or can't be opened."""
    found = _in_time(it for it in _printed(engine) if it["version"] == str(version))
    if not found:
        raise DeskError(f"no version of this vault has the number {version}: vaultdesk find lists those there are")
    return found


def in_tables(file: Path, version: int) -> list[Event]:
    """The same, read from the tables by the auditor's query: for answers that don't rest on the engine.

    `DeskError` where the vault has none of that number."""
    return _in_time(reading.query(file, "events", id=version, before=None))


def up_to(found: Sequence[Event], at: str) -> list[Event]:
    """What had happened at that moment, of itself too."""
    return [it for it in found if it.moment <= at]


def _since(settings: Sequence[Event], is_same: Callable[[Event], bool]) -> Event:
    """The first of the settings at the end that are all the same."""
    first = settings[-1]
    for it in reversed(settings):
        if not is_same(it):
            break
        first = it
    return first


@dataclass(frozen=True)
class Guards:
    """What guarded a version at a moment, and by which settings: none of a marker, or before the admission.

    `lock` is the setting that counted, `retained` the one that made the retention what it was, `mode_since` the first
    with its mode from which on it was never another, and `held_since` the one that put the legal hold on."""

    at: str
    removed: Event | None
    department: str
    lock: Event | None = None
    retained: Event | None = None
    mode_since: Event | None = None
    held_since: Event | None = None


def guards_at(found: Sequence[Event], at: str) -> Guards:
    """What guarded the version of these events at that moment."""
    before = up_to(found, at)
    removed = next((it for it in before if it.event == "removed"), None)
    department = next((it.department for it in reversed(before) if it.department), "")
    settings = [it for it in before if it.event == "locked"]
    if not settings:
        return Guards(at, removed, department)
    last = settings[-1]
    if not last.mode:
        retained = mode_since = None
    else:
        retained = _since(settings, lambda it: it.retention == last.retention)
        mode_since = _since(settings, lambda it: it.mode == last.mode)
    held_since = _since(settings, lambda it: it.hold == "ON") if last.hold == "ON" else None
    return Guards(at, removed, department, last, retained, mode_since, held_since)
