"""Classes of records: how long their documents are kept, from when on, in which mode, and by which authority."""

from __future__ import annotations

import datetime as dt
from collections.abc import Mapping
from dataclasses import dataclass
from pathlib import Path
from typing import Any

from vaultdesk import dates, inventory, moments
from vaultdesk.columns import NAMES, OF_CLASSES
from vaultdesk.errors import DeskError, UsageError
from vaultdesk.output import say

MOST_YEARS = 1_000  # of a class
PERMANENT = ("permanent", "unlimited", "dauernd")  # in the place of a class's years
MODES = ("GOVERNANCE", "COMPLIANCE")
DATE, EVENT = TRIGGERS = ("date", "event")
COLUMNS = ("class", "years", "mode", "trigger", "authority")  # of a schedule
MEANINGS = {**NAMES, "trigger": "trigger", "beginn": "trigger", "authority": "authority", "grundlage": "authority"}
WAITING = "GOVERNANCE"  # the mode of what waits for its event, whose end isn't known


@dataclass(frozen=True)
class Class:
    """How long documents of a class are kept: up to the first January after that many whole years, or for ever; from
    the document's date, or from an event. `schedule` is the version of the schedule that has it."""

    years: int | None
    mode: str
    trigger: str = DATE
    authority: str = ""
    schedule: int = 0

    @property
    def cells(self) -> tuple[str, str, str, str]:
        """Its cells in a schedule, after its name."""
        return "permanent" if self.years is None else str(self.years), self.mode, self.trigger, self.authority

    def as_json(self) -> dict[str, Any]:
        """What is noted with a document of the class, so that it counts for it whatever the schedule says later."""
        years, mode, trigger, authority = self.cells
        known = {"years": years, "mode": mode, "trigger": trigger, "authority": authority}
        return {**known, "schedule": self.schedule}


def of_json(found: Mapping[str, Any]) -> Class:
    """The class of which a document's facts have this. `ValueError` where they don't."""
    years = str(found.get("years", ""))
    if years != "permanent" and not years.isdecimal():
        raise ValueError(years)
    mode, trigger, authority = (str(found.get(it, "")) for it in ("mode", "trigger", "authority"))
    return Class(None if years == "permanent" else int(years), mode, trigger, authority, int(found.get("schedule", 0)))


def _of_row(row: inventory.Row, place: str) -> Class:
    """The class of a row. `DeskError` where a cell isn't right."""
    name, years, mode = (row.cells[it] for it in OF_CLASSES)
    trigger, authority = row.cells.get("trigger", "").casefold() or DATE, row.cells.get("authority", "")
    where = f"{place}: row {row.number}: class {name!r}"
    is_number = years.isascii() and years.isdecimal() and int(years) <= MOST_YEARS
    if not is_number and years.casefold() not in PERMANENT or mode not in MODES:
        why = f"years is a number up to {MOST_YEARS:,}, or permanent, and mode GOVERNANCE or COMPLIANCE"
        raise DeskError(f"{where}: {why}")
    if trigger not in TRIGGERS or trigger == EVENT and not is_number:
        raise DeskError(f"{where}: trigger is date or event, and what is permanent waits for no event")
    return Class(int(years) if is_number else None, mode, trigger, authority)


def read(path: Path, is_schedule: bool = False) -> dict[str, Class]:
    """The classes of a file with the columns class, years and mode; of a schedule also trigger and authority.

    `DeskError` where a cell isn't right."""
    meanings, columns = (MEANINGS, COLUMNS) if is_schedule else (NAMES, OF_CLASSES)
    found: dict[str, Class] = {}
    given = inventory.listed(path, OF_CLASSES, meanings)
    unused = inventory.unknown(given, meanings, columns)
    if unused:
        say(f"{given.place}: columns that aren't used: {', '.join(map(repr, unused))}")
    for row in inventory.rows(given, meanings, columns):
        name = row.cells["class"]
        if name in found:
            raise DeskError(f"{given.place}: row {row.number}: class {name!r} comes twice")
        found[name] = _of_row(row, given.place)
    return found


def end_of(kept: Class, begun: dt.date | None) -> str:
    """The end of a class's retention: 1 January after `years` whole years from the year of that day, or the last moment
    that there is. `UsageError` where no day is given, or the end would be later than that moment."""
    if kept.years is None:
        return moments.LAST
    if begun is None:
        raise UsageError("its class counts from the document's date, and it has none")
    if begun.year + kept.years + 1 > dt.MAXYEAR:
        raise UsageError(f"its class ends after {moments.LAST}: years is permanent for what is kept for ever")
    return f"{begun.year + kept.years + 1:04}-01-01T00:00:00Z"


def is_waiting(kept: Class, event: str, events: Mapping[str, str]) -> bool:
    """Whether a document of a class waits for an event. `UsageError` where it names none, and its class wants one."""
    if kept.trigger == EVENT and not event:
        raise UsageError("its class counts from an event, and none is named")
    return kept.trigger == EVENT and event not in events


def lock_of(kept: Class, date: str, event: str, events: Mapping[str, str]) -> tuple[str, str]:
    """The mode and the end of a document's retention by its class, its date, and the days of the events that are known.

    What waits for its event is kept until that is reported. `UsageError` where no end can be said."""
    if is_waiting(kept, event, events):
        return WAITING, moments.LAST
    begun = events[event] if kept.trigger == EVENT else date
    return kept.mode, end_of(kept, dates.day_of(begun) if begun else None)
