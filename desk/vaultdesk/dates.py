"""Dates as CSV of a spreadsheet has them: 13.06.2026, 6/13/2026. In a whole column the day is the same number."""

from __future__ import annotations

import datetime as dt
import re
from collections.abc import Iterable
from dataclasses import dataclass

from vaultdesk import moments
from vaultdesk.errors import UsageError

DAY_FIRST, MONTH_FIRST = ORDERS = ("day-first", "month-first")
FORM = re.compile(r"(\d{1,2})([./-])(\d{1,2})\2(\d{4})")
TIME = re.compile(r"[T ]\d{1,2}:\d{2}(:\d{2}(\.\d+)?)?$")
HOW = f"give the xlsx, or --dates {DAY_FIRST} or {MONTH_FIRST}"


@dataclass(frozen=True)
class Order:
    """Which number of a column's dates is the day; else why that can't be known."""

    order: str = ""
    why: str = ""

    def date(self, text: str) -> str:
        """The date as 2026-06-13; a text of another form as it is. `UsageError` where it is no date, or may be two."""
        found = FORM.fullmatch(text)
        if not found:
            return text
        if not self.order:
            raise UsageError(f"{text!r}: {self.why}: {HOW}")
        day, month = (found[1], found[3]) if self.order == DAY_FIRST else (found[3], found[1])
        try:
            return dt.date(int(found[4]), int(month), int(day)).isoformat()
        except ValueError as error:
            raise UsageError(f"{text!r} is no date of the calendar, {self.order}") from error


def order_of(texts: Iterable[str], given: str | None) -> Order:
    """How a column has its dates: as it was given, or else as those show of which one number can be no month."""
    if given:
        return Order(given)
    found = [it for it in map(FORM.fullmatch, texts) if it]
    day_first = next((it[0] for it in found if int(it[1]) > 12 >= int(it[3])), "")
    month_first = next((it[0] for it in found if int(it[3]) > 12 >= int(it[1])), "")
    other = next((it[0] for it in found if it[2] != found[0][2]), "")
    if other:
        return Order(why=f"its column has dates of two forms, as {found[0][0]} and {other}")
    if day_first and month_first:
        return Order(why=f"its column has the day first, as {day_first}, and the month first, as {month_first}")
    if not day_first and not month_first:
        return Order(why="no date of its column shows which number is the day")
    return Order(DAY_FIRST if day_first else MONTH_FIRST)


def without_time(text: str) -> str:
    """A date alone, of one that a spreadsheet has with a time of no zone."""
    return TIME.sub("", text)


def day_of(text: str) -> dt.date:
    """The day (UTC) of a date or a moment. `UsageError` where it is neither."""
    return dt.date.fromisoformat(moments.read(text)[:10])
