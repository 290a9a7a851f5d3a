"""The shortest and the longest retention that the desk sets in a bucket, as the settings have them.

The engine knows no such limits: they keep slips of the office's own people from standing for years, and nobody who
asks the engine by another way from anything.
"""

from __future__ import annotations

import datetime as dt
import re
from collections.abc import Mapping
from dataclasses import dataclass

from vaultdesk import moments
from vaultdesk.errors import UsageError

PERIOD = re.compile(r"(\d{1,6}) (day|year)s?")
LONGEST_KEY = 1_024  # bytes of UTF-8 that a key has at most


@dataclass(frozen=True)
class Period:
    """A number of days or of calendar years."""

    count: int
    unit: str

    def __str__(self) -> str:
        return f"{self.count:,} {self.unit}{'' if self.count == 1 else 's'}"

    def after(self, moment: str) -> str:
        """The moment that is so long after another one; the last moment that there is where it would be later."""
        begun = dt.datetime.fromisoformat(moment.replace("Z", "+00:00"))
        try:
            if self.unit == "day":
                return moments.text_of(begun + dt.timedelta(days=self.count))
            # The 29 February ends in a year without one on the next day.
            is_leap_day = (begun.month, begun.day) == (2, 29)
            moved = begun + dt.timedelta(days=1) if is_leap_day else begun
            return moments.text_of(moved.replace(year=begun.year + self.count))
        except (ValueError, OverflowError):
            return moments.LAST


@dataclass(frozen=True)
class Limits:
    """By bucket the shortest and the longest retention."""

    least: Mapping[str, Period]
    greatest: Mapping[str, Period]


NONE = Limits({}, {})


def period(text: str) -> Period:
    """A period as `6 years` or `90 days`. `UsageError` where it is none."""
    found = PERIOD.fullmatch(text)
    if not found:
        raise UsageError(f"settings: {text!r} is no period: write 6 years, or 90 days")
    return Period(int(found[1]), found[2])


def why_outside(limits: Limits, bucket: str, until: str, now: str) -> str:
    """Why a retention up to that moment isn't one for the bucket; empty where it is."""
    least, greatest = limits.least.get(bucket), limits.greatest.get(bucket)
    if least and until < least.after(now):
        return f"the settings have at least {least} for {bucket}: {until} is before {least.after(now)}"
    if greatest and until > greatest.after(now):
        return f"the settings have at most {greatest} for {bucket}: {until} is after {greatest.after(now)}"
    return ""


def are_of(limits: Limits, bucket: str) -> bool:
    """Whether a bucket has limits."""
    return bucket in limits.least or bucket in limits.greatest


def why_not_kept(limits: Limits, bucket: str, until: str | None, now: str) -> str:
    """Why the retention of a version that was put without an end isn't one for the bucket; empty where it is.

    It ends at that moment, or is none where the bucket has no default."""
    if until is not None:
        return why_outside(limits, bucket, until, now)
    if bucket in limits.least:
        return f"the settings have at least {limits.least[bucket]} for {bucket}, which has no default retention"
    return ""


def look(limits: Limits, bucket: str, until: str, now: str) -> None:
    """`UsageError` where a retention up to that moment isn't one for the bucket."""
    why = why_outside(limits, bucket, until, now)
    if why:
        raise UsageError(f"{why}: nothing was changed")
