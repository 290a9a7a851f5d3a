"""Moments as people write them, and as the engine reads them."""

from __future__ import annotations

import datetime as dt
import functools
import re
import time
from collections.abc import Iterator

from vaultdesk.errors import UsageError

LAST = "9999-12-31T23:59:59Z"  # that a vault can keep
FAR = 30  # years after which an end is asked about
DATE = re.compile(r"\d{4}-\d{2}-\d{2}")
MOMENT = re.compile(r"\d{4}-\d{2}-\d{2}T\d{2}:\d{2}:\d{2}(Z|[+-]\d{2}:\d{2})")


def text_of(moment: dt.datetime) -> str:
    """The moment in the engine's form, whole seconds of UTC: `2024-01-15T10:30:00Z`."""
    return moment.astimezone(dt.timezone.utc).strftime("%Y-%m-%dT%H:%M:%SZ")


@functools.lru_cache(8)
def of_seconds(seconds: int) -> str:
    """The moment of a number of seconds since 1970, in the engine's form."""
    return text_of(dt.datetime.fromtimestamp(seconds, dt.timezone.utc))


def seconds_of(moment: str) -> int:
    """Seconds since 1970 of a moment in the engine's form."""
    return int(dt.datetime.fromisoformat(moment.replace("Z", "+00:00")).timestamp())


def now() -> str:
    """The machine's clock, in the engine's form."""
    return of_seconds(int(time.time()))


def tomorrow() -> str:
    """The moment a day after the machine's clock."""
    return text_of(dt.datetime.now(dt.timezone.utc) + dt.timedelta(days=1))


def day_after(moment: str) -> str:
    """The day after that of a moment, as 2024-01-16."""
    return (dt.date.fromisoformat(moment[:10]) + dt.timedelta(days=1)).isoformat()


def after_days(moment: str, days: int) -> str:
    """The moment a number of days after another one; the last that there is where it would be later."""
    try:
        return of_seconds(seconds_of(moment) + days * 86_400)
    except (ValueError, OverflowError):
        return LAST


def is_far(end: str, at: str) -> bool:
    """Whether an end lies more than thirty years after a moment, as one with a mistyped year does.

    A class of thirty years ends with a year, so up to a year later."""
    return int(end[:4]) > int(at[:4]) + FAR + 1


def read(text: str) -> str:
    """A date or a moment in the engine's form: a date alone is its midnight, UTC.

    `UsageError` where it is neither."""
    try:
        if DATE.fullmatch(text):
            return text_of(dt.datetime.fromisoformat(text).replace(tzinfo=dt.timezone.utc))
        if MOMENT.fullmatch(text):
            return text_of(dt.datetime.fromisoformat(text.replace("Z", "+00:00")))
    except (ValueError, OverflowError) as error:
        raise UsageError(f"{text!r} is no date of the calendar: {error}") from error
    raise UsageError(f"{text!r} is no date: write 2025-06-10, or 2025-06-10T14:30:00Z")


def nights(first: str, last: str) -> Iterator[str]:
    """The moment `first`, and each midnight (UTC) after it up to and with `last`."""
    yield first
    day = dt.datetime.fromisoformat(first[:10]).replace(tzinfo=dt.timezone.utc) + dt.timedelta(days=1)
    while text_of(day) <= last:
        yield text_of(day)
        day += dt.timedelta(days=1)
