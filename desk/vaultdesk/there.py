"""What the vault has already, as a delivery is looked at before anything is taken in."""

from __future__ import annotations

import argparse
import functools
from dataclasses import dataclass, field
from pathlib import Path

from vaultdesk import limits, moments, reading
from vaultdesk.defaults import MODES, default_of
from vaultdesk.engine import Engine
from vaultdesk.errors import DeskError, EngineError
from vaultdesk.output import say


@dataclass(frozen=True)
class Default:
    """A bucket's default retention, with its end for what comes now; no mode where it has none.

    `is_known` is false where nobody says whether it has one; `why_not` says why it isn't one by the settings."""

    mode: str = ""
    period: str = ""
    end: str = ""
    is_known: bool = True
    why_not: str = ""


@dataclass(frozen=True)
class There:
    """The digests that the vault holds; of the bucket the keys, and the documents by key and digest; the lines of the
    batch that were taken in before; and the bucket's default retention."""

    digests: frozenset[str] = frozenset()
    keys: frozenset[str] = frozenset()
    documents: frozenset[tuple[str, str]] = frozenset()
    lines: frozenset[int] = frozenset()
    default: Default = field(default_factory=Default)

    @functools.cached_property
    def here(self) -> frozenset[str]:
        """The digests that the bucket holds."""
        return frozenset(digest for _, digest in self.documents if digest)


def look(engine: Engine, words: argparse.Namespace) -> There:
    """What the vault has. `DeskError` where the caller can put nothing, or there is no such bucket."""
    try:
        file = engine.tables
        held = [it for it in held_in(file, None) if engine.shows(it["bucket"])]
        callers = {it["caller"]: it for it in reading.query(file, "callers")}
        found = reading.rows(file, "SELECT name, mode, days, years FROM buckets")
        statement = "SELECT line FROM intake WHERE bucket = ? AND batch = ?"
        lines = frozenset(line for (line,) in reading.rows(file, statement, (words.bucket, words.batch)))
    except EngineError as error:
        say(f"not looked at: what the vault holds already: {error}")
        return There(default=_asked(engine, words.bucket))
    caller = engine.desk.caller
    buckets = {name: (MODES[mode], days, years) for name, mode, days, years in found}
    if caller not in callers or callers[caller]["department"] == "-":
        raise DeskError(f"caller {caller!r} has no department, or isn't there: it can put nothing")
    if words.bucket not in buckets:
        shown = ", ".join(filter(engine.shows, sorted(buckets)))
        raise DeskError(f"the vault has no bucket {words.bucket!r}: it has {shown or 'none'}")
    if lines and engine.shows(words.bucket):
        say(f"batch {words.batch!r} is known: {len(lines)} of its lines were taken in before")
    there = [it for it in held if it["bucket"] == words.bucket]
    return There(
        frozenset(it["sha256"] for it in held if it["sha256"]),
        frozenset(it["key"] for it in there),
        frozenset((it["key"], it["sha256"]) for it in there),
        lines,
        _default(engine, words.bucket, *buckets[words.bucket]),
    )


def held_in(file: Path, bucket: str | None) -> list[reading.Row]:
    """What the vault holds, in a bucket or in all."""
    nothing = {"prefix": None, "text": None, "sha256": None, "since": None, "before": None}
    return reading.query(file, "find", bucket=bucket, state="held", **nothing)


def _default(engine: Engine, bucket: str, mode: str, days: int | None, years: int | None) -> Default:
    now = engine.at or moments.now()
    count, unit = (days, "day") if years is None else (years, "year")
    period = limits.Period(count, unit) if mode and count is not None else None
    end = period.after(now) if period else ""
    is_limited = limits.are_of(engine.desk.limits, bucket)
    why_not = limits.why_not_kept(engine.desk.limits, bucket, end or None, now) if is_limited else ""
    return Default(mode, str(period or ""), end, True, why_not)


def default_in(engine: Engine, bucket: str) -> Default:
    """The bucket's default retention, as the tables have it. `DeskError` where there is no such bucket."""
    found = reading.rows(engine.tables, "SELECT mode, days, years FROM buckets WHERE name = ?", (bucket,))
    if not found:
        raise DeskError(f"the vault has no bucket {bucket!r}: check its spelling")
    mode, days, years = found[0]
    return _default(engine, bucket, MODES[mode], days, years)


def _asked(engine: Engine, bucket: str) -> Default:
    """The bucket's default retention, as the server says it to who has the right config."""
    try:
        found = default_of(engine, bucket) or {"mode": ""}
    except DeskError:
        return Default(is_known=False)
    return _default(engine, bucket, found["mode"], found.get("days"), found.get("years"))
