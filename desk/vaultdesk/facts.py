"""What the page of a vault has, read from its tables alone at one moment."""

from __future__ import annotations

from collections import Counter
from collections.abc import Sequence
from pathlib import Path
from typing import Any, NamedTuple

from vaultdesk import moments, reading
from vaultdesk.errors import DeskError
from vaultdesk.reading import Tables

SCHEMA = 3
DAY = 86_400
CAUSES = ("request", "bypass", "rule")
MONTHS = 13  # that a page looks ahead: the rest of the month, and the twelve after


class Department(NamedTuple):
    """The sums of a department: bytes, and byte-days up to the page's moment."""

    name: str
    admitted: int
    received: int
    held: int
    removed: int
    handed: int
    byte_days: int


class Bucket(NamedTuple):
    """What a bucket holds, and what later documents get."""

    name: str
    department: str
    default: str
    documents: int
    bytes: int
    markers: int
    holds: int


class Rule(NamedTuple):
    """A lifecycle rule."""

    bucket: str
    rule: str
    enabled: str
    entries: str
    does: str


class Caller(NamedTuple):
    """Who may do what."""

    name: str
    department: str
    state: str
    rights: str


class Hold(NamedTuple):
    """A legal hold that is on, by the setting that put it on."""

    since: str
    days: int
    caller: str
    bucket: str
    key: str
    version: str
    size: int


class Removal(NamedTuple):
    """A row of the register of removals."""

    version: str
    bucket: str
    key: str
    kind: str
    size: int
    sha256: str
    admitted: str
    admitted_by: str
    removed: str
    cause: str
    cause_by: str
    days: int


class Ending(NamedTuple):
    """The documents whose retention ends in a month, their bytes, and how many of them have a legal hold on."""

    month: str
    documents: int
    bytes: int
    holds: int


class Facts(NamedTuple):
    """All that a page has."""

    name: str
    at: str
    last: str
    departments: list[Department]
    buckets: list[Bucket]
    rules: list[Rule]
    callers: list[Caller]
    removals: list[Removal]
    ending: list[Ending]
    holds: list[Hold]


def months_from(month: str, count: int) -> list[str]:
    """That number of months from one on, as YYYY-MM."""
    first = int(month[:4]) * 12 + int(month[5:]) - 1
    return [f"{it // 12:04}-{it % 12 + 1:02}" for it in range(first, first + count)]


def _departments(tables: Tables, at: int) -> list[Department]:
    """Of each department its sums, as a report of that moment has them."""
    return [
        Department(
            it["department"], it["admitted"], it["received"], it["held"], it["removed"], it["handed"], it["byte_days"]
        )
        for it in tables.query("report", at=moments.of_seconds(at))
    ]


def _default_text(text: str) -> str:
    """A default retention as `COMPLIANCE for 10 years`, or `none`."""
    return "none" if text == "-" else text.replace(" ", " for ", 1)


def _buckets(tables: Tables) -> list[Bucket]:
    """Of each bucket its default, what it holds, and how many legal holds are on."""
    return [
        Bucket(
            it["bucket"], it["department"], _default_text(it["default"]), it["versions"], it["bytes"], it["markers"],
            it["holds"],
        )
        for it in tables.query("buckets")
    ]  # fmt: skip


def _entries_text(prefix: str, larger: int | None, smaller: int | None) -> str:
    """Which entries a rule is for."""
    parts = [f"keys that begin with {prefix}" if prefix else "all keys"]
    parts += [f"of more than {larger:,} bytes"] if larger is not None else []
    parts += [f"of fewer than {smaller:,} bytes"] if smaller is not None else []
    return ", ".join(parts)


def _days(count: int) -> str:
    return "1 day" if count == 1 else f"{count:,} days"


def _does_text(days: int | None, lone: int, older: int | None, keep: int | None) -> str:
    """What a rule does."""
    parts = [f"marks what is current {_days(days)} after its admission"] if days is not None else []
    parts += ["removes markers below which nothing is held"] if lone else []
    if older is not None:
        but = f", but for the newest {keep:,}" if keep else ""
        parts += [f"removes older versions {_days(older)} after the next one came{but}"]
    return "; ".join(parts)


def _rules(tables: Tables) -> list[Rule]:
    columns = "bucket, id, enabled, prefix, larger, smaller, days, lone, nc_days, nc_keep"
    rows = tables.rows(f"SELECT {columns} FROM rules ORDER BY bucket, n")
    return [
        Rule(bucket, name, "yes" if on else "no", _entries_text(*those), _does_text(*action))
        for bucket, name, on, *those, action in ((*it[:6], it[6:]) for it in rows)
    ]


def _none(text: str) -> str:
    return "none" if text == "-" else text


def _callers(tables: Tables) -> list[Caller]:
    """The callers by their names, closed ones last."""
    rows = tables.query("callers")
    found = [Caller(it["caller"], _none(it["department"]), it["state"], _none(it["rights"])) for it in rows]
    return sorted(found, key=lambda it: (it.state == "closed", it.name))


def _removals(tables: Tables) -> list[Removal]:
    """The rows of the register, by rising id."""
    rows = tables.rows(
        "SELECT id, bucket, key, marker, size, digest, admitted, by_rule, admitted_by, removed, cause, cause_by"
        " FROM entries WHERE removed IS NOT NULL ORDER BY id"
    )
    return [
        Removal(
            str(number), bucket, key, "marker" if marker else "version", size, digest.hex() if digest else "",
            moments.of_seconds(admitted), f"rule {author}" if by_rule else author, moments.of_seconds(removed),
            CAUSES[cause], by, removed // DAY - admitted // DAY,
        )
        for number, bucket, key, marker, size, digest, admitted, by_rule, author, removed, cause, by in rows
    ]  # fmt: skip


def _ending(tables: Tables, at: int) -> list[Ending]:
    """The months from that of the moment on, each with the retentions that end in it."""
    rows = tables.rows(
        "SELECT until, size, hold FROM entries JOIN settings USING (id)"
        " WHERE removed IS NULL AND mode > 0 AND until > ?"
        " AND n = (SELECT max(n) FROM settings AS any WHERE any.id = entries.id)",
        (at,),
    )
    months = {it: [0, 0, 0] for it in months_from(moments.of_seconds(at)[:7], MONTHS)}
    for until, size, hold in rows:
        counts = months.get(moments.of_seconds(until)[:7], [0, 0, 0])
        for place, more in enumerate((1, size, hold)):
            counts[place] += more
    return [Ending(month, *counts) for month, counts in months.items()]


HOLDS = (
    "SELECT placed.moment, placed.caller, bucket, key, entries.id, size FROM entries"
    " JOIN settings AS last ON last.id = entries.id"
    "  AND last.n = (SELECT max(n) FROM settings AS any WHERE any.id = entries.id)"
    " JOIN settings AS placed ON placed.id = entries.id AND placed.n = 1 +"
    "  (SELECT coalesce(max(n), 0) FROM settings AS off WHERE off.id = entries.id AND NOT off.hold)"
    " WHERE removed IS NULL AND last.hold ORDER BY placed.moment, entries.id"
)


def _holds(tables: Tables, at: int) -> list[Hold]:
    """The documents with a legal hold on, the oldest hold first."""
    return [
        Hold(moments.of_seconds(since), at // DAY - since // DAY, caller, bucket, key, str(number), size)
        for since, caller, bucket, key, number, size in tables.rows(HOLDS)
    ]


def _read(tables: Tables, file: Path, at: int) -> Facts:
    found = tables.rows("SELECT schema, last FROM meta")
    schema, last = found[0] if found else (None, 0)
    if schema != SCHEMA:
        raise DeskError(f"{file}: its schema is {schema}, and {SCHEMA} is known here")
    if at < last:
        raise DeskError(f"{file}: its last change is later, at {moments.of_seconds(last)}")
    return Facts(
        file.name, moments.of_seconds(at), moments.of_seconds(last), _departments(tables, at), _buckets(tables),
        _rules(tables), _callers(tables), _removals(tables), _ending(tables, at), _holds(tables, at),
    )  # fmt: skip


def facts_of(file: Path, at: int) -> Facts:
    """What a vault's file has of a moment that isn't before its last change. `DeskError` where it can't be read."""
    with reading.at_one_moment(file) as tables:
        return _read(tables, file, at)


def removed_by_month(removals: Sequence[Removal]) -> list[tuple[str, list[int], int]]:
    """How many documents were removed in each month, by cause, and how many delete markers.

    Months without any, between the first and the last, are there too."""
    counts = Counter((it.removed[:7], "marker" if it.kind == "marker" else it.cause) for it in removals)
    if not counts:
        return []
    first, last = min(counts)[0], max(counts)[0]
    span = (int(last[:4]) - int(first[:4])) * 12 + int(last[5:]) - int(first[5:]) + 1
    months = months_from(first, span)
    return [(month, [counts[month, cause] for cause in CAUSES], counts[month, "marker"]) for month in months]


def as_json(facts: Facts) -> dict[str, Any]:
    """The facts as a value of JSON."""
    parts = facts._asdict().items()
    return {name: [it._asdict() for it in part] if isinstance(part, list) else part for name, part in parts}
