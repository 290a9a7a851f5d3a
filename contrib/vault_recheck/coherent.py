"""Whether the histories of a vault agree with each other, and with its callers, buckets, moves and lines of intakes.

`lawful` asks each history by itself. This finds what shows where rows stand beside each other: a bucket that had two
departments at once, a caller of another department, a removal by a rule that can't have been due, a lock that isn't the
one that a line of an intake asked for, moves out of order. It is asked of tables that fit together; rules and defaults
of the past aren't in the file, so it asks what any of them could have done.
"""

import itertools
import sqlite3
from typing import Any, Iterable, Iterator, NamedTuple, Optional

from vault_recheck.vault import CAUSES, MODES, Meta, meta_of, moment_text

Contradictions = Iterator[str]
DAY = 86_400
MOST_DEFAULT_DAYS = 36_525
RETAIN, HOLD, RUN = 8, 16, 512
# The first midnight that isn't before a day after the moment `at`: the least that a rule waits.
EARLIEST = "((at + 86400 + 86399) / 86400 * 86400)"


def of(dept: Any) -> str:
    return f"of {dept}" if dept else "of no department"


# ---- the departments of callers


def caller_contradictions(base: sqlite3.Connection) -> Contradictions:
    """Who admits, sets or removes is of the department that has the bucket at that moment."""
    admissions = (
        "SELECT e.id, e.admitted_by, c.dept, t.dept FROM entries AS e JOIN callers AS c ON c.name = e.admitted_by"
        " LEFT JOIN tenures AS t ON t.id = e.id AND t.n = 0"
        " WHERE NOT e.by_rule AND iif(e.marker, c.dept IS NULL, c.dept IS NOT t.dept) ORDER BY e.id"
    )
    for id, by, dept, owner in base.execute(admissions):
        yield f"entry {id} was admitted by {by} {of(dept)}, and the bucket was {of(owner)} then"
    settings = (
        "SELECT s.id, s.n, s.caller, c.dept FROM settings AS s JOIN callers AS c ON c.name = s.caller WHERE s.n > 1"
        " AND NOT EXISTS (SELECT * FROM tenures AS t WHERE t.id = s.id AND t.dept = c.dept AND t.moment <= s.moment"
        " AND NOT EXISTS (SELECT * FROM tenures AS l WHERE l.id = t.id AND l.n > t.n AND l.moment < s.moment))"
        " ORDER BY s.id, s.n"
    )
    for id, n, by, dept in base.execute(settings):
        yield f"setting {n} of version {id} is by {by} {of(dept)}, which didn't have the version then"
    removals = (
        "SELECT e.id, e.cause_by, c.dept, t.dept FROM entries AS e JOIN callers AS c ON c.name = e.cause_by"
        " LEFT JOIN tenures AS t ON t.id = e.id AND t.n = (SELECT max(n) FROM tenures AS l WHERE l.id = e.id)"
        " WHERE e.cause < 2 AND iif(e.marker, c.dept IS NULL, c.dept IS NOT t.dept) ORDER BY e.id"
    )
    for id, by, dept, owner in base.execute(removals):
        yield f"the removal of entry {id} is by {by} {of(dept)}, and it was {of(owner)} then"


def registrar_contradictions(base: sqlite3.Connection) -> Contradictions:
    """The caller with whom a vault begins is never gone, and has its first rights."""
    query = "SELECT count(*) FROM callers WHERE name = 'registrar' AND dept IS NULL AND rights = 1"
    if base.execute(query).fetchone() == (0,):
        yield "there is no caller registrar of no department with the right admin alone, as in each vault that is begun"


# ---- first settings, and what lines of intakes asked for


def first_contradictions(base: sqlite3.Connection) -> Contradictions:
    """A first retention ends after the admission; whoever may not retain has it from a default, of whole days."""
    query = (
        "SELECT s.id, s.caller, s.moment, s.until, c.rights FROM settings AS s JOIN callers AS c ON c.name = s.caller"
        " WHERE s.n = 1 AND s.mode <> 0 ORDER BY s.id"
    )
    for id, by, at, until, rights in base.execute(query):
        if until <= at:
            yield f"the first retention of version {id} ends at {moment_text(until)}, and isn't after its admission"
        elif not rights & RETAIN and ((until - at) % DAY or until - at > MOST_DEFAULT_DAYS * DAY):
            end = moment_text(until)
            yield f"the first retention of version {id} ends at {end}, which no default gives, and {by} may not retain"


def line_contradictions(base: sqlite3.Connection) -> Contradictions:
    """A line's version has the lock that the line asked for, by a caller who may ask for it."""
    query = (
        "SELECT i.bucket, i.batch, i.line, i.id, i.mode, i.until, i.hold, s.mode, s.until, s.hold, s.caller, c.rights"
        " FROM intake AS i JOIN settings AS s ON s.id = i.id AND s.n = 1 JOIN callers AS c ON c.name = s.caller"
        " ORDER BY i.bucket, i.batch, i.line"
    )
    for bucket, batch, line, id, mode, until, hold, had_mode, had_until, had_hold, by, rights in base.execute(query):
        what = f"line {line} of batch {batch} into {bucket}"
        if mode and (mode, until) != (had_mode, had_until):
            yield f"{what} asked for {MODES[mode]} until {moment_text(until)}, which version {id} hadn't"
        if bool(hold) != bool(had_hold):
            yield f"{what} asked for hold {'ON' if hold else 'OFF'}, and version {id} had the other"
        if (mode and not rights & RETAIN) or (hold is not None and not rights & HOLD):
            yield f"{what} asked for a lock, and {by} has no right to it"


# ---- what rules do


def rule_contradictions(base: sqlite3.Connection) -> Contradictions:
    """A rule removes what a newer entry has hidden for a day at least, or a marker that is alone; it marks a version
    that is a day old at least; and somebody of the department may carry rules out."""
    above = (
        "EXISTS (SELECT * FROM (SELECT o.admitted AS at FROM entries AS o WHERE o.bucket = e.bucket AND o.key = e.key"
        f" AND o.id > e.id AND (o.removed IS NULL OR o.removed >= e.removed)) WHERE {EARLIEST} <= e.removed)"
    )
    beside = (
        "EXISTS (SELECT * FROM entries AS o WHERE o.bucket = e.bucket AND o.key = e.key AND o.id <> e.id"
        " AND o.admitted < e.removed AND (o.removed IS NULL OR o.removed > e.removed))"
    )
    removals = f"SELECT e.id FROM entries AS e WHERE e.cause = 2 AND NOT {above} AND (NOT e.marker OR {beside})"
    for (id,) in base.execute(f"{removals} ORDER BY e.id"):
        yield f"the removal of entry {id} is by a rule, and no newer entry had hidden it for a day"
    below = (
        "EXISTS (SELECT * FROM (SELECT o.admitted AS at FROM entries AS o WHERE o.bucket = e.bucket AND o.key = e.key"
        " AND o.id < e.id AND NOT o.marker AND (o.removed IS NULL OR o.removed >= e.admitted))"
        f" WHERE {EARLIEST} <= e.admitted)"
    )
    for (id,) in base.execute(f"SELECT e.id FROM entries AS e WHERE e.by_rule AND NOT {below} ORDER BY e.id"):
        yield f"entry {id} was admitted by a rule, and there was no version under its key for a day"
    runs = (
        "SELECT e.id, t.dept FROM entries AS e JOIN tenures AS t ON t.id = e.id"
        " AND t.n = (SELECT max(n) FROM tenures AS l WHERE l.id = e.id) WHERE e.cause = 2"
        f" AND NOT EXISTS (SELECT * FROM callers AS c WHERE c.dept = t.dept AND c.rights & {RUN}) ORDER BY e.id"
    )
    for id, dept in base.execute(runs):
        yield f"the removal of entry {id} is by a {CAUSES[2]}, and nobody of {dept} may carry rules out"


# ---- the departments of buckets


class Span(NamedTuple):
    """A time in which a bucket was of a department, as a row shows it."""

    bucket: str
    dept: str
    begin: int
    end: int
    row: str


def excludes(one: Span, other: Span) -> bool:
    """Whether two spans of one bucket can't both have been, of which the one begins no later than the other: a move may
    fall on an end, and not within."""
    if other.begin == other.end:
        return one.begin < other.begin < one.end
    return other.begin < min(one.end, other.end)


def spans_of(base: sqlite3.Connection, last: int) -> Iterator[Span]:
    """By bucket and beginning. What is held lasts past the last moment, as a move would give it a tenure."""
    query = (
        "WITH known AS (SELECT e.bucket AS bucket, t.n AS n, t.moment AS moment FROM tenures AS t JOIN entries AS e"
        " ON e.id = t.id WHERE t.n > 0) "
        "SELECT * FROM ("
        "SELECT e.bucket, t.dept, t.moment AS begin,"
        " coalesce(lead(t.moment) OVER (PARTITION BY t.id ORDER BY t.n), e.removed, :last + 1) AS end,"
        " 'version ' || e.id FROM tenures AS t JOIN entries AS e ON e.id = t.id"
        " UNION ALL SELECT e.bucket, c.dept, e.admitted, e.admitted, 'marker ' || e.id || ' by ' || c.name"
        " FROM entries AS e JOIN callers AS c ON c.name = e.admitted_by WHERE e.marker AND NOT e.by_rule"
        " UNION ALL SELECT e.bucket, c.dept, e.removed, e.removed, 'marker ' || e.id || ' removed by ' || c.name"
        " FROM entries AS e JOIN callers AS c ON c.name = e.cause_by WHERE e.marker AND e.cause < 2"
        " UNION ALL SELECT b.name, b.dept, coalesce((SELECT max(moment) FROM known WHERE bucket = b.name), 0),"
        " :last + 1, 'all moves are known' FROM buckets AS b, meta WHERE moves = (SELECT count(DISTINCT n) FROM known))"
        " WHERE dept IS NOT NULL ORDER BY bucket, begin"
    )
    return (Span(*it) for it in base.execute(query, {"last": last}))


def excluding(spans: Iterable[Span]) -> Optional[tuple[Span, Span]]:
    """The first two of a bucket that can't both have been. They come by their beginning, so the latest of each
    department is enough."""
    latest: dict[str, Span] = {}
    for span in spans:
        for other in latest.values():
            if other.dept != span.dept and excludes(other, span):
                return other, span
        before = latest.get(span.dept)
        if before is None or span.begin >= before.end:
            latest[span.dept] = span
        elif span.end > before.end:
            latest[span.dept] = before._replace(end=span.end, row=span.row)
    return None


def owner_contradictions(base: sqlite3.Connection, meta: Meta) -> Contradictions:
    """A bucket is one department's at a time."""
    for bucket, spans in itertools.groupby(spans_of(base, meta.last), lambda it: it.bucket):
        found = excluding(spans)
        if found:
            both = " and ".join(f"of {it.dept} ({it.row})" for it in found)
            yield f"bucket {bucket} was {both} at {moment_text(found[1].begin)}"


# ---- moves


def moves_of(base: sqlite3.Connection, meta: Meta) -> list[tuple[int, int]]:
    """Number and moment of each move that a tenure shows, with one before all and one after."""
    known = base.execute("SELECT n, min(moment) FROM tenures WHERE n > 0 GROUP BY n ORDER BY n").fetchall()
    return [(0, 0), *known, (meta.moves + 1, meta.last)]


def full_times(base: sqlite3.Connection, last: int) -> dict[str, list[tuple[int, int]]]:
    """The times in which each bucket held a version throughout, without their ends."""
    found: dict[str, list[tuple[int, int]]] = {bucket: [] for (bucket,) in base.execute("SELECT name FROM buckets")}
    query = "SELECT bucket, admitted, coalesce(removed, ? + 1) FROM entries WHERE NOT marker ORDER BY bucket, admitted"
    for bucket, begin, end in base.execute(query, (last,)):
        times = found[bucket]
        if times and begin < times[-1][1]:
            times[-1] = (times[-1][0], max(end, times[-1][1]))
        else:
            times.append((begin, end))
    return found


def move_contradictions(base: sqlite3.Connection, meta: Meta) -> Contradictions:
    """Moves are made in the order of their numbers, and one that no version shows is of a bucket that held none."""
    moves, times = moves_of(base, meta), full_times(base, meta.last).values()
    for (one, begin), (other, end) in zip(moves, moves[1:]):
        if end < begin:
            yield f"move {other} is of {moment_text(end)}, and move {one} before it of {moment_text(begin)}"
        elif one + 1 < other and all(any(a < begin and end < b for a, b in full) for full in times):
            yield f"no version shows move {one + 1}, and each bucket held one between the moves beside it"


def contradictions(base: sqlite3.Connection) -> Contradictions:
    """What can't all be so, a line each."""
    meta = meta_of(base)
    yield from registrar_contradictions(base)
    yield from caller_contradictions(base)
    yield from first_contradictions(base)
    yield from line_contradictions(base)
    yield from rule_contradictions(base)
    yield from owner_contradictions(base, meta)
    yield from move_contradictions(base, meta)
