"""Whether the tables of a file fit together: each by itself first, then beside the others, in their order."""

import collections
import hashlib
import sqlite3
from typing import Callable, Iterator, NamedTuple, Optional

from vault_recheck import forms, limits
from vault_recheck.limits import Faults
from vault_recheck.vault import Damaged, Meta, Row, meta_of, moment_text

DAY = 86_400
QUOTA = 1_000_000_000_000

ROW_FAULTS: dict[str, Callable[[Row], Faults]] = {
    "meta": limits.meta_faults,
    "departments": limits.department_faults,
    "callers": limits.caller_faults,
    "buckets": limits.bucket_faults,
    "rules": limits.rule_faults,
    "contents": limits.content_faults,
    "settings": limits.setting_faults,
    "heads": limits.head_faults,
    "tenures": limits.tenure_faults,
    "external": limits.external_faults,
}
# The rows with a size, whose limit follows from the schema.
SIZED_FAULTS: dict[str, Callable[[Row, int], Faults]] = {
    "entries": limits.entry_faults,
    "intake": limits.intake_faults,
}


# ---- the file


def look_at_file(base: sqlite3.Connection) -> Faults:
    """What SQLite itself finds: pages, indexes, kinds of values, and rows that name what isn't there."""
    for (found,) in base.execute("PRAGMA integrity_check(1)"):
        if found != "ok":
            yield found
    for table, row, parent, _ in base.execute("PRAGMA foreign_key_check"):
        yield f"row {row} of {table} names what isn't in {parent}"
    (encoding,) = base.execute("PRAGMA encoding").fetchone()
    if encoding != "UTF-8":
        yield f"its texts are {encoding}"


# ---- each table by itself


def rows_of(base: sqlite3.Connection, table: forms.Table) -> sqlite3.Cursor:
    columns = ", ".join(it.name for it in table.columns)
    return base.execute(f"SELECT {columns} FROM {table.name}")


def look_at_meta(base: sqlite3.Connection, table: forms.Table) -> Faults:
    rows = rows_of(base, table).fetchall()
    if len(rows) != 1:
        yield f"it has {len(rows)} rows in the place of one"
    for row in rows:
        yield from limits.meta_faults(row)


def times_faults(id: object, admitted: int, removed: Optional[int], last: int) -> Faults:
    if admitted > last:
        yield f"entry {id} was admitted at {moment_text(admitted)}, after the last moment {moment_text(last)}"
    if removed is not None and not admitted <= removed <= last:
        yield f"entry {id} was removed at {moment_text(removed)}, before its admission or after the last moment"


def look_at_rows(base: sqlite3.Connection, table: forms.Table, meta: Meta) -> Faults:
    """Each row of a table by itself; one of entries also beside the last moment."""
    for row in rows_of(base, table):
        sized = SIZED_FAULTS.get(table.name)
        yield from sized(row, meta.schema) if sized else ROW_FAULTS[table.name](row)
        if table.name == "entries":
            yield from times_faults(row[0], row[6], row[9], meta.last)


# ---- the tables beside the others


def look_at_next(base: sqlite3.Connection, meta: Meta) -> Faults:
    (count,) = base.execute("SELECT count(*) FROM entries").fetchone()
    if meta.next != count + 1:
        yield f"the next id is {meta.next}, and there are {count} entries"


class Sums(NamedTuple):
    """The seven sums of a department, in the order of its columns."""

    admitted: int = 0
    held: int = 0
    removed: int = 0
    weighted: int = 0
    closed: int = 0
    received: int = 0
    handed: int = 0


class Span(NamedTuple):
    """A tenure of a version of that size, from when to when, if it ended, and whether it is the first and the last."""

    size: int
    since: int
    end: Optional[int]
    is_first: int
    is_last: int


def sums_with(sums: Sums, span: Span) -> Sums:
    """The sums with one tenure more."""
    size, since = span.size, span.since // DAY
    admitted, received = (size, 0) if span.is_first else (0, size)
    sums = sums._replace(admitted=sums.admitted + admitted, received=sums.received + received)
    if span.end is None:
        return sums._replace(held=sums.held + size, weighted=sums.weighted + size * since)
    closed = sums.closed + size * max(0, span.end // DAY - since)
    if span.is_last:
        return sums._replace(closed=closed, removed=sums.removed + size)
    return sums._replace(closed=closed, handed=sums.handed + size)


def sums_of_departments(base: sqlite3.Connection) -> dict[str, Sums]:
    """The sums over the tenures of each department. A tenure ends as the version's next begins, or with its removal."""
    found: dict[str, Sums] = collections.defaultdict(Sums)
    rows = base.execute(
        "SELECT t.dept, e.size, t.moment, coalesce(lead(t.moment) OVER w, e.removed), lag(t.n) OVER w IS NULL,"
        " lead(t.n) OVER w IS NULL FROM tenures AS t JOIN entries AS e ON e.id = t.id"
        " WINDOW w AS (PARTITION BY t.id ORDER BY t.n)"
    )
    for dept, *span in rows:
        found[dept] = sums_with(found[dept], Span(*span))
    return found


def look_at_departments(base: sqlite3.Connection, meta: Meta) -> Faults:
    found = sums_of_departments(base)
    rows = base.execute(
        "SELECT name, admitted, held, removed, weighted, closed, received, handed FROM departments ORDER BY name"
    )
    for name, *row in rows:
        sums = found.get(name, Sums())
        for label, stored, counted in zip(Sums._fields, row, sums):
            if stored != counted:
                yield f"department {name} says {label} {stored}, and its tenures come to {counted}"
        if sums.admitted + sums.received > QUOTA:
            yield f"department {name} admitted and received more than {QUOTA} bytes"


def look_at_callers(base: sqlite3.Connection, meta: Meta) -> Faults:
    """No two have one name, as that is the key; and that a department is there is a foreign key."""
    yield from ()


def action_faults(days: Optional[int], lone: int, noncurrent_days: Optional[int]) -> Faults:
    if days is None and not lone and noncurrent_days is None:
        yield "it has no action"
    if days is not None and lone:
        yield "it has Days and ExpiredObjectDeleteMarker"


def look_at_rules(base: sqlite3.Connection, meta: Meta) -> Faults:
    bucket, ids = "", set[str]()
    for name, n, id, days, lone, noncurrent in base.execute(
        "SELECT bucket, n, id, days, lone, nc_days FROM rules ORDER BY bucket, n"
    ):
        if name != bucket:
            bucket, ids = name, set()
        if n != len(ids) + 1:
            yield f"bucket {name} has a rule at {n}, and none at {len(ids) + 1}"
        if id in ids:
            yield f"bucket {name} has two rules {id!r}"
        yield from (f"rule {n} of bucket {name}: {it}" for it in action_faults(days, lone, noncurrent))
        ids.add(id)


def look_at_entries(base: sqlite3.Connection, meta: Meta) -> Faults:
    low = 0
    for place, (id, admitted) in enumerate(base.execute("SELECT id, admitted FROM entries ORDER BY id"), 1):
        if id != place:
            yield f"entry {id} stands where {place} has to be"
        if admitted < low:
            yield f"entry {id} was admitted at {moment_text(admitted)}, before the entry before it"
        low = admitted


def look_at_contents(base: sqlite3.Connection, meta: Meta) -> Faults:
    for (id,) in base.execute(
        "SELECT e.id FROM contents JOIN entries AS e USING (id) WHERE e.marker OR e.removed IS NOT NULL"
    ):
        yield f"entry {id} has a content, and isn't a held version"
    for id, content, size, digest in base.execute(
        "SELECT c.id, c.bytes, e.size, e.digest FROM contents AS c JOIN entries AS e ON e.id = c.id"
    ):
        if len(content) != size:
            yield f"version {id} has {len(content)} bytes, and its size is {size}"
        elif hashlib.sha256(content).digest() != digest:
            yield f"version {id} has bytes of another digest than its own"


def look_at_external(base: sqlite3.Connection, meta: Meta) -> Faults:
    """The size and the digest of a content that is kept outside are those of its entry: there is nothing to compare."""
    if not meta.is_external:
        return
    for id, is_inside in base.execute(
        "SELECT e.id, c.id IS NOT NULL FROM external JOIN entries AS e USING (id) LEFT JOIN contents AS c USING (id)"
        " WHERE c.id IS NOT NULL OR e.marker OR e.removed IS NOT NULL"
    ):
        yield f"version {id} is kept outside and inside" if is_inside else f"entry {id} isn't a held version"


def look_at_held(base: sqlite3.Connection, meta: Meta) -> Faults:
    outside = " UNION SELECT id FROM external" if meta.is_external else ""
    for (id,) in base.execute(
        "SELECT id FROM entries WHERE NOT marker AND removed IS NULL"
        f" AND id NOT IN (SELECT id FROM contents{outside})"
    ):
        yield f"version {id} is held and has no content"


def look_at_settings(base: sqlite3.Connection, meta: Meta) -> Faults:
    for id, n, place in base.execute(
        "SELECT id, n, row_number() OVER (PARTITION BY id ORDER BY n) AS place FROM settings"
    ):
        if n != place:
            yield f"version {id} has a setting at {n}, and none at {place}"
    for id, marker in base.execute(
        "SELECT id, marker FROM entries WHERE (id IN (SELECT id FROM settings)) = marker"
    ):
        yield f"marker {id} has a setting" if marker else f"version {id} has no setting"


def look_at_intake(base: sqlite3.Connection, meta: Meta) -> Faults:
    for bucket, batch, line, id in base.execute(
        "SELECT i.bucket, i.batch, i.line, i.id FROM intake AS i JOIN entries AS e ON e.id = i.id"
        " WHERE (i.bucket, i.key, i.size, i.digest) IS NOT (e.bucket, e.key, e.size, e.digest)"
    ):
        yield f"line {line} of batch {batch} into {bucket} names version {id} of another bucket, key, size or digest"


def look_at_heads(base: sqlite3.Connection, meta: Meta) -> Faults:
    held = base.execute(
        "SELECT bucket, key, max(id), count(*) FROM entries WHERE removed IS NULL GROUP BY bucket, key"
    )
    wanted = {(bucket, key): (newest, count) for bucket, key, newest, count in held}
    for bucket, key, newest, count in base.execute("SELECT bucket, key, newest, count FROM heads"):
        counted = wanted.pop((bucket, key), None)
        if counted != (newest, count):
            yield f"key {key!r} of bucket {bucket} says {newest} is the newest of {count}, and it holds {counted}"
    for bucket, key in wanted:
        yield f"key {key!r} of bucket {bucket} holds an entry and has no head"


class Step(NamedTuple):
    """A tenure beside its version, its bucket's department, and the tenures before and after it."""

    id: int
    number: int
    dept: str
    since: int
    admitted: int
    removed: Optional[int]
    owner: str
    before_number: Optional[int]
    before_dept: Optional[str]
    before_since: Optional[int]
    is_last: int


def steps_of(base: sqlite3.Connection) -> Iterator[Step]:
    rows = base.execute(
        "SELECT t.id, t.n, t.dept, t.moment, e.admitted, e.removed, b.dept, lag(t.n) OVER w, lag(t.dept) OVER w,"
        " lag(t.moment) OVER w, lead(t.n) OVER w IS NULL FROM tenures AS t JOIN entries AS e ON e.id = t.id"
        " JOIN buckets AS b ON b.name = e.bucket WINDOW w AS (PARTITION BY t.id ORDER BY t.n)"
    )
    return (Step(*row) for row in rows)


def step_faults(step: Step, meta: Meta) -> Faults:
    if step.number > meta.moves:
        yield f"it is of move {step.number}, and {meta.moves} were made"
    if step.since > (meta.last if step.removed is None else step.removed):
        yield "it begins after the version's end"
    if step.before_number is None or step.before_since is None:
        if step.number != 0 or step.since != step.admitted:
            yield "it is the first, and doesn't begin with the admission"
    elif step.since < step.before_since or step.dept == step.before_dept:
        yield "it begins before the one before it, or is of the same department"
    if step.is_last and step.removed is None and step.dept != step.owner:
        yield f"it is the last of a held version, and the bucket is of {step.owner}"


def look_at_tenures(base: sqlite3.Connection, meta: Meta) -> Faults:
    for id, marker in base.execute("SELECT id, marker FROM entries WHERE (id IN (SELECT id FROM tenures)) = marker"):
        yield f"marker {id} has a tenure" if marker else f"version {id} has no tenure"
    for step in steps_of(base):
        for why in step_faults(step, meta):
            yield f"tenure {step.number} of version {step.id}, of {step.dept}: {why}"


BESIDE: tuple[tuple[str, Callable[[sqlite3.Connection, Meta], Faults]], ...] = (
    ("meta", look_at_next),
    ("departments", look_at_departments),
    ("callers", look_at_callers),
    ("rules", look_at_rules),
    ("entries", look_at_entries),
    ("contents", look_at_contents),
    ("external", look_at_external),
    ("contents", look_at_held),
    ("settings", look_at_settings),
    ("intake", look_at_intake),
    ("heads", look_at_heads),
    ("tenures", look_at_tenures),
)


# ---- all of it


def refuse_first(table: str, faults: Faults) -> None:
    for why in faults:
        raise Damaged(table, why)


def audit_tables(base: sqlite3.Connection) -> None:
    schema = forms.schema_of(base)
    different = forms.first_difference(base, schema)
    refuse_first("meta", look_at_file(base))
    meta: Optional[Meta] = None
    for table in forms.TABLES[schema]:
        if different is not None and different.table == table.name:
            raise Damaged(*different)
        if table.name == "meta":
            refuse_first("meta", look_at_meta(base, table))
            meta = meta_of(base)
        elif meta is not None:
            refuse_first(table.name, look_at_rows(base, table, meta))
    if meta is None:
        raise Damaged("meta", "there is no such table")
    for name, look in BESIDE:
        refuse_first(name, look(base, meta))


def audit(base: sqlite3.Connection) -> None:
    """`Damaged` with the first table that isn't a vault's, and the row of it; nothing where all fit together."""
    try:
        audit_tables(base)
    except sqlite3.Error as error:
        raise Damaged("meta", f"it can't be read: {error}") from error
