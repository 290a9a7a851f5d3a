"""Whether what an earlier copy of a vault had stands unaltered in a later one, and nothing was slipped in since.

Both are tables that fit together. What may differ is what commands change: an entry of the earlier copy may have been
removed since, have settings and tenures more, a caller may have been closed, a bucket moved and its default and rules
set anew. A content stays inside or outside. All that is in the later copy alone has to be of the earlier one's last
moment, or after it.
"""

import sqlite3
from typing import Iterator, NamedTuple, Optional, TypeVar

from vault_recheck.vault import (
    CAUSES, Entry, History, Meta, Setting, Tenure, callers_of, histories_of, meta_of, moment_text,
)  # fmt: skip

Differences = Iterator[str]
Part = TypeVar("Part", Setting, Tenure)


class Line(NamedTuple):
    """A line of an intake, what it asked for, and the version that it names."""

    bucket: str
    batch: str
    line: int
    key: str
    size: int
    digest: bytes
    mode: int
    until: Optional[int]
    hold: Optional[int]
    id: int

    def place(self) -> tuple[str, str, int]:
        return self.bucket, self.batch, self.line

    def text(self) -> str:
        return f"line {self.line} of batch {self.batch} into {self.bucket}"


def is_before(at: Optional[int], end: int) -> bool:
    return at is not None and at < end


def too_early(what: str, at: int) -> str:
    """What is said of a thing that OLD hasn't, and that would have been there."""
    return f"{what} isn't in OLD, and is of {moment_text(at)}, before OLD's last moment"


# ---- entries with their settings and tenures


def admission_differences(old: Entry, new: Entry) -> Differences:
    for name in ("bucket", "key", "marker", "size", "digest", "admitted", "by_rule", "admitted_by"):
        before, after = getattr(old, name), getattr(new, name)
        if before != after:
            yield f"entry {old.id}: {name} was {shown(before)}, and is {shown(after)}"


def shown(value: object) -> str:
    return value.hex() if isinstance(value, bytes) else repr(value)


def removal_text(entry: Entry) -> str:
    if entry.removed is None:
        return "none"
    return f"of {moment_text(entry.removed)} ({CAUSES[entry.cause or 0]} {entry.cause_by})"


def removal_differences(old: Entry, new: Entry, end: int) -> Differences:
    before, after = (old.removed, old.cause, old.cause_by), (new.removed, new.cause, new.cause_by)
    if old.removed is not None and before != after:
        yield f"entry {old.id}: its removal was {removal_text(old)}, and is {removal_text(new)}"
    if old.removed is None and is_before(new.removed, end):
        yield too_early(f"the removal of entry {old.id}", new.removed or 0)


def part_differences(what: str, old: list[Part], new: list[Part]) -> Differences:
    """Those of OLD stand in front of those of NEW; what comes after them is left to its own test."""
    for at, it in enumerate(old):
        if at >= len(new):
            yield f"{what} {at + 1} of version {it.id} is gone: {it.text()}"
        elif it != new[at]:
            yield f"{what} {at + 1} of version {it.id} was {it.text()}, and is {new[at].text()}"


def added_differences(settings: list[Setting], tenures: list[Tenure], old: Meta) -> Differences:
    for setting in settings:
        if setting.at < old.last:
            yield too_early(f"setting {setting.n} of version {setting.id}", setting.at)
    for tenure in tenures:
        if tenure.since < old.last:
            yield too_early(f"tenure {tenure.number} of version {tenure.id}", tenure.since)
        elif 0 < tenure.number <= old.moves:
            yield f"tenure {tenure.number} of version {tenure.id} isn't in OLD, and is of a move that OLD had"


def history_differences(old: History, new: History, meta: Meta) -> Differences:
    yield from admission_differences(old.entry, new.entry)
    yield from removal_differences(old.entry, new.entry, meta.last)
    yield from part_differences("setting", old.settings, new.settings)
    yield from part_differences("tenure", old.tenures, new.tenures)
    yield from added_differences(new.settings[len(old.settings):], new.tenures[len(old.tenures):], meta)


def new_history_differences(new: History, meta: Meta) -> Differences:
    """Of an entry that OLD hasn't."""
    if new.entry.admitted < meta.last:
        yield too_early(f"entry {new.entry.id}", new.entry.admitted)
    yield from added_differences(new.settings, new.tenures, meta)


def all_history_differences(old: sqlite3.Connection, new: sqlite3.Connection, meta: Meta) -> Differences:
    histories = histories_of(new)
    for before in histories_of(old):
        after = next(histories, None)
        if after is None:
            yield f"entry {before.entry.id} is gone"
        else:
            yield from history_differences(before, after, meta)
    for after in histories:
        yield from new_history_differences(after, meta)


# ---- what is kept outside


def in_and_out(inside: sqlite3.Connection, outside: sqlite3.Connection) -> Iterator[int]:
    """The versions whose content the one copy has, and of which the other says that it is kept outside."""
    if meta_of(outside).is_external:
        for (id,) in outside.execute("SELECT id FROM external ORDER BY id"):
            if inside.execute("SELECT id FROM contents WHERE id = ?", (id,)).fetchone():
                yield id


def place_differences(old: sqlite3.Connection, new: sqlite3.Connection) -> Differences:
    """No command takes a content out of the tables, or into them."""
    yield from (f"version {it} had its content inside, and has it kept outside" for it in in_and_out(old, new))
    yield from (f"version {it} had its content kept outside, and has it inside" for it in in_and_out(new, old))


# ---- lines of intakes


def lines_of(base: sqlite3.Connection) -> Iterator[Line]:
    columns = ", ".join(Line._fields)
    for row in base.execute(f"SELECT {columns} FROM intake ORDER BY bucket, batch, line"):
        yield Line(*row)


def line_differences(old: sqlite3.Connection, new: sqlite3.Connection, meta: Meta) -> Differences:
    """Both come by bucket, batch and line, so they go side by side."""
    lines = lines_of(new)
    after = next(lines, None)
    for before in lines_of(old):
        while after is not None and after.place() < before.place():
            yield from new_line_differences(after, meta)
            after = next(lines, None)
        if after is None or after.place() != before.place():
            yield f"{before.text()} is gone"
            continue
        for name, was, is_now in zip(Line._fields, before, after):
            if was != is_now:
                yield f"{before.text()}: {name} was {shown(was)}, and is {shown(is_now)}"
        after = next(lines, None)
    while after is not None:
        yield from new_line_differences(after, meta)
        after = next(lines, None)


def new_line_differences(line: Line, meta: Meta) -> Differences:
    """A line is kept with the admission of its version, so a line more names an entry more."""
    if line.id < meta.next:
        yield f"{line.text()} isn't in OLD, and names version {line.id}, which is"


# ---- what has names


def caller_differences(old: sqlite3.Connection, new: sqlite3.Connection) -> Differences:
    after = callers_of(new)
    for name, before in callers_of(old).items():
        caller = after.get(name)
        if caller is None:
            yield f"caller {name} is gone"
        elif (caller.dept, caller.rights) != (before.dept, before.rights):
            was, is_now = (f"{it.dept or 'none'} with rights {it.rights}" for it in (before, caller))
            yield f"caller {name} was of {was}, and is of {is_now}"
        elif before.closed and not caller.closed:
            yield f"caller {name} was closed, and is open"


def names_of(base: sqlite3.Connection, table: str) -> set[str]:
    return {name for (name,) in base.execute(f"SELECT name FROM {table}")}


def name_differences(old: sqlite3.Connection, new: sqlite3.Connection) -> Differences:
    for table in ("departments", "buckets"):
        for name in sorted(names_of(old, table) - names_of(new, table)):
            yield f"{name} is gone from {table}"


def meta_differences(old: sqlite3.Connection, new: sqlite3.Connection) -> Differences:
    before, after = meta_of(old), meta_of(new)
    if after.last < before.last:
        yield f"the last moment was {moment_text(before.last)}, and is {moment_text(after.last)}"
    if after.moves < before.moves:
        yield f"{before.moves} moves were made, and {after.moves} are"
    yield from owner_differences(old, new, after.moves - before.moves)


def owner_differences(old: sqlite3.Connection, new: sqlite3.Connection, moves: int) -> Differences:
    """Each bucket that is another department's took a move, and a single move makes one another department's."""
    query = "SELECT name, dept FROM buckets ORDER BY name"
    before, after = dict(old.execute(query)), dict(new.execute(query))
    moved = [name for name, dept in before.items() if after.get(name, dept) != dept]
    if len(moved) > moves:
        made = "no move was" if moves < 1 else f"{moves} moves were"
        for name in moved:
            yield f"bucket {name} was of {before[name]}, and is of {after[name]}, and {made} made since"
    if moves == 1 and not moved and before.keys() >= after.keys():
        yield "a move was made since, and each bucket is of the department that it was of"


def differences(old: sqlite3.Connection, new: sqlite3.Connection) -> Differences:
    """What of OLD isn't in NEW as it was, and what NEW has more of from before OLD's last moment, a line each."""
    meta = meta_of(old)
    yield from meta_differences(old, new)
    yield from name_differences(old, new)
    yield from caller_differences(old, new)
    yield from all_history_differences(old, new, meta)
    yield from place_differences(old, new)
    yield from line_differences(old, new, meta)
