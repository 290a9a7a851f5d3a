"""Whether commands can have made the history of each entry: the rules of locks, asked of each setting and each removal.

A history is lawful where its author may admit such an entry and was of the department of its first tenure, its first
setting is of the admission and ends after it, each later setting was permitted over the one before it, its removal was
permitted under the last one, callers had the rights that they needed, no moment goes back, the tenures of one move are
of one bucket, department and moment, and in each second it was of the department of the other versions of its bucket
that were held then. The vault has the caller with whom each begins. It is asked of tables that fit together. A caller's
rights and department are those that the file has: they never change, and no caller goes.
"""

import math
import sqlite3
from typing import Iterator, NamedTuple, Optional

from vault_recheck.vault import (
    BY_BYPASS, BY_RULE, GOVERNANCE, RIGHTS, Caller, Entry, History, Meta, Setting, Tenure, callers_of,
    histories_of, meta_of, moment_text,
)  # fmt: skip

Callers = dict[str, Caller]


class Breach(NamedTuple):
    """The first rule that an entry's history breaks, and the rows in words."""

    id: int
    rule: str
    why: str


def has_right(callers: Callers, name: Optional[str], right: str) -> bool:
    """Whether a caller of that name is there and has the right. A closed one counts: it was open once."""
    caller = callers.get(name or "")
    return caller is not None and caller.has(right)


def setting_text(setting: Setting) -> str:
    return f"setting {setting.n} ({setting.text()})"


# ---- the admission and the first setting


def may_admit(callers: Callers, entry: Entry) -> bool:
    """A version is admitted by a caller who may put; a marker by one who may delete, or by a lifecycle rule."""
    if entry.by_rule:
        return entry.marker
    return has_right(callers, entry.admitted_by, "delete" if entry.marker else "put")


def is_of_department(callers: Callers, entry: Entry, tenures: list[Tenure]) -> bool:
    """Whether who admitted a version is of the department of its first tenure, which had the bucket then. A marker has
    no tenure: its caller is of any department."""
    if entry.by_rule:
        return entry.marker
    caller = callers.get(entry.admitted_by)
    if caller is None or caller.dept is None:
        return False
    return entry.marker or (bool(tenures) and tenures[0].dept == caller.dept)


def admission_breaches(callers: Callers, entry: Entry, tenures: list[Tenure]) -> Iterator[tuple[str, str]]:
    who = f"rule {entry.admitted_by}" if entry.by_rule else entry.admitted_by
    if not may_admit(callers, entry):
        yield "admission", f"{who} isn't there or may not admit a {'marker' if entry.marker else 'version'}"
    if not is_of_department(callers, entry, tenures):
        owner = f"of {tenures[0].dept}, which had the bucket then" if tenures else "of a department"
        yield "admission", f"{who} isn't {owner}"


def first_breaches(callers: Callers, entry: Entry, first: Setting) -> Iterator[tuple[str, str]]:
    """The first setting is made with the admission, by who admitted the version; a hold that is on wants the right."""
    if first.at != entry.admitted or first.bypass or entry.by_rule or first.by != entry.admitted_by:
        yield "first-setting", (
            f"{setting_text(first)} isn't of the admission at {moment_text(entry.admitted)} by {entry.admitted_by}"
        )
    if first.until is not None and first.until <= entry.admitted:
        yield "first-setting", f"{setting_text(first)} ends by the admission at {moment_text(entry.admitted)}"
    if first.hold and not has_right(callers, first.by, "hold"):
        yield "setter", f"{setting_text(first)} has a hold, and {first.by} has no right to set one"


# ---- a setting after another


def may_retain(callers: Callers, old: Setting, new: Setting) -> bool:
    """Whether the new setting is a retention that was permitted over the old lock, by bypass exactly where it says so.

    A new retention ends after it was set, and the hold stays. Where a retention is in force, one of the same mode that
    ends no earlier is free; any other is refused under COMPLIANCE, and wants a bypass under GOVERNANCE.
    """
    if new.until is None or new.until <= new.at or new.hold != old.hold:
        return False
    in_force = old.in_force(new.at)
    if not in_force or (new.mode == in_force and old.until is not None and new.until >= old.until):
        return not new.bypass
    return in_force == GOVERNANCE and new.bypass and has_right(callers, new.by, "bypass")


def may_hold(old: Setting, new: Setting) -> bool:
    """Whether the new setting is a hold set on or off: the retention stays, and no bypass is asked."""
    return (new.mode, new.until) == (old.mode, old.until) and not new.bypass


def next_breaches(callers: Callers, old: Setting, new: Setting) -> Iterator[tuple[str, str]]:
    retains, holds = may_retain(callers, old, new), may_hold(old, new)
    if new.at < old.at:
        yield "order", f"{setting_text(new)} is before {setting_text(old)}"
    if not retains and not holds:
        yield "setting", f"{setting_text(new)} isn't permitted over {setting_text(old)}"
    retainer, holder = (has_right(callers, new.by, it) for it in ("retain", "hold"))
    if not (retains and retainer) and not (holds and holder):
        yield "setter", f"{setting_text(new)} is by a caller who isn't there or has no right to it"


# ---- the end


def may_remove(callers: Callers, entry: Entry, last: Optional[Setting]) -> bool:
    """Whether the removal was permitted under the last lock: free where nothing guards the version, by bypass where
    GOVERNANCE alone does and the caller has that right. A marker has no lock, so nothing guards it."""
    assert entry.removed is not None
    hold, mode = (last.hold, last.in_force(entry.removed)) if last else (False, 0)
    if entry.cause == BY_BYPASS:
        return not hold and mode == GOVERNANCE and has_right(callers, entry.cause_by, "bypass")
    return not hold and not mode


def removal_text(entry: Entry) -> str:
    causes = ("request of", "bypass of", "rule")
    when = moment_text(entry.removed or 0)
    return f"the removal at {when} by {causes[entry.cause or 0]} {entry.cause_by}"


def end_breaches(callers: Callers, meta: Meta, entry: Entry, last: Optional[Setting]) -> Iterator[tuple[str, str]]:
    newest = last.at if last else entry.admitted
    end = meta.last if entry.removed is None else entry.removed
    if newest > end or end > meta.last:
        yield "order", f"a setting of {moment_text(newest)} or a removal is after the end, which is {moment_text(end)}"
    if entry.removed is None:
        return
    if not may_remove(callers, entry, last):
        yield "removal", f"{removal_text(entry)} isn't permitted under {setting_text(last) if last else 'no setting'}"
    if entry.cause != BY_RULE and not has_right(callers, entry.cause_by, "delete-version"):
        yield "remover", f"{removal_text(entry)} is by a caller who isn't there or may not delete versions"


# ---- moves


class Moves:
    """The moves of buckets, each as the first tenure has it."""

    def __init__(self) -> None:
        self.first: dict[int, tuple[str, Tenure]] = {}

    def breaches(self, entry: Entry, tenures: list[Tenure]) -> Iterator[tuple[str, str]]:
        """The tenures of one move are of one bucket, one department and one moment."""
        for it in tenures:
            if it.number == 0:
                continue
            bucket, first = self.first.setdefault(it.number, (entry.bucket, it))
            if (bucket, first.dept, first.since) != (entry.bucket, it.dept, it.since):
                yield "move", (
                    f"move {it.number} is of bucket {entry.bucket} to {it.dept} at {moment_text(it.since)}, and by "
                    f"version {first.id} of bucket {bucket} to {first.dept} at {moment_text(first.since)}"
                )


# ---- departments


class Span(NamedTuple):
    """A time in which a version shows that its bucket was of a department: from `begin` until before `end`."""

    dept: str
    begin: int
    end: float
    id: int


def spans_of(entry: Entry, tenures: list[Tenure]) -> Iterator[Span]:
    """A held version is its last department's for good, as a move would give it another tenure."""
    ends = [*(it.since for it in tenures[1:]), math.inf if entry.removed is None else entry.removed]
    for tenure, end in zip(tenures, ends):
        if tenure.since < end:
            yield Span(tenure.dept, tenure.since, end, entry.id)


class Owners:
    """Which department each bucket was of, as the versions so far show. They come by their admission, so what ended
    before that of the next one isn't needed any more; times of one department that meet are kept as one."""

    def __init__(self) -> None:
        self.spans: dict[str, list[Span]] = {}

    def breaches(self, entry: Entry, tenures: list[Tenure]) -> Iterator[tuple[str, str]]:
        """In each second in which two versions of a bucket are held, they are of one department. What was within one
        second isn't asked: a move may lie on either side of it."""
        known = [it for it in self.spans.get(entry.bucket, []) if it.end > entry.admitted]
        for span in spans_of(entry, tenures):
            both = [it for it in known if it.begin < span.end and span.begin < it.end]
            for other in both:
                if other.dept != span.dept:
                    when = moment_text(max(span.begin, other.begin))
                    beside = f"version {other.id} beside it of {other.dept}"
                    yield "department", f"it is of {span.dept} at {when}, and {beside}"
            begin, end = min(it.begin for it in [span, *both]), max(it.end for it in [span, *both])
            known = [*(it for it in known if it not in both), Span(span.dept, begin, end, span.id)]
        self.spans[entry.bucket] = known


def is_first_caller(caller: Optional[Caller]) -> bool:
    """Whether a caller has no department and the right to administer alone, as the one of a new vault."""
    return caller is not None and caller.dept is None and caller.rights == RIGHTS["admin"]


# ---- all of it


def last_shown(base: sqlite3.Connection) -> int:
    """The last moment that an entry shows, as something happened to it then."""
    moments = "SELECT admitted AS at FROM entries UNION ALL SELECT removed FROM entries"
    others = "SELECT moment FROM settings UNION ALL SELECT moment FROM tenures"
    (last,) = base.execute(f"SELECT coalesce(max(at), 0) FROM ({moments} UNION ALL {others})").fetchone()
    return int(last)


def breaches_of(
    callers: Callers, meta: Meta, moves: Moves, owners: Owners, history: History
) -> Iterator[tuple[str, str]]:
    """What a history breaks, in the order in which the first is reported: from the admission to the end, then moves and
    departments."""
    entry, settings = history.entry, history.settings
    yield from admission_breaches(callers, entry, history.tenures)
    for at, new in enumerate(settings):
        if at == 0:
            yield from first_breaches(callers, entry, new)
        else:
            yield from next_breaches(callers, settings[at - 1], new)
    yield from end_breaches(callers, meta, entry, settings[-1] if settings else None)
    yield from moves.breaches(entry, history.tenures)
    yield from owners.breaches(entry, history.tenures)


def first_breach(base: sqlite3.Connection) -> Optional[Breach]:
    """The first entry by id whose history breaks a rule, and the first that it breaks. Without the caller with whom a
    vault begins it is entry 1, also where no entry is there."""
    callers, meta, moves, owners = callers_of(base), meta_of(base), Moves(), Owners()
    if not is_first_caller(callers.get("registrar")):
        return Breach(1, "registrar", "the vault has no caller registrar of no department with the right admin alone")
    for history in histories_of(base):
        for rule, why in breaches_of(callers, meta, moves, owners, history):
            return Breach(history.entry.id, rule, why)
    return None
