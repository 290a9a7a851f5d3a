"""All that ever happened to each entry, as CSV, and seals of what lies before a moment."""

import csv
import functools
import hashlib
import io
import itertools
import re
import sqlite3
import sys
from typing import Iterable, Iterator, NamedTuple, Optional, TextIO

from vault_recheck.vault import (
    CAUSES, MODES, Entry, History, Setting, histories_of, meta_of, moment_of, moment_text,
)  # fmt: skip

HEADER = "version,event,moment,by,bucket,key,kind,size,sha256,mode,until,hold,bypass,cause,department,move\n"
ENTRIES_AT_ONCE = 1_000
LABELS = ("before", "entries", "events", "sha256")
MOMENT = r"\d{4}-\d\d-\d\dT\d\d:\d\d:\d\dZ"
# What a seal consists of, one by one: a beginning of it is any number of these, from the first on.
ATOMS = [
    *"before: ", *re.findall(r"\\d|[^{}\\]", MOMENT.replace(r"\d{4}", r"\d" * 4)), r"\n+",
    *"entries: ", r"\d+", r"\n+", *"events: ", r"\d+", r"\n+", *"sha256: ", *["[0-9a-f]"] * 64,
]  # fmt: skip
WHOLE = re.compile(rf"before: ({MOMENT})\n+entries: (\d+)\n+events: (\d+)\n+sha256: ([0-9a-f]{{64}})(?=[\s\0]|$)")
BEGUN = re.compile(functools.reduce(lambda rest, atom: f"(?:{atom}{rest})?", reversed(ATOMS[:-1]), ""))


class TooLate(Exception):
    """A seal of a moment that the vault hasn't reached: later changes could still come before it."""


class Event(NamedTuple):
    at: int
    is_admission: bool
    text: str


class Seal(NamedTuple):
    """What lies before a moment: how many admissions, how many events, and the digest of their text."""

    before: int
    entries: int
    events: int
    sha256: str

    def text(self) -> str:
        values = (moment_text(self.before), self.entries, self.events, self.sha256)
        return "".join(f"{label}: {value}\n" for label, value in zip(LABELS, values))


class Sealed(NamedTuple):
    """What a file of seals has: the seals, and a line for each that was cut as it was written."""

    seals: list[Seal]
    torn: list[str]


# ---- events


def row_text(cells: Iterable[object]) -> str:
    """A row as Python's csv module writes it by default, but for the LF at its end."""
    out = io.StringIO()
    csv.writer(out, lineterminator="\n").writerow(cells)
    return out.getvalue()


def lock_cells(setting: Setting) -> list[str]:
    until = "" if setting.until is None else moment_text(setting.until)
    return [MODES[setting.mode], until, "ON" if setting.hold else "OFF", "true" if setting.bypass else "false"]


def event(entry: Entry, what: str, at: int, by: str, lock: Iterable[str], last: Iterable[object]) -> Event:
    """One event: what the entry was from its admission on stands in the middle of each row."""
    digest = "" if entry.digest is None else entry.digest.hex()
    kind = "marker" if entry.marker else "version"
    cells = [entry.id, what, moment_text(at), by, entry.bucket, entry.key, kind, entry.size, digest, *lock, *last]
    return Event(at, what == "admitted", row_text(cells))


def events_of(history: History) -> Iterator[Event]:
    """The admission, the settings by n, the later tenures by number, and the removal."""
    entry, no_lock = history.entry, [""] * 4
    author = f"rule {entry.admitted_by}" if entry.by_rule else entry.admitted_by
    first = history.tenures[0].dept if history.tenures else ""
    yield event(entry, "admitted", entry.admitted, author, no_lock, ["", first, ""])
    for setting in history.settings:
        yield event(entry, "locked", setting.at, setting.by, lock_cells(setting), ["", "", ""])
    for tenure in history.tenures[1:]:
        yield event(entry, "moved", tenure.since, "", no_lock, ["", tenure.dept, tenure.number])
    if entry.removed is not None:
        yield event(entry, "removed", entry.removed, entry.cause_by or "", no_lock, [CAUSES[entry.cause or 0], "", ""])


def write_events(base: sqlite3.Connection, before: Optional[int], out: TextIO) -> None:
    """The header and the events by rising id; those alone that are before a moment, where one is given."""
    out.write(HEADER)
    for history in histories_of(base):
        out.writelines(it.text for it in events_of(history) if before is None or it.at < before)


# ---- seals


class Sealing:
    """A seal that grows as events come."""

    def __init__(self, before: int) -> None:
        self.before, self.entries, self.events = before, 0, 0
        self.digest = hashlib.sha256(HEADER.encode())

    def add(self, entries: int, events: int, text: bytes) -> None:
        self.entries += entries
        self.events += events
        self.digest.update(text)

    def seal(self) -> Seal:
        return Seal(self.before, self.entries, self.events, self.digest.hexdigest())


def add_all(sealings: list[Sealing], events: list[Event]) -> None:
    """Adds to each seal those of these events that are before its moment; most seals take all of them or none."""
    first, last = min(it.at for it in events), max(it.at for it in events)
    whole = "".join(it.text for it in events).encode()
    admissions = sum(it.is_admission for it in events)
    for sealing in sealings:
        if last < sealing.before:
            sealing.add(admissions, len(events), whole)
        elif first < sealing.before:
            some = [it for it in events if it.at < sealing.before]
            sealing.add(sum(it.is_admission for it in some), len(some), "".join(it.text for it in some).encode())


def show_progress(done: int, of: int) -> None:
    if sys.stderr.isatty():
        print(f"\r{done} of {of} entries", end="\n" if done >= of else "", file=sys.stderr, flush=True)


def seals_of(base: sqlite3.Connection, moments: list[int]) -> list[Seal]:
    """The seals of these moments, in one pass; `TooLate` where one is after the vault's last moment."""
    meta = meta_of(base)
    for it in moments:
        if it > meta.last:
            raise TooLate(f"{moment_text(it)} is after the vault's last moment, {moment_text(meta.last)}")
    sealings = [Sealing(it) for it in moments]
    histories, done = histories_of(base), 0
    while some := list(itertools.islice(histories, ENTRIES_AT_ONCE)):
        add_all(sealings, [it for history in some for it in events_of(history)])
        done += len(some)
        show_progress(done, meta.next - 1)
    return [it.seal() for it in sealings]


def torn_text(line: int, part: str) -> str:
    """What is said of a seal that was cut."""
    moment = re.match(rf"before: ({MOMENT})\n", part)
    return f"line {line}: {f'the seal of {moment[1]}' if moment else 'a seal'} was cut as it was written: it isn't compared"


def read_seals(text: str) -> Sealed:
    """The seals of a text, each of four lines, and what was cut as it was written. Blank lines may stand between.

    A cut seal is a beginning of one, and may have NULs after it, as a loss of power leaves them. What was written next
    is read from its own beginning on, on the same line too. ValueError where the text has anything else."""
    found, line = Sealed([], []), 1
    begins = sorted({0, *(it.start() for it in re.finditer("before: ", text))})
    for part in (text[it:next_one] for it, next_one in itertools.pairwise([*begins, len(text)])):
        whole = WHOLE.match(part.lstrip("\n"))
        if whole:
            before, entries, events, digest = whole.groups()
            found.seals.append(Seal(moment_of(before), int(entries), int(events), digest))
        left = part[part.index(whole[0]) + len(whole[0]):] if whole else part
        rest = left.strip("\0\n\t ")
        if not BEGUN.fullmatch(rest):
            raise ValueError(f"what begins with {rest.splitlines()[0]!r} isn't a seal, of the lines {', '.join(LABELS)}")
        if rest or "\0" in left:
            at = part.count("\n", 0, len(part) - len(left.lstrip("\n")))
            found.torn.append(torn_text(line + at, rest))
        line += part.count("\n")
    return found


def differing_seals(base: sqlite3.Connection, seals: list[Seal]) -> Iterator[str]:
    """What of these seals doesn't come out of the file, a line each."""
    last = meta_of(base).last
    for it in seals:
        if it.before > last:
            yield f"{moment_text(it.before)}: the vault's last moment is earlier, {moment_text(last)}"
    reached = [it for it in seals if it.before <= last]
    for wanted, found in zip(reached, seals_of(base, [it.before for it in reached]) if reached else []):
        if wanted != found:
            yield (
                f"{moment_text(wanted.before)}: sealed were {wanted.entries} entries, {wanted.events} events, "
                f"{wanted.sha256}; the file has {found.entries}, {found.events}, {found.sha256}"
            )


def check_seals(base: sqlite3.Connection, name: str) -> tuple[list[str], list[str]]:
    """The differences of the seals in a file of that name, and what of it was cut; ValueError where it has no seal."""
    with open(name, encoding="utf-8") as file:
        found = read_seals(file.read())
    if not found.seals:
        raise ValueError("; ".join(["there is no seal", *found.torn]))
    return list(differing_seals(base, found.seals)), found.torn
