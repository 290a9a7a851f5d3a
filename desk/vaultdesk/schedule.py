"""The retention schedule of a department, kept as versions of a document; and the events from which classes count."""

from __future__ import annotations

import argparse
import csv
import io
import json
from collections.abc import Callable, Iterator, Mapping
from dataclasses import astuple, dataclass, replace
from pathlib import Path
from typing import Any

from vaultdesk import book, cards, classes, dates, moments, reading
from vaultdesk.asking import add_yes, confirm
from vaultdesk.book import Kept
from vaultdesk.cards import Card
from vaultdesk.classes import COLUMNS, EVENT, WAITING, Class
from vaultdesk.engine import Engine
from vaultdesk.errors import DeskError, Refused, UsageError
from vaultdesk.output import counted_off, print_json, print_table, refusals, say

KEY, EVENTS = "schedule.csv", "events/"
CHANGES = ("class", "change", "what")
SET = ("version", "bucket", "key", "mode", "until", "refused")
Classes = Mapping[str, Class]
Row = dict[str, Any]


# ---- what is there


def of_content(found: Kept) -> dict[str, Class]:
    """The classes of a version of the schedule."""
    rows = list(csv.DictReader(io.StringIO(found.content.decode("utf-8", "replace"), newline="")))
    return {it["class"]: replace(classes.of_json(it), schedule=found.version) for it in rows}


def content_of(found: Classes) -> bytes:
    """The document of these classes."""
    text = io.StringIO()
    writer = csv.writer(text, lineterminator="\n")
    writer.writerow(COLUMNS)
    writer.writerows((name, *it.cells) for name, it in found.items())
    return text.getvalue().encode()


def _newest(engine: Engine) -> Kept | None:
    """The version of the schedule that counts for who asks, at the moment that is asked."""
    return book.at_moment(book.versions(engine, book.found_bucket(engine), KEY), engine.at)


def current(engine: Engine) -> Classes | None:
    """The classes of the schedule that counts for who asks; none where the department has no schedule."""
    found = _newest(engine)
    return of_content(found) if found else None


def classed(engine: Engine, card: Card) -> Card:
    """The facts with how long their class is kept, as the schedule has it now; as they are where there is no schedule.

    `UsageError` where the schedule has no such class."""
    found, name = current(engine), card.values.get("class", "")
    if found is None or not name:
        return replace(card, kept=None)
    if name not in found:
        raise UsageError(f"the schedule has no class {name!r}: it has {', '.join(found)}; nothing was changed")
    return replace(card, kept=found[name])


def lock_of(engine: Engine, card: Card) -> tuple[str, str]:
    """The mode and the end that a document with these facts gets by its class. `UsageError` where none can be said."""
    assert card.kept
    name = card.values.get("event", "")
    known = events(engine, book.found_bucket(engine), name) if name else {}
    if classes.is_waiting(card.kept, name, known):
        say(f"it waits for the event {name!r}, which sets its end")
    return classes.lock_of(card.kept, card.values.get("date", ""), name, known)


def event_key(name: str) -> str:
    """The key of an event. `UsageError` where none can have that name."""
    key = f"{EVENTS}{' '.join(name.split())}.json"
    if not name.strip() or len(key.encode()) > 1_024 or not name.isprintable():
        raise UsageError(f"{name!r} is no name of an event: it has letters, and at most 1,000 bytes")
    return key


def events(engine: Engine, bucket: str, name: str = "") -> dict[str, str]:
    """The day of each event that was reported, or of that one; of a server whose files can't be read, of none that
    isn't named."""
    key = event_key(name) if name else ""
    found = book.versions(engine, bucket, key) if key else book.kept(engine.tables, bucket, EVENTS, ".json")
    known = (json.loads(it.content) for it in found)
    return {str(it["event"]): str(it["on"]) for it in known}


# ---- the schedule


def differences(old: Classes, new: Classes) -> Iterator[Row]:
    """What is other in a schedule than in an earlier one, by classes."""
    for name in dict.fromkeys([*old, *new]):
        before, after = old.get(name), new.get(name)
        if before is None and after is not None:
            yield {"class": name, "change": "added", "what": ", ".join(filter(None, after.cells))}
        elif after is None and before is not None:
            yield {"class": name, "change": "removed", "what": ", ".join(filter(None, before.cells))}
        elif before and after and before.cells != after.cells:
            pairs = zip(COLUMNS[1:], before.cells, after.cells, strict=True)
            what = "; ".join(f"{column} {one or '-'} -> {other or '-'}" for column, one, other in pairs if one != other)
            yield {"class": name, "change": "changed", "what": what}


def set_schedule(engine: Engine, words: argparse.Namespace) -> None:
    """Puts a schedule as the one that counts from now on."""
    new = classes.read(Path(words.file), is_schedule=True)
    if not new:
        raise DeskError(f"{words.file}: there is no class: nothing was changed")
    bucket = book.bucket_of(engine)
    newest = _newest(engine)
    found = list(differences(of_content(newest) if newest else {}, new))
    version = newest.version if newest else 0
    if found or newest is None:
        version = book.put(engine, bucket, KEY, content_of(new))
    if words.json:
        print_json({"version": version, "bucket": bucket, "key": KEY, "changes": found})
        return
    print_table(found, CHANGES, as_json=False)
    same = "" if found else ", which has the same already"
    print(f"{len(new)} classes: version {version} of {KEY} in {bucket}{same}")


def show_schedule(engine: Engine, words: argparse.Namespace) -> None:
    """Prints the schedule as it is, or was."""
    found = current(engine)
    if found is None:
        raise DeskError("there is no schedule: vaultdesk schedule set puts one")
    if words.csv:
        print(content_of(found).decode(), end="")
    else:
        print_table([dict(zip(COLUMNS, (name, *it.cells))) for name, it in found.items()], COLUMNS, words.json)


def diff_schedule(engine: Engine, words: argparse.Namespace) -> None:
    """Prints what is other in a file than in the schedule, or in the schedule than in the one before it."""
    there_are = book.versions(engine, book.found_bucket(engine), KEY)
    new = classes.read(Path(words.file), is_schedule=True) if words.file else None
    if not there_are:
        raise DeskError("there is no schedule: vaultdesk schedule set puts one")
    last = of_content(there_are[-1])
    before = of_content(there_are[-2]) if len(there_are) > 1 else {}
    found = list(differences(before, last) if new is None else differences(last, new))
    print_table(found, CHANGES, words.json)
    if not found and not words.json:
        say("nothing is other")


# ---- events


@dataclass(frozen=True)
class Waiting:
    """A version that waits for an event, or its facts, with the retention that it gets."""

    version: int
    bucket: str
    key: str
    mode: str
    until: str


def _waiting(engine: Engine, name: str, day: str, department: str) -> list[Waiting]:
    """The versions of a department that wait for an event, each followed by its facts, with what they get if it was on
    that day. An end that has passed is tomorrow's midnight."""
    file, now = engine.tables, engine.at or moments.now()
    held = {it["version"]: it for it in reading.query(file, "held", at=now) if it["department"] == department}
    noted, facts = cards.all_in(file), cards.versions_in(file)
    soonest = f"{moments.day_after(now)}T00:00:00Z"
    found = []
    nothing = {"bucket": None, "prefix": None, "text": None, "sha256": None, "since": None, "before": None}
    for it in reading.query(file, "find", state="held", **nothing):
        place = (it["bucket"], it["key"], it["sha256"])
        card = noted.get(place)
        if not card or card.values.get("event") != name or not card.kept or card.kept.trigger != EVENT:
            continue
        until = max(classes.end_of(card.kept, dates.day_of(day)), soonest)
        keys = [(it["version"], it["key"]), *((number, cards.key_of(it["key"])) for number in facts[place])]
        locks = ((number, key, held.get(number)) for number, key in keys)
        found += [
            Waiting(number, it["bucket"], key, card.kept.mode, until) for number, key, lock in locks
            if lock and (lock["retention"], lock["until"]) == (WAITING, moments.LAST)
        ]  # fmt: skip
    return list(dict.fromkeys(found))


def _set_ends(engine: Engine, found: list[Waiting]) -> list[Row]:
    """Sets the retention of each, and returns its row; one that is refused says why."""
    rows = []
    for it in counted_off(found, "ends were set"):
        row = {**dict(zip(SET, astuple(it))), "refused": ""}
        try:
            place = {"bucket": it.bucket, "key": it.key, "id": it.version}
            engine.ask("set-retention", **place, mode=it.mode, until=it.until, bypass=True)
        except Refused as error:
            row["refused"] = str(error)
        rows.append(row)
    return rows


def _question(found: list[Waiting], name: str) -> str:
    ends = sorted(it.until for it in found)
    fixed = sum(it.mode == "COMPLIANCE" for it in found)
    between = f": the first end is {ends[0]}, the last {ends[-1]}" if ends else ""
    never = f"; {fixed} can't be removed by anybody before their end (COMPLIANCE)" if fixed else ""
    return f"{len(found)} versions, facts included, wait for {name!r}{between}{never}"


def event(engine: Engine, words: argparse.Namespace) -> None:
    """Reports an event: what waits for it gets the end of its class."""
    name, day = " ".join(words.event.split()), dates.day_of(words.on).isoformat()
    key, bucket = event_key(words.event), book.bucket_of(engine)
    if f"{day}T00:00:00Z" > (engine.at or moments.now()):
        raise UsageError(f"--on {day} is still to come: report it once it was")
    known = events(engine, bucket, name).get(name)
    if known not in (None, day):
        raise DeskError(f"{name!r} was reported for {known}, and what waited has its end by that: nothing was changed")
    department = book.department_of(engine)
    found = _waiting(engine, name, day, department)
    if words.dry_run:
        print_table([dict(zip(SET[:5], astuple(it))) for it in found], SET[:5], words.json)
        say(_question(found, name))
        return
    confirm(words, _question(found, name))
    if known is None:
        content = {"event": name, "on": day, "documents": [it.version for it in found]}
        book.put(engine, bucket, key, json.dumps(content, ensure_ascii=False).encode())
    rows = _set_ends(engine, found)
    if words.json:
        print_json({"event": name, "on": day, "key": key, "documents": rows})
    else:
        print_table(rows, SET if any(it["refused"] for it in rows) else SET[:5], as_json=False)
        print(f"{name!r} was on {day}: {key} in {bucket}")
    refused = [it["refused"] for it in rows if it["refused"]]
    if refused:
        raise DeskError(f"{refusals(refused, len(rows))}: give the command again once that is mended")


# ---- the words


def _kind(
    kinds: Any, common: argparse.ArgumentParser, run: Callable[[Engine, argparse.Namespace], None], *texts: str
) -> Any:
    name = run.__name__.partition("_")[0]
    it = kinds.add_parser(name, parents=[common], help=texts[0], epilog=f"Example: vaultdesk {texts[1]}")
    it.set_defaults(run=run)
    return it


def add(commands: argparse._SubParsersAction[argparse.ArgumentParser], common: argparse.ArgumentParser) -> None:
    """Adds the subcommands to the desk's words."""
    what = "the retention schedule of a department: how long each class is kept, from when on, by which authority"
    kinds = commands.add_parser("schedule", help=what).add_subparsers(dest="kind", required=True, metavar="KIND")
    columns = "CSV or xlsx with the columns class, years, mode, trigger, authority"
    texts = ("put a schedule, which counts from now on", "schedule set classes.csv")
    _kind(kinds, common, set_schedule, *texts).add_argument("file", metavar="FILE", help=columns)
    texts = ("print the schedule: of a past moment too (--at)", "schedule show --at 2025-01-01")
    it = _kind(kinds, common, show_schedule, *texts)
    it.add_argument("--csv", action="store_true", help="print CSV, which set takes")
    texts = ("what the last change was, or what a file would change", "schedule diff classes.csv")
    _kind(kinds, common, diff_schedule, *texts).add_argument("file", nargs="?", metavar="FILE", help=columns)

    what = "report an event, as that a case was closed: what waits for it gets the end of its class"
    example = 'Example: vaultdesk event "case 17 closed" --on 2024-03-01 --as gov'
    it = commands.add_parser("event", parents=[common], help=what, epilog=example)
    it.add_argument("event", metavar="NAME", help="as the facts of the documents have it")
    it.add_argument("--on", metavar="DATE", required=True, help="the day on which it was")
    add_yes(it)
    it.set_defaults(run=event)
