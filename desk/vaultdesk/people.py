"""Who is who: the persons behind the callers' names, from when to when, as a document of the vault."""

from __future__ import annotations

import argparse
import csv
import io
from collections.abc import Iterable, Sequence
from dataclasses import astuple, dataclass, replace
from pathlib import Path

from vaultdesk import book, moments, reading
from vaultdesk.engine import Engine
from vaultdesk.errors import DeskError, UsageError
from vaultdesk.output import print_done, print_table, say

KEY = "people.csv"
COLUMNS = ("caller", "name", "from", "until")


@dataclass(frozen=True)
class Person:
    """A person who is a caller from one moment on, and until another one; until now where that is empty."""

    caller: str
    name: str
    since: str
    until: str = ""

    def is_at(self, moment: str) -> bool:
        """Whether the person is that caller at a moment."""
        return self.since <= moment and (not self.until or moment < self.until)

    def overlaps(self, other: Person) -> bool:
        """Whether both are the same caller at some moment."""
        is_before = self.until and self.until <= other.since or other.until and other.until <= self.since
        return self.caller == other.caller and not is_before

    @property
    def span(self) -> str:
        """From when to when, in words."""
        return f"from {self.since[:10]}" + (f" until {self.until[:10]}" if self.until else "")


People = Sequence[Person]


def read(content: bytes) -> list[Person]:
    """The persons of a version of the document."""
    rows = list(csv.reader(io.StringIO(content.decode("utf-8", "replace"), newline="")))
    return [Person(*it) for it in rows[1:] if len(it) == len(COLUMNS)]


def _text(found: Iterable[Person]) -> bytes:
    text = io.StringIO()
    writer = csv.writer(text, lineterminator="\n")
    writer.writerow(COLUMNS)
    writer.writerows(map(astuple, sorted(found, key=lambda it: (it.caller, it.since))))
    return text.getvalue().encode()


def all_of(file: Path) -> list[Person]:
    """The persons whom the departments of a vault have noted."""
    newest = [book.at_moment([it for it in book.kept(file, bucket, KEY) if it.key == KEY], None)
              for bucket in book.buckets(file)]  # fmt: skip
    return [person for it in newest if it for person in read(it.content)]


def name_at(found: People, caller: str, moment: str) -> str:
    """The name of the person who was a caller at a moment; empty where none is noted."""
    return next((it.name for it in found if it.caller == caller and it.is_at(moment)), "")


def with_name(found: People, caller: str, moment: str) -> str:
    """A caller, with the person's name where one is noted: `ann (Anna Berg)`."""
    name = name_at(found, caller, moment)
    return f"{caller} ({name})" if name else caller


# ---- the words


def _added(there: People, new: Person) -> list[Person]:
    """The persons with one more. Who was that caller until now is it until the new one begins. `DeskError` where two
    would be one caller at a time."""
    same = [it for it in there if (it.caller, it.name, it.since) == (new.caller, new.name, new.since)]
    others = [it for it in there if it not in same]
    ended = [
        replace(it, until=new.since) if it.caller == new.caller and not it.until and it.since < new.since else it
        for it in others
    ]
    both = next((it for it in ended if it.overlaps(new)), None)
    if both:
        raise DeskError(f"{new.caller} is {both.name} {both.span}: give another --from or --until; nothing was changed")
    for old in (it for it, now in zip(others, ended, strict=True) if it != now):
        say(f"{old.caller} is {old.name} until {new.since[:10]}")
    return [*ended, new]


def add_person(engine: Engine, words: argparse.Namespace) -> None:
    """Notes who a caller is."""
    now = engine.at or moments.now()
    since = moments.read(words.since) if words.since else f"{now[:10]}T00:00:00Z"
    new = Person(words.caller_named, " ".join(words.name.split()), since, moments.read(words.until or since))
    new = new if words.until else replace(new, until="")
    if new.until and new.until <= new.since:
        raise UsageError(f"--until {words.until} isn't after --from {words.since}: nothing was changed")
    if not new.name:
        raise UsageError("a person has a name: nothing was changed")
    bucket = book.bucket_of(engine)
    if not reading.rows(engine.tables, "SELECT 1 FROM callers WHERE name = ?", (new.caller,)):
        raise DeskError(f"the vault has no caller {new.caller!r}: vaultdesk callers lists them; nothing was changed")
    newest = book.at_moment(book.versions(engine, bucket, KEY), None)
    found = _added(read(newest.content) if newest else [], new)
    version = book.put(engine, bucket, KEY, _text(found))
    if not words.json:
        print(f"{new.caller} is {new.name} {new.span}: version {version} of {KEY} in {bucket}")
    print_done(words.json, caller=new.caller, name=new.name, version=version, bucket=bucket, key=KEY)


def list_people(engine: Engine, words: argparse.Namespace) -> None:
    """Lists who the callers are, and were."""
    rows = [dict(zip(COLUMNS, astuple(it), strict=True)) for it in all_of(engine.tables)]
    print_table(rows, COLUMNS, words.json)
    if not rows and not words.json:
        say("nobody is noted: vaultdesk people add does that")


def add(commands: argparse._SubParsersAction[argparse.ArgumentParser], common: argparse.ArgumentParser) -> None:
    """Adds the subcommands to the desk's words."""
    what = "who is who: the persons whose names the callers have, from when to when"
    kinds = commands.add_parser("people", help=what).add_subparsers(dest="kind", required=True, metavar="KIND")

    example = 'Example: vaultdesk people add ann "Anna Berg" --from 2024-01-15'
    text = "note who a caller is; who was it before is it until then"
    it = kinds.add_parser("add", parents=[common], help=text, epilog=example)
    it.add_argument("caller_named", metavar="CALLER", help="the caller's name")
    it.add_argument("name", metavar="NAME", help="the person's name")
    it.add_argument("--from", dest="since", metavar="DATE", help="from that day on (default: today)")
    it.add_argument("--until", metavar="DATE", help="up to that day, which isn't included")
    it.set_defaults(run=add_person)

    example = "Example: vaultdesk people list"
    it = kinds.add_parser("list", parents=[common], help="list who the callers are, and were", epilog=example)
    it.set_defaults(run=list_people)
