"""Documents by what one knows of them, and what was held at a moment: find, held."""

from __future__ import annotations

import argparse
import csv
import hashlib
import re
import sys
from collections.abc import Sequence
from pathlib import Path

from vaultdesk import cards, dates, index, moments, reading
from vaultdesk.documents import MOST
from vaultdesk.engine import Engine
from vaultdesk.errors import DeskError, UsageError, of_file
from vaultdesk.index import FOUND
from vaultdesk.output import print_json, print_rows, print_table, say
from vaultdesk.texts import folded

COLUMNS = ("version", "bucket", "size", "admitted", "by", "state", "key")
BY_FACTS = ("version", "bucket", "date", "class", "title", "sender", "reference", "removed", "key")
DAYS = ("dated_since", "dated_before")
BY_TEXT = ("title", "sender", "reference", "event", "kind")
HELD = ("department", "bucket", "version", "size", "retention", "until", "hold", "key")
# What the options of facts mean here.
FINDING = {
    "title": "a part of its title, as its facts have it", "class": "its class", "sender": "a part of its sender's name",
    "reference": "a part of its file reference", "event": "a part of the event from which its class counts",
    "field": "a part of another fact, of those that the settings name",
}  # fmt: skip
DIGEST = re.compile(r"[0-9a-fA-F]{8,64}")


def digest_of(path: Path) -> str:
    """The SHA-256 of a file's content, in hex digits. `DeskError` where it can't be read, or no version has so many
    bytes."""
    try:
        with path.open("rb") as file:
            if path.stat().st_size > MOST:
                why = f"more than {MOST:,} bytes: it can be there in parts alone, which aren't found by the whole"
                raise DeskError(f"{path}: {why}: give one of the parts, or find them by their key")
            return hashlib.file_digest(file, "sha256").hexdigest()
    except OSError as error:
        raise of_file(path, error) from error


def _wanted_digest(words: argparse.Namespace) -> str | None:
    if words.same_as:
        return digest_of(Path(words.same_as))
    if words.sha256 is not None and not DIGEST.fullmatch(words.sha256):
        raise UsageError(f"{words.sha256!r} is no digest: give its 64 hex digits, or at least the first 8")
    return str(words.sha256) if words.sha256 else None


def found_by(engine: Engine, words: argparse.Namespace, ignore_case: bool) -> list[reading.Row]:
    """The rows of the query `find` for these words."""
    rows = reading.query(
        engine.tables,
        "find",
        bucket=words.bucket,
        prefix=words.prefix,
        text=None if ignore_case else words.text,
        sha256=_wanted_digest(words),
        since=moments.read(words.since) if words.since else None,
        before=moments.read(words.before) if words.before else None,
        state=_state_wanted(words),
    )
    if words.text and ignore_case:
        rows = [it for it in rows if folded(words.text) in folded(it["key"])]
    return [it for it in rows if words.markers or it["kind"] == "version"]


def _print_csv(rows: Sequence[reading.Row], columns: Sequence[str]) -> None:
    writer = csv.DictWriter(sys.stdout, columns, extrasaction="ignore", lineterminator="\n")
    writer.writeheader()
    writer.writerows(rows)


def _state(row: reading.Row) -> str:
    state = f"removed {row['removed']}" if row["removed"] else "held"
    return state if row["kind"] == "version" else f"marker, {state}"


def _say_nothing(engine: Engine, words: argparse.Namespace) -> None:
    """Says that nothing was found, and how many there are where the case of letters is ignored."""
    others = len(found_by(engine, words, ignore_case=True)) if words.text and not words.ignore_case else 0
    say("nothing was found" + (f" letter by letter: with -i there are {others}" if others else ""))


def _state_wanted(words: argparse.Namespace) -> str | None:
    return "held" if words.held else "removed" if words.removed else None


def by_facts(engine: Engine, words: argparse.Namespace) -> list[reading.Row]:
    """The versions that have such facts. The case of letters doesn't count there, and a part of a fact is enough, but
    of a class."""
    own = cards.own(words.fields or [])
    days = {it: dates.day_of(getattr(words, it)).isoformat() for it in DAYS if getattr(words, it)}
    admitted = {it: moments.read(getattr(words, it)) for it in ("since", "before") if getattr(words, it)}
    facts = {it: folded(getattr(words, it)) for it in BY_TEXT if getattr(words, it)}
    place = {"bucket": words.bucket, "prefix": words.prefix, "sha256": _wanted_digest(words)}
    text = {"folded_text" if words.ignore_case else "text": folded(words.text) if words.ignore_case else words.text}
    rows = index.rows(engine, {**facts, **days, **admitted, **place, **text, "state": _state_wanted(words)})
    return [it for it in rows if all(folded(part) in folded(it["fields"].get(name, "")) for name, part in own.items())]


def find(engine: Engine, words: argparse.Namespace) -> None:
    """Prints the versions that are asked for."""
    is_by_facts = any(getattr(words, it) for it in (*DAYS, *BY_TEXT, "fields"))
    rows = by_facts(engine, words) if is_by_facts else found_by(engine, words, words.ignore_case)
    if words.json:
        print_json(rows)
        return
    if words.csv:
        _print_csv(rows, (*FOUND, *cards.NAMES) if is_by_facts else FOUND)
    else:
        columns = [it for it in BY_FACTS if any(row[it] for row in rows)] if is_by_facts else COLUMNS
        print_rows([{**it, "by": it["admitted_by"], "state": _state(it)} for it in rows], columns)
    if not rows and is_by_facts:
        say("nothing was found that has such facts: find without them looks at keys")
    elif not rows:
        _say_nothing(engine, words)


def held(engine: Engine, words: argparse.Namespace) -> None:
    """Prints what was held at a moment, with its retention and its legal hold of then."""
    at = engine.at or moments.now()
    rows = [
        it
        for it in reading.query(engine.tables, "held", at=at)
        if (words.bucket in (None, it["bucket"]))
        and (words.department in (None, it["department"]))
        and (not words.on_hold or it["hold"] == "ON")
        and (words.ends_before is None or it["until"] < moments.read(words.ends_before))
        and it["key"].startswith(words.prefix)
    ]
    if words.csv:
        _print_csv(rows, HELD)
    else:
        print_table(rows, HELD, words.json)


def _add_held(commands: argparse._SubParsersAction[argparse.ArgumentParser], common: argparse.ArgumentParser) -> None:
    what = "what is held, or was at a past moment (--at), with retention and legal hold: whose end has passed is ended"
    example = "Example: vaultdesk held --on-hold --at 2025-01-01"
    it = commands.add_parser("held", parents=[common], help=what, epilog=example)
    it.add_argument("--bucket", metavar="B")
    it.add_argument("--department", metavar="D")
    it.add_argument("--prefix", metavar="P", default="", help="only keys that begin so")
    it.add_argument("--on-hold", action="store_true", help="only what is under a legal hold")
    it.add_argument("--ends-before", metavar="DATE", help="only what has no retention, or one that ends before that")
    it.add_argument("--csv", action="store_true", help="print CSV, which hold --from takes")
    it.set_defaults(run=held)


def add(commands: argparse._SubParsersAction[argparse.ArgumentParser], common: argparse.ArgumentParser) -> None:
    """Adds the subcommand to the desk's words."""
    it = commands.add_parser(
        "find",
        parents=[common],
        help="find versions, held and removed ones: by a part of the key, content, date, and by facts",
        epilog="Examples: vaultdesk find permit --held; vaultdesk find --same-as scan.pdf; "
        "vaultdesk find --title permit --class letter --sender miller --since 2024-06-01; "
        "vaultdesk find --prefix 2024/ --since 2024-06-01 --before 2024-07-01 --csv",
    )
    it.add_argument("text", nargs="?", help="a part of the key, letter by letter")
    it.add_argument("-i", "--ignore-case", action="store_true", help="ignore the case of TEXT")
    it.add_argument("--prefix", metavar="P", help="how the key begins")
    it.add_argument("--bucket", metavar="B")
    content = it.add_mutually_exclusive_group()
    content.add_argument("--sha256", metavar="HEX", help="the content's digest, or its first hex digits")
    content.add_argument("--same-as", metavar="FILE", help="the content is this file's")
    it.add_argument("--since", metavar="DATE", help="admitted at that moment or later")
    it.add_argument("--before", metavar="DATE", help="admitted earlier than that")
    cards.add_words(it, FINDING)
    it.add_argument("--dated-since", metavar="DATE", help="its own date is that day or later")
    it.add_argument("--dated-before", metavar="DATE", help="its own date is earlier than that")
    state = it.add_mutually_exclusive_group()
    state.add_argument("--held", action="store_true", help="without what was removed")
    state.add_argument("--removed", action="store_true", help="only what was removed")
    it.add_argument("--markers", action="store_true", help="delete markers too")
    it.add_argument("--csv", action="store_true", help="print CSV, which hold --from takes")
    it.set_defaults(run=find)
    _add_held(commands, common)
