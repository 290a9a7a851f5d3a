"""What the vault has of one version: history, in words."""

from __future__ import annotations

import argparse
from collections.abc import Sequence
from dataclasses import asdict
from typing import Any

from vaultdesk import events
from vaultdesk.engine import Engine
from vaultdesk.errors import DeskError
from vaultdesk.events import Event, up_to
from vaultdesk.output import print_json, print_rows, shown

REMOVED = {
    "request": "removed for good, as asked",
    "bypass": "removed for good, bypassing the retention in GOVERNANCE",
    "rule": "removed for good by the bucket's lifecycle rule",
}


def _admission_words(it: Event) -> str:
    if it.kind == "marker":
        return "a delete marker was put on top of the key"
    return f"{it.size:,} bytes admitted, of the department {it.department}"


def _first_lock_words(it: Event) -> str:
    hold = "with a legal hold" if it.hold == "ON" else "without a legal hold"
    return f"admitted with {it.retention or 'no retention'}, {hold}"


def _retention_words(old: Event, new: Event) -> str:
    """What became of the retention from one setting to the next; empty where it stayed."""
    if old.retention == new.retention:
        return ""
    if not old.mode or not new.mode:
        return f"retention set: {new.retention}" if new.mode else f"retention taken away: it was {old.retention}"
    if old.mode == new.mode:
        return f"retention {'extended' if new.until > old.until else 'shortened'} from {old.until}: {new.retention}"
    return f"retention changed from {old.retention}: {new.retention}"


def _lock_words(old: Event, new: Event) -> str:
    words = [_retention_words(old, new)]
    if old.hold != new.hold:
        words.append("legal hold put on" if new.hold == "ON" else "legal hold lifted")
    changed = ", ".join(filter(None, words)) or f"lock set again as it was, legal hold {new.hold}"
    return f"{changed}, by a bypass" if new.bypass == "true" else changed


def words_of(found: Sequence[Event]) -> list[str]:
    """What each event of a version was, in words."""
    words: list[str] = []
    lock: Event | None = None
    for it in found:
        if it.event == "admitted":
            words.append(_admission_words(it))
        elif it.event == "moved":
            words.append(f"its bucket went to the department {it.department} (move {it.move} of the vault)")
        elif it.event == "removed":
            words.append(REMOVED[it.cause])
        else:
            words.append(_lock_words(lock, it) if lock else _first_lock_words(it))
            lock = it
    return words


def life_of(found: Sequence[Event]) -> list[dict[str, Any]]:
    """The events of a version as rows for people."""
    return [{"moment": it.moment, "who": it.who, "what": what} for it, what in zip(found, words_of(found), strict=True)]


def document_of(found: Sequence[Event]) -> dict[str, Any]:
    """What the version is, by its admission."""
    return {name: getattr(found[0], name) for name in ("version", "bucket", "key", "kind", "size", "sha256")}


def history(engine: Engine, words: argparse.Namespace) -> None:
    """Prints all that happened to a version."""
    found = events.of_version(engine, words.number)
    if engine.at:
        found = up_to(found, engine.at)
        if not found:
            raise DeskError(f"version {words.number} wasn't admitted yet at {engine.at}: give a later --at, or none")
    life = life_of(found)
    if words.json:
        rows = [{**asdict(it), "who": row["who"], "what": row["what"]} for it, row in zip(found, life, strict=True)]
        print_json({**document_of(found), "events": rows})
        return
    it = found[0]
    print(f"{it.kind} {it.version} in bucket {it.bucket}, {it.size:,} bytes, key: {shown(it.key)}")
    if it.sha256:
        print(f"sha256 {it.sha256}")
    print_rows(life, ("moment", "who", "what"))


def number(text: str) -> int:
    """A version's number among the words."""
    if not text.isascii() or not text.isdecimal() or int(text) == 0:
        raise argparse.ArgumentTypeError(f"{text!r} is no version's number: it is a whole number from 1 on")
    return int(text)


def add(commands: argparse._SubParsersAction[argparse.ArgumentParser], common: argparse.ArgumentParser) -> None:
    """Adds the subcommand to the desk's words."""
    what = "all that happened to one version: admission, locks, moves, removal, each with who and when"
    it = commands.add_parser("history", parents=[common], help=what, epilog="Example: vaultdesk history 17")
    it.add_argument("number", type=number, metavar="N", help="the version's number, as find and ls print it")
    it.set_defaults(run=history)
