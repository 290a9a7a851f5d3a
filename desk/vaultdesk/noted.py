"""What the office has noted of versions and callers, for pages and lists that show it beside what the engine has."""

from __future__ import annotations

import contextlib
import html
import json
from collections.abc import Iterator, Mapping, Sequence
from dataclasses import dataclass
from pathlib import Path
from typing import Any

from vaultdesk import book, cards, config, people
from vaultdesk.book import Kept
from vaultdesk.cards import Card, Place
from vaultdesk.events import Event
from vaultdesk.output import shown
from vaultdesk.people import People

Row = Mapping[str, object]


@dataclass(frozen=True)
class Noted:
    """What is noted in a vault, and the office's name by the settings."""

    office: str
    people: People
    cards: Mapping[Place, Card]
    removals: Mapping[int, Mapping[str, str]]

    def facts(self, row: Row) -> dict[str, str]:
        """The facts of the content of a version, whose row has its bucket, key and digest."""
        card = self.cards.get((str(row["bucket"]), str(row["key"]), str(row["sha256"])))
        return card.shown() if card else {}

    def removal(self, version: object) -> Mapping[str, str]:
        """By which plan, whose approval, which authority and for what reason a version was removed, as far as noted."""
        return self.removals.get(int(str(version)), {})

    def of_version(self, found: Sequence[Event]) -> dict[str, str]:
        """The facts of the version of these events, and why it was removed."""
        row = {"bucket": found[0].bucket, "key": found[0].key, "sha256": found[0].sha256}
        return {**self.facts(row), **self.removal(found[0].version)}

    def registered(self, rows: Sequence[Mapping[str, str]]) -> tuple[list[dict[str, str]], list[str]]:
        """The rows of the register with their facts and reasons, and the names of these."""
        facts = [{**self.facts(it), **self.removal(it["version"])} for it in rows]
        names = list(dict.fromkeys(name for it in facts for name in it))
        return [{**dict.fromkeys(names, ""), **it, **row} for row, it in zip(rows, facts, strict=True)], names

    def who(self, caller: str, moment: str) -> str:
        """A caller, with the person's name of that moment where one is noted."""
        return people.with_name(self.people, caller, moment)

    def persons(self, found: Sequence[Event], caller: str) -> str:
        """Who a caller was at the moments of these events."""
        names = [people.name_at(self.people, caller, it.moment) for it in found if it.by == caller]
        return ", ".join(dict.fromkeys(filter(None, names)))

    def all_persons(self, caller: str) -> str:
        """Who a caller is and was, each with the days between which that was so."""
        return "; ".join(f"{it.name} {it.span}" for it in self.people if it.caller == caller)

    def of_removed(self, row: Row) -> dict[str, str]:
        """What stands beside the certificate of a removed version."""
        by = {"admitted": "admitted_by", "removed": "cause_by"}
        names = {what: people.name_at(self.people, str(row[who]), str(row[what])) for what, who in by.items()}
        persons = {f"{what} by": f"{name} ({row[by[what]]})" for what, name in names.items() if name}
        noted = {**self.facts(row), **self.removal(row["version"])}
        return {**({"office": self.office} if self.office else {}), **noted, **persons}


def _removed(file: Path) -> Iterator[tuple[Kept, dict[str, Any]]]:
    """What the office has noted of removals: outcomes of plans, and reasons that were given."""
    for bucket in book.buckets(file):
        for folder, ending in (("disposal/", "/outcome.json"), ("removals/", ".json")):
            for kept in book.kept(file, bucket, folder, ending):
                with contextlib.suppress(ValueError, TypeError, KeyError, AttributeError):  # what isn't one of these
                    found = json.loads(kept.content)
                    gone = [it for it in found["documents"] if it.get("outcome", "removed") == "removed"]
                    yield kept, {**found, "documents": gone}


def _why(kept: Kept, found: Row, row: Row, persons: People) -> dict[str, str]:
    """Why a version was removed, by one of these documents."""
    by = found.get("approved_by", [])
    approved = ", ".join(people.with_name(persons, it, kept.at) for it in by) if isinstance(by, list) else ""
    planner = str(found.get("planned_by", ""))
    planned = people.with_name(persons, planner, kept.at) if planner else ""
    given = {it: str(row.get(it) or found.get(it) or "") for it in ("authority", "reason")}
    whole = {"plan": str(found.get("plan", "")), "planned by": planned, "approved by": approved, **given}
    return {name: it for name, it in whole.items() if it}


def all_cards(file: Path) -> dict[Place, Card]:
    """The facts of each content that has some, or had some as it was removed by a plan."""
    gone = (row for _, it in _removed(file) for row in it["documents"] if "sha256" in row)
    known = {(it["bucket"], it["key"], it["sha256"]): Card(it, it.get("fields", {})) for it in gone}
    return {**known, **cards.all_in(file)}


def of(file: Path) -> Noted:
    """What is noted in a vault's file. `EngineError` where it can't be read."""
    persons, found = people.all_of(file), list(_removed(file))
    removals = {row["version"]: _why(kept, it, row, persons) for kept, it in found for row in it["documents"]}
    return Noted(config.settings().office.name, persons, all_cards(file), removals)


def as_html(rows: Mapping[str, str]) -> str:
    """What is noted as a table of HTML; empty where nothing is."""
    lines = [(html.escape(name), html.escape(shown(it))) for name, it in rows.items()]
    cells = "".join(f"<tr><th>{name}</th><td>{it}</td></tr>" for name, it in lines)
    return f'<table class="noted">{cells}</table>\n' if cells else ""
