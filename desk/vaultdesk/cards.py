"""The facts of documents: title, date, class, sender, reference, and what else an office notes of one.

They are a small JSON document in the same bucket, under the document's key with `.facts.json` after it, and name the
digest of the content that they are of. Each change is a new version. docs/RECORDS.md has the form.
"""

from __future__ import annotations

import argparse
import hashlib
import json
from collections.abc import Iterator, Mapping, Sequence
from dataclasses import dataclass, field, replace
from pathlib import Path
from typing import Any

from vaultdesk import classes, columns, dates, reading
from vaultdesk.classes import Class
from vaultdesk.engine import Engine
from vaultdesk.errors import DeskError, Refused, UsageError
from vaultdesk.limits import LONGEST_KEY
from vaultdesk.targets import Target

ENDING = ".facts.json"
# Each fact by its name at the desk, and in the document: Dublin Core's name, where it has one for it.
NAMES = {
    "title": "title", "date": "date", "class": "class", "sender": "creator", "reference": "isPartOf", "event": "event",
}  # fmt: skip
PUTTING = {
    "title": "its title, which is kept beside it with its other facts", "class": "its class of records",
    "sender": "who sent or wrote it", "reference": "the file that it belongs to",
    "event": "the event from which its class counts",
    "field": "another fact, of those that the settings name",
}  # fmt: skip
HELD = """
SELECT e.id, e.bucket, e.key, c.bytes FROM entries AS e JOIN contents AS c USING (id)
WHERE e.removed IS NULL AND substr(e.key, -length(:ending)) = :ending
ORDER BY e.id
"""
Entry = Mapping[str, Any]
Place = tuple[str, str, str]  # a bucket, a key, and the digest of a content


@dataclass(frozen=True)
class Card:
    """The facts of a document: by their names at the desk, and those that only the office has."""

    values: Mapping[str, str] = field(default_factory=dict)
    fields: Mapping[str, str] = field(default_factory=dict)
    kept: Class | None = None  # its class, as the schedule had it
    version: int = 0  # that has them in the vault, where that is known

    def shown(self) -> dict[str, str]:
        """The facts that there are, in their order, for people."""
        known = {name: self.values[name] for name in NAMES if self.values.get(name)}
        return {**known, **{name: it for name, it in self.fields.items() if it}, **self.shown_class()}

    def shown_class(self) -> dict[str, str]:
        """How long it is kept by its class, and by which authority."""
        if not self.kept:
            return {}
        years, mode, trigger, authority = self.kept.cells
        span = years if self.kept.years is None else f"{years} years from the {trigger}"
        found = {"kept": f"{span}, {mode}, by version {self.kept.schedule} of the schedule"}
        return found | ({"authority": authority} if authority else {})

    def with_facts(self, given: Mapping[str, str]) -> Card:
        """The same with other values of some facts."""
        values = {name: given.get(name, self.values.get(name, "")) for name in NAMES}
        fields = {**self.fields, **{name: it for name, it in given.items() if name not in NAMES}}
        return replace(self, values=values, fields=fields)

    def content(self, key: str, digest: str) -> bytes:
        """The document of the facts of a content under a key."""
        known = {member: self.values[name] for name, member in NAMES.items() if self.values.get(name)}
        fields = {name: it for name, it in self.fields.items() if it}
        more = {"fields": fields} if fields else {}
        more |= {"kept": self.kept.as_json()} if self.kept else {}
        return json.dumps({"identifier": key, **known, **more, "sha256": digest}, ensure_ascii=False).encode()


def key_of(key: str) -> str:
    """The key of a document's facts."""
    return key + ENDING


def why_not(key: str) -> str:
    """Why there can't be facts of a document of that key; empty where there can."""
    if key.endswith(ENDING):
        return f"a key that ends with {ENDING} is that of a document's facts"
    room = LONGEST_KEY - len(ENDING)
    return f"its key has more than {room:,} bytes, and leaves no room for its facts" if len(key.encode()) > room else ""


def read(content: bytes, version: int = 0) -> tuple[str, Card] | None:
    """The digest of the content that a document of facts is of, and the facts; none where it is no such document."""
    try:
        found = json.loads(content)
        digest, fields = found["sha256"], found.get("fields", {})
        values = {name: str(found.get(member, "")) for name, member in NAMES.items()}
        kept = classes.of_json(found["kept"]) if "kept" in found else None
        return str(digest), Card(values, {str(name): str(it) for name, it in fields.items()}, kept, version)
    except (ValueError, TypeError, KeyError, AttributeError):
        return None


def _held(file: Path) -> Iterator[tuple[Place, Card]]:
    """The facts that are held, each with what they are of, the newest last."""
    for number, name, key, content in reading.rows(file, HELD, {"ending": ENDING}):
        card = read(bytes(content), number)
        if card:
            yield (name, key.removesuffix(ENDING), card[0]), card[1]


def all_in(file: Path) -> dict[Place, Card]:
    """The facts of each content that has some: of several versions the newest."""
    return dict(_held(file))


def versions_in(file: Path) -> dict[Place, list[int]]:
    """The numbers of all versions of the facts of each content."""
    found: dict[Place, list[int]] = {}
    for place, card in _held(file):
        found.setdefault(place, []).append(card.version)
    return found


def _versions(engine: Engine, bucket: str, key: str) -> Iterator[bytes]:
    """The contents of a document's facts, the newest first. `Refused` where they can't be read."""
    yield bytes.fromhex(engine.ask("get", bucket=bucket, key=key)["hex"])
    for it in engine.entries(bucket, key):
        if it["key"] == key and not it["current"] and not it["delete_marker"]:
            yield bytes.fromhex(engine.ask("get", bucket=bucket, key=key, id=it["version_id"])["hex"])


def of(engine: Engine, bucket: str, key: str, digest: str) -> Card:
    """The facts of that content under a key; none of them where there are none, or the caller may not read them."""
    try:
        for content in _versions(engine, bucket, key_of(key)):
            found = read(content)
            if found and found[0] == digest:
                return found[1]
    except Refused:
        pass
    return Card()


def without_facts(entries: Sequence[Entry]) -> list[Entry]:
    """These entries of a listing, but for the facts of documents that are among them."""
    keys = {it["key"] for it in entries}
    return [it for it in entries if not (it["key"].endswith(ENDING) and it["key"].removesuffix(ENDING) in keys)]


def with_facts(engine: Engine, found: Sequence[Target]) -> list[Target]:
    """These versions, each with the document of its facts where there is one: a lock is on both."""
    whole = list[Target]()
    for it in found:
        whole.append(it)
        try:
            facts = engine.ask("get", bucket=it.bucket, key=key_of(it.key))
            card = read(bytes.fromhex(facts["hex"]))
            if card and card[0] == engine.ask("head", **it.place)["sha256"]:
                whole.append(Target(it.bucket, key_of(it.key), int(facts["version_id"])))
        except Refused:
            continue
    return list({(it.bucket, it.key, it.version): it for it in whole}.values())


# ---- as words give them


def given(words: argparse.Namespace) -> dict[str, str]:
    """The facts that options give. `UsageError` where one isn't understood."""
    found = {"title": words.title, "class": words.kind, "sender": words.sender, "reference": words.reference}
    found |= {"event": " ".join(words.event.split()) if words.event else None}
    found |= {"date": dates.day_of(words.date).isoformat() if words.date else None}
    return {name: it for name, it in found.items() if it} | own(words.fields or [])


def own(texts: Sequence[str]) -> dict[str, str]:
    """What NAME=VALUE give of facts that only the office has. `UsageError` where one isn't understood."""
    known = {columns.folded(it): it for it in columns.fields()}
    found = {}
    for it in texts:
        name, sign, value = it.partition("=")
        if not sign or columns.folded(name) not in known:
            names = f"write NAME=VALUE, where NAME is one of {', '.join(known.values())}"
            how = names if known else "the settings name no such fact: [office] fields does"
            raise UsageError(f"--field {it}: {how}")
        found[known[columns.folded(name)]] = value.strip()
    return found


def add_words(it: argparse.ArgumentParser, texts: Mapping[str, str]) -> None:
    """The options that name facts of a document, with what they mean there."""
    it.add_argument("--title", metavar="TEXT", help=texts["title"])
    it.add_argument("--class", dest="kind", metavar="CLASS", help=texts["class"])
    it.add_argument("--sender", metavar="NAME", help=texts["sender"])
    it.add_argument("--reference", metavar="TEXT", help=texts["reference"])
    it.add_argument("--event", metavar="NAME", help=texts["event"])
    it.add_argument("--field", dest="fields", metavar="NAME=VALUE", action="append", help=texts["field"])


# ---- how they come in


def lock_of(head: Mapping[str, Any], now: str) -> dict[str, Any]:
    """The lock that a version has, as a put asks for it; without a retention that has ended."""
    retention = head["retention"] or {}
    lock = retention if retention and retention["until"] > now else {}
    return {**lock, **({"hold": "ON"} if head["hold"] == "ON" else {})}


def put(engine: Engine, place: tuple[str, str], card: Card, digest: str, lock: Mapping[str, Any]) -> int:
    """Puts the facts of a content under a key of a bucket, with a lock, and returns their version.

    `DeskError` where they are refused: what they are of is in the vault all the same."""
    bucket, key = place
    try:
        done = engine.ask("put", bucket=bucket, key=key_of(key), hex=card.content(key, digest).hex(), **lock)
    except Refused as error:
        raise DeskError(f"its facts weren't put: {error}; vaultdesk facts --set does that") from error
    return int(done["version_id"])


def batch_of(batch: str) -> str:
    """The batch of the facts of a delivery's documents: the same each time, and that of no other delivery."""
    name = f"{batch}.facts"
    return name if len(name) <= 64 else f"facts.{hashlib.sha256(batch.encode()).hexdigest()[:56]}"
