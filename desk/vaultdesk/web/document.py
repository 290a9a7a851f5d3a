"""A document: what it is, what guards it, what happened to it, and its content."""

from __future__ import annotations

import io
from dataclasses import dataclass
from typing import Any

from vaultdesk import answer, events, history, moments, reading
from vaultdesk.documents import checked_content
from vaultdesk.errors import DeskError
from vaultdesk.output import heard
from vaultdesk.web import kinds
from vaultdesk.web.libraries import library
from vaultdesk.web.visit import page, visit

flask = library("flask")

FIND = "SELECT bucket, key, marker, removed IS NOT NULL FROM entries WHERE id = ?"
CURRENT = "SELECT max(id) FROM entries WHERE bucket = ? AND key = ? AND removed IS NULL"
LONGEST_NAME = 120  # characters of a downloaded file's name


@dataclass(frozen=True)
class Entry:
    """An entry of the vault, as its tables have it: a version or a delete marker, held or removed."""

    number: int
    bucket: str
    key: str
    is_marker: bool
    is_removed: bool

    @property
    def place(self) -> dict[str, Any]:
        """The members of a line that name it."""
        return {"bucket": self.bucket, "key": self.key, "id": self.number}

    @property
    def words(self) -> dict[str, Any]:
        """The words of the desk that name it."""
        return {"bucket": self.bucket, "key": self.key, "version": self.number}

    @property
    def name(self) -> str:
        """A name for a file of its content: the last part of its key."""
        last = self.key.replace("\\", "/").rstrip("/").rpartition("/")[2]
        kept = "".join(it if it.isprintable() and it not in '<>:"|?*' else "_" for it in last)
        return kept.strip(". ")[-LONGEST_NAME:] or f"version-{self.number}"


def entry(number: int) -> Entry:
    """The entry of that number. `DeskError` where the vault never had one."""
    found = reading.rows(visit().engine.tables, FIND, (number,))
    if not found:
        raise DeskError(f"no version of this vault has the number {number}")
    bucket, key, marker, removed = found[0]
    return Entry(number, bucket, key, bool(marker), bool(removed))


def _looked_at(it: Entry) -> dict[str, Any] | None:
    """What the engine says of a held version; nothing of others. `Refused` where the user may not see the entry."""
    engine = visit().engine
    if it.is_removed and it.is_marker:
        dept = reading.rows(engine.tables, "SELECT dept FROM buckets WHERE name = ?", (it.bucket,))[0][0]
        engine.ask("report", dept=dept)
    elif it.is_removed:
        engine.ask("certificate", bucket=it.bucket, id=it.number)
    elif it.is_marker:
        engine.ask("list-versions", bucket=it.bucket, prefix=it.key, most=1)
    else:
        return engine.ask("head", **it.place)
    return None


def version(number: int) -> Any:
    """The page of a document."""
    it = entry(number)
    head = _looked_at(it)
    tables = visit().engine.tables
    found = events.in_tables(tables, number)
    guards = list(answer.guard_sentences(found, events.guards_at(found, moments.now())))
    [(top,)] = reading.rows(tables, CURRENT, (it.bucket, it.key))
    facts = {"what": history.document_of(found), "life": history.life_of(found), "guards": guards, "head": head}
    return page("version.html", it=it, is_current=top == number, **facts, now=moments.now())


def content(number: int) -> Any:
    """The content of a held version: shown where that is safe, else downloaded."""
    it = entry(number)
    found = visit().engine.ask("get", **it.place)
    data = checked_content(found)
    kind = kinds.shown_as(data)
    is_shown = kind != kinds.UNKNOWN and "download" not in flask.request.args
    reply = flask.send_file(io.BytesIO(data), kinds.UNKNOWN, as_attachment=not is_shown, download_name=it.name)
    reply.headers["Content-Type"] = kind if is_shown else kinds.UNKNOWN
    reply.headers["Content-Security-Policy"] = kinds.policy_of(kind)
    return reply


def court(number: int) -> Any:
    """The page for a court: with the audit of the whole vault that the desk's answer rests on."""
    _looked_at(entry(number))
    with heard() as found:
        _, parts, checked = answer.page_of(visit().engine, number)
    return page("court.html", number=number, sections=parts, against=checked.against[:1], said=found.said)


def add(app: Any) -> None:
    """Adds the pages to the site."""
    app.add_url_rule("/version/<int:number>", "version", version)
    app.add_url_rule("/version/<int:number>/content", "content", content)
    app.add_url_rule("/version/<int:number>/court", "court", court)
