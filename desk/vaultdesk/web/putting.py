"""Putting one document: first what will guard it, then the file."""

from __future__ import annotations

import tempfile
from collections.abc import Mapping
from pathlib import Path
from typing import Any

from vaultdesk import documents, moments, there
from vaultdesk.asking import Unconfirmed
from vaultdesk.errors import DeskError, UsageError
from vaultdesk.web import asked
from vaultdesk.web.allowed import look_at, own_buckets
from vaultdesk.web.changing import given_yes
from vaultdesk.web.libraries import library
from vaultdesk.web.visit import form, given, goes_to, page, visit

flask = library("flask")

WORDS = ("bucket", "key", "until", "mode")
TICKS = ("hold", "new")


def _words(from_: Mapping[str, str]) -> dict[str, Any]:
    """The desk's words that a form has."""
    return {it: from_.get(it) or None for it in WORDS} | {it: it in from_ for it in TICKS}


def put() -> Any:
    """Asks where a document goes and how long it is kept; then shows what will guard it, and asks for the file."""
    if "bucket" not in given():
        return page("put.html", buckets=own_buckets(), words=_words(given()))
    words = _words(given())
    if not words["bucket"] or not words["key"]:
        raise UsageError("a document has a bucket and a key: give both")
    return page("put_file.html", words=words, most=documents.MOST, **_guards(words))


def _guards(words: Mapping[str, Any]) -> dict[str, Any]:
    """What will guard a document that is put by these words, and what has to be asked. `UsageError` as of the desk."""
    engine, question = visit().engine, ""
    look_at(words["bucket"])
    named = asked.words_of("put", **words, path="")
    try:
        until = documents.end_of(engine, named, moments.now())
    except Unconfirmed as error:
        until, question = moments.read(named.until), error.question
    default = there.default_in(engine, named.bucket)
    by_default = not until and bool(default.end)
    mode = (named.mode or "GOVERNANCE") if until else default.mode
    why_not = "" if until else default.why_not
    found = {"mode": mode, "until": until or default.end, "by_default": by_default}
    return {**found, "why_not": why_not, "question": question}


def put_file() -> Any:
    """Puts the file, and shows the document."""
    sent = flask.request.files.get("file")
    if sent is None or not sent.filename:
        raise DeskError("no file was chosen: nothing was put")
    with tempfile.TemporaryDirectory(prefix="vaultdesk-put-") as folder:
        path = Path(folder) / "file"
        sent.save(path)
        try:
            done = visit().done("put", **_words(form()), path=str(path), **given_yes("yes"))
        except DeskError as error:
            error.args = (str(error).replace(str(path), sent.filename),)
            raise
    it = visit()
    text = it.language.text("Version %(number)s is in the vault, as it was sent: %(size)s.")
    it.note(text % {"number": done.value["version"], "size": it.language.size(done.value["size"])})
    it.note(*done.said, str(done.error or ""))
    return goes_to("version", number=done.value["version"])


def add(app: Any) -> None:
    """Adds the pages to the site."""
    app.add_url_rule("/put", "put", put)
    app.add_url_rule("/put/file", "put_file", put_file, methods=["POST"])
