"""Changes: what a form asks the desk for, what the desk asks back, and what came of it."""

from __future__ import annotations

import re
from collections.abc import Sequence
from typing import Any

from vaultdesk.asking import Unconfirmed
from vaultdesk.errors import DeskError, Refused
from vaultdesk.web.asked import Done
from vaultdesk.web.libraries import library
from vaultdesk.web.visit import form, page, visit

flask = library("flask")
CODE = re.compile(r"[A-Z][A-Za-z]+")  # of a refusal


def given_yes(*options: str) -> dict[str, bool]:
    """Those of these options that the form gives."""
    return {it: form().get(it) == "1" for it in options}


def asks_back(error: Unconfirmed) -> Any:
    """The page of a question that the desk asks before it does what the form asks for: a button sends that again."""
    fields = [(name, value) for name, value in flask.request.form.items(multi=True) if name != "token"]
    return page("confirm.html", question=error.question, option=error.option, fields=fields, path=flask.request.path)


def refusal_of(text: str) -> DeskError:
    """A refusal that a row has as a text, which begins with its name."""
    name, colon, _ = text.partition(": ")
    code, _, reason = name.partition(" ")
    return Refused(code, 0, reason, text) if colon and CODE.fullmatch(code) else DeskError(text)


def one_row(done: Done) -> dict[str, Any]:
    """The row of the one document that was asked for. Raises its refusal."""
    [row] = done.value
    if row["refused"]:
        raise refusal_of(row["refused"])
    visit().note(*done.said)
    return dict(row)


def many_rows(done: Done, back: str) -> Any:
    """The page of what became of many documents, each with its refusal."""
    rows: Sequence[dict[str, Any]] = done.value
    return page("changed.html", rows=rows, said=done.said, error=done.error, back=back)
