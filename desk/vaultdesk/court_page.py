"""The page for a court in its forms: as text, as JSON, and as HTML that an office signs."""

from __future__ import annotations

import html
import textwrap
from collections.abc import Iterator, Mapping, Sequence
from dataclasses import dataclass
from typing import Any

from vaultdesk import paper
from vaultdesk.events import Event
from vaultdesk.output import shown, table_lines

WIDTH = 100
WHAT = ("what", "is")


@dataclass(frozen=True)
class Part:
    """A part of the page: sentences, and a table below them. `name` is the part's in JSON."""

    name: str
    title: str
    sentences: Sequence[str] = ()
    columns: Sequence[str] = ()
    rows: Sequence[Mapping[str, Any]] = ()


@dataclass(frozen=True)
class Page:
    """The page of a version: its events, the vault's name, the moment that is asked about, whether the checks found
    nothing against the history, who issues it, and when the version's bytes were wiped, as far as that is noted."""

    parts: Sequence[Part]
    found: Sequence[Event]
    vault: str
    at: str
    is_good: bool
    asker: str | None
    wiped: str = ""

    @property
    def title(self) -> str:
        """The page's title."""
        return f"What the vault has of version {self.found[0].version}"


def _there(parts: Sequence[Part]) -> list[Part]:
    return [it for it in parts if it.sentences or it.rows]


def as_text(page: Page) -> str:
    """The page as text."""
    lines = [page.title, "=" * len(page.title)]
    for it in _there(page.parts):
        lines += ["", it.title, "-" * len(it.title)]
        for sentence in it.sentences:
            lines += textwrap.wrap(shown(sentence), WIDTH, initial_indent="- ", subsequent_indent="  ")
        lines += table_lines(it.rows, it.columns)
    return "\n".join(lines) + "\n"


def as_json(page: Page) -> dict[str, Any]:
    """The page as JSON has it: a part has sentences or rows."""
    found: dict[str, Any] = {"title": page.title, "at": page.at, "good": page.is_good}
    for it in page.parts:
        if it.columns == WHAT:
            found[it.name] = {row["what"]: row["is"] for row in it.rows}
        elif it.columns:
            found[it.name] = [{name: row[name] for name in it.columns} for row in it.rows]
        else:
            found[it.name] = list(it.sentences)
    return found


# ---- as an office signs it


def _certified(page: Page) -> str:
    """What the office certifies, in a sentence; nothing where the checks found something."""
    if not page.is_good:
        return "The checks below found what speaks against this history: nothing is certified until that is explained."
    it = page.found[0]
    what = f"its vault {page.vault} has what is below of version {it.version} of the bucket {it.bucket}"
    return f"{paper.office()} certifies that {what}, and that the checks below found nothing against it."


def _ways_to_check(page: Page) -> Iterator[str]:
    it = page.found[0]
    if it.sha256:
        yield f"Whoever has the document can compare it: `sha256sum FILE` has to print `{it.sha256}`."
    again = f"`vaultdesk answer {it.version} --at {page.at}`"
    yield (
        "Whoever has a copy of the vault's two files can check all of this without the office: `vault-recheck audit`, "
        f"`lawful` and `coherent` look at the vault, and {again} makes this page again."
    )
    yield (
        "Whether the past was altered shows by seals that somebody else than the office keeps: "
        "`vault-recheck check-seals VAULT SEALS`."
    )


def _of_bytes(page: Page) -> str:
    """What of the version's bytes is gone."""
    it = page.found[0]
    if it.kind == "marker":
        return "A delete marker has no bytes."
    if page.found[-1].event != "removed":
        return "None: the vault holds the whole content."
    return f"The content was removed, and no command reads it again. {paper.of_bytes('page', it.version, page.wiped)}"


def _table(part: Part) -> str:
    head = "".join(f"<th>{html.escape(it)}</th>" for it in part.columns)
    is_value = part.columns == WHAT
    body = ""
    for row in part.rows:
        cells = (paper.cell(str(row[it]), is_value and it == WHAT[1]) for it in part.columns)
        body += f"<tr>{''.join(cells)}</tr>"
    return f"<table><thead><tr>{head}</tr></thead><tbody>{body}</tbody></table>\n"


def as_html(page: Page) -> str:
    """The page as HTML, to be printed and signed."""
    body = paper.head(page.title, page.asker) + f"<p>{paper.text(_certified(page))}</p>\n"
    for it in _there(page.parts):
        if it.sentences:
            body += paper.listed(it.title, [line.replace("`", "\u2019") for line in it.sentences])
        else:
            body += f"<h2>{paper.text(it.title)}</h2>\n"
        body += _table(it) if it.rows else ""
    body += paper.listed("How to check it", list(_ways_to_check(page)))
    body += paper.listed("What of its bytes is gone", [_of_bytes(page)])
    return paper.page(page.title, body + paper.signature())
