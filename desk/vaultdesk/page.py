"""A page (HTML) of what a vault holds, has removed and will remove, for people and for paper."""

from __future__ import annotations

import argparse
import html
import itertools
import sys
from collections.abc import Sequence
from pathlib import Path

from vaultdesk import config, moments, noted, snapshot, wiped
from vaultdesk.documents import write_content
from vaultdesk.errors import UsageError
from vaultdesk.facts import (
    CAUSES, Bucket, Caller, Department, Ending, Facts, Hold, Removal, Rule, as_json, facts_of, removed_by_month,
)  # fmt: skip
from vaultdesk.noted import Noted
from vaultdesk.output import print_json
from vaultdesk.page_style import HATCH, SCRIPT, STYLE
from vaultdesk.wiped import Wipes

ENDING = ".html"  # of a file for the page, which no vault's has
FILLS = ("solid", "open", "hatched")  # of the causes in their order; they differ without colour
POLICY = "default-src 'none'; style-src 'unsafe-inline'; script-src 'unsafe-inline'; img-src data:"


def text(value: object) -> str:
    """A value as text of the page; numbers with commas."""
    return f"{value:,}" if isinstance(value, int) else html.escape(str(value))


def table(head: Sequence[str], rows: Sequence[Sequence[object]], name: str) -> str:
    """A table; columns whose cells are numbers stand right. The first row decides."""
    numbers = [isinstance(it, int) for it in rows[0]] if rows else [False] * len(head)
    kinds = [' class="number"' if it else "" for it in numbers]
    top = "".join(f'<th scope="col"{kind}>{text(it)}</th>' for kind, it in zip(kinds, head, strict=True))
    lines = [f"<table id={name}><thead><tr>{top}</tr></thead><tbody>"]
    for row in rows:
        cells = "".join(f"<td{kind}>{text(it)}</td>" for kind, it in zip(kinds, row, strict=True))
        lines.append(f"<tr>{cells}</tr>")
    return "\n".join([*lines, "</tbody></table>"])


def bars(title: str, rows: Sequence[tuple[str, Sequence[int]]]) -> str:
    """A drawing of bars: a row has a label and numbers, whose bars stand one after the other."""
    most = max((sum(numbers) for _, numbers in rows), default=0)
    height = 24 * len(rows) + 4
    lines = [f'<svg role="img" viewBox="0 0 760 {height}" width="760" height="{height}"><title>{text(title)}</title>']
    for place, (label, numbers) in enumerate(rows):
        top = 24 * place + 4
        lines.append(f'<text x="0" y="{top + 14}">{text(label if len(label) < 25 else label[:23] + "…")}</text>')
        left = 200.0
        for fill, number in zip(FILLS, numbers):
            width = 400 * number / most if most else 0
            if width:
                lines.append(f'<rect class="{fill}" x="{left:.1f}" y="{top}" width="{width:.1f}" height="18"/>')
            left += width
        lines.append(f'<text x="{left + 6:.1f}" y="{top + 14}">{text(sum(numbers))}</text>')
    return "\n".join([*lines, "</svg>"])


def _departments(found: Sequence[Department]) -> list[str]:
    return [
        "<h2>Departments</h2>",
        "<p>All but byte-days are bytes; received and handed are those that came and went with buckets. Byte-days are"
        " bytes times whole days that the department had them, from the vault’s beginning on, of documents that are"
        " gone too: the charge of a period is the difference of two pages.</p>",
        table(("department", "admitted", "received", "held", "removed", "handed", "byte-days"), found, "departments"),
        "<h3>Bytes held</h3>",
        bars("Bytes held by department", [(it.name, [it.held]) for it in found]),
        "<h3>Byte-days</h3>",
        bars("Byte-days by department", [(it.name, [it.byte_days]) for it in found]),
    ]


def _of_bytes(found: Sequence[Removal], wipes: Wipes) -> str:
    """Of how many removed documents the bytes were wiped from the vault's file, and of how many that isn't noted."""
    documents = [it for it in found if it.kind == "version"]
    count = sum(bool(wipes.when(it.version, it.removed)) for it in documents)
    last = f", the last time at {wipes.last}" if wipes.last else ""
    rest = f"of {text(len(documents) - count)} they may still be readable in it"
    return f"<p>The bytes of {text(count)} documents were wiped from the vault’s file{last}; {rest}.</p>"


def _removed(found: Sequence[Removal], wipes: Wipes) -> list[str]:
    months = removed_by_month(found)
    if not months:
        return ["<h2>Removed</h2>", "<p>Nothing was removed.</p>"]
    key = "".join(
        f'<li><svg width="18" height="14"><rect class="{fill}" x="1" y="1" width="16" height="12"/></svg> {cause}</li>'
        for fill, cause in zip(FILLS, CAUSES)
    )
    rows = [(month, *numbers, sum(numbers), markers) for month, numbers, markers in months]
    return [
        "<h2>Removed</h2>",
        "<p>Documents by the month of their removal: as a caller asked for it, by bypassing a retention in GOVERNANCE,"
        " or by a lifecycle rule. Delete markers, which have no content, are counted apart, in the last column.</p>",
        _of_bytes(found, wipes),
        f'<ul class="key">{key}</ul>',
        bars("Documents removed by month and cause", [(month, numbers) for month, numbers, _ in months]),
        table(("month", *CAUSES, "all", "markers"), rows, "removed"),
    ]


def _ending(found: Sequence[Ending]) -> list[str]:
    parts = [(it.month, [it.documents - it.holds, it.holds]) for it in found]
    return [
        "<h2>Falls out of retention</h2>",
        "<p>Held documents by the month in which their retention ends: the rest of this month, and the twelve after. A"
        " document with a legal hold on (the open bars) stays guarded beyond that.</p>",
        bars("Documents whose retention ends, by month", parts),
        table(("month", "documents", "bytes", "of them with a hold"), found, "ending"),
    ]


def _holds(found: Sequence[Hold]) -> list[str]:
    head = ("since", "days", "by", "bucket", "key", "version", "bytes")
    return ["<h2>Legal holds</h2>", table(head, found, "holds") if found else "<p>No legal hold is on.</p>"]


def _buckets(found: Sequence[Bucket], rules: Sequence[Rule]) -> list[str]:
    head = ("bucket", "department", "default retention", "documents", "bytes", "markers", "holds")
    rule_head = ("bucket", "rule", "enabled", "for", "what it does")
    return [
        "<h2>Buckets and their rules</h2>",
        "<p>What each bucket holds. Documents that are put get the default retention, unless they come with one of"
        " their own; a rule never takes what a retention or a hold guards.</p>",
        table(head, found, "buckets") if found else "<p>There is no bucket.</p>",
        table(rule_head, rules, "rules") if rules else "<p>No bucket has a rule.</p>",
    ]


def _callers(found: Sequence[Caller], notes: Noted) -> list[str]:
    head = ["person"] if notes.people else []
    rows = [(it.name, *([notes.all_persons(it.name)] if head else []), *it[1:]) for it in found]
    return [
        "<h2>Callers</h2>",
        "<p>Who may do what, in the buckets of the caller's department. A closed caller can do nothing.</p>",
        table(("caller", *head, "department", "state", "rights"), rows, "callers"),
    ]


def _register(found: Sequence[Removal], notes: Noted, wipes: Wipes) -> list[str]:
    more = {
        "title": [notes.facts(it._asdict()).get("title", "") for it in found],
        "wiped": [wipes.when(it.version, it.removed) if it.kind == "version" else "" for it in found],
    }
    shown = {name: it for name, it in more.items() if any(it)}
    head: Sequence[str] = (*Removal._fields, *shown)
    rows = [(*it, *last) for it, last in zip(found, zip(*shown.values()) if shown else itertools.repeat(()))]
    markers = sum(it.kind == "marker" for it in found)
    return [
        "<h2>Register of removals</h2>",
        f"<p>{text(len(found) - markers)} documents and {text(markers)} delete markers.</p>",
        '<p class="tools"><label>Search <input id="search" type="search" size="40"></label>'
        ' <output id="found"></output> — a click on a column’s name sorts by it.</p>',
        table(head, rows, "register"),
    ]


def page_of(facts: Facts, notes: Noted, wipes: Wipes) -> str:
    """The whole page."""
    return "\n".join(
        [
            '<!DOCTYPE html><html lang="en"><head><meta charset="utf-8">',
            f'<meta http-equiv="Content-Security-Policy" content="{POLICY}">',
            '<meta name="viewport" content="width=device-width, initial-scale=1"><link rel="icon" href="data:,">',
            f"<title>{text(facts.name)}</title><style>{STYLE}</style></head><body>",
            HATCH,
            *([f"<p>{text(notes.office)}</p>"] if notes.office else []),
            f"<h1>{text(facts.name)}</h1>",
            f"<p>As it stood at {facts.at}; its last change is of {facts.last}. The audit of"
            " <code>vaultctl verify</code> isn’t part of this page.</p>",
            *_departments(facts.departments),
            *_removed(facts.removals, wipes),
            *_ending(facts.ending),
            *_holds(facts.holds),
            *_buckets(facts.buckets, facts.rules),
            *_callers(facts.callers, notes),
            '<div class="wide">',
            *_register(facts.removals, notes, wipes),
            f"</div><script>{SCRIPT}</script></body></html>",
        ]
    )


def page(words: argparse.Namespace) -> int:
    """Prints the page of a vault, or writes it to a file."""
    if words.file and not words.out and words.file.endswith(ENDING):
        words.file, words.out = None, words.file
    vault = words.file or config.named_vault()
    if not vault:
        raise UsageError("no vault is named: give FILE, or set $VAULT")
    at = moments.seconds_of(moments.read(words.at) if words.at else moments.now())
    file = config.settings().file_of(vault)
    with snapshot.readable(file) as tables:
        found, notes, wipes = facts_of(tables, at), noted.of(tables), wiped.of(file, tables)
    if words.json:
        print_json(as_json(found))
        return 0
    content = page_of(found, notes, wipes).encode() + b"\n"
    if words.out:
        write_content(Path(words.out), content, words.force)
    else:
        sys.stdout.buffer.write(content)
        sys.stdout.buffer.flush()
    return 0


def add(commands: argparse._SubParsersAction[argparse.ArgumentParser], common: argparse.ArgumentParser) -> None:
    """Adds the subcommand to the desk's words."""
    what = "a page (HTML) of what a vault holds, has removed and will remove"
    example = "Example: vaultdesk page records.vault page.html"
    it = commands.add_parser("page", parents=[common], help=what, epilog=example)
    it.add_argument("file", nargs="?", metavar="FILE", help="the vault's file, or its name in the settings (or $VAULT)")
    text = f"the file to write (default: standard output); one word that ends with {ENDING} is PAGE"
    it.add_argument("out", nargs="?", metavar="PAGE", help=text)
    it.add_argument("--at", metavar="DATE", help="the moment of the page (default: this machine's clock)")
    it.add_argument("--force", action="store_true", help="write over a file that is there")
    it.set_defaults(do=page)
