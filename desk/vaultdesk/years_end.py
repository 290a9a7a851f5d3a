"""The year's end: certificates of all removals, the register for a spreadsheet, reports of all departments."""

from __future__ import annotations

import argparse
import csv
import io
import sys
from collections.abc import Callable, Iterable, Iterator, Mapping, Sequence
from pathlib import Path
from typing import Any

from vaultdesk import certificate_page, evidence, moments, noted, paper, parts, reading, spreadsheet, wiped
from vaultdesk.documents import look_free, write_content
from vaultdesk.engine import Engine
from vaultdesk.errors import DeskError, Refused, UsageError, of_file
from vaultdesk.history import number
from vaultdesk.output import counted_off, print_json, print_table, say

Row = dict[str, str]
COLUMNS = (
    "version", "bucket", "key", "kind", "size", "sha256",
    "admitted", "admitted_by", "removed", "cause", "cause_by", "days",
)
CHARGED = ("dept", "since", "before", "byte_days", "admitted", "received", "removed", "handed", "held")
SUMS = ("admitted", "received", "held", "removed", "handed", "byte_days")


def register(engine: Engine, in_parts: bool = False) -> list[Row]:
    """The rows of the register of removals, as the engine prints it; or as the server answers it, part by part."""
    text = parts.register(engine) if in_parts else engine.printed("register")
    # Split at LF alone: keys may have other characters that end a line elsewhere.
    return list(csv.DictReader(io.StringIO(text, newline="")))


def _span(words: argparse.Namespace) -> tuple[str | None, str | None]:
    """The first moment of the removals that are asked for, and the one before which they end."""
    since, before = (moments.read(it) if it else None for it in (words.since, words.before))
    return since, before


def _within(rows: Sequence[Row], since: str | None, before: str | None) -> list[Row]:
    return [it for it in rows if (since or "") <= it["removed"] and (before is None or it["removed"] < before)]


def _callers(engine: Engine) -> dict[str, str]:
    """For each bucket an open caller of its department who has the right to a certificate."""
    may: dict[str, str] = {}
    for it in reading.query(engine.tables, "callers"):
        if it["state"] == "open" and "report" in it["rights"].split():
            may.setdefault(it["department"], it["caller"])
    buckets = reading.query(engine.tables, "buckets")
    return {it["bucket"]: may[it["department"]] for it in buckets if it["department"] in may}


def _certified(engine: Engine, rows: Sequence[reading.Row], callers: Mapping[str, str]) -> Iterator[str]:
    for row in rows:
        caller = callers.get(row["bucket"])
        try:
            yield str(engine.ask("certificate", caller, bucket=row["bucket"], id=row["version"])["text"])
        except Refused as error:
            raise DeskError(f"version {row['version']}: {error}") from error


def certificates(engine: Engine, words: argparse.Namespace) -> None:
    """Writes the certificate of each removed document to a file of its own, and all of them to one page."""
    since, before = _span(words)
    rows = reading.query(engine.tables, "removed", since=since, before=before)
    callers = _callers(engine) if words.any_caller else {}
    folder = Path(words.folder)
    names = [f"certificate-{it['version']:010}.txt" for it in rows]
    names += ["certificates.html", *(["certificates.pdf"] if words.pdf else [])]
    paths = [folder / it for it in names]
    look_free(paths, words.force)
    texts = list(counted_off(_certified(engine, rows, callers), "certificates", len(rows)))
    beside = _beside(engine, rows)
    described = [(text, *beside[it["version"]]) for text, it in zip(texts, rows, strict=True)]
    made = certificate_page.page(described, engine.desk.asker)
    contents = [it.encode() for it in (*texts, made)]
    if words.pdf:
        contents.append(paper.pdf(made, words.paper or paper.PAPERS[0]))
    try:
        folder.mkdir(parents=True, exist_ok=True)
    except OSError as error:
        raise of_file(error.filename, error) from error
    for path, content in zip(paths, contents, strict=True):
        write_content(path, content, words.force)
    if words.json:
        print_json([it["version"] for it in rows])
    else:
        print(f"{len(rows)} certificates in {folder}")


def _beside(engine: Engine, rows: Sequence[reading.Row]) -> dict[int, tuple[str, str]]:
    """What stands beside the certificate of each of these removed versions: what the office noted of it as HTML, and
    when its bytes were wiped."""
    notes, wipes = noted.of(engine.tables), wiped.of(engine.desk.file, engine.tables)
    return {
        it["version"]: (noted.as_html(notes.of_removed(it)), wipes.when(it["version"], it["removed"])) for it in rows
    }


def _beside_one(engine: Engine, words: argparse.Namespace) -> tuple[str, str]:
    """The same of the version that is meant; nothing where no page is asked for."""
    if not (words.html or words.pdf):
        return "", ""
    rows = reading.query(engine.tables, "removed", since=None, before=None)
    return _beside(engine, [it for it in rows if it["version"] == words.number]).get(words.number, ("", ""))


def certificate(engine: Engine, words: argparse.Namespace) -> None:
    """Prints the certificate of one removed version, by its number alone, or writes its page."""
    statement = "SELECT bucket, id, removed FROM entries WHERE id = ?"
    found = reading.rows(engine.tables, statement, (words.number,))
    if not found or found[0][2] is None:
        what = "is held still" if found else "was never there"
        raise DeskError(f"version {words.number} {what}: a certificate is of a removed version")
    row = {"bucket": str(found[0][0]), "version": words.number}
    [text] = _certified(engine, [row], _callers(engine) if words.any_caller else {})
    made = certificate_page.page([(text, *_beside_one(engine, words))], engine.desk.asker)
    is_written = paper.write(words, made)
    if words.json:
        print_json({**row, "text": text})
    elif not is_written:
        print(text, end="")


def _print_csv(rows: Iterable[Mapping[str, Any]], columns: Sequence[str]) -> None:
    writer = csv.DictWriter(sys.stdout, columns, lineterminator="\n")
    writer.writeheader()
    writer.writerows({it: row[it] for it in columns} for row in rows)


def print_register(engine: Engine, words: argparse.Namespace) -> None:
    """Prints the register of removals, or writes it as a spreadsheet."""
    rows = _within(register(engine, words.parts), *_span(words))
    if words.documents:
        rows = [it for it in rows if it["kind"] == "version"]
    if words.xlsx:
        whole, facts = noted.of(engine.tables).registered(rows)
        spreadsheet.write(Path(words.xlsx), "register", whole, (*COLUMNS, *facts), words.force)
    elif words.json:
        print_json(rows)
    else:
        _print_csv(rows, COLUMNS)


def _past_sums(engine: Engine, at: str) -> list[dict[str, Any]]:
    """The sums of all departments at a moment before the vault's last change, of which the engine makes no report."""
    return [{**it, "dept": it["department"]} for it in reading.query(engine.tables, "report", at=at)]


def report(engine: Engine, words: argparse.Namespace) -> None:
    """Prints the sums of a department, or of all, as a table or CSV: of a past moment too."""
    if words.all == bool(words.department):
        raise UsageError("give a department, or --all")
    if words.all:
        names = [it["department"] for it in reading.query(engine.tables, "report", at=None)]
    else:
        names = [words.department]
    try:
        rows = [engine.ask("report", dept=it) for it in names]
    except Refused as error:
        if error.code != "ClockBack" or engine.at is None:
            raise
        rows = [it for it in _past_sums(engine, engine.at) if it["dept"] in names]
        if not rows:
            raise DeskError(f"the vault has no department {words.department!r}") from error
        say("of the past, which the engine doesn't report: by the auditor's query report.sql")
    columns = ("dept", "at", *SUMS)
    if words.csv:
        _print_csv(rows, columns)
    else:
        print_table(rows, columns, words.json)


def charges(engine: Engine, words: argparse.Namespace) -> None:
    """Prints what each department is charged for a time: the byte-days at its end less those at its beginning."""
    since, before, now = moments.read(words.since), moments.read(words.before), engine.at or moments.now()
    if not since < before <= now:
        raise UsageError(f"--since {since} has to be before --before {before}, and that not after {now}")
    query = reading.query
    first = {it["department"]: it for it in query(engine.tables, "report", at=since)}
    rows = []
    for last in query(engine.tables, "report", at=before):
        begun = first[last["department"]]
        grown = {it: last[it] - begun[it] for it in ("byte_days", "admitted", "received", "removed", "handed")}
        rows.append({"dept": last["department"], "since": since, "before": before, **grown, "held": last["held"]})
    if words.json:
        print_json(rows)
    else:
        _print_csv(rows, CHARGED)


def _subcommand(
    commands: argparse._SubParsersAction[argparse.ArgumentParser],
    common: argparse.ArgumentParser,
    name: str,
    run: Callable[[Engine, argparse.Namespace], None],
    texts: tuple[str, str],
) -> argparse.ArgumentParser:
    it = commands.add_parser(name, parents=[common], help=texts[0], epilog=f"Example: {texts[1]}")
    it.set_defaults(run=run)
    return it


def add(commands: argparse._SubParsersAction[argparse.ArgumentParser], common: argparse.ArgumentParser) -> None:
    """Adds the subcommands to the desk's words."""
    texts = ("certificates of all removals, a file each and one page", "vaultdesk certificates out --since 2025-01-01")
    it = _subcommand(commands, common, "certificates", certificates, texts)
    it.add_argument("folder")
    it.add_argument("--since", metavar="DATE", help="only of removals from then on")
    it.add_argument("--before", metavar="DATE", help="only of earlier removals")
    it.add_argument("--any-caller", action="store_true", help="ask as a caller of each bucket's own department")
    it.add_argument("--pdf", action="store_true", help=f"the page as PDF/A too, certificates.pdf, by {paper.MAKER}")
    it.add_argument("--paper", choices=paper.PAPERS, help=f"of the PDF ({paper.PAPERS[0]})")
    it.add_argument("--force", action="store_true", help="write over files that are there")

    texts = ("the certificate of one removed version", "vaultdesk certificate 17 --as ann")
    it = _subcommand(commands, common, "certificate", certificate, texts)
    it.add_argument("number", type=number, metavar="N", help="the version's number, as find and the register print it")
    it.add_argument("--any-caller", action="store_true", help="ask as a caller of the bucket's own department")
    paper.add(it)

    texts = ("the register of removals, also as a spreadsheet", "vaultdesk register --xlsx register.xlsx")
    it = _subcommand(commands, common, "register", print_register, texts)
    it.add_argument("--since", metavar="DATE", help="only of removals from then on")
    it.add_argument("--before", metavar="DATE", help="only of earlier removals")
    it.add_argument("--documents", action="store_true", help="without delete markers")
    it.add_argument("--parts", action="store_true", help=evidence.PARTS)
    it.add_argument("--xlsx", metavar="FILE", help="a spreadsheet in which every cell is a text")
    it.add_argument("--force", action="store_true", help="write over a file that is there")

    texts = (
        "the sums of a department, or of all: of a past moment (--at) too",
        "vaultdesk report --all --csv --at 2026-01-01 --as registrar",
    )
    it = _subcommand(commands, common, "report", report, texts)
    it.add_argument("department", nargs="?")
    it.add_argument("--all", action="store_true", help="of all departments")
    it.add_argument("--csv", action="store_true", help="print CSV")

    texts = (
        "what each department is charged for a time, as CSV: bytes times days",
        "vaultdesk charges --since 2025-01-01 --before 2026-01-01",
    )
    it = _subcommand(commands, common, "charges", charges, texts)
    it.add_argument("--since", metavar="DATE", required=True, help="from this moment on")
    it.add_argument("--before", metavar="DATE", required=True, help="up to this moment, which isn't included")
