"""Locks: legal holds and their cases, retentions; and what takes a document away."""

from __future__ import annotations

import csv
import tempfile
from collections.abc import Iterator
from pathlib import Path
from typing import Any

from vaultdesk import facts, moments, reading
from vaultdesk.asking import Unconfirmed
from vaultdesk.cases import Cases, file_beside
from vaultdesk.errors import DeskError, UsageError
from vaultdesk.web.allowed import Allowed, allowed, own_buckets
from vaultdesk.web.changing import asks_back, given_yes, many_rows, one_row
from vaultdesk.web.document import Entry, entry
from vaultdesk.web.visit import form, given, goes_to, page, visit

Row = dict[str, Any]


def _read_holds(file: Path) -> list[Row]:
    """What is under a legal hold, the oldest hold first."""
    names = ("since", "by", "bucket", "key", "version", "size")
    rows = [dict(zip(names, it, strict=True)) for it in reading.rows(file, facts.HOLDS)]
    return [{**it, "since": moments.of_seconds(it["since"])} for it in rows]


def _on_hold(may: Allowed) -> list[Row]:
    """What is under a legal hold, of what the user may read."""
    return [it for it in visit().engine.known("holds", _read_holds) if may.gets(it["bucket"])]


def _cases(may: Allowed) -> Iterator[Row]:
    """The cases, with what of each the user may read."""
    found = Cases(file_beside(visit().engine.desk.file))
    notes = [it for it in found.notes if may.gets(it.bucket)]
    for case in sorted({it.case for it in notes}):
        on = [it for it in found.of_case(case) if may.gets(it.bucket)]
        moments_of = [it.moment for it in notes if it.case == case]
        yield {"case": case, "count": len(on), "first": moments_of[0], "last": moments_of[-1]}


def holds() -> Any:
    """What is on hold, and the cases."""
    may = allowed()
    return page("holds.html", rows=_on_hold(may), cases=list(_cases(may)), buckets=own_buckets())


def case(name: str) -> Any:
    """What was put on hold and released for a case."""
    may = allowed()
    found = Cases(file_beside(visit().engine.desk.file))
    states = {it["version"]: it["hold"] for it in reading.query(visit().engine.tables, "held", at=moments.now())}
    notes = [it for it in found.notes if it.case == name and may.gets(it.bucket)]
    if not notes:
        raise DeskError(f"there is no case {name!r}, or nothing of it is yours to read")
    rows = [{**vars(it), "now": states.get(it.version, "removed")} for it in notes]
    return page("case.html", name=name, rows=rows, is_on=bool(found.of_case(name)))


def _many() -> dict[str, Any]:
    """The words of many documents: a bucket, and how their keys begin."""
    sent = form()
    if not sent.get("bucket") or not sent.get("prefix"):
        raise UsageError("which ones? give the bucket, and how the keys begin")
    words = {"bucket": sent["bucket"], "prefix": sent["prefix"], "case": sent.get("case") or None}
    return {**words, "all_versions": "all_versions" in sent}


def hold_many() -> Any:
    """Puts many on hold: first it is said which, by a try on a copy of the vault."""
    is_dry = form().get("yes") != "1"
    done = visit().done("hold", **_many(), dry_run=is_dry)
    if not is_dry:
        return many_rows(done, "holds")
    fields = [(name, value) for name, value in form().items() if name != "token"]
    return page("hold_many.html", rows=done.value, said=done.said, fields=fields)


def release_case(name: str) -> Any:
    """Lifts the holds of a case, of what the user may read."""
    may = allowed()
    notes = [it for it in Cases(file_beside(visit().engine.desk.file)).of_case(name) if may.gets(it.bucket)]
    if not notes:
        raise DeskError(f"nothing is on hold for case {name!r} of what you may read")
    with tempfile.NamedTemporaryFile("w", encoding="utf-8", newline="", suffix=".csv") as file:
        writer = csv.writer(file)
        writer.writerow(("bucket", "key", "version"))
        writer.writerows((it.bucket, it.key, it.version) for it in notes)
        file.flush()
        return many_rows(visit().done("release", case=name, list=file.name), "holds")


# ---- one document


def _of_form(number: int) -> tuple[Entry, dict[str, Any]]:
    """The entry of a form, and the case that it names."""
    return entry(number), {"case": form().get("case") or None}


def _said(number: int, row: Row) -> Any:
    """The way back to a document, with what was changed."""
    visit().note(f"{row['was']} → {row['is']}" if row["was"] else str(row["is"]))
    return goes_to("version", number=number)


def hold(number: int) -> Any:
    """Puts a version on hold."""
    it, words = _of_form(number)
    return _said(number, one_row(visit().done("hold", **it.words, **words)))


def release(number: int) -> Any:
    """Lifts the hold of a version."""
    it, words = _of_form(number)
    return _said(number, one_row(visit().done("release", **it.words, **words)))


def retain(number: int) -> Any:
    """Sets or extends a retention."""
    it, sent = entry(number), form()
    if not sent.get("until"):
        raise UsageError("a retention has an end: give its date")
    words = {"until": sent["until"], "mode": sent.get("mode") or "GOVERNANCE", "bypass": "bypass" in sent}
    try:
        done = visit().done("retain", **it.words, **words, **given_yes("yes"))
    except Unconfirmed as error:
        return asks_back(error)
    return _said(number, one_row(done))


def mark(number: int) -> Any:
    """Puts a delete marker on top of the key of a document."""
    it = entry(number)
    row = one_row(visit().done("rm", bucket=it.bucket, key=it.key))
    return _said(row["version"], row)


def delete(number: int) -> Any:
    """Removes a version for good: first the engine says on a copy of the vault whether it would."""
    it, sent = entry(number), {**given(), **form()}
    words = {**it.words, "bypass": "bypass" in sent}
    if form().get("yes") == "1":
        return _said(number, one_row(visit().done("delete", **words, yes=True)))
    visit().engine.ask("head", **it.place)  # who may not see it is said no more of it
    done = visit().done("delete", **words, dry_run=True)
    return page("delete.html", it=it, row=done.value[0], said=done.said, bypass=words["bypass"])


def add(app: Any) -> None:
    """Adds the pages to the site."""
    app.add_url_rule("/holds", "holds", holds)
    app.add_url_rule("/holds/many", "hold_many", hold_many, methods=["POST"])
    app.add_url_rule("/case/<path:name>", "case", case)
    app.add_url_rule("/release-case/<path:name>", "release_case", release_case, methods=["POST"])
    for change in (hold, release, retain, mark):
        app.add_url_rule(f"/version/<int:number>/{change.__name__}", change.__name__, change, methods=["POST"])
    app.add_url_rule("/version/<int:number>/delete", "delete", delete, methods=["GET", "POST"])
