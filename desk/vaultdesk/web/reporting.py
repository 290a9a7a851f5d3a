"""What was removed, with certificates; what departments have and are charged; and what rules will remove."""

from __future__ import annotations

import io
from pathlib import Path
from typing import Any

from vaultdesk import moments, reading, spreadsheet
from vaultdesk.asking import Unconfirmed
from vaultdesk.errors import DeskError, UsageError
from vaultdesk.web.allowed import Allowed, all_buckets, allowed, departments_of
from vaultdesk.web.changing import asks_back, given_yes
from vaultdesk.web.document import entry
from vaultdesk.web.finding import as_csv, download
from vaultdesk.web.visit import form, given, page, visit
from vaultdesk.years_end import CHARGED, COLUMNS

Row = dict[str, Any]
DAY = 86_400  # seconds
MOST = 500  # removals on a page, and certificates on one
XLSX = "application/vnd.openxmlformats-officedocument.spreadsheetml.sheet"


def _read_removed(file: Path) -> list[Row]:
    """The rows of the register, newest first, each cell a text as the engine prints it."""
    nothing = dict.fromkeys(("bucket", "prefix", "text", "sha256", "since", "before"))
    found = reading.query(file, "find", state="removed", **nothing)
    for it in found:
        it["days"] = moments.seconds_of(it["removed"]) // DAY - moments.seconds_of(it["admitted"]) // DAY
    rows = [{name: str(it[name]) for name in COLUMNS} for it in found]
    return sorted(rows, key=lambda it: (it["removed"], int(it["version"])), reverse=True)


def _register() -> list[Row]:
    """The rows of the register that the words after the `?` ask for, of what the user may certify, newest first."""
    asked, may = given(), allowed()
    since, before = (moments.read(asked[it]) if asked.get(it) else "" for it in ("since", "before"))
    owners = {it.name: it.department for it in all_buckets()}
    rows = visit().engine.known("removed", _read_removed)
    within = [it for it in rows if since <= it["removed"] and (not before or it["removed"] < before)]
    return [it for it in within if may.reports(owners[it["bucket"]])]


def _in_order() -> list[Row]:
    """The same by their numbers, as the register has them."""
    return sorted(_register(), key=lambda it: int(it["version"]))


def removed() -> Any:
    """The register of removals."""
    rows = _register()
    return page("removed.html", rows=rows[:MOST], count=len(rows), asked=given())


def register_csv() -> Any:
    """The register as CSV."""
    return as_csv(_in_order(), COLUMNS, "register.csv")


def register_xlsx() -> Any:
    """The register as a spreadsheet of texts."""
    made = io.BytesIO()
    spreadsheet.write_to(made, "register", _in_order(), COLUMNS)
    return download(made.getvalue(), "register.xlsx", XLSX)


def _text(bucket: str, number: int) -> str:
    return str(visit().engine.ask("certificate", bucket=bucket, id=number)["text"])


def certificate(number: int) -> Any:
    """The certificate of a removed version."""
    return page("certificates.html", texts=[_text(entry(number).bucket, number)], count=1)


def certificates() -> Any:
    """The certificates of all documents that the register has for the words after the `?`, to be printed."""
    rows = [it for it in _in_order() if it["kind"] == "version"]
    texts = [_text(it["bucket"], int(it["version"])) for it in rows[:MOST]]
    return page("certificates.html", texts=texts, count=len(rows))


# ---- sums


def _charges(may: Allowed) -> list[Row]:
    """What departments are charged for the time after the `?`; nothing where none is asked for."""
    asked = given()
    if not asked.get("since") and not asked.get("before"):
        return []
    if not asked.get("since") or not asked.get("before"):
        raise UsageError("charges are for a time: give its first day, and the day after its last one")
    done = visit().done("charges", since=asked["since"], before=asked["before"])
    return [it for it in done.value if may.reports(it["dept"])]


def reports() -> Any:
    """The sums of departments as they are now, and what each is charged for a time."""
    may = allowed()
    departments = departments_of(may)
    sums = [visit().engine.ask("report", dept=it) for it in departments]
    return page("reports.html", sums=sums, charges=_charges(may), asked=given())


def charges_csv() -> Any:
    """What departments are charged, as CSV."""
    return as_csv(_charges(allowed()), CHARGED, "charges.csv")


# ---- what rules remove


def disposal() -> Any:
    """What the rules of a department's buckets will remove up to a day, for who may have its reports."""
    asked, may = given(), allowed()
    departments = departments_of(may)
    found, said = None, list[str]()
    if asked.get("department"):
        if asked["department"] not in departments:
            visit().engine.ask("report", dept=asked["department"])  # the engine says why not
        until = asked.get("until") or moments.now()
        done = visit().done("expire", department=asked["department"], until=until, dry_run=True)
        found, said = done.value, done.said
    return page("disposal.html", departments=departments, asked=asked, found=found, said=said)


def dispose() -> Any:
    """Has the rules of a department's buckets be carried out as of now."""
    sent = form()
    if not sent.get("department"):
        raise DeskError("which department?")
    visit().engine.ask("report", dept=sent["department"])
    try:
        done = visit().done("expire", department=sent["department"], **given_yes("yes"))
    except Unconfirmed as error:
        return asks_back(error)
    return page("disposed.html", done=done)


def add(app: Any) -> None:
    """Adds the pages to the site."""
    app.add_url_rule("/removed", "removed", removed)
    app.add_url_rule("/removed/register.csv", "register_csv", register_csv)
    app.add_url_rule("/removed/register.xlsx", "register_xlsx", register_xlsx)
    app.add_url_rule("/removed/certificates", "certificates", certificates)
    app.add_url_rule("/version/<int:number>/certificate", "certificate", certificate)
    app.add_url_rule("/reports", "reports", reports)
    app.add_url_rule("/reports/charges.csv", "charges_csv", charges_csv)
    app.add_url_rule("/disposal", "disposal", disposal)
    app.add_url_rule("/disposal/carry-out", "dispose", dispose, methods=["POST"])
