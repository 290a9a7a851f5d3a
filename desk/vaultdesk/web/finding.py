"""Finding documents: the first page, find, and what a bucket holds."""

from __future__ import annotations

import csv
import io
from typing import Any

from vaultdesk import reading
from vaultdesk.documents import kind_of
from vaultdesk.index import FOUND
from vaultdesk.web.allowed import Allowed, all_buckets, allowed, buckets_of
from vaultdesk.web.libraries import library
from vaultdesk.web.visit import given, page, visit

flask = library("flask")

ROWS = 100  # on a page
WORDS = ("text", "bucket", "prefix", "sha256", "since", "before")


def start() -> Any:
    """The first page: a search, and the buckets that one may list."""
    return page("start.html", buckets=buckets_of(allowed()))


def _seen(rows: list[reading.Row], may: Allowed) -> list[reading.Row]:
    """Those of these rows that the user may see: what is held as it is listed, what was removed as it is certified."""
    departments = {it.name: it.department for it in all_buckets()}
    listed = {it for it in departments if may.lists(it)}
    read = {it for it in listed if may.gets(it)}
    reported = {name for name, dept in departments.items() if may.reports(dept)}
    found = [it for it in rows if it["bucket"] in (reported if it["removed"] else listed)]
    return [it if it["bucket"] in (reported if it["removed"] else read) else {**it, "sha256": ""} for it in found]


def found_rows() -> tuple[list[reading.Row], list[str]]:
    """What the words after the `?` find, newest first, and what the desk says beside that."""
    asked = given()
    words = {name: asked[name] for name in WORDS if asked.get(name)}
    state = {it: asked.get("state") == it for it in ("held", "removed")}
    done = visit().done("find", **words, **state, ignore_case="exact" not in asked, markers="markers" in asked)
    may = allowed()
    rows = _seen(done.value, may)
    if "sha256" in words:  # by which one could learn it
        rows = [it for it in rows if it["sha256"]]
    return rows[::-1], done.said


def find() -> Any:
    """What a search finds, page by page."""
    rows, said = found_rows()
    asked = given()
    number = int(asked["page"]) if asked.get("page", "").isdecimal() else 1
    shown = rows[ROWS * (number - 1):ROWS * number]
    rest = {name: value for name, value in asked.items() if name != "page"}
    pages = {"before": number - 1, "after": number + 1 if len(rows) > ROWS * number else 0}
    lists = {"rows": shown, "buckets": buckets_of(allowed()), "pages": pages, "said": said}
    return page("find.html", count=len(rows), asked=asked, rest=rest, **lists)


def find_csv() -> Any:
    """The same as CSV, all of it."""
    rows, _ = found_rows()
    return as_csv(rows, FOUND, "found.csv")


def as_csv(rows: list[dict[str, Any]], columns: tuple[str, ...], name: str) -> Any:
    """Rows as a file of CSV, to be downloaded."""
    text = io.StringIO()
    writer = csv.DictWriter(text, columns, lineterminator="\n", extrasaction="ignore")
    writer.writeheader()
    writer.writerows(rows)
    return download(text.getvalue().encode(), name, "text/csv; charset=utf-8")


def download(content: bytes, name: str, kind: str = "application/octet-stream") -> Any:
    """Bytes as a file to be downloaded."""
    answer = flask.send_file(io.BytesIO(content), kind, as_attachment=True, download_name=name)
    answer.headers["Content-Type"] = kind
    return answer


def bucket(name: str) -> Any:
    """What a bucket holds, as the engine lists it."""
    asked = given()
    after: dict[str, Any] = {}
    if asked.get("after_id", "").isdecimal():
        after = {"after_key": flask.request.args["after_key"], "after_id": int(asked["after_id"])}
    prefix = asked.get("prefix") or None
    found = visit().engine.ask("list-versions", bucket=name, prefix=prefix, most=ROWS, **after)
    rows = [{**it, "kind": kind_of(dict(it))} for it in found["entries"]]
    last = rows[-1] if found["more"] else None
    return page("bucket.html", name=name, rows=rows, prefix=prefix or "", last=last, is_begun=bool(after))


def add(app: Any) -> None:
    """Adds the pages to the site."""
    app.add_url_rule("/", "start", start)
    app.add_url_rule("/find", "find", find)
    app.add_url_rule("/find.csv", "find_csv", find_csv)
    app.add_url_rule("/bucket/<name>", "bucket", bucket)
