"""Contrib: the auditor's queries, and the page that the desk makes of a vault, on vaults that the program makes.

The queries say what the program says: of each version by `head`, of removals by the register, of sums by `report`, and
of what the lifecycle rules will do by a run; of the example year they say what was worked out by hand, of past moments
too, and the same where its contents are kept outside. A moment that isn't written as one is an error. The figures of
the page are those of `report`, `register` and the queries; where chromium is there, the page is opened in it, searched
and sorted, and printed.
"""

import contextlib
import csv
import functools
import hashlib
import html.parser
import io
import json
import os
import shutil
import sqlite3
import subprocess

from trials.parts.outside import outside
from trials.parts.program import (
    CONTRIB, DESK, NOBODY, OPENED_AT, TOP, Case, carry_out, check, needs, printed, ran_words, shared_folder
)

AT = OPENED_AT
LATER = "2025-06-10T12:00:00Z"


class Vault:
    """A new vault in a folder, and how it is asked."""

    def __init__(self, file, script=(), *words):
        self.file = file
        self.run("init", file, *words)
        replies = self.replay(script)
        check(all("ok" in it for it in replies), f"of a script is answered {replies}")

    @classmethod
    def there(cls, file):
        """The vault that is in a file."""
        vault = cls.__new__(cls)
        vault.file = file
        return vault

    def run(self, *words, given=""):
        return printed(*words, given=given)

    def replay(self, lines):
        """The replies to lines, which are objects."""
        given = "".join(json.dumps(it) + "\n" for it in lines)
        return [json.loads(it) for it in self.run("replay", self.file, given=given).splitlines()]

    def query(self, name, **given):
        """The rows of a query of contrib/queries, with the values of its parameters that are given."""
        values = dict.fromkeys(("at", "id", "since", "before", "bucket", "prefix", "text", "sha256", "state")) | given
        with contextlib.closing(sqlite3.connect(f"{self.file.as_uri()}?mode=ro", uri=True)) as base:
            base.row_factory = sqlite3.Row
            return [dict(it) for it in base.execute((CONTRIB / "queries" / f"{name}.sql").read_text(), values)]

    def register(self):
        return list(csv.DictReader(io.StringIO(self.run("register", self.file))))


def lines_of(path):
    return [json.loads(it) for it in path.read_bytes().splitlines() if it]


def office():
    """The lines that make a department with a bucket and a caller."""
    line = {"at": AT, "as": "registrar"}
    rights = ["put", "get", "list", "hold", "retain", "delete-version"]
    return [
        {**line, "do": "add-dept", "dept": "records"},
        {**line, "do": "add-caller", "caller": "ann", "dept": "records", "rights": rights},
        {**line, "do": "add-bucket", "bucket": "docs", "dept": "records"},
    ]


# ---- the auditor's queries


def rows_held(vault):
    """The held entries of a vault: each id with its bucket and key, and whether a rule made it."""
    base = sqlite3.connect(f"{vault.file.as_uri()}?mode=ro", uri=True)
    rows = base.execute("SELECT id, bucket, key, by_rule, admitted_by FROM entries WHERE removed IS NULL").fetchall()
    base.close()
    return {it[0]: it[1:] for it in rows}


def look_at_run(folder, script, run):
    """What the query says of a moment is what a run of then does; how many changes there were."""
    folder.mkdir()
    vault = Vault(folder / "v")
    vault.replay(script)
    told = [it for it in vault.query("due", at=run["at"]) if it["bucket"] == run["bucket"]]
    marked = sorted((it["bucket"], it["key"], 1, it["rule"]) for it in told if it["change"] == "marked")
    removed = sorted((it["version"], it["rule"]) for it in told if it["change"] != "marked")
    counts = {name: sum(it["change"] == name for it in told) for name in ("marked", "removed", "lone")}
    before = rows_held(vault)
    (reply,) = vault.replay([run])
    if "error" in reply:
        return 0
    after = rows_held(vault)
    done = reply["ok"]
    check({it: done[it] for it in counts} == counts, f"it says {counts}, and a run does {done}: {script}")
    made = sorted(row for it, row in after.items() if it not in before)
    check(made == marked, f"{made} are marked, and it says {marked}: {script}")
    causes = {int(it["version"]): it["cause_by"] for it in vault.register()}
    gone = sorted((it, causes[it]) for it in before if it not in after)
    check(gone == removed, f"{gone} are removed, and it says {removed}: {script}")
    return done["changes"]


SCRIPT = lines_of(CONTRIB / "example-year.jsonl")
# The moments of which queries and page are asked.
MOMENTS = ("2025-05-12T03:00:00Z", LATER, "2026-01-01T00:00:00Z")
# What the queries say of the example year, worked out by hand from its lines and the rules; of each row some columns.
YEAR = [
    # before version 2 got its hold, with what was removed since, and without what came later
    ("held", {"at": "2024-09-01"}, ("department", "bucket", "version", "retention", "until", "hold"), [
        ("court", "cases", 9, "-", "-", "OFF"),
        ("court", "cases", 8, "GOVERNANCE", "2026-01-01T00:00:00Z", "ON"),
        ("records", "drafts", 6, "GOVERNANCE", "2024-10-13T10:00:00Z", "OFF"),
        ("records", "drafts", 5, "GOVERNANCE", "2024-09-29T10:00:00Z", "OFF"),
        ("records", "drafts", 4, "GOVERNANCE", "2024-09-19T09:00:00Z", "OFF"),
        ("records", "letters", 1, "COMPLIANCE", "2025-06-04T09:00:00Z", "OFF"),
        ("records", "letters", 2, "COMPLIANCE", "2025-06-04T09:05:00Z", "OFF"),
        ("records", "letters", 3, "COMPLIANCE", "2025-06-20T09:00:00Z", "OFF"),
    ]),
    # a version is there from the moment of its admission on, and gone from that of its removal on
    ("held", {"at": "2024-06-04T08:59:59Z"}, ("version",), []),
    ("held", {"at": "2024-06-04T09:00:00Z"}, ("version",), [(1,)]),
    ("held", {"at": "2024-07-16T09:59:59Z"}, ("version",), [(7,), (6,), (5,), (4,), (1,), (2,), (3,)]),
    ("held", {"at": "2024-07-16T10:00:00Z"}, ("version",), [(6,), (5,), (4,), (1,), (2,), (3,)]),
    # version 11 is marked as soon as it is due, and removed 45 days after that
    ("due", {"at": "2025-10-01"}, ("due", "change", "version", "kind", "rule", "gone"), [
        ("2025-06-27T00:00:00Z", "removed", 6, "version", "drafts expire", "2025-06-27T00:00:00Z"),
        ("2025-07-31T09:00:00Z", "removed", 13, "version", "old versions", "2025-07-31T09:00:00Z"),
        ("2025-08-07T09:00:00Z", "removed", 14, "version", "drafts expire", "2025-08-07T09:00:00Z"),
        ("2025-09-02T00:00:00Z", "marked", 11, "version", "drafts expire", "2025-10-17T00:00:00Z"),
    ]),
    ("report", {"at": "2024-09-01"}, ("department", "admitted", "received", "held", "removed", "handed", "byte_days"), [
        ("court", 55, 0, 55, 0, 0, 1_698),
        ("records", 239, 0, 223, 16, 0, 15_974),
    ]),
    ("report", {"at": "2025-01-01"}, ("at", "department", "admitted", "held", "removed", "byte_days"), [
        ("2025-01-01T00:00:00Z", "court", 55, 55, 0, 8_408),
        ("2025-01-01T00:00:00Z", "records", 290, 220, 70, 41_933),
    ]),
    ("removed", {"since": "2024-07-16T10:00:01Z", "before": "2025-01-21T03:00:01Z"},
     ("version", "key", "cause", "cause_by", "days"), [
        (4, "d/plan", "rule", "old versions", 102),
        (5, "d/plan", "rule", "drafts expire", 204),
        (10, "d/budget", "request", "ann", 2),
    ]),
    ("removed", {"since": "2025-03-03"}, ("version", "cause"), [(9, "request")]),
    ("removed", {"before": "2024-07-16"}, ("version",), []),
    ("buckets", {}, ("bucket", "department", "default", "rules", "versions", "bytes", "holds", "markers"), [
        ("cases", "court", "-", "-", 1, 48, 1, 0),
        ("drafts", "records", "GOVERNANCE 90 days", "old versions, drafts expire, small notes (disabled)",
         4, 130, 0, 2),
        ("letters", "records", "COMPLIANCE 1 year", "-", 4, 138, 1, 0),
    ]),
    ("version", {"id": 10}, ("moment", "event", "by", "detail"), [
        ("2024-11-04T09:00:00Z", "admitted", "ann", "drafts/d/budget: 22 bytes of records, sha256 "
            + hashlib.sha256(b"What the shelves cost.").hexdigest()),
        ("2024-11-04T09:00:00Z", "locked", "ann", "GOVERNANCE until 2025-02-02T09:00:00Z, hold OFF"),
        ("2024-11-06T09:00:00Z", "locked", "gov", "GOVERNANCE until 2024-11-06T10:00:00Z, hold OFF, by a bypass"),
        ("2024-11-06T11:00:00Z", "removed", "ann", "request"),
    ]),
    ("find", {"bucket": "cases"}, ("version", "key", "size", "admitted_by", "removed", "cause", "cause_by"), [
        (8, "4711/statement", 48, "cid", "", "", ""),
        (9, "4711/exhibit", 7, "cid", "2025-03-03T09:01:00Z", "request", "cid"),
    ]),
    ("find", {"prefix": "2024/00", "text": "ü"}, ("version", "key"), [(1, "2024/001 Gründe & Räume")]),
    ("find", {"prefix": "_024"}, ("version",), []),
    ("find", {"text": "%"}, ("version",), []),
    ("find", {"sha256": hashlib.sha256(b"What the shelves cost.").hexdigest()[:8].upper()}, ("version",), [(10,)]),
    ("find", {"since": "2025-05-02T09:00:00Z", "before": "2025-05-09T09:00:00Z"}, ("version", "kind"),
     [(13, "version")]),
    ("find", {"since": "2025-05-09T09:00:01Z"}, ("version", "kind", "sha256", "admitted_by"), [
        (15, "marker", "", "ann"),
        (16, "marker", "", "rule drafts expire"),
    ]),
    ("find", {"state": "removed"}, ("version",), [(4,), (5,), (7,), (9,), (10,)]),
    ("find", {"state": "held", "bucket": "letters"}, ("version",), [(1,), (2,), (3,), (12,)]),
    ("events", {"id": 10},
     ("event", "moment", "by", "mode", "until", "hold", "bypass", "cause", "department", "move"), [
        ("admitted", "2024-11-04T09:00:00Z", "ann", "", "", "", "", "", "records", ""),
        ("locked", "2024-11-04T09:00:00Z", "ann", "GOVERNANCE", "2025-02-02T09:00:00Z", "OFF", "false", "", "", ""),
        ("locked", "2024-11-06T09:00:00Z", "gov", "GOVERNANCE", "2024-11-06T10:00:00Z", "OFF", "true", "", "", ""),
        ("removed", "2024-11-06T11:00:00Z", "ann", "", "", "", "", "request", "", ""),
    ]),
    ("events", {"before": "2024-06-04T09:05:01Z"}, ("version", "event"), [
        (1, "admitted"), (1, "locked"), (2, "admitted"), (2, "locked"),
    ]),
    ("version", {"id": "16"}, ("moment", "event", "by", "detail"), [
        ("2025-05-12T03:00:00Z", "admitted", "rule drafts expire", "drafts/d/plan: a delete marker"),
    ]),
]  # fmt: skip


# What is neither a date nor a moment. A number is what `.parameter set :at 2025-06-10` makes of a date.
NO_MOMENTS = [
    "", "10.06.2025", "2025-13-01", "2025-02-30", "2025-6-1", "2025-06-10 12:00:00", "2025-06-10T12:00:00",
    "2025-06-10T12:00Z", "2025-06-10T12:00:00+02:00", "2025-06-10T24:00:00Z", "2025-06-10T12:00:00.5Z",
    "now", "tomorrow", 2009, 2_460_000.5,
]  # fmt: skip


def look_at_report(asked, vault, at):
    """The sums of a moment, asked of one vault, are those of `report` over another, or the same."""
    for told in asked.query("report", at=at):
        report = vault.run("report", vault.file, told.pop("department"), "--as", "registrar", "--at", at)
        wanted = {name.replace("-", "_"): value for name, value in (it.split() for it in report.splitlines()[1:])}
        check({it: str(told[it]) for it in told} == wanted, f"at {at}: wanted {wanted}, got {told}")


def look_at_events(vault):
    """The events of the query are those of vault-recheck, cell by cell."""
    for given in ({}, {"before": "2025-03-03T09:01:00Z"}):
        words = [word for name, value in given.items() for word in (f"--{name}", value)]
        printed = subprocess.check_output([CONTRIB / "vault-recheck", "events", vault.file, *words], encoding="utf-8")
        wanted = list(csv.DictReader(io.StringIO(printed, newline="")))
        told = [{name: str(value) for name, value in row.items()} for row in vault.query("events", **given)]
        check(told == wanted and told, f"of {given} wanted {wanted}, got {told}")


# ---- the page


class Tables(html.parser.HTMLParser):
    """The tables of a page by their ids, as rows of texts."""

    def __init__(self):
        super().__init__()
        self.tables, self.rows, self.cell = {}, None, None

    def handle_starttag(self, tag, attrs):
        if tag == "table":
            self.rows = self.tables.setdefault(dict(attrs)["id"], [])
        elif tag == "tr":
            self.rows.append([])
        elif tag in ("td", "th"):
            self.cell = ""

    def handle_data(self, data):
        if self.cell is not None:
            self.cell += data

    def handle_endtag(self, tag):
        if tag in ("td", "th"):
            self.rows[-1].append(self.cell)
            self.cell = None


def tables_of(text):
    parser = Tables()
    parser.feed(text)
    return parser.tables


def page_of(*words):
    """What the desk does with the words of a page."""
    env = {it: value for it, value in os.environ.items() if it not in ("VAULT", "VAULT_CALLER")}
    return ran_words(DESK, "page", *words, env=env)


def printed_page(vault, at):
    ran = page_of(vault.file, "--at", at)
    check((ran.status, ran.err) == (0, ""), f"of a page is said {ran}")
    return ran.out


def number(text):
    return int(text.replace(",", ""))


@functools.cache
def year():
    """The bytes of a vault of the example year."""
    file = shared_folder() / "year.vault"
    Vault(file, SCRIPT)
    carry_out(file, [])
    return file.read_bytes()


class OfTheYear(Case):
    """A vault of the example year, and how it is asked."""

    script = SCRIPT

    def setUp(self):
        super().setUp()
        file = self.folder / "year.vault"
        file.write_bytes(year())
        self.vault = Vault.there(file)

    def tearDown(self):
        self.is_sound(self.vault.file)


class Queries(OfTheYear):
    asked_by = {"letters": "ann", "drafts": "ann", "cases": "cid"}

    def setUp(self):
        super().setUp()
        self.empty = Vault(self.folder / "empty.vault")

    def test_held(self):
        for at in MOMENTS:
            self.look_at_held(at)

    def test_callers(self):
        rows = self.vault.query("callers")
        told = {it["caller"]: (it["department"], it["state"], set(it["rights"].split())) for it in rows}
        closed = {it["caller"] for it in self.script if it["do"] == "close-caller"}
        wanted = {
            it["caller"]: (it.get("dept", "-"), "closed" if it["caller"] in closed else "open", set(it["rights"]))
            for it in self.script
            if it["do"] == "add-caller"
        }
        wanted["registrar"] = ("-", "open", {"admin"})
        check(told == wanted, f"the callers are {told}, and not {wanted}")

    def asked(self, at, bucket):
        return {"at": at, "as": self.asked_by[bucket], "bucket": bucket}

    def look_at_held(self, at):
        """Of each version that is held, the query says what `head` says."""
        rows = self.vault.query("held", at=at)
        lines = [
            {**self.asked(at, it["bucket"]), "do": "head", "key": it["key"], "id": it["version"]} for it in rows
        ]
        for row, reply in zip(rows, self.vault.replay(lines), strict=True):
            told = reply["ok"]
            retention = told["retention"] or {"mode": "-", "until": "-"}
            mode = retention["mode"] if retention["until"] == "-" or retention["until"] > at else "ended"
            wanted = (told["size"], mode, retention["until"], told["hold"])
            given = (row["size"], row["retention"], row["until"], row["hold"])
            check(given == wanted, f"of version {row['version']} it has {given}, and not {wanted}")
        listed = [
            entry["version_id"]
            for bucket in self.asked_by
            for entry in self.vault.replay([{**self.asked(at, bucket), "do": "list-versions"}])[0]["ok"]["entries"]
            if not entry["delete_marker"]
        ]
        check(sorted(listed) == sorted(it["version"] for it in rows), f"held are {listed}")

    def test_lifted_and_bypassed(self):
        told = [(it["lifted"], it["lifted_by"], it["version"]) for it in self.vault.query("holds-lifted")]
        wanted = [(it["at"], it["as"], it.get("id", 9)) for it in self.script if it.get("hold") == "OFF"]
        check(told == wanted and told, f"lifted are {told}, and not {wanted}")
        told = [(it["moment"], it["caller"], it["version"]) for it in self.vault.query("bypassed")]
        wanted = [(it["at"], it["as"], it["id"]) for it in self.script if it.get("bypass")]
        check(told == wanted and told, f"bypassed are {told}, and not {wanted}")
        removed = {it["version"] for it in self.vault.query("bypassed") if it["done"] == "removed"}
        named = {int(it["version"]) for it in self.vault.register() if it["cause"] == "bypass"}
        check(removed == named, f"removed by bypass are {removed}, and by the register {named}")

    def test_due(self):
        """The query of what is due, over the scripts among the examples that run rules."""
        runs = changes = 0
        for path in sorted(TOP.glob("examples/rows/ru*.jsonl")) + [CONTRIB / "example-year.jsonl"]:
            script = lines_of(path)
            for place, line in enumerate(script):
                if line["do"] == "run":
                    changes += look_at_run(self.folder / f"{path.stem}-{place}", script[:place], line)
                    runs += 1
        check(runs > 20 and changes > 20, f"{runs} runs were compared, with {changes} changes")

    def test_year(self):
        """What the queries say of the example year is what was worked out by hand."""
        for name, given, columns, wanted in YEAR:
            told = [tuple(row.get(it) for it in columns) for row in self.vault.query(name, **given)]
            check(told == wanted, f"{name} of {given}: wanted {wanted}, got {told}")

    def test_no_moments(self):
        """What is neither a date nor a moment, and no version's number, is an error of each query, of an empty vault
        too."""
        asked = [
            ("held", "at"), ("due", "at"), ("report", "at"), ("removed", "since"), ("removed", "before"),
            ("find", "since"), ("find", "before"), ("events", "before"),
        ]  # fmt: skip
        wrong = [(name, {it: value}) for name, it in asked for value in NO_MOMENTS]
        wrong += [("version", {"id": it}) for it in (None, 0, 17, "1.0", "x")]
        wrong += [("events", {"id": it}) for it in (0, 17, "1.0", "x")]
        for name, given in wrong:
            for it in (self.vault, self.empty):
                try:
                    rows = it.query(name, **given)
                except sqlite3.OperationalError:
                    continue
                check(False, f"{name} of {given} has rows: {rows}")
        check(self.empty.query("held", at="2025-06-10") == [], "an empty vault holds something")

    def test_events(self):
        look_at_events(self.vault)

    def test_batches(self):
        """Each batch has as many lines as were admitted of it, whatever became of their versions."""
        vault = Vault(self.folder / "batches.vault", office())
        line = {"as": "ann", "do": "intake", "bucket": "docs", "batch": "b1", "key": "k"}
        at = ("2024-02-01T00:00:00Z", "2024-02-02T00:00:00Z")
        given = [(at[0], 1, "five5"), (at[0], 1, "five5"), (at[0], 1, "other"), (at[1], 3, "x")]
        vault.replay([{**line, "at": when, "line": number, "text": text} for when, number, text in given])
        vault.replay([{**line, "at": at[1], "batch": "b0", "line": 2, "text": "no"}])
        vault.replay([{"at": at[1], "as": "ann", "do": "delete-version", "bucket": "docs", "key": "k", "id": 1}])
        told = [tuple(it.values()) for it in vault.query("batches")]
        check(told == [("docs", "b0", 1, 2, at[1], at[1]), ("docs", "b1", 2, 6, *at)], f"the batches are {told}")
        names = [*(f"s3-{it * 40}" for it in "ab"), f"new-{'c' * 40}", "new-x", "s3-y"]
        vault.replay([{**line, "at": at[1], "batch": it, "line": 1, "key": it, "text": "x"} for it in names])
        told = {it["batch"]: it["lines"] for it in vault.query("batches")}
        check(told == {"b0": 1, "b1": 2, "new-*": 1, "new-x": 1, "s3-*": 2, "s3-y": 1}, f"the batches are {told}")

    def test_past_reports(self):
        """The sums of a past moment are those that `report` had then, over a vault that ended there."""
        for at in ("2024-07-16T10:00:00Z", "2024-10-01T03:00:00Z", "2025-03-03T09:01:00Z"):
            then = Vault(self.folder / f"{at[:10]}.vault", [it for it in self.script if it["at"] <= at])
            look_at_report(self.vault, then, at)

    def test_moved(self):
        """A bucket that moves is the other department's from then on, and was the first one's before; its markers
        aren't among the versions that are removed."""
        vault = Vault(self.folder / "moved.vault", self.script)
        move = {"at": "2025-07-01T10:00:00Z", "as": "registrar", "do": "move-bucket", "dept": "court"}
        removal = {"at": "2025-07-02T10:00:00Z", "as": "cid", "do": "delete-version", "key": "d/plan"}
        lines = [move, *({**removal, "id": it} for it in (6, 16))]
        replies = vault.replay([{**it, "bucket": "drafts"} for it in lines])
        check(all("ok" in it for it in replies), f"a move and removals are answered {replies}")
        for at, dept in (("2025-07-01T09:59:59Z", "records"), ("2025-07-01T10:00:00Z", "court")):
            told = {it["department"] for it in vault.query("held", at=at) if it["bucket"] == "drafts"}
            check(told == {dept}, f"at {at} drafts is of {told}")
        told = [(it["moment"], it["event"], it["detail"]) for it in vault.query("version", id=13)]
        check(told[-1] == ("2025-07-01T10:00:00Z", "moved", "to court, by move 1"), f"of version 13 there is {told}")
        look_at_events(vault)
        told = [it["version"] for it in vault.query("removed", since="2025-07-02")]
        check(told == [6], f"removed are {told}")
        check([it["version"] for it in vault.register() if it["kind"] == "marker"] == ["16"], "no marker was removed")
        for at in ("2025-07-02T10:00:00Z", "2026-01-01T00:00:00Z"):
            look_at_report(vault, vault, at)

    def test_gone(self):
        """A marked version goes at the moment that the query says, and not a second before."""
        vault = Vault(self.folder / "gone.vault", self.script)
        (row,) = [it for it in vault.query("due", at="2025-10-01") if it["change"] == "marked"]
        run = {"as": "night", "do": "run", "bucket": "drafts"}
        early = "2025-10-16T23:59:59Z"
        vault.replay([{**run, "at": it} for it in (row["due"], early)])
        is_held = row["version"] in {it["version"] for it in vault.query("held", at=early)}
        vault.replay([{**run, "at": row["gone"]}])
        is_gone = row["version"] not in {it["version"] for it in vault.query("held", at=row["gone"])}
        check(is_held and is_gone and early < row["gone"], f"version {row['version']} doesn't go at {row['gone']}")

    @needs("sqlite3")
    def test_shell(self):
        """By `sqlite3`: a date is in two kinds of quotes, an error is a status, a read-only medium can be asked."""
        held = f".read {CONTRIB / 'queries' / 'held.sql'}"

        asked = ("sqlite3", "-readonly", self.vault.file)
        ran = ran_words(*asked, ".parameter set :at \"'2024-09-01'\"", held)
        check((ran.status, ran.out.count("\n")) == (0, 8), f"a date alone: {ran}")
        for word, why in (
            ("2024-09-01", "two kinds of quotes"), ("01.09.2024", "01.09.2024"), ("2024-13-01T00:00:00Z", ":at"),
        ):  # fmt: skip
            ran = ran_words(*asked, f'.parameter set :at "{word}"', held)
            check(ran.status != 0 and ran.out == "" and why in ran.err, f"{word}: {ran}")
        medium = self.folder / "medium"
        medium.mkdir()
        copy = medium / "x.vault"
        shutil.copyfile(self.vault.file, copy)
        copy.chmod(0o444)
        medium.chmod(0o555)
        self.folder.chmod(0o755)
        # root may write everywhere, so it asks as nobody
        how = {"user": NOBODY, "group": NOBODY, "extra_groups": []} if os.geteuid() == 0 else {}
        query = "SELECT count(*) FROM entries"
        plain = ran_words("sqlite3", "-readonly", copy, query, **how)
        check(plain.status != 0, f"a read-only medium is asked without immutable: {plain}")
        ran = ran_words("sqlite3", f"{copy.as_uri()}?immutable=1", query, **how)
        check(ran[:2] == (0, "16\n"), f"a read-only medium: {ran}")
        medium.chmod(0o755)


class Outside(OfTheYear):
    def test_same(self):
        """Each query has the same rows where contents are kept outside, and of sizes above those that fit inside."""
        other = Vault(self.folder / "outside.vault", [outside(it, 30) for it in SCRIPT], "--external")
        asked = [(name, given) for name, given, *_ in YEAR]
        names = {it.stem for it in (CONTRIB / "queries").glob("*.sql")}
        for name, given in asked + [(it, {}) for it in names - {name for name, _ in asked}]:
            self.assertEqual(other.query(name, **given), self.vault.query(name, **given), name)
        look_at_events(other)
        self.look_at_large(other)

    def look_at_large(self, vault):
        """The sums and the register of 3 GiB that come and go."""
        size, line = 3 << 30, {"as": "cid", "bucket": "cases", "key": "film"}
        put = {**line, "do": "put", "sha256": hashlib.sha256(b"film").hexdigest(), "size": size}
        self.assertEqual(vault.replay([{**put, "at": "2026-01-02T00:00:00Z"}]), [{"ok": {"version_id": 17}}])
        look_at_report(vault, vault, "2026-01-05T00:00:00Z")
        (gone,) = vault.replay([{**line, "do": "delete-version", "at": "2026-01-06T00:00:00Z", "id": 17}])
        check("ok" in gone, f"the removal is answered {gone}")
        told = [(it["version"], it["size"]) for it in vault.query("removed", since="2026-01-06")]
        check(told == [(17, size)], f"removed are {told}")
        look_at_report(vault, vault, "2026-01-07T00:00:00Z")
        self.is_sound(vault.file)


class Page(OfTheYear):
    def browser(self):
        return ["chromium", "--headless", "--no-sandbox", "--disable-gpu", f"--user-data-dir={self.folder}/browser"]

    def test_shown(self):
        """What the page shows at each of these moments."""
        for at in MOMENTS:
            self.look_at_figures(at)
            self.look_at_locks_shown(at)
            self.look_at_office_shown(at)

    def look_at_figures(self, at):
        """The page's departments are those of `report`, its register is `register`, its months are made of that."""
        tables = tables_of(printed_page(self.vault, at))
        for name, *numbers in tables["departments"][1:]:
            report = self.vault.run("report", self.vault.file, name, "--as", "registrar", "--at", at)
            told = [int(it.split()[1]) for it in report.splitlines()[2:]]
            given = [number(it) for it in numbers]
            check(given == told, f"{name} has {given} on the page, and {told} in the report")
        register = list(csv.reader(io.StringIO(self.vault.run("register", self.vault.file))))
        shown = [
            [it.replace(",", "") if at in (4, 11) else it for at, it in enumerate(row)] for row in tables["register"]
        ]
        check(shown == register, f"the register is {register}, and shown {shown}")
        heads, *months = tables["removed"]
        check(heads == ["month", "request", "bypass", "rule", "all", "markers"], f"the months have {heads}")
        by_month = {(month, what): 0 for month, *_ in months for what in heads[1:]}
        for row in self.vault.register():
            for what in ["markers"] if row["kind"] == "marker" else [row["cause"], "all"]:
                by_month[row["removed"][:7], what] += 1
        shown = {(month, it): number(count) for month, *counts in months for it, count in zip(heads[1:], counts)}
        check(shown == by_month, f"removed are {by_month}, and shown {shown}")

    def look_at_locks_shown(self, at):
        """What the page says of retention and holds is what the query of what is held says."""
        tables = tables_of(printed_page(self.vault, at))
        held = self.vault.query("held", at=at)
        in_force = [it for it in held if it["retention"] in ("GOVERNANCE", "COMPLIANCE")]
        shown = {row[0]: tuple(map(number, row[1:])) for row in tables["ending"][1:]}
        check(len(shown) == 13, f"the months are {list(shown)}")
        for month, counts in shown.items():
            those = [it for it in in_force if it["until"][:7] == month]
            wanted = (len(those), sum(it["size"] for it in those), sum(it["hold"] == "ON" for it in those))
            check(counts == wanted, f"in {month} {counts} fall out of retention, and not {wanted}")
        on = sorted(it["version"] for it in held if it["hold"] == "ON")
        shown = sorted(int(row[5]) for row in tables["holds"][1:])
        check(shown == on, f"holds are on {on}, and shown {shown}")

    def look_at_office_shown(self, at):
        """What the page says of buckets, rules and callers is what the queries say; JSON has the same."""
        tables = tables_of(printed_page(self.vault, at))
        told = json.loads(page_of(self.vault.file, "--at", at, "--json").out)
        shown = {row[0]: (row[1], *map(number, row[3:])) for row in tables["buckets"][1:]}
        asked = self.vault.query("buckets")
        columns = ("department", "versions", "bytes", "markers", "holds")
        wanted = {it["bucket"]: tuple(it[name] for name in columns) for it in asked}
        check(shown == wanted and shown, f"the buckets are {wanted}, and shown {shown}")
        defaults = {row[0]: row[2] for row in tables["buckets"][1:]}
        wanted = {it["bucket"]: it["default"].replace(" ", " for ", 1).replace("-", "none") for it in asked}
        check(defaults == wanted, f"the defaults are {wanted}, and shown {defaults}")
        rules = [(row[0], row[1], row[2]) for row in tables["rules"][1:]]
        wanted = [("drafts", *it) for it in (("old versions", "yes"), ("drafts expire", "yes"), ("small notes", "no"))]
        check(rules == wanted, f"the rules are shown as {rules}")
        callers = {(row[0], row[1].replace("none", "-"), row[2], row[3]) for row in tables["callers"][1:]}
        wanted = {(it["caller"], it["department"], it["state"], it["rights"]) for it in self.vault.query("callers")}
        check(callers == wanted, f"the callers are {wanted}, and shown {callers}")
        for name in ("buckets", "rules", "callers", "removals"):
            table = "register" if name == "removals" else name
            rows = [[str(it).replace(",", "") for it in row.values()] for row in told[name]]
            plain = [[it.replace(",", "") for it in row] for row in tables[table][1:]]
            check(rows == plain, f"as JSON the {name} are {rows}")

    @needs("chromium")
    def test_in_browser(self):
        """The page's script runs as it stands, finds, sorts, and has nothing to complain of."""
        asked = (
            "<script>search.value = 'RULE'; search.dispatchEvent(new Event('input'));"
            " for (const it of [0, 0]) table.tHead.rows[0].cells[0].click();"
            " document.title = found.value + ': ' + rows.map(it => it.cells[0].textContent)"
            " + '; ' + [...body.rows].filter(it => !it.hidden).map(it => it.cells[0].textContent)</script>"
        )
        file = self.folder / "page.html"
        file.write_text(printed_page(self.vault, LATER).replace("</body>", asked + "</body>"))
        ran = ran_words(*self.browser(), "--enable-logging=stderr", "--dump-dom", file.as_uri())
        check("CONSOLE" not in ran.err, f"the browser says {ran.err}")
        ids = sorted((int(it["version"]) for it in self.vault.register()), reverse=True)
        by_rule = sorted((int(it["version"]) for it in self.vault.register() if it["cause"] == "rule"), reverse=True)
        all_ids, those_by_rule = (",".join(map(str, it)) for it in (ids, by_rule))
        wanted = f"<title>{len(by_rule)} of {len(ids)}: {all_ids}; {those_by_rule}</title>"
        check(wanted in ran.out, f"wanted {wanted}, got {ran.out[:3000]}")

    @needs("chromium", "pdftotext")
    def test_on_paper(self):
        """Each printed page of a long register has the names of the columns."""
        line = {"at": AT, "as": "ann", "bucket": "docs"}
        puts = [{**line, "do": "put", "key": f"k{it}", "text": "x"} for it in range(200)]
        removals = [{**line, "do": "delete-version", "key": f"k{it}", "id": it + 1} for it in range(200)]
        vault = Vault(self.folder / "paper.vault", [*office(), *puts, *removals])
        page, printed = self.folder / "paper.html", self.folder / "paper.pdf"
        page.write_text(printed_page(vault, AT))
        ran = ran_words(*self.browser(), f"--print-to-pdf={printed}", page.as_uri())
        check(ran.status == 0, f"the browser prints nothing: {ran}")
        texts = ran_words("pdftotext", "-layout", printed, "-").out.split("\f")[:-1]
        those = [it for it in texts if "docs" in it and "2024-01-15T" in it]
        check(len(those) > 3, f"the register has {len(those)} pages")
        for it in those:
            check(it.count("admitted_by") == 1, f"a page of the register has no heads, or too many: {it[:500]}")

    def test_dates(self):
        """A date is its midnight, and what is neither a date nor a moment is refused with words."""
        date, midnight = (printed_page(self.vault, it) for it in ("2026-12-01", "2026-12-01T00:00:00Z"))
        check(date == midnight, "a date isn't its midnight")
        for wrong in ("2026-13-01", "01.12.2026", "2026-12-1"):
            ran = page_of(self.vault.file, "--at", wrong)
            check(ran.status == 2 and "is no date" in ran.err, f"of {wrong} is said {ran}")

    def test_no_vault(self):
        """What is no vault is refused as such, and a moment before the last change is refused."""
        (self.folder / "text").write_text("no vault")
        for words in ([self.folder / "text"], [self.folder / "absent"], [self.vault.file, "--at", AT]):
            ran = page_of(*words)
            is_refused = ran[:2] == (1, "") and "vaultdesk page: " in ran.err
            check(is_refused, f"the answer to {words} is {ran}")
        check(not (self.folder / "absent").exists(), "a file was made")
        (self.folder / "there.html").write_text("what is there")
        for words, status in (((), 1), (("--force",), 0)):
            ran = page_of(self.vault.file, self.folder / "there.html", "--at", LATER, *words)
            check(ran.status == status, f"a page over a file that is there, with {words}: {ran}")
        written = (self.folder / "there.html").read_text()
        check(written == printed_page(self.vault, LATER), "what is written isn't the page")
