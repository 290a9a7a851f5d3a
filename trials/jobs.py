"""Jobs: three jobs of an office, by its desk alone, over a vault that is served all along.

A delivery by an inventory as a spreadsheet writes it, with the faults that such inventories have; a year's end of three
departments; and a court's question. Nobody writes a line of JSON or SQL, and the server isn't stopped: the vault of
earlier years is made before it starts. What each step takes is printed. Where all is tried (`--long`) the delivery has
5,000 scans of 490 MB; else it has 200 small ones.
"""

import contextlib
import datetime as dt
import json
import os
import pathlib
import random
import time
import unicodedata
from typing import Any, Iterator

from trials.parts.program import DESK, IS_LONG, PROGRAM, Case, Ran, check, printed, ran_words
from trials.parts.servers import BothDoors

SCANS, LARGEST = (5_000, 200_000) if IS_LONG else (200, 2_000)
DEPARTMENTS = {"records": ["letters", "drafts"], "court": ["cases", "notes"], "archive": ["deeds"]}
DOCUMENTS = 180  # of each bucket that are marked, of twice as many
CONTENT = 55_000 if IS_LONG else 250  # bytes of each
RIGHTS = ["config", "put", "retain", "hold", "get", "list", "delete", "delete-version", "run", "report", "bypass"]


class Office:
    """A vault and its server, and the desk over it."""

    def __init__(self, folder: pathlib.Path) -> None:
        self.folder = folder
        self.file = folder / "records.vault"

    def make(self, lines: Iterator[dict[str, Any]]) -> None:
        """Makes the vault of earlier years, before it is served."""
        printed("init", self.file)
        script = self.folder / "script"
        with script.open("w") as file:
            file.writelines(json.dumps(it) + "\n" for it in lines)
        with script.open("rb") as file:
            replies = printed("replay", self.file, given=file)
        check("error" not in replies, replies[:300])

    @contextlib.contextmanager
    def served(self) -> Iterator[None]:
        """Has the vault served meanwhile, with lines at the usual place beside it."""
        server = BothDoors(self.file, self.folder / "records.lines")
        try:
            yield
            check(server.process.poll() is None, "the server ended")
        finally:
            server.stop()

    def asked(self, *words: object, caller: str = "ann") -> Ran:
        """What the desk does with these words; how long that takes is printed."""
        begun = time.monotonic()
        env = {**os.environ, "VAULTCTL": str(PROGRAM), "VAULT": str(self.file), "VAULT_CALLER": caller}
        done = ran_words(DESK, *words, env=env, cwd=self.folder, timeout=None)
        print(f"jobs: {time.monotonic() - begun:7.1f} s  {' '.join(map(str, words))[:100]}")
        return done

    def done(self, *words: object, caller: str = "ann") -> str:
        """What the desk prints for these words, which are carried out."""
        done = self.asked(*words, caller=caller)
        check(done.status == 0, f"{words}: {done}")
        return done.out


def line(at: str, asker: str, do: str, /, **members: object) -> dict[str, object]:
    return {"at": at, "as": asker, "do": do, **members}


def office_lines() -> Iterator[dict[str, Any]]:
    """Three departments with their callers and buckets, all of 2014."""
    at = "2014-01-15T08:00:00Z"
    for department, buckets in DEPARTMENTS.items():
        caller = "ann" if department == "records" else f"ann-{department}"
        yield line(at, "registrar", "add-dept", dept=department)
        yield line(at, "registrar", "add-caller", caller=caller, dept=department, rights=RIGHTS)
        for bucket in buckets:
            yield line(at, "registrar", "add-bucket", bucket=bucket, dept=department)


def year_lines() -> Iterator[dict[str, Any]]:
    """Documents of 2014 in each bucket, of which half were marked in 2024."""
    keep = random.Random(1)
    places = [(department, bucket) for department, buckets in DEPARTMENTS.items() for bucket in buckets]
    for at, half in (("2014-02-01T08:00:00Z", False), ("2024-02-01T08:00:00Z", True)):
        for department, bucket in places:
            caller = "ann" if department == "records" else f"ann-{department}"
            for number in range(DOCUMENTS * 2):
                key = f"2014/{number:04}"
                if not half:
                    yield line(at, caller, "put", bucket=bucket, key=key, hex=keep.randbytes(CONTENT).hex())
                elif number % 2:
                    yield line(at, caller, "delete", bucket=bucket, key=key)


# ---- a delivery


def scan_names() -> list[str]:
    """The names of the scans, of which thirty are as a Mac writes them, with letters apart from their dots."""
    names = [f"Akte {number:04} M\u00fcller.pdf" for number in range(SCANS)]
    return [unicodedata.normalize("NFD", it) if number % (SCANS // 30) == 0 else it for number, it in enumerate(names)]


def make_scans(folder: pathlib.Path) -> None:
    """The scans, and beside them an inventory as a spreadsheet saves it, with four faults."""
    (folder / "scans").mkdir()
    sizes = random.Random(2)
    rows = ["Datei;Aktenzeichen;Klasse;Datum;Bearbeiter"]
    for number, name in enumerate(scan_names()):
        content = sizes.randbytes(sizes.randrange(LARGEST // 100, LARGEST))
        (folder / "scans" / name).write_bytes(content)
        kind = ("letter", "deed", "")[number % 3]
        # The inventory has each name with its letters as one, as a keyboard writes them.
        rows.append(f"{unicodedata.normalize('NFC', name)};2024/{number:05};{kind};2024-03-01;\u0141ukasz")
    mended = "\r\n".join(rows) + "\r\n"
    (folder / "mended.csv").write_text(mended, encoding="utf-8-sig", newline="")
    (folder / "scans" / "large.pdf").write_bytes(b"x" * 1_048_577)
    for number, name in ((7, "missing.pdf"), (8, "large.pdf"), (9, None), (10, None)):
        cells = rows[number].split(";")
        cells[0] = name or cells[0]
        cells[2] = "unknown" if number == 9 else cells[2]
        cells[3] = "31.02.2024" if number == 10 else cells[3]
        rows[number] = ";".join(cells)
    (folder / "list.csv").write_text("\r\n".join(rows) + "\r\n", encoding="utf-8-sig", newline="")
    (folder / "classes.csv").write_text("class,years,mode\nletter,6,COMPLIANCE\ndeed,10,GOVERNANCE\n")


class Jobs(Case):
    is_alone = True

    def test_a_delivery(self) -> None:
        office = Office(self.folder)
        office.make(office_lines())
        make_scans(self.folder)
        words = ["deliver", "scans", "--bucket", "letters", "--batch", "2024-06", "--classes", "classes.csv"]
        with office.served():
            # The column of who worked on a file is none of the vault's.
            unknown = office.asked(*words, "--inventory", "list.csv", "--yes")
            self.assertEqual((unknown.status, unknown.out, "aren't known: 'Bearbeiter'" in unknown.err), (2, "", True))
            words += ["--ignore-columns", "--inventory"]
            looked = office.asked(*words, "list.csv", "--dry-run")
            self.assertEqual(looked.status, 0, looked.err)
            for row, file, why in (
                (8, "missing.pdf", "no such file"), (9, "large.pdf", "more than 1,048,576 bytes"),
                (10, "Akte 0008", "no class 'unknown'"), (11, "Akte 0009", "no date"),
            ):
                self.assertRegex(looked.out, rf"(?m)^ *{row}  {file}.*{why}")
            self.assertIn(f"{SCANS - 4} of {SCANS} rows would be taken in", looked.err)
            done = office.asked(*words, "list.csv", "--yes")
            self.assertEqual((done.status, "4 of" in done.err), (1, True))
            self.assertEqual(json.loads(office.done("find", "--held", "--json")), [])
            wanted = f"{SCANS} of {SCANS} rows are in the vault, {SCANS} of them with the digest of their file\n"
            self.assertTrue(office.done(*words, "mended.csv", "--keep-inventory", "lists/2024-06.csv", "--yes").endswith(wanted))
            self.assertTrue(office.done(*words, "mended.csv", "--yes").endswith(wanted))
            self.assertEqual(len(json.loads(office.done("find", "--held", "--prefix", "2024/", "--json"))), SCANS)
            # A row of a batch that is another one now is refused, with its file and its cause.
            mended = (self.folder / "mended.csv").read_text(encoding="utf-8-sig").replace(";2024/00004;", ";2024/4;")
            (self.folder / "other.csv").write_text(mended, encoding="utf-8")
            refused = office.asked(*words, "other.csv", "--yes")
            self.assertEqual(refused.status, 1)
            self.assertRegex(refused.out, r"(?m)^ *6  Akte 0004 M.*  2024/4 +IntakeConflict .*taken in before")
            held = json.loads(office.done("hold", "letters", "--prefix", "2024/000", "--case", "Miller 17", "--json"))
            self.assertEqual({it["refused"] for it in held}, {""})
            self.assertEqual(office.done("verify"), "sound, by a copy of the vault as it is now\n")

    def test_a_years_end(self) -> None:
        office = Office(self.folder)
        office.make(it for lines in (office_lines(), year_lines()) for it in lines)
        today = dt.datetime.now(dt.timezone.utc).date()
        removed = sum(len(it) for it in DEPARTMENTS.values()) * DOCUMENTS
        with office.served():
            for department, buckets in DEPARTMENTS.items():
                caller = "ann" if department == "records" else f"ann-{department}"
                for bucket in buckets:
                    office.done("default", bucket, "--years", "10", "--mode", "GOVERNANCE", caller=caller)
                    rule = ["--id", "ten-years", "--days", "3650", "--noncurrent-days", "1"]
                    office.done("rules", "add", bucket, *rule, caller=caller)
                until = today + dt.timedelta(days=3)
                due = json.loads(office.done("expire", department, "--until", until, "--dry-run", "--json", caller=caller))
                kinds = [it["what"] for it in due["foreseen"]]
                self.assertEqual(kinds.count("removed for good"), 2 * DOCUMENTS * len(buckets))
                done = office.done("expire", department, "--yes", "--json", caller=caller)
                sums = [(it["bucket"], it["removed"]) for it in json.loads(done)["done"]]
                self.assertEqual(sums, [(it, DOCUMENTS) for it in sorted(buckets)])
            words = ["certificates", "year", "--any-caller", "--since", today - dt.timedelta(days=1)]
            self.assertEqual(office.done(*words), f"{removed} certificates in year\n")
            self.assertEqual(len(list((self.folder / "year").glob("*.txt"))), removed)
            self.assertEqual(office.done("register", "--documents").count("\n"), removed + 1)
            office.done("register", "--documents", "--xlsx", "register.xlsx")
            past = json.loads(office.done("report", "--all", "--at", "2024-01-01", "--json", caller="registrar"))
            self.assertEqual([it["dept"] for it in past], sorted(DEPARTMENTS))
            self.assertEqual({it["removed"] for it in past}, {0})
            office.done("charges", "--since", "2023-01-01", "--before", "2024-01-01")
            office.done("page", office.file, "page.html")

    def test_a_courts_question(self) -> None:
        office = Office(self.folder)
        keys = ({"key": f"2025/{number:03} Miller", "text": f"{number}"} for number in range(20))
        puts = (line("2024-02-01T08:00:00Z", "ann", "put", bucket="letters", **it) for it in keys)
        office.make(it for lines in (office_lines(), puts) for it in lines)
        with office.served():
            [found] = json.loads(office.done("find", "016 Miller", "--held", "--json"))
            self.assertEqual(found["version"], 17)
            place = [found["bucket"], found["key"]]
            office.done("retain", *place, "--until", "2034-01-01", "--mode", "COMPLIANCE", "--yes")
            office.done("hold", *place, "--case", "Miller 17")
            refused = office.asked("delete", *place, "--version", 17, "--yes")
            self.assertEqual(refused.status, 1)
            office.done("seal", "--append")
            told = office.done("answer", 17, "--html", "answer.html")
            self.assertEqual(told, "")
            told = json.loads(office.done("answer", 17, "--json"))
            self.assertRegex(" ".join(told["guarded"]), "COMPLIANCE was in force, until 2034-01-01T00:00:00Z")
            self.assertRegex(" ".join(told["guarded"]), "A legal hold was on, put on at .* by ann")
            self.assertIn("legal hold put on", office.done("history", 17))
            self.assertRegex(office.done("info", *place), r"hold +ON")
            self.assertIn("Miller 17", office.done("cases"))
            self.assertIn("as sealed: 1 seal", office.done("check-seals"))
            self.assertEqual(office.done("verify"), "sound, by a copy of the vault as it is now\n")
