"""The year's end: certificates, the register, reports."""

from __future__ import annotations

import csv
import importlib.util
import io
import json
import re
import unittest
import zipfile
from pathlib import Path
from unittest import mock
from xml.etree import ElementTree

from tests.office import OfficeTest
from vaultdesk import spreadsheet
from vaultdesk.errors import DeskError

CELL = "{http://schemas.openxmlformats.org/spreadsheetml/2006/main}c"
KEY = '=1+1 "quoted"\u2028Müller'
LATER = "2024-01-20T00:00:00Z"


def cells_of(path: Path) -> tuple[dict[str, str], set[str | None]]:
    """The texts of a spreadsheet's cells by their places, and the kinds of all cells."""
    with zipfile.ZipFile(path) as book:
        cells = list(ElementTree.fromstring(book.read("xl/worksheets/sheet1.xml")).iter(CELL))
    return {str(it.get("r")): "".join(it.itertext()) for it in cells}, {it.get("t") for it in cells}


class YearsEnd(OfficeTest):
    def setUp(self) -> None:
        super().setUp()
        self.lines(
            {"do": "put", "bucket": "docs", "key": "a", "text": "hello"},
            {"do": "put", "bucket": "docs", "key": KEY, "text": "deed"},
            {"do": "delete", "bucket": "docs", "key": "a"},
        )
        self.lines({"do": "delete-version", "bucket": "docs", "key": "a", "id": 1}, at="2024-01-16T00:00:00Z")
        self.lines(
            {"do": "delete-version", "bucket": "docs", "key": KEY, "id": 2},
            {"do": "delete-version", "bucket": "docs", "key": "a", "id": 3},
            at="2024-01-18T00:00:00Z",
        )

    def test_one_certificate_by_the_number_alone(self) -> None:
        [reply] = self.lines({"do": "certificate", "bucket": "docs", "id": 2}, at=LATER)
        for words in (["--as", "ann"], ["--as", "registrar", "--any-caller"]):
            self.assertEqual(self.done("certificate", "2", *words, at=LATER), reply["ok"]["text"])
        self.lines({"do": "put", "bucket": "docs", "key": "held", "text": "x"}, at=LATER)
        for number, why in (("4", "is held still"), ("99", "was never there")):
            done = self.desk("certificate", number, at=LATER)
            self.assertEqual((done.status, done.out), (1, ""))
            self.assertIn(why, done.err)

    def test_each_removed_document_has_its_certificate(self) -> None:
        out = self.folder / "out"
        self.done("certificates", str(out), at=LATER)
        [reply] = self.lines({"do": "certificate", "bucket": "docs", "id": 2}, at=LATER)
        self.assertEqual((out / "certificate-0000000002.txt").read_bytes().decode(), reply["ok"]["text"])
        self.assertEqual(sorted(it.name for it in out.glob("*.txt")), [f"certificate-000000000{n}.txt" for n in (1, 2)])
        page = (out / "certificates.html").read_text(encoding="utf-8")
        self.assertIn("Müller", page)
        self.assertEqual(page.count("This certificate doesn't show that its bytes were wiped"), 2)
        there = {it: it.write_bytes(b"mine") for it in out.iterdir()}
        for it in ("certificate-0000000001.txt", "certificate-0000000002.txt", "certificates.html"):
            done = self.desk("certificates", str(out), at=LATER)
            self.assertEqual(done.status, 1)
            self.assertIn("--force", done.err)
            (out / it).unlink()
            self.assertTrue(all(path.read_bytes() == b"mine" for path in there if path.exists()), it)
        self.done("certificates", str(out), at=LATER)
        self.assertEqual(len(list(out.iterdir())), 3)

    def test_certificates_write_over_no_file(self) -> None:
        names = ("certificate-0000000002.txt", "certificates.html", "certificates.pdf")
        away = self.folder / "away"
        with mock.patch("vaultdesk.paper.pdf", return_value=b"%PDF new"):
            for number, name in enumerate(names):
                out = self.folder / f"out{number}"
                out.mkdir()
                (out / name).write_bytes(b"mine")
                done = self.desk("certificates", str(out), "--pdf", at=LATER)
                self.assertEqual((done.status, (out / name).read_bytes()), (1, b"mine"))
                self.assertIn(f"{name} is there already: give --force", done.err)
                (out / name).unlink()
                (out / name).symlink_to(away)  # which isn't there
                done = self.desk("certificates", str(out), "--pdf", at=LATER)
                self.assertEqual((done.status, away.exists(), len(list(out.iterdir()))), (1, False, 1))
            self.done("certificates", str(out), at=LATER)
            self.assertFalse(away.exists())
            self.done("certificates", str(self.folder / "new"), "--pdf", at=LATER)
            self.assertEqual((self.folder / "new" / names[2]).read_bytes(), b"%PDF new")
        with mock.patch("vaultdesk.paper.pdf", side_effect=DeskError("no PDF")):
            self.assertEqual(self.desk("certificates", str(self.folder / "none"), "--pdf", at=LATER).status, 1)
        self.assertFalse((self.folder / "none").exists())

    def test_certificates_since_a_day(self) -> None:
        out = self.folder / "out"
        self.done("certificates", str(out), "--since", "2024-01-17", at=LATER)
        self.assertEqual([it.name for it in out.glob("*.txt")], ["certificate-0000000002.txt"])
        self.done("certificates", str(self.folder / "first"), "--before", "2024-01-18", at=LATER)
        self.assertEqual([it.name for it in (self.folder / "first").glob("*.txt")], ["certificate-0000000001.txt"])

    def test_the_register_of_a_time(self) -> None:
        for words, wanted in (
            (["--since", "2024-01-16", "--before", "2024-01-18"], [1]),
            (["--since", "2024-01-16T00:00:01Z"], [2, 3]),
            (["--before", "2024-01-18T00:00:01Z"], [1, 2, 3]),
        ):
            rows = json.loads(self.done("register", *words, "--json"))
            self.assertEqual([int(it["version"]) for it in rows], wanted, words)

    def test_certificates_of_every_department(self) -> None:
        self.lines({"do": "add-dept", "as": "registrar", "dept": "court"}, at=LATER)
        rights = ["put", "delete-version", "report"]
        cid = {"do": "add-caller", "as": "registrar", "caller": "cid", "dept": "court", "rights": rights}
        self.lines(cid, {"do": "add-bucket", "as": "registrar", "bucket": "files", "dept": "court"}, at=LATER)
        self.lines({"do": "put", "as": "cid", "bucket": "files", "key": "f", "text": "f"}, at=LATER)
        self.lines({"do": "delete-version", "as": "cid", "bucket": "files", "key": "f", "id": 4}, at=LATER)
        done = self.desk("certificates", str(self.folder / "one"), at=LATER)
        self.assertEqual(done.status, 1)
        self.assertIn("department", done.err)
        self.done("certificates", str(self.folder / "all"), "--any-caller", at=LATER)
        self.assertEqual(len(list((self.folder / "all").glob("*.txt"))), 3)

    def test_the_register_is_the_engines(self) -> None:
        rows = list(csv.DictReader(io.StringIO(self.done("register"), newline="")))
        self.assertEqual([it["version"] for it in rows], ["1", "2", "3"])
        self.assertEqual(rows[1]["key"], KEY)
        documents = json.loads(self.done("register", "--documents", "--json"))
        self.assertEqual([it["version"] for it in documents], ["1", "2"])

    def test_a_spreadsheet_has_texts_alone(self) -> None:
        path = self.folder / "register.xlsx"
        self.done("register", "--xlsx", str(path))
        cells, kinds = cells_of(path)
        self.assertEqual(kinds, {"inlineStr"})
        table = list(csv.reader(io.StringIO(self.done("register"), newline="")))
        places = {f"{chr(ord('A') + n)}{row}": it for row, line in enumerate(table, 1) for n, it in enumerate(line)}
        self.assertEqual(cells, {place: it for place, it in places.items() if it})
        self.assertEqual(cells["C3"], KEY)
        there = path.read_bytes()
        done = self.desk("register", "--xlsx", str(path))
        self.assertEqual(done.status, 1)
        self.assertIn("--force", done.err)
        self.assertEqual(path.read_bytes(), there)
        self.done("register", "--xlsx", str(path), "--force")
        self.assertEqual(path.read_bytes(), there)

    def test_a_cell_may_have_any_text(self) -> None:
        path = self.folder / "any.xlsx"
        texts = ["=1+1", "+1", "00e12", " a ", "<&>\"'", "\x01\x0b\r\n\t", "_x0041_", "\ufffe", "\U0001f600"]
        spreadsheet.write(path, "any", [{"it": it} for it in texts], ("it",), force=False)
        cells, _ = cells_of(path)
        decoded = re.compile("_x([0-9A-F]{4})_")
        told = [decoded.sub(lambda it: chr(int(it[1], 16)), cells[f"A{n}"]) for n in range(2, 2 + len(texts))]
        self.assertEqual(told, texts)
        self.assertEqual(cells["A2"], "=1+1")

    @unittest.skipUnless(importlib.util.find_spec("openpyxl"), "no openpyxl")
    def test_another_reader_finds_texts_alone(self) -> None:
        path = self.folder / "register.xlsx"
        self.done("register", "--xlsx", str(path))
        openpyxl = importlib.import_module("openpyxl")
        rows = openpyxl.load_workbook(path).active.iter_rows()
        cells = [cell for row in rows for cell in row if cell.value is not None]
        self.assertNotIn("f", {cell.data_type for cell in cells})
        self.assertIn(KEY, {cell.value for cell in cells})
        self.assertEqual({cell.number_format for cell in cells}, {"@"})

    def test_reports_of_all_departments(self) -> None:
        self.lines({"do": "add-dept", "as": "registrar", "dept": "court"}, at=LATER)
        rows = json.loads(self.done("report", "--all", "--as", "registrar", "--json", at=LATER))
        sums = [(it["dept"], it["admitted"], it["removed"]) for it in rows]
        self.assertEqual(sums, [("court", 0, 0), ("records", 9, 9)])
        # Five bytes were held over one midnight, and four over three.
        self.assertEqual(rows[1]["byte_days"], 17)
        table = list(csv.DictReader(io.StringIO(self.done("report", "records", "--csv", at=LATER))))
        self.assertEqual(table[0]["byte_days"], "17")

    def test_a_past_report_is_what_the_engine_said_then(self) -> None:
        moments = ["2024-02-01T00:00:00Z", "2024-02-03T12:00:00Z", "2024-02-20T00:00:00Z"]
        then = []
        for number, at in enumerate(moments):
            self.lines({"do": "put", "bucket": "docs", "key": f"n{number}", "text": "x" * 10 ** number}, at=at)
            then.append(json.loads(self.done("report", "records", "--json", at=at)))
        for at, wanted in zip(moments[:-1], then):
            for words in (["records"], ["--all", "--as", "registrar"]):
                past = self.desk("report", *words, "--json", at=at)
                self.assertEqual((past.status, json.loads(past.out)), (0, wanted), (at, words))
                self.assertIn("report.sql", past.err)
        done = self.desk("report", "nobody", at=moments[0])
        self.assertEqual((done.status, done.out), (1, ""))

    def test_a_refused_report_isnt_swallowed(self) -> None:
        done = self.desk("report", "--all", "--as", "nobody", at=LATER)
        self.assertEqual((done.status, done.out), (1, ""))
        self.assertIn("unknown-caller", done.err)
        self.assertEqual(self.desk("report", at=LATER).status, 2)

    def test_charges_are_the_difference_of_two_reports(self) -> None:
        self.lines({"do": "put", "bucket": "docs", "key": "n", "text": "x" * 100}, at="2024-02-01T00:00:00Z")
        table = list(csv.DictReader(io.StringIO(
            self.done("charges", "--since", "2024-01-17", "--before", "2024-02-03", at="2024-03-01"))))
        # Four bytes over the midnight of the 18th, and a hundred over two.
        self.assertEqual([(it["dept"], it["byte_days"], it["admitted"], it["removed"], it["held"]) for it in table],
                         [("records", "204", "100", "4", "100")])
        whole = ("--since", "2024-01-01", "--before", "2024-02-03", "--json")
        rows = json.loads(self.done("charges", *whole, at="2024-03-01"))
        self.assertEqual(rows[0]["byte_days"], 217)
        for since, before in (("2024-02-03", "2024-02-03"), ("2024-02-04", "2024-02-03"), ("2024-02-01", "2024-03-02")):
            done = self.desk("charges", "--since", since, "--before", before, at="2024-03-01")
            self.assertEqual((done.status, done.out), (2, ""), (since, before))
