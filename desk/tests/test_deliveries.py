"""Deliveries, and the inventories that they come with."""

from __future__ import annotations

import hashlib
import json
import os
import unicodedata
from pathlib import Path
from typing import Any
from unittest import mock

from tests.office import OfficeTest
from tests.test_asking import Terminal
from vaultdesk import intake, inventory
from vaultdesk.columns import NAMES
from vaultdesk.errors import DeskError


def rows_of(path: Path) -> list[inventory.Row]:
    """The rows of an inventory with the columns that the desk knows."""
    return inventory.rows(inventory.listed(path, ("file",)), NAMES)


class Inventories(OfficeTest):
    def test_what_offices_write_is_read(self) -> None:
        rows = [{"file": "a.pdf", "key": "2024/Müller"}, {"file": "b;c.pdf", "key": 'the "ring"'}]
        comma = 'file,key\na.pdf,2024/Müller\nb;c.pdf,"the ""ring"""\n'
        semicolon = 'Datei;Schlüssel\r\na.pdf;2024/Müller\r\n"b;c.pdf";"the ""ring"""\r\n'
        written = {
            "utf8": comma.encode(),
            "bom": semicolon.encode("utf-8-sig"),
            "ansi": semicolon.encode("cp1252"),
            "utf16": semicolon.encode("utf-16"),
            "tab": semicolon.replace(";K", "\tK").replace("Datei;", "Datei\t").replace("pdf;2", "pdf\t2")
            .replace('";"', '"\t"').encode(),
        }
        for name, content in written.items():
            path = Path(self.written(f"{name}.csv", content))
            self.assertEqual([dict(it.cells) for it in rows_of(path)], rows, name)

    def test_a_missing_column_and_a_short_row_are_named(self) -> None:
        path = Path(self.written("list.csv", b"name,key\na,b\n"))
        with self.assertRaisesRegex(DeskError, "no column 'file' in row 1 of .*list.csv, which has 'name', 'key'"):
            rows_of(path)
        path = Path(self.written("list.csv", b"file,key\na\n"))
        with self.assertRaisesRegex(DeskError, "row 2 has 1 cells"):
            rows_of(path)


class Deliveries(OfficeTest):
    def setUp(self) -> None:
        super().setUp()
        self.scans = self.folder / "scans"
        self.scans.mkdir()
        for n in range(4):
            (self.scans / f"scan {n}.pdf").write_bytes(b"scan %d" % n)

    def asked(self, *words: str) -> tuple[str, ...]:
        """The words of a delivery of which somebody may have to be asked."""
        return ("deliver", str(self.scans), "--bucket", "docs", "--batch", "b1", *words)

    def deliver(self, *words: str) -> tuple[str, ...]:
        return self.asked("--yes", *words)

    def alone(self, *kept: int) -> None:
        """Takes the other scans away, so that each file of the folder is in a row."""
        for n in {*range(4)} - {*kept}:
            (self.scans / f"scan {n}.pdf").unlink()

    def listed(self, text: str) -> str:
        return self.written("list.csv", text.encode())

    def test_a_files_name_that_isnt_utf_8_is_wrong_and_the_others_come(self) -> None:
        (self.scans / os.fsdecode(b"scan \xe9.pdf")).write_bytes(b"another")
        done = self.desk(*self.deliver())
        self.assertEqual(done.status, 1)
        self.assertRegex(done.out, r"scan \\udce9.pdf +the file's name isn't UTF-8")
        told = json.loads(self.done(*self.deliver("--leave-out", "--json")))
        self.assertEqual((told["taken_in"], told["findings"][0]["file"]), (4, "scan \udce9.pdf"))

    def test_a_folder_is_taken_in_once(self) -> None:
        done = json.loads(self.done(*self.deliver("--json")))
        self.assertEqual((done["taken_in"], done["refused"], done["differing"]), (4, [], []))
        self.assertEqual(self.done("get", "docs", "scan 3.pdf"), "scan 3")
        again = self.desk(*self.deliver("--json"))
        self.assertIn("is known: 4 of its lines", again.err)
        self.assertIn("this delivery was made already: nothing new comes in", again.err)
        self.assertEqual({it["result"] for it in json.loads(again.out)["rows"]}, {"again"})
        self.assertEqual(len(json.loads(self.done("ls", "docs", "--json"))), 4)

    def test_classes_give_the_end_of_each_retention(self) -> None:
        self.alone(0, 1)
        listed = self.listed("file;key;class;date\nscan 0.pdf;a;deed;2020-05-01\nscan 1.pdf;b;letter;2024-01-10\n")
        classes = self.written("classes.csv", b"class,years,mode\ndeed,10,GOVERNANCE\nletter,6,GOVERNANCE\n")
        self.done(*self.deliver("--inventory", listed, "--classes", classes, "--yes"))
        heads = self.lines(*({"do": "head", "bucket": "docs", "key": it} for it in "ab"), at="2024-01-15T11:00:00Z")
        ends = [it["ok"]["retention"]["until"] for it in heads]
        self.assertEqual(ends, ["2031-01-01T00:00:00Z", "2031-01-01T00:00:00Z"])

    def test_each_fault_is_found_before_anything_is_taken_in(self) -> None:
        (self.scans / "large.pdf").write_bytes(b"x" * 1_048_577)
        os.symlink(self.scans / "scan 0.pdf", self.scans / "link.pdf")
        faults = {
            "missing.pdf,k1,,,": "no such file",
            "large.pdf,k2,,,": "more than 1,048,576",
            "link.pdf,k3,,,": "a link",
            "../scan 0.pdf,k4,,,": "a file of the folder itself",
            "scan 0.pdf,a\tb,,,": "control character",
            f"scan 0.pdf,{'k' * 1_025},,,": "1,024 bytes",
            "scan 0.pdf,k6,GOVERNANCE,2020-01-01,": "ended already",
            "scan 0.pdf,k7,governance,2030-01-01,": "mode is",
            "scan 0.pdf,k8,,31.02.2030,": "is no date",
            "scan 0.pdf,k9,,,yes": "hold is",
        }
        for row, wanted in faults.items():
            listed = self.listed(f"file,key,mode,until,hold\nscan 1.pdf,right,,,\n{row}\n")
            done = self.desk(*self.deliver("--inventory", listed))
            self.assertEqual(done.status, 1, row)
            self.assertRegex(done.out, f"(?m)^ *3 .*{wanted}", row)
        self.assertEqual(self.done("ls", "docs"), "")

    def test_what_is_wrong_may_be_left_out(self) -> None:
        self.alone(0, 1)
        listed = self.listed("file,key\nscan 0.pdf,a\nmissing.pdf,b\nscan 1.pdf,c\n")
        self.done(*self.deliver("--inventory", listed, "--leave-out"))
        self.assertEqual([it["key"] for it in json.loads(self.done("ls", "docs", "--json"))], ["a", "c"])

    def test_what_was_left_out_may_be_mended_and_given_again(self) -> None:
        self.alone(0, 1)
        listed = "file,key\nscan 0.pdf,a\n{},b\nscan 1.pdf,c\n"
        first = self.listed(listed.format("missing.pdf"))
        self.done(*self.deliver("--inventory", first, "--leave-out"))
        (self.scans / "scan 2.pdf").write_bytes(b"scan 2")
        mended = self.listed(listed.format("scan 2.pdf"))
        done = json.loads(self.desk(*self.deliver("--inventory", mended, "--json")).out)
        self.assertEqual([(it["row"], it["result"]) for it in done["rows"]],
                         [(2, "again"), (3, "admitted"), (4, "again")])
        self.assertEqual([it["key"] for it in json.loads(self.done("ls", "docs", "--json"))], ["a", "b", "c"])

    def test_each_refused_row_has_its_file_and_cause(self) -> None:
        listed = self.listed("file,key\nmissing.pdf,m\nscan 1.pdf,b\n")
        self.assertEqual(self.desk(*self.deliver("--inventory", listed, "--leave-out")).status, 0)
        listed = self.listed("file,key\nscan 0.pdf,a\nscan 1.pdf,other\nscan 2.pdf,c\n")
        done = self.desk(*self.deliver("--inventory", listed))
        self.assertEqual(done.status, 1)
        row = done.out.splitlines()[-2]
        self.assertRegex(row, r"^ *3  scan 1.pdf  other  IntakeConflict  this row of the batch was taken in before")
        self.assertIn("2 of 3 rows are in the vault, 2 of them with the digest of their file", done.out)
        told = json.loads(self.desk(*self.deliver("--inventory", listed, "--json")).out)
        self.assertEqual([(it["row"], it["value"]) for it in told["refused"]], [(3, "IntakeConflict")])

    def test_content_that_changes_meanwhile_is_found(self) -> None:
        taken_in = intake.taken_in

        def changed(*given: Any) -> Any:
            (self.scans / "scan 2.pdf").write_bytes(b"another")
            return taken_in(*given)

        with mock.patch("vaultdesk.deliveries.taken_in", changed):
            done = self.desk(*self.deliver())
        self.assertEqual(done.status, 1)
        self.assertIn("other content than the folder has now: scan 2.pdf", done.err)
        self.assertIn("4 of 4 rows are in the vault, 3 of them with the digest", done.out)

    def test_keys_are_taken_letter_by_letter(self) -> None:
        apart = unicodedata.normalize("NFD", "M\u00fcller")
        keys = [" a ", "100%25 b", apart, "=1+1"]
        listed = self.listed("file,key\n" + "".join(f'scan {n}.pdf,"{it}"\n' for n, it in enumerate(keys)))
        done = self.desk(*self.deliver("--inventory", listed))
        self.assertEqual(done.status, 0, done.err)
        self.assertIn("composed form", done.out)
        self.assertIn("blank", done.out)
        found = json.loads(self.done("find", "--json", at=None))
        self.assertEqual([it["key"] for it in found], keys)

    def test_a_name_in_another_unicode_form_is_found(self) -> None:
        apart = unicodedata.normalize("NFD", "Müller.pdf")
        (self.scans / apart).write_bytes(b"Miller")
        listed = self.listed("file,key\nMüller.pdf,Müller\n")
        done = self.desk(*self.deliver("--inventory", listed, "--json"))
        self.assertEqual(done.status, 0, done.err)
        self.assertEqual(self.done("get", "docs", "Müller"), "Miller")

    def test_names_that_differ_in_their_form_alone_are_two_files(self) -> None:
        both = [unicodedata.normalize(it, "M\u00fcller.pdf") for it in ("NFC", "NFD")]
        for name in both:
            (self.scans / name).write_bytes(name.encode())
        done = self.desk(*self.deliver("--json"))
        self.assertEqual(done.status, 0, done.err)
        for name in both:
            self.assertEqual(self.done("get", "docs", name), name)

    def test_doubled_content_is_noted(self) -> None:
        (self.scans / "scan 4.pdf").write_bytes(b"scan 0")
        self.lines({"do": "put", "bucket": "docs", "key": "old", "text": "scan 1"})
        done = self.desk(*self.deliver("--dry-run"))
        self.assertEqual(done.status, 0)
        self.assertEqual(done.out.count("more than once in this delivery"), 2)
        self.assertEqual(done.out.count("the vault holds the same content"), 1)
        self.assertEqual(len(json.loads(self.done("ls", "docs", "--json"))), 1)

    def test_what_is_in_folders_is_taken_in_where_that_is_asked(self) -> None:
        (self.scans / "2024" / "a").mkdir(parents=True)
        (self.scans / "2024" / "a" / "scan 0.pdf").write_bytes(b"within")
        os.symlink(self.scans / "2024", self.scans / "link")
        done = self.desk(*self.deliver("--json"))
        self.assertEqual((done.status, json.loads(done.out)["taken_in"]), (0, 4))
        self.assertIn("1 files are in folders", done.err)
        words = (*self.deliver("--recursive", "--json", "--again"), "--batch", "b2")
        self.assertEqual(json.loads(self.done(*words))["taken_in"], 5)
        self.assertEqual(self.done("get", "docs", "2024/a/scan 0.pdf"), "within")
        listed = self.listed("file,key\n2024/a/scan 0.pdf,within\n2024/../scan 1.pdf,k\n")
        done = self.desk(*self.deliver("--inventory", listed, "--dry-run"))
        self.assertIn("1 of 2 rows would be taken in", done.err)

    def test_what_is_held_already_may_be_left_out(self) -> None:
        (self.scans / "scan 4.pdf").write_bytes(b"scan 3")
        self.lines({"do": "put", "bucket": "docs", "key": "old", "text": "scan 1"})
        done = json.loads(self.desk(*self.deliver("--skip-held", "--json")).out)
        self.assertEqual((done["taken_in"], done["skipped"]), (3, [2, 5]))
        again = self.desk(*self.deliver("--skip-held"))
        self.assertEqual(again.status, 0, again.err)
        self.assertIn("5 were left out", again.out)
        self.assertEqual(len(json.loads(self.done("ls", "docs", "--json"))), 4)

    def test_a_key_that_is_held_already_is_asked_for(self) -> None:
        self.lines({"do": "put", "bucket": "docs", "key": "a", "text": "another"})
        words = self.asked("--inventory", self.listed("file,key\nscan 0.pdf,a\nscan 1.pdf,b\n"))
        done = self.desk(*words)
        self.assertEqual(done.status, 2)
        self.assertIn("1 keys are held already", done.err)
        self.assertIn("the bucket holds that key already", done.out)
        self.assertEqual(self.desk(*words, "--yes").status, 0)
        self.assertEqual(self.desk(*words).status, 0)  # the batch is known, and nothing comes twice

    def test_the_inventory_itself_is_kept_once(self) -> None:
        text = "file;key;Scanned by\nscan 0.pdf;a;M\u00fcller\n"
        listed = self.listed(text)
        words = self.deliver("--inventory", listed, "--keep-inventory", "lists/b1.csv", "--ignore-columns")
        for _ in range(2):
            self.assertEqual(self.desk(*words).status, 0)
        self.assertEqual(self.done("get", "docs", "lists/b1.csv"), text)
        self.assertEqual(len(json.loads(self.done("ls", "docs", "lists/", "--json"))), 1)
        self.assertEqual(self.desk(*self.deliver("--keep-inventory", "lists/b1.csv")).status, 2)

    def test_no_delivery_is_dated_ahead_of_the_clock(self) -> None:
        done = self.desk(*self.deliver(), at="2206-01-15T10:00:00Z")
        self.assertEqual((done.status, done.out), (2, ""))
        self.done(*self.deliver())

    def test_compliance_and_a_far_end_are_asked_for(self) -> None:
        for lock in ("COMPLIANCE,2030-01-01", "GOVERNANCE,2300-01-01"):
            listed = self.listed(f"file,key,mode,until\nscan 0.pdf,a,{lock}\n")
            done = self.desk(*self.asked("--inventory", listed))
            self.assertEqual(done.status, 2, lock)
            self.assertIn("--yes", done.err)
        self.assertEqual(self.done("ls", "docs"), "")

    def test_the_same_content_in_another_batch_is_asked_for(self) -> None:
        self.lines({"do": "add-bucket", "as": "registrar", "bucket": "other", "dept": "records"})
        self.done(*self.deliver())
        again = (*self.asked(), "--bucket", "other", "--until", "2030-01-01")
        done = self.desk(*again)
        self.assertEqual(done.status, 2)
        self.assertIn("4 documents are in the vault already", done.err)
        self.assertEqual(self.done("ls", "other"), "")
        self.assertEqual(self.desk(*again, "--yes").status, 0)
        self.assertEqual(len(json.loads(self.done("ls", "other", "--json"))), 4)

    def test_dates_of_an_inventory_are_dates(self) -> None:
        classes = self.written("classes.csv", b"class,years,mode\ndeed,10,GOVERNANCE\n")
        for date in ("31.02.2020", "2020-02-30", "20201231", "2020-W10-1"):
            listed = self.listed(f"file,key,class,date\nscan 0.pdf,a,deed,{date}\n")
            done = self.desk(*self.deliver("--inventory", listed, "--classes", classes))
            self.assertEqual(done.status, 1, date)
            self.assertRegex(done.out, "is no date", date)

    def test_findings_are_json_too(self) -> None:
        listed = self.listed("file,key\nscan 0.pdf,a\nmissing.pdf,b\n")
        ways: list[list[str]] = [[], ["--dry-run"]]
        for more in ways:
            told = json.loads(self.desk(*self.deliver("--inventory", listed, "--json", *more)).out)
            self.assertEqual(told["taken_in"], 0)
            self.assertEqual([(it["row"], it["file"]) for it in told["findings"]], [(3, "missing.pdf")])

    def test_a_caller_without_a_department_is_noticed(self) -> None:
        self.lines({"do": "add-caller", "as": "registrar", "caller": "bob", "rights": ["put"]})
        done = self.desk(*self.deliver("--as", "bob"))
        self.assertEqual(done.status, 1)
        self.assertIn("no department", done.err)

    def test_the_digests_are_compared_afterwards(self) -> None:
        self.done(*self.deliver())
        asked = [{"do": "head", "bucket": "docs", "key": f"scan {n}.pdf"} for n in range(4)]
        heads = self.lines(*asked, at="2024-01-15T11:00:00Z")
        wanted = [hashlib.sha256(b"scan %d" % n).hexdigest() for n in range(4)]
        self.assertEqual([it["ok"]["sha256"] for it in heads], wanted)
        (self.scans / "scan 2.pdf").write_bytes(b"another")
        done = self.desk(*self.deliver())
        self.assertEqual(done.status, 1)
        self.assertIn("IntakeConflict", done.out)

    # ---- what is asked, and what is said before

    def lines_said(self, *words: str) -> list[str]:
        """What is said of a delivery of which nothing comes in, as nobody can be asked."""
        done = self.desk(*words)
        self.assertEqual(done.status, 2, done)
        self.assertEqual(self.done("ls", "docs"), "")
        return done.err.splitlines()

    def test_what_nothing_guards_is_asked_for(self) -> None:
        [said] = self.lines_said(*self.asked())
        self.assertIn("none has an end; 4 stay without any guard (no end, no hold, no default of the bucket)", said)
        listed = self.listed("file,hold,until\nscan 0.pdf,,2030-01-01\nscan 1.pdf,ON,\nscan 2.pdf,,\nscan 3.pdf,,\n")
        [said] = self.lines_said(*self.asked("--inventory", listed))
        self.assertIn("2 stay without any guard", said)
        self.assertEqual(self.desk(*self.asked("--inventory", listed, "--until", "2030-01-01")).status, 0)

    def test_what_the_buckets_default_guards_isnt_asked_for(self) -> None:
        self.lines({"do": "set-default", "bucket": "docs", "mode": "GOVERNANCE", "years": 1})
        self.done(*self.asked())

    def test_the_question_has_the_ends_and_what_nobody_can_remove(self) -> None:
        self.lines({"do": "set-default", "bucket": "docs", "mode": "COMPLIANCE", "days": 10})
        listed = self.listed("file,until\nscan 0.pdf,2030-01-01\nscan 1.pdf,2029-01-01\nscan 2.pdf,\nscan 3.pdf,\n")
        [said] = self.lines_said(*self.asked("--inventory", listed))
        self.assertIn("4 documents come in: the first end is 2024-01-25T10:00:00Z, the last 2030-01-01T00:00:00Z", said)
        self.assertIn("0 stay without any guard; 2 can't be removed by anybody before their end (COMPLIANCE)", said)
        with mock.patch("sys.stdin", Terminal("yes\n")):
            done = self.desk(*self.asked("--inventory", listed))
        self.assertEqual(done.status, 0)
        self.assertIn("2 can't be removed by anybody before their end (COMPLIANCE)? [yes/no]", done.out)

    def test_the_plan_has_each_row(self) -> None:
        self.lines({"do": "set-default", "bucket": "docs", "mode": "GOVERNANCE", "years": 2})
        text = "file;key;mode;until\nscan 0.pdf;a;COMPLIANCE;2030-01-01\n\nscan 1.pdf;b;;\nscan 9.pdf;c;;2030-01-01\n"
        listed, planned = self.listed(text), str(self.folder / "plan.csv")
        words = self.asked("--inventory", listed, "--dry-run", "--csv", planned)
        done = self.desk(*words)
        self.assertEqual(done.status, 0)
        self.assertRegex(done.out, r"(?m)^ *2 +scan 0.pdf +a +COMPLIANCE +2030-01-01T00:00:00Z +6 ")
        self.assertRegex(done.out, r"(?m)^ *4 +scan 1.pdf +b +GOVERNANCE +2026-01-15T10:00:00Z +6 ")
        self.assertRegex(done.out, r"(?m)^ *5 +scan 9.pdf +c +wrong: no such file in the folder$")
        self.assertEqual(Path(planned).read_text().splitlines()[:3], [
            "row,file,key,class,date,mode,end,size,note",
            "2,scan 0.pdf,a,,,COMPLIANCE,2030-01-01T00:00:00Z,6,\"its mode is COMPLIANCE, and the bucket's default is "
            "GOVERNANCE\"",
            "4,scan 1.pdf,b,,,GOVERNANCE,2026-01-15T10:00:00Z,6,by the bucket's default of 2 years",
        ])
        self.assertIn("2 of 3 rows would be taken in", done.err)
        self.assertIn("2 documents come in: the first end is 2026-01-15T10:00:00Z", done.err)
        self.assertIn(f"{planned} is there already: give --force", self.desk(*words).err)
        self.assertEqual(self.desk(*words, "--force").status, 0)
        plan = json.loads(self.desk(*self.asked("--inventory", listed, "--dry-run", "--json")).out)["plan"]
        self.assertEqual([(it["row"], it["end"]) for it in plan],
                         [(2, "2030-01-01T00:00:00Z"), (4, "2026-01-15T10:00:00Z"), (5, "")])

    def test_files_of_systems_are_left_out_and_named(self) -> None:
        names = (".DS_Store", "Thumbs.db", "desktop.ini", "~$list.xlsx", "._scan 0.pdf")
        for name in names:
            (self.scans / name).write_bytes(b"x")
        done = self.desk(*self.deliver("--json"))
        self.assertEqual((done.status, json.loads(done.out)["taken_in"]), (0, 4))
        for name in names:
            self.assertIn(name, done.err)
        listed = self.listed("file,until\n" + "".join(f"scan {n}.pdf,2030-01-01\n" for n in range(4)))
        self.assertEqual(self.desk(*self.asked("--batch", "b2", "--again", "--inventory", listed)).status, 2)
        self.assertNotIn("in no row", done.err)

    def test_empty_files_and_files_that_no_row_names_are_asked_for(self) -> None:
        (self.scans / "empty.pdf").write_bytes(b"")
        listed = self.written("scans/list.csv", b"file,until\nscan 0.pdf,2030-01-01\nempty.pdf,2030-01-01\n")
        done = self.desk(*self.asked("--inventory", listed))
        self.assertEqual((done.status, self.done("ls", "docs")), (2, ""))
        self.assertRegex(done.out, r"3 +empty.pdf +the file is empty: it has 0 bytes")
        self.assertIn("3 files of the folder are in no row: scan 1.pdf, scan 2.pdf, scan 3.pdf\n", done.err)
        self.assertIn("1 files are empty; 3 files of the folder are in no row: give --yes", done.err)
        told = json.loads(self.desk(*self.deliver("--inventory", listed, "--json")).out)
        self.assertEqual(told["in_no_row"], ["scan 1.pdf", "scan 2.pdf", "scan 3.pdf"])

    def test_a_batchs_name_is_looked_at_first(self) -> None:
        for name, better in (("2026 June", ", as 2026-june"), ("June", ", as june"), ("", ""), ("x" * 65, "x" * 64)):
            for more in ("--dry-run", "--yes"):
                [said] = self.lines_said(*self.asked("--batch", name, more))
                self.assertIn("a batch's name has 1 to 64 of a-z, 0-9, -, _ and .", said)
                self.assertTrue(said.endswith(better), said)

    def test_a_delivery_that_was_made_already_is_asked_for_with_yes_too(self) -> None:
        self.done(*self.deliver())
        again = self.deliver("--batch", "b2")
        done = self.desk(*again)
        self.assertEqual(done.status, 2)
        self.assertIn("4 of 4 documents are in the bucket already, with that key and content", done.err)
        self.assertIn("--skip-held leaves them out, --again takes them in once more", done.err)
        with mock.patch("sys.stdin", Terminal("no\n")):
            self.assertIn("nothing was changed", self.desk(*again).err)
        self.assertEqual(len(json.loads(self.done("ls", "docs", "--json"))), 4)
        self.assertEqual(self.desk(*again, "--skip-held").status, 0)
        self.assertEqual(len(json.loads(self.done("ls", "docs", "--json"))), 4)
        self.assertEqual(self.desk(*again, "--again").status, 0)
        self.assertEqual(len(json.loads(self.done("ls", "docs", "--json"))), 8)

    def test_the_same_contents_under_other_keys_were_delivered_already(self) -> None:
        self.done(*self.deliver())
        listed = self.listed("file,key\n" + "".join(f"scan {n}.pdf,k{n}\n" for n in range(4)))
        done = self.desk(*self.deliver("--batch", "b2", "--inventory", listed))
        self.assertEqual(done.status, 2)
        self.assertIn("the content of all 4 documents is in the bucket already", done.err)

    def test_an_interrupted_delivery_goes_on_without_a_question(self) -> None:
        for n in range(2):
            row = {"do": "intake", "bucket": "docs", "batch": "b1", "line": n + 1, "key": f"scan {n}.pdf"}
            self.lines({**row, "text": f"scan {n}"})
        self.lines({"do": "put", "bucket": "docs", "key": "scan 3.pdf", "text": "scan 3"})
        done = self.desk(*self.asked("--json"))
        self.assertEqual(done.status, 0, done.err)
        self.assertEqual([it["result"] for it in json.loads(done.out)["rows"]], ["again"] * 2 + ["admitted"] * 2)

    def test_where_all_were_refused_nothing_was_changed(self) -> None:
        self.done(*self.deliver())
        for n in range(4):
            (self.scans / f"scan {n}.pdf").write_bytes(b"another %d" % n)
        done = self.desk(*self.deliver())
        self.assertEqual(done.err.splitlines()[-1], "vaultdesk deliver: 4 of 4 were refused: nothing was changed")

    def test_a_file_that_isnt_there_is_no_content_that_the_vault_holds(self) -> None:
        place = {"bucket": "docs", "key": "gone"}
        self.lines({"do": "put", "text": "x", **place}, {"do": "delete", **place})
        done = self.desk(*self.asked("--inventory", self.listed("file,key\nmissing.pdf,a\n"), "--dry-run", "--json"))
        [found] = json.loads(done.out)["findings"]
        self.assertEqual((found["wrong"], found["note"]), ("no such file in the folder", ""))
