"""Deliveries, removals, reports and the state of the vault in the pages."""

from __future__ import annotations

import csv
import io
import json
import zipfile
from typing import Any
from unittest import mock

from tests.web_office import Browser, WebTest, library, quick_digest
from vaultdesk import last_done
from vaultdesk.errors import UsageError

SEAL = f"before: 2024-01-15T09:00:00Z\nentries: 1\nevents: 1\nsha256: {'0' * 64}\n"


def file(name: str, content: bytes = b"x") -> tuple[io.BytesIO, str]:
    """A file as a form has it."""
    return io.BytesIO(content), name


class Delivering(WebTest):
    def send(self, browser: Browser, files: list[Any], **words: Any) -> str:
        """The path of the plan of a delivery that is sent."""
        browser.get("/deliver")
        form = {"bucket": "docs", "batch": "2025-06", "folder": files, **words}
        done = browser.send("/send-delivery", form)
        self.assertEqual(done.status_code, 303, browser.words())
        browser.get(done.location)
        return str(done.location)

    def test_a_folder_is_planned_asked_about_and_taken_in(self) -> None:
        browser = self.ann()
        plan = self.send(browser, [file("scans/1.txt", b"one"), file("scans/2.txt", b"two")])
        self.assertRegex(browser.words(), r"1 1\.txt 1\.txt 3 bytes 2 2\.txt 2\.txt 3 bytes")
        rows = list(csv.DictReader(io.StringIO(browser.get(f"{plan}/plan.csv").get_data(as_text=True))))
        self.assertEqual([it["key"] for it in rows], ["1.txt", "2.txt"])
        browser.get(plan)
        browser.send(f"{plan}/take-in")
        self.assertIn("2 stay without any guard (no end, no hold, no default of the bucket)", browser.words())
        other = self.ann()
        other.get("/find?text=1.txt")
        self.assertIn("0 documents", other.words())
        self.assertEqual(browser.send(f"{plan}/take-in", {"yes": "1"}).status_code, 200)
        self.assertIn("2 documents are in the vault. Each has the digest of the file that was sent.", browser.words())
        self.assertIn("1.txt 1.txt taken in 3", browser.words())
        self.assertEqual(browser.get(plan).status_code, 400)

    def test_an_inventory_and_classes_lock_each_row(self) -> None:
        browser = self.ann()
        lists = {
            "inventory": file("list.csv", b"file,key,class,date\n1.txt,2024/7,deed,2024-05-01\n"),
            "classes": file("years.csv", b"class,years,mode\ndeed,10,COMPLIANCE\n"),
        }
        plan = self.send(browser, [file("scans/1.txt", b"one")], **lists)
        self.assertIn("deed 2024-05-01 COMPLIANCE 1 Jan 2035, 00:00:00 UTC", browser.words())
        browser.send(f"{plan}/take-in")
        self.assertIn("1 can't be removed by anybody before their end (COMPLIANCE)", browser.words())
        browser.send(f"{plan}/take-in", {"yes": "1"})
        found = json.loads(self.done("info", "docs", "2024/7", "--json", at=None))
        self.assertEqual((found["mode"], found["until"]), ("COMPLIANCE", "2035-01-01T00:00:00Z"))

    def test_columns_that_arent_known_are_said_and_named_without_sending_again(self) -> None:
        browser = self.ann()
        inventory = file("list.csv", b"File name;Reference\n1.txt;2024/7\n")
        plan = self.send(browser, [file("s/1.txt")], inventory=inventory)
        self.assertIn("these columns aren't known: 'Reference'", browser.words())
        self.assertNotIn("vaultdesk-deliver", browser.words())
        self.assertNotIn("Take it in", browser.words())
        browser.send(f"{plan}/words", {"batch": "2025-06", "columns": "key=Reference\n"})
        browser.get(plan)
        self.assertIn("1.txt 2024/7", browser.words())

    def test_wrong_rows_are_named_and_nothing_comes_in_unless_that_is_wanted(self) -> None:
        browser = self.ann()
        inventory = file("list.csv", b"file,key\n1.txt,a\nnone.txt,b\n")
        plan = self.send(browser, [file("s/1.txt")], inventory=inventory)
        self.assertIn("1 row is wrong.", browser.words())
        self.assertEqual(browser.send(f"{plan}/take-in", {"yes": "1"}).status_code, 400)
        self.assertIn("1 of 2 rows are wrong: nothing was changed", browser.words())
        browser.get(plan)
        browser.send(f"{plan}/words", {"batch": "2025-06", "leave_out": "1"})
        browser.get(plan)
        browser.send(f"{plan}/take-in", {"yes": "1"})
        self.assertIn("1 document is in the vault.", browser.words())

    def test_the_same_again_is_asked_about(self) -> None:
        browser = self.ann()
        for batch in ("one", "two"):
            plan = self.send(browser, [file("s/1.txt")], batch=batch)
            browser.send(f"{plan}/take-in", {"yes": "1"})
        self.assertIn("are in the bucket already, with that key and content", browser.words())
        self.assertIn('name="again" value="1"', browser.text())
        browser.send(f"{plan}/take-in", {"yes": "1", "again": "1"})
        self.assertIn("1 document is in the vault.", browser.words())

    def test_no_file_comes_out_of_its_folder(self) -> None:
        browser = self.ann()
        inner_path = library("vaultdesk.web.delivering").inner_path
        self.assertEqual(str(inner_path("a/b c.txt")), "a/b c.txt")
        for name in ("../e", "a/../../e", "/etc/e", "a//b", "a/./b", "a\\b", "a\nb", "x/" * 20 + "y", "a" * 256, ""):
            with self.subTest(name):
                self.assertRaises(UsageError, inner_path, name)
        browser.get("/deliver")
        form = {"bucket": "docs", "batch": "b", "folder": [file("s/../../evil")]}
        self.assertEqual(browser.send("/send-delivery", form).status_code, 400)

    def test_what_was_sent_is_of_its_session_alone_and_goes_with_it(self) -> None:
        browser, other = self.ann(), self.of("bea")
        plan = self.send(browser, [file("s/1.txt")])
        self.assertEqual(other.get(plan).status_code, 400)
        [sent] = [it for session in self.site.sessions._there.values() for it in session.kept.values()]
        self.assertTrue(sent.files.is_dir())
        browser.get("/")
        browser.send("/logout")
        self.assertFalse(sent.files.exists())

    def test_a_session_has_two_of_them_at_most(self) -> None:
        browser = self.ann()
        plans = [self.send(browser, [file("s/1.txt")], batch=f"b{number}") for number in range(3)]
        self.assertEqual([browser.get(it).status_code for it in plans], [400, 200, 200])
        browser.send(f"{plans[2]}/drop")
        self.assertEqual(browser.get(plans[2]).status_code, 400)

    def test_who_may_put_nothing_there_is_refused_before_anything_is_sent(self) -> None:
        browser = self.of("cid")
        for bucket, status, said in (("docs", 403, "AccessDenied department"), ("none", 404, "NoSuchBucket")):
            browser.get("/deliver")
            form = {"bucket": bucket, "batch": "b", "folder": [file("s/1.txt")]}
            self.assertEqual(browser.send("/send-delivery", form).status_code, status)
            self.assertIn(said, browser.words())

    def test_a_row_that_the_engine_refuses_says_why(self) -> None:
        words = ("--department", "records", "--rights", "list", "--as", "registrar")
        self.done("callers", "--add", "dan", *words, at=None)
        self.users.write_text(f"{self.users.read_text()}dan:{quick_digest()}\n")
        browser = self.of("dan")
        plan = self.send(browser, [file("s/1.txt")])
        browser.send(f"{plan}/take-in", {"yes": "1"})
        self.assertIn("AccessDenied: the caller lacks the right put", browser.words())
        self.assertIn("0 documents are in the vault", browser.words())

    def test_others_documents_arent_learned_by_a_delivery(self) -> None:
        same, above = "the vault holds the same content already", "the bucket holds that key already"
        rows = (("ann", b"a letter", True), ("ann", b"a case", False), ("bea", b"a letter", False))
        for name, content, is_said in rows:
            browser = self.of(name)
            self.send(browser, [file("s/2024/001 Miller.txt", content)], recursive="1")
            self.assertEqual(same in browser.words(), is_said, name)
            self.assertEqual(above in browser.words(), name == "ann")


class Reporting(WebTest):
    def setUp(self) -> None:
        super().setUp()
        self.done("rm", "docs", "2024/001 Miller.txt", at=None)
        self.done("delete", "docs", "2024/001 Miller.txt", "--version", "1", "--yes", at=None)
        self.done("delete", "cases", "secret/Smith", "--version", "2", "--yes", "--as", "cid", at=None)

    def test_the_register_and_certificates_are_for_who_may_certify(self) -> None:
        for name, own, others in (("ann", "Miller", "Smith"), ("cid", "Smith", "Miller"), ("bea", "", "Miller")):
            browser = self.of(name)
            for path in ("/removed", "/removed/register.csv", "/removed/certificates", "/reports"):
                browser.get(path)
                self.assertEqual(browser.last.status_code, 200)
                self.assertNotIn(others, browser.text(), (name, path))
            self.assertIn(own, browser.get("/removed").get_data(as_text=True))
        self.assertEqual(self.of("cid").get("/version/1/certificate").status_code, 403)

    def test_a_certificate_has_the_engines_text(self) -> None:
        browser = self.ann()
        text = json.loads(self.done("certificate", "1", "--json", at=None))["text"]
        browser.get("/version/1/certificate")
        self.assertIn(" ".join(text.split()), browser.words())
        self.assertIn("doesn't show that its bytes were wiped", browser.words())

    def test_the_register_is_the_desks(self) -> None:
        browser = self.ann()
        rows = list(csv.DictReader(io.StringIO(browser.get("/removed/register.csv").get_data(as_text=True))))
        whole = json.loads(self.done("register", "--json", at=None))
        self.assertEqual(rows, [it for it in whole if it["bucket"] == "docs"])
        book = zipfile.ZipFile(io.BytesIO(browser.get("/removed/register.xlsx").data))
        self.assertIn(b"2024/001 Miller.txt", book.read("xl/worksheets/sheet1.xml"))
        browser.get("/removed?since=2099-01-01")
        self.assertIn("0 removals", browser.words())

    def test_reports_and_charges_are_the_engines_and_the_desks(self) -> None:
        browser = self.ann()
        browser.get("/reports?since=2024-01-15&before=2024-01-16")
        self.assertIn("records 8 0 0 8 0", browser.words())
        self.assertNotIn("court", browser.words())
        rows = list(csv.DictReader(io.StringIO(
            browser.get("/reports/charges.csv?since=2024-01-15&before=2024-01-16").get_data(as_text=True)
        )))  # fmt: skip
        self.assertEqual([(it["dept"], it["admitted"]) for it in rows], [("records", "8")])
        self.assertEqual(browser.get("/reports?since=2024-01-15").status_code, 400)

    def test_what_rules_remove_is_shown_asked_about_and_carried_out(self) -> None:
        words = ("--id", "old", "--lone-markers")
        self.done("rules", "add", "docs", *words, at=None)  # for the marker of `setUp`, below which nothing is left
        browser = self.ann()
        browser.get("/disposal?department=records")
        self.assertIn("marker removed docs", browser.words())
        self.assertIn("Carry out the rules now", browser.words())
        browser.get("/disposal?department=records&until=2027-01-01")
        self.assertNotIn("Carry out the rules now", browser.words(), "what is to come can't be carried out now")
        self.assertEqual(browser.get("/disposal?department=court").status_code, 403)
        browser.get("/disposal")
        browser.send("/disposal/carry-out", {"department": "records"})
        self.assertIn("the rules of 1 buckets are carried out as of this moment", browser.words())
        self.assertIn('name="yes" value="1"', browser.text())
        browser.send("/disposal/carry-out", {"department": "records", "yes": "1"})
        self.assertIn("docs: 0 marked, 0 removed, 1 lone markers", browser.words())
        browser.get("/disposal")
        self.assertEqual(browser.send("/disposal/carry-out", {"department": "court", "yes": "1"}).status_code, 403)


class State(WebTest):
    def test_it_has_nights_copies_and_seals(self) -> None:
        folder = self.folder / "conf"
        folder.mkdir()
        (folder / "records.conf").write_text(f"PORT=8080\nBACKUP='{self.folder / 'copies'}'\n")
        (self.folder / "copies").mkdir()
        (self.folder / "copies" / "records-20260102T030000Z.vault").write_bytes(b"")
        self.enterContext(mock.patch.dict("os.environ", {"VAULT_CONF": str(folder)}))
        last_done.note(self.file, "night", "seal")
        (self.folder / "records.seals").write_text(SEAL)
        browser = self.ann()
        browser.get("/state")
        self.assertIn("1 copy 2 Jan 2026, 03:00:00 UTC", browser.words())
        self.assertIn("1 seal beside the vault of all before 15 Jan 2024", browser.words())
        self.assertRegex(browser.words(), r"Last night that was done to its end \d+ \w+ 20\d\d")
        self.assertNotIn("Server", browser.words())

    def test_the_server_and_looks_are_for_who_administers(self) -> None:
        browser = self.of("registrar")
        browser.get("/state")
        self.assertIn("Entries ever admitted 2", browser.words())
        for look in ("verify", "lawful"):
            browser.get("/state")
            self.assertEqual(browser.send("/state/look", {"look": look}).status_code, 200)
            self.assertIn("Yes.", browser.words())
        other = self.ann()
        self.assertEqual(other.send("/state/look", {"look": "verify"}).status_code, 403)
        self.assertIn("AccessDenied right:admin", other.words())
        self.assertEqual(other.send("/state/look", {"look": "restore"}).status_code, 400)
