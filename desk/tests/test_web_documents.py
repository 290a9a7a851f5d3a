"""Documents in the pages: found, shown, put, put on hold, retained and removed."""

from __future__ import annotations

import csv
import io
import json
import subprocess
from typing import Any
from unittest import mock

from tests.office import PROGRAM
from tests.web_office import Browser, WebTest, library

PNG = b"\x89PNG\r\n\x1a\n" + bytes(30)


class Documents(WebTest):
    def put(self, browser: Browser, key: str, content: bytes, **words: str) -> int:
        """The number of a document that was put by the form."""
        browser.get("/put", query_string={"bucket": "docs", "key": key, **words})
        form = {"bucket": "docs", "key": key, **words, "file": (io.BytesIO(content), "letter.txt")}
        done = browser.send("/put/file", form)
        self.assertEqual(done.status_code, 303, browser.words())
        return int(done.location.rpartition("/")[2])

    def head(self, number: int, bucket: str = "docs", key: str = "a") -> Any:
        """What the desk says of a version."""
        return json.loads(self.done("info", bucket, key, "--version", str(number), "--json", at=None))


class Finding(Documents):
    def test_it_finds_by_a_part_of_the_key_whatever_the_case(self) -> None:
        browser = self.ann()
        browser.get("/find?text=miller")
        self.assertIn("1 document or version", browser.words())
        self.assertIn("2024/001 Miller.txt docs 8 bytes", browser.words())
        browser.get("/find?text=miller&exact=1")
        self.assertIn("0 documents", browser.words())
        browser.get("/find?text=miller&since=2024-02-01")
        self.assertIn("0 documents", browser.words())

    def test_what_isnt_a_date_is_said(self) -> None:
        browser = self.ann()
        self.assertEqual(browser.get("/find?since=soon").status_code, 400)
        self.assertIn("'soon' is no date: write 2025-06-10", browser.words())

    def test_nobody_finds_what_the_engine_wouldnt_list(self) -> None:
        for name, own, others in (("ann", "Miller", "Smith"), ("cid", "Smith", "Miller")):
            browser = self.of(name)
            for path in ("/", "/find", "/find.csv", "/find?bucket=cases", "/find?bucket=docs", "/holds", "/put"):
                browser.get(path)
                self.assertNotIn(others, browser.text(), (name, path))
            browser.get("/find")
            self.assertIn(own, browser.text())
        for name in ("nobody", "registrar"):
            self.assertNotIn("Miller", self.of(name).get("/find").get_data(as_text=True))

    def test_a_digest_is_for_who_may_read_it(self) -> None:
        digest = self.head(1, key="2024/001 Miller.txt")["sha256"]
        ann, bea = self.ann(), self.of("bea")
        for browser, count in ((ann, 1), (bea, 0)):
            browser.get(f"/find?sha256={digest[:12]}")
            self.assertIn(f"{count} document", browser.words())
            rows = list(csv.DictReader(io.StringIO(browser.get("/find.csv").get_data(as_text=True))))
            self.assertEqual([it["sha256"] for it in rows], [digest if count else ""])

    def test_what_was_removed_is_for_who_may_certify_it(self) -> None:
        self.browser = self.ann()
        number = self.put(self.browser, "gone", b"x")
        self.done("delete", "docs", "gone", "--version", str(number), "--yes", at=None)
        for name, is_seen in (("ann", True), ("bea", False), ("cid", False)):
            browser = self.of(name)
            browser.get("/find?text=gone")
            self.assertEqual("gone docs" in browser.words(), is_seen, name)
            self.assertEqual(browser.get(f"/version/{number}").status_code, 200 if is_seen else 403, name)

    def test_a_bucket_is_listed_as_the_engine_lists_it(self) -> None:
        browser = self.ann()
        self.assertEqual(browser.get("/bucket/docs").status_code, 200)
        self.assertIn("2024/001 Miller.txt 1 current 8 bytes", browser.words())
        self.assertEqual(browser.get("/bucket/docs?prefix=2025").status_code, 200)
        self.assertIn("Nothing is held here.", browser.words())
        self.assertEqual(browser.get("/bucket/cases").status_code, 403)
        self.assertIn("AccessDenied department", browser.words())
        self.assertEqual(browser.get("/bucket/none").status_code, 404)

    def test_a_long_bucket_and_a_long_list_have_pages(self) -> None:
        browser = self.ann()
        finding = library("vaultdesk.web.finding")
        self.done("put", "docs", "b & c/<i>", self.written("x", b"x"), at=None)
        with mock.patch.object(finding, "ROWS", 1):
            browser.get("/bucket/docs")
            self.assertNotIn("b &amp; c", browser.text())
            [more] = [it for it in browser.text().split('"') if "after_key" in it]
            browser.get(more.replace("&amp;", "&"))
            self.assertIn("b &amp; c/&lt;i&gt;", browser.text())
            browser.get("/find?page=2")
            self.assertIn("Miller", browser.text())
            self.assertIn("page=1", browser.text())

    def test_a_change_is_seen_at_once(self) -> None:
        browser = self.ann()
        for number in range(5):
            browser.get("/find?text=quick")
            self.assertIn(f"{number} document", browser.words())
            self.done("put", "docs", f"quick {number}", self.written("x", b"x"), at=None)

    def test_copies_go_with_their_last_reader(self) -> None:
        copies = self.site.copies
        first = copies.take()
        self.done("put", "docs", "k", self.written("x", b"x"), at=None)
        second = copies.take()
        self.assertTrue(first.file.exists() and second.file != first.file)
        copies.give_back(first)
        self.assertFalse(first.file.exists())
        copies.give_back(second)
        self.assertTrue(second.file.exists(), "the newest one stays for who comes next")
        copies.close()
        self.assertFalse(second.file.exists())


class Showing(Documents):
    def test_a_document_has_its_digest_its_lock_and_its_life(self) -> None:
        browser = self.ann()
        number = self.put(browser, "a", b"hello", until="2099-01-01", mode="COMPLIANCE", yes="1")
        browser.get(f"/version/{number}")
        self.assertIn("2cf24dba5fb0a30e26e83b2ac5b9e29e1b161e5c1fa7425e73043362938b9824", browser.text())
        self.assertIn("COMPLIANCE, until 1 Jan 2099, 00:00:00 UTC", browser.words())
        self.assertIn("nobody could remove it, with any right", browser.words())
        self.assertIn("5 bytes admitted, of the department records", browser.words())

    def test_who_may_not_read_it_is_refused_by_the_engine(self) -> None:
        for name, number, said in (
            ("bea", 1, "AccessDenied right:get"), ("cid", 1, "AccessDenied department"),
            ("ann", 2, "AccessDenied department"), ("nobody", 1, "AccessDenied unknown-caller"),
        ):  # fmt: skip
            browser = self.of(name)
            for path in ("", "/content", "/court", "/delete"):
                answer = browser.get(f"/version/{number}{path}")
                self.assertEqual(answer.status_code, 403, (name, number, path))
                self.assertIn(said, browser.words())
                for secret in ("Miller", "Smith", "a letter"):
                    self.assertNotIn(secret, browser.text())
        self.assertEqual(self.ann().get("/version/99").status_code, 400)

    def test_content_is_shown_by_its_bytes_and_never_as_a_page(self) -> None:
        browser = self.ann()
        rows = (
            (b"<html><script>alert(1)</script>", "text/plain; charset=utf-8", "inline"),
            (b"\xef\xbb\xbfa text\r\n", "text/plain; charset=utf-8", "inline"),
            (PNG, "image/png", "inline"), (b"%PDF-1.7\n\xe2", "application/pdf", "inline"),
            *((it, "application/octet-stream", "attachment") for it in (b"<svg>\x00", b"\x1b]0;x", b"PK\x03\x04", b"")),
        )  # fmt: skip
        for number, (content, kind, how) in enumerate(rows):
            version = self.put(browser, f"a/{number} Ü.html", content)
            answer = browser.get(f"/version/{version}/content")
            self.assertEqual((answer.data, answer.headers["Content-Type"]), (content, kind))
            self.assertIn(f"{how}; filename", answer.headers["Content-Disposition"])
            self.assertIn(f"{number}%20%C3%9C.html", answer.headers["Content-Disposition"])
            self.assertEqual(answer.headers["X-Content-Type-Options"], "nosniff")
            self.assertIn("default-src 'none'", answer.headers["Content-Security-Policy"])
            self.assertEqual("sandbox" in answer.headers["Content-Security-Policy"], kind != "application/pdf")
            loaded = browser.get(f"/version/{version}/content?download=1")
            self.assertEqual(loaded.headers["Content-Type"], "application/octet-stream")
            self.assertIn("attachment", loaded.headers["Content-Disposition"])

    def test_a_key_is_text_wherever_it_stands(self) -> None:
        browser = self.ann()
        key = '"><script>alert(1)</script>{{ 7*7 }}'
        number = self.put(browser, key, b"x")
        for path in (f"/version/{number}", "/find", "/bucket/docs", f"/version/{number}/delete", "/find?text=<script>"):
            browser.get(path)
            self.assertNotIn("<script>alert", browser.text(), path)
            self.assertNotIn("49", browser.text().replace("&#34;", ""), path)

    def test_the_page_for_a_court_has_the_desks_parts(self) -> None:
        browser = self.ann()
        browser.get("/version/1/court")
        for said in ("Tables: sound.", "Rules: lawful.", "What this doesn't show", "The document", "8 bytes admitted"):
            self.assertIn(said, browser.words())


class Putting(Documents):
    def test_what_will_guard_it_is_shown_before(self) -> None:
        browser = self.ann()
        rows: tuple[tuple[dict[str, str], str, str], ...] = (
            ({}, "none", "Nothing will guard it"),
            ({"until": "2040-01-01"}, "GOVERNANCE, until 1 Jan 2040, 00:00:00 UTC", ""),
            ({"until": "2040-01-01", "mode": "COMPLIANCE"}, "COMPLIANCE, until 1 Jan 2040", "Nobody will be able"),
            ({"hold": "1"}, "Legal hold on", ""),
        )  # fmt: skip
        for words, guard, more in rows:
            self.assertEqual(browser.get("/put", query_string={"bucket": "docs", "key": "k", **words}).status_code, 200)
            self.assertIn(guard, browser.words())
            self.assertIn(more, browser.words())
        self.done("default", "docs", "--years", "10", "--mode", "COMPLIANCE", "--yes", at=None)
        browser.get("/put?bucket=docs&key=k")
        self.assertRegex(browser.words(), r"COMPLIANCE, until .* UTC · by the bucket's default")

    def test_a_mode_without_an_end_is_refused_before_the_file_is_sent(self) -> None:
        browser = self.ann()
        self.assertEqual(browser.get("/put?bucket=docs&key=k&mode=COMPLIANCE").status_code, 400)
        self.assertIn("is the mode of a retention, which has an end", browser.words())

    def test_a_far_end_is_asked_about_and_refused_without_a_yes(self) -> None:
        browser = self.ann()
        browser.get("/put?bucket=docs&key=k&until=2999-01-01")
        self.assertIn("the retention ends in more than 30 years", browser.words())
        form = {"bucket": "docs", "key": "k", "until": "2999-01-01", "file": (io.BytesIO(b"x"), "x")}
        self.assertEqual(browser.send("/put/file", form).status_code, 400)
        self.assertEqual(browser.get("/find?text=k&exact=1").status_code, 200)
        self.assertIn("0 documents", browser.words())

    def test_what_is_put_is_there_byte_for_byte_by_the_user(self) -> None:
        browser = self.ann()
        content = bytes(range(256)) * 4096
        number = self.put(browser, "large", content, hold="1")
        self.assertEqual(browser.get(f"/version/{number}/content").data, content)
        browser.get(f"/version/{number}")
        self.assertIn("Legal hold on", browser.words())
        self.assertIn("Version 3 is in the vault, as it was sent: 1 MB.", browser.words())
        browser.get(f"/version/{number}")
        self.assertNotIn("as it was sent", browser.words(), "it is said twice")
        self.assertIn("put bucket='docs' key='large'", self.log.getvalue())

    def test_too_large_a_file_and_a_second_new_one_are_refused_in_the_desks_words(self) -> None:
        browser = self.ann()
        rows: tuple[tuple[dict[str, str], bytes, str], ...] = (
            ({}, bytes(1_048_577), "letter.txt: more than 1,048,576 bytes"),
            ({"new": "1", "key": "2024/001 Miller.txt"}, b"x", "has version 1 already: nothing was put"),
        )
        for words, content, said in rows:
            browser.get("/put?bucket=docs&key=k")
            file = (io.BytesIO(content), "letter.txt")
            done = browser.send("/put/file", {"bucket": "docs", "key": "k", **words, "file": file})
            self.assertEqual(done.status_code, 400)
            self.assertIn(said, browser.words())

    def test_how_much_may_be_sent_is_said_before(self) -> None:
        browser = self.ann()
        browser.get("/put?bucket=docs&key=a")
        self.assertIn("at most 1,048,576 bytes", browser.words())
        more = "More than 1,048,576 bytes: nothing was sent."
        self.assertIn(f'data-most="1048576" data-too-large="{more}"', browser.text())
        browser.get("/deliver")
        self.assertIn('data-most="1072741824"', browser.text())

    def test_a_form_that_the_script_sends_is_answered_the_way_on_or_a_page(self) -> None:
        browser, sent = self.ann(), {"Vault-Sent-By": "script"}
        rows = (("soon", 400, "", "'soon' is no date"), ("2050-01-01", 200, r"/version/\d+", ""))
        for until, status, way, said in rows:
            browser.get("/put?bucket=docs&key=a")
            form = {"bucket": "docs", "key": "a", "until": until, "file": (io.BytesIO(b"x"), "a.txt")}
            done = browser.send("/put/file", form, headers=sent)
            self.assertEqual((done.status_code, done.location), (status, None), browser.words())
            self.assertRegex(done.headers.get("Vault-Next", ""), f"^{way}$")
            self.assertIn(said, browser.words())
        browser.get("/")
        self.assertIn("is in the vault, as it was sent", browser.words())

    def test_who_may_not_put_is_refused_by_the_engine(self) -> None:
        browser = self.of("cid")
        browser.get("/put")
        self.assertNotIn("docs", browser.text())
        self.assertEqual(browser.get("/put?bucket=docs&key=k").status_code, 403)
        form = {"bucket": "docs", "key": "k", "file": (io.BytesIO(b"x"), "x")}
        self.assertEqual(browser.send("/put/file", form).status_code, 403)
        self.assertIn("AccessDenied department", browser.words())

    def test_an_upload_without_a_token_or_a_file_puts_nothing(self) -> None:
        browser = self.ann()
        form = {"bucket": "docs", "key": "k", "file": (io.BytesIO(b"x"), "x")}
        self.assertEqual(browser.post("/put/file", form).status_code, 403)
        browser.get("/put?bucket=docs&key=k")
        self.assertEqual(browser.send("/put/file", {"bucket": "docs", "key": "k"}).status_code, 400)
        browser.get("/find")
        self.assertIn("1 document or version", browser.words())


class Locks(Documents):
    def page(self, browser: Browser, number: int = 1) -> str:
        browser.get(f"/version/{number}")
        return browser.words()

    def test_a_hold_for_a_case_is_noted_and_lifted_with_it(self) -> None:
        browser = self.ann()
        self.page(browser)
        self.assertEqual(browser.send("/version/1/hold", {"case": "Miller 17"}).status_code, 303)
        self.assertIn("no retention, hold OFF → no retention, hold ON", self.page(browser))
        self.assertEqual(browser.send("/version/1/release").status_code, 400)
        self.assertIn("it is on hold for case 'Miller 17'", browser.words())
        browser.get("/holds")
        self.assertIn("Miller 17 1", browser.words())
        self.assertIn("2024/001 Miller.txt docs", browser.words())
        browser.get("/case/Miller%2017")
        self.assertIn("Lift all holds of this case", browser.words())
        self.assertEqual(browser.send("/release-case/Miller%2017").status_code, 200)
        self.assertIn("Legal hold off", self.page(browser))

    def test_a_case_is_for_who_may_read_its_documents(self) -> None:
        browser = self.ann()
        self.page(browser)
        browser.send("/version/1/hold", {"case": "Miller 17"})
        for name in ("bea", "cid", "registrar"):
            other = self.of(name)
            self.assertNotIn("Miller", other.get("/holds").get_data(as_text=True), name)
            self.assertEqual(other.get("/case/Miller%2017").status_code, 400)
            other.get("/")
            self.assertNotEqual(other.send("/version/1/release", {"case": "Miller 17"}).status_code, 303)
            other.get("/")
            self.assertEqual(other.send("/release-case/Miller%2017").status_code, 400)
            self.assertNotIn("001", other.words())
        self.assertIn("Legal hold on", self.page(browser))

    def test_many_are_shown_before_they_are_put_on_hold(self) -> None:
        browser = self.ann()
        self.put(browser, "2024/002", b"x")
        browser.get("/holds")
        words = {"bucket": "docs", "prefix": "2024/", "case": "Miller 17"}
        self.assertEqual(browser.send("/holds/many", words).status_code, 200)
        self.assertIn("2 versions", browser.words())
        self.assertIn("would be: no retention, hold ON", browser.words())
        self.assertIn("Legal hold off", self.page(browser))
        browser.send("/holds/many", {**words, "yes": "1"})
        self.assertIn("Legal hold on", self.page(browser))
        browser.get("/holds")
        self.assertEqual(browser.send("/holds/many", {"bucket": "docs", "prefix": ""}).status_code, 400)

    def test_a_retention_in_compliance_is_asked_about(self) -> None:
        browser = self.ann()
        self.page(browser)
        words = {"until": "2040-01-01", "mode": "COMPLIANCE"}
        self.assertEqual(browser.send("/version/1/retain", words).status_code, 200)
        self.assertIn("1 versions can't be removed by anybody before 2040-01-01T00:00:00Z", browser.words())
        self.assertIn('name="yes" value="1"', browser.text())
        self.assertIn('name="until" value="2040-01-01"', browser.text())
        self.assertEqual(browser.send("/version/1/retain", {**words, "yes": "1"}).status_code, 303)
        self.assertIn("COMPLIANCE, until 1 Jan 2040", self.page(browser))
        self.assertEqual(browser.send("/version/1/retain", {"until": "2030-01-01"}).status_code, 403)
        self.assertIn("AccessDenied retention-compliance", browser.words())

    def test_a_removal_says_before_whether_it_would_be_refused(self) -> None:
        browser = self.ann()
        self.page(browser)
        browser.send("/version/1/hold")
        browser.get("/version/1/delete")
        self.assertIn("AccessDenied legal-hold", browser.words())
        self.assertNotIn('name="yes"', browser.text())
        self.assertEqual(browser.send("/version/1/delete", {"yes": "1"}).status_code, 403)
        self.page(browser)
        browser.send("/version/1/release")
        browser.get("/version/1/delete")
        self.assertIn("this can't be undone", browser.words())
        self.assertEqual(browser.send("/version/1/delete", {"yes": "1"}).status_code, 303)
        self.assertIn("removed for good, as asked", self.page(browser))

    def test_a_marker_is_put_on_top(self) -> None:
        browser = self.ann()
        self.page(browser)
        done = browser.send("/version/1/mark")
        self.assertEqual((done.status_code, done.location), (303, "/version/3"))
        self.assertIn("delete marker", self.page(browser, 3))
        self.assertIn("older", self.page(browser))


class Server(Documents):
    def test_a_server_that_is_gone_is_said_and_one_that_is_back_answers(self) -> None:
        browser = self.ann()
        self.server.kill()
        self.server.wait()
        for path in ("/bucket/docs", "/version/1", "/version/1/content"):
            self.assertEqual(browser.get(path).status_code, 503, path)
            self.assertIn("The vault doesn't answer now", browser.words())
        browser.get("/login")
        self.server = self.served_anew()
        self.assertEqual(browser.get("/version/1").status_code, 200)

    def test_the_pages_never_open_the_vault_by_themselves(self) -> None:
        browser = self.ann()
        self.server.kill()
        self.server.wait()
        browser.get("/find")
        self.assertFalse((self.folder / "records.vault-shm").exists())
        done = subprocess.run([PROGRAM, "verify", str(self.file)], capture_output=True, text=True)
        self.assertEqual(done.stdout.strip(), "sound")
