"""Documents: put, get, ls."""

from __future__ import annotations

import base64
import csv
import hashlib
import json
import os
import unittest
import zipfile
from pathlib import Path
from unittest import mock
from xml.etree import ElementTree

from tests.office import OfficeTest
from vaultdesk import documents, spreadsheet
from vaultdesk.documents import checked_content
from vaultdesk.errors import DeskError


class Checked(unittest.TestCase):
    def test_a_content_of_another_digest_is_no_document(self) -> None:
        found = {"version_id": 7, "hex": b"hello".hex(), "sha256": hashlib.sha256(b"hello").hexdigest()}
        self.assertEqual(checked_content(found), b"hello")
        with self.assertRaisesRegex(DeskError, "version 7"):
            checked_content({**found, "hex": b"other".hex()})


class PutAndGet(OfficeTest):
    def test_what_is_put_comes_back(self) -> None:
        content = bytes(range(256)) * 3
        path = self.written("scan.bin", content)
        self.assertEqual(self.done("put", "docs", "2024/Müller & Söhne", path), "1\n")
        target = self.folder / "back.bin"
        self.assertEqual(self.done("get", "docs", "2024/Müller & Söhne", str(target)), "")
        self.assertEqual(target.read_bytes(), content)
        self.assertEqual(target.stat().st_mode & 0o777, 0o600)

    def test_a_lock_is_put_with_it(self) -> None:
        path = self.written("deed.txt", b"deed")
        self.done("put", "docs", "deed", path, "--until", "2034-01-01", "--mode", "COMPLIANCE", "--hold")
        [head] = self.lines({"do": "head", "bucket": "docs", "key": "deed"}, at="2024-01-15T10:00:00Z")
        self.assertEqual(head["ok"]["retention"], {"mode": "COMPLIANCE", "until": "2034-01-01T00:00:00Z"})
        self.assertEqual(head["ok"]["hold"], "ON")

    def test_what_is_only_to_be_new_is_put_once(self) -> None:
        path = self.written("a.txt", b"hello")
        self.assertEqual(self.done("put", "docs", "a", path, "--new"), "1\n")
        done = self.desk("put", "docs", "a", path, "--new")
        self.assertEqual((done.status, done.out), (1, ""))
        self.assertIn("a has version 1 already", done.err)
        self.done("rm", "docs", "a")
        self.assertEqual(self.done("put", "docs", "a", path, "--new"), "3\n")
        self.done("delete", "docs", "a", "--version", "3", "--yes")
        other = self.written("b.txt", b"other")
        for content, number in ((path, 4), (other, 5), (other, 6)):
            self.assertEqual(self.done("put", "docs", "a", content, "--new"), f"{number}\n")
            self.done("delete", "docs", "a", "--version", str(number), "--yes")

    def test_a_new_one_has_its_lock(self) -> None:
        path = self.written("a.txt", b"hello")
        self.done("put", "docs", "a", path, "--new", "--until", "2034-01-01", "--mode", "COMPLIANCE", "--hold")
        found = json.loads(self.done("info", "docs", "a", "--json"))
        wanted = {"mode": "COMPLIANCE", "until": "2034-01-01T00:00:00Z", "hold": "ON"}
        self.assertEqual({name: found[name] for name in wanted}, wanted)

    def test_of_those_who_find_nothing_one_puts(self) -> None:
        first, other = self.written("a.txt", b"hello"), self.written("b.txt", b"other")
        self.done("put", "docs", "a", first, "--new")
        look = documents._look_new
        for path in (first, other):
            with mock.patch("vaultdesk.documents._look_new", side_effect=[None, mock.DEFAULT], wraps=look):
                done = self.desk("put", "docs", "a", path, "--new")
            self.assertEqual((done.status, done.out), (1, ""))
            self.assertIn("a has version 1 already", done.err)
        self.assertEqual(len(json.loads(self.done("ls", "docs", "--json"))), 1)

    def test_a_version_has_its_lock_and_its_digest(self) -> None:
        path = self.written("a.txt", b"hello")
        put = json.loads(self.done("put", "docs", "a", path, "--until", "2034-01-01", "--hold", "--json"))
        self.done("put", "docs", "a", path)
        found = json.loads(self.done("info", "docs", "a", "--version", "1", "--json"))
        self.assertEqual(found["sha256"], put["sha256"])
        wanted = {"version": 1, "size": 5, "mode": "GOVERNANCE", "until": "2034-01-01T00:00:00Z", "hold": "ON"}
        self.assertEqual({name: found[name] for name in wanted}, wanted)
        self.assertRegex(self.done("info", "docs", "a"), r"(?s)version +2\n.*mode +none\n.*hold +OFF\n")

    def test_an_older_version_is_read_by_its_number(self) -> None:
        for content in (b"first", b"second"):
            self.done("put", "docs", "a", self.written("a.txt", content))
        self.assertEqual([self.done("get", "docs", "a", *it) for it in ((), ("--version", "1"))], ["second", "first"])

    def test_keys_are_taken_letter_by_letter(self) -> None:
        path = self.written("a.txt", b"hello")
        keys = ["100%25", "100%", "M\u00fcller", "Mu\u0308ller", " a ", "a", "+", "a//b"]
        for number, key in enumerate(keys, start=1):
            self.assertEqual(self.done("put", "docs", key, path), f"{number}\n")
        for number, key in enumerate(keys, start=1):
            self.assertEqual(json.loads(self.done("info", "docs", key, "--json"))["version"], number)
            self.assertEqual(json.loads(self.done("get", "docs", key, "--json"))["version"], number)
        listed = {it["version"]: it["key"] for it in json.loads(self.done("ls", "docs", "--json"))}
        self.assertEqual([listed[it] for it in range(1, 9)], keys)

    def test_words_that_arent_utf_8(self) -> None:
        path = os.fsdecode(b"scan \xe9.pdf")
        self.written(path, b"hello")
        self.done("put", "docs", "a", str(self.folder / path))
        for words in (("put", "docs", path, str(self.folder / path)), ("get", "docs", path), ("find", path)):
            done = self.desk(*words)
            self.assertEqual((done.status, done.out), (2, ""), words)
            self.assertRegex(done.err, r"^vaultdesk \w+: .*scan \\udce9: that isn't UTF-8, which keys and names are\n$")
        self.assertEqual(len(json.loads(self.done("ls", "docs", "--json"))), 1)

    def test_a_content_is_json_too(self) -> None:
        content = bytes(range(256))
        self.done("put", "docs", "a", self.written("a.bin", content))
        self.assertEqual(base64.b64decode(json.loads(self.done("get", "docs", "a", "--json"))["base64"]), content)
        target = str(self.folder / "back.bin")
        self.assertEqual(json.loads(self.done("get", "docs", "a", target, "--json"))["file"], target)
        self.assertEqual(Path(target).read_bytes(), content)

    def test_nothing_is_overwritten_unasked(self) -> None:
        path = self.written("a.txt", b"hello")
        self.done("put", "docs", "a", path)
        there = self.written("there.txt", b"mine")
        done = self.desk("get", "docs", "a", there)
        self.assertEqual((done.status, Path(there).read_bytes()), (1, b"mine"))
        self.assertIn("--force", done.err)
        self.done("get", "docs", "a", there, "--force")
        self.assertEqual(Path(there).read_bytes(), b"hello")

    def test_a_file_above_the_limit_is_refused_before_it_is_sent(self) -> None:
        path = self.written("large.bin", b"x" * 1_048_577)
        done = self.desk("put", "docs", "large", path)
        self.assertEqual(done.status, 1)
        self.assertIn("1,048,576", done.err)

    def test_a_refusal_says_its_name_and_what_to_do(self) -> None:
        path = self.written("a.txt", b"hello")
        done = self.desk("put", "nowhere", "a", path)
        self.assertEqual((done.status, done.out), (1, ""))
        self.assertIn("NoSuchBucket", done.err)
        self.assertEqual(self.done("ls", "docs"), "")

    def test_a_far_end_is_asked_for(self) -> None:
        path = self.written("a.txt", b"hello")
        for mode in ("COMPLIANCE", "GOVERNANCE"):
            done = self.desk("put", "docs", "a", path, "--until", "2337-01-01", "--mode", mode)
            self.assertEqual(done.status, 2, mode)
            self.assertIn("2337", done.err)
        self.assertEqual(self.done("ls", "docs"), "")
        self.done("put", "docs", "a", path, "--until", "2055-01-01", "--mode", "COMPLIANCE")
        self.done("put", "docs", "a", path, "--until", "2056-01-01", "--yes")

    def test_a_mode_without_an_end_is_refused(self) -> None:
        path = self.written("a.txt", b"hello")
        for mode in ("COMPLIANCE", "GOVERNANCE"):
            done = self.desk("put", "docs", "a", path, "--mode", mode, "--hold")
            self.assertEqual((done.status, done.out), (2, ""))
            self.assertIn(f"--mode {mode} is the mode of a retention, which has an end: give --until DATE", done.err)
        self.assertEqual(self.done("ls", "docs"), "")

    def test_what_nothing_guards_is_said(self) -> None:
        path = self.written("a.txt", b"hello")
        said = "nothing guards version 1, as docs has no default retention: set an end by vaultdesk retain"
        done = self.desk("put", "docs", "a", path)
        self.assertEqual((done.status, done.out, done.err.count("\n")), (0, "1\n", 1))
        self.assertIn(said, done.err)
        self.assertIn("nothing guards version 2", json.loads(self.desk("put", "docs", "a", path, "--json").out)["note"])
        for words in (("--hold",), ("--until", "2034-01-01")):
            self.assertEqual(self.desk("put", "docs", "a", path, *words).err, "")
        self.lines({"do": "set-default", "bucket": "docs", "mode": "GOVERNANCE", "days": 1}, at="2024-01-15T10:00:00Z")
        self.assertEqual(json.loads(self.desk("put", "docs", "a", path, "--json").out)["note"], "")
        bob = {"do": "add-caller", "as": "registrar", "caller": "bob", "dept": "records", "rights": ["put"]}
        self.lines(bob, at="2024-01-15T10:00:00Z")
        done = self.desk("put", "docs", "a", path, "--as", "bob")
        self.assertEqual((done.status, done.out), (0, "6\n"))
        self.assertIn("what guards version 6 isn't known: AccessDenied right:get", done.err)

    def test_a_mode_that_isnt_the_buckets_is_said(self) -> None:
        path = self.written("a.txt", b"hello")
        clerk = {"do": "add-caller", "as": "registrar", "caller": "cid", "dept": "records", "rights": ["put", "retain"]}
        years = {"do": "set-default", "bucket": "docs", "mode": "COMPLIANCE", "years": 1}
        self.lines(clerk, years, at="2024-01-15T10:00:00Z")
        said = "the mode is GOVERNANCE, and the default of docs is COMPLIANCE for 1 year: if that was meant, give "
        # Who may not ask for the default is told all the same: it is read from the tables.
        for caller in ("ann", "cid"):
            done = self.desk("put", "docs", "a", path, "--until", "2034-01-01", "--as", caller)
            self.assertEqual((done.status, done.err), (0, f"{said}vaultdesk retain --mode COMPLIANCE\n"))
        self.assertEqual(self.desk("put", "docs", "a", path, "--until", "2034-01-01", "--mode", "COMPLIANCE").err, "")
        self.lines({**years, "mode": "GOVERNANCE"}, at="2024-01-15T10:00:00Z")
        words = ("put", "docs", "a", path, "--until", "2034-01-01", "--mode", "COMPLIANCE", "--json")
        note = "the mode is COMPLIANCE, and the default of docs is GOVERNANCE for 1 year: nobody removes it or shortens"
        self.assertEqual(json.loads(self.desk(*words).out)["note"], f"{note} it before its end")

    def test_no_change_is_dated_ahead_of_the_clock(self) -> None:
        path = self.written("a.txt", b"hello")
        bucket = ["buckets", "--add", "mail", "--department", "records", "--as", "registrar"]
        for words in (["put", "docs", "a", path], bucket):
            done = self.desk(*words, at="2206-01-15T10:00:00Z")
            self.assertEqual((done.status, done.out), (2, ""), words)
            self.assertIn("ahead of this machine's clock", done.err)
        self.assertEqual(self.done("ls", "docs", at="2206-01-15T10:00:00Z"), "")
        self.done("put", "docs", "a", path)

    def test_a_date_that_is_none_is_refused(self) -> None:
        path = self.written("a.txt", b"hello")
        for date in ("01.01.2034", "2034-02-30", "2034", "2034-01-01T00:00:00"):
            self.assertEqual(self.desk("put", "docs", "a", path, "--until", date).status, 2, date)
        self.assertEqual(self.done("ls", "docs"), "")


class Listing(OfficeTest):
    def test_all_pages_are_listed(self) -> None:
        lines = [{"do": "put", "bucket": "docs", "key": f"k{n:04}", "text": "x"} for n in range(2_500)]
        self.lines(*lines)
        found = json.loads(self.done("ls", "docs", "--json"))
        self.assertEqual([it["key"] for it in found], [f"k{n:04}" for n in range(2_500)])

    def test_versions_and_markers_are_told_apart(self) -> None:
        put = {"do": "put", "bucket": "docs", "key": "a", "text": "x"}
        self.lines(put, put, {"do": "delete", "bucket": "docs", "key": "b"})
        found = json.loads(self.done("ls", "docs", "--json"))
        self.assertEqual([(it["version"], it["kind"]) for it in found], [(2, "current"), (1, "older"), (3, "marker")])


class Export(OfficeTest):
    KEYS = {"a/b.pdf": b"one", "100%25 M\u00fcller": b"\x00two", "..": b"three", "x" * 300 + ".tif": b"four"}

    def setUp(self) -> None:
        super().setUp()
        put = {"do": "put", "bucket": "docs"}
        self.lines(*({**put, "key": key, "hex": it.hex()} for key, it in self.KEYS.items()))
        self.lines({**put, "key": "a/b.pdf", "text": "newer"}, {**put, "key": "gone", "text": "x"},
                   {"do": "delete", "bucket": "docs", "key": "gone"})
        self.out = self.folder / "out"

    def listed(self) -> dict[str, bytes]:
        """The content of each file by the key that the list gives it."""
        with (self.out / "documents.csv").open(encoding="utf-8", newline="") as file:
            return {it["key"]: (self.out / it["file"]).read_bytes() for it in csv.DictReader(file)}

    def test_each_current_document_has_its_file(self) -> None:
        self.assertIn("4 documents", self.done("export", "docs", str(self.out)))
        self.assertEqual(self.listed(), {**self.KEYS, "a/b.pdf": b"newer"})
        names = sorted(it.name for it in self.out.iterdir())
        self.assertEqual(names, ["2", "3", "4.tif", "5.pdf", "documents.csv", "documents.xlsx"])

    def test_older_versions_and_a_prefix(self) -> None:
        self.done("export", "docs", str(self.out), "--prefix", "a/", "--all-versions")
        self.assertEqual({it.name for it in self.out.iterdir()}, {"1.pdf", "5.pdf", "documents.csv", "documents.xlsx"})
        self.assertEqual((self.out / "1.pdf").read_bytes(), b"one")

    def test_files_have_the_names_of_their_keys_where_they_can(self) -> None:
        put = {"do": "put", "bucket": "docs", "text": "x"}
        keys = ["a", "b", "b/c/d", "../e", "/f", "g//h", "documents.csv", "5.pdf"]
        self.lines(*({**put, "key": it} for it in keys))
        self.done("export", "docs", str(self.out), "--names")
        self.assertEqual({**self.listed(), **dict.fromkeys(keys, b"x")}, self.listed())
        with (self.out / "documents.csv").open(encoding="utf-8", newline="") as file:
            names = {it["key"]: it["file"] for it in csv.DictReader(file)}
        for key in ("a", "b", "100%25 M\u00fcller", "5.pdf"):
            self.assertEqual(names[key], key)
        # Of `a` and `a/b.pdf` one alone can be a file of that name; so of `b` and `b/c/d`.
        others = {"a/b.pdf": "_5.pdf", "b/c/d": "10", "../e": "11", "documents.csv": "14.csv", "..": "3"}
        self.assertEqual({key: names[key] for key in others}, others)
        self.assertEqual(len(set(names.values())), len(names))
        self.assertEqual({it for it in self.folder.iterdir() if it.name in ("e", "f")}, set())

    def test_nothing_is_written_over_unasked(self) -> None:
        self.out.mkdir()
        (self.out / "3").write_bytes(b"mine")
        for words in ((), ("--into-existing",)):
            done = self.desk("export", "docs", str(self.out), *words)
            self.assertEqual(done.status, 1)
            self.assertIn("--force", done.err)
            self.assertEqual((self.out / "3").read_bytes(), b"mine")
        self.done("export", "docs", str(self.out), "--force")
        self.assertEqual((self.out / "3").read_bytes(), b"three")

    def test_other_files_are_refused_or_named(self) -> None:
        self.out.mkdir()
        (self.out / "other").write_bytes(b"mine")
        done = self.desk("export", "docs", str(self.out))
        self.assertEqual(done.status, 1)
        cause = f"{self.out} has files already, other among them: name a new folder, give --into-existing"
        self.assertIn(cause, done.err)
        self.assertEqual([it.name for it in self.out.iterdir()], ["other"])
        for word in ("--into-existing", "--force"):
            done = self.desk("export", "docs", str(self.out), word)
            self.assertEqual((done.status, (self.out / "other").read_bytes()), (0, b"mine"))
            self.assertIn(f"also in {self.out}, and not in the list: other\n", done.err)

    def test_no_link_is_followed(self) -> None:
        self.lines({"do": "put", "bucket": "docs", "key": "annex/deep/a", "text": "x"})
        elsewhere = self.folder / "elsewhere"
        (elsewhere / "deep").mkdir(parents=True)
        victim = elsewhere / "victim"
        victim.write_text("mine")
        self.out.mkdir()
        annex, name = self.out / "annex", self.out / "b"
        for link in (annex, annex / "deep"):
            if link != annex:
                annex.unlink()
                annex.mkdir()
            link.symlink_to(elsewhere)
            for words in ("--into-existing", "--force"):
                done = self.desk("export", "docs", str(self.out), "--names", "--prefix", "annex/", words)
                self.assertEqual(done.status, 1)
                self.assertIn("annex/deep/a: a link or a file is in the place of a folder", done.err)
        self.lines({"do": "put", "bucket": "docs", "key": "b", "text": "x"})
        name.symlink_to(victim)
        done = self.desk("export", "docs", str(self.out), "--names", "--prefix", "b", "--into-existing")
        self.assertEqual((done.status, name.is_symlink()), (1, True))
        self.desk("export", "docs", str(self.out), "--names", "--prefix", "b", "--force")
        self.assertEqual((name.is_symlink(), name.read_text(), victim.read_text()), (False, "x", "mine"))
        self.assertEqual(sorted(str(it.relative_to(elsewhere)) for it in elsewhere.rglob("*")), ["deep", "victim"])

    def test_a_spreadsheet_has_texts_alone(self) -> None:
        keys = ["=cmd|' /C calc'!A0", "+1", "-1", "@a", "0012", "2025-01-02", "a_x000A_"]
        self.lines(*({"do": "put", "bucket": "docs", "key": it, "text": "x"} for it in keys))
        self.done("export", "docs", str(self.out))
        with zipfile.ZipFile(self.out / "documents.xlsx") as book:
            cells = ElementTree.fromstring(book.read("xl/worksheets/sheet1.xml")).iter(f"{{{spreadsheet.MAIN}}}c")
        found = [(it.get("t"), "".join(it.itertext())) for it in cells]
        self.assertEqual({kind for kind, _ in found}, {"inlineStr"})
        texts = [text for _, text in found]
        for key in keys[:-1]:
            self.assertIn(key, texts)
        self.assertIn("a_x005F_x000A_", texts)
        self.assertEqual(set(keys) - set(self.listed()), set())

    def test_the_list_is_an_inventory(self) -> None:
        self.done("export", "docs", str(self.out))
        self.lines({"do": "add-bucket", "as": "registrar", "bucket": "again", "dept": "records"})
        listed = str(self.out / "documents.csv")
        done = self.desk("deliver", str(self.out), "--bucket", "again", "--batch", "b", "--inventory", listed, "--yes")
        self.assertEqual(done.status, 0, done.err)
        keys = {it["key"] for it in json.loads(self.done("ls", "again", "--json"))}
        self.assertEqual(keys, set(self.KEYS))


class Engines(OfficeTest):
    def test_a_missing_vault_is_said_in_words(self) -> None:
        done = self.desk("ls", "docs", "--vault", str(self.folder / "none.vault"))
        self.assertEqual((done.status, done.out), (1, ""))
        self.assertIn("there is no such file: --vault or $VAULT names the vault", done.err)

    def test_a_missing_program_is_said_in_words(self) -> None:
        with mock.patch.dict("os.environ", {"VAULTCTL": "/nowhere/vaultctl"}):
            done = self.desk("ls", "docs")
        self.assertEqual(done.status, 1)
        self.assertIn("/nowhere/vaultctl", done.err)
