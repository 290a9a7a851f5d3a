"""The facts of documents: kept beside them with their lock, found, and shown where the document is."""

from __future__ import annotations

import csv
import hashlib
import json
import os
from pathlib import Path
from typing import Any
from unittest import mock

from tests.office import Done, OfficeTest
from tests.test_years_end import cells_of
from vaultdesk import cards, reading

NOON, NEXT, LATER = "2024-01-15T12:00:00Z", "2024-01-16T12:00:00Z", "2024-03-01T12:00:00Z"
LOCK = ("--until", "2030-01-01", "--mode", "COMPLIANCE")
PERMIT = ("--title", "Permit of use", "--class", "permit", "--sender", "Müller Ltd", "--reference", "A 17")


class Facts(OfficeTest):
    """Settings with a fact that only this office has, and a cache of the test's own."""

    def setUp(self) -> None:
        super().setUp()
        settings = self.written("desk.toml", b'[office]\nfields = ["Box"]\n')
        environment = {"VAULTDESK_SETTINGS": settings, "XDG_CACHE_HOME": str(self.folder / "cache")}
        self.enterContext(mock.patch.dict(os.environ, environment))
        self.file_of_one = self.written("one.txt", b"one")

    def put(self, key: str, *words: str, content: bytes = b"one", at: str = NOON) -> int:
        """Puts a document, and returns its number."""
        done = self.desk("put", "docs", key, self.written("content", content), *words, at=at)
        self.assertEqual(done.status, 0, done.err)
        return int(done.out)

    def asked(self, *words: str, at: str = LATER) -> Any:
        return json.loads(self.done(*words, "--json", at=at))

    def facts(self, key: str, *words: str, at: str = LATER) -> dict[str, str]:
        return dict(self.asked("facts", "docs", key, *words, at=at)["facts"])

    def keys(self, *words: str) -> list[str]:
        return [it["key"] for it in self.asked("find", *words)]


class Kept(Facts):
    def test_they_are_a_document_beside_it_with_its_lock(self) -> None:
        self.put("a", *PERMIT, "--date", "2024-01-10", "--field", "box=12", *LOCK, "--hold")
        facts = json.loads(self.done("get", "docs", "a.facts.json", at=LATER))
        self.assertEqual(facts, {
            "identifier": "a", "title": "Permit of use", "date": "2024-01-10", "class": "permit",
            "creator": "Müller Ltd", "isPartOf": "A 17", "fields": {"Box": "12"},
            "sha256": hashlib.sha256(b"one").hexdigest(),
        })  # fmt: skip
        one, other = (self.asked("info", "docs", it) for it in ("a", "a.facts.json"))
        self.assertEqual([one[it] for it in ("mode", "until", "hold")], [other[it] for it in ("mode", "until", "hold")])
        self.assertEqual((one["mode"], one["hold"]), ("COMPLIANCE", "ON"))
        wanted = {"title": "Permit of use", "date": "2024-01-10", "class": "permit", "sender": "Müller Ltd"}
        wanted |= {"reference": "A 17", "Box": "12"}
        self.assertEqual(self.facts("a"), wanted)
        self.assertEqual({name: one[name] for name in wanted}, wanted)
        self.put("b", at=NEXT)
        self.assertEqual([it["key"] for it in self.asked("ls", "docs")], ["a", "a.facts.json", "b"])
        self.assertNotIn("title", self.asked("info", "docs", "b"))

    def test_a_change_is_a_new_version_and_the_earlier_one_stays(self) -> None:
        self.put("a", *PERMIT, *LOCK)
        done = self.desk("facts", "docs", "a", "--set", "title=Permit", "--set", "sender=", "--set", "Box=3", at=NEXT)
        self.assertEqual((done.status, done.err), (0, "version 3 has them, a.facts.json\n"))
        self.assertEqual(self.facts("a"), {"title": "Permit", "class": "permit", "reference": "A 17", "Box": "3"})
        self.assertIn("Permit of use", self.done("get", "docs", "a.facts.json", "--version", "2", at=LATER))
        lock = self.asked("info", "docs", "a.facts.json")
        self.assertEqual((lock["mode"], lock["until"]), ("COMPLIANCE", "2030-01-01T00:00:00Z"))

    def test_they_are_of_a_content_and_not_of_a_key(self) -> None:
        self.put("a", *PERMIT)
        self.put("a", content=b"two", at=NEXT)
        self.assertEqual(self.facts("a"), {})
        self.assertEqual(self.facts("a", "--version", "1")["title"], "Permit of use")
        self.desk("facts", "docs", "a", "--set", "title=Second", at=NEXT)
        self.assertEqual(self.facts("a")["title"], "Second")
        self.assertEqual(self.facts("a", "--version", "1")["title"], "Permit of use")
        self.assertEqual(self.asked("info", "docs", "a", "--version", "1")["title"], "Permit of use")

    def test_a_lock_that_is_set_later_is_on_both(self) -> None:
        self.put("a", *PERMIT)
        self.put("b", at=NEXT)
        rows = self.asked("hold", "docs", "a", "--case", "M", at=NEXT)
        self.assertEqual([(it["key"], it["version"]) for it in rows], [("a", 1), ("a.facts.json", 2)])
        self.assertEqual(len(self.asked("hold", "docs", "--prefix", "a", at=NEXT)), 2)
        self.assertEqual(len(self.asked("hold", "docs", "b", at=NEXT)), 1)
        self.assertEqual(len(self.asked("release", "docs", "a", "--case", "M", at=NEXT)), 2)
        self.asked("retain", "docs", "a", "--until", "2031-01-01", at=NEXT)
        held = {it["key"]: it for it in self.asked("held")}
        self.assertEqual([held[it]["until"][:4] for it in ("a", "a.facts.json")], ["2031", "2031"])
        listed = self.written("list.csv", b"key\na\na.facts.json\n")
        self.assertEqual(len(self.asked("hold", "docs", "--from", listed, at=NEXT)), 3)
        self.put("a", content=b"two", at=NEXT)
        self.assertEqual(len(self.asked("retain", "docs", "a", "--until", "2032-01-01", at=NEXT)), 1)

    def test_what_cant_be_a_fact_is_refused_before_anything_is_put(self) -> None:
        for words, why in (
            (["put", "docs", "a", self.file_of_one, "--field", "Shelf=1"], "where NAME is one of Box"),
            (["put", "docs", "a", self.file_of_one, "--date", "10.1.2024"], "is no date"),
            (["put", "docs", "x" * 1_014, self.file_of_one, "--title", "T"], "leaves no room for its facts"),
            (["put", "docs", "a.facts.json", self.file_of_one, "--title", "T"], "that of a document's facts"),
            (["facts", "docs", "a", "--set", "titel=T"], "where NAME is one of title, date"),
        ):
            done = self.desk(*words)
            self.assertEqual((done.status, done.out), (2, ""), words)
            self.assertIn(why, done.err)
        self.assertEqual(self.asked("ls", "docs"), [])
        self.put("x" * 1_013, "--title", "T")

    def test_a_field_that_is_another_column_is_refused(self) -> None:
        for name in ("title", "Datei", "bucket"):
            settings = self.written("wrong.toml", f'[office]\nfields = ["{name}"]\n'.encode())
            with mock.patch.dict(os.environ, {"VAULTDESK_SETTINGS": settings}):
                done = self.desk("facts", "docs", "a", "--set", "title=T")
            self.assertEqual(done.status, 2)
            self.assertIn("is the name of a column that is known already", done.err)

    def test_who_may_not_keep_them_learns_that_the_document_is_there(self) -> None:
        bob = {"do": "add-caller", "as": "registrar", "caller": "bob", "dept": "records", "rights": ["put", "get"]}
        self.lines(bob)
        self.put("a", *LOCK)
        done = self.desk("facts", "docs", "a", "--set", "title=T", "--as", "bob", at=NEXT)
        self.assertEqual(done.status, 1)
        self.assertIn("its facts weren't put: AccessDenied right:retain", done.err)


class Delivered(Facts):
    LIST = "File;Key;Title;Date;Sender;File reference;Box\none.txt;a;Permit;2024-01-10;Müller;A 17;12\ntwo.txt;b;;;;;\n"

    def setUp(self) -> None:
        super().setUp()
        self.scans = self.folder / "scans"
        self.scans.mkdir()
        for name in ("one", "two"):
            (self.scans / f"{name}.txt").write_bytes(name.encode())

    def deliver(self, listed: str, *words: str, at: str = NOON) -> Done:
        path = self.written("list.csv", listed.encode())
        given = ["deliver", str(self.scans), "--bucket", "docs", "--batch", "B".lower(), "--inventory", path]
        return self.desk(*given, "--until", "2031-01-01", *words, at=at)

    def test_a_row_with_facts_has_them_kept_and_one_without_hasnt(self) -> None:
        done = self.deliver(self.LIST, "--yes")
        self.assertEqual(done.status, 0, done.err)
        self.assertIn("1 of them have their facts beside them", done.out)
        wanted = {"title": "Permit", "date": "2024-01-10", "sender": "Müller", "reference": "A 17", "Box": "12"}
        self.assertEqual((self.facts("a"), self.facts("b")), (wanted, {}))
        held = {it["key"]: (it["retention"], it["until"]) for it in self.asked("held")}
        self.assertEqual(len(held), 3)
        self.assertEqual(set(held.values()), {("GOVERNANCE", "2031-01-01T00:00:00Z")})

    def test_given_again_nothing_is_taken_in_twice(self) -> None:
        self.deliver(self.LIST, "--yes")
        done = self.deliver(self.LIST, "--yes", "--json", at=NEXT)
        self.assertEqual((done.status, json.loads(done.out)["with_facts"]), (0, 1))
        self.assertEqual(len(self.asked("ls", "docs")), 3)

    def test_what_an_intake_that_broke_off_left_out_is_taken_in_then(self) -> None:
        with mock.patch("vaultdesk.deliveries._facts_in", side_effect=KeyboardInterrupt):
            self.assertEqual(self.deliver(self.LIST, "--yes").status, 1)
        self.assertEqual(self.facts("a"), {})
        self.assertEqual(self.deliver(self.LIST, "--yes", at=NEXT).status, 0)
        self.assertEqual(self.facts("a")["title"], "Permit")

    def test_other_facts_of_a_row_that_came_before_are_refused(self) -> None:
        self.deliver(self.LIST, "--yes")
        done = self.deliver(self.LIST.replace("Permit", "Deed"), "--yes", at=NEXT)
        self.assertEqual(done.status, 1)
        self.assertIn("vaultdesk facts --set changes them", done.out)
        self.assertIn("the facts of 1 rows were refused", done.err)
        self.assertEqual(self.facts("a")["title"], "Permit")

    def test_the_plan_has_them(self) -> None:
        done = self.deliver(self.LIST, "--dry-run", "--csv", str(self.folder / "plan.csv"))
        heads = ["row", "file", "key", "class", "date", "title", "sender", "reference", "Box", "mode", "end", "size"]
        heads += ["note"]
        self.assertEqual(done.out.split("\n")[0].split(), heads)
        with (self.folder / "plan.csv").open(encoding="utf-8", newline="") as file:
            rows = list(csv.DictReader(file))
        self.assertEqual([(it["title"], it["Box"]) for it in rows], [("Permit", "12"), ("", "")])

    def test_a_key_that_leaves_no_room_for_them_is_wrong(self) -> None:
        long = "k" * 1_014
        done = self.deliver(f"File;Key;Title\none.txt;{long};Permit\ntwo.txt;{long};\n", "--dry-run", "--json")
        found = json.loads(done.out)["findings"]
        self.assertEqual([it["wrong"][:30] for it in found], ["its key has more than 1,013 by", ""])

    def test_batches_of_facts_have_names_of_their_own(self) -> None:
        long = "b" * 64
        names = {cards.batch_of(it) for it in ("a", long, long[:-1] + "c", "b" * 58)}
        self.assertEqual((len(names), max(map(len, names))), (4, 64))


class Found(Facts):
    def setUp(self) -> None:
        super().setUp()
        self.put("a", *PERMIT, "--date", "2023-05-01", "--field", "Box=12")
        self.put("b/1", "--title", "PERMIT, second", "--class", "deed", "--sender", "Schmidt", at=NEXT)
        self.put("c", at=NEXT)

    def test_by_each_fact_and_without_the_case_of_letters(self) -> None:
        for words, keys in (
            (["--title", "permit"], ["a", "b/1"]),
            (["--title", "of USE"], ["a"]),
            (["--title", "permit", "--class", "Deed"], ["b/1"]),
            (["--class", "dee"], []),
            (["--sender", "MÜLLER"], ["a"]),
            (["--sender", "m", "--reference", "a 1"], ["a"]),
            (["--title", "permit", "--since", "2024-01-16"], ["b/1"]),
            (["--title", "permit", "--before", "2024-01-16"], ["a"]),
            (["--title", "permit", "--prefix", "b/"], ["b/1"]),
            (["/1", "--title", "permit"], ["b/1"]),
            (["-i", "B/", "--title", "permit"], ["b/1"]),
            (["--dated-since", "2023-05-01"], ["a"]),
            (["--dated-since", "2023-05-02"], []),
            (["--dated-before", "2023-05-02"], ["a"]),
            (["--dated-before", "2023-05-01"], []),
            (["--field", "box=2"], ["a"]),
            (["--field", "box=3"], []),
            (["--title", "permit", "--bucket", "nowhere"], []),
            (["--title", "permit", "--sha256", hashlib.sha256(b"one").hexdigest()[:8]], ["a", "b/1"]),
            (["--title", "permit", "--sha256", "00000000"], []),
        ):
            self.assertEqual(self.keys(*words), keys, words)

    def test_what_was_removed_is_found_too_unless_asked(self) -> None:
        self.lines({"do": "delete-version", "bucket": "docs", "key": "a", "id": 1}, at=LATER)
        self.assertEqual(self.keys("--title", "permit"), ["a", "b/1"])
        self.assertEqual(self.keys("--title", "permit", "--held"), ["b/1"])
        self.assertEqual(self.keys("--title", "permit", "--removed"), ["a"])

    def test_the_index_is_made_anew_where_it_is_old_and_else_used(self) -> None:
        self.assertEqual(len(self.keys("--title", "permit")), 2)
        with mock.patch.object(reading, "make", side_effect=AssertionError("it isn't old")):
            self.assertEqual(len(self.keys("--title", "permit")), 2)
        self.put("d", "--title", "A third permit", at=LATER)
        self.assertEqual(len(self.keys("--title", "permit")), 3)
        [index] = (self.folder / "cache" / "vaultdesk").iterdir()
        self.assertEqual((index.stat().st_mode & 0o777, index.parent.stat().st_mode & 0o777), (0o600, 0o700))
        index.write_bytes(b"no index")
        self.assertEqual(len(self.keys("--title", "permit")), 3)

    def test_where_no_index_can_be_kept_it_is_found_all_the_same(self) -> None:
        (self.folder / "file").touch()
        with mock.patch.dict(os.environ, {"XDG_CACHE_HOME": str(self.folder / "file")}):
            done = self.desk("find", "--title", "permit", "--json", at=LATER)
        self.assertEqual((done.status, len(json.loads(done.out))), (0, 2))
        self.assertIn("no index is kept", done.err)

    def test_it_is_printed_with_what_was_found(self) -> None:
        out = self.done("find", "--title", "second", at=LATER)
        self.assertEqual([it.split() for it in out.splitlines()], [
            ["version", "bucket", "class", "title", "sender", "key"],
            ["3", "docs", "deed", "PERMIT,", "second", "Schmidt", "b/1"],
        ])  # fmt: skip
        rows = list(csv.DictReader(self.done("find", "--class", "deed", "--csv", at=LATER).splitlines()))
        self.assertEqual([(it["version"], it["title"]) for it in rows], [("3", "PERMIT, second")])
        self.assertIn("nothing was found that has such facts", self.desk("find", "--title", "none", at=LATER).err)


class Shown(Facts):
    def setUp(self) -> None:
        super().setUp()
        self.put("a", "--title", "A <permit>", "--sender", "Müller", "--field", "Box=12")
        self.put("b", content=b"two", at=NEXT)

    def remove(self) -> None:
        self.lines(
            {"do": "delete-version", "bucket": "docs", "key": "a", "id": 1},
            {"do": "delete-version", "bucket": "docs", "key": "b", "id": 3}, at=NEXT,
        )  # fmt: skip

    def test_on_the_page_for_a_court(self) -> None:
        found = self.asked("answer", "1")
        self.assertEqual(found["facts"], {"title": "A <permit>", "sender": "Müller", "Box": "12"})
        self.assertNotIn("facts", self.asked("answer", "3"))
        self.assertIn("What the office noted of it\n", self.done("answer", "1", at=LATER))

    def test_beside_certificates_and_in_the_register(self) -> None:
        self.remove()
        self.done("certificates", str(self.folder / "out"), at=LATER)
        page = (self.folder / "out" / "certificates.html").read_text(encoding="utf-8")
        self.assertEqual(page.count("<th>title</th><td>A &lt;permit&gt;</td>"), 1)
        sheet = self.folder / "register.xlsx"
        self.done("register", "--xlsx", str(sheet), at=LATER)
        cells, _ = cells_of(sheet)
        self.assertEqual([cells[it] for it in ("M1", "N1", "O1", "M2", "N2", "O2")], [
            "title", "sender", "Box", "A <permit>", "Müller", "12"])  # fmt: skip
        self.assertNotIn("M3", cells)
        self.assertNotIn("title", self.done("register", at=LATER))

    def test_on_the_page_of_the_vault(self) -> None:
        path = self.folder / "page.html"
        self.remove()
        self.done("page", str(self.file), str(path), at=LATER)
        self.assertIn("A &lt;permit&gt;", path.read_text(encoding="utf-8"))

    def test_in_the_list_of_an_export_and_not_as_files(self) -> None:
        out = self.folder / "out"
        self.done("export", "docs", str(out), "--names", at=LATER)
        self.assertEqual(sorted(it.name for it in out.iterdir()), ["a", "b", "documents.csv", "documents.xlsx"])
        with (out / "documents.csv").open(encoding="utf-8", newline="") as file:
            rows = list(csv.DictReader(file))
        facts = [(it["key"], it["title"], it["Box"]) for it in rows]
        self.assertEqual(facts, [("a", "A <permit>", "12"), ("b", "", "")])
        self.lines({"do": "add-bucket", "as": "registrar", "bucket": "more", "dept": "records"}, at=LATER)
        words = ["--bucket", "more", "--batch", "x", "--inventory", str(out / "documents.csv"), "--yes"]
        done = self.desk("deliver", str(out), *words, at=LATER)
        self.assertEqual(done.status, 0, done.err)
        self.assertEqual(self.asked("facts", "more", "a")["facts"], self.facts("a"))
        self.assertEqual(Path(out / "a").read_bytes(), b"one")
