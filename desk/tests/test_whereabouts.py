"""Where a document's bytes are still: the vault, its copies, what restores, journals and a standby left; keys' form."""

from __future__ import annotations

import json
import os
import shutil
from pathlib import Path
from typing import Any
from unittest import mock

from tests.machine import MachineTest
from tests.office import OfficeTest
from tests.served import ServedTest, started

HAS, MAY, NONE, UNKNOWN = "has them", "may have them", "has none", "isn't known"


class Where(MachineTest):
    def setUp(self) -> None:
        super().setUp()
        self.before = self.copied("before")
        put = {"do": "put", "bucket": "docs", "text": "Dear Sir"}
        self.lines({**put, "key": "a"}, {**put, "key": "b"}, {**put, "key": "c", "text": "Another"})
        self.with_both = self.copied("with-both")
        for number, key in ((1, "a"), (2, "b")):
            gone = {"do": "delete-version", "bucket": "docs", "key": key, "id": number}
            self.lines(gone, at="2024-01-16T10:00:00Z")

    def copied(self, name: str) -> Path:
        """A copy of the vault's files in a folder of its own."""
        made = self.folder / name
        made.mkdir()
        for it in ("", "-wal"):
            shutil.copy(f"{self.file}{it}", made / f"{self.file.name}{it}")
        return made

    def found(self, *words: str, status: int = 0) -> dict[str, tuple[str, str]]:
        """What each place has, by its path from the test's folder on, and in which versions."""
        done = self.desk("where", *words, "--json", at="2024-01-17")
        self.assertEqual(done.status, status, done.err)
        [it] = json.loads(done.out)
        rows: list[dict[str, Any]] = it["places"]
        return {row["place"].removeprefix(f"{self.folder}/"): (row["bytes"], row["versions"]) for row in rows}

    def laid(self, name: str, made: Path) -> str:
        """A copy under a name of its own, and that name."""
        place = self.folder / name
        place.parent.mkdir(parents=True, exist_ok=True)
        for it in ("", "-wal"):
            shutil.copy(made / f"{self.file.name}{it}", f"{place}{it}")
        return name

    def test_the_vault_itself_and_the_same_content_under_another_key(self) -> None:
        self.assertEqual(self.found("3"), {"records.vault": (HAS, "3")})
        self.assertEqual(self.found("1"), {"records.vault": (MAY, "1 2")})
        self.lines({"do": "put", "bucket": "docs", "key": "d", "text": "Dear Sir"}, at="2024-01-16T11:00:00Z")
        self.assertEqual(self.found("1"), {"records.vault": (HAS, "4")})

    def test_each_copy_has_its_state(self) -> None:
        names = {
            self.laid("copies/records-20240114T000000Z.vault", self.before): (NONE, ""),
            self.laid("copies/records-20240115T000000Z.vault", self.with_both): (HAS, "1 2"),
            self.laid("copies/records-20240116T000000Z.vault", self.copied("now")): (MAY, "1 2"),
            self.laid("copies/records-20240117T000000Z.vault.damaged", self.with_both): (HAS, "1 2"),
            self.laid("usb/records-20240118T000000Z.vault", self.with_both): (HAS, "1 2"),
        }
        self.laid("copies/other-20240115T000000Z.vault", self.with_both)
        found = self.found("2", "--folder", str(self.folder / "usb"))
        self.assertEqual(found, {"records.vault": (MAY, "1 2"), **names})
        self.assertEqual([it for it in self.copies.iterdir() if it.name.endswith("-shm")], [])
        self.assertEqual(set(self.found("2")), {it for it in found if not it.startswith("usb/")})

    def test_what_a_restore_a_journal_and_a_standby_left(self) -> None:
        names = {
            self.laid("records-20240116T100000Z.replaced/records.vault", self.with_both): (HAS, "1 2"),
            self.laid("records.vault.restored", self.with_both): (HAS, "1 2"),
            self.laid("records.journals/20240114T000000Z/records.vault", self.before): (NONE, ""),
            self.laid("records.standby/20240115T000000Z/records.vault", self.with_both): (HAS, "1 2"),
        }
        self.laid("other-20240116T100000Z.replaced/records.vault", self.with_both)
        (self.folder / "records.journals" / "now").symlink_to("20240114T000000Z")
        journal = self.folder / "records.journals" / "20240114T000000Z" / "journal"
        lines = [{"do": "put", "hex": b"Another".hex()}, {"do": "delete-version"}]
        lines.append({"do": "intake", "hex": b"Dear Sir".hex()})
        for count, state in ((2, NONE), (3, HAS)):
            journal.write_text("".join(json.dumps(it) + "\n" for it in lines[:count]) + '{"do":"put","hex":"4')
            here = {"records.vault": (MAY, "1 2"), str(journal.relative_to(self.folder)): (state, "")}
            self.assertEqual(self.found("1"), {**here, **names})

    def test_of_a_second_machine_nothing_is_known(self) -> None:
        self.configure(STANDBY="second.example.org")
        there = f"second.example.org: {self.folder}/records.standby: ask there"
        self.assertEqual(self.found("1"), {"records.vault": (MAY, "1 2"), there: (UNKNOWN, "")})

    def test_a_file_that_cant_be_read_may_have_them(self) -> None:
        name = self.laid("copies/records-20240115T000000Z.vault", self.with_both)
        (self.folder / name).write_bytes(b"nothing of SQLite")
        done = self.desk("where", "1", at="2024-01-17")
        self.assertEqual(done.status, 1)
        self.assertIn("1 files can't be read, and may have them", done.err)
        self.assertRegex(done.out, f"isn't known +copy +{self.folder / name}: it can't be read: ")

    def test_a_key_means_all_that_it_ever_had(self) -> None:
        self.lines({"do": "put", "bucket": "docs", "key": "3", "text": "Newer"},
                   {"do": "put", "bucket": "docs", "key": "a", "text": "Newest"}, at="2024-01-16T11:00:00Z")
        done = self.done("where", "docs", "a", at="2024-01-17")
        self.assertRegex(done, r"(?m)^version 1, removed 2024-01-16T10:00:00Z, docs: a\nsha256 [0-9a-f]{64}\n")
        self.assertRegex(done, r"(?m)^version 5, held, docs: a\nsha256 [0-9a-f]{64}\nbytes +kind")
        last = "Not looked at: what was exported, printed, mailed or copied otherwise, as no vault knows of that.\n"
        self.assertTrue(done.endswith(last))
        # A key counts before a number.
        self.assertIn("version 4, held, docs: 3\n", self.done("where", "docs", "3", at="2024-01-17"))
        self.assertIn("version 2, removed", self.done("where", "docs", "2", at="2024-01-17"))

    def test_what_never_had_a_content(self) -> None:
        self.lines({"do": "delete", "bucket": "docs", "key": "c"}, at="2024-01-16T11:00:00Z")
        for words in (["4"], ["9"], ["docs", "none"], ["other", "a"], ["other", "1"]):
            done = self.desk("where", *words, at="2024-01-17")
            self.assertEqual((done.status, done.out), (1, ""))
            self.assertIn("the vault never had such a document", done.err)
        done = self.desk("where", "docs", at="2024-01-17")
        self.assertEqual(done.status, 2)
        self.assertIn("'docs' is no version's number: give one, or BUCKET and KEY", done.err)


class Served(ServedTest):
    def test_a_vault_that_is_served_and_a_copy_that_a_program_has(self) -> None:
        self.lines({"do": "put", "bucket": "docs", "key": "a", "text": "Dear Sir"})
        self.done("backup", str(self.file), str(self.copies), at=None)
        self.serve()
        [copy] = [it for it in self.made() if it.suffix == ".vault"]
        started(self, copy, str(self.folder / "other-lines"))
        rows = json.loads(self.done("where", "1", "--json", at=None))[0]["places"]
        self.assertEqual([(it["bytes"], it["place"]) for it in rows], [(HAS, str(self.file)), (HAS, str(copy))])


class Keys(OfficeTest):
    def setUp(self) -> None:
        super().setUp()
        path = self.written("settings.toml", b'[keys]\npattern = "[0-9]{4}/[0-9]+(\\\\.pdf)?|lists/.*"\n')
        self.enterContext(mock.patch.dict(os.environ, {"VAULTDESK_SETTINGS": path}))
        self.path = self.written("a.txt", b"x")

    def test_a_key_with_a_name_isnt_put(self) -> None:
        for key in ("2024/Miller.pdf", "2024/17.pdf.bak", "x2024/17"):
            done = self.desk("put", "docs", key, self.path)
            self.assertEqual((done.status, done.out), (2, ""))
            self.assertIn(f"the key {key!r} isn't of the form [0-9]{{4}}/[0-9]+", done.err)
            self.assertIn("keys stay for ever, so give one without names of persons: nothing was put", done.err)
        self.done("put", "docs", "2024/17.pdf", self.path)
        self.assertEqual([it["key"] for it in json.loads(self.done("ls", "docs", "--json"))], ["2024/17.pdf"])

    def test_a_row_with_such_a_key_is_wrong(self) -> None:
        scans = self.folder / "scans"
        scans.mkdir()
        (scans / "a.txt").write_bytes(b"x")
        (scans / "b.txt").write_bytes(b"y")
        listed = self.written("list.csv", b"file,key\na.txt,2024/1\nb.txt,Miller\n")
        words = ("deliver", str(scans), "--bucket", "docs", "--batch", "b", "--inventory", listed, "--yes")
        done = self.desk(*words)
        self.assertEqual(done.status, 1)
        self.assertRegex(done.out, r"(?m)^ *3 +b\.txt +the key 'Miller' isn't of the form")
        self.assertEqual(json.loads(self.done("ls", "docs", "--json")), [])
        done = self.desk(*words, "--leave-out", "--keep-inventory", "Miller.csv")
        self.assertEqual(done.status, 2)
        self.assertEqual(self.desk(*words, "--leave-out", "--keep-inventory", "lists/1.csv").status, 0)
        keys = [it["key"] for it in json.loads(self.done("ls", "docs", "--json"))]
        self.assertEqual(keys, ["2024/1", "lists/1.csv"])

    def test_the_pages_pattern_is_one(self) -> None:
        page = (Path(__file__).resolve().parents[2] / "docs" / "PRIVACY.md").read_text(encoding="utf-8")
        self.written("settings.toml", page.partition("```\n")[2].partition("```")[0].encode())
        self.done("put", "docs", "2025/002", self.path)
        self.done("put", "docs", "2025/002.pdf", self.path)
        self.assertEqual(self.desk("put", "docs", "2025/002 Miller", self.path).status, 2)

    def test_a_pattern_that_is_none(self) -> None:
        for text, why in ((b'[keys]\npattern = "["\n', "no regular expression"), (b"keys = 1\n", "[keys] is a table"),
                          (b"[keys]\npattern = 1\n", "pattern is no text")):
            self.written("settings.toml", text)
            done = self.desk("put", "docs", "2024/1", self.path)
            self.assertEqual(done.status, 2)
            self.assertIn(why, done.err)
