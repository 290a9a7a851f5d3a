"""Legal holds by the name of a case."""

from __future__ import annotations

import csv
import io
import json
from typing import Any
from unittest import mock

from tests.office import OfficeTest

KEYS = ("2024/a", "2024/b", "2025/c")
LATER = "2024-01-15T11:00:00Z"
CASE = 'Miller 17, "the ring"; Müller'


class Full(io.FileIO):
    """A file on a disk that has room for five bytes more."""

    def write(self, content: Any, /) -> int:
        return super().write(bytes(content)[:5])


class OfCases(OfficeTest):
    def setUp(self) -> None:
        super().setUp()
        rights = ["get", "hold", "list"]
        gov = {"do": "add-caller", "as": "registrar", "caller": "gov", "dept": "records", "rights": rights}
        self.lines(gov, *({"do": "put", "bucket": "docs", "key": it, "text": it} for it in KEYS))
        self.file_of_cases = self.folder / "records.cases"

    def holds(self) -> list[str]:
        asked = {"do": "get-hold", "bucket": "docs"}
        lines = ({**asked, "key": key, "id": n} for n, key in enumerate(KEYS, start=1))
        return [it["ok"]["hold"] for it in self.lines(*lines, at=LATER)]

    def noted(self) -> list[dict[str, Any]]:
        with self.file_of_cases.open(encoding="utf-8", newline="") as file:
            return list(csv.DictReader(file))

    def test_a_case_is_noted_with_who_and_what_the_lock_was(self) -> None:
        self.done("retain", "docs", "2024/a", "--until", "2030-01-01")
        self.done("hold", "docs", "--prefix", "2024/", "--case", CASE, "--as", "gov")
        wanted = [
            ("2024-01-15T10:00:00Z", "gov", CASE, "hold", "docs", "2024/a", "1",
             "GOVERNANCE until 2030-01-01T00:00:00Z, hold OFF"),
            ("2024-01-15T10:00:00Z", "gov", CASE, "hold", "docs", "2024/b", "2", "no retention, hold OFF"),
        ]
        self.assertEqual([tuple(it.values()) for it in self.noted()], wanted)
        self.assertEqual(self.file_of_cases.stat().st_mode & 0o777, 0o600)

    def test_a_case_is_released_by_its_name_and_nothing_else_is(self) -> None:
        self.done("hold", "docs", "2025/c")
        self.done("hold", "docs", "--prefix", "2024/", "--case", CASE)
        self.lines({"do": "put", "bucket": "docs", "key": "2024/a", "text": "newer", "hold": "ON"}, at=LATER)
        rows = json.loads(self.done("release", "--case", CASE, "--as", "gov", "--json", at=LATER))
        self.assertEqual([(it["bucket"], it["key"], it["version"]) for it in rows],
                         [("docs", "2024/a", 1), ("docs", "2024/b", 2)])
        self.assertEqual(self.holds(), ["OFF", "OFF", "ON"])
        [newer] = self.lines({"do": "get-hold", "bucket": "docs", "key": "2024/a"}, at=LATER)
        self.assertEqual(newer["ok"]["hold"], "ON")
        lifted = [(it["by"], it["done"], it["version"], it["was"][-2:]) for it in self.noted()[2:]]
        self.assertEqual(lifted, [("gov", "release", "1", "ON"), ("gov", "release", "2", "ON")])
        done = self.desk("release", "--case", CASE)
        self.assertEqual(done.status, 1)
        self.assertIn("nothing on hold", done.err)

    def test_what_another_case_has_on_hold_stays_so(self) -> None:
        self.done("hold", "docs", "--prefix", "2024/", "--case", "one")
        self.done("hold", "docs", "2024/b", "--case", "two")
        rows = json.loads(self.done("release", "--case", "one", "--json"))
        self.assertEqual([it["is"] for it in rows],
                         ["no retention, hold OFF", "no retention, hold ON: still for case 'two'"])
        self.assertEqual(self.holds(), ["OFF", "ON", "OFF"])
        self.done("release", "--case", "two")
        self.assertEqual(self.holds(), ["OFF", "OFF", "OFF"])

    def test_a_dry_run_of_a_release_notes_nothing(self) -> None:
        for case in ("one", "two"):
            self.done("hold", "docs", "2024/a", "--case", case)
        self.done("hold", "docs", "2025/c", "--case", "one")
        self.lines({"do": "set-hold", "bucket": "docs", "key": "2025/c", "id": 3, "hold": "OFF"},
                   {"do": "delete-version", "bucket": "docs", "key": "2025/c", "id": 3}, at="2024-01-15T10:00:00Z")
        before = self.file_of_cases.read_bytes()
        rows = json.loads(self.done("release", "--case", "one", "--dry-run", "--json"))
        told = ["would be: no retention, hold ON: still for case 'two'", "not held any more"]
        self.assertEqual([it["is"] for it in rows], told)
        self.assertEqual(self.file_of_cases.read_bytes(), before)

    def test_a_hold_of_a_case_isnt_lifted_without_its_name(self) -> None:
        self.done("hold", "docs", "2024/a", "--case", "one")
        self.done("hold", "docs", "2024/b")
        unnamed: list[list[str]] = [[], ["--case", "two"]]
        for words in unnamed:
            done = self.desk("release", "docs", "--prefix", "2024/a", *words)
            self.assertEqual(done.status, 1, words)
            self.assertIn("case", done.out)
        self.assertEqual(self.holds(), ["ON", "ON", "OFF"])
        self.done("release", "docs", "2024/b")
        self.assertEqual(self.holds(), ["ON", "OFF", "OFF"])

    def test_a_refusal_is_no_note(self) -> None:
        done = self.desk("hold", "docs", "--prefix", "2024/", "--case", "one", "--as", "gov", at="2024-01-15T08:00:00Z")
        self.assertEqual(done.status, 1)
        listed = self.written("list.csv", b"key\n2024/a\nnowhere\n2024/b\n")
        done = self.desk("hold", "docs", "--from", listed, "--case", "one")
        self.assertEqual(done.status, 1)
        self.assertEqual([it["version"] for it in self.noted()], ["1", "2"])
        eve = {"do": "add-caller", "as": "registrar", "caller": "eve", "dept": "records", "rights": ["get"]}
        self.lines(eve, at=LATER)
        done = self.desk("release", "--case", "one", "--as", "eve", at=LATER)
        self.assertEqual(done.status, 1)
        self.assertIn("right hold", done.out)
        self.assertEqual(self.holds(), ["ON", "ON", "OFF"])
        self.assertEqual(len(self.noted()), 2)

    def test_what_the_vault_holds_no_more_is_released(self) -> None:
        self.done("hold", "docs", "--prefix", "2024/", "--case", "one")
        self.lines({"do": "set-hold", "bucket": "docs", "key": "2024/a", "id": 1, "hold": "OFF"},
                   {"do": "delete-version", "bucket": "docs", "key": "2024/a", "id": 1}, at="2024-01-15T10:00:00Z")
        overview = json.loads(self.done("cases", "--json"))
        self.assertEqual([(it["case"], it["on hold"], it["lifted elsewhere"]) for it in overview], [("one", 2, 1)])
        rows = json.loads(self.done("release", "--case", "one", "--json"))
        self.assertEqual([it["is"] for it in rows], ["not held any more", "no retention, hold OFF"])
        self.assertEqual(json.loads(self.done("cases", "--json"))[0]["on hold"], 0)

    def test_the_records_of_a_case_are_listed(self) -> None:
        self.done("hold", "docs", "2024/a", "--case", "one")
        self.done("hold", "docs", "2025/c", "--case", "two")
        rows = json.loads(self.done("cases", "two", "--json"))
        self.assertEqual([(it["key"], it["by"], it["now"]) for it in rows], [("2025/c", "ann", "ON")])
        done = self.desk("cases", "three")
        self.assertEqual((done.status, done.out), (1, ""))

    def test_a_file_of_cases_that_isnt_one_stops_before_any_change(self) -> None:
        self.done("hold", "docs", "2025/c", "--case", "one")
        good = self.file_of_cases.read_text(encoding="utf-8")
        cut, other, three = good + "cut\n", good.replace(",hold,", ",holt,"), good.replace(",3,", ",three,")
        for wrong in ("case,version\n", cut, other, three):
            self.file_of_cases.write_text(wrong, encoding="utf-8")
            for words in (["hold", "docs", "2024/a", "--case", "two"], ["release", "docs", "2025/c"], ["cases"]):
                done = self.desk(*words)
                self.assertEqual((done.status, done.out), (1, ""), (wrong, words))
            self.assertEqual(self.file_of_cases.read_text(encoding="utf-8"), wrong)
        self.assertEqual(self.holds(), ["OFF", "OFF", "ON"])

    def test_a_name_that_cant_be_seen_is_refused(self) -> None:
        for name in ("", "  ", "a\nb", "a\u202eb"):
            self.assertEqual(self.desk("hold", "docs", "2024/a", "--case", name).status, 2, name)
        self.assertEqual(self.holds(), ["OFF", "OFF", "OFF"])

    def test_a_disk_that_is_full_is_said_and_leaves_whole_records(self) -> None:
        self.done("hold", "docs", "2024/a", "--case", "one")
        before = self.file_of_cases.read_bytes()
        with mock.patch("vaultdesk.cases.open", lambda file, *_, **__: Full(file, "ab"), create=True):
            done = self.desk("hold", "docs", "--prefix", "2024/b", "--case", "one")
        self.assertEqual((done.status, done.out), (1, ""))
        self.assertIn("version 2 has its hold changed (hold), which isn't noted for 'one'", done.err)
        self.assertEqual((self.file_of_cases.read_bytes(), self.holds()), (before, ["ON", "ON", "OFF"]))

    def test_a_file_that_cant_be_written_stops_before_any_change(self) -> None:
        self.file_of_cases.mkdir()
        done = self.desk("hold", "docs", "2024/a", "--case", "one")
        self.assertEqual((done.status, done.out), (1, ""))
        self.assertEqual(self.holds(), ["OFF", "OFF", "OFF"])
