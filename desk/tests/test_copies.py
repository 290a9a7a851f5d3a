"""Which copies of a vault are where, and whether there are enough; numbers for programs that watch machines."""

from __future__ import annotations

import json
import re
import time
from typing import Any

from tests.machine import MachineTest
from tests.served import ServedTest


class Copies(MachineTest):
    def setUp(self) -> None:
        super().setUp()
        self.lines({"do": "put", "bucket": "docs", "key": "a", "text": "hello"})
        self.done("backup", str(self.file), str(self.copies), at=None)
        self.lines({"do": "put", "bucket": "docs", "key": "b", "text": "hello"})
        self.lines({"do": "delete-version", "bucket": "docs", "key": "a", "id": 1}, at="2024-01-16T10:00:00Z")
        time.sleep(1.1)  # a copy's name has its second
        self.done("backup", str(self.file), str(self.copies), at=None)

    def found(self, *words: str) -> dict[str, Any]:
        found: dict[str, Any] = json.loads(self.desk("copies", "--json", "records", *words, at=None).out)
        return found

    def test_the_newest_is_first_and_each_says_how_far_it_goes(self) -> None:
        found = self.found("--version", "1")
        last = [(it["entries"], it["last change"], it["version"], it["days old"]) for it in found["copies"]]
        wanted = [(2, "2024-01-16T10:00:00Z", "removed", 0), (1, "2024-01-15T09:00:00Z", "held", 0)]
        self.assertEqual((last, found["count"]), (wanted, 1))
        self.assertEqual([it["version"] for it in self.found("--version", "2")["copies"]], ["held", "absent"])
        self.assertNotIn(".vault-shm", {it.suffix for it in self.made()})

    def test_too_few_are_a_failure(self) -> None:
        for words, status in ((["--least", "2"], 0), (["--least", "3"], 1), (["--least", "2", "--version", "1"], 1)):
            self.assertEqual(self.desk("copies", "records", *words, at=None).status, status, words)

    def test_what_isnt_sound_doesnt_count(self) -> None:
        older, newer = (it for it in self.made() if it.suffix == ".vault")
        newer.write_bytes(b"x" * 5_000)
        older.rename(f"{older}.damaged")
        found = self.found("--audit")
        self.assertEqual(found["count"], 0)
        self.assertEqual([it["state"] for it in found["copies"]][1:], ["damaged"])
        self.assertIn("can't be read", found["copies"][0]["state"])

    def test_a_folder_more_and_one_that_isnt_there(self) -> None:
        self.assertEqual(self.found(str(self.copies), str(self.folder))["count"], 2)
        done = self.desk("copies", "records", str(self.folder / "none"), at=None)
        self.assertEqual((done.status, done.out), (1, ""))


class Metrics(ServedTest):
    def numbers(self, status: int = 0) -> dict[str, int]:
        """The numbers by their names and labels, as Prometheus reads them."""
        done = self.desk("metrics", "records", at=None)
        self.assertEqual(done.status, status, done.err)
        told = done.out
        for line in told.splitlines():
            self.assertRegex(line, r'^(# (HELP|TYPE) vault_\w+ .+|vault_\w+\{(\w+="[^"]*",?)+\} \d+)$')
        return {name: int(value) for name, value in re.findall(r"^(vault_\S+) (\d+)$", told, re.M)}

    def test_they_are_those_of_the_vault(self) -> None:
        put = {"do": "put", "bucket": "docs", "text": "hello"}
        self.lines({**put, "key": "a"}, {**put, "key": "b", "hold": "ON"}, {**put, "key": "c"})
        self.lines({"do": "delete-version", "bucket": "docs", "key": "c", "id": 3})
        found = self.numbers()
        self.assertEqual(found['vault_held_bytes{vault="records",department="records"}'], 10)
        self.assertEqual(found['vault_documents{vault="records",department="records",bucket="docs"}'], 2)
        self.assertEqual(found['vault_legal_holds{vault="records"}'], 1)
        self.assertEqual(found['vault_removed_total{vault="records",cause="request"}'], 1)
        self.assertEqual(found['vault_serves{vault="records"}'], 0)
        self.assertEqual(found['vault_copies{vault="records"}'], 0)

    def test_while_it_is_served(self) -> None:
        self.serve()
        self.configure(PORT=str(self.port))
        self.done("put", "docs", "a", self.written("a", b"x"), at=None)
        self.done("backup", "records", at=None)
        found = self.numbers()
        self.assertEqual((found['vault_serves{vault="records"}'], found['vault_copies{vault="records"}']), (1, 1))
        self.assertLess(abs(found['vault_newest_copy_seconds{vault="records"}'] - time.time()), 60)

    def test_one_that_refuses_changes_serves_nobody(self) -> None:
        self.serve()
        self.configure(PORT=str(self.port))
        found = self.numbers()
        failures, moved = 'vault_failures{vault="records"}', 'vault_moved_files{vault="records"}'
        self.assertEqual((found[failures], found[moved]), (0, 0))
        away = self.file.with_name("away")
        self.file.rename(away)
        self.assertIn("Device", self.desk("put", "docs", "a", self.written("a", b"x"), at=None).err)
        found = self.numbers(status=1)  # the tables can't be read
        self.assertEqual((found[failures], found[moved]), (1, 1))
        self.assertEqual(found['vault_serves{vault="records"}'], 0)
        self.assertNotIn('vault_legal_holds{vault="records"}', found)
        away.rename(self.file)
        found = self.numbers()
        self.assertEqual((found['vault_serves{vault="records"}'], found[moved]), (0, 0))
        self.assertEqual(found['vault_legal_holds{vault="records"}'], 0)

    def lasts(self) -> dict[str, int]:
        """When each part of the night was last done."""
        return {it: value for it, value in self.numbers().items() if re.match("vault_last_(?!change)", it)}

    def test_when_each_part_of_a_night_was_last_done(self) -> None:
        self.assertEqual(self.lasts(), {})
        before = int(time.time())
        self.done("night", "--clock-is-right", "records", at=None)
        first = self.lasts()
        parts = {f'vault_last_{it}_seconds{{vault="records"}}' for it in ("night", "copy", "audit", "seal")}
        self.assertEqual(first.keys(), parts)
        for it in first.values():
            self.assertLessEqual(before, it)
            self.assertLessEqual(it, time.time())
        time.sleep(1.1)  # a moment has its second
        self.configure(BACKUP="/dev/null/none")
        self.assertEqual(self.desk("night", "--clock-is-right", "records", at=None).status, 1)
        changed = {it for it, value in self.lasts().items() if value != first[it]}
        self.assertEqual(changed, {'vault_last_seal_seconds{vault="records"}'})
