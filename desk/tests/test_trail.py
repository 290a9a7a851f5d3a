"""A log of requests that is taken into the vault."""

from __future__ import annotations

import datetime as dt
import json
import re
import unittest

from tests.machine import MachineTest
from vaultdesk import trail

JOURNALCTL = """#!/bin/sh
echo "$*" > "$MACHINE/journal"
echo "2024-01-14T08:00:00+00:00 ann GET /docs/a 403"
"""


class Pieces(unittest.TestCase):
    def test_each_ends_with_a_line_and_none_is_too_long(self) -> None:
        for content in (b"", b"x" * 3_000_000, b"line\n" * 500_000, b"x" * 1_048_576 + b"\n" + b"y" * 9):
            pieces = list(trail.pieces_of(content))
            self.assertEqual(b"".join(pieces), content)
            self.assertLessEqual(max(map(len, pieces)), 1_048_576)
        pieces = list(trail.pieces_of(b"line\n" * 500_000))
        self.assertTrue(all(it.endswith(b"\n") for it in pieces))


class Batches(unittest.TestCase):
    def test_each_log_of_a_day_has_one_of_its_own(self) -> None:
        day = dt.date(2024, 1, 14)
        names = [
            "vault-serve@records.service", "vault-serve-records.service", "vault-serve@Records.service", "A", "a",
            r"vault-serve@a\x2db.service", "vault-serve@a-x2db.service", "y" * 199 + "1", "y" * 199 + "2", "x:y",
        ]  # fmt: skip
        # One that is named as another one's batch is.
        names.append(trail.batch_of(names[0], day)[6:].removesuffix(f"-{day}"))
        found = [trail.batch_of(it, day) for it in names]
        self.assertEqual(len(set(found)), len(names))
        for it in found:
            self.assertRegex(it, r"\A[a-z0-9._-]{1,64}\Z")
        self.assertEqual(found, [trail.batch_of(it, day) for it in names])
        self.assertFalse(set(found) & {trail.batch_of(it, dt.date(2024, 1, 15)) for it in names})

    def test_a_name_that_a_batch_can_have_stays(self) -> None:
        for name in ("nginx.service", "access.log", "a" * 47):
            self.assertEqual(trail.batch_of(name, dt.date(2024, 1, 14)), f"trail-{name}-2024-01-14")


class Trail(MachineTest):
    def keys(self) -> list[str]:
        return [str(it["key"]) for it in json.loads(self.done("ls", "docs", "--json"))]

    def test_a_file_is_taken_in_once(self) -> None:
        log = self.written("access.log", b"ann GET /docs/a 403\n")
        told = "1 of 1 pieces of the log of access.log of 2024-01-14 were taken in\n"
        self.assertEqual(told, self.done("trail", "docs", log))
        told = "0 of 1 pieces of the log of access.log of 2024-01-14 were taken in; the others were there\n"
        self.assertEqual(told, self.done("trail", "docs", log))
        [row] = json.loads(self.done("trail", "docs", log, "--json"))
        self.assertEqual((row["again"], row["version"]), (True, 1))
        self.assertEqual(self.keys(), ["access.log/2024-01-14/0001"])
        self.written("access.log", b"ann GET /docs/a 200\n")
        done = self.desk("trail", "docs", log)
        self.assertEqual(done.status, 1)
        self.assertIn("IntakeConflict", done.err)
        self.done("trail", "docs", log, "--day", "2024-01-13")
        self.assertEqual(len(self.keys()), 2)

    def test_the_journal_of_a_day_that_is_over(self) -> None:
        (self.machine / "bin" / "journalctl").write_text(JOURNALCTL)
        self.done("trail", "docs", "--unit", "nginx.service")
        self.assertRegex(self.done("get", "docs", "nginx.service/2024-01-14/0001"), "ann GET /docs/a 403")
        asked = (self.machine / "journal").read_text()
        self.assertRegex(asked, re.escape("--since 2024-01-14 00:00:00 UTC --until 2024-01-15 00:00:00 UTC"))
        done = self.desk("trail", "docs", "--unit", "nginx.service", "--day", "2024-01-15")
        self.assertEqual(done.status, 2)
        self.assertIn("isn't over", done.err)

    def test_any_unit_has_its_log_taken_in_once(self) -> None:
        (self.machine / "bin" / "journalctl").write_text(JOURNALCTL)
        units = [f"{it}.service" for it in ("vault-serve@records", "vault-s3@Records", r"vault-s3@a\x2db", "u" * 192)]
        for unit in units:
            self.assertIn("1 of 1 pieces", self.done("trail", "docs", "--unit", unit))
            [row] = json.loads(self.done("trail", "docs", "--unit", unit, "--json"))
            self.assertEqual((row["key"], row["again"]), (f"{unit}/2024-01-14/0001", True))
        self.assertEqual(sorted(self.keys()), sorted(f"{it}/2024-01-14/0001" for it in units))

    def test_a_day_on_which_nothing_was_written(self) -> None:
        (self.machine / "bin" / "journalctl").write_text("#!/bin/sh\n")
        for end in ("was taken in", "was there already"):
            told = self.done("trail", "docs", "--unit", "vault-serve@records.service")
            what = "the log of vault-serve@records.service of 2024-01-14 is empty: an empty document"
            self.assertEqual(told, f"{what} {end}\n")
        self.assertEqual(self.keys(), ["vault-serve@records.service/2024-01-14/0001"])

    def test_words_that_name_no_log(self) -> None:
        wrong: list[list[str]] = [[], ["x", "--unit", "y"], ["x", "--name", "a b"], ["-"], ["x", "--name", "a" * 256]]
        for words in wrong:
            self.assertEqual(self.desk("trail", "docs", *words).status, 2, words)
