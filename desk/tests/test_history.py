"""The history of one version."""

from __future__ import annotations

import csv
import io
import json
import sqlite3
from contextlib import closing
from typing import Any

from tests.office import OfficeTest
from vaultdesk import events, reading, recheck
from vaultdesk.config import desk
from vaultdesk.engine import Engine
from vaultdesk.errors import DeskError

KEY = "2024/Müller 100%_\u2028x"


class History(OfficeTest):
    def setUp(self) -> None:
        super().setUp()
        self.lines(
            {"do": "add-dept", "as": "registrar", "dept": "court"},
            {"do": "add-caller", "as": "registrar", "caller": "gov", "dept": "court", "rights": [
                "put", "get", "retain", "hold", "bypass", "delete-version"]},
            {"do": "put", "bucket": "docs", "key": KEY, "text": "deed"},
            {"do": "put", "bucket": "docs", "key": KEY, "text": "another", "hold": "ON"},
            {"do": "delete", "bucket": "docs", "key": KEY},
        )
        it: dict[str, Any] = {"bucket": "docs", "key": KEY, "id": 1}
        governed = {**it, "do": "set-retention", "mode": "GOVERNANCE"}
        self.lines({**governed, "until": "2025-01-01T00:00:00Z"}, at="2024-02-01T00:00:00Z")
        self.lines({**it, "do": "set-hold", "hold": "ON"}, at="2024-02-02T00:00:00Z")
        move = {"do": "move-bucket", "as": "registrar", "bucket": "docs", "dept": "court"}
        self.lines(move, at="2024-03-01T00:00:00Z")
        self.lines({**it, "as": "gov", "do": "set-hold", "hold": "OFF"}, at="2024-03-02T00:00:00Z")
        self.lines({**governed, "as": "gov", "until": "2026-01-01T00:00:00Z"}, at="2024-03-03T00:00:00Z")
        self.lines({**it, "as": "gov", "do": "delete-version", "bypass": True}, at="2024-03-04T00:00:00Z")

    def told(self, *words: str) -> list[tuple[str, str, str]]:
        done = json.loads(self.done("history", *words, "--json", at=None))
        return [(it["moment"][5:10], it["who"], it["what"]) for it in done["events"]]

    def test_all_that_happened_is_told_with_who_and_when(self) -> None:
        wanted = [
            ("01-15", "ann", "4 bytes admitted, of the department records"),
            ("01-15", "ann", "admitted with no retention, without a legal hold"),
            ("02-01", "ann", "retention set: GOVERNANCE until 2025-01-01T00:00:00Z"),
            ("02-02", "ann", "legal hold put on"),
            ("03-01", "-", "its bucket went to the department court (move 1 of the vault)"),
            ("03-02", "gov", "legal hold lifted"),
            ("03-03", "gov", "retention extended from 2025-01-01T00:00:00Z: GOVERNANCE until 2026-01-01T00:00:00Z"),
            ("03-04", "gov", "removed for good, bypassing the retention in GOVERNANCE"),
        ]
        self.assertEqual(self.told("1"), wanted)

    def test_the_past_is_told_up_to_a_moment(self) -> None:
        found = json.loads(self.done("history", "1", "--json", at="2024-02-02"))
        self.assertEqual([it["event"] for it in found["events"]], ["admitted", "locked", "locked", "locked"])
        done = self.desk("history", "1", at="2024-01-14")
        self.assertEqual(done.status, 1)
        self.assertIn("wasn't admitted yet", done.err)

    def test_the_text_says_what_the_version_is(self) -> None:
        text = self.done("history", "1", at=None)
        for it in ("version 1 in bucket docs, 4 bytes", "2024/Müller 100%_\\u2028x", "legal hold lifted", "sha256 "):
            self.assertIn(it, text)
        self.assertIn("a delete marker was put on top", self.done("history", "3", at=None))
        self.assertIn("with a legal hold", self.done("history", "2", at=None))

    def test_a_number_that_isnt_there_is_refused(self) -> None:
        done = self.desk("history", "4")
        self.assertEqual((done.status, done.out), (1, ""))
        self.assertIn("no version of this vault has the number", done.err)
        for wrong in ("0", "x", "1.0", "-1", "²"):
            self.assertEqual(self.desk("history", wrong).status, 2, wrong)

    def test_the_engine_and_the_tables_have_the_same_events(self) -> None:
        with Engine(desk(None, None)) as engine:
            for it in (1, 2, 3):
                self.assertEqual(events.of_version(engine, it), events.in_tables(self.file, it))
            with self.assertRaises(DeskError):
                events.in_tables(self.file, 4)

    def test_a_file_that_is_not_sound_has_no_history(self) -> None:
        with closing(sqlite3.connect(self.file)) as base:
            base.execute("UPDATE entries SET size = 5 WHERE id = 2")
            base.commit()
        self.assertEqual(len(events.in_tables(self.file, 1)), 8)
        done = self.desk("history", "1", at=None)
        self.assertEqual((done.status, done.out), (1, ""))
        self.assertIn("Damaged", done.err)

    def test_the_query_has_the_events_that_the_second_opinion_has(self) -> None:
        out = io.StringIO()
        for before in (None, "2024-03-01T00:00:00Z"):
            out = io.StringIO()
            with recheck.audited(self.file) as base:
                recheck.events.write_events(base, recheck.vault.moment_of(before) if before else None, out)
            wanted = list(csv.DictReader(io.StringIO(out.getvalue(), newline="")))
            found = [{name: str(it) for name, it in row.items()} for row in
                     reading.query(self.file, "events", id=None, before=before)]
            self.assertEqual(found, wanted)
            self.assertGreater(len(found), 5)
