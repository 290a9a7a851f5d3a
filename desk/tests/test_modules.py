"""What the desk's README says of its modules, and what they have of the engine's pages."""

from __future__ import annotations

import re
import unittest
from pathlib import Path
from typing import Any

from tests.office import OfficeTest
from vaultdesk import beside, engine, reading

Values = dict[str, dict[str, Any]]
DESK = Path(__file__).resolve().parents[1] / "vaultdesk"
LINES = DESK.parents[1] / "docs" / "formats" / "LINES.md"


def commands() -> list[str]:
    """The commands in the table of the engine's page on lines."""
    table = LINES.read_text(encoding="utf-8").partition("\n## The commands\n")[2].partition("\n### ")[0]
    return re.findall(r"^\| `([a-z-]+)` \|", table, re.M)


class Modules(unittest.TestCase):
    def test_only_one_opens_tables(self) -> None:
        opens = re.compile(r"\bsqlite3\s*\.\s*connect\b|\bimport\b.*\bconnect\b|\bConnection\s*\(")
        texts = {it: it.read_text(encoding="utf-8") for it in DESK.rglob("*.py")}
        self.assertEqual([it.name for it, text in texts.items() if opens.search(text)], ["reading.py"])

    def test_a_command_that_is_taken_for_a_read_changes_nothing(self) -> None:
        text = LINES.read_text(encoding="utf-8")
        [reads] = re.findall(r"((?:`[a-z-]+`(?:, | and )?)+) change nothing\.", text)
        self.assertEqual(sorted(re.findall(r"`([a-z-]+)`", reads)), sorted(engine.READS))
        self.assertEqual((len(commands()), set(engine.READS) - set(commands())), (24, set()))

    def test_each_page_that_is_named_is_there(self) -> None:
        named = [it for file in DESK.rglob("*.py") for it in re.findall(r"beside\.page\('([^']+)'\)", file.read_text())]
        self.assertGreater(len(named), 1)
        for it in named:
            self.assertTrue(beside.page(it).is_file(), it)


class Reads(OfficeTest):
    def test_they_dont_move_the_last_change(self) -> None:
        rule = {"ID": "old", "Status": "Enabled", "Prefix": "", "Expiration": {"Days": 30}}
        put = {"do": "put", "bucket": "docs", "text": "x"}
        self.lines({"do": "set-rules", "bucket": "docs", "rules": [rule]}, {**put, "key": "a"}, {**put, "key": "b"})
        self.lines({"do": "delete-version", "bucket": "docs", "key": "b", "id": 2})
        of_key: Values = {it: {"bucket": "docs", "key": "a"} for it in ("get", "head", "get-retention", "get-hold")}
        given: Values = {**of_key, "report": {"dept": "records"}, "certificate": {"bucket": "docs", "id": 2}}
        before = reading.rows(self.file, "SELECT last FROM meta")
        self.lines(*({"do": it, **given.get(it, {"bucket": "docs"})} for it in engine.READS), at="2024-02-01T00:00:00Z")
        self.assertEqual(reading.rows(self.file, "SELECT last FROM meta"), before)

    def test_each_other_command_of_the_page_moves_it(self) -> None:
        rule = {"ID": "old", "Status": "Enabled", "Expiration": {"Days": 1}}
        key = {"bucket": "docs", "key": "a"}
        changes: Values = {
            "add-dept": {"as": "registrar", "dept": "more"},
            "add-caller": {"as": "registrar", "caller": "eve", "rights": ["admin"]},
            "close-caller": {"as": "registrar", "caller": "eve"},
            "add-bucket": {"as": "registrar", "bucket": "other", "dept": "records"},
            "move-bucket": {"as": "registrar", "bucket": "other", "dept": "more"},
            "set-default": {"bucket": "docs"},
            "set-rules": {"bucket": "docs", "rules": [rule]},
            "put": {**key, "text": "x"},
            "delete": key,
            "delete-version": {**key, "id": 2},
            "set-retention": {**key, "mode": "GOVERNANCE", "until": "2024-06-01T00:00:00Z"},
            "set-hold": {**key, "hold": "ON"},
            "intake": {"bucket": "docs", "batch": "b", "line": 1, "key": "c", "text": "x"},
            "run": {"bucket": "docs"},
            "drop-rules": {"bucket": "docs"},
        }
        self.assertEqual(set(commands()) - set(changes), set(engine.READS))
        for day, (do, members) in enumerate(changes.items(), start=1):
            before = reading.rows(self.file, "SELECT last FROM meta")
            self.lines({"do": do, **members}, at=f"2024-02-{day:02}T00:00:00Z")
            self.assertNotEqual(reading.rows(self.file, "SELECT last FROM meta"), before, do)
