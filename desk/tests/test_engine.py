"""Lines to the engine, by a way that notes them; and what is made of answers."""

from __future__ import annotations

import argparse
import json
import unittest
from pathlib import Path
from typing import Any
from unittest import mock

from tests.office import PROGRAM, OfficeTest
from vaultdesk import cases, intake, there
from vaultdesk.config import Desk
from vaultdesk.engine import Engine
from vaultdesk.errors import DeskError, EngineError, Refused
from vaultdesk.ways import Answer, text_of


class Noting:
    """A way by which nothing is reached: it notes each line, and answers what it was given."""

    def __init__(self, *replies: dict[str, Any]) -> None:
        self.replies = list(replies)
        self.lines: list[Any] = []

    def answer(self, line: Any, at: str | None) -> Answer:
        """The next of the replies."""
        self.lines.append(line)
        return Answer(self.replies.pop(0), at or "", True)

    def close(self) -> None:
        """Nothing is open."""


class Texts(unittest.TestCase):
    def test_a_content_is_in_hex_digits(self) -> None:
        for content in (b"", b"\0\xff\"\\", bytes(range(256))):
            line = {"as": "ann", "do": "put", "hex": content, "key": 'a"\\ü', "most": None}
            self.assertEqual(json.loads(text_of(line)), {**line, "hex": content.hex()})
        plain = {"as": "ann", "hex": "61"}
        self.assertEqual(json.loads(text_of(plain)), plain)
        self.assertNotIn("\n", text_of({"as": "a\nb", "hex": b"\n"}))


def engine_by(way: Noting) -> Engine:
    """An engine of the caller `ann` that is reached by this way."""
    engine = Engine(Desk("vaultctl", Path("records.vault"), "ann"))
    engine._way = way
    return engine


class Lines(unittest.TestCase):
    def test_what_is_empty_is_asked_and_what_isnt_given_is_left_out(self) -> None:
        way = Noting({"ok": {}})
        engine_by(way).ask("put", bucket="docs", hex="", most=0, bypass=False, hold=None, until=None)
        self.assertEqual(way.lines, [
            {"as": "ann", "do": "put", "bucket": "docs", "hex": "", "most": 0, "bypass": False},
        ])  # fmt: skip

    def test_who_asks_is_the_caller_or_who_is_named(self) -> None:
        way = Noting({"ok": {}}, {"ok": {}})
        engine = engine_by(way)
        engine.ask("get")
        engine.ask("get", "night")
        self.assertEqual([it["as"] for it in way.lines], ["ann", "night"])

    def test_no_refusal_is_an_answer(self) -> None:
        way = Noting({"error": {"code": "AccessDenied", "n": 1, "reason": "legal-hold"}},
                     {"stopped": {"changes": 3, "fault": "Device"}})  # fmt: skip
        engine = engine_by(way)
        with self.assertRaises(Refused) as refused:
            engine.ask("delete-version")
        self.assertEqual((refused.exception.code, refused.exception.reason), ("AccessDenied", "legal-hold"))
        with self.assertRaisesRegex(EngineError, "after 3 changes"):
            engine.ask("run")

    def test_a_listing_goes_on_up_to_its_end(self) -> None:
        pages = [[("a", 5), ("a", 4)], [("a", 3), ("b", 9)], [("b", 1)]]
        rows = [[{"key": key, "version_id": version} for key, version in page] for page in pages]
        way = Noting(*({"ok": {"entries": page, "more": page is not rows[-1]}} for page in rows))
        found = [(it["key"], it["version_id"]) for it in engine_by(way).entries("docs", "p")]
        self.assertEqual(found, [it for page in pages for it in page])
        after = [(it["prefix"], it.get("after_key"), it.get("after_id")) for it in way.lines]
        self.assertEqual(after, [("p", None, None), ("p", "a", 4), ("p", "b", 9)])


class Known(OfficeTest):
    """What a delivery finds in the vault, and what its intake ends with."""

    words = argparse.Namespace(bucket="docs", batch="b1", folder="scans")

    def setUp(self) -> None:
        super().setUp()
        self.lines({"do": "add-bucket", "as": "registrar", "bucket": "other", "dept": "records"})

    def lines_of(self, caller: str = "ann") -> frozenset[int]:
        """The lines of the delivery's batch that the vault knows."""
        with mock.patch("vaultdesk.there.say"), Engine(Desk(PROGRAM, self.file, caller)) as engine:
            return there.look(engine, self.words).lines

    def test_a_batch_is_one_of_its_bucket(self) -> None:
        row = {"do": "intake", "key": "a", "text": "a"}
        self.lines({**row, "bucket": "other", "batch": "b1", "line": 1})
        self.lines({**row, "bucket": "docs", "batch": "b2", "line": 2})
        self.assertEqual(self.lines_of(), frozenset())
        self.lines({**row, "bucket": "docs", "batch": "b1", "line": 3})
        self.assertEqual(self.lines_of(), frozenset({3}))

    def test_who_can_put_nothing_is_refused_first(self) -> None:
        for caller in ("registrar", "nobody"):
            with self.assertRaisesRegex(DeskError, "can put nothing"):
                self.lines_of(caller)

    def test_a_bucket_that_isnt_there_is_refused_first(self) -> None:
        self.words = argparse.Namespace(bucket="dogs", batch="b1")
        with self.assertRaisesRegex(DeskError, "no bucket 'dogs': it has docs, other"):
            self.lines_of()

    def test_an_intake_that_wasnt_begun_is_a_failure(self) -> None:
        engine = mock.Mock(at=None)
        engine.desk = Desk("vaultctl", Path("records.vault"), "ann")
        for status in (2, -9):
            with mock.patch("vaultdesk.intake._ran", lambda *_, status=status: (status, [], [])):
                with self.assertRaises(EngineError):
                    intake._by_program(engine, self.words, [])

    def test_each_vault_has_its_own_cases(self) -> None:
        files = [cases.file_beside(Path(it)).name for it in ("records.vault", "records.2023", "records.2024")]
        self.assertEqual(files, ["records.cases", "records.2023.cases", "records.2024.cases"])
