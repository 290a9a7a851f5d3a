"""What a refusal means at the desk: by the engine's own words, by its table, and at a server's door."""

from __future__ import annotations

import re
import shlex
import unittest
from pathlib import Path
from typing import Any

from tests.office import OfficeTest
from tests.served import ServedTest
from vaultdesk.refusals import refused, words_of
from vaultdesk.remedies import COMMANDS, DENIALS, FORMS, OPTIONS, WORDS
from vaultdesk.s3.faults import of_refusal

EXAMPLES = Path(__file__).resolve().parents[2] / "examples"
# Refusals that no line of the desk can have: of a file that is opened, and of requests by HTTP. And the first words of
# rows that are no refusals by name: stopped runs, and words for lines of a script.
ELSEWHERE = {"Damaged", "MissingContentLength", "NotImplemented", "line", "stopped"}
INVALID = {"code": "InvalidArgument", "n": 10}
# A command that is refused by a value, and what is said of it.
MISTAKES = (
    ("put docs new FILE --until 2023-01-01", r"--until 2023-01-01T00:00:00Z isn't after the moment of the command, 20"),
    ("put docs '' FILE", r"KEY '': a key isn't empty"),
    ("get docs a --version 1000000001", r"--version 1000000001: .* from 1 to 1,000,000,000"),
    ("ls Docs", r"BUCKET 'Docs': a bucket's name has 3 to 63 of .* as case-files"),
    ("default docs --years 500 --yes", r"a default has 1 to 36,500 days or 1 to 100 years: correct --days or --years"),
    ("default docs --days 0", r"correct --days or --years"),
    ("rules add docs --id new --days 0", r"--days 0: a rule has 1 to 2,147,483,647 days"),
    ("rules add docs --id new --days 2147483648", r"--days 2147483648: a rule has"),
    ("rules add docs --id new --days 3 --above 10 --below 5", r"--above has to be below --below"),
    ("rules add docs --id '' --days 3", r"--id '': a rule's name"),
    ("departments --add 'Land Records' --as registrar", r"--add 'Land Records': .* as land-records"),
    ("callers --add 'Bob Smith' --department records --rights get --as registrar", r"--add 'Bob Smith': .* as ann\.b"),
    ("callers --add bob --department record --rights get --as registrar", r"--department 'record' names no department"),
    ("callers --close bob --yes --as registrar", r"--close 'bob' names no open caller of this vault"),
    ("buckets --add new --department record --as registrar", r"--department 'record' names no department"),
    ("buckets --move docs --department record --yes --as registrar", r"--department 'record' names no department"),
    ("report record --as registrar", r"no department 'record'"),
    ("ls docs --as 'Ann Miller'", r"no open caller has the name 'Ann Miller', which --as or \$VAULT_CALLER gives"),
)  # fmt: skip
# What the desk has no word for: members of a line's JSON, parameters of SQL, and pages.
UNTYPED = re.compile(r'"\w+"|\bdept\b|\s:\w+|\.md\b|\.sql\b')


class Said(unittest.TestCase):
    def test_each_refusal_of_the_engine_has_words(self) -> None:
        lines = (EXAMPLES / "refusals.txt").read_text(encoding="utf-8").splitlines()
        names = {it.partition(":")[0].partition(" ")[0] for it in lines} - ELSEWHERE
        self.assertGreater(len(names), 20)
        self.assertLessEqual(names - {"AccessDenied"}, WORDS.keys())
        for code in names - {"AccessDenied"}:
            self.assertGreater(len(words_of({"code": code}, {"do": "ls"})), 20, code)

    def test_no_words_have_what_nobody_typed(self) -> None:
        texts = [*WORDS.values(), *DENIALS.values(), *COMMANDS.values(), *(words for _, words in FORMS.values())]
        self.assertEqual([it for it in texts if UNTYPED.search(re.sub(r"\{.*?\}", "", it))], [])
        self.assertLessEqual(FORMS.keys(), OPTIONS.keys())

    def test_the_member_that_the_engine_names_is_the_one(self) -> None:
        line = {"as": "ann", "do": "intake", "batch": "b1", "bucket": "docs", "key": "a"}
        said = 'rule 1: "key" has to be 1 to 1,024 bytes without control characters, as "key":"2024/a"'
        self.assertRegex(words_of(INVALID, line, said), "^KEY 'a': a key isn't empty")
        self.assertRegex(words_of(INVALID, {**line, "batch": "B 1"}), "^--batch 'B 1': ")

    def test_what_the_engine_alone_says_comes_through(self) -> None:
        said = '"hold" has to be ON or OFF, in capitals, as "hold":"ON"'
        words = words_of(INVALID, {"do": "set-hold", "hold": "on"}, said)
        self.assertEqual(words, "--hold has to be ON or OFF, in capitals, as ON")

    def test_a_members_braces_are_no_words(self) -> None:
        line = {"do": "add-bucket", "bucket": "files", "dept": "re{cord", "as": "{x}"}
        self.assertIn("'re{cord'", words_of(INVALID, line))
        self.assertIn("'{x}'", words_of({"code": "AccessDenied", "reason": "unknown-caller"}, line))

    def test_an_s3_client_reads_nothing_of_the_desk(self) -> None:
        reasons = [*DENIALS, "right:get"]
        errors: list[dict[str, Any]] = [{"code": it} for it in WORDS]
        errors += [{"code": "AccessDenied", "reason": it} for it in reasons]
        errors += [{"code": "NoSuchKey", "marker": True}]
        for it in errors:
            with self.subTest(it):
                message = of_refusal(refused(it, {"do": "put", "bucket": "docs", "as": "ann"})).message
                self.assertNotRegex(message, "vaultdesk|--[a-z]")
                self.assertGreater(len(message), 10)


class ByTheFile(OfficeTest):
    def test_each_mistake_has_its_words(self) -> None:
        look_at(self, "2024-01-15T10:00:00Z")


class ByTheDoor(ServedTest):
    def test_each_mistake_has_the_same_words(self) -> None:
        self.serve()
        look_at(self, None)


def look_at(office: OfficeTest, at: str | None) -> None:
    """Fails unless the desk says of each mistake what was wrong."""
    path = office.written("a.txt", b"hello")
    for words, said in MISTAKES:
        with office.subTest(words):
            done = office.desk(*shlex.split(words.replace("FILE", path)), at=at)
            office.assertEqual(done.status, 1, done.err)
            office.assertRegex(done.err, said)
            office.assertNotRegex(done.err, UNTYPED)
