"""The shortest and the longest retention that the settings have for a bucket."""

from __future__ import annotations

import os
import unittest
from unittest import mock

from tests.office import OfficeTest
from vaultdesk import limits
from vaultdesk.errors import UsageError

AT = "2024-01-15T10:00:00Z"
SETTINGS = b'[least]\ndocs = "2 years"\n\n[greatest]\ndocs = "10 years"\n'


class Periods(unittest.TestCase):
    def test_each_ends_with_the_same_day(self) -> None:
        for begun, text, wanted in (
            ("2024-01-15T10:00:00Z", "2 years", "2026-01-15T10:00:00Z"),
            ("2024-01-15T10:00:00Z", "90 days", "2024-04-14T10:00:00Z"),
            ("2024-02-29T00:00:00Z", "1 year", "2025-03-01T00:00:00Z"),
            ("2024-02-29T00:00:00Z", "4 years", "2028-03-01T00:00:00Z"),
            ("2024-01-15T10:00:00Z", "9000 years", "9999-12-31T23:59:59Z"),
        ):
            self.assertEqual(limits.period(text).after(begun), wanted, text)
        for text in ("2", "2 weeks", "-1 days", "two years", ""):
            self.assertRaises(UsageError, limits.period, text)

    def test_its_first_and_its_last_moment_are_within(self) -> None:
        within = limits.Limits({"docs": limits.period("2 years")}, {"docs": limits.period("10 years")})
        for until, is_within in (
            ("2026-01-15T09:59:59Z", False), ("2026-01-15T10:00:00Z", True),
            ("2034-01-15T10:00:00Z", True), ("2034-01-15T10:00:01Z", False),
        ):  # fmt: skip
            self.assertEqual(not limits.why_outside(within, "docs", until, AT), is_within, until)
            self.assertFalse(limits.why_outside(within, "others", until, AT))
        self.assertEqual(limits.why_not_kept(within, "others", None, AT), "")
        self.assertIn("no default retention", limits.why_not_kept(within, "docs", None, AT))


class Limits(OfficeTest):
    def setUp(self) -> None:
        super().setUp()
        self.enterContext(mock.patch.dict(os.environ, {"VAULTDESK_SETTINGS": self.written("desk.toml", SETTINGS)}))
        self.path = self.written("a.txt", b"hello")
        self.lines({"do": "put", "bucket": "docs", "key": "there", "text": "x"})
        (self.folder / "scans").mkdir()
        self.written("scans/a.pdf", b"scan")

    def test_an_end_outside_is_refused_everywhere(self) -> None:
        words = {
            "put": ["put", "docs", "a", self.path, "--yes", "--until"],
            "retain": ["retain", "docs", "there", "--yes", "--until"],
        }
        for name, given in words.items():
            for end, why in (("2026-01-15", "at least 2 years"), ("2034-01-16", "at most 10 years")):
                done = self.desk(*given, end)
                self.assertEqual((done.status, done.out), (2, ""), name)
                self.assertIn(why, done.err)
            self.assertEqual(self.desk(*given, "2026-01-16").status, 0, name)
        for period in (["--days", "729"], ["--years", "11"]):
            self.assertEqual(self.desk("default", "docs", *period).status, 2)
        self.assertEqual(self.done("default", "docs", "--years", "10"), "GOVERNANCE for 10 years\n")

    def test_a_row_outside_is_wrong(self) -> None:
        listed = self.written("list.csv", b"file,key,until\na.pdf,a,2050-01-01\n")
        words = ("deliver", str(self.folder / "scans"), "--bucket", "docs", "--batch", "b", "--inventory", listed)
        done = self.desk(*words, "--yes")
        self.assertEqual(done.status, 1)
        self.assertIn("the settings have at most 10 years", done.out)

    def test_a_document_without_an_end_has_the_default_or_is_reported(self) -> None:
        words = ("put", "docs", "a", self.path)
        short = "2026-01-13T10:00:00Z is before 2026-01-15T10:00:00Z"
        for number, why in ((2, "has no default retention"), (3, short)):
            done = self.desk(*words)
            self.assertEqual((done.status, done.out), (1, f"{number}\n"))
            self.assertIn(f"version {number} was put, and", done.err)
            self.assertIn(why, done.err)
            # The engine knows no limits: by its own line a default may be anything.
            self.lines({"do": "set-default", "bucket": "docs", "mode": "GOVERNANCE", "days": 729}, at=AT)
        self.done("default", "docs", "--years", "2")
        self.assertEqual(self.done(*words), "4\n")
        done = self.desk("default", "docs", "--none")
        self.assertEqual((done.status, done.out), (2, ""))
        self.assertIn("at least 2 years", done.err)
        self.assertEqual(self.done("default", "docs"), "GOVERNANCE for 2 years\n")

    def test_a_row_without_an_end_has_the_default_or_is_wrong(self) -> None:
        words = ("deliver", str(self.folder / "scans"), "--bucket", "docs", "--batch", "b", "--yes")
        for why in ("has no default retention", "2026-01-13T10:00:00Z is before 2026-01-15T10:00:00Z"):
            done = self.desk(*words)
            self.assertEqual(done.status, 1)
            self.assertIn(why, done.out)
            self.lines({"do": "set-default", "bucket": "docs", "mode": "GOVERNANCE", "days": 729}, at=AT)
        self.done("default", "docs", "--days", "731")
        self.assertEqual(self.desk(*words).status, 0)

    def test_another_bucket_has_none(self) -> None:
        self.lines({"do": "add-bucket", "as": "registrar", "bucket": "other", "dept": "records"})
        self.done("put", "other", "a", self.path, "--until", "2024-01-16")

    def test_settings_that_arent_understood(self) -> None:
        for text in (b'[least]\ndocs = "2 weeks"\n', b"[greatest]\ndocs = 2\n"):
            with mock.patch.dict(os.environ, {"VAULTDESK_SETTINGS": self.written("desk.toml", text)}):
                self.assertEqual(self.desk("ls", "docs").status, 2)
