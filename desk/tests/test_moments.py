"""Moments that people write, on a machine of any zone; and what goes by their days."""

from __future__ import annotations

import os
import time
import unittest
from pathlib import Path
from unittest import mock

from vaultdesk import backup, copies, inventory, items, looks, moments
from vaultdesk.classes import Class

DEED = {"deed": Class(10, "COMPLIANCE")}


class Moments(unittest.TestCase):
    """On a machine whose clock is five hours ahead of UTC."""

    def setUp(self) -> None:
        self.addCleanup(time.tzset)
        self.enterContext(mock.patch.dict(os.environ, {"TZ": "XYZ-5"}))
        time.tzset()

    def test_one_of_another_zone_is_the_same_moment(self) -> None:
        for text in ("2034-01-01T01:00:00+01:00", "2033-12-31T19:00:00-05:00", "2034-01-01T00:00:00Z"):
            self.assertEqual(moments.read(text), "2034-01-01T00:00:00Z")

    def test_a_date_is_a_day_of_utc(self) -> None:
        self.assertEqual(moments.read("2034-01-01"), "2034-01-01T00:00:00Z")
        self.assertEqual(moments.of_seconds(86_400), "1970-01-02T00:00:00Z")
        self.assertEqual(moments.seconds_of("1970-01-02T00:00:00Z"), 86_400)
        wanted = ["2024-01-14T23:00:00Z", "2024-01-15T00:00:00Z", "2024-01-16T00:00:00Z"]
        self.assertEqual(list(moments.nights(wanted[0], "2024-01-16T00:00:00Z")), wanted)

    def test_now_is_of_utc(self) -> None:
        now = time.time()
        self.assertLess(abs(moments.seconds_of(moments.now()) - now), 60)
        self.assertLess(abs(moments.seconds_of(moments.tomorrow()) - now - 86_400), 60)
        copy = Path(f"records-{backup.stamp()}.vault")
        self.assertLess(abs(moments.seconds_of(copies.made_at(copy)) - now), 60)

    def test_a_far_end_is_more_than_a_year_past_thirty(self) -> None:
        for end, is_far in (("2055-12-31T23:59:59Z", False), ("2056-01-01T00:00:00Z", True)):
            self.assertEqual(moments.is_far(end, "2024-12-31T00:00:00Z"), is_far, end)


class Rows(unittest.TestCase):
    """The lock of a row of an inventory."""

    def lock(self, **row: str) -> tuple[str, str, str, bool]:
        """The mode, the end and the hold of a row, and whether it is wrong."""
        [it] = items.items_of([inventory.Row(2, {"file": "a.pdf", **row})], items.Asked(DEED), None, {})
        looks.look_at_words(it, "2024-01-15T10:00:00Z", None)
        return it.mode, it.until, it.hold, bool(it.wrong)

    def test_it_is_the_one_that_the_row_says(self) -> None:
        end = "2034-01-01T00:00:00Z"
        self.assertEqual(self.lock(until="2034-01-01"), ("GOVERNANCE", end, "", False))
        compliance = {"mode": "COMPLIANCE", "until": "2034-01-01T01:00:00+01:00"}
        self.assertEqual(self.lock(**compliance), ("COMPLIANCE", end, "", False))
        self.assertEqual(self.lock(**compliance, **{"class": "deed"}), ("COMPLIANCE", end, "", False))
        self.assertEqual(self.lock(hold="on"), ("", "", "ON", False))

    def test_it_is_that_of_the_class(self) -> None:
        wanted = ("COMPLIANCE", "2031-01-01T00:00:00Z", "", False)
        for date in ("2020-05-01", "2020-12-31T23:59:59Z", "2021-01-01T00:30:00+01:00", "2020-12-31T22:00:00-01:00"):
            self.assertEqual(self.lock(**{"class": "deed", "date": date}), wanted, date)
        self.assertTrue(self.lock(**{"class": "deed"})[3])

    def test_where_it_isnt_known_the_row_is_wrong(self) -> None:
        for row in ({"class": "dead"}, {"class": "deed", "date": "1.5.2020"}, {"until": "2034"}, {"hold": "yes"},
                    {"mode": "compliance", "until": "2034-01-01"}):  # fmt: skip
            self.assertTrue(self.lock(**row)[3], row)
