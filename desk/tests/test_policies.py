"""Defaults and lifecycle rules of a bucket."""

from __future__ import annotations

import json
from typing import Any

from tests.office import OfficeTest


class Defaults(OfficeTest):
    def test_a_default_is_set_shown_and_cleared(self) -> None:
        self.assertEqual(self.done("default", "docs"), "none\n")
        done = self.done("default", "docs", "--years", "10", "--mode", "COMPLIANCE", "--yes")
        self.assertEqual(done, "COMPLIANCE for 10 years\n")
        path = self.written("a.txt", b"hello")
        self.done("put", "docs", "a", path)
        [head] = self.lines({"do": "head", "bucket": "docs", "key": "a"}, at="2024-01-15T10:00:00Z")
        self.assertEqual(head["ok"]["retention"], {"mode": "COMPLIANCE", "until": "2034-01-15T10:00:00Z"})
        self.assertEqual(self.done("default", "docs", "--none"), "none\n")

    def test_one_of_a_thing_is_one(self) -> None:
        for words, told in ((("--years", "1"), "1 year"), (("--days", "1"), "1 day"), (("--days", "2"), "2 days")):
            self.assertEqual(self.done("default", "docs", *words), f"GOVERNANCE for {told}\n")

    def test_what_cant_be_undone_is_asked_for(self) -> None:
        ways: tuple[tuple[str, ...], ...] = (("--days", "1", "--mode", "COMPLIANCE"), ("--years", "32"))
        told = ("anybody for 1 day", "whoever has no right to bypass for 32 years")
        for words, who in zip(ways, told, strict=True):
            done = self.desk("default", "docs", *words)
            self.assertEqual((done.status, done.out), (2, ""), words)
            self.assertIn(f"what comes into docs from now on can't be removed by {who}: give --yes", done.err)
            self.assertEqual(self.done("default", "docs"), "none\n")
        for words in ways:
            self.done("default", "docs", *words, "--yes")


class Rules(OfficeTest):
    def test_rules_keep_their_order_and_the_others(self) -> None:
        first = ["--id", "old", "--prefix", "2020/", "--days", "365", "--noncurrent-days", "30"]
        self.done("rules", "add", "docs", *first)
        self.done("rules", "add", "docs", "--id", "lone", "--lone-markers", "--disabled")
        rules = json.loads(self.done("rules", "list", "docs", "--json"))
        self.assertEqual([it["ID"] for it in rules], ["old", "lone"])
        self.assertEqual(rules[0]["NoncurrentVersionExpiration"], {"NoncurrentDays": 30})
        self.assertEqual(rules[1]["Status"], "Disabled")
        self.done("rules", "remove", "docs", "old")
        self.assertIn("lone", self.done("rules", "list", "docs"))
        self.done("rules", "remove", "docs", "lone")
        self.assertEqual(self.done("rules", "list", "docs"), "")

    def test_a_rule_that_is_there_is_not_replaced(self) -> None:
        self.done("rules", "add", "docs", "--id", "old", "--days", "365")
        self.assertEqual(self.desk("rules", "add", "docs", "--id", "old", "--days", "1").status, 1)
        self.assertIn("365", self.done("rules", "list", "docs"))

    def test_a_rule_without_an_action_is_refused(self) -> None:
        wrong: list[list[str]] = [[], ["--keep", "3"], ["--days", "3", "--lone-markers"]]
        for words in wrong:
            self.assertEqual(self.desk("rules", "add", "docs", "--id", "r", *words).status, 2, words)

    def test_a_try_says_what_goes_and_when_and_changes_nothing(self) -> None:
        self.lines({"do": "put", "bucket": "docs", "key": "a", "text": "x"})
        words = ["--id", "old", "--days", "3", "--noncurrent-days", "2"]
        rows = json.loads(self.done("rules", "try", "docs", "--until", "2024-02-01", *words, "--json"))
        # Admitted on the 15th at 9 o'clock: due on the 19th at midnight, and two days after its marker on the 21st.
        found = [(it["night"], it["what"], it["version"], it["key"]) for it in rows]
        wanted = [
            ("2024-01-19T00:00:00Z", "marked", 1, "a"),
            ("2024-01-21T00:00:00Z", "removed for good", 1, "a"),
            ("2024-01-22T00:00:00Z", "marker removed", 2, "a"),
        ]
        self.assertEqual(found, wanted)
        self.assertEqual(self.done("rules", "list", "docs"), "")
        self.assertEqual([it["version"] for it in json.loads(self.done("ls", "docs", "--json"))], [1])


class Expire(OfficeTest):
    def setUp(self) -> None:
        super().setUp()
        self.lines({"do": "put", "bucket": "docs", "key": "a", "text": "x"})
        self.done("rules", "add", "docs", "--id", "old", "--days", "3", "--noncurrent-days", "2")

    def test_it_is_said_first_and_then_done(self) -> None:
        at = "2024-01-20T00:00:00Z"
        done = self.desk("expire", "records", "--until", "2024-02-01", "--json", at=at)
        self.assertEqual(done.status, 2)
        self.assertIn("--yes", done.err)
        told = json.loads(done.out)
        wanted = [(at, "marked"), ("2024-01-22T00:00:00Z", "removed for good")]
        wanted.append(("2024-01-23T00:00:00Z", "marker removed"))
        self.assertEqual([(it["night"], it["what"]) for it in told["foreseen"]], wanted)
        self.assertEqual(told["done"], [])
        done = self.desk("expire", "records", "--yes", at=at)
        self.assertEqual(done.status, 0, done.err)
        self.assertIn("docs: 1 marked, 0 removed", done.err)
        done = self.desk("expire", "records", "--yes", at="2024-01-22T00:00:00Z")
        self.assertIn("docs: 0 marked, 1 removed", done.err)

    def test_where_markers_alone_go_they_go(self) -> None:
        for at in ("2024-01-20T00:00:00Z", "2024-01-22T00:00:00Z"):
            self.assertEqual(self.desk("expire", "records", "--yes", at=at).status, 0)
        done = self.desk("expire", "records", "--yes", "--json", at="2024-01-23T00:00:00Z")
        self.assertEqual(done.status, 0, done.err)
        self.assertEqual([it["lone"] for it in json.loads(done.out)["done"]], [1])
        self.assertEqual(self.done("ls", "docs", at="2024-01-23T00:00:00Z"), "")

    def test_what_a_lock_keeps_is_said(self) -> None:
        first, at = "2024-01-20T00:00:00Z", "2024-01-20T06:00:00Z"
        place: dict[str, Any] = {"bucket": "docs", "key": "a", "id": 1}
        until = "2024-01-22T06:00:00Z"
        lock = {"do": "set-retention", **place, "mode": "COMPLIANCE", "until": until}
        self.lines(lock, {"do": "set-hold", **place, "hold": "ON"}, at=first)
        self.assertEqual(self.desk("expire", "records", "--yes", at=first).status, 0)
        words = ("expire", "records", "--until", "2024-01-22", "--dry-run")
        told = json.loads(self.desk(*words, "--json", at=at).out)
        stays = {"night": "2024-01-22T00:00:00Z", "what": f"stays: COMPLIANCE until {until}, legal hold"}
        self.assertEqual(told["foreseen"], [])
        self.assertEqual(told["kept"], [{**stays, "bucket": "docs", "version": 1, "key": "a"}])
        done = self.desk(*words, at=at)
        self.assertRegex(done.out, r"2024-01-22T00:00:00Z +stays: COMPLIANCE until \S+, legal hold +docs +1 +a\n")
        self.assertEqual((done.status, done.err), (0, "nothing is due up to 2024-01-22T00:00:00Z\n"))
        # Of what no rule is for yet, and of what goes, nothing is said.
        self.lines({"do": "set-hold", **place, "hold": "OFF"}, at=at)
        gone = ["removed for good", "marker removed"]
        for last, kinds in (("2024-01-21", []), ("2024-01-23", gone)):
            done = self.desk(*words[:2], "--until", last, "--dry-run", "--json", at=at)
            told = json.loads(done.out)
            self.assertEqual(([it["what"] for it in told["foreseen"]], told["kept"]), (kinds, []), last)

    def test_where_nothing_is_due_it_says_so(self) -> None:
        done = self.desk("expire", "records", "--until", "2024-01-16")
        self.assertEqual((done.status, done.out), (0, ""))
        self.assertIn("nothing is due up to 2024-01-16", done.err)

    def test_a_department_without_rules(self) -> None:
        self.done("rules", "remove", "docs", "old")
        done = self.desk("expire", "records")
        self.assertEqual(done.status, 1)
        self.assertIn("no bucket", done.err)
