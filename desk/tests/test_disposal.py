"""Disposal by two: planned, approved and carried out, and what is noted of it."""

from __future__ import annotations

import hashlib
import json
from typing import Any
from unittest import mock

from tests.office import Done
from tests.test_facts import NOON
from tests.test_schedule import ScheduleTest
from vaultdesk import disposal

DUE, AFTER, THEN = "2031-02-01T09:00:00Z", "2031-02-02T09:00:00Z", "2031-02-03T09:00:00Z"
NAME = "records-2031-02-01-1"


class DisposalTest(ScheduleTest):
    """Documents `a` and `b` of a class that has ended, `c` that nothing guards, `d` that is kept longer, `e` that was
    kept a while without a class; and a second caller and a third one."""

    def setUp(self) -> None:
        super().setUp()
        clock = mock.patch("vaultdesk.moments.tomorrow", return_value="2032-01-01T00:00:00Z")
        self.enterContext(clock)
        caller = {"do": "add-caller", "as": "registrar", "dept": "records"}
        rights = ["put", "retain", "get", "list", "delete-version", "report", "hold"]
        self.lines(*({**caller, "caller": it, "rights": rights} for it in ("bea", "cem")), at=NOON)
        for key in "ab":
            words = ("--class", "letter", "--date", "2024-01-10", "--title", f"Letter {key}", "--field", "Box=1")
            self.put(key, *words, content=key.encode())
        self.put("c", content=b"c")
        self.put("d", "--until", "2040-01-01", content=b"d")
        self.put("e", "--until", "2030-01-01", content=b"e")

    def words(self, *words: str, by: str = "ann", at: str = DUE) -> Done:
        yes = () if words[1] in ("list", "reject") or "--dry-run" in words else ("--yes",)
        return self.desk(*words, *yes, "--as", by, at=at)

    def plan(self, *words: str, at: str = DUE) -> str:
        done = self.words("disposal", "plan", "records", *words, at=at)
        self.assertEqual(done.status, 0, done.err)
        return done.out.strip()

    def approved(self) -> str:
        """The name of a plan that bea has approved."""
        name = self.plan()
        self.assertEqual(self.words("disposal", "approve", name, by="bea").status, 0)
        return name

    def rows(self, name: str = NAME) -> list[dict[str, Any]]:
        found = self.desk("disposal", "list", name, "--json", at=THEN)
        return list(json.loads(found.out))

    def states(self) -> list[tuple[str, str]]:
        return [(it["plan"], it["state"]) for it in self.asked("disposal", "list", at=THEN)]

    def held(self) -> list[str]:
        return [it["key"] for it in self.asked("ls", "docs", at=THEN)]

    def refused(self, why: str, *words: str, by: str = "ann", at: str = AFTER) -> None:
        done = self.words(*words, by=by, at=at)
        self.assertEqual((done.status, done.out), (1, ""), words)
        self.assertIn(why, done.err)


class Planned(DisposalTest):
    def test_a_plan_has_what_is_due_and_why_and_by_which_authority(self) -> None:
        self.assertEqual(self.plan(), NAME)
        found = json.loads(self.done("get", "office", f"disposal/{NAME}/plan.json", at=AFTER))
        self.assertEqual([it["key"] for it in found["documents"]], ["a", "b", "e"])
        first = found["documents"][0]
        self.assertEqual((first["title"], first["authority"], first["fields"]), ("Letter a", "DA-1", {"Box": "1"}))
        ended = "its retention ended at 2031-01-01T00:00:00Z"
        self.assertEqual(first["reason"], f"class letter: 6 years from 2024-01-10; {ended}")
        self.assertEqual(len(first["sha256"]), 64)
        self.assertEqual(found["documents"][2]["reason"], "its retention ended at 2030-01-01T00:00:00Z")
        lock = self.asked("info", "office", f"disposal/{NAME}/plan.json", at=AFTER)
        self.assertEqual((lock["mode"], lock["until"]), ("COMPLIANCE", "2061-02-01T09:00:00Z"))

    def test_what_is_on_hold_or_of_the_office_isnt_due(self) -> None:
        self.asked("hold", "docs", "a", at=DUE)
        self.plan()
        self.assertEqual([it["key"] for it in self.rows()], ["b", "e"])

    def test_a_part_can_be_planned_with_an_authority_and_a_reason(self) -> None:
        self.plan("--class", "letter", "--prefix", "a", "--authority", "X", "--reason", "as agreed")
        self.assertEqual([(it["key"], it["authority"]) for it in self.rows()], [("a", "DA-1")])
        self.plan("--bucket", "docs", "--authority", "X")
        rows = self.rows("records-2031-02-01-2")
        self.assertEqual([(it["key"], it["authority"]) for it in rows], [("b", "DA-1"), ("e", "X")])
        self.refused("nothing of records is due that no open plan has", "disposal", "plan", "records")

    def test_a_plan_has_at_most_so_many_that_its_outcome_can_be_kept(self) -> None:
        with mock.patch.object(disposal, "MOST", 2):
            done = self.words("disposal", "plan", "records")
        self.assertIn("1 more are due", done.err)
        self.assertEqual(len(self.rows()), 2)
        with mock.patch.object(disposal, "BYTES", 10):
            self.refused("nothing of records is due", "disposal", "plan", "records")

    def test_a_dry_run_only_lists_them(self) -> None:
        done = self.words("disposal", "plan", "records", "--dry-run", "--json")
        self.assertEqual([it["key"] for it in json.loads(done.out)], ["a", "b", "e"])
        self.assertEqual(self.states(), [])


class Approved(DisposalTest):
    def test_another_caller_approves_it(self) -> None:
        name = self.plan()
        self.assertEqual(self.states(), [(name, "waits for an approval")])
        self.refused("ann has planned it", "disposal", "approve", name)
        done = self.words("approve", name, by="bea", at=AFTER)
        self.assertEqual((done.status, done.out), (0, f"{name} is approved by bea: 3 documents\n"))
        self.assertEqual(self.states(), [(name, "approved")])
        self.refused("bea has approved it already", "disposal", "approve", name, by="bea")
        lock = self.asked("info", "office", f"disposal/{name}/approved-bea.json", at=THEN)
        self.assertEqual(lock["mode"], "COMPLIANCE")

    def test_two_names_of_one_person_are_one(self) -> None:
        for it in ("ann", "bea"):
            self.desk("people", "add", it, "Anna Berg", "--from", "2031-01-01", at=DUE)
        name = self.plan()
        self.refused("bea and ann, who has planned it, are both Anna Berg", "disposal", "approve", name, by="bea")

    def test_an_approval_counts_by_who_put_it_and_for_that_plan_alone(self) -> None:
        name = self.plan()
        plan = self.done("get", "office", f"disposal/{name}/plan.json", at=AFTER).encode()
        digest = hashlib.sha256(plan).hexdigest()
        forged = json.dumps({"plan": name, "sha256": digest})
        put = {"do": "put", "bucket": "office", "key": f"disposal/{name}/approved-bea.json"}
        self.lines({**put, "text": forged}, at=AFTER)
        self.lines({**put, "as": "cem", "text": json.dumps({"sha256": "0" * 64})}, {**put, "text": "{"}, at=AFTER)
        self.assertEqual(self.states(), [(name, "waits for an approval")])
        self.refused("has no approval", "disposal", "carry-out", name, by="cem")

    def test_a_rejected_plan_is_over_and_its_documents_may_be_planned_anew(self) -> None:
        name = self.approved()
        done = self.words("disposal", "reject", name, "--reason", "wrong", at=AFTER)
        self.assertEqual(done.status, 0, done.err)
        self.refused("was rejected already", "disposal", "carry-out", name, by="bea")
        self.refused("was rejected already", "disposal", "approve", name, by="cem")
        self.plan(at=AFTER)
        self.assertEqual([it[1] for it in self.states()], ["rejected", "waits for an approval"])

    def test_a_plan_that_isnt_there_is_refused_with_those_that_are(self) -> None:
        self.plan()
        self.refused(f"open are {NAME}", "disposal", "approve", "records-1", by="bea")
        self.refused("there is no plan 'x'", "disposal", "list", "x")


class CarriedOut(DisposalTest):
    def carry_out(self, name: str, by: str = "bea", at: str = AFTER) -> Any:
        done = self.words("carry-out", name, "--json", by=by, at=at)
        self.assertEqual(done.status, 0, done.err)
        return json.loads(done.out)

    def test_what_is_still_due_is_removed_with_its_facts(self) -> None:
        name = self.approved()
        self.lines({"do": "set-hold", "bucket": "docs", "key": "b", "id": 4, "hold": "ON"}, at=AFTER)
        longer = {"do": "set-retention", "bucket": "docs", "key": "e", "id": 8, "mode": "GOVERNANCE"}
        self.lines({**longer, "until": "2031-03-01T00:00:00Z"}, at=AFTER)
        found = self.carry_out(name)
        self.assertEqual([(it["key"], it["outcome"]) for it in found["documents"]], [
            ("a", "removed"), ("b", "stays: a legal hold is on"),
            ("e", "stays: its retention is in force until 2031-03-01T00:00:00Z"),
        ])  # fmt: skip
        self.assertEqual(self.held(), ["b", "b.facts.json", "c", "d", "e"])
        first = found["documents"][0]
        self.assertEqual((first["by"], first["removed"], first["facts"]), ("bea", AFTER, [3]))
        kept = json.loads(self.done("get", "office", f"disposal/{name}/outcome.json", at=THEN))
        self.assertEqual((kept["planned_by"], kept["approved_by"]), ("ann", ["bea"]))
        self.assertEqual(kept["documents"], found["documents"])
        self.assertEqual(self.asked("info", "office", f"disposal/{name}/outcome.json", at=THEN)["mode"], "COMPLIANCE")
        self.refused("was carried out already", "disposal", "carry-out", name, by="bea", at=THEN)

    def test_neither_without_approval_nor_by_the_planner(self) -> None:
        name = self.plan()
        self.refused("has no approval", "disposal", "carry-out", name, by="bea")
        self.words("disposal", "approve", name, by="bea")
        self.refused("ann has planned it: let another caller carry it out", "disposal", "carry-out", name)
        self.carry_out(name, by="cem")
        self.assertEqual(self.held(), ["c", "d"])

    def test_what_broke_off_goes_on_where_it_was(self) -> None:
        name = self.approved()
        with mock.patch.object(disposal, "_remove_facts", side_effect=KeyboardInterrupt):
            self.assertEqual(self.words("carry-out", name, by="bea", at=AFTER).status, 1)
        self.assertEqual(self.held(), ["a.facts.json", "b", "b.facts.json", "c", "d", "e"])
        found = self.carry_out(name, by="cem", at=THEN)
        self.assertEqual([(it["outcome"], it["by"]) for it in found["documents"]], [
            ("removed", "bea"), ("removed", "cem"), ("removed", "cem")])  # fmt: skip
        self.assertEqual(self.held(), ["c", "d"])

    def test_other_content_under_a_key_stays(self) -> None:
        name = self.approved()
        self.lines({"do": "delete-version", "bucket": "docs", "key": "a", "id": 2}, at=AFTER)
        self.put("a", content=b"new", at=AFTER)
        first = self.carry_out(name)["documents"][0]
        self.assertEqual((first["outcome"], first["by"], first["facts"]), ("removed", "ann", [3]))
        self.assertIn("a", self.held())

    def test_certificates_and_lists_name_the_plan(self) -> None:
        self.desk("people", "add", "bea", "Beate Kurz", "--from", "2031-01-01", at=DUE)
        name = self.approved()
        self.carry_out(name)
        out = self.folder / "out"
        self.done("certificates", str(out), at=THEN)
        page = (out / "certificates.html").read_text(encoding="utf-8")
        for it in (f"<th>plan</th><td>{name}</td>", "<th>approved by</th><td>bea (Beate Kurz)</td>",
                   "<th>authority</th><td>DA-1</td>", "<th>title</th><td>Letter a</td>"):  # fmt: skip
            self.assertIn(it, page)
        found = self.asked("answer", "2", at=THEN)["facts"]
        self.assertEqual((found["plan"], found["planned by"], found["title"]), (name, "ann", "Letter a"))
        self.assertEqual(self.asked("find", "--title", "letter", at=THEN)[0]["removed"], AFTER)

    def test_a_reason_of_a_removal_is_kept_and_shown(self) -> None:
        words = ("docs", "c", "--version", "6", "--reason", "put by mistake", "--authority", "DA-9")
        done = self.desk("delete", *words, "--yes", at=AFTER)
        self.assertEqual(done.status, 0, done.err)
        found = self.asked("answer", "6", at=THEN)["facts"]
        self.assertEqual(found, {"authority": "DA-9", "reason": "put by mistake"})
        key = f"removals/{AFTER}-6.json"
        self.assertEqual(self.asked("info", "office", key, at=THEN)["mode"], "COMPLIANCE")
        done = self.desk("delete", "docs", "d", "--version", "7", "--reason", "x", "--yes", at=THEN)
        self.assertEqual(done.status, 1)
        self.assertEqual(len(self.asked("ls", "office", "removals/", at=THEN)), 1)

    def test_a_reason_that_couldnt_be_kept_is_refused_before_anything_goes(self) -> None:
        with mock.patch("vaultdesk.book.buckets", return_value={}):
            done = self.desk("delete", "docs", "c", "--version", "6", "--reason", "x", "--yes", at=AFTER)
        self.assertEqual((done.status, done.out), (1, ""))
        self.assertIn("c", self.held())
        done = self.desk("delete", "docs", "c", "--version", "6", "--authority", "x", "--yes", at=AFTER)
        self.assertEqual(done.status, 2)
