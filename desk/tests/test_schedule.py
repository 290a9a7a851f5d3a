"""The retention schedule of a department, and the events from which classes count."""

from __future__ import annotations

import json
from typing import Any

from tests.test_facts import LATER, NEXT, NOON, Facts

SCHEDULE = (
    b"class,years,mode,trigger,authority\nletter,6,GOVERNANCE,date,DA-1\ncase,10,COMPLIANCE,event,DA-2\n"
    b"charter,permanent,GOVERNANCE,,\n"
)
LAST = "9999-12-31T23:59:59Z"


class ScheduleTest(Facts):
    """A schedule of three classes, of which one counts from an event."""

    def setUp(self) -> None:
        super().setUp()
        self.lines({"do": "add-bucket", "as": "registrar", "bucket": "office", "dept": "records"})
        self.set(SCHEDULE)

    def set(self, content: bytes, at: str = NOON) -> str:
        done = self.desk("schedule", "set", self.written("schedule.csv", content), at=at)
        self.assertEqual(done.status, 0, done.err)
        return done.out

    def lock(self, key: str, at: str = LATER) -> tuple[str, str]:
        found = self.asked("info", "docs", key, at=at)
        return found["mode"], found["until"]

    def report(self, name: str, day: str, *words: str, at: str = LATER) -> Any:
        done = self.desk("event", name, "--on", day, "--yes", "--json", *words, at=at)
        self.assertEqual(done.status, 0, done.err)
        return json.loads(done.out)


class Schedule(ScheduleTest):
    def test_each_change_is_a_version_and_the_past_is_there(self) -> None:
        new = SCHEDULE.replace(b"letter,6", b"letter,8").replace(b"charter,permanent,GOVERNANCE,,\n", b"")
        out = self.set(new, at=NEXT)
        self.assertEqual(out.splitlines()[1:], [
            "letter   changed  years 6 -> 8", "charter  removed  permanent, GOVERNANCE, date",
            "2 classes: version 2 of schedule.csv in office",
        ])  # fmt: skip
        self.assertEqual([it["years"] for it in self.asked("schedule", "show")], ["8", "10"])
        self.assertEqual([it["years"] for it in self.asked("schedule", "show", at=NOON)], ["6", "10", "permanent"])
        found = self.asked("schedule", "diff")
        self.assertEqual([it["what"] for it in found], ["years 6 -> 8", "permanent, GOVERNANCE, date"])
        self.assertEqual(self.asked("schedule", "diff", self.written("new.csv", SCHEDULE))[0]["what"], "years 8 -> 6")

    def test_the_same_again_is_no_version(self) -> None:
        self.assertIn("version 1 of schedule.csv in office, which has the same already", self.set(SCHEDULE, at=NEXT))
        self.assertEqual(len(self.asked("ls", "office")), 1)
        shown = self.done("schedule", "show", "--csv", at=NEXT)
        self.assertIn("already", self.set(shown.encode(), at=NEXT))

    def test_what_is_no_schedule_is_refused(self) -> None:
        head = b"class,years,mode,trigger,authority\n"
        for rows, why in (
            (b"a,six,COMPLIANCE,,\n", "years is a number"), (b"a,6,compliance,,\n", "mode GOVERNANCE or COMPLIANCE"),
            (b"a,6,COMPLIANCE,closed,\n", "trigger is date or event"), (b"", "there is no class"),
            (b"a,permanent,COMPLIANCE,event,\n", "waits for no event"), (b"a,1,COMPLIANCE,,\n" * 2, "comes twice"),
        ):  # fmt: skip
            done = self.desk("schedule", "set", self.written("wrong.csv", head + rows), at=NEXT)
            self.assertEqual((done.status, done.out), (1, ""), rows)
            self.assertIn(why, done.err)
        self.assertEqual(len(self.asked("ls", "office")), 1)

    def test_without_a_schedule_it_says_so(self) -> None:
        self.lines(
            {"do": "add-dept", "as": "registrar", "dept": "court"},
            {"do": "add-caller", "as": "registrar", "caller": "cid", "dept": "court", "rights": ["put"]}, at=NEXT,
        )  # fmt: skip
        for kind in ("show", "diff"):
            done = self.desk("schedule", kind, "--as", "cid", at=NEXT)
            self.assertEqual((done.status, done.out), (1, ""))
            self.assertIn("vaultdesk schedule set puts one", done.err)

    def test_a_put_that_names_its_class_gets_its_end(self) -> None:
        self.put("a", "--class", "letter", "--date", "2024-01-10")
        self.assertEqual(self.lock("a"), ("GOVERNANCE", "2031-01-01T00:00:00Z"))
        self.assertEqual(self.lock("a.facts.json"), self.lock("a"))
        found = json.loads(self.done("get", "docs", "a.facts.json", at=LATER))
        kept = {"years": "6", "mode": "GOVERNANCE", "trigger": "date", "authority": "DA-1", "schedule": 1}
        self.assertEqual(found["kept"], kept)
        self.assertEqual(self.facts("a")["authority"], "DA-1")
        self.put("b", "--class", "letter", "--until", "2026-01-01")
        self.assertEqual(self.lock("b"), ("GOVERNANCE", "2026-01-01T00:00:00Z"))

    def test_a_put_whose_end_cant_be_said_is_refused(self) -> None:
        for words, why in (
            (["--class", "map"], "the schedule has no class 'map': it has letter, case, charter"),
            (["--class", "letter"], "it has none"), (["--class", "case"], "none is named"),
            (["--class", "letter", "--date", "2024-01-10", "--mode", "COMPLIANCE"], "that of the class is GOVERNANCE"),
            (["--class", "charter"], "more than 30 years"),
        ):  # fmt: skip
            done = self.desk("put", "docs", "a", self.file_of_one, *words, at=NEXT)
            self.assertEqual((done.status, done.out), (2, ""), words)
            self.assertIn(why, done.err)
        self.assertEqual(self.asked("ls", "docs"), [])
        self.put("a", "--class", "charter", "--yes")
        self.assertEqual(self.lock("a"), ("GOVERNANCE", LAST))

    def test_a_class_that_is_set_later_is_noted_and_the_lock_stays(self) -> None:
        self.put("a", "--class", "letter", "--date", "2024-01-10")
        done = self.desk("facts", "docs", "a", "--set", "class=charter", at=NEXT)
        self.assertIn("its retention stays as it is", done.err)
        self.assertTrue(self.facts("a")["kept"].startswith("permanent, GOVERNANCE"))
        self.assertEqual(self.lock("a")[1], "2031-01-01T00:00:00Z")
        self.assertEqual(self.desk("facts", "docs", "a", "--set", "class=map", at=NEXT).status, 2)


class Delivered(ScheduleTest):
    LIST = "File;Key;Class;Date;Event\none.txt;a;letter;2024-01-10;\ntwo.txt;b;case;2020-05-01;case 17 closed\n"

    def deliver(self, listed: str, *words: str, at: str = NEXT) -> Any:
        scans = self.folder / "scans"
        scans.mkdir(exist_ok=True)
        for name in ("one", "two"):
            (scans / f"{name}.txt").write_bytes(name.encode())
        path = self.written("list.csv", listed.encode())
        given = ["deliver", str(scans), "--bucket", "docs", "--batch", "b1", "--inventory", path, "--json"]
        return self.desk(*given, *words, at=at)

    def test_each_row_gets_its_end_by_the_schedule_as_it_was_then(self) -> None:
        done = self.deliver(self.LIST, "--yes")
        self.assertEqual(done.status, 0, done.err)
        self.set(SCHEDULE.replace(b"letter,6", b"letter,8"), at=LATER)
        self.assertEqual(self.lock("a"), ("GOVERNANCE", "2031-01-01T00:00:00Z"))
        self.assertEqual(self.lock("b"), ("GOVERNANCE", LAST))
        self.assertEqual([self.facts(it).get("authority") for it in "ab"], ["DA-1", "DA-2"])
        self.assertIn("by version 1 of the schedule", self.facts("a")["kept"])
        notes = {it["row"]: it["note"] for it in json.loads(done.out)["findings"]}
        self.assertIn("it waits for the event 'case 17 closed'", notes[3])

    def test_a_row_whose_event_was_reported_gets_its_end_at_once(self) -> None:
        self.report("case 17 closed", "2023-02-03", at=NEXT)
        self.assertEqual(self.deliver(self.LIST, "--yes", at=LATER).status, 0)
        self.assertEqual(self.lock("b"), ("COMPLIANCE", "2034-01-01T00:00:00Z"))

    def test_a_row_without_its_event_or_of_no_class_is_wrong(self) -> None:
        listed = "File;Key;Class;Date\none.txt;a;case;2024-01-10\ntwo.txt;b;map;2024-01-10\n"
        found = json.loads(self.deliver(listed, "--dry-run").out)["findings"]
        self.assertIn("none is named", found[0]["wrong"])
        self.assertIn("no class 'map'", found[1]["wrong"])

    def test_another_list_of_classes_is_refused(self) -> None:
        done = self.deliver(self.LIST, "--classes", self.written("classes.csv", SCHEDULE), "--yes")
        self.assertEqual((done.status, done.out), (2, ""))
        self.assertIn("leave --classes out", done.err)
        self.assertEqual(self.asked("ls", "docs"), [])


class Events(ScheduleTest):
    def setUp(self) -> None:
        super().setUp()
        for key, event in (("a", "case 17 closed"), ("b", "case 17 closed"), ("c", "case 18 closed")):
            self.put(key, "--class", "case", "--event", event, content=key.encode())
        self.desk("facts", "docs", "a", "--set", "title=T", at=NEXT)

    def test_what_waits_gets_its_end_with_all_versions_of_its_facts(self) -> None:
        self.assertEqual(self.lock("a"), ("GOVERNANCE", LAST))
        found = self.report("case  17 closed", "2024-02-10")
        keys = ["a", "a.facts.json", "a.facts.json", "b", "b.facts.json"]
        self.assertEqual([it["key"] for it in found["documents"]], keys)
        rows = self.asked("held", "--bucket", "docs")
        held = {it["version"]: (it["key"], it["retention"], it["until"]) for it in rows}
        end = "2035-01-01T00:00:00Z"
        self.assertEqual({it[1:] for it in held.values() if it[0][0] in "ab"}, {("COMPLIANCE", end)})
        self.assertEqual({it[1:] for it in held.values() if it[0][0] == "c"}, {("GOVERNANCE", LAST)})
        note = json.loads(self.done("get", "office", "events/case 17 closed.json", at=LATER))
        self.assertEqual(note, {"event": "case 17 closed", "on": "2024-02-10", "documents": [2, 3, 8, 4, 5]})

    def test_given_again_it_does_the_rest_and_nothing_twice(self) -> None:
        bob = {"do": "add-caller", "caller": "bob", "dept": "records", "rights": ["put", "retain"]}
        self.lines({**bob, "as": "registrar"}, at=LATER)
        done = self.desk("event", "case 17 closed", "--on", "2024-02-10", "--yes", "--as", "bob", at=LATER)
        self.assertEqual(done.status, 1)
        self.assertIn("AccessDenied retention-governance", done.out)
        self.assertEqual(len(self.report("case 17 closed", "2024-02-10")["documents"]), 5)
        self.assertEqual(self.report("case 17 closed", "2024-02-10")["documents"], [])
        keys = [it["key"] for it in self.asked("ls", "office")]
        self.assertEqual(keys, ["events/case 17 closed.json", "schedule.csv"])

    def test_another_day_is_refused(self) -> None:
        self.report("case 17 closed", "2024-02-10")
        done = self.desk("event", "case 17 closed", "--on", "2024-02-11", "--yes", at=LATER)
        self.assertEqual((done.status, done.out), (1, ""))
        self.assertIn("was reported for 2024-02-10", done.err)

    def test_a_dry_run_changes_nothing_and_asks_nothing(self) -> None:
        done = self.desk("event", "case 17 closed", "--on", "2024-02-10", "--dry-run", at=LATER)
        self.assertEqual((done.status, len(done.out.splitlines())), (0, 6))
        self.assertIn("5 can't be removed by anybody before their end", done.err)
        self.assertEqual(len(self.asked("ls", "office")), 1)
        done = self.desk("event", "case 17 closed", "--on", "2024-02-10", at=LATER)
        self.assertEqual(done.status, 2)
        self.assertIn("give --yes", done.err)

    def test_an_end_that_has_passed_is_tomorrows_midnight(self) -> None:
        self.report("case 17 closed", "2001-02-10")
        self.assertEqual(self.lock("a"), ("COMPLIANCE", "2024-03-02T00:00:00Z"))

    def test_what_cant_be_an_event_is_refused(self) -> None:
        for name, day, why in (
            ("case 17 closed", "2024-03-02", "is still to come"), (" ", "2024-02-01", "is no name of an event"),
            ("x" * 1_020, "2024-02-01", "is no name of an event"), ("a\nb\x01", "2024-02-01", "is no name of an event"),
        ):  # fmt: skip
            done = self.desk("event", name, "--on", day, "--yes", at=LATER)
            self.assertEqual((done.status, done.out), (2, ""), name)
            self.assertIn(why, done.err)
