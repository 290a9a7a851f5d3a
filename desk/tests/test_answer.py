"""The page for a court."""

from __future__ import annotations

import html.parser
import json
from typing import Any

from tests.test_evidence import Evidence

KEY = "<b>Müller</b> & 'Söhne'\u202e"


class Answer(Evidence):
    def setUp(self) -> None:
        super().setUp()
        it: dict[str, Any] = {"bucket": "docs", "key": KEY}
        self.lines(
            {"do": "add-caller", "as": "registrar", "caller": "gov", "dept": "records", "rights": [
                "get", "retain", "hold", "bypass", "delete-version"]},
            {"do": "put", **it, "text": "deed", "mode": "GOVERNANCE", "until": "2025-01-01T00:00:00Z"},
            at="2024-03-01T00:00:00Z",
        )
        it |= {"as": "gov", "id": 13}
        self.lines({"do": "set-hold", **it, "hold": "ON"}, at="2024-03-02T00:00:00Z")
        longer = {"do": "set-retention", **it, "mode": "GOVERNANCE", "until": "2026-01-01T00:00:00Z"}
        self.lines(longer, at="2024-03-03T00:00:00Z")
        self.lines({"do": "set-hold", **it, "hold": "OFF"}, at="2024-03-04T00:00:00Z")
        self.lines({"do": "delete-version", **it, "bypass": True}, at="2024-03-05T00:00:00Z")
        self.lines({"do": "delete", "bucket": "docs", "key": KEY}, at="2024-03-06T00:00:00Z")

    def guarded(self, number: int, at: str) -> str:
        return " ".join(json.loads(self.done("answer", str(number), "--json", at=at))["guarded"])

    def test_what_guarded_it_is_told_of_each_moment(self) -> None:
        wanted = {
            "2024-02-29": ["It wasn't in the vault yet: it was admitted at 2024-03-01T00:00:00Z."],
            "2024-03-01": ["records held it", "in GOVERNANCE was in force, until 2025", "by ann", "No legal hold"],
            "2024-03-02": ["A legal hold was on, put on at 2024-03-02T00:00:00Z by gov"],
            "2024-03-03": ["until 2026-01-01", "set at 2024-03-03T00:00:00Z by gov", "from 2024-03-01T00:00:00Z on",
                           "A legal hold was on"],
            "2024-03-04": ["No legal hold was on; the last one was lifted at 2024-03-04T00:00:00Z by gov"],
            "2024-03-05": ["It was no longer in the vault: it had been removed at 2024-03-05T00:00:00Z by gov",
                           "in GOVERNANCE was in force"],
        }
        for at, sentences in wanted.items():
            told = self.guarded(13, at)
            for it in sentences:
                self.assertIn(it, told, at)
        self.assertNotIn("in force", self.guarded(13, "2024-02-29"))
        self.assertNotIn("legal hold was on, put", self.guarded(13, "2024-03-04"))

    def test_compliance_and_its_end(self) -> None:
        self.assertIn("nobody could remove it", self.guarded(6, "2033-12-31T23:59:59Z"))
        self.assertIn("had ended at 2034-01-01", self.guarded(6, "2034-01-01"))
        self.assertIn("this is so if nothing was changed after it", self.guarded(6, "2034-01-01"))

    def test_a_hold_that_is_on_again_counts_from_then(self) -> None:
        days = {"ON": "2024-03-07T00:00:00Z", "OFF": "2024-03-08T00:00:00Z"}
        hold: dict[str, Any] = {"do": "set-hold", "as": "gov", "bucket": "docs", "key": "k5", "id": 6}
        self.lines(*({**hold, "at": at, "hold": it} for it, at in days.items()))
        self.lines({**hold, "hold": "ON"}, at="2024-03-09T00:00:00Z")
        self.assertIn("put on at 2024-03-07T00:00:00Z", self.guarded(6, "2024-03-07"))
        self.assertIn("lifted at 2024-03-08T00:00:00Z", self.guarded(6, "2024-03-08"))
        self.assertIn("put on at 2024-03-09T00:00:00Z", self.guarded(6, "2024-03-10"))

    def test_a_marker_has_no_lock(self) -> None:
        self.assertIn("delete marker", self.guarded(14, "2024-03-07"))
        self.assertNotIn("retention in", self.guarded(14, "2024-03-07"))

    def test_the_page_says_who_and_what_it_shows(self) -> None:
        text = self.done("answer", "13", at="2024-03-07")
        for it in ("legal hold put on", "gov", "sound", "lawful", "coherent", "shares no code", "none were given",
                   "No seal", "What this doesn't show", "neither refused commands nor reads"):
            self.assertIn(it.lower(), text.lower())
        people = json.loads(self.done("answer", "13", "--json"))["people"]
        self.assertEqual([it["caller"] for it in people], ["ann", "gov"])

    def test_seals_are_checked_with_it(self) -> None:
        self.desk("seal", "--before", "2024-03-04", "--append")
        checked = " ".join(json.loads(self.done("answer", "13", "--json"))["checked"])
        self.assertIn("1 seal of", checked)
        self.assertIn("4 of the 6 events above are before it", checked)
        copy = self.forged("UPDATE settings SET until = until - 1 WHERE id = 6")
        done = self.desk("answer", "13", "--vault", str(copy), "--json")
        self.assertEqual(done.status, 1)
        told = json.loads(done.out)
        self.assertFalse(told["good"])
        self.assertIn("shows nothing until that is explained", " ".join(told["shows"]))
        self.assertIn("differs", " ".join(told["checked"]))

    def test_a_history_that_breaks_a_rule_is_said(self) -> None:
        copy = self.forged("UPDATE settings SET caller = 'nobody' WHERE id = 13 AND n = 2")
        done = self.desk("answer", "13", "--vault", str(copy))
        self.assertEqual(done.status, 1)
        self.assertIn("unlawful 13 setter", done.out)
        self.assertNotIn("That the file has this history", done.out)

    def test_histories_that_contradict_each_other_are_said(self) -> None:
        copy = self.forged("UPDATE callers SET dept = NULL WHERE name = 'gov'")
        done = self.desk("answer", "13", "--vault", str(copy), "--json")
        told = json.loads(done.out)
        self.assertEqual((done.status, told["good"]), (1, False))
        checked = " ".join(told["checked"])
        self.assertIn("Rules: lawful", checked)
        self.assertIn("Together: not coherent. Setting 2 of version 13 is by gov of no department", checked)
        self.assertIn("is by gov of no department", done.err)

    def test_the_page_for_print_has_the_same_and_escapes_keys(self) -> None:
        page = self.folder / "answer.html"
        self.assertEqual(self.done("answer", "13", "--html", str(page), at="2024-03-07"), "")
        raw = page.read_text(encoding="utf-8")
        self.assertNotIn("<b>", raw)
        self.assertNotIn("\u202e", raw)

        class Text(html.parser.HTMLParser):
            """The text of a page."""

            text = ""

            def handle_data(self, data: str) -> None:
                self.text += data + " "

        reader = Text()
        reader.feed(raw)
        for it in (KEY.replace("\u202e", "\\u202e"), "legal hold put on", "lawful", "What this doesn't show"):
            self.assertIn(it, reader.text)
        done = self.desk("answer", "13", "--html", str(page))
        self.assertEqual(done.status, 1)
        self.assertIn("--force", done.err)
        self.assertEqual(page.read_text(encoding="utf-8"), raw)

    def test_a_file_that_isnt_sound_has_no_answer(self) -> None:
        copy = self.forged("UPDATE entries SET size = size + 1 WHERE id = 3")
        done = self.desk("answer", "13", "--vault", str(copy))
        self.assertEqual((done.status, done.out), (1, ""))
