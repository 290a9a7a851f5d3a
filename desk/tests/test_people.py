"""Who is who: persons for callers, and the office's name, on the pages that people read."""

from __future__ import annotations

import json
import os
from unittest import mock

from tests.office import OfficeTest

JULY, AUGUST = "2024-07-01T10:00:00Z", "2024-08-01T10:00:00Z"


class People(OfficeTest):
    """A bucket of the office's own documents, and settings with the office's name."""

    def setUp(self) -> None:
        super().setUp()
        settings = self.written("desk.toml", b'[office]\nname = "City <Archive>"\n')
        self.enterContext(mock.patch.dict(os.environ, {"VAULTDESK_SETTINGS": settings}))
        self.lines({"do": "add-bucket", "as": "registrar", "bucket": "office", "dept": "records"})

    def listed(self) -> list[list[str]]:
        return [list(it.values()) for it in json.loads(self.done("people", "list", "--json"))]

    def note(self, *words: str, at: str = JULY) -> None:
        """Notes a person; what is said beside it doesn't matter."""
        done = self.desk("people", "add", *words, at=at)
        self.assertEqual(done.status, 0, done.err)

    def test_who_comes_later_ends_who_was_before(self) -> None:
        self.note("ann", "Anna  Berg", "--from", "2024-01-01")
        done = self.desk("people", "add", "ann", "Ben Kurz", "--from", "2024-07-01", at=JULY)
        said = "ann is Ben Kurz from 2024-07-01: version 2 of people.csv in office\n"
        self.assertEqual((done.status, done.out), (0, said))
        self.assertIn("ann is Anna Berg until 2024-07-01", done.err)
        self.assertEqual(self.listed(), [
            ["ann", "Anna Berg", "2024-01-01T00:00:00Z", "2024-07-01T00:00:00Z"],
            ["ann", "Ben Kurz", "2024-07-01T00:00:00Z", ""],
        ])  # fmt: skip
        # Each change is a version of the document: what was noted before stays.
        self.assertEqual(self.done("get", "office", "people.csv", "--version", "1", at=JULY).count("Kurz"), 0)

    def test_an_end_is_set_by_the_same_words(self) -> None:
        self.note("ann", "Anna Berg", "--from", "2024-01-01")
        self.note("ann", "Anna Berg", "--from", "2024-01-01", "--until", "2024-06-01")
        self.assertEqual(self.listed(), [["ann", "Anna Berg", "2024-01-01T00:00:00Z", "2024-06-01T00:00:00Z"]])

    def test_nobody_is_two_persons_at_a_time(self) -> None:
        self.note("ann", "Anna Berg", "--from", "2024-03-01", "--until", "2024-06-01")
        for since, until in (("2024-02-01", "2024-03-02"), ("2024-05-31", ""), ("2024-02-01", "")):
            words = ["ann", "Ben", "--from", since, *(["--until", until] if until else [])]
            done = self.desk("people", "add", *words, at=JULY)
            self.assertEqual((done.status, done.out), (1, ""), words)
            self.assertIn("ann is Anna Berg from 2024-03-01 until 2024-06-01", done.err)
        self.assertEqual(len(self.listed()), 1)
        self.note("ann", "Ben", "--from", "2024-02-01", "--until", "2024-03-01")
        self.note("ann", "Cem", "--from", "2024-06-01")
        self.assertEqual([it[1] for it in self.listed()], ["Ben", "Anna Berg", "Cem"])

    def test_what_cant_be_noted_is_refused(self) -> None:
        for words, why in (
            (["zed", "Zed"], "the vault has no caller 'zed'"),
            (["ann", "  "], "a person has a name"),
            (["ann", "A", "--from", "2024-02-01", "--until", "2024-02-01"], "isn't after"),
        ):
            done = self.desk("people", "add", *words, at=JULY)
            self.assertNotEqual(done.status, 0)
            self.assertIn(why, done.err)
        self.assertEqual(self.listed(), [])

    def test_a_department_without_such_a_bucket_learns_how(self) -> None:
        self.lines(
            {"do": "add-dept", "as": "registrar", "dept": "court"},
            {"do": "add-caller", "as": "registrar", "caller": "cid", "dept": "court", "rights": ["put", "get"]},
        )
        done = self.desk("people", "add", "cid", "Cid", "--as", "cid", at=JULY)
        self.assertEqual(done.status, 1)
        self.assertIn("vaultdesk buckets --add office-court --department court", done.err)
        self.lines({"do": "add-bucket", "as": "registrar", "bucket": "office-court", "dept": "court"}, at=JULY)
        self.note("cid", "Cid Bond", "--as", "cid")
        self.note("ann", "Anna Berg")
        self.assertEqual([it[1] for it in self.listed()], ["Anna Berg", "Cid Bond"])

    def test_pages_name_the_person_of_the_moment_and_the_office(self) -> None:
        self.note("ann", "Anna Berg", "--from", "2024-01-01", at="2024-01-16T00:00:00Z")
        self.note("ann", "Ben Kurz", "--from", "2024-07-01", at="2024-01-16T00:00:00Z")
        self.lines({"do": "put", "bucket": "docs", "key": "a", "text": "deed"}, at="2024-02-01T00:00:00Z")
        self.lines({"do": "delete-version", "bucket": "docs", "key": "a", "id": 3}, at=JULY)
        found = json.loads(self.done("answer", "3", "--json", at=AUGUST))
        self.assertEqual([it["who"] for it in found["life"]], ["ann (Anna Berg)", "ann (Anna Berg)", "ann (Ben Kurz)"])
        self.assertEqual(found["people"][0]["person"], "Anna Berg, Ben Kurz")
        self.assertEqual(found["document"]["office"], "City <Archive>")
        self.done("certificates", str(self.folder / "out"), at=AUGUST)
        page = (self.folder / "out" / "certificates.html").read_text(encoding="utf-8")
        persons = ("<th>admitted by</th><td>Anna Berg (ann)", "<th>removed by</th><td>Ben Kurz (ann)")
        for it in ("City &lt;Archive&gt;", *persons):
            self.assertIn(it, page)
        self.done("page", str(self.file), str(self.folder / "page.html"), at=AUGUST)
        page = (self.folder / "page.html").read_text(encoding="utf-8")
        self.assertIn("<p>City &lt;Archive&gt;</p>", page)
        self.assertIn("Anna Berg from 2024-01-01 until 2024-07-01; Ben Kurz from 2024-07-01", page)

    def test_where_nobody_is_noted_pages_are_as_before(self) -> None:
        self.lines({"do": "put", "bucket": "docs", "key": "a", "text": "deed"})
        found = json.loads(self.done("answer", "1", "--json", at=AUGUST))
        self.assertEqual(list(found["people"][0]), ["caller", "department", "state", "rights"])
        self.assertEqual(found["life"][0]["who"], "ann")

    def test_settings_that_mean_nothing_are_refused(self) -> None:
        for text, why in (
            ('[office]\nfields = "Box"\n', "fields"), ("office = 1\n", "[office]"),
            ("[office]\nname = 1\n", "name is no text"), ('[office]\nkeep = "long"\n', "'long' is no period"),
        ):  # fmt: skip
            settings = self.written("wrong.toml", text.encode())
            with mock.patch.dict(os.environ, {"VAULTDESK_SETTINGS": settings}):
                done = self.desk("people", "list")
            self.assertEqual((done.status, done.out), (2, ""), text)
            self.assertIn(why, done.err)
