"""Finding versions by what one knows of them."""

from __future__ import annotations

import csv
import hashlib
import io
import json
import shutil
import unicodedata
from typing import Any
from unittest import mock

from tests.office import OfficeTest

APART = unicodedata.normalize("NFD", "2024/Müller")
KEYS = ("2024/100%_a", "2024/100xyb", "2024/Müller", APART, "2025/%41", "2025/=1+1;\"x\"")


class Find(OfficeTest):
    def setUp(self) -> None:
        super().setUp()
        self.lines({"do": "add-bucket", "as": "registrar", "bucket": "mail", "dept": "records"})
        put = {"do": "put", "bucket": "docs"}
        days = enumerate(KEYS, start=1)
        self.lines(*({**put, "at": f"2024-02-{n:02}T09:00:00Z", "key": key, "text": f"text {n}"} for n, key in days))
        self.lines(
            {"do": "put", "bucket": "mail", "key": "2024/Müller", "text": "text 3"},
            {"do": "delete", "bucket": "docs", "key": "2025/%41"},
            {"do": "delete-version", "bucket": "docs", "key": "2024/100xyb", "id": 2},
            at="2024-03-01T09:00:00Z",
        )

    def found(self, *words: str) -> list[int]:
        return [it["version"] for it in json.loads(self.done("find", *words, "--json", at=None))]

    def test_a_prefix_and_a_text_are_taken_letter_by_letter(self) -> None:
        self.assertEqual(self.found("--prefix", "2024/100%_"), [1])
        self.assertEqual(self.found("100%"), [1])
        self.assertEqual(self.found("_"), [1])
        self.assertEqual(self.found("%41"), [5])
        self.assertEqual(self.found("--prefix", "024/"), [])
        self.assertEqual(self.found("024/1"), [1, 2])

    def test_letters_in_another_form_are_other_letters_unless_asked(self) -> None:
        self.assertEqual(self.found("Müller"), [3, 7])
        self.assertEqual(self.found(unicodedata.normalize("NFD", "Müller")), [4])
        self.assertEqual(self.found("müller"), [])
        self.assertEqual(self.found("-i", "MÜLLER"), [3, 4, 7])

    def test_keys_are_printed_as_they_are(self) -> None:
        rows = json.loads(self.done("find", "--bucket", "docs", "--json", at=None))
        self.assertEqual([it["key"] for it in rows], list(KEYS))
        table = list(csv.DictReader(io.StringIO(self.done("find", "--bucket", "docs", "--csv", at=None), newline="")))
        self.assertEqual([it["key"] for it in table], list(KEYS))

    def test_content_is_found_by_its_digest_or_a_file(self) -> None:
        digest = hashlib.sha256(b"text 3").hexdigest()
        for words in (["--sha256", digest], ["--sha256", digest[:8].upper()]):
            self.assertEqual(self.found(*words), [3, 7], words)
        self.assertEqual(self.found("--same-as", self.written("scan", b"text 3")), [3, 7])
        self.assertEqual(self.found("--same-as", self.written("scan", b"text 33")), [])
        for wrong in ("", "abc", "x" * 64, digest + "0", "%" * 8):
            self.assertEqual(self.desk("find", "--sha256", wrong).status, 2, wrong)
        missing = self.desk("find", "--same-as", str(self.folder / "none"))
        self.assertEqual((missing.status, missing.out), (1, ""))

    def test_a_file_that_no_version_can_be_is_no_wrong_no(self) -> None:
        for size, status in ((1_048_576, 0), (1_048_577, 1)):
            done = self.desk("find", "--same-as", self.written("scan", b"x" * size), "--json", at=None)
            self.assertEqual((done.status, "in parts alone" in done.err), (status, bool(status)), size)

    def test_where_nothing_is_found_it_says_so(self) -> None:
        nothing = "nothing was found"
        for words, said in (
            (("müller",), f"{nothing} letter by letter: with -i there are 3\n"),
            (("müller", "--bucket", "mail"), f"{nothing} letter by letter: with -i there are 1\n"),
            (("-i", "meier"), f"{nothing}\n"), (("meier",), f"{nothing}\n"),
            (("--removed", "--bucket", "mail"), f"{nothing}\n"),
        ):  # fmt: skip
            done = self.desk("find", *words, at=None)
            self.assertEqual((done.status, done.out, done.err), (0, "", said), words)
        self.assertEqual(self.desk("find", "meier", "--csv", at=None).err, f"{nothing}\n")

    def test_dates_have_a_first_moment_and_one_that_is_left_out(self) -> None:
        self.assertEqual(self.found("--since", "2024-02-03T09:00:00Z", "--before", "2024-02-05T09:00:00Z"), [3, 4])
        self.assertEqual(self.found("--before", "2024-02-02"), [1])
        self.assertEqual(self.found("--since", "2024-02-06"), [6, 7])
        self.assertEqual(self.desk("find", "--since", "03.02.2024").status, 2)

    def test_held_and_removed_are_told_apart(self) -> None:
        self.assertEqual(self.found("--bucket", "docs", "--held"), [1, 3, 4, 5, 6])
        self.assertEqual(self.found("--removed"), [2])
        self.assertIn("removed 2024-03-01T09:00:00Z", self.done("find", "100xyb", at=None))
        self.assertEqual(self.found("%41", "--markers"), [5, 8])
        self.assertEqual(self.found("--bucket", "nowhere"), [])

    def test_nobody_has_to_ask(self) -> None:
        with self.without("VAULT_CALLER"):
            self.assertEqual(self.found("--removed"), [2])
            done = self.desk("ls", "docs")
            self.assertEqual(done.status, 2)
            self.assertIn("--as", done.err)
        with self.without("VAULT"):
            done = self.desk("find", "x")
            self.assertEqual(done.status, 2)
            self.assertIn("--vault", done.err)

    def test_a_file_on_a_medium_that_cant_be_written_is_read(self) -> None:
        medium = self.folder / "medium"
        medium.mkdir()
        copy = medium / "records.vault"
        shutil.copyfile(self.file, copy)
        with mock.patch("vault_recheck.vault.is_read_only", return_value=True):
            self.assertEqual(self.found("--removed", "--vault", str(copy)), [2])
            self.assertEqual([it.name for it in medium.iterdir()], ["records.vault"])
            (medium / "records.vault-wal").write_bytes(b"some changes")
            done = self.desk("find", "--removed", "--vault", str(copy))
        self.assertEqual(done.status, 0)
        self.assertIn("only in the log is left out", done.err)

    def test_a_file_that_is_no_vault_or_isnt_there_is_said(self) -> None:
        for name in (str(self.folder / "none"), self.written("text", b"no vault, but a text of some bytes")):
            done = self.desk("find", "x", "--vault", name)
            self.assertEqual((done.status, done.out), (1, ""), name)
            self.assertIn(name, done.err)


class Held(OfficeTest):
    def setUp(self) -> None:
        super().setUp()
        it: dict[str, Any] = {"do": "put", "bucket": "docs"}
        first = {**it, "key": "a", "text": "x", "mode": "GOVERNANCE", "until": "2024-03-01T00:00:00Z"}
        self.lines(first, {**it, "key": "b%", "text": "xy", "hold": "ON"}, {**it, "key": "c", "text": "z"},
                   at="2024-02-01T00:00:00Z")
        self.lines({"do": "set-hold", "bucket": "docs", "key": "b%", "hold": "OFF"},
                   {"do": "delete-version", "bucket": "docs", "key": "c", "id": 3}, at="2024-02-10T00:00:00Z")

    def told(self, *words: str, at: str) -> list[tuple[Any, ...]]:
        rows = json.loads(self.done("held", *words, "--json", at=at))
        return [(it["version"], it["retention"], it["hold"]) for it in rows]

    def test_each_moment_has_its_locks(self) -> None:
        before = [(1, "GOVERNANCE", "OFF"), (2, "-", "ON"), (3, "-", "OFF")]
        self.assertEqual(self.told(at="2024-02-09"), before)
        self.assertEqual(self.told(at="2024-03-01"), [(1, "ended", "OFF"), (2, "-", "OFF")])
        self.assertEqual(self.told(at="2024-01-31"), [])

    def test_what_is_asked_for_alone_is_listed(self) -> None:
        day = "2024-02-09"
        self.assertEqual([it[0] for it in self.told("--on-hold", at=day)], [2])
        self.assertEqual([it[0] for it in self.told("--prefix", "b%", at=day)], [2])
        self.assertEqual([it[0] for it in self.told("--ends-before", "2024-03-01T00:00:01Z", at=day)], [1, 2, 3])
        self.assertEqual([it[0] for it in self.told("--ends-before", "2024-03-01", at=day)], [2, 3])
        self.assertEqual(self.told("--bucket", "nowhere", at=day), [])
        self.assertEqual(len(self.told("--department", "records", at=day)), 3)

    def test_it_is_a_list_for_holds(self) -> None:
        listed = self.written("held.csv", self.done("held", "--csv", at="2024-03-01").encode())
        rows = json.loads(self.done("hold", "docs", "--from", listed, "--json", at="2024-03-01"))
        self.assertEqual([it["version"] for it in rows], [1, 2])
