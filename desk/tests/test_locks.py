"""Locks: hold, release, retain; rm and delete."""

from __future__ import annotations

import json
import shutil
import unicodedata

from tests.office import OfficeTest
from vaultdesk.output import refusals

LATER = "2024-01-15T11:00:00Z"


class Locks(OfficeTest):
    def setUp(self) -> None:
        super().setUp()
        keys = ["2024/a", "2024/b", "2025/c"]
        self.lines(*({"do": "put", "bucket": "docs", "key": it, "text": it} for it in keys))

    def held(self, key: str) -> str:
        [reply] = self.lines({"do": "get-hold", "bucket": "docs", "key": key}, at=LATER)
        return str(reply["ok"]["hold"])

    def end(self, version: int) -> str | None:
        """The end of the retention of a version of `2024/a`."""
        place = {"bucket": "docs", "key": "2024/a", "id": version}
        [reply] = self.lines({"do": "get-retention", **place}, at=LATER)
        return reply["ok"]["retention"] and str(reply["ok"]["retention"]["until"])

    def test_a_hold_by_prefix_is_set_on_those_keys_alone(self) -> None:
        rows = json.loads(self.done("hold", "docs", "--prefix", "2024/", "--json"))
        wanted = [("2024/a", 1, "no retention, hold OFF", "no retention, hold ON"),
                  ("2024/b", 2, "no retention, hold OFF", "no retention, hold ON")]
        self.assertEqual([(it["key"], it["version"], it["was"], it["is"]) for it in rows], wanted)
        self.assertEqual([self.held(it) for it in ("2024/a", "2024/b", "2025/c")], ["ON", "ON", "OFF"])

    def test_older_versions_are_meant_only_where_that_is_asked(self) -> None:
        self.lines({"do": "put", "bucket": "docs", "key": "2024/a", "text": "newer"},
                   {"do": "delete", "bucket": "docs", "key": "2024/b"})
        for more, wanted in (((), [4]), (("--all-versions",), [4, 1, 2])):
            rows = json.loads(self.done("hold", "docs", "--prefix", "2024/", "--json", *more))
            self.assertEqual([it["version"] for it in rows], wanted)

    def test_release_says_what_it_was(self) -> None:
        self.done("hold", "docs", "2024/a")
        rows = json.loads(self.done("release", "docs", "--prefix", "2024/", "--json"))
        off = "no retention, hold OFF"
        wanted = [("no retention, hold ON", off), (off, f"{off}: no hold was on")]
        self.assertEqual([(it["was"], it["is"]) for it in rows], wanted)

    def test_a_release_of_what_has_no_hold_changes_nothing(self) -> None:
        before = self.done("history", "1", at=None)
        self.assertIn("no retention, hold OFF: no hold was on", self.done("release", "docs", "2024/a"))
        self.assertEqual(self.done("history", "1", at=None), before)

    def test_a_list_names_versions(self) -> None:
        self.lines({"do": "put", "bucket": "docs", "key": "2024/a", "text": "newer"})
        listed = self.written("list.csv", "\ufeffkey,version\r\n2024/a,1\r\n2025/c,\r\n".encode())
        rows = json.loads(self.done("hold", "docs", "--from", listed, "--json"))
        self.assertEqual([it["version"] for it in rows], [1, 3])
        self.assertEqual([self.held(it) for it in ("2024/a", "2024/b", "2025/c")], ["OFF", "OFF", "ON"])
        [reply] = self.lines({"do": "get-hold", "bucket": "docs", "key": "2024/a", "id": 1}, at=LATER)
        self.assertEqual(reply["ok"]["hold"], "ON")

    def test_what_find_prints_is_a_list(self) -> None:
        self.lines({"do": "add-bucket", "as": "registrar", "bucket": "mail", "dept": "records"})
        self.lines({"do": "put", "bucket": "mail", "key": "2024/a", "text": "x"},
                   {"do": "put", "bucket": "docs", "key": "2024/a", "text": "newer"})
        found = self.desk("find", "--prefix", "2024/a", "--csv", at=None).out
        listed = self.written("found.csv", found.encode())
        rows = json.loads(self.done("hold", "--from", listed, "--json"))
        self.assertEqual([(it["bucket"], it["version"]) for it in rows], [("docs", 1), ("mail", 4), ("docs", 5)])
        done = self.desk("release", "docs", "--from", listed)
        self.assertEqual(done.status, 1)
        self.assertIn("record 3: its bucket is 'mail'", done.err)
        self.assertEqual(self.held("2024/a"), "ON")

    def test_a_list_that_isnt_one_changes_nothing(self) -> None:
        wrong = {
            b"file\n2024/a\n": "no column 'key'",
            b"key;version\n2024/a;1\n": "no column 'key'",
            b"key,version\n2024/a,1\n2024/b\n": "record 3 has 1 cells",
            b"key,version\n2024/a,1\n2024/b,two\n": "record 3: 'two' is no version's number",
            b"key,version\n2024/a,1\n,2\n": "record 3: it has no key",
            b"": "no column 'key'",
        }
        for content, why in wrong.items():
            done = self.desk("hold", "docs", "--from", self.written("list.csv", content))
            self.assertEqual(done.status, 1, content)
            self.assertIn(why, done.err)
        done = self.desk("hold", "--from", self.written("list.csv", b"key\n2024/a\n"))
        self.assertIn("no bucket is named", done.err)
        self.assertEqual([self.held(it) for it in ("2024/a", "2024/b", "2025/c")], ["OFF"] * 3)

    def test_keys_are_taken_letter_by_letter(self) -> None:
        apart = unicodedata.normalize("NFD", "M\u00fcller")
        keys = ["100%25", "100%", "M\u00fcller", apart, " a ", "a"]
        self.lines(*({"do": "put", "bucket": "docs", "key": it, "text": "x"} for it in keys))
        listed = self.written("list.csv", f"key\n100%25\n{apart}\n\" a \"\n".encode())
        self.done("hold", "docs", "--from", listed)
        self.assertEqual([self.held(it) for it in keys], ["ON", "OFF", "OFF", "ON", "ON", "OFF"])

    def test_what_is_refused_is_in_its_row_and_the_rest_is_done(self) -> None:
        listed = self.written("list.csv", b"key\n2024/a\nnowhere\n2025/c\n")
        done = self.desk("hold", "docs", "--from", listed, "--json")
        self.assertEqual(done.status, 1)
        self.assertEqual([it["is"][-2:] for it in json.loads(done.out)], ["ON", "", "ON"])
        self.assertIn("NoSuchKey", json.loads(done.out)[1]["refused"])
        self.assertIn("1 of 3", done.err)

    def test_a_dry_run_changes_nothing(self) -> None:
        self.done("hold", "docs", "--prefix", "2024/", "--dry-run")
        self.done("rm", "docs", "2024/a", "--dry-run")
        self.done("delete", "docs", "2024/a", "--version", "1", "--dry-run")
        self.done("retain", "docs", "2024/a", "--until", "2034-01-01", "--mode", "COMPLIANCE", "--dry-run")
        self.done("hold", "docs", "--prefix", "2024/", "--case", "Miller 17", "--dry-run")
        self.assertFalse((self.folder / "records.cases").exists())
        self.assertEqual((self.held("2024/a"), self.end(1)), ("OFF", None))
        found = json.loads(self.done("ls", "docs", "--json"))
        self.assertEqual([it["version"] for it in found], [1, 2, 3])

    def test_a_dry_run_has_the_engines_refusals(self) -> None:
        until = {"mode": "GOVERNANCE", "until": "2030-01-01T00:00:00Z"}
        place = {"bucket": "docs", "key": "2024/a", "id": 1}
        held = {"do": "set-hold", "bucket": "docs", "key": "2024/b", "hold": "ON"}
        eve = {"do": "add-caller", "as": "registrar", "caller": "eve", "dept": "records", "rights": ["get", "list"]}
        self.lines({"do": "set-retention", **place, **until}, held, eve)
        listed = self.written("list.csv", b"key,version\n2024/a,1\n2024/b,2\n2025/c,3\n2025/c,4\n")
        before = [self.done("history", it, at=None) for it in "123"]
        for words, causes in (
            (("delete",), ["AccessDenied retention-governance", "AccessDenied legal-hold", "", "NoSuchVersion"]),
            (("delete", "--bypass"), ["", "AccessDenied legal-hold", "", "NoSuchVersion"]),
            (("delete", "--as", "eve"), ["AccessDenied right:delete-version"] * 4),
            (("retain", "--until", "2029-01-01"), ["AccessDenied retention-governance", "", "", "NoSuchVersion"]),
            (("retain", "--until", "2020-01-01"), ["InvalidArgument"] * 3 + ["NoSuchVersion"]),
            (("hold", "--as", "eve"), ["AccessDenied right:hold"] * 3 + ["NoSuchVersion"]),
            (("release", "--as", "eve"), ["", "AccessDenied right:hold", "", "NoSuchVersion"]),
        ):
            asked = (words[0], "docs", "--from", listed, *words[1:])
            done = self.desk(*asked, "--dry-run", "--json")
            rows, count = json.loads(done.out), sum(map(bool, causes))
            self.assertEqual([it["refused"].partition(": ")[0] for it in rows], causes, words)
            self.assertEqual([it["is"].startswith("would be: ") for it in rows], [not it for it in causes], words)
            self.assertEqual((done.status, done.err), (1, f"vaultdesk {words[0]}: {count} of 4 would be refused\n"))
            self.assertEqual([self.done("history", it, at=None) for it in "123"], before)
            # What is really asked for is refused likewise.
            copy = self.folder / f"{'-'.join(words)}.vault"
            for it in ("", "-wal"):
                shutil.copy(f"{self.file}{it}", f"{copy}{it}")
            sure = ["--yes"] if words[0] in ("delete", "retain") else []
            again = self.desk(*asked, *sure, "--json", "--vault", str(copy))
            self.assertEqual([it["refused"] for it in json.loads(again.out)], [it["refused"] for it in rows], words)
        done = self.desk("rm", "docs", "--prefix", "2024/", "--as", "eve", "--dry-run")
        self.assertIn("2 of 2 would be refused", done.err)

    def test_a_dry_run_may_be_of_a_later_moment(self) -> None:
        words = ("docs", "2024/a", "--version", "1")
        self.done("retain", *words, "--until", "2034-01-01", "--mode", "COMPLIANCE", "--yes")
        for at, status in (("2033-12-31", 1), ("2034-01-01", 0)):
            self.assertEqual(self.desk("delete", *words, "--dry-run", at=at).status, status)

    def test_what_became_of_the_others_is_said_rightly(self) -> None:
        listed = self.written("list.csv", b"key,version\n2024/a,7\n2024/b,7\n")
        other = self.written("other.csv", b"key,version\n2024/a,7\n2024/b,2\n")
        for file, said in ((listed, "2 of 2 were refused: nothing was changed"),
                           (other, "1 of 2 were refused, and the others were done")):
            for words in ("hold", "release", "retain --until 2030-01-01", "delete --yes --bypass"):
                name, *more = words.split()
                done = self.desk(name, "docs", "--from", file, *more)
                self.assertEqual((done.status, done.err), (1, f"vaultdesk {name}: {said}\n"))
        self.assertEqual(refusals(["Device: the disk failed"], 1), "1 of 1 were refused")
        self.assertEqual(refusals([], 2), "")

    def test_a_refusal_fits_on_a_page(self) -> None:
        self.done("retain", "docs", "--prefix", "2024/", "--until", "2034-01-01", "--mode", "COMPLIANCE", "--yes")
        listed = self.written("list.csv", b"key,version\n2024/a,1\n2024/b,2\n2025/c,9\n")
        lines = self.desk("delete", "docs", "--from", listed, "--yes").out.splitlines()
        self.assertEqual(lines[0].split(), ["version", "was", "is", "refused", "key"])
        self.assertEqual(lines[1].split(), ["1", "AccessDenied", "retention-compliance", "2024/a"])
        self.assertRegex(lines[4], "^AccessDenied retention-compliance: a retention in COMPLIANCE is in force: ")
        self.assertLess(max(map(len, lines)), 100)
        self.assertEqual(sum("is in force" in it for it in lines), 1)
        self.assertRegex([it for it in lines if not it.startswith(" ")][-1], "^NoSuchVersion: ")

    def test_another_mode_than_the_buckets_is_said(self) -> None:
        self.done("default", "docs", "--years", "2", "--mode", "COMPLIANCE", "--yes")
        words = ("retain", "docs", "--prefix", "2024/", "--until", "2030-01-01")
        said = "the mode is GOVERNANCE, and the default of docs is COMPLIANCE for 2 years"
        for more in ((), ("--dry-run",)):
            done = self.desk(*words, *more)
            self.assertEqual((done.status, done.err.count(said)), (0, 1))
        rows = json.loads(self.desk(*words, "--json").out)
        self.assertEqual([it["note"].partition(":")[0] for it in rows], [said] * 2)
        done = self.desk("retain", "docs", "2024/a", "--mode", "COMPLIANCE", "--bypass", "--yes")
        self.assertEqual((done.status, "--until" in done.err), (2, True))
        self.done(*words, "--mode", "COMPLIANCE", "--bypass", "--yes")

    def test_a_far_end_is_asked_for(self) -> None:
        done = self.desk("retain", "docs", "2024/a", "--until", "2337-01-01")
        self.assertEqual(done.status, 2)
        self.assertIn("2337", done.err)
        self.done("retain", "docs", "2024/a", "--until", "2055-01-01")

    def test_compliance_is_asked_for(self) -> None:
        done = self.desk("retain", "docs", "2024/a", "--until", "2034-01-01", "--mode", "COMPLIANCE")
        self.assertEqual(done.status, 2)
        self.assertIn("--yes", done.err)
        self.done("retain", "docs", "2024/a", "--until", "2034-01-01", "--mode", "COMPLIANCE", "--yes")
        done = self.desk("delete", "docs", "2024/a", "--version", "1", "--yes")
        self.assertEqual(done.status, 1)
        self.assertIn("retention-compliance", done.out)

    def test_governance_gives_way_only_where_that_is_asked(self) -> None:
        self.lines({"do": "put", "bucket": "docs", "key": "2024/a", "text": "newer"})
        one = ("docs", "2024/a", "--version", "1")
        self.done("retain", *one, "--until", "2034-01-01")
        self.assertEqual((self.end(1), self.end(4)), ("2034-01-01T00:00:00Z", None))
        for words in (("retain", *one, "--until", "2030-01-01"), ("delete", *one, "--yes")):
            done = self.desk(*words)
            self.assertEqual(done.status, 1)
            self.assertIn("retention-governance", done.out)
            self.assertEqual(self.end(1), "2034-01-01T00:00:00Z")
        self.done("retain", *one, "--until", "2030-01-01", "--bypass")
        self.assertEqual(self.end(1), "2030-01-01T00:00:00Z")
        self.done("delete", *one, "--yes", "--bypass")

    def test_rm_marks_and_delete_removes(self) -> None:
        self.done("rm", "docs", "2024/a")
        for words in (["2024/b", "--yes"], ["2024/b", "--version", "2"]):
            self.assertEqual(self.desk("delete", "docs", *words).status, 2)
        self.done("delete", "docs", "2024/b", "--version", "2", "--yes")
        found = json.loads(self.done("ls", "docs", "--json"))
        self.assertEqual([(it["version"], it["kind"]) for it in found], [(4, "marker"), (1, "older"), (3, "current")])

    def test_one_way_to_name_versions_is_wanted(self) -> None:
        wrong: list[list[str]] = [[], ["2024/a", "--prefix", "2024/"], ["--prefix", "2024/", "--version", "1"]]
        for words in wrong:
            self.assertEqual(self.desk("hold", "docs", *words).status, 2, words)
        self.assertEqual(self.desk("hold", "--prefix", "2024/").status, 2)
        self.assertEqual(self.desk("release").status, 2)
        self.assertEqual(self.held("2024/a"), "OFF")
