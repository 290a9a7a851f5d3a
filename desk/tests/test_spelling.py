"""Words as they are typed: help, what stands before the command, and what is misspelt."""

from __future__ import annotations

import json

from tests.office import Done, OfficeTest


class Typed(OfficeTest):
    def setUp(self) -> None:
        super().setUp()
        self.lines({"do": "put", "bucket": "docs", "key": "a", "text": "a"})

    def call(self, *words: str) -> Done:
        return self.desk(*words, at=None)

    def test_help_is_a_word_too(self) -> None:
        self.assertEqual(self.call("help"), self.call("--help"))
        self.assertIn("take in a folder of scans", self.call("help").out)
        for words in (["put"], ["rules", "add"], ["rules"]):
            done = self.call("help", *words)
            self.assertEqual((done.status, done), (0, self.call(*words, "--help")))

    def test_options_of_all_may_stand_before_the_command(self) -> None:
        after = self.call("ls", "docs", "--json", "--vault", str(self.file), "--as", "ann")
        self.assertEqual([it["key"] for it in json.loads(after.out)], ["a"])
        with self.without("VAULT"), self.without("VAULT_CALLER"):
            for words in (("--json", "--vault", str(self.file), "--as", "ann", "ls", "docs"),
                          (f"--vault={self.file}", "--as=ann", "--json", "ls", "docs"),
                          ("--vault", str(self.file), "ls", "docs", "--json", "--as", "ann")):
                self.assertEqual(self.call(*words), after, words)
            rules = ("rules", "add", "docs", "--id", "old", "--days", "3")
            self.assertEqual(self.call("--vault", str(self.file), "--as", "ann", *rules).status, 0)
        self.assertEqual(json.loads(self.call("--json", "rules", "list", "docs").out)[0]["ID"], "old")

    def test_an_audit_takes_the_vault_as_a_word_too(self) -> None:
        with self.without("VAULT"):
            for words in (("verify", str(self.file)), ("verify", "--vault", str(self.file))):
                self.assertEqual(self.call(*words).out, "sound\n")
            self.assertEqual(self.call("lawful", str(self.file)).out, "lawful\n")

    def test_the_nearest_word_is_named(self) -> None:
        for words, said in (
            (("bakup",), "no command 'bakup': is backup meant?"),
            (("help", "bakup"), "no command 'bakup': is backup meant?"),
            (("frobnicate",), "no command 'frobnicate': vaultdesk help lists what there is"),
            (("rules", "ad"), "vaultdesk rules has no 'ad': is add meant?"),
            (("ls", "docs", "--jsn"), "no option --jsn: is --json meant?"),
            (("--jsn", "ls", "docs"), "no option --jsn: is --json meant?"),
            (("--vualt", "x", "ls"), "no option --vualt: is --vault meant?"),
        ):
            done = self.call(*words)
            self.assertEqual((done.status, done.out), (2, ""), words)
            self.assertIn(said, done.err)
            self.assertLess(len(done.err), 600, words)

    def test_a_right_is_never_guessed(self) -> None:
        done = self.call("callers", "--add", "bob", "--department", "records", "--rights", "read")
        self.assertIn("read is none of admin, config, put", done.err)
        self.assertNotIn("meant?", done.err)

    def test_a_name_with_blanks_wants_quotes(self) -> None:
        done = self.call("put", "docs", "b", "a", "file.txt")
        self.assertEqual(done.status, 2)
        self.assertIn("too many words, from 'file.txt' on: a name with blanks stands in quotes", done.err)

    def test_a_number_is_a_whole_one(self) -> None:
        for words, said in (
            (("get", "docs", "a", "--version", "seventeen"), "'seventeen' is no version's number: it is a whole"),
            (("hold", "docs", "a", "--version", "0"), "'0' is no version's number: it is a whole number from 1 on"),
            (("default", "docs", "--years", "ten"), "'ten' is no whole number from 0 on"),
            (("rules", "add", "docs", "--id", "x", "--days", "9" * 20), "' is no whole number from 0 on"),
        ):
            done = self.call(*words)
            self.assertEqual(done.status, 2, done.err)
            self.assertIn(said, done.err)
            self.assertIn("\nExample: vaultdesk ", done.err)

    def test_a_rule_is_removed_by_what_it_was_added_with(self) -> None:
        for words in (("--id", "old"), ("old",)):
            self.done("rules", "add", "docs", "--id", "old", "--days", "3")
            self.done("rules", "remove", "docs", *words)
            self.assertEqual(self.done("rules", "list", "docs"), "")
        done = self.desk("rules", "remove", "docs")
        self.assertEqual((done.status, "which rule?" in done.err), (2, True))


class There(OfficeTest):
    """What there is, where something else was named."""

    def test_buckets_that_are_there_are_named(self) -> None:
        for words in (("ls", "dosc"), ("put", "dosc", "a", self.written("a.txt", b"a")), ("default", "dosc")):
            done = self.desk(*words)
            self.assertEqual(done.status, 1)
            self.assertIn("NoSuchBucket: the vault has no bucket 'dosc': ", done.err)
            self.assertIn("there are docs\n", done.err)

    def test_many_buckets_are_counted(self) -> None:
        for number in range(9):
            self.done("buckets", "--add", f"bucket-{number}", "--department", "records", "--as", "registrar")
        self.assertIn("bucket-7 and 2 more", self.desk("ls", "dosc").err.replace("docs, ", ""))

    def test_a_bucket_in_the_place_of_a_department(self) -> None:
        done = self.desk("expire", "docs")
        self.assertEqual(done.status, 1)
        self.assertIn("'docs' is a bucket, of the department records: give vaultdesk expire records", done.err)
        self.assertIn("no department 'recrods': is records meant?", self.desk("expire", "recrods").err)
        self.assertIn("no bucket of 'records' has rules: vaultdesk rules add", self.desk("expire", "records").err)

    def test_a_marker_says_how_to_read_what_is_below_it(self) -> None:
        place = {"bucket": "docs", "key": "a"}
        self.lines({"do": "put", **place, "text": "a"}, {"do": "delete", **place})
        for words in (("get", "docs", "a"), ("info", "docs", "a")):
            self.assertIn("a delete marker is on top of that key: give --version N", self.desk(*words).err)

    def test_a_version_that_isnt_there_is_named_without_a_parameter(self) -> None:
        for words in (("answer", "99"), ("history", "99")):
            done = self.desk(*words)
            self.assertEqual(done.status, 1)
            self.assertIn("no version of this vault has the number 99: vaultdesk find lists those there are", done.err)

    def test_a_vault_that_isnt_there_isnt_damaged(self) -> None:
        done = self.desk("ls", "docs", "--vault", str(self.folder / "none.vault"))
        self.assertEqual(done.status, 1)
        self.assertIn("none.vault: there is no such file: --vault or $VAULT names the vault", done.err)
        self.assertNotIn("amaged", done.err)

    def test_a_moment_that_was_given_is_the_slip(self) -> None:
        done = self.desk("ls", "docs", at="2024-01-01T00:00:00Z")
        self.assertIn("ClockBack: --at 2024-01-01T00:00:00Z is before the vault's last change", done.err)
        self.assertNotIn("clock:", done.err)
