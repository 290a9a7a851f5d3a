"""Seals, and two copies beside each other."""

from __future__ import annotations

import hashlib
import io
import json
import os
import shutil
import sqlite3
import subprocess
import sys
from pathlib import Path
from unittest import mock

from tests.office import PROGRAM, OfficeTest
from tests.test_cases import Full
from vaultdesk import beside, evidence, recheck
from vaultdesk.config import Desk
from vaultdesk.engine import Engine

DAYS = [f"2024-02-{day:02}T00:00:00Z" for day in range(1, 13)]


class Evidence(OfficeTest):
    def setUp(self) -> None:
        super().setUp()
        put = {"do": "put", "bucket": "docs", "mode": "COMPLIANCE", "until": "2034-01-01T00:00:00Z"}
        self.lines(*({**put, "at": day, "key": f"k{n}", "text": f"text {n}"} for n, day in enumerate(DAYS)))
        self.seals = self.folder / "records.seals"

    def forged(self, statement: str) -> Path:
        """A copy of the vault in which that statement was carried out, with the seals beside it."""
        copy = self.folder / "forged.vault"
        shutil.copyfile(self.file, copy)
        if self.seals.exists():
            shutil.copyfile(self.seals, copy.with_suffix(".seals"))
        base = sqlite3.connect(copy)
        self.assertEqual(base.execute(statement).rowcount, 1)
        base.commit()
        base.close()
        return copy

    def text_before(self, moment: str) -> str:
        out = io.StringIO()
        with recheck.audited(self.file) as base:
            recheck.events.write_events(base, recheck.vault.moment_of(moment), out)
        return out.getvalue()


class Verify(Evidence):
    def test_a_sound_vault_and_one_that_isnt(self) -> None:
        self.assertEqual(self.done("verify"), "sound\n")
        forged = self.forged("UPDATE departments SET held = held + 1, admitted = admitted + 1")
        done = self.desk("verify", "--vault", str(forged))
        self.assertEqual((done.status, done.out), (1, ""))
        self.assertRegex(done.err, "damaged departments: /.*/docs/formats/PROGRAM.md says what each verdict means")
        told = json.loads(self.desk("verify", "--vault", str(forged), "--json").out)
        self.assertEqual(told, {"sound": False, "verdict": "damaged departments", "of_a_copy": False})

    def test_a_file_that_isnt_there_isnt_damaged(self) -> None:
        for words in (["verify"], ["verify", "--json"], ["lawful"]):
            done = self.desk(*words, "--vault", str(self.folder / "other.vault"))
            self.assertEqual((done.status, done.out), (1, ""))
            self.assertIn("other.vault: there is no such file: --vault or $VAULT names the vault", done.err)
            self.assertNotIn("amaged", done.err)
        self.assertEqual(list(self.folder.glob("other*")), [])

    def test_while_a_program_has_it_a_copy_is_audited(self) -> None:
        with Engine(Desk(PROGRAM, self.file, "ann")) as engine:
            engine.ask("list-versions", bucket="docs")
            self.assertEqual(self.done("verify"), "sound, by a copy of the vault as it is now\n")


class Seals(Evidence):
    def test_a_seal_is_the_digest_of_what_was_before(self) -> None:
        done = self.desk("seal", "--before", "2024-02-03")
        wanted = hashlib.sha256(self.text_before("2024-02-03T00:00:00Z").encode()).hexdigest()
        lines = f"before: 2024-02-03T00:00:00Z\nentries: 2\nevents: 4\nsha256: {wanted}\n"
        self.assertEqual((done.status, done.out), (0, lines))
        self.assertIn("shares no code", done.err)
        self.assertFalse(self.seals.exists())
        last = json.loads(self.done("seal", "--json"))
        self.assertEqual((last["before"], last["entries"]), (DAYS[-1], 11))
        self.assertIn("vault-recheck", last["by"])

    def test_a_moment_that_isnt_reached_has_no_seal(self) -> None:
        done = self.desk("seal", "--before", "2024-02-12T00:00:01Z", "--append")
        self.assertEqual((done.status, done.out), (1, ""))
        self.assertFalse(self.seals.exists())
        self.assertEqual(self.desk("seal", "--before", "1969-12-31").status, 2)

    def test_seals_are_appended_once_and_never_over_others(self) -> None:
        for day in (DAYS[2], DAYS[5], DAYS[2]):
            self.assertEqual(self.desk("seal", "--before", day, "--append").status, 0)
        text = self.seals.read_text()
        self.assertEqual([line for line in text.splitlines() if line.startswith("before")],
                         [f"before: {DAYS[2]}", f"before: {DAYS[5]}"])
        self.assertEqual(self.seals.stat().st_mode & 0o777, 0o600)
        self.seals.write_text(text.replace("entries: 2", "entries: 3"))
        kept = self.seals.read_text()
        done = self.desk("seal", "--before", DAYS[2], "--append")
        self.assertEqual(done.status, 1)
        self.assertIn("another seal of that moment", done.err)
        self.assertEqual(self.seals.read_text(), kept)
        other = self.written("list.txt", b"not a seal\n")
        self.assertEqual(self.desk("seal", "--append", other).status, 1)
        self.assertEqual(Path(other).read_bytes(), b"not a seal\n")

    def test_all_seals_come_out_again_and_a_forgery_is_found(self) -> None:
        for day in DAYS:
            self.assertEqual(self.desk("seal", "--before", day, "--append").status, 0)
        self.lines({"do": "put", "bucket": "docs", "key": "later", "text": "later"}, at="2024-03-01T00:00:00Z")
        out = self.done("check-seals")
        self.assertIn(f"as sealed: 12 seals, from {DAYS[0]} to {DAYS[-1]}", out)
        self.assertIn("shares no code", out)
        copy = self.forged("UPDATE settings SET until = until - 1 WHERE id = 6")
        done = self.desk("check-seals", "--vault", str(copy), "--json")
        self.assertEqual(done.status, 1)
        found = json.loads(done.out)["differing"]
        self.assertEqual([it[:20] for it in found], DAYS[6:])

    def test_several_files_are_one_pass(self) -> None:
        one, two = str(self.folder / "one"), str(self.folder / "two")
        self.desk("seal", "--before", DAYS[3], "--append", one)
        self.desk("seal", "--before", DAYS[4], "--append", two)
        self.assertEqual(json.loads(self.done("check-seals", one, two, "--json"))["seals"], 2)
        Path(two).write_text(Path(two).read_text().replace("events: 8", "events: 9"))
        done = self.desk("check-seals", one, two)
        self.assertEqual(done.status, 1)
        self.assertIn(f"differs {DAYS[4]}", done.out)

    def test_no_seals_are_said(self) -> None:
        cut = self.written("cut", b"before: 2024-02-03T00:00:00Z\n")
        wrong: list[list[str]] = [[], [self.written("empty", b"")], [cut]]
        for words in wrong:
            done = self.desk("check-seals", *words)
            self.assertEqual((done.status, done.out), (1, ""), words)

    def test_a_file_that_isnt_sound_gets_no_seal(self) -> None:
        copy = self.forged("UPDATE entries SET size = size + 1 WHERE id = 3")
        done = self.desk("seal", "--vault", str(copy))
        self.assertEqual((done.status, done.out), (1, ""))
        self.assertIn("damaged", done.err)


class Torn(Evidence):
    """A seal that was cut as it was written, by a loss of power or a disk that was full."""

    def setUp(self) -> None:
        super().setUp()
        self.first, self.second = (self.done("seal", "--before", it, "--json") for it in (DAYS[2], DAYS[5]))
        self.seals.write_text(self.text(self.first))

    def text(self, seal: str) -> str:
        told = json.loads(seal)
        return "".join(f"{it}: {told[it]}\n" for it in ("before", "entries", "events", "sha256"))

    def test_wherever_it_was_cut_it_is_named_and_accuses_nobody(self) -> None:
        whole = self.text(self.second)
        for cut in range(1, len(whole) - 1):
            for between in ("", "\n", "\0\0\n"):
                self.seals.write_text(f"{self.text(self.first)}{whole[:cut]}{between}{whole}")
                found = evidence.read_seals(self.seals)
                self.assertEqual([it.entries for it in found.seals], [2, 5], (cut, between))
                [line] = found.torn
                self.assertRegex(line, r"^line 5: .* was cut as it was written: it isn't compared$")

    def test_the_next_one_comes_after_a_lines_end(self) -> None:
        whole = self.text(self.second)
        for cut in (3, len(whole) - 65, len(whole) - 11, len(whole) - 1):
            begun = self.text(self.first) + whole[:cut]
            self.seals.write_text(begun)
            done = self.desk("seal", "--before", DAYS[5], "--append")
            is_whole = cut == len(whole) - 1  # but for the line's end
            self.assertEqual((done.status, "was cut as it was written" in done.err), (0, not is_whole), cut)
            self.assertEqual(self.seals.read_text(), begun if is_whole else f"{begun}\n{whole}")
            self.assertEqual(self.desk("seal", "--before", DAYS[7], "--append").status, 0)
            self.assertEqual([it.entries for it in evidence.read_seals(self.seals).seals], [2, 5, 7])

    def test_those_who_check_seals_name_it(self) -> None:
        self.seals.write_text(self.text(self.first) + self.text(self.second)[:70])
        line = f"line 5: the seal of {DAYS[5]} was cut as it was written: it isn't compared"
        out = self.done("check-seals")
        self.assertIn(f"torn {self.seals}: {line}\nas sealed: 1 seal, {DAYS[2]}\n", out)
        told = json.loads(self.done("check-seals", "--json"))
        self.assertEqual((told["seals"], told["differing"], told["torn"]), (1, [], [f"{self.seals}: {line}"]))
        script = beside.place_of("vault_recheck").parent / "vault-recheck"
        words = [sys.executable, str(script), "check-seals", str(self.file), str(self.seals)]
        ran = subprocess.run(words, capture_output=True, encoding="utf-8", check=True)
        self.assertEqual(ran.stdout, f"torn {line}\nas sealed\n")
        page = self.done("answer", "1", "--seals", str(self.seals))
        self.assertIn(line, " ".join(page.split()))
        self.assertIn(f"1 seal of {self.seals}, and as sealed", " ".join(page.split()))

    def test_a_file_of_nothing_else_has_no_seal_to_check(self) -> None:
        self.seals.write_text(self.text(self.first)[:40])
        for words in (["check-seals"], ["answer", "1", "--seals", str(self.seals)]):
            done = self.desk(*words)
            self.assertEqual((done.status, done.out), (1, ""))
            self.assertIn("there is no seal; line 1: the seal of", done.err)
        self.assertIn("no seal", self.done("answer", "1"))
        self.seals.write_bytes(b"")
        self.assertEqual(self.desk("seal", "--before", DAYS[2], "--append").status, 0)
        self.assertEqual(self.seals.read_text(), self.text(self.first))

    def test_a_disk_that_is_full_leaves_whole_seals(self) -> None:
        with mock.patch("vaultdesk.evidence.open", lambda file, *_, **__: Full(file, "ab"), create=True):
            done = self.desk("seal", "--before", DAYS[5], "--append")
        self.assertEqual(done.status, 1)
        self.assertIn("No space left on device", done.err)
        self.assertEqual(self.seals.read_text(), self.text(self.first))

    def test_it_is_on_the_disk_before_that_is_said(self) -> None:
        synced = list[str]()

        def sync(descriptor: int) -> None:
            synced.append(os.readlink(f"/proc/self/fd/{descriptor}"))

        with mock.patch("os.fsync", sync):
            self.desk("seal", "--before", DAYS[5], "--append")
            self.assertEqual(synced, [str(self.seals)])
            other = self.folder / "other.seals"
            self.desk("seal", "--before", DAYS[5], "--append", str(other))
        self.assertEqual(synced[1:], [str(other), str(self.folder)])


class Compare(Evidence):
    def setUp(self) -> None:
        super().setUp()
        self.old = self.folder / "old.vault"
        shutil.copyfile(self.file, self.old)
        self.lines({"do": "put", "bucket": "docs", "key": "later", "text": "later"}, at="2024-03-01T00:00:00Z")

    def test_what_came_since_is_no_difference(self) -> None:
        out = self.done("compare", str(self.old), str(self.file))
        self.assertIn("unaltered", out)
        self.assertIn("shares no code", out)

    def test_what_was_altered_is_a_difference_each(self) -> None:
        copy = self.forged("UPDATE settings SET until = until - 1 WHERE id = 6")
        done = self.desk("compare", str(self.old), str(copy), "--json")
        self.assertEqual(done.status, 1)
        told = json.loads(done.out)
        self.assertEqual((told["unaltered"], len(told["differences"])), (False, 1))
        self.assertIn("setting 1 of version 6", told["differences"][0])

    def test_the_older_one_comes_first(self) -> None:
        done = self.desk("compare", str(self.file), str(self.old))
        self.assertEqual(done.status, 1)
        self.assertIn("entry 13 is gone", done.out)

    def test_what_cant_be_read_is_said(self) -> None:
        done = self.desk("compare", str(self.old), str(self.folder / "none"))
        self.assertEqual((done.status, done.out), (1, ""))
        self.assertIn("no file", done.err)
