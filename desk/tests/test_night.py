"""The night's work, and copies."""

from __future__ import annotations

import contextlib
import datetime as dt
import io
import json
import os
import shutil
import sqlite3
import subprocess
import tempfile
import time
import unittest
from collections.abc import Callable, Iterator
from contextlib import closing
from pathlib import Path
from typing import Any
from unittest import mock

from tests.machine import STOPPED_AND_STARTED, MachineTest
from tests.office import PROGRAM
from vaultdesk import night, reading
from vaultdesk.config import Desk
from vaultdesk.engine import Engine
from vaultdesk.errors import DeskError


def ago(days: float) -> str:
    """A moment that many days before now."""
    moment = dt.datetime.now(dt.timezone.utc) - dt.timedelta(days=days)
    return moment.strftime("%Y-%m-%dT%H:%M:%SZ")


@contextlib.contextmanager
def little_room(folder: Path) -> Iterator[None]:
    """A disk with a folder that has ten bytes free; others have room."""
    found = shutil.disk_usage

    def usage(path: Path) -> Any:
        return found(path)._replace(free=10) if Path(path) == folder else found(path)

    with mock.patch("shutil.disk_usage", usage):
        yield


PARTS = ["look_at_clock", "warn_of_memory", "carry_out", "note", "make_copy", "remove_old", "make_seal"]


class Parts(unittest.TestCase):
    """Which parts of a night are done after one that wasn't, of which nothing is carried out here."""

    def work(self, fails: str, fault: Exception = DeskError("it fails")) -> tuple[int, list[str]]:
        """The status of a night of which that part fails, and its parts in their order."""
        done: list[str] = []

        def part(name: str) -> Callable[..., None]:
            def carried_out(*_: object) -> None:
                done.append(name)
                if name == fails:
                    raise fault

            return carried_out

        with contextlib.ExitStack() as stack:
            for it in PARTS:
                stack.enter_context(mock.patch.object(night.Night, it, part(it)))
            as_it_is = mock.patch("vaultdesk.snapshot.readable", lambda file, _: contextlib.nullcontext(file))
            stack.enter_context(as_it_is)
            name = stack.enter_context(tempfile.TemporaryDirectory())
            served = mock.Mock(folder=Path(name), file=Path(name) / "records.vault")
            served.name = "records"
            with contextlib.redirect_stderr(io.StringIO()):
                status = night.Night(served, is_sure=True, goes_on=False).work()
        return status, done

    def test_no_copy_is_removed_where_none_was_made(self) -> None:
        self.assertEqual(self.work("nothing"), (0, PARTS))
        self.assertEqual(self.work("make_copy"), (1, [it for it in PARTS if it != "remove_old"]))

    def test_by_a_wrong_clock_nothing_is_removed(self) -> None:
        wanted = ["look_at_clock", "warn_of_memory", "make_copy", "make_seal"]
        self.assertEqual(self.work("look_at_clock"), (1, wanted))

    def test_what_fails_makes_the_night_fail(self) -> None:
        for name in ("carry_out", "note", "remove_old", "make_seal"):
            for fault in (DeskError("it fails"), OSError(28, "No space left on device", "/x")):
                status, done = self.work(name, fault)
                self.assertEqual((status, done), (1, PARTS), name)


class Night(MachineTest):
    def setUp(self) -> None:
        super().setUp()
        rule = {"ID": "old", "Status": "Enabled", "Prefix": "", "Expiration": {"Days": 30}}
        self.lines(
            {"do": "add-dept", "as": "registrar", "dept": "court"},
            {"do": "add-caller", "as": "registrar", "caller": "night", "dept": "records", "rights": ["run"]},
            {"do": "add-caller", "as": "registrar", "caller": "night-court", "dept": "court", "rights": ["run"]},
            {"do": "add-bucket", "as": "registrar", "bucket": "cases", "dept": "court"},
            {"do": "set-rules", "bucket": "docs", "rules": [rule]},
            {"do": "put", "bucket": "docs", "key": "2024/a", "text": "hello"},
        )
        # A day of yesterday, as a clock that is far ahead of all that is known carries out nothing.
        self.lines({"do": "put", "bucket": "docs", "key": "new", "text": "new"}, at=ago(1))
        self.configure(BUCKETS="docs cases:night-court")

    def keys_marked(self) -> list[str]:
        """The keys with a delete marker on top."""
        with closing(sqlite3.connect(f"{self.file.as_uri()}?mode=ro", uri=True)) as base:
            return [key for (key,) in base.execute("SELECT key FROM entries WHERE marker ORDER BY id")]

    def test_rules_of_two_departments_and_a_copy(self) -> None:
        self.set_state("active")
        done = self.desk("night", "records", "--json", at=None)
        self.assertEqual((done.status, done.err), (0, ""))
        told = json.loads(done.out)
        wanted = [{"bucket": "docs", "marked": 1, "removed": 0, "lone": 0}]
        self.assertEqual(told["rules"], [*wanted, {"bucket": "cases", "marked": 0, "removed": 0, "lone": 0}])
        self.assertEqual(self.keys_marked(), ["2024/a"])
        self.assertEqual(self.asked(), STOPPED_AND_STARTED)
        found = subprocess.run([PROGRAM, "verify", told["copy"]], capture_output=True, text=True, check=True)
        self.assertEqual(found.stdout, "sound\n")
        self.assertEqual([it.stat().st_mode & 0o777 for it in self.made()], [0o600] * len(self.made()))

    def test_a_server_that_did_not_run_is_not_started(self) -> None:
        self.done("night", "records", at=None)
        self.assertEqual(self.asked(), [])

    def test_one_that_is_refused_is_named_and_the_others_are_done(self) -> None:
        self.configure(BUCKETS="cases docs")
        done = self.desk("night", "records", at=None)
        self.assertEqual(done.status, 1)
        self.assertIn("the rules of cases weren't carried out to their end: AccessDenied department", done.err)
        self.assertIn("docs: 1 marked", done.out)
        self.assertEqual(len(self.made()[:1]), 1)

    def test_what_is_no_bucket_is_passed_to_nobody(self) -> None:
        self.configure(BUCKETS="docs *")
        done = self.desk("night", "records", at=None)
        self.assertEqual(done.status, 1)
        self.assertIn("BUCKETS has *", done.err)
        self.assertEqual(self.keys_marked(), [])
        self.assertTrue(self.made())

    def refused_by_the_clock(self, why: str) -> None:
        """No rule is carried out, for that reason; the copy is made all the same."""
        done = self.desk("night", "records", at=None)
        self.assertEqual(done.status, 1)
        self.assertIn(why, done.err)
        self.assertIn("no rule of the vault records was carried out", done.err)
        self.assertEqual(self.keys_marked(), [])
        self.assertTrue(self.made())
        for it in self.made():
            it.unlink()

    def test_a_clock_that_nothing_synchronizes(self) -> None:
        (self.machine / "synchronized").write_text("no\n")
        self.refused_by_the_clock("isn't synchronized")
        self.configure(BUCKETS="docs", TRUST_CLOCK="yes")
        self.done("night", "records", at=None)
        self.assertEqual(self.keys_marked(), ["2024/a"])

    def test_a_clock_that_is_behind(self) -> None:
        self.lines({"do": "put", "bucket": "docs", "key": "later", "text": "x"}, at=ago(-1))
        self.refused_by_the_clock("is before the vault's last change")

    def test_a_clock_that_is_far_ahead(self) -> None:
        self.configure(BUCKETS="docs", MAX_JUMP="0")
        self.refused_by_the_clock("is more than 0 days past")
        self.done("night", "records", "--clock-is-right", at=None)
        self.assertEqual(self.keys_marked(), ["2024/a"])

    def test_the_last_night_is_known(self) -> None:
        self.configure(BUCKETS="docs", MAX_JUMP="0")
        mark = self.folder / "records.night"
        mark.touch()
        # A second may pass before the night looks at it.
        os.utime(mark, (time.time() + 30, time.time() + 30))
        self.done("night", "records", at=None)
        self.assertLess(time.time() - mark.stat().st_mtime, 60)

    def test_where_its_mark_cant_be_made_the_rest_is_done(self) -> None:
        mark = self.folder / "records.night"
        mark.symlink_to(self.folder / "none" / "night")
        done = self.desk("night", "records", "--json", at=None)
        told = json.loads(done.out)
        self.assertEqual((done.status, self.keys_marked()), (1, ["2024/a"]))
        self.assertTrue(told["copy"] and told["seal"], told)
        self.assertIn(f"vaultdesk night: {mark}: No such file or directory: this night isn't noted", done.err)

    def test_where_its_copy_has_no_room_the_rest_is_done(self) -> None:
        with little_room(self.copies):
            done = self.desk("night", "records", "--json", at=None)
        told = json.loads(done.out)
        self.assertEqual((done.status, self.keys_marked(), told["copy"]), (1, ["2024/a"], None))
        self.assertEqual(told["seal"]["entries"], 2)
        size = sum(Path(f"{self.file}{it}").stat().st_size for it in ("", "-wal"))
        self.assertIn(f"{self.copies} has 10 bytes free, and a copy of the vault takes {size:,} there", done.err)
        self.assertEqual(self.made(), [])

    def test_a_seal_that_was_cut_stops_no_night(self) -> None:
        seals = self.folder / "records.seals"
        seals.write_text("before: 2024-01-15T09:00:00Z\nentries: 1\nev")
        done = self.desk("night", "records", at=None)
        line = "line 1: the seal of 2024-01-15T09:00:00Z was cut as it was written: it isn't compared"
        self.assertEqual((done.status, done.err), (0, f"{seals}: {line}\n"))
        self.assertIn("as sealed: 1 seal", self.done("check-seals", at=None))

    def test_a_dry_run_changes_nothing(self) -> None:
        old = self.copies / "records-20200101T000000Z.vault"
        self.copies.mkdir()
        old.touch()
        self.configure(BUCKETS="docs", KEEP="1")
        before = self.file.read_bytes()
        told = json.loads(self.done("night", "records", "--dry-run", "--json", at=None))
        self.assertEqual([(it["what"], it["key"]) for it in told["rules"]], [("marked", "2024/a")])
        self.assertEqual(told["copies_removed"], [str(old)])
        self.assertEqual((self.file.read_bytes(), self.made()), (before, [old]))

    def test_each_night_seals_what_was_before(self) -> None:
        seals = self.folder / "records.seals"
        told = json.loads(self.done("night", "records", "--json", at=None))["seal"]
        first = [f"{it}: {told[it]}" for it in ("before", "entries", "events", "sha256")]
        self.assertEqual(seals.read_text(encoding="utf-8").splitlines(), first)
        self.assertEqual((told["entries"], seals.stat().st_mode & 0o777), (2, 0o600))
        self.lines({"do": "put", "bucket": "docs", "key": "b", "text": "b"}, at=ago(-1))
        self.desk("night", "records", at=None)
        text = seals.read_text(encoding="utf-8").splitlines()
        self.assertEqual((text[:4], len(text)), (first, 8))
        self.assertIn("as sealed: 2 seals", self.done("check-seals", at=None))

    def test_a_night_that_finds_another_seal_says_so(self) -> None:
        self.done("night", "records", at=None)
        with closing(sqlite3.connect(self.file)) as base:
            base.execute("UPDATE entries SET admitted_by = 'registrar' WHERE id = 1")
            base.commit()
        self.configure(BUCKETS="")
        done = self.desk("night", "records", at=None)
        self.assertEqual(done.status, 1)
        self.assertIn("has another seal of that moment", done.err)

    def test_the_newest_copies_stay(self) -> None:
        self.copies.mkdir()
        others = ["records-2-20200101T000000Z.vault", "records-20200101T000000Z.vault.damaged", "records-old.vault"]
        old = [f"records-20200{it}01T000000Z.vault" for it in (1, 2, 3)]
        for it in [*others, *old, f"{old[0]}-wal"]:
            (self.copies / it).touch()
        self.configure(KEEP="2")
        copy = Path(self.done("night", "records", at=None).splitlines()[0])
        there = {it.name for it in self.made() if it.name != f"{copy.name}-wal"}
        self.assertEqual(there, {*others, old[2], copy.name})

    def test_a_number_of_copies_that_is_none_removes_nothing(self) -> None:
        self.copies.mkdir()
        (self.copies / "records-20200101T000000Z.vault").touch()
        self.configure(KEEP="x")
        self.assertEqual(self.desk("night", "records", at=None).status, 1)
        self.assertIn("records-20200101T000000Z.vault", [it.name for it in self.made()])

    def test_want_of_memory_is_said_before_it_comes(self) -> None:
        little = Path(self.written("meminfo", b"MemTotal: 1 kB\nMemAvailable:          0 kB\n"))
        before, night.MEMORY = night.MEMORY, little
        self.addCleanup(setattr, night, "MEMORY", before)
        done = self.desk("night", "records", at=None)
        self.assertEqual(done.status, 0)
        self.assertIn("the vault holds 8 bytes, and 0 bytes of memory are free", done.err)


class Backup(MachineTest):
    def test_a_copy_is_the_owners_alone(self) -> None:
        copy = Path(self.done("backup", str(self.file), str(self.copies), at=None).strip())
        self.assertRegex(copy.name, r"^records-\d{8}T\d{6}Z\.vault$")
        self.assertEqual((copy.stat().st_mode & 0o777, self.copies.stat().st_mode & 0o777), (0o600, 0o700))

    def test_one_is_made_while_a_program_has_the_vault(self) -> None:
        with closing(sqlite3.connect(self.file, isolation_level=None)) as base:
            base.execute("PRAGMA locking_mode=EXCLUSIVE")
            base.execute("BEGIN EXCLUSIVE")
            copy = self.done("backup", str(self.file), str(self.copies), at=None).strip()
        found = subprocess.run([PROGRAM, "verify", copy], capture_output=True, text=True, check=True)
        self.assertEqual(found.stdout, "sound\n")

    def test_what_is_only_in_the_log_comes_from_a_medium_that_cant_be_written(self) -> None:
        medium = self.folder / "medium"
        medium.mkdir()
        with Engine(Desk(PROGRAM, self.file, "ann")) as engine:
            engine.ask("put", bucket="docs", key="late", text="x")
            for it in ("", "-wal"):
                shutil.copyfile(f"{self.file}{it}", f"{medium / 'records.vault'}{it}")
        with mock.patch("vault_recheck.vault.is_read_only", lambda folder: folder == medium):
            copy = self.done("backup", str(medium / "records.vault"), str(self.copies), at=None).strip()
        self.assertEqual(reading.rows(Path(copy), "SELECT key FROM entries"), [("late",)])

    def test_one_that_is_not_sound_keeps_its_name(self) -> None:
        with closing(sqlite3.connect(self.file)) as base:
            base.execute("UPDATE departments SET held = held + 1, admitted = admitted + 1")
            base.commit()
        done = self.desk("backup", str(self.file), str(self.copies), "--keep", "1", at=None)
        self.assertEqual(done.status, 1)
        self.assertIn("damaged departments", done.err)
        self.assertEqual([it.suffix for it in self.made() if not it.name.endswith("-wal")], [".damaged"])

    def test_folder_and_number_of_the_configuration(self) -> None:
        self.configure(KEEP="1")
        self.copies.mkdir()
        (self.copies / "records-20200101T000000Z.vault").touch()
        told = json.loads(self.done("backup", "records", "--dry-run", "--json", at=None))
        self.assertEqual((told["copy"], len(told["removed"]), len(self.made())), (None, 1, 1))
        copy = Path(self.done("backup", "records", at=None).strip())
        self.assertEqual({it.name.removesuffix("-wal") for it in self.made()}, {copy.name})
        self.assertEqual(self.desk("backup", "other", at=None).status, 2)
        self.assertEqual(self.desk("backup", "records", "--keep", "0", at=None).status, 2)

    def test_two_copies_of_one_second(self) -> None:
        stamps = ["20261127T030000Z", "20261127T030000Z", "20261127T030001Z"]
        with mock.patch("vaultdesk.backup.stamp", side_effect=stamps), mock.patch("time.sleep"):
            copies = [Path(self.done("backup", "records", at=None).strip()).name for _ in range(2)]
        self.assertEqual(copies, [f"records-{it}.vault" for it in stamps[1:]])

    def test_nothing_is_written_over(self) -> None:
        with mock.patch("vaultdesk.backup.stamp", return_value="20261127T030000Z"):
            self.done("backup", "records", at=None)
            before = [it.read_bytes() for it in self.made()]
            done = self.desk("backup", "records", at=None)
        self.assertEqual((done.status, [it.read_bytes() for it in self.made()]), (1, before))
        self.assertIn("is there already", done.err)

    def test_no_link_is_followed(self) -> None:
        self.copies.mkdir()
        victim = self.folder / "victim"
        stamps = ["20261127T030000Z", "20261127T030001Z"]
        link = self.copies / f"records-{stamps[0]}.vault.damaged"
        link.symlink_to(victim)  # to nothing, as yet
        with mock.patch("vaultdesk.backup.stamp", side_effect=stamps), mock.patch("time.sleep"):
            copy = Path(self.done("backup", "records", at=None).strip())
        self.assertEqual((copy.name, victim.exists()), (f"records-{stamps[1]}.vault", False))
        # One that is laid there between the look and the copy.
        victim.write_text("secret")
        for taken in (False, True):
            with (
                mock.patch("vaultdesk.backup._unused", return_value=link.with_suffix("")),
                mock.patch("vaultdesk.snapshot.is_taken", return_value=taken),
            ):
                done = self.desk("backup", "records", at=None)
            self.assertEqual((done.status, victim.read_text()), (int(not taken), "secret"))

    @unittest.skipUnless(os.geteuid() == 0, "it becomes another user")
    def test_the_vaults_owner_makes_it_where_others_than_root_may_lay_links(self) -> None:
        self.folder.chmod(0o755)
        self.copies.mkdir()
        for it in (self.folder, self.file, Path(f"{self.file}-wal"), self.copies):
            os.chown(it, 65534, 65534)

        def copied(_: Path, target: Path) -> None:
            target.write_text(str(os.geteuid()))

        with mock.patch("vaultdesk.backup.read_copy", copied):
            done = self.desk("backup", "records", at=None)
        [damaged] = self.made()
        self.assertEqual((done.status, damaged.read_text()), (1, "65534"))
        self.assertIn(f"{damaged}: damaged", done.err)
        damaged.unlink()
        copy = Path(self.done("backup", "records", at=None).strip())
        self.assertEqual((copy.stat().st_uid, copy.stat().st_mode & 0o777), (65534, 0o600))
