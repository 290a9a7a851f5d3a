"""A copy of a vault that is put back: what is lost, what stays, and kills in between."""

from __future__ import annotations

import json
import os
import shutil
import sqlite3
import subprocess
import unittest
from collections.abc import Callable, Iterator
from contextlib import ExitStack, closing, redirect_stderr, redirect_stdout
from io import StringIO
from pathlib import Path
from typing import Any
from unittest import mock

from tests.machine import STOPPED_AND_STARTED, MachineTest
from tests.office import PROGRAM
from vaultdesk.cli import main
from vaultdesk.owner import Owner

# The calls that change names of files, or have them and contents on the disk.
CALLS = ("link", "rename", "replace", "unlink", "mkdir", "fsync")
KILLED = 77  # the status of a restore that is ended before a call
LATER = "2024-01-16T09:00:00Z"


def counted(call: Callable[..., Any], left: list[int]) -> Callable[..., Any]:
    """The call, before which the process ends where no more are left."""

    def carried_out(*words: Any, **how: Any) -> Any:
        if not left:
            os._exit(KILLED)
        left.pop()
        return call(*words, **how)

    return carried_out


class Restore(MachineTest):
    def setUp(self) -> None:
        super().setUp()
        self.copy = self.done("backup", "records", at=None).strip()
        self.lines({"do": "add-dept", "as": "registrar", "dept": "later"})

    def departments(self) -> list[str]:
        with closing(sqlite3.connect(f"{self.file.as_uri()}?mode=ro", uri=True)) as base:
            return [name for (name,) in base.execute("SELECT name FROM departments ORDER BY name")]

    def test_a_copy_is_put_back_and_what_stood_there_is_kept(self) -> None:
        self.set_state("active")
        Path(f"{self.file}-shm").touch()
        away = json.loads(self.done("restore", "records", self.copy, "--json", at=None))["replaced"]
        self.assertEqual(self.asked(), STOPPED_AND_STARTED)
        self.assertFalse(Path(f"{self.file}-shm").exists())
        self.assertEqual(self.departments(), ["records"])
        with closing(sqlite3.connect(f"{(Path(away) / self.file.name).as_uri()}?mode=ro", uri=True)) as base:
            self.assertEqual(base.execute("SELECT count(*) FROM departments").fetchone(), (2,))

    def test_a_server_that_failed_is_started(self) -> None:
        self.set_state("failed")
        self.done("restore", "records", self.copy, at=None)
        self.assertEqual(self.asked(), STOPPED_AND_STARTED)

    def test_a_vault_that_is_not_served_is_not_started(self) -> None:
        self.done("restore", "records", self.copy, at=None)
        self.assertEqual(self.asked(), [])

    def unchanged(self, copy: str, *words: str) -> str:
        """What is said of a copy that changes nothing."""
        self.set_state("active")
        before = self.file.read_bytes(), sorted(it.name for it in self.folder.iterdir())
        done = self.desk("restore", "records", copy, *words, at=None)
        self.assertEqual((self.file.read_bytes(), sorted(it.name for it in self.folder.iterdir())), before)
        self.assertEqual(self.asked(), [])
        self.assertEqual(done.status, 0 if words else 1)
        return done.err or done.out

    def test_a_copy_that_is_not_sound_changes_nothing(self) -> None:
        self.assertIn("isn't sound", self.unchanged(self.written("none", b"no vault")))
        (self.folder / "none").unlink()
        self.assertIn("isn't a file", self.unchanged(str(self.folder / "absent")))
        with closing(sqlite3.connect(self.copy)) as base:
            base.execute("UPDATE departments SET held = held + 1, admitted = admitted + 1")
            base.commit()
        self.assertIn("isn't sound (damaged departments)", self.unchanged(self.copy))

    def test_a_dry_run_changes_nothing(self) -> None:
        self.assertIn("is sound, and would be put", self.unchanged(self.copy, "--dry-run"))

    def test_what_is_no_database_is_given_to_nobody(self) -> None:
        secret = self.written("shadow", b"root:secret")
        with mock.patch("vaultdesk.disk.new_file", side_effect=AssertionError):
            self.assertIn("isn't sound", self.unchanged(secret))


class Lost(MachineTest):
    """What the vault has and the copy hasn't."""

    def setUp(self) -> None:
        super().setUp()
        put = {"do": "put", "bucket": "docs", "text": "x"}
        self.lines(*({**put, "key": it} for it in "ab"))
        self.copy = self.done("backup", "records", at=None).strip()

    def change(self) -> None:
        """Three entries and seven events more."""
        put = {"do": "put", "bucket": "docs", "text": "x"}
        self.lines(
            {**put, "key": "c"}, {**put, "key": "d"}, {"do": "delete", "bucket": "docs", "key": "a"},
            {"do": "set-hold", "bucket": "docs", "key": "b", "id": 2, "hold": "ON"},
            {"do": "delete-version", "bucket": "docs", "key": "c", "id": 3}, at=LATER,
        )  # fmt: skip

    def test_it_is_said_before_and_after(self) -> None:
        self.change()
        what = "3 entries and 7 events after 2024-01-15T09:00:00Z"
        more = f"until {LATER}: departments, callers, buckets, rules."
        rest = f"gone: versions 3 to 5. So {{}} what was set up since, {more}"
        out = self.done("restore", "records", self.copy, "--dry-run", at=None)
        self.assertEqual(out.splitlines()[1:], [f"{what} would be {rest.format('would be')}"])
        told = json.loads(self.done("restore", "records", self.copy, "--dry-run", "--json", at=None))
        wanted: dict[str, Any] = {"entries": 3, "events": 7, "first": 3, "last": 5, "since": LATER, "vault": LATER}
        self.assertEqual((told["replaced"], told["lost"]), (None, {**wanted, "copy": "2024-01-15T09:00:00Z"}))
        out = self.done("restore", "records", self.copy, at=None)
        self.assertEqual(out.splitlines()[1:], [f"{what} are {rest.format('is')}"])

    def test_it_is_said_of_a_vault_that_is_served(self) -> None:
        self.change()
        with closing(sqlite3.connect(self.file, isolation_level=None)) as base:
            base.execute("PRAGMA locking_mode=EXCLUSIVE")
            base.execute("BEGIN EXCLUSIVE")
            told = json.loads(self.done("restore", "records", self.copy, "--dry-run", "--json", at=None))
        self.assertEqual((told["lost"]["entries"], told["lost"]["events"]), (3, 7))

    def test_nothing_is_lost(self) -> None:
        out = self.done("restore", "records", self.copy, "--dry-run", at=None)
        self.assertIn("Nothing would be lost: the vault's last change is of 2024-01-15T09:00:00Z.", out)
        self.lines({"do": "add-dept", "as": "registrar", "dept": "later"}, at=LATER)
        out = self.done("restore", "records", self.copy, "--dry-run", at=None)
        self.assertIn("0 entries and 0 events after 2024-01-15T09:00:00Z would be gone. So would be what was", out)

    def test_another_past_is_no_earlier_one(self) -> None:
        earlier = self.folder / "earlier"
        earlier.mkdir()
        for it in ("", "-wal"):
            shutil.copyfile(f"{self.file}{it}", earlier / f"records.vault{it}")
        self.lines({"do": "put", "bucket": "docs", "key": "c", "text": "mine"}, at=LATER)
        line = {"as": "ann", "do": "put", "bucket": "docs", "text": "other"}
        lines = ({**line, "at": LATER, "key": "c"}, {**line, "at": "2024-01-20T09:00:00Z", "key": "d"})
        copy, script = str(earlier / "records.vault"), "".join(json.dumps(it) + "\n" for it in lines)
        subprocess.run([PROGRAM, "replay", copy], input=script, text=True, check=True, capture_output=True)
        out = self.done("restore", "records", copy, "--dry-run", at=None)
        self.assertIn(f"1 entry and 2 events from {LATER} on would be gone: version 3.", out)

    def test_a_vault_that_cant_be_read_is_replaced_all_the_same(self) -> None:
        damaged = b"no database" * 1_000
        self.file.write_bytes(damaged)
        told = json.loads(self.done("restore", "records", self.copy, "--json", at=None))
        self.assertIn("fault", told["lost"])
        self.assertEqual((Path(told["replaced"]) / self.file.name).read_bytes(), damaged)
        self.assertEqual(self.desk("verify", at=None).out, "sound\n")

    def test_where_no_vault_is_nothing_is_lost(self) -> None:
        for it in ("", "-wal"):
            Path(f"{self.file}{it}").unlink()
        told = json.loads(self.done("restore", "records", self.copy, "--json", at=None))
        self.assertIsNone(told["lost"])
        self.assertEqual(self.desk("verify", at=None).out, "sound\n")


class Killed(MachineTest):
    """A restore that is killed before each call that changes names or has them on the disk."""

    def setUp(self) -> None:
        super().setUp()
        self.change_and_kill("a")
        copied = self.folder / "given"
        copied.mkdir()
        self.copy = copied / "records.vault"
        for it in ("", "-wal"):
            shutil.copyfile(f"{self.file}{it}", f"{self.copy}{it}")
        self.change_and_kill("b", "c")
        self.before = {it: Path(f"{self.file}{it}").read_bytes() for it in ("", "-wal")}
        self.old, self.new = self.events(self.file), self.events(self.copy)
        self.assertEqual((self.old.count("admitted"), self.new.count("admitted")), (3, 1))

    def change_and_kill(self, *keys: str) -> None:
        """Puts these, and kills the program: they are in the log alone."""
        words = [PROGRAM, "replay", str(self.file)]
        with subprocess.Popen(words, stdin=subprocess.PIPE, stdout=subprocess.PIPE, text=True) as program:
            assert program.stdin and program.stdout
            for key in keys:
                line = {"at": LATER, "as": "ann", "do": "put", "bucket": "docs", "key": key, "text": key * 5_000}
                program.stdin.write(json.dumps(line) + "\n")
                program.stdin.flush()
                self.assertIn("ok", program.stdout.readline())
            program.kill()

    def events(self, file: Path) -> str:
        """What happened to each entry of a vault, of a copy of its files."""
        place = self.folder / "looked-at"
        place.mkdir()
        for it in ("", "-wal"):
            if Path(f"{file}{it}").exists():
                shutil.copyfile(f"{file}{it}", place / f"records.vault{it}")
        done = subprocess.run([PROGRAM, "events", place / "records.vault"], capture_output=True, text=True, check=True)
        shutil.rmtree(place)
        return done.stdout

    def put_back(self) -> None:
        """Has the folder be as it was before any restore."""
        for it in self.folder.glob("records*"):
            shutil.rmtree(it) if it.is_dir() else it.unlink()
        for end, content in self.before.items():
            Path(f"{self.file}{end}").write_bytes(content)

    def killed_before(self, number: int) -> bool:
        """Whether a restore in a process of its own was ended before such a call of that number."""
        child = os.fork()
        if child == 0:
            try:
                with redirect_stdout(StringIO()), redirect_stderr(StringIO()):
                    left = list(range(number))
                    for name in CALLS:
                        setattr(os, name, counted(getattr(os, name), left))
                    os._exit(main(["restore", "records", str(self.copy)]))
            finally:
                os._exit(9)
        return os.waitstatus_to_exitcode(os.waitpid(child, 0)[1]) == KILLED

    def kept(self) -> Iterator[dict[str, bytes]]:
        """The files of each folder of what was replaced."""
        for it in self.folder.glob("records-*.replaced"):
            yield {file.name.removeprefix("records.vault"): file.read_bytes() for file in it.iterdir()}

    def test_each_leaves_one_vault_or_the_other_and_the_next_try_goes_on(self) -> None:
        seen = list[str]()
        while self.killed_before(len(seen)):
            there = self.events(self.file)
            self.assertIn(there, (self.old, self.new), len(seen))
            seen.append("old" if there == self.old else "new")
            self.done("restore", "records", str(self.copy), at=None)
            self.assertEqual(self.events(self.file), self.new)
            if there == self.new:
                self.assertIn(self.before, list(self.kept()), len(seen))
            self.assertEqual([it.name for it in self.folder.glob("records.vault.*")], [], len(seen))
            self.put_back()
        self.assertEqual(seen, sorted(seen, reverse=True))
        self.assertEqual((seen[0], seen[-1], len(seen) > 12), ("old", "new", True))

    def test_it_is_on_the_disk_before_that_is_said(self) -> None:
        done = list[str]()

        def noted(name: str) -> Callable[..., Any]:
            call = getattr(os, name)

            def carried_out(what: Any, *more: Any, **how: Any) -> Any:
                place = os.readlink(f"/proc/self/fd/{what}") if isinstance(what, int) else str(what)
                done.append(f"{name} {place.removeprefix(str(self.folder))}")
                return call(what, *more, **how)

            return carried_out

        with ExitStack() as patched:
            for it in CALLS:
                patched.enter_context(mock.patch.object(os, it, noted(it)))
            self.done("restore", "records", str(self.copy), at=None)
        new, whole = "/records.vault.restored", "/records.vault.whole"
        for first, then in (
            (f"fsync {new}", f"replace {new}"),
            (f"fsync {whole}", f"replace {whole}"),
            ("link /records.vault", f"replace {whole}"),
            ("link /records.vault-wal", f"replace {whole}"),
            (f"replace {whole}", "unlink /records.vault-wal"),
            ("unlink /records.vault-wal", f"replace {new}"),
        ):
            self.assertLess(done.index(first), done.index(then), (first, then))
        for it in (f"replace {whole}", "unlink /records.vault-wal", f"replace {new}"):
            self.assertEqual(done[done.index(it) + 1], "fsync ", it)  # the vaults' folder

    @unittest.skipUnless(os.geteuid() == 0, "it becomes another user")
    def test_the_vaults_owner_does_it_and_no_link_is_followed(self) -> None:
        self.folder.chmod(0o755)
        victim = self.folder / "victim"
        victim.write_text("secret")
        victim.chmod(0o600)
        for it in (self.folder, self.file, Path(f"{self.file}-wal")):
            os.chown(it, 65534, 65534)
        for name in ("records.vault.restored", "records.vault.whole", "records.vault.restored-wal"):
            (self.folder / name).symlink_to(victim)
        users = list[int]()
        do = Owner.do

        def noted(owner: Owner, work: Callable[[], Any]) -> Any:
            users.append(do(owner, os.geteuid))
            return do(owner, work)

        with mock.patch.object(Owner, "do", noted):
            self.done("restore", "records", str(self.copy), at=None)
        found = victim.stat()
        self.assertEqual((victim.read_text(), found.st_mode & 0o777, found.st_uid), ("secret", 0o600, 0))
        self.assertEqual(set(users), {65534})
        self.assertEqual((self.file.stat().st_uid, self.file.stat().st_mode & 0o777), (65534, 0o600))
        # One that is laid in the file's place after it was cleared.
        with mock.patch("vaultdesk.restoring.Places.clear", lambda it: it.new.symlink_to(victim)):
            done = self.desk("restore", "records", str(self.copy), at=None)
        self.assertEqual((done.status, victim.read_text()), (1, "secret"))
