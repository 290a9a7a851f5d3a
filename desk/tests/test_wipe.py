"""A vault's file that is wiped: what is gone and what stays, kills in between, and what pages say of it."""

from __future__ import annotations

import errno
import json
import os
import shutil
import sqlite3
import subprocess
import sys
import time
from collections.abc import Callable
from contextlib import ExitStack, closing, redirect_stderr, redirect_stdout
from io import StringIO
from pathlib import Path
from typing import Any
from unittest import mock

from tests.machine import STOPPED_AND_STARTED, MachineTest
from tests.office import PROGRAM
from tests.served import ServedTest, started
from tests.test_restoring import KILLED, counted
from vaultdesk import disk, reading, wiped
from vaultdesk.cli import main
from vaultdesk.owner import Owner
from vaultdesk.units import Served
from vaultdesk.wipe import Wiping

# The calls that change names or contents of files, or have them on the disk.
CALLS = ("rename", "replace", "unlink", "fsync", "write", "chmod", "chown")
REMOVED_AT, LATER = "2024-01-16T10:00:00Z", "2024-01-17T10:00:00Z"
DESK = Path(__file__).resolve().parents[1]
SECRET, KEPT = "Dear Sir or Madam, ", "We thank you for "


def marks(text: str) -> list[str]:
    """The lines of a document: each says which it is, so that any part of it is found."""
    return [f"{text}{number:04}\n" for number in range(300)]


class WipeTest(MachineTest):
    """A vault with a removed document and with held ones, one of which has a retention and a legal hold."""

    def setUp(self) -> None:
        super().setUp()
        put = {"do": "put", "bucket": "docs"}
        lock = {"mode": "COMPLIANCE", "until": "2034-01-01T00:00:00Z", "hold": "ON"}
        self.lines({**put, "key": "a", "text": "".join(marks(SECRET))},
                   {**put, "key": "b", "text": "".join(marks(KEPT)), **lock}, {**put, "key": "c", "text": "x"})
        self.removed(1, "a")

    def removed(self, version: int, key: str, at: str = REMOVED_AT) -> None:
        self.lines({"do": "delete-version", "bucket": "docs", "key": key, "id": version}, at=at)

    def left(self, text: str = SECRET) -> dict[str, int]:
        """How many lines of a document are in each file of the vault's folder, and of those within it."""
        files = {it: it.read_bytes() for it in self.folder.rglob("*") if it.is_file()}
        counts = {str(it.relative_to(self.folder)): sum(line.encode() in content for line in marks(text))
                  for it, content in files.items()}  # fmt: skip
        return {it: count for it, count in counts.items() if count}

    def wipe(self, *words: str) -> Any:
        """What a wipe that is done says of itself."""
        return json.loads(self.done("wipe", "records", "--yes", "--json", *words, at=None))

    def printed(self, *kinds: str) -> dict[str, str]:
        """What the engine prints of the vault, of a copy of its files."""
        place = self.folder / "looked-at"
        place.mkdir()
        for it in ("", "-wal"):
            if Path(f"{self.file}{it}").exists():
                shutil.copyfile(f"{self.file}{it}", place / f"records.vault{it}")
        found = {}
        for word in kinds or ("verify", "events"):
            done = subprocess.run([PROGRAM, word, place / "records.vault"], capture_output=True, text=True, check=True)
            found[word] = done.stdout
        shutil.rmtree(place)
        return found

    def unfinished(self) -> list[str]:
        """What a wipe left beside the vault."""
        return sorted(it.name for it in self.folder.iterdir() if ".wiping" in it.name)


class Wiped(WipeTest):
    def test_the_bytes_are_there_before_and_nowhere_after(self) -> None:
        self.assertGreater(self.left()["records.vault"], 150)
        found = self.wipe()
        self.assertEqual(found["documents"], 1)
        self.assertLess(found["bytes"], found["before"])
        self.assertEqual((self.left(), self.unfinished()), ({}, []))
        self.assertFalse(Path(f"{self.file}-shm").exists())
        self.assertGreater(self.left(KEPT)["records.vault"], 150)

    def test_those_in_the_log_are_gone_too(self) -> None:
        words = [PROGRAM, "replay", str(self.file)]
        with subprocess.Popen(words, stdin=subprocess.PIPE, stdout=subprocess.PIPE, text=True) as program:
            assert program.stdin and program.stdout
            lines: list[dict[str, Any]] = [
                {"do": "put", "key": "d", "text": "".join(marks("Logged alone "))},
                {"do": "delete-version", "key": "d", "id": 4}, {"do": "put", "key": "e", "text": "last"},
            ]  # fmt: skip
            for line in lines:
                program.stdin.write(json.dumps({"at": LATER, "as": "ann", "bucket": "docs", **line}) + "\n")
                program.stdin.flush()
                self.assertIn("ok", program.stdout.readline())
            program.kill()
        self.assertEqual(self.left("Logged alone ").keys(), {"records.vault-wal"})
        self.assertEqual(self.wipe()["documents"], 2)
        self.assertEqual((self.left("Logged alone "), self.left()), ({}, {}))
        self.assertEqual(self.done("get", "docs", "e", at="2024-01-18"), "last")

    def test_all_else_stays(self) -> None:
        self.file.chmod(0o640)
        kinds = ("verify", "seal", "events", "register", "lawful")
        before = self.printed(*kinds)
        tables = self.folder / "before.vault"
        shutil.copyfile(self.file, tables)
        self.wipe()
        self.assertEqual(self.printed(*kinds), before)
        self.assertEqual((before["verify"], before["lawful"].split()[0]), ("sound\n", "lawful"))
        self.assertEqual(self.file.stat().st_mode & 0o777, 0o640)
        self.assertEqual([it.read_bytes()[16:20] for it in (self.file, tables)], [b"\4\0\2\2"] * 2)  # pages, and a log
        self.assertEqual(reading.differing(self.file, tables), "")
        self.assertEqual(self.done("get", "docs", "b", at=LATER), "".join(marks(KEPT)))
        self.assertIn("legal-hold", self.desk("delete", "docs", "b", "--version", "2", "--yes", at=LATER).out)
        self.lines({"do": "put", "bucket": "docs", "key": "new", "text": "y"}, at=LATER)
        self.assertEqual(self.desk("verify", at=None).out, "sound\n")

    def test_it_is_asked_first(self) -> None:
        before = self.file.read_bytes()
        done = self.desk("wipe", "records", at=None)
        self.assertEqual((done.status, self.file.read_bytes()), (2, before))
        self.assertIn("the bytes of 1 removed documents can't be read any more", done.err)
        out = self.done("wipe", "records", "--dry-run", at=None)
        self.assertIn(f"the bytes of 1 removed document would be wiped from {self.file}\n", out)
        self.assertEqual((self.file.read_bytes(), self.unfinished()), (before, []))
        self.assertFalse(wiped.path_of(self.file).exists())

    def test_a_path_does_as_well(self) -> None:
        self.done("wipe", str(self.file), "--yes", at=None)
        self.assertEqual(self.left(), {})
        self.assertEqual(self.desk("wipe", str(self.folder / "none.vault"), "--yes", at=None).status, 1)

    def test_one_by_a_link(self) -> None:
        (self.folder / "elsewhere").mkdir()
        link = self.folder / "elsewhere" / "linked.vault"
        link.symlink_to(self.file)
        self.done("wipe", str(link), "--yes", at=None)
        self.assertTrue(link.is_symlink())
        self.assertEqual((self.left(), wiped.of(link).last != ""), ({}, True))

    def test_a_damaged_vault_stays_as_it_is(self) -> None:
        damaged = self.file.read_bytes().replace(KEPT.encode(), b"X" * len(KEPT))
        self.file.write_bytes(damaged)
        done = self.desk("wipe", "records", "--yes", at=None)
        self.assertEqual((done.status, self.file.read_bytes()), (1, damaged))
        self.assertIn("isn't sound (damaged contents): nothing was wiped", done.err)

    def test_as_the_vaults_owner(self) -> None:
        if os.geteuid() != 0:
            self.skipTest("it becomes another user")
        self.folder.chmod(0o755)
        for it in (self.folder, self.file, Path(f"{self.file}-wal")):
            os.chown(it, 65534, 65534)
        victim = self.folder / "victim"
        victim.write_text("secret")
        victim.chmod(0o600)
        for name in ("records.vault.wiping", "records.vault.wiping.log"):
            (self.folder / name).symlink_to(victim)
        users = list[int]()
        do = Owner.do

        def noted(owner: Owner, work: Callable[[], Any]) -> Any:
            users.append(do(owner, os.geteuid))
            return do(owner, work)

        with mock.patch.object(Owner, "do", noted):
            self.wipe()
        self.assertEqual((set(users), victim.read_text(), self.unfinished()), ({65534}, "secret", []))
        self.assertEqual({it.stat().st_uid for it in (self.file, wiped.path_of(self.file))}, {65534})
        self.assertEqual(self.left(), {})


class Refused(ServedTest, WipeTest):
    def unchanged(self) -> str:
        """What is said of a wipe that changes nothing."""
        before = self.file.read_bytes()
        done = self.desk("wipe", "records", "--yes", at=None)
        self.assertEqual((done.status, self.unfinished()), (1, []))
        self.assertEqual(self.file.read_bytes(), before)
        self.assertFalse(wiped.path_of(self.file).exists())
        return done.err

    def test_while_a_server_has_it(self) -> None:
        self.serve()
        said = self.unchanged()
        self.assertIn(f"{self.file}: a server or another program has the vault, and nothing was wiped: ", said)
        self.assertIn("vaultdesk offline records vaultdesk wipe records --yes", said)

    def test_where_a_server_comes_in_between(self) -> None:
        with mock.patch("vaultdesk.wipe.Wiping.audited_seal", lambda *_: started(self, self.file, str(self.where))):
            self.where.parent.mkdir(parents=True)
            self.assertIn("a server or another program has the vault", self.unchanged())

    def test_no_engine_comes_in_between(self) -> None:
        verdicts = list[int]()

        def tried(file: Path, other: Path) -> str:
            verdicts.append(subprocess.run([PROGRAM, "verify", str(file)], capture_output=True, check=False).returncode)
            return ""

        with mock.patch("vaultdesk.reading.differing", tried):
            self.wipe()
        self.assertEqual(verdicts, [1])
        self.assertEqual(self.desk("verify", at=None).out, "sound\n")

    def test_while_another_job_works_on_it(self) -> None:
        with mock.patch.object(Owner, "is_other", lambda _: True), Served("records").locked(patience=0):
            self.assertIn("another job works on the vault records", self.unchanged())

    def test_a_new_file_that_isnt_the_same(self) -> None:
        write_out = reading.write_out

        def altered(file: Path, new: Path) -> int:
            number = write_out(file, new)
            with closing(sqlite3.connect(new)) as made, made:
                made.execute("UPDATE callers SET rights = rights | 1 WHERE name = 'ann'")
            return number

        with mock.patch("vaultdesk.reading.write_out", altered):
            self.assertIn("isn't the same vault (callers): nothing was wiped", self.unchanged())

    def test_while_another_wipe_is_under_way(self) -> None:
        seen = list[str]()

        def tried(*_: Path) -> str:
            words = [sys.executable, "-m", "vaultdesk", "wipe", str(self.file), "--yes"]
            seen.append(subprocess.run(words, cwd=DESK, stderr=subprocess.PIPE, text=True, check=False).stderr)
            return ""

        with mock.patch("vaultdesk.reading.differing", tried):
            self.wipe()
        self.assertEqual(seen, [f"vaultdesk wipe: another wipe is under way in {self.folder}\n"])
        self.assertEqual((self.desk("verify", at=None).out, self.left()), ("sound\n", {}))

    def test_a_vault_that_is_put_back_meanwhile(self) -> None:
        other = self.folder / "other"
        shutil.copyfile(self.file, other)
        with mock.patch("vaultdesk.reading.differing", lambda file, _: str(other.replace(file))[:0]):
            self.assertIn(f"{self.file} was replaced meanwhile: nothing was wiped", self.unchanged())

    def test_another_seal(self) -> None:
        with mock.patch("vaultdesk.wipe.Wiping.audited_seal", lambda _, file: str(file)):
            self.assertIn("isn't the same vault (another seal): nothing was wiped", self.unchanged())

    def test_no_room(self) -> None:
        with mock.patch("vaultdesk.snapshot.shutil.disk_usage", return_value=mock.Mock(free=1)):
            self.assertIn("make room", self.unchanged())

    def test_a_file_system_that_exchanges_no_names(self) -> None:
        with mock.patch("vaultdesk.disk.exchange", side_effect=OSError(errno.EINVAL, "Invalid argument", "x")):
            self.assertIn("Invalid argument", self.unchanged())
        self.assertEqual(self.desk("verify", at=None).out, "sound\n")

    def test_offline_stops_the_server_for_it(self) -> None:
        server = self.serve()
        (self.machine / "bin" / "vaultdesk").write_text(f"#!/bin/sh\nkill {server.pid}\nsleep 1\n")
        (self.machine / "bin" / "vaultdesk").chmod(0o755)
        self.desk("offline", "records", "vaultdesk", "wipe", "records", "--yes", at=None)
        self.assertEqual(self.asked(), STOPPED_AND_STARTED)
        self.wipe()
        self.assertEqual(self.left(), {})


class Killed(WipeTest):
    """A wipe that is killed before each call that changes names or contents, or has them on the disk."""

    def setUp(self) -> None:
        super().setUp()
        words = [PROGRAM, "replay", str(self.file)]  # what was put last is in the log alone
        with subprocess.Popen(words, stdin=subprocess.PIPE, stdout=subprocess.PIPE, text=True) as program:
            assert program.stdin and program.stdout
            line = {"at": LATER, "as": "ann", "do": "put", "bucket": "docs", "key": "d", "text": "z" * 5_000}
            program.stdin.write(json.dumps(line) + "\n")
            program.stdin.flush()
            self.assertIn("ok", program.stdout.readline())
            program.kill()
        self.before = {it: Path(f"{self.file}{it}").read_bytes() for it in ("", "-wal")}
        self.vault = self.printed()

    def put_back(self) -> None:
        """Has the vault be as it was before any wipe: its last change is in the log alone."""
        for it in self.folder.glob("records.*"):
            it.unlink()
        self.write_files()

    def write_files(self) -> None:
        for end, content in self.before.items():
            Path(f"{self.file}{end}").write_bytes(content)

    def changed_after_the_audit(self) -> Any:
        """Has the vault be so after the audit too, which copies the log into the file: as if a change came then."""
        audited = Wiping.audited_seal

        def then_changed(wiping: Wiping, file: Path) -> str:
            seal = audited(wiping, file)
            if file == wiping.file:
                self.write_files()
            return seal

        return mock.patch.object(Wiping, "audited_seal", then_changed)

    def killed_before(self, number: int) -> bool:
        """Whether a wipe in a process of its own was ended before such a call of that number."""
        child = os.fork()
        if child == 0:
            try:
                with redirect_stdout(StringIO()), redirect_stderr(StringIO()), self.changed_after_the_audit():
                    left = list(range(number))
                    for module, name in (*((os, it) for it in CALLS), (disk, "exchange")):
                        setattr(module, name, counted(getattr(module, name), left))
                    os._exit(main(["wipe", "records", "--yes"]))
            finally:
                os._exit(9)
        status = os.waitstatus_to_exitcode(os.waitpid(child, 0)[1])
        self.assertIn(status, (0, KILLED))
        return status == KILLED

    def test_each_leaves_the_vault_and_the_next_one_wipes_it(self) -> None:
        seen = list[bool]()
        while self.killed_before(len(seen)):
            with self.subTest(calls=len(seen)):
                self.assertEqual(os.stat(self.file).st_nlink, 1)
                self.assertEqual(self.printed(), self.vault)
                seen.append(self.file.name not in self.left())
                self.assertEqual(wiped.of(self.file).last, "")
                self.wipe()
                self.assertEqual((self.left(), self.unfinished(), self.printed()), ({}, [], self.vault))
                self.put_back()
        self.assertEqual((self.left(), self.unfinished(), self.printed()), ({}, [], self.vault))
        self.assertNotEqual(wiped.of(self.file).last, "")
        self.assertEqual(seen, sorted(seen))
        self.assertEqual((seen[0], seen[-1], len(seen) > 15), (False, True, True))

    def test_each_call_that_fails_leaves_the_vault(self) -> None:
        for name in (*CALLS, "exchange"):
            module = disk if name == "exchange" else os
            call, count = getattr(module, name), 0
            while count >= 0:
                left = [None] * count

                def failing(*words: Any, **how: Any) -> Any:
                    if not left:
                        raise OSError(errno.EIO, "Input/output error", "a file")
                    left.pop()
                    return call(*words, **how)

                failed = mock.patch.object(module, name, failing)
                with failed, self.changed_after_the_audit(), self.subTest(call=name, number=count):
                    done = self.desk("wipe", "records", "--yes", at=None)
                self.assertEqual(self.printed(), self.vault)
                count = count + 1 if done.status else -1
                self.put_back()

    def test_nothing_is_overwritten_before_its_successor_is_on_the_disk(self) -> None:
        done = list[str]()

        def noted(module: Any, name: str) -> Callable[..., Any]:
            call = getattr(module, name)

            def carried_out(what: Any, *more: Any, **how: Any) -> Any:
                place = os.readlink(f"/proc/self/fd/{what}") if isinstance(what, int) else str(what)
                done.append(f"{name} {place.removeprefix(str(self.folder))}")
                return call(what, *more, **how)

            return carried_out

        with ExitStack() as patched:
            for module, name in (*((os, it) for it in CALLS), (disk, "exchange")):
                patched.enter_context(mock.patch.object(module, name, noted(module, name)))
            self.done("wipe", "records", "--yes", at=None)
        new, log = "/records.vault.wiping", "/records.vault.wiping.log"
        exchanged = done.index(f"exchange {new}")
        for it in (f"fsync {new}", "fsync /records.vault", "rename /records.vault-wal"):
            self.assertLess(done.index(it), exchanged, it)
        self.assertEqual(done[done.index("rename /records.vault-wal") + 1], "fsync ")
        self.assertEqual(done[exchanged + 1], "fsync ")  # the vault's folder
        for it in (log, new):
            steps = [done.index(f"{call} {it}", exchanged) for call in ("write", "fsync", "unlink")]
            self.assertEqual(steps, sorted(steps))
            self.assertIn("fsync ", done[steps[-1]:])


class Older(WipeTest):
    """What still has the bytes, and what doesn't any more."""

    def test_copies_from_before_are_listed_and_later_ones_are_not(self) -> None:
        self.lines({"do": "put", "bucket": "docs", "key": "d", "text": "soon gone"}, at=LATER)
        older = self.done("backup", "records", at=None).strip()
        self.removed(4, "d", at=LATER)
        time.sleep(1.1)  # a copy's name has its second
        after_removal = self.done("backup", "records", at=None).strip()
        found = self.wipe()
        rows = {it["place"]: (it["kind"], it["has"], it["may have"]) for it in found["left"]}
        self.assertEqual(rows, {older: ("copy", 1, 1), after_removal: ("copy", 0, 2)})
        self.assertIn(f"copies/{Path(older).name}", self.left())
        time.sleep(1.1)
        newest = self.done("backup", "records", at=None).strip()
        out = self.done("wipe", "records", "--dry-run", at=None)
        self.assertIn("the bytes of 0 removed documents would be wiped", out)
        self.assertRegex(out, rf"(?m)^copy +1 +1  {older}$")
        self.assertNotIn(newest, out)
        self.assertNotIn(Path(newest).name, " ".join(self.left()))
        for it in (older, after_removal):
            Path(it).unlink()
        self.assertEqual(self.wipe()["left"], [])

    def test_a_journal_and_what_a_wipe_left(self) -> None:
        journal = self.folder / "records.journals" / "20240114T000000Z" / "journal"
        journal.parent.mkdir(parents=True)
        lines = ({"do": "put", "text": "".join(marks(SECRET))}, {"do": "put", "text": "other"})
        journal.write_text("".join(json.dumps(it) + "\n" for it in lines))
        shutil.copyfile(self.file, self.folder / "records.vault.wiping")
        places = json.loads(self.done("where", "1", "--json", at=LATER))[0]["places"]
        self.assertIn(("left of a wipe", "may have them"), [(it["kind"], it["bytes"]) for it in places])
        [row] = self.wipe()["left"]
        self.assertEqual((row["kind"], row["has"], row["may have"]), ("journal", 1, 0))

    def test_a_second_machine_is_named(self) -> None:
        self.configure(STANDBY="second.example.org")
        [row] = self.wipe()["left"]
        self.assertEqual((row["kind"], row["has"]), ("standby", "?"))
        self.assertIn("second.example.org: ", row["place"])

    def test_where_says_it(self) -> None:
        older = self.done("backup", "records", at=None).strip()
        self.wipe()
        places = json.loads(self.done("where", "1", "--json", at=LATER))[0]["places"]
        found = {it["place"]: it["bytes"] for it in places}
        self.assertEqual(found, {str(self.file): "has none", older: "may have them"})


class Said(WipeTest):
    """What is said of removed documents, before a wipe and after it."""

    def page(self, *words: str) -> str:
        page = self.folder / "page.html"
        self.done(*words, str(page), "--force", at=None if words[0] == "page" else LATER)
        return page.read_text(encoding="utf-8")

    def test_the_pages_say_whether_and_when(self) -> None:
        kinds = (("certificate", "1", "--html"), ("answer", "1", "--html"))
        for words in kinds:
            self.assertIn("doesn't show that its bytes were wiped", self.page(*words))
        self.assertIn("of 0 documents were wiped from the vault’s file; of 1 they may", self.page("page", "records"))
        done = self.wipe()["done"]
        when = time.strftime("%B %Y", time.strptime(done, "%Y-%m-%dT%H:%M:%SZ"))
        for words in kinds:
            text = self.page(*words)
            self.assertRegex(text, f"Its bytes were wiped from the vault's file on \\d+ {when}")
            self.assertNotIn("doesn't show", text.partition("What of its bytes")[2])
        self.assertIn(f"of 1 documents were wiped from the vault’s file, the last time at {done}; of 0 they may",
                      self.page("page", "records"))  # fmt: skip
        self.done("certificates", str(self.folder / "out"), at=LATER)
        self.assertIn("Its bytes were wiped", (self.folder / "out" / "certificates.html").read_text(encoding="utf-8"))

    def test_what_is_removed_later_isnt_wiped_also_at_the_same_moment(self) -> None:
        self.lines({"do": "put", "bucket": "docs", "key": "d", "text": "d"},
                   {"do": "put", "bucket": "docs", "key": "e", "text": "e"}, at=LATER)
        self.removed(4, "d", at=LATER)
        first = self.wipe()["done"]
        self.removed(5, "e", at=LATER)
        wipes = wiped.of(self.file)
        found = [wipes.when(version, at) for version, at in ((1, REMOVED_AT), (4, LATER), (5, LATER))]
        self.assertEqual(found, [first, first, ""])
        time.sleep(1.1)
        second = self.wipe()
        self.assertEqual((second["documents"], second["done"] > first), (1, True))
        wipes = wiped.of(self.file)
        found = [wipes.when(version, at) for version, at in ((1, REMOVED_AT), (4, LATER), (5, LATER))]
        self.assertEqual(found, [first, first, second["done"]])

    def test_a_vault_that_is_put_back_isnt_wiped(self) -> None:
        copy = self.done("backup", "records", at=None).strip()
        self.wipe()
        later = self.folder / "later"
        later.mkdir()
        self.done("backup", "records", str(later), at=None)
        self.assertNotEqual(wiped.of(self.file).last, "")
        self.done("restore", "records", copy, at=None)
        self.assertEqual(wiped.of(self.file).last, "")
        self.assertIn("doesn't show that its bytes were wiped", self.page("certificate", "1", "--html"))
        self.done("restore", "records", str(next(later.glob("*.vault"))), at=None)
        self.assertNotEqual(wiped.of(self.file).last, "")
        self.done("restore", "records", copy, at=None)
        done = self.wipe()["done"]
        self.assertEqual([it.done for it in wiped.of(self.file).wipes], [done])

    def test_a_removal_says_what_is_left(self) -> None:
        self.assertEqual(self.done("delete", "docs", "c", "--version", "3", "--yes", at=LATER).splitlines()[-1],
                         "The bytes stay readable in the vault's file until vaultdesk wipe, and in older copies.")
        self.done("rm", "docs", "x", at=LATER)
        for words in (["--version", "4", "--yes"], ["--version", "4", "--dry-run"]):
            self.assertNotIn("readable", self.desk("delete", "docs", "x", *words, at=LATER).out)
        self.assertIn("until vaultdesk wipe, and in copies", " ".join(self.done("delete", "--help", at=None).split()))

    def test_a_note_that_cant_be_read_is_none(self) -> None:
        self.wipe()
        for text in ("", "[1]", '[{"done": "x"}]', "{}"):
            wiped.path_of(self.file).write_text(text)
            self.assertEqual(wiped.of(self.file).last, "", text)


class WhileServed(ServedTest, WipeTest):
    def test_its_status_and_its_pages_say_it(self) -> None:
        done = self.wipe()["done"]
        self.serve()
        self.assertEqual(json.loads(self.done("status", "--as", "registrar", "--json", at=None))["wiped"], done)
        self.assertIn(f"last wiped    {done}\n", self.done("status", "--as", "registrar", at=None))
        page = self.folder / "page.html"
        self.done("certificate", "1", "--html", str(page), at=None)
        self.assertIn("Its bytes were wiped", page.read_text(encoding="utf-8"))
        copy = self.done("backup", "records", at=None).strip()
        self.assertEqual(wiped.number_of(Path(copy)), 1)
        places = json.loads(self.done("where", "1", "--json", at=None))[0]["places"]
        self.assertEqual({it["bytes"] for it in places}, {"has none"})
