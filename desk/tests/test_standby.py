"""A second machine that follows a vault: a journal and its copy, what is sent of it, and what is carried out there."""

from __future__ import annotations

import json
import os
import signal
import subprocess
import sys
import time
from collections.abc import Callable
from pathlib import Path
from typing import Any
from unittest import mock

from tests.machine import MachineTest
from tests.office import PROGRAM, Done
from vaultdesk import standby

DESK = Path(__file__).resolve().parent.parent
# Goes to no machine, but does what ssh would: a shell gets the words, and the other machine's vaults are elsewhere.
SSH = '#!/bin/sh\nshift\nVAULT_FOLDER="$OTHER" exec sh -c "$*"\n'
LIMIT = 120  # seconds that one waits for the other machine


def wait_until(holds: Callable[[], bool]) -> bool:
    """Whether that holds within the time that one waits."""
    end = time.monotonic() + LIMIT
    while not holds() and time.monotonic() < end:
        time.sleep(0.05)
    return holds()


class StandbyTest(MachineTest):
    def setUp(self) -> None:
        super().setUp()
        self.other = self.folder / "other"
        self.other.mkdir()
        programs = self.machine / "bin"
        desk = f'#!/bin/sh\nPYTHONPATH="{DESK}" exec "{sys.executable}" -m vaultdesk "$@"\n'
        for name, text in (("ssh", SSH), ("vaultdesk", desk)):
            (programs / name).write_text(text)
            (programs / name).chmod(0o755)
        self.enterContext(mock.patch.dict(os.environ, {"OTHER": str(self.other), "VAULT_SSH": "ssh"}))
        self.configure(STANDBY="other.example.org")

    def begin(self) -> Path:
        """Begins a journal, and returns its path; a server would make the file."""
        begun: dict[str, str] = json.loads(self.done("standby", "begin", "records", "--json", at=None))
        return Path(begun["journal"])

    def append(self, journal: Path, *lines: dict[str, Any]) -> None:
        """Carries these lines out over the vault, and notes them as its server would."""
        self.lines(*lines)
        with journal.open("a") as file:
            for it in lines:
                file.write(json.dumps({"at": "2024-01-15T09:00:00Z", "as": "ann", **it}) + "\n")

    def follow(self) -> subprocess.Popen[bytes]:
        """Follows in a process of its own, until the test ends."""
        words = ["vaultdesk", "standby", "follow", "records", "--json"]
        following = subprocess.Popen(words, stdout=subprocess.DEVNULL, stderr=subprocess.PIPE)
        assert following.stderr
        self.addCleanup(following.stderr.close)
        self.addCleanup(following.wait)
        self.addCleanup(following.kill)
        return following

    def lag(self, *words: str) -> Done:
        return self.desk("standby", "lag", "records", "--json", *words, at=None)

    def follows(self, changes: int) -> bool:
        """Whether the other machine carries out so many changes of the newest journal, and no more come."""

        def has_all() -> bool:
            [row] = json.loads(self.lag().out)
            return bool((row["changes"], row["carried out"]) == (changes, changes))

        return wait_until(has_all)

    def copy(self) -> Path:
        return self.other / "records.standby" / "now" / "records.vault"

    def events(self, file: Path) -> str:
        """What the engine prints of all that ever was there, once nobody has the file any more."""
        printed: list[str] = []

        def is_printed() -> bool:
            done = subprocess.run([PROGRAM, "events", str(file)], capture_output=True, encoding="utf-8", check=False)
            printed[:] = [done.stdout]
            return done.returncode == 0

        self.assertTrue(wait_until(is_printed))
        return printed[0]


PUT = {"do": "put", "bucket": "docs", "text": "hello"}


class Follow(StandbyTest):
    def test_changes_are_carried_out_there(self) -> None:
        journal = self.begin()
        self.append(journal, {**PUT, "key": "a"}, {**PUT, "key": "b"})
        following = self.follow()
        self.assertTrue(self.follows(2))
        self.append(journal, {"do": "delete-version", "bucket": "docs", "key": "a", "id": 1})
        self.assertTrue(self.follows(3))
        self.assertEqual((self.lag("--most", "0").status, following.poll()), (0, None))
        following.kill()
        following.wait()
        self.assertEqual(self.events(self.copy()), self.events(self.file))
        for it in (self.copy().parent, self.copy()):
            self.assertEqual(it.stat().st_mode & 0o077, 0)

    def test_a_server_that_begins_another_journal(self) -> None:
        first = self.begin()
        following = self.follow()
        self.append(first, {**PUT, "key": "a"})
        self.assertTrue(self.follows(1))
        second = self.begin()
        self.append(second, {**PUT, "key": "b"})
        self.assertTrue(self.follows(1))
        self.assertTrue(wait_until(lambda: os.readlink(self.copy().parent) == second.parent.name))
        following.kill()
        following.wait()
        self.assertEqual(self.events(self.copy()), self.events(self.file))
        # Of copies that came before nothing is left there; here the one before stays.
        there = [it.name for it in self.copy().parent.parent.iterdir() if it.name != "now"]
        self.assertEqual(there, [second.parent.name])
        third = self.begin()
        left = {it.name for it in third.parent.parent.iterdir()}
        self.assertEqual(left, {"now", second.parent.name, third.parent.name})

    def test_two_that_begin_while_it_sends(self) -> None:
        first = self.begin()
        following = self.follow()
        self.append(first, {**PUT, "key": "a"})
        self.assertTrue(self.follows(1))
        following.send_signal(signal.SIGSTOP)
        self.begin()
        third = self.begin()
        self.assertFalse(first.parent.exists())
        following.send_signal(signal.SIGCONT)
        self.append(third, {**PUT, "key": "b"})
        self.assertTrue(self.follows(1))
        self.assertIsNone(following.poll())

    def test_a_copy_that_may_be_gone_isnt_sent(self) -> None:
        first = self.begin().parent
        with subprocess.Popen(["cat"], stdin=subprocess.PIPE, stdout=subprocess.PIPE) as there:
            following = standby.Following(first, there)
            for _ in range(2):  # it isn't the newest, and then it is away
                self.begin()
                with self.assertRaises(standby.Begun):
                    following.send_copy("records", 0)
            following.to.close()
            following.reading.join()
        self.assertEqual((first.exists(), following.wrong, following.answered), (False, "", 0))

    def test_it_ends_at_a_line_that_isnt_carried_out(self) -> None:
        journal = self.begin()
        self.append(journal, {**PUT, "key": "a"})
        following = self.follow()
        self.assertTrue(self.follows(1))
        with journal.open("a") as file:
            file.write("# The journal ends here: no line makes the next change again.\n")
            file.write(json.dumps({"at": "2024-01-15T09:00:00Z", "as": "ann", **PUT, "key": "later"}) + "\n")
        self.assertEqual(following.wait(LIMIT), 1)
        assert following.stderr
        self.assertIn(b"line 2 of", following.stderr.read())
        # Nothing that came behind that line is in the copy.
        self.assertEqual(self.events(self.copy()), self.events(self.file))

    def test_a_connection_that_ends_leaves_what_was_there(self) -> None:
        journal = self.begin()
        self.append(journal, {**PUT, "key": "a"}, {**PUT, "key": "b"})
        (self.machine / "bin" / "ssh").write_text(SSH.replace("exec", "head -c 200 |"))
        following = self.follow()
        self.assertEqual(following.wait(LIMIT), 1)
        self.assertFalse(self.copy().exists())
        self.assertEqual(self.lag("--most", "1").status, 1)

    def test_part_of_a_line_is_waited_for(self) -> None:
        journal = self.begin()
        self.follow()
        self.append(journal, {**PUT, "key": "a"})
        text = json.dumps({"at": "2024-01-15T09:00:00Z", "as": "ann", **PUT, "key": "b"}) + "\n"
        with journal.open("a") as file:
            file.write(text[:30])
            file.flush()
            self.assertTrue(self.follows(1))
            self.lines({**PUT, "key": "b"})
            file.write(text[30:])
        self.assertTrue(self.follows(2))


class Wrong(StandbyTest):
    def test_no_other_machine_is_named(self) -> None:
        self.configure()
        self.begin()
        done = self.desk("standby", "follow", "records", at=None)
        self.assertEqual(done.status, 1)
        self.assertIn("STANDBY is missing", done.err)

    def test_what_it_follows_is_said_as_json(self) -> None:
        done = self.desk("standby", "follow", "records", "--json", at=None)
        self.assertEqual(done.status, 1)
        self.assertEqual(json.loads(done.out), {"vault": "records", "standby": "other.example.org"})

    def test_no_journal_began(self) -> None:
        for words in (["follow"], ["lag"]):
            self.assertEqual(self.desk("standby", *words, "records", at=None).status, 1)

    def test_what_comes_in_is_no_copy(self) -> None:
        files = ({"other.vault": 1}, {"records.vault": 1, "x": 1}, {"records.vault-wal": 1})
        heads: list[dict[str, object]] = [{"journal": "20240115T090000Z", "lines": 0, "files": it} for it in files]
        up: dict[str, object] = {"journal": "../up", "lines": 0, "files": {"records.vault": 1}}
        for head in (*heads, up, [], {}):
            given = (json.dumps(head) + "\nx").encode()
            words = ["vaultdesk", "standby", "take", "records"]
            done = subprocess.run(words, input=given, capture_output=True, check=False)
            self.assertEqual((done.returncode, done.stdout), (1, b""), head)
        self.assertEqual(sorted(it.name for it in self.folder.iterdir() if "standby" in it.name), [])
