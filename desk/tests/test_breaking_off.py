"""A person who breaks a subcommand off: at a question, and in the middle of its work."""

from __future__ import annotations

import os
import pty
import select
import signal
import sys
import time
from pathlib import Path
from typing import Any
from unittest import mock

from tests.office import OfficeTest
from tests.served import ServedTest
from vaultdesk import intake, ways
from vaultdesk.engine import Engine

TOP = Path(__file__).resolve().parents[2]


class AtATerminal(OfficeTest):
    def typed(self, letters: bytes, *words: str) -> tuple[int, str]:
        """The status of the desk at a terminal at which these letters are typed as it asks, and what it shows there."""
        child, terminal = pty.fork()
        if child == 0:
            signal.signal(signal.SIGINT, signal.SIG_DFL)  # else what runs these tests may have it ignored
            os.execv(sys.executable, [sys.executable, "-B", str(TOP / "desk" / "bin" / "vaultdesk"), *words])
        self.addCleanup(os.close, terminal)
        shown = self.shown(terminal, b"[yes/no] ")
        # A signal that comes before the desk waits for letters is seen with the next letter alone.
        while Path(f"/proc/{child}/stat").read_text().rpartition(") ")[2][0] != "S":
            time.sleep(0.01)
        os.write(terminal, letters)
        shown += self.shown(terminal)
        _, status = os.waitpid(child, 0)
        return os.waitstatus_to_exitcode(status), shown.decode()

    def shown(self, terminal: int, last: bytes = b"\0") -> bytes:
        """What is shown up to these letters, or the end of the program."""
        found, until = b"", time.monotonic() + 60
        while not found.endswith(last):
            is_ready, _, _ = select.select([terminal], [], [], max(0, until - time.monotonic()))
            self.assertTrue(is_ready, found)
            try:
                found += os.read(terminal, 1024)
            except OSError:  # nothing has the terminal open any more
                return found
        return found

    def test_the_end_of_input_and_an_interrupt_are_a_no(self) -> None:
        self.lines({"do": "put", "bucket": "docs", "key": "a", "text": "a"})
        for letters in (b"\x04", b"\x03"):
            status, shown = self.typed(letters, "delete", "docs", "a", "--version", "1")
            self.assertEqual(status, 1, shown)
            self.assertTrue(shown.endswith("\nvaultdesk delete: nothing was changed\r\n"), shown)
            self.assertNotIn("Traceback", shown)
        self.assertIn("a", self.done("ls", "docs"))


class InTheMiddle(OfficeTest):
    def setUp(self) -> None:
        super().setUp()
        self.lines(*({"do": "put", "bucket": "docs", "key": key, "text": key} for key in "abcd"))

    def broken_off_at(self, number: int) -> Any:
        """The engine's `ask`, which a person breaks off at the line of that number, as it is made."""
        ask, count = Engine.ask, [0]

        def asked(engine: Engine, do: str, *names: str | None, **members: Any) -> dict[str, Any]:
            found = ask(engine, do, *names, **members)
            count[0] += do != "head"
            if count[0] == number and do != "head":
                raise KeyboardInterrupt
            return found

        return mock.patch.object(Engine, "ask", asked)

    def test_each_row_says_whether_it_was_done(self) -> None:
        with self.broken_off_at(3):  # after the list, of the second key
            done = self.desk("hold", "docs", "--prefix", "")
        self.assertEqual(done.status, 1)
        rows = [it.split() for it in done.out.splitlines()]
        self.assertEqual([it[-1] for it in rows[1:5]], list("abcd"))
        self.assertIn("Interrupted: it was under way, and may have been changed", done.out)
        self.assertIn("Left: it wasn't come to, and is as it was", done.out)
        self.assertIn("3 of 4 were refused, and the others were done", done.err)
        self.assertEqual([self.hold_of(it) for it in "abcd"], ["ON", "ON", "OFF", "OFF"])

    def hold_of(self, key: str) -> str:
        return next(it.split()[1] for it in self.done("info", "docs", key).splitlines() if it.startswith("hold"))

    def test_what_was_made_until_then_is_counted(self) -> None:
        self.done("buckets", "--add", "more", "--department", "records", "--as", "registrar")
        for bucket in ("docs", "more"):
            self.done("rules", "add", bucket, "--id", "old", "--days", "1")
        with mock.patch("vaultdesk.policies.foreseen", return_value=([{"night": ""}], [])), self.broken_off_at(2):
            done = self.desk("expire", "records", "--yes")
        self.assertEqual(done.status, 1)
        self.assertIn("vaultdesk expire: interrupted: 2 changes were made, and stay", done.err)

    def test_nothing_was_changed_where_nothing_was_asked_for(self) -> None:
        with mock.patch("vaultdesk.documents.read_content", side_effect=KeyboardInterrupt):
            done = self.desk("put", "docs", "e", "none")
        self.assertEqual((done.status, done.err), (1, "vaultdesk put: interrupted: nothing was changed\n"))

    def test_an_answer_that_nobody_waits_for_is_no_fault(self) -> None:
        """The engine can't write it, as the desk has ended: what is said is that the desk was interrupted."""
        end = ways.Replay._end
        with (
            mock.patch("vaultdesk.ways.Replay._exchange", side_effect=KeyboardInterrupt),
            mock.patch("vaultdesk.ways.Replay._end", autospec=True, side_effect=lambda it: end(it) or 1),
        ):
            done = self.desk("info", "docs", "a")
        self.assertEqual((done.status, done.err), (1, "vaultdesk info: interrupted: nothing was changed\n"))

    def test_a_change_under_way_is_named(self) -> None:
        with mock.patch("vaultdesk.ways.Replay.answer", side_effect=KeyboardInterrupt):
            done = self.desk("put", "docs", "e", self.written("a.txt", b"a"))
        self.assertEqual(done.status, 1)
        self.assertIn("but for one that was under way (put): look whether it was made", done.err)

    def test_what_asks_no_vault_ends_without_a_traceback(self) -> None:
        with mock.patch("vaultdesk.backup.backup", side_effect=KeyboardInterrupt):
            done = self.desk("backup", str(self.file), str(self.folder / "copies"), at=None)
        self.assertEqual((done.status, "interrupted: look how far it came" in done.err), (1, True))


class Interrupted(OfficeTest):
    """The desk as a process of its own, which gets the signal of Ctrl-C while the engine is at work."""

    def broken_off(self, listed: str, seconds: int) -> tuple[int, bytes]:
        """The status and what is written, where the signal comes after these seconds."""
        out, err = os.pipe()
        words = [sys.executable, "-B", str(TOP / "desk" / "bin" / "vaultdesk"), "hold", "docs", "--from", listed]
        child = os.posix_spawn(sys.executable, words, os.environ, file_actions=[
            (os.POSIX_SPAWN_DUP2, err, 1), (os.POSIX_SPAWN_DUP2, err, 2),
        ], setsigdef=[signal.SIGINT])  # fmt: skip
        os.close(err)
        time.sleep(seconds)
        os.kill(child, signal.SIGINT)
        said = b""
        while piece := os.read(out, 65_536):
            said += piece
        os.close(out)
        return os.waitstatus_to_exitcode(os.waitpid(child, 0)[1]), said

    def test_the_vault_is_closed_and_what_was_done_is_said(self) -> None:
        listed = self.written("list.csv", b"key\n" + b"".join(b"%d\n" % it for it in range(10_000)))
        self.lines(*({"do": "put", "bucket": "docs", "key": str(it), "text": "a"} for it in range(10_000)))
        # How long the reading takes before the first change depends on the machine.
        for seconds in range(2, 60):
            status, said = self.broken_off(listed, seconds)
            if b"interrupted: nothing was changed" not in said:
                break
        self.assertEqual(status, 1, said[-500:])
        self.assertIn(b"Interrupted: it was under way", said)
        self.assertNotIn(b"Traceback", said)
        self.assertEqual(self.done("verify", at=None), "sound\n")


class OfADelivery(ServedTest):
    def setUp(self) -> None:
        super().setUp()
        (self.folder / "scans").mkdir()
        for name in ("1.txt", "2.txt", "3.txt"):
            self.written(f"scans/{name}", name.encode())

    def test_what_came_in_stays_and_is_counted(self) -> None:
        self.serve()
        content, count = intake._content, [0]

        def read(path: Path) -> bytes:
            count[0] += 1
            if count[0] == 3:
                raise KeyboardInterrupt
            return content(path)

        words = ("deliver", str(self.folder / "scans"), "--bucket", "docs", "--batch", "b1", "--yes")
        with mock.patch.object(intake, "_content", read):
            done = self.desk(*words, at=None)
        self.assertEqual(done.status, 1)
        self.assertIn("interrupted: 2 rows were answered, and what came in stays: give the same command", done.err)
        self.assertIn("3 of 3 rows are in the vault", self.desk(*words, at=None).out)
        self.assertEqual(len(self.done("ls", "docs", at=None).splitlines()), 4)
