"""How a vault that is served is: what its server says of itself, and to whom."""

from __future__ import annotations

import json
import socket
import threading
import time

from tests.office import Done
from tests.served import ServedTest
from vaultdesk import ways


class Status(ServedTest):
    def status(self, *words: str) -> Done:
        return self.desk("status", "--as", "registrar", *words, at=None)

    def test_how_things_are(self) -> None:
        before = time.strftime("%Y-%m-%dT%H:%M:%SZ", time.gmtime())
        self.serve()
        first = json.loads(self.status("--json").out)
        self.assertLessEqual(before, first["since"])
        self.done("put", "docs", "a", self.written("a", b"x"), at=None)
        second = json.loads(self.status("--json").out)
        self.assertEqual({**first, "entries": 1, "last": second["last"]}, second)
        self.assertLess(first["last"], second["last"])
        self.assertEqual((first["entries"], first["failures"]), (0, 0))
        self.assertEqual(
            self.status().out,
            f"served since  {second['since']}\nversion       {second['version']}\nentries       1\n"
            f"last change   {second['last']}\nfailures      0\nlast wiped    isn't noted\n",
        )

    def test_who_has_no_right_to_it_learns_nothing(self) -> None:
        self.serve()
        done = self.desk("status", at=None)
        self.assertEqual((done.status, done.out), (1, ""))
        self.assertIn("right admin", done.err)

    def test_where_no_server_is_it_says_so(self) -> None:
        done = self.status()
        self.assertEqual((done.status, done.out), (1, ""))
        self.assertIn("no server of the vault takes lines", done.err)

    def test_a_file_that_is_away_and_one_that_is_back(self) -> None:
        self.serve()
        away = self.file.with_name("away")
        self.file.rename(away)
        done = self.status("--json")
        self.assertEqual((done.status, json.loads(done.out)["moved"]), (1, [str(self.file)]))
        self.assertIn(f"{self.file}: not where the server opened it, so every change is refused", done.err)
        self.assertIn("Put it back before the server is stopped", done.err)
        put = ("put", "docs", "a", self.written("a", b"x"))
        self.assertIn("Device", self.desk(*put, at=None).err)
        away.rename(self.file)
        done = self.status()
        self.assertEqual(done.status, 1)
        self.assertIn("failed once since the server was started", done.err)
        self.assertIn("then start the server anew: systemctl restart vault-serve@records.service", done.err)

    def test_another_file_in_its_place(self) -> None:
        self.serve()
        log = self.file.with_name("records.vault-wal")
        log.rename(self.folder / "away")
        log.write_bytes((self.folder / "away").read_bytes())
        done = self.status()
        self.assertEqual(done.status, 1)
        self.assertIn(f"{log}: not where the server opened it", done.err)

    def test_it_is_of_now(self) -> None:
        self.serve()
        done = self.desk("status", "--as", "registrar", at="2024-02-01")
        self.assertEqual((done.status, done.out), (2, ""))
        self.assertIn("leave --at out", done.err)

    def answered(self, reply: ways.Line) -> Done:
        """What is said of a server that answers so."""
        where = self.folder / "false"
        where.unlink(missing_ok=True)
        with socket.socket(socket.AF_UNIX) as listener:
            listener.bind(str(where))
            listener.listen()

            def serve() -> None:
                connection, _ = listener.accept()
                with connection:
                    connection.recv(65_536)
                    connection.sendall(ways.text_of(reply).encode() + b"\n")

            threading.Thread(target=serve, daemon=True).start()
            return self.status("--door", str(where))

    def test_an_earlier_server_doesnt_say_it(self) -> None:
        done = self.answered({"error": {"code": "MalformedBody", "n": 12}})
        self.assertEqual((done.status, done.out), (1, ""))
        self.assertIn("of an earlier version", done.err)

    def test_a_file_that_failed(self) -> None:
        found = {"entries": 7, "failures": 2, "last": "2024-01-15T10:30:00Z", "since": None, "version": "1"}
        done = self.answered({"ok": found})
        self.assertEqual(done.status, 1)
        self.assertIn("failures      2\n", done.out)
        self.assertIn("served since  unknown", done.out)
        self.assertIn("failed 2 times", done.err)
        self.assertIn("start the server anew", done.err)
