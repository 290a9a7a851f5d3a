"""What is sent again, at once, cut, or to an engine that ends: one version for each put, and none that is lost."""

from __future__ import annotations

import contextlib
import io
import os
import re
import signal
import socket
import sqlite3
import subprocess
import sys
import threading
import time
from collections.abc import Callable
from concurrent.futures import ThreadPoolExecutor
from pathlib import Path
from unittest import mock

from tests.office import PROGRAM
from tests.s3_office import ANN, BEA, DATE, SECRET, GatewayTest, request
from vaultdesk import reading, ways
from vaultdesk.errors import DeskError, EngineError
from vaultdesk.s3 import again, server
from vaultdesk.s3.door import Told

LOCK = {"x-amz-object-lock-mode": "COMPLIANCE", "x-amz-object-lock-retain-until-date": "2034-01-01T00:00:00Z"}
ONCE = {"amz-sdk-invocation-id": "d969f1fc-afca-45f4-93cf-bb107518bc68"}


def wait_until(holds: Callable[[], bool]) -> None:
    """Waits for that, half a minute at most: what the log has of a request is written after the answer was sent."""
    deadline = time.monotonic() + 30
    while not holds() and time.monotonic() < deadline:
        time.sleep(0.01)


class Again(GatewayTest):
    def replay(self) -> ways.Replay:
        """The gateway's own engine."""
        way = self.door.engine._way
        assert isinstance(way, ways.Replay)
        return way

    def test_a_put_that_is_sent_again_is_one_version(self) -> None:
        first = self.done("PUT", "/docs/a", b"hello", {**LOCK, **ONCE})
        again = self.done("PUT", "/docs/a", b"hello", {**LOCK, **ONCE, "amz-sdk-request": "attempt=2"})
        self.assertEqual(again.headers["x-amz-version-id"], first.headers["x-amz-version-id"])
        self.assertEqual(again.headers["etag"], first.headers["etag"])
        self.assertEqual(len(self.entries()), 1)
        # The same content that is put anew is another version.
        self.done("PUT", "/docs/a", b"hello", {**LOCK, "amz-sdk-invocation-id": "another"})
        self.done("PUT", "/docs/a", b"hello", {**LOCK, **ONCE}, who=ANN)
        self.assertEqual(len(self.entries()), 2)

    def test_also_after_the_gateway_was_started_anew(self) -> None:
        first = self.done("PUT", "/docs/a", b"hello", ONCE)
        self.stop()
        self.start()
        again = self.done("PUT", "/docs/a", b"hello", ONCE)
        self.assertEqual(again.headers["x-amz-version-id"], first.headers["x-amz-version-id"])
        self.assertEqual(len(self.entries()), 1)
        self.stop()
        shown = reading.query(self.file, "batches")
        self.assertEqual([(it["bucket"], it["batch"], it["lines"]) for it in shown], [("docs", "s3-*", 1)])
        self.start()

    def test_another_put_of_that_id_is_refused(self) -> None:
        self.done("PUT", "/docs/a", b"hello", ONCE)
        others = (("/docs/a", b"other", ONCE), ("/docs/b", b"hello", ONCE), ("/docs/a", b"hello", {**LOCK, **ONCE}))
        for target, body, headers in others:
            self.refused("InvalidRequest", 400, self.ask("PUT", target, body, headers))
        self.assertEqual(len(self.entries()), 1)
        # Another caller's id is another one.
        self.done("PUT", "/docs/a", b"other", ONCE, who=BEA)
        self.assertEqual(len(self.entries()), 2)

    def test_a_copy_that_is_sent_again(self) -> None:
        self.done("PUT", "/docs/a", b"hello")
        given = {"x-amz-copy-source": "/docs/a", **ONCE}
        ids = [self.done("PUT", "/docs/b", b"", given).headers["x-amz-version-id"] for _ in range(2)]
        self.assertEqual((ids, len(self.entries())), (["2", "2"], 2))

    def test_an_answer_that_is_cut(self) -> None:
        whole = request("PUT", "/docs/a", b"hello", ONCE)
        with self.connected() as connection:
            connection.sendall(whole)
            connection.setsockopt(socket.SOL_SOCKET, socket.SO_LINGER, b"\1\0\0\0\0\0\0\0")
        deadline = time.monotonic() + 300
        while not self.entries() and time.monotonic() < deadline:
            time.sleep(0.05)
        self.assertEqual(self.send(whole)[0].headers["x-amz-version-id"], "1")
        self.assertEqual(len(self.entries()), 1)

    def test_an_engine_that_ends_is_started_anew(self) -> None:
        self.done("PUT", "/docs/a", b"hello", ONCE)
        child = self.replay()._child
        assert child
        child.kill()
        child.wait()
        with contextlib.redirect_stderr(io.StringIO()):
            self.refused("InternalError", 500, self.ask("PUT", "/docs/b", b"hello"))
        self.assertEqual(self.done("PUT", "/docs/a", b"hello", ONCE).headers["x-amz-version-id"], "1")
        self.assertEqual(self.done("PUT", "/docs/b", b"hello").headers["x-amz-version-id"], "2")

    def test_what_comes_as_the_gateway_ends_opens_the_vault_no_more(self) -> None:
        with self.connected() as connection:
            connection.sendall(request("GET", "/docs"))
            self.assertIn(b" 200 ", connection.recv(65_536))
            self.stop()
            connection.sendall(request("PUT", "/docs/a", b"hello"))
            self.assertIn(b" 503 ", connection.recv(65_536))
            self.assertIsNone(self.replay()._child)
        self.start()
        self.assertEqual(self.entries(), [])

    def test_what_nobody_thought_of_is_answered(self) -> None:
        broken = mock.patch.object(self.door.engine, "ask", side_effect=KeyError("hex"))
        with broken, contextlib.redirect_stderr(io.StringIO()) as said:
            self.refused("InternalError", 500, self.ask("GET", "/docs/a"))
        self.assertIn("KeyError", said.getvalue())
        self.assertEqual(self.ask("GET", "/docs").status, 200)

    def test_what_the_engine_says_of_refusals_doesnt_fill_the_disk(self) -> None:
        kept, ways.MOST_SAID = ways.MOST_SAID, 1_000
        self.addCleanup(setattr, ways, "MOST_SAID", kept)
        for number in range(60):
            self.assertEqual(self.ask("GET", f"/docs/none{number}").code, "NoSuchKey")
        said = self.replay()._said
        assert said
        self.assertLess(os.fstat(said.fileno()).st_size, 1_500)


class Unsaid(GatewayTest):
    """Puts whose client gives them no id."""

    PRESIGNED = True

    def lost(self, target: str, body: bytes, headers: dict[str, str] | None = None) -> None:
        """Sends a put, and breaks the connection off before its answer; returns once that is noted."""
        with self.connected() as connection:
            connection.sendall(request("PUT", target, body, headers))
            connection.setsockopt(socket.SOL_SOCKET, socket.SO_LINGER, b"\1\0\0\0\0\0\0\0")
        deadline = time.monotonic() + 100
        notes = self.vault.unanswered
        while self.server.working or not any(it.is_lost is again._always for it in notes.puts.values()):
            self.assertLess(time.monotonic(), deadline)
            time.sleep(0.01)

    def put(self, target: str, body: bytes, headers: dict[str, str] | None = None, who: str = ANN) -> str:
        """The version that a put makes, which is signed for itself."""
        return self.done("PUT", target, body, headers, who).headers["x-amz-version-id"]

    def versions(self) -> list[int]:
        return sorted(it["version_id"] for it in self.entries())

    def test_the_same_request_is_the_same_put(self) -> None:
        whole = request("PUT", "/docs/a", b"hello", LOCK)
        self.assertEqual([self.send(whole)[0].headers["x-amz-version-id"] for _ in range(2)], ["1", "1"])
        self.stop()
        self.start()
        self.assertEqual(self.send(whole)[0].headers["x-amz-version-id"], "1")
        self.assertEqual(self.versions(), [1])

    def test_what_is_signed_anew_is_put_anew(self) -> None:
        self.assertEqual([self.put("/docs/a", b"hello", LOCK) for _ in range(2)], ["1", "2"])

    def test_the_same_request_never_brings_back_what_was_replaced(self) -> None:
        whole = request("PUT", "/docs/a", b"hello")
        self.assertEqual(self.send(whole)[0].status, 200)
        self.put("/docs/a", b"other")
        self.refused("OperationAborted", 409, self.send(whole)[0])
        self.done("DELETE", "/docs/a")
        self.refused("OperationAborted", 409, self.send(whole)[0])
        self.assertEqual(self.versions(), [1, 2, 3])

    def test_who_may_not_look_is_answered(self) -> None:
        self.lines({"do": "add-caller", "as": "registrar", "caller": "dan", "dept": "records", "rights": ["put"]})
        self.keys.write_text(self.keys.read_text().replace('caller = "bea"', 'caller = "dan"'))
        whole = request("PUT", "/docs/a", b"hello", access_key=BEA)
        self.assertEqual([self.send(whole)[0].headers["x-amz-version-id"] for _ in range(2)], ["1", "1"])

    def test_an_answer_that_is_lost(self) -> None:
        self.lost("/docs/a", b"hello", LOCK)
        self.assertEqual(self.put("/docs/a", b"hello", LOCK), "1")
        # That one was answered.
        self.assertEqual(self.put("/docs/a", b"hello", LOCK), "2")
        self.assertEqual(self.versions(), [1, 2])

    def test_the_request_that_took_a_lost_one_over_is_the_same_put(self) -> None:
        self.lost("/docs/a", b"hello")
        whole = request("PUT", "/docs/a", b"hello")
        self.assertEqual([self.send(whole)[0].headers["x-amz-version-id"] for _ in range(2)], ["1", "1"])
        self.put("/docs/a", b"other")
        self.refused("OperationAborted", 409, self.send(whole)[0])
        self.assertEqual(self.versions(), [1, 2])

    def test_an_answer_that_is_lost_after_another_has_come(self) -> None:
        notes = self.vault.unanswered
        first = notes.begin("a" * 64, again.name_of(), None, lambda: True)
        second = notes.begin("a" * 64, again.name_of(), None, lambda: False)
        self.assertEqual(second.name, first.name)
        notes.end(second)
        notes.lose(first)
        self.assertEqual(notes.puts, {})

    def test_another_put_isnt_the_one_whose_answer_was_lost(self) -> None:
        self.lost("/docs/a", b"hello")
        self.assertEqual(self.put("/docs/b", b"hello"), "2")
        self.assertEqual(self.put("/docs/a", b"hello", who=BEA), "3")
        self.assertEqual(self.put("/docs/a", b"hello", LOCK), "4")
        self.assertEqual(self.put("/docs/a", b"other"), "5")

    def test_another_content_of_one_signature_is_another_put(self) -> None:
        whole = request("PUT", "/docs/a", b"hello", {"x-amz-content-sha256": "UNSIGNED-PAYLOAD"})
        sent = [whole, whole.replace(b"\r\n\r\nhello", b"\r\n\r\nother")]
        self.assertEqual([self.send(it)[0].headers["x-amz-version-id"] for it in sent], ["1", "2"])

    def test_two_that_are_under_way_at_once_are_two(self) -> None:
        asked, both = self.door.ask, threading.Barrier(2)

        def together(who: str, do: str, **members: object) -> Told:
            if do == "intake":
                both.wait(300)
            return asked(who, do, **members)

        with mock.patch.object(self.door, "ask", together), self.connected() as first, self.connected() as second:
            for it in (first, second):
                it.sendall(request("PUT", "/docs/a", b"hello"))
            answers = [it.recv(65_536) for it in (first, second)]
        self.assertTrue(all(b" 200 " in it for it in answers), answers)
        self.assertEqual(self.versions(), [1, 2])

    def test_a_lost_one_that_was_replaced_since_is_put_anew(self) -> None:
        self.lost("/docs/a", b"hello")
        self.put("/docs/a", b"other")
        self.assertEqual(self.put("/docs/a", b"hello"), "3")
        self.assertEqual(self.done("GET", "/docs/a").body, b"hello")

    def test_a_lost_one_is_kept_over_a_restart_for_fifteen_minutes(self) -> None:
        self.lost("/docs/a", b"hello")
        self.stop()
        self.start()
        self.assertEqual(self.put("/docs/a", b"hello"), "1")
        self.lost("/docs/b", b"hello")
        self.stop()
        for it in (self.folder / "unanswered").iterdir():
            os.utime(it, (0, time.time() - again.MEMORY - 1))
        self.start()
        self.assertEqual(self.put("/docs/b", b"hello"), "3")
        self.assertEqual(list((self.folder / "unanswered").iterdir()), [])
        self.lost("/docs/c", b"hello")
        with mock.patch.object(again, "MEMORY", -1):
            self.assertEqual(self.put("/docs/c", b"hello"), "5")

    def test_a_gateway_that_is_killed_before_it_answers(self) -> None:
        killed = mock.patch.object(again.Unanswered, "end"), mock.patch.object(again.Unanswered, "lose")
        with killed[0], killed[1]:
            self.put("/docs/a", b"hello")
        self.stop()
        self.start()
        self.assertEqual(self.put("/docs/a", b"hello"), "1")
        self.assertEqual(self.versions(), [1])

    def test_an_engine_that_gives_no_answer(self) -> None:
        asked = self.door.engine.ask

        def lost(do: str, who: str, /, **members: object) -> dict[str, object]:
            done = asked(do, who, **members)
            if do == "intake":
                raise EngineError("no answer")
            return done

        with mock.patch.object(self.door.engine, "ask", lost), contextlib.redirect_stderr(io.StringIO()):
            self.refused("InternalError", 500, self.ask("PUT", "/docs/a", b"hello"))
        self.assertEqual(self.put("/docs/a", b"hello"), "1")
        self.assertEqual(self.versions(), [1])

    def test_what_is_refused_or_answered_isnt_noted(self) -> None:
        self.refused("NoSuchBucket", 404, self.ask("PUT", "/nothing/a", b"hello"))
        self.put("/docs/a", b"hello")
        with self.connected() as connection:
            for number in range(3):
                connection.sendall(request("PUT", f"/docs/{number}", b"x"))
                self.assertIn(b" 200 ", connection.recv(65_536))
        deadline = time.monotonic() + 100
        while self.vault.unanswered.puts:
            self.assertLess(time.monotonic(), deadline)
            time.sleep(0.01)
        self.assertEqual(list((self.folder / "unanswered").iterdir()), [])

    def test_a_presigned_url_may_be_used_again(self) -> None:
        url = self.kept("boto3-presigned-put")
        self.assertEqual([self.send(url)[0].headers["x-amz-version-id"] for _ in range(2)], ["1", "2"])

    def test_a_request_with_another_id_is_no_other_put(self) -> None:
        plain = request("PUT", "/docs/a", b"hello")

        def named(name: bytes) -> bytes:
            return plain.replace(b"Authorization", b"amz-sdk-invocation-id: " + name + b"\r\nAuthorization")

        self.assertEqual([self.send(named(b"x"))[0].headers["x-amz-version-id"] for _ in range(2)], ["1", "1"])
        for it in (named(b"y"), plain):
            self.refused("AccessDenied", 403, self.send(it)[0])
        self.assertEqual(self.versions(), [1])

    def test_notes_that_cant_be_written_are_said_once(self) -> None:
        folder = self.folder / "unanswered"
        folder.rmdir()
        with contextlib.redirect_stderr(io.StringIO()) as said:
            self.put("/docs/a", b"hello")
            self.put("/docs/b", b"hello")
        self.assertEqual(said.getvalue().count("noted in memory alone"), 1)
        folder.write_bytes(b"")
        with self.assertRaises(DeskError):
            again.Unanswered(folder)


class AtOnce(GatewayTest):
    def test_a_hundred(self) -> None:
        def put(number: int) -> int:
            once = {"amz-sdk-invocation-id": str(number % 50)}
            return self.ask("PUT", f"/docs/{number:03}", b"x" * number, once).status

        with ThreadPoolExecutor(100) as pool:
            statuses = list(pool.map(put, range(100)))
        # Of two that have one id, the one that came first is put, and the other is refused.
        self.assertEqual(sorted(statuses), [200] * 50 + [400] * 50)
        found = self.entries()
        self.assertEqual([it["size"] for it in found], [int(it["key"]) for it in found])
        self.assertEqual(len(found), 50)

    def test_the_same_put_a_hundred_times(self) -> None:
        with ThreadPoolExecutor(100) as pool:
            done = list(pool.map(lambda _: self.done("PUT", "/docs/a", b"hello", {**LOCK, **ONCE}), range(100)))
        self.assertEqual({it.headers["x-amz-version-id"] for it in done}, {"1"})
        self.assertEqual(len(self.entries()), 1)


class Heads(GatewayTest):
    def test_what_is_no_request(self) -> None:
        for raw in (
            b"nonsense\r\n\r\n", b"GET /docs HTTP/9.9\r\n\r\n", b"GET docs HTTP/1.1\r\nhost: a\r\n\r\n",
            b"GET http://vault/docs HTTP/1.1\r\nhost: a\r\n\r\n", b"PATCH /docs HTTP/1.1\r\nhost: a\r\n\r\n",
            b"GET /docs HTTP/1.1\r\nno header\r\nhost: a\r\n\r\n", b"GET /" + b"a" * 70_000 + b" HTTP/1.1\r\n\r\n",
            b"GET /docs?a=1&a=2 HTTP/1.1\r\nhost: a\r\n\r\n",
            b"GET /docs HTTP/1.1\r\n" + b"".join(b"x%d: y\r\n" % it for it in range(200)) + b"\r\n",
        ):  # fmt: skip
            with self.subTest(raw[:40]):
                got = self.send(raw)[0]
                self.assertIn(got.status, (400, 501))
                self.assertIn(b"<Error>", got.body)
        self.assertEqual(self.ask("GET", "/docs").status, 200)

    def test_what_comes_after_a_refused_body_is_no_request(self) -> None:
        hidden = request("PUT", "/docs/hidden", b"hello")
        outer = request("PUT", "/docs/a", hidden, {"x-amz-meta-a": "b"})
        self.assertEqual([it.status for it in self.send(outer)], [400])
        self.assertEqual(self.entries(), [])

    def test_no_signature_is_in_the_log(self) -> None:
        self.server.is_quiet = False
        signature = "0123456789abcdef" * 4
        target = f"/docs/a?X-Amz-Date={DATE}&X-Amz-Signature={signature}"
        # What a browser asks before it puts by a presigned URL, a version that there isn't, and a URL that isn't taken.
        asked = [f"OPTIONS {target} HTTP/1.1", f"PUT {target} HTTP/9.1", f"GET {target}&x=1 HTTP/1.1"]
        with contextlib.redirect_stderr(io.StringIO()) as log:
            for it in asked:
                self.assertGreaterEqual(self.send(f"{it}\r\nhost: a\r\n\r\n".encode())[0].status, 400)
            wait_until(lambda: log.getvalue().count("\n") >= len(asked))
        self.assertNotIn(signature, log.getvalue())
        for it in asked:
            self.assertIn(it.removesuffix(" HTTP/1.1").replace(signature, ".."), log.getvalue())

    def test_the_log_says_who_asked_for_what(self) -> None:
        self.server.is_quiet = False
        with contextlib.redirect_stderr(io.StringIO()) as log:
            self.refused("InvalidRequest", 400, self.ask("PUT", "/docs/a", b"x", {"x-amz-meta-a": "b"}, BEA))
            wait_until(lambda: log.getvalue().endswith("\n"))
        self.assertIn(" bea PUT /docs/a 400 InvalidRequest\n", log.getvalue())
        self.assertNotIn(SECRET, log.getvalue())

    def test_a_client_from_which_nothing_comes_is_left(self) -> None:
        with mock.patch.object(server.Handler, "timeout", 0.3):
            for begun in (b"", b"GET /docs HTTP/1.1\r\n", request("PUT", "/docs/a", b"hello")[:-1]):
                with self.connected() as connection:
                    connection.sendall(begun)
                    while connection.recv(65_536):
                        pass
        self.assertEqual(self.entries(), [])

    def test_a_client_that_goes_away_disturbs_nobody(self) -> None:
        whole = request("PUT", "/docs/a", b"hello")
        for cut in (1, 40, len(whole) - 1):
            with self.connected() as connection:
                connection.sendall(whole[:cut])
        self.assertEqual(self.ask("GET", "/docs").status, 200)
        self.assertEqual(self.entries(), [])


class ProgramTest(GatewayTest):
    """The gateway as a program."""

    def begin(self) -> tuple[subprocess.Popen[str], int, list[str]]:
        desk = Path(__file__).resolve().parents[1] / "bin" / "vaultdesk"
        text = f'vault = "{self.file}"\nkeys = "{self.keys}"\nport = 0\n'
        words = [sys.executable, str(desk), "s3", "serve", "--settings", self.written("s3.toml", text.encode())]
        environment = {**os.environ, "VAULTCTL": PROGRAM}
        child = subprocess.Popen(words, stderr=subprocess.PIPE, encoding="utf-8", env=environment)
        assert child.stderr
        self.addCleanup(child.stderr.close)
        self.addCleanup(child.wait)
        self.addCleanup(child.kill)
        said: list[str] = []
        for line in child.stderr:
            said.append(line)
            if line.startswith("serving"):
                threading.Thread(target=said.extend, args=(child.stderr,), daemon=True).start()
                return child, int(line.rsplit(":", 1)[1]), said
        self.fail("".join(said))


class Programs(ProgramTest):
    def test_it_says_what_isnt_locked_serves_and_ends_by_a_signal(self) -> None:
        self.stop()
        self.lines({"do": "set-default", "bucket": "docs", "mode": "GOVERNANCE", "days": 3})
        for stop in (signal.SIGTERM, signal.SIGINT):
            child, port, said = self.begin()
            self.assertIn("bucket cases has no default retention", "".join(said))
            self.assertNotIn("bucket docs", "".join(said))
            raw = b"GET /docs?X-Amz-Signature=" + b"0" * 64 + b" HTTP/1.1\r\nhost: a\r\n\r\n"
            with socket.create_connection(("127.0.0.1", port), timeout=300) as connection:
                for it in (request("GET", "/docs", headers={"x-amz-date": "20200101T000000Z"}), raw):
                    connection.sendall(it)
                    self.assertIn(b"403", connection.recv(65_536))
                child.send_signal(stop)
                self.assertEqual(child.wait(300), 0)
            noted = "".join(said)
            self.assertIn("- GET /docs?X-Amz-Signature=.. 403 AccessDenied", noted)
            self.assertNotIn("0" * 64, noted)
            self.assertIn("- GET /docs 403 RequestTimeTooSkewed", noted)
            self.assertFalse(SECRET in noted or re.search("[0-9a-f]{64}", noted), noted)
        self.assertFalse(Path(f"{self.file}-wal").exists() and Path(f"{self.file}-wal").stat().st_size > 100)
        self.start()

    def test_what_keeps_it_from_starting(self) -> None:
        self.done("GET", "/docs")  # the vault is open, in this process's gateway
        with self.assertRaises(AssertionError) as failed:
            self.begin()
        self.assertRegex(str(failed.exception), "another program|Device|locked")

    def test_a_damaged_vault_keeps_it_from_starting(self) -> None:
        self.stop()
        with contextlib.closing(sqlite3.connect(self.file)) as base, base:
            base.execute("UPDATE meta SET next = 99")
        with self.assertRaises(AssertionError) as failed:
            self.begin()
        self.assertIn("Damaged", str(failed.exception))
