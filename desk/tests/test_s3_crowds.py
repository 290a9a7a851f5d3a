"""Strangers, crowds and large documents at the gateway: nobody keeps others out, and who is turned away is noted."""

from __future__ import annotations

import contextlib
import io
import re
import socket
import ssl
import threading
import time
from collections.abc import Iterator
from unittest import mock

from tests.s3_office import SECRET, GatewayTest, read_replies, replies, request
from tests.test_s3_again import ProgramTest, wait_until
from vaultdesk.s3 import gateway, places, server, xml
from vaultdesk.s3.bodies import DOCUMENT, SMALL
from vaultdesk.s3.faults import Fault

STRANGER = "127.0.0.2"
SOON = 5.0  # seconds on a machine that is busy; who was kept out got no answer in 60
MANY = b"<Delete>" + b"<a/>" * ((DOCUMENT - 17) // 4) + b"</Delete>"


class CrowdTest(GatewayTest):
    def setUp(self) -> None:
        super().setUp()
        self.log = io.StringIO()
        self.server.is_quiet = False
        self.enterContext(contextlib.redirect_stderr(self.log))
        self.addCleanup(setattr, self.server, "is_quiet", True)

    def come(self, host: str = STRANGER, port: int | None = None) -> socket.socket:
        """A connection from that address of this machine, which lasts as long as the test."""
        there = ("127.0.0.1", port or self.server.server_address[1])
        return self.enterContext(socket.create_connection(there, timeout=100, source_address=(host, 0)))

    def crowd(self, port: int | None = None) -> None:
        """Strangers from one address, who are silent, or send a head byte by byte."""
        trickling = []
        for _ in range(places.CONNECTIONS):
            with contextlib.suppress(OSError):
                trickling.append(self.come(port=port))
        ended = threading.Event()
        self.addCleanup(ended.set)

        def trickle() -> None:
            while not ended.wait(0.2):
                for it in trickling[::2]:
                    with contextlib.suppress(OSError):
                        it.sendall(b"G")

        threading.Thread(target=trickle, daemon=True).start()

    def noted(self, line: str) -> bool:
        """Whether the log has that line by now, after its moment."""
        wait_until(lambda: line in self.log.getvalue())
        return re.search(f"^\\S+Z {re.escape(line)}$", self.log.getvalue(), re.MULTILINE) is not None

    @contextlib.contextmanager
    def within(self, seconds: float = SOON) -> Iterator[None]:
        begun = time.monotonic()
        yield
        self.assertLess(time.monotonic() - begun, seconds)


class Places(CrowdTest):
    def test_silent_strangers_keep_nobody_else_out(self) -> None:
        self.crowd()
        for _ in range(5):
            with self.within():
                self.done("GET", "/docs")

    def test_who_gets_no_place_is_in_the_log(self) -> None:
        with mock.patch.multiple(places, OF_ONE=2, WAITING_OF_ONE=1):
            for _ in range(3):
                self.come()
            wait_until(lambda: len(self.server.places.waiting) == 1)
            with self.within():
                self.assertEqual(self.come().recv(65_536), server.BUSY)
            self.assertTrue(self.noted(f"- from {STRANGER} 503 SlowDown"), self.log.getvalue())

    def test_where_there_is_no_thread_nobody_loses_a_place(self) -> None:
        with mock.patch.object(places, "OF_ONE", 1):
            with mock.patch("threading.Thread.start", side_effect=RuntimeError("can't start new thread")):
                self.assertEqual(self.come().recv(65_536), server.BUSY)
            self.assertEqual(replies(self.come(), request("GET", "/docs"))[0].status, 200)

    def test_who_waits_too_long_is_turned_away(self) -> None:
        with mock.patch.multiple(places, OF_ONE=1), mock.patch.object(places.Places.late, "__defaults__", (0.2,)):
            self.come()
            self.assertEqual(self.come().recv(65_536), server.BUSY)
        self.assertTrue(self.noted(f"- from {STRANGER} 503 SlowDown"), self.log.getvalue())

    def test_who_waits_has_the_place_of_one_that_asks_nothing(self) -> None:
        with mock.patch.object(places, "OF_ONE", 2):
            held = [self.come() for _ in range(2)]
            for it in held:
                it.sendall(request("GET", "/docs"))
                self.assertIn(b" 200 ", it.recv(65_536))
            wait_until(lambda: len(self.server.places.idle) == 2)
            with self.within():
                self.assertEqual(replies(self.come(), request("GET", "/docs"))[0].status, 200)
            self.assertEqual(held[0].recv(65_536), b"")

    def test_who_is_answered_while_others_wait_makes_room(self) -> None:
        asked, waits = self.door.ask, threading.Event()

        def slowly(*given: object, **members: object) -> object:
            waits.wait(100)
            return asked(*given, **members)  # type: ignore[arg-type]

        with mock.patch.object(places, "OF_ONE", 1), mock.patch.object(self.door, "ask", slowly):
            first, second = self.come(), self.come()
            for it in (first, second):
                it.sendall(request("GET", "/docs"))
            wait_until(lambda: len(self.server.places.waiting) == 1)
            waits.set()
            answers = [next(read_replies(it.recv(65_536))) for it in (first, second)]
        self.assertEqual([it.status for it in answers], [200, 200])
        self.assertEqual([it.headers["connection"] for it in answers], ["close", "keep-alive"])

    def test_one_address_has_no_more_than_its_places(self) -> None:
        held = places.Places()
        guests = [places.Guest(mock.Mock(), (f"10.0.0.{number // 100}", 1)) for number in range(500)]
        self.assertEqual(sum(held.take(it) for it in guests), places.CONNECTIONS)
        self.assertLessEqual(max(held.served.values()), places.OF_ONE)
        waiting = [it for it in guests if it.host == "10.0.0.4"]
        self.assertEqual(sum(held.wait(it) for it in [*waiting, *waiting]), places.WAITING_OF_ONE)
        # A place that is free is the first one's who may have it.
        self.assertIs(held.leave("10.0.0.0"), waiting[0])
        self.assertEqual((held.served["10.0.0.0"], held.served["10.0.0.4"]), (places.OF_ONE - 1, 1))
        self.assertEqual(held.served.total(), places.CONNECTIONS)


class Times(CrowdTest):
    def trickled(self, whole: bytes) -> bytes:
        """The answer to what is sent byte by byte."""
        connection = self.come()
        connection.settimeout(0.05)
        answer = b""
        with self.within(), contextlib.suppress(ConnectionError):
            for it in whole:
                connection.sendall(bytes([it]))
                with contextlib.suppress(TimeoutError):
                    answer = connection.recv(65_536)
                    break
            connection.settimeout(SOON)
            while part := connection.recv(65_536):
                answer += part
        return answer

    def test_a_head_has_its_time_as_a_whole(self) -> None:
        with mock.patch.object(server, "HEAD", 0.5):
            self.assertIn(b"RequestTimeout", self.trickled(b"G" * 100))
        self.assertTrue(self.noted(f"- from {STRANGER} 400 RequestTimeout"), self.log.getvalue())

    def test_a_body_has_its_time_as_a_whole(self) -> None:
        whole = request("PUT", "/docs/a", b"x" * 1_000)
        head, _, body = whole.partition(b"\r\n\r\n")
        with mock.patch.object(gateway, "BODY", 0.5):
            connection = self.come()
            connection.sendall(head + b"\r\n\r\n")
            with self.within():
                while not (answer := self.part(connection, body[:1])):
                    pass
        self.assertIn(b"RequestTimeout", answer)
        self.assertTrue(self.noted("ann PUT /docs/a 400 RequestTimeout"), self.log.getvalue())
        self.assertEqual(self.entries(), [])

    @staticmethod
    def part(connection: socket.socket, byte: bytes) -> bytes:
        """What is answered within a twentieth of a second to a byte."""
        connection.settimeout(0.05)
        with contextlib.suppress(TimeoutError):
            connection.sendall(byte)
            return connection.recv(65_536)
        return b""

    def test_who_isnt_known_is_left_sooner_between_two_requests(self) -> None:
        with mock.patch.object(server, "HEAD", 0.5):
            known, unknown = self.come(), self.come()
            for it, head in ((known, request("GET", "/docs")), (unknown, b"GET / HTTP/1.1\r\nhost: a\r\n\r\n")):
                it.sendall(head)
                self.assertIn(b"HTTP/1.1", it.recv(65_536))
            with self.within():
                self.assertEqual(unknown.recv(65_536), b"")
            known.sendall(request("GET", "/docs"))
            self.assertIn(b" 200 ", known.recv(65_536))

    def test_a_head_has_a_size(self) -> None:
        fields = b"".join(b"x%d: %b\r\n" % (it, b"y" * 60_000) for it in range(90))
        with self.connected() as connection:
            connection.sendall(b"GET / HTTP/1.1\r\nhost: a\r\n" + fields[:100_000])
            (reply,) = read_replies(connection.recv(65_536))
        self.refused("RequestHeaderSectionTooLarge", 400, reply)

    def test_who_agrees_on_no_tls_is_in_the_log(self) -> None:
        self.server.context = ssl.SSLContext(ssl.PROTOCOL_TLS_SERVER)
        with mock.patch.object(server, "HEAD", 0.3), self.within():
            self.assertEqual(self.come().recv(65_536), b"")
        self.assertTrue(self.noted(f"- from {STRANGER} - no TLS"), self.log.getvalue())

    def test_an_answer_that_nobody_takes_is_in_the_log(self) -> None:
        with mock.patch.object(server.Handler, "_send", side_effect=ConnectionResetError):
            with self.come() as connection:
                connection.sendall(request("PUT", "/docs/a", b"hello"))
                self.assertTrue(self.noted("ann PUT /docs/a 200 -"), self.log.getvalue())


class Framing(CrowdTest):
    def test_nothing_follows_what_cant_be_framed(self) -> None:
        self.done("PUT", "/docs/a", b"hello")
        hidden = request("DELETE", "/docs/a")
        for lengths in (
            f"Content-Length: 0\r\nContent-Length: {len(hidden)}", f"Content-Length : {len(hidden)}",
            f"content-length: 0\r\nTransfer-Encoding: x\r\nContent-Length: {len(hidden)}", "nonsense",
            f"Content-Length: 0, {len(hidden)}", f"Content-Length: 0\r\n {len(hidden)}",
            f"Content-Length: +{len(hidden)}", "a: b\0c", "a: b\rc: d", ": b", "a b: c",
        ):  # fmt: skip
            whole = request("DELETE", "/docs/a")
            for head in (whole, whole.replace(b"Signature=", b"Signature=f")):
                with self.subTest(lengths, head=head):
                    broken = head.replace(b"\r\nhost", f"\r\n{lengths}\r\nhost".encode(), 1)
                    got = self.send(broken + hidden)
                    self.assertEqual([(it.headers["connection"], it.status // 100) for it in got], [("close", 4)])
        self.assertEqual([it["delete_marker"] for it in self.entries()], [False])
        self.assertTrue(self.noted("- DELETE /docs/a 400 InvalidRequest"), self.log.getvalue())

    def test_a_head_that_ends_early_is_none(self) -> None:
        self.done("PUT", "/docs/a", b"hello")
        whole = request("DELETE", "/docs/a")
        self.assertTrue(whole.endswith(b"\r\n\r\n"))
        for cut in (2, 4, 30):
            self.refused("InvalidRequest", 400, self.send(whole[:-cut])[0])
        self.assertEqual([it["delete_marker"] for it in self.entries()], [False])

    def test_a_connection_ends_where_the_client_wants_it(self) -> None:
        for lines, count in (
            (b"", 2), (b"Connection: Close\r\n", 1), (b"connection: keep-alive\r\n", 2),
            (b"connection: keep-alive, close\r\n", 1),
        ):  # fmt: skip
            one = request("GET", "/docs/a").replace(b"\r\nhost", b"\r\n" + lines + b"host", 1)
            self.assertEqual(len(self.send(one + one)), count, lines)
        old = request("GET", "/docs/a").replace(b"HTTP/1.1", b"HTTP/1.0")
        self.assertEqual(len(self.send(old + old)), 1)
        kept = old.replace(b"\r\nhost", b"\r\nConnection: keep-alive\r\nhost", 1)
        self.assertEqual(len(self.send(kept + kept)), 2)

    def test_a_signature_is_out_of_the_log_by_its_name(self) -> None:
        signature = "0123456789abcdef" * 4
        for name in ("X-Amz-Signature", "X%2DAmz%2dSignature", "%58-Amz-Signatur%65"):
            with self.subTest(name):
                target = f"/docs/a?X-Amz-Date=x&{name}={signature}&a=b"
                self.send(f"GET {target} HTTP/1.1\r\nhost: a\r\n\r\n".encode())
                line = f"- GET {target.replace(signature, '..')} 403 AccessDenied"
                self.assertTrue(self.noted(line), self.log.getvalue())
        self.assertNotIn(signature, self.log.getvalue())
        self.assertNotIn(SECRET, self.log.getvalue())


class Documents(CrowdTest):
    def test_a_document_has_no_more_elements_than_any_call_needs(self) -> None:
        def counted(count: int) -> bytes:
            return b"<Delete>" + b"<a/>" * (count - 1) + b"</Delete>"

        self.assertEqual(len(xml.read(counted(3_200), "Delete").children), 3_199)
        attributes = b" ".join(b'a%d=""' % it for it in range(300))
        for document, said in (
            (counted(3_201), "more than 3,200"), (MANY, "more than 3,200"),
            (b"<Delete>" + b"".join(b"<a " + attributes + b"/>" for _ in range(11)) + b"</Delete>", "more than 3,200"),
            (b"<Delete a='" + b"x" * 5_000 + b"'/>", "too long"), ("<Delete/>".encode("utf-16"), "no XML"),
        ):  # fmt: skip
            with self.subTest(said):
                with self.assertRaises(Fault) as failed:
                    xml.read(document, "Delete")
                self.assertIn(said, failed.exception.message)
        reply = self.ask("POST", "/docs?delete", MANY)
        self.refused("MalformedXML", 400, reply)

    def test_a_thousand_rules_with_all_that_they_may_have_are_taken(self) -> None:
        rule = (
            "<Rule><ID>{}</ID><Filter><And><Prefix>{}/</Prefix><ObjectSizeGreaterThan>1</ObjectSizeGreaterThan>"
            "<ObjectSizeLessThan>9</ObjectSizeLessThan></And></Filter><Status>Enabled</Status><Expiration><Days>30"
            "</Days></Expiration><NoncurrentVersionExpiration><NoncurrentDays>7</NoncurrentDays>"
            "<NewerNoncurrentVersions>2</NewerNoncurrentVersions></NoncurrentVersionExpiration></Rule>"
        )
        rules = "".join(rule.format(it, it) for it in range(1_000))
        document = f"<LifecycleConfiguration>{rules}</LifecycleConfiguration>".encode()
        self.assertGreater(len(document), SMALL)
        self.done("PUT", "/docs?lifecycle", document)
        self.assertEqual(len(self.door.ask("ann", "get-rules", bucket="docs").value["rules"]), 1_000)

    def test_large_ones_come_one_after_another(self) -> None:
        document = b"<Delete><Object><Key>a</Key></Object>" + b" " * SMALL + b"</Delete>"
        first, second, small = self.come(), self.come(), self.come()
        whole = [request("POST", "/docs?delete", document, {"expect": "100-continue"}) for _ in range(2)]
        heads = [it[: -len(document)] for it in whole]
        first.sendall(heads[0])
        self.assertIn(b" 100 ", first.recv(65_536))
        second.sendall(heads[1])
        small.sendall(request("POST", "/docs?delete", b"<Delete><Object><Key>b</Key></Object></Delete>"))
        self.assertIn(b" 200 ", small.recv(65_536))
        second.settimeout(0.3)
        self.assertRaises(TimeoutError, second.recv, 65_536)
        second.settimeout(100)
        first.sendall(document)
        self.assertIn(b" 200 ", first.recv(65_536))
        self.assertIn(b" 100 ", second.recv(65_536))
        second.sendall(document)
        self.assertIn(b" 200 ", second.recv(65_536))

    def test_who_has_its_turn_has_little_time(self) -> None:
        head = request("POST", "/docs?delete", MANY).partition(b"\r\n\r\n")[0] + b"\r\n\r\n"
        with mock.patch.object(gateway, "TURN", 0.3):
            connection = self.come()
            connection.sendall(head)
            with self.within():
                self.assertIn(b"RequestTimeout", connection.recv(65_536))
        with self.server.gateway.large, mock.patch.object(gateway, "WAIT", 0.3):
            self.refused("SlowDown", 503, self.ask("POST", "/docs?delete", MANY))

    def test_a_length_that_isnt_true_makes_none_small(self) -> None:
        large = b"<Delete>" + b" " * SMALL + b"</Delete>"
        raw = request("POST", "/docs?delete", large, {"transfer-encoding": "chunked", "content-length": "3"})
        self.assertEqual(self.send(raw)[0].status, 400)
        lock = b"<ObjectLockConfiguration/>"
        for target, body in (("/docs/a?retention", b"<Retention/>"), ("/docs?object-lock", lock)):
            self.refused("EntityTooLarge", 400, self.ask("PUT", target, body + b" " * SMALL))


class Together(ProgramTest, CrowdTest):
    """All of this at once, at the gateway as a program."""

    def test_strangers_and_large_bodies_keep_nobody_out_and_take_little(self) -> None:
        self.stop()
        child, port, _ = self.begin()
        self.crowd(port)
        date = {"x-amz-date": time.strftime("%Y%m%dT%H%M%SZ", time.gmtime())}
        whole = request("POST", "/docs?delete", MANY, date)
        threads = [threading.Thread(target=self.post, args=(port, whole)) for _ in range(16)]
        for it in threads:
            it.start()
        taken: list[float] = []
        while any(it.is_alive() for it in threads) or len(taken) < 20:
            begun = time.monotonic()
            with socket.create_connection(("127.0.0.1", port), timeout=100) as connection:
                self.assertEqual(replies(connection, request("GET", "/docs", headers=date))[0].status, 200)
            taken.append(time.monotonic() - begun)
        with open(f"/proc/{child.pid}/status") as status:
            (highest,) = (int(it.split()[1]) for it in status if it.startswith("VmHWM"))
        self.assertLess(max(taken), SOON)
        self.assertLess(highest, 128 * 1_024)
        child.terminate()
        self.assertEqual(child.wait(100), 0)
        self.start()

    def post(self, port: int, whole: bytes) -> None:
        """A document of four MiB, which is refused."""
        with socket.create_connection(("127.0.0.1", port), timeout=100) as connection:
            connection.sendall(whole)
            self.assertIn(b"MalformedXML", connection.recv(65_536))
