"""Peers: those of a server that break off, and then a request or a line that it has to answer.

TRIALS_PEERS peers (1,000 where nothing is said) of each kind come one after another, to the door of requests and to that
of lines. After each kind a version is put and got, and its id says how many versions were put before. At last the server
has ended by itself, or by its line, and `verify` says that the vault is sound. For a peer that is silent a request that
comes after it has to wait; the silent one ends once that was seen.
"""

import contextlib
import os
import socket
import time

from trials.door import Server, get, ok_puts, put
from trials.parts.program import Case, check, make_office
from trials.parts.servers import HOST, LIMIT, answer_to, ended, free_port, read_all, reset, started

TAKES_LONG = True
COUNT = int(os.environ.get("TRIALS_PEERS", 1_000))
PUT = (
    b"PUT /docs/k HTTP/1.1\r\nhost: x\r\nx-vault-caller: ann\r\ncontent-length: 5\r\n"
    b"expect: 100-continue\r\n\r\nhello"
)
GET = b"GET /docs/k HTTP/1.1\r\nhost: x\r\nx-vault-caller: ann\r\n\r\n"


def connect(port):
    return socket.create_connection((HOST, port), timeout=LIMIT)


def closed(port):
    connect(port).close()


def reset_at_once(port):
    reset(connect(port))


def half_a_head(port):
    """Half a head; the peer waits a moment in silence, and closes."""
    with connect(port) as peer:
        peer.sendall(PUT[:30])
        time.sleep(0.002)


def half_a_body(port):
    """The head and half a body, after 100 Continue; then the peer closes."""
    with connect(port) as peer:
        peer.sendall(PUT[:-3])
        check(peer.recv(4), "there is no 100 Continue")


def gone_before_the_answer(port):
    """A whole request, and the peer is gone: it is carried out all the same."""
    with connect(port) as peer:
        peer.sendall(PUT)


def reset_after_go_on(port):
    """The whole request after 100 Continue, and a reset. What was sent may be thrown away before it is read."""
    peer = connect(port)
    peer.sendall(PUT[:-5])
    peer.recv(4)
    peer.sendall(b"hello")
    reset(peer)


def no_http(port):
    """Bytes that are no request, without an end; the peer reads nothing."""
    with connect(port) as peer:
        with contextlib.suppress(BrokenPipeError, ConnectionResetError):
            peer.sendall(b"\x16\x03\x01" + b"\xff" * 20000)


def silent(port, seconds):
    """Half a head and silence: the next request waits, and is answered once the silent peer is gone."""
    quiet = connect(port)
    quiet.sendall(PUT[:30])
    time.sleep(0.2)
    with connect(port) as peer:
        peer.sendall(GET)
        peer.shutdown(socket.SHUT_WR)
        peer.settimeout(seconds)
        try:
            early = peer.recv(1)
        except TimeoutError:
            early = None
        check(early is None, f"a request after a silent peer got {early!r}")
        quiet.close()
        peer.settimeout(LIMIT)
        answer = read_all(peer)
        check(answer.endswith(b"\r\n\r\nhello"), f"after a silent peer a get is answered {answer!r}")


def half_a_line(port):
    """Half a line; the peer closes, so that it is taken as a last line, and refused."""
    with connect(port) as peer:
        peer.sendall(put("k")[:30])


def reset_in_a_line(port):
    """Half a line, and a reset."""
    peer = connect(port)
    peer.sendall(put("k")[:30])
    reset(peer)


def gone_before_the_reply(port):
    """A whole line, and the peer is gone: it is carried out all the same."""
    with connect(port) as peer:
        peer.sendall(put("k"))


def no_json(port):
    """Bytes that are no line, with an LF among them; the peer reads nothing."""
    with connect(port) as peer:
        with contextlib.suppress(BrokenPipeError, ConnectionResetError):
            peer.sendall(b"\xff" * 20_000 + b"\n" + b"\xff" * 20_000)


def reset_after_a_line(port):
    """A whole line, and a reset. What was sent may be thrown away before it is read."""
    peer = connect(port)
    peer.sendall(put("k"))
    reset(peer)


KINDS = {
    "closed at once": closed,
    "reset at once": reset_at_once,
    "half a head, then closed": half_a_head,
    "half a body, then closed": half_a_body,
    "closed before the answer": gone_before_the_answer,
    "no HTTP, nothing read": no_http,
}
OF_LINES = {
    "closed at once": closed,
    "reset at once": reset_at_once,
    "half a line, then closed": half_a_line,
    "half a line, then reset": reset_in_a_line,
    "closed before the reply": gone_before_the_reply,
    "no JSON, nothing read": no_json,
}


class Peers(Case):
    def setUp(self):
        super().setUp()
        self.puts = 0
        make_office(self.folder / "records.vault", "put", "get")

    def look_at_server(self, port, kind):
        """Puts and gets a version; fails where that isn't as it should be."""
        self.puts += 1
        put, got = answer_to(port, PUT), answer_to(port, GET)
        is_taken = put.startswith(b"HTTP/1.1 100 Continue\r\n\r\nHTTP/1.1 200 OK\r\n")
        wanted = f"x-amz-version-id: {self.puts}\r\n".encode()
        check(is_taken and wanted in put, f"after {kind} a put is answered {put!r}, wanted {wanted!r}")
        is_got = got.startswith(b"HTTP/1.1 200 OK\r\n") and got.endswith(b"\r\n\r\nhello")
        check(is_got, f"after {kind} a get is answered {got!r}")

    def meet(self, port):
        for kind, come in KINDS.items():
            for _ in range(COUNT):
                come(port)
            # A whole request is carried out, whether its peer waits for the answer or not.
            self.puts += COUNT if come is gone_before_the_answer else 0
            self.look_at_server(port, kind)
        for _ in range(COUNT):
            reset_after_go_on(port)
        put = answer_to(port, PUT)
        more = int(put.split(b"x-amz-version-id: ")[1].split(b"\r\n")[0]) - 1 - self.puts
        check(0 <= more <= COUNT, f"of {COUNT} requests that were reset {more} were carried out")
        silent(port, 2)

    def test_peers(self):
        # After each kind a put and a get; the resets, and a put after them; a silent peer and the one that waits.
        total = len(KINDS) * (COUNT + 2) + COUNT + 1 + 2
        port = free_port()
        server = started(self.folder / "records.vault", port, "--count", str(total))
        try:
            self.meet(port)
            self.assertEqual(server.wait(LIMIT), 0, "the server doesn't end by itself")
        finally:
            ended(server)
        self.is_sound("records.vault")

    def look_at_door(self, server, kind):
        """Puts a version by a line and gets it at both doors; fails where that isn't as it should be."""
        self.puts += 1
        replies = server.lines(put("k") + get("k"))
        check(ok_puts(replies)[:1] == [self.puts], f"after {kind} a put and a get are answered {replies}")
        check(b"68656c6c6f" in replies[1], f"after {kind} a get is answered {replies[1]!r}")
        check(server.http_get("k") == b"hello", f"after {kind} a request isn't answered")

    def meet_at_door(self, server):
        lines = int(server.where)
        for kind, come in OF_LINES.items():
            for _ in range(COUNT):
                come(lines)
            # A whole line is carried out, whether its peer waits for the reply or not.
            self.puts += COUNT if come is gone_before_the_reply else 0
            self.look_at_door(server, kind)
        for _ in range(COUNT):
            reset_after_a_line(lines)
        more = ok_puts(server.lines(put("k")))[0] - 1 - self.puts
        check(0 <= more <= COUNT, f"of {COUNT} lines that were reset {more} were carried out")

    def test_peers_of_lines(self):
        server = Server(self.folder, str(free_port()))
        server.start()
        self.addCleanup(server.end)
        self.meet_at_door(server)
        self.assertEqual(server.lines(b'{"as":"registrar","do":"close"}\n'), [b'{"ok":{}}'])
        self.assertEqual(server.serving.wait(LIMIT), 0, "the server doesn't end by its line")
        self.is_sound("records.vault")
