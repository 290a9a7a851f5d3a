"""The gateway's server: connections, heads of requests, and answers as bytes."""

from __future__ import annotations

import email.utils
import fcntl
import functools
import http.server
import io
import re
import secrets
import select
import socket
import socketserver
import ssl
import struct
import sys
import termios
import threading
import time
import urllib.parse
from contextlib import suppress
from typing import Any

from vaultdesk import moments
from vaultdesk.output import say, shown
from vaultdesk.s3 import request as requests
from vaultdesk.s3.again import Client, Put
from vaultdesk.s3.framing import Head, Source, read_head
from vaultdesk.s3.faults import Fault
from vaultdesk.s3.gateway import Gateway, of_fault, without_body
from vaultdesk.s3.incoming import LARGEST, Incoming
from vaultdesk.s3.places import CONNECTIONS, Guest, Places
from vaultdesk.s3.request import Answer, Request
from vaultdesk.s3.settings import Settings

PATIENCE = 60  # seconds for the next bytes of a client, and between two requests
HEAD = 10  # seconds for a whole head
LINGER = 5  # seconds in which a body that isn't wanted is read past, so that the answer arrives
PAST = 33_554_432  # bytes of it, at most
VALUES = re.compile("(?<=[?&])([^=&? ]*)=([^& ]*)")  # in a query
BUSY = b"HTTP/1.1 503 Service Unavailable\r\nConnection: close\r\nContent-Length: 0\r\n\r\n"


def _noted(text: str) -> str:
    """A target, or a request's first line, for the log: without a signature, by which its reader could ask the same."""

    def said(found: re.Match[str]) -> str:
        # It is known by its name as that is read: X%2DAmz%2DSignature is the same.
        is_signature = urllib.parse.unquote(found[1]).lower() == "x-amz-signature"
        return f"{found[1]}=.." if is_signature else found[0]

    return shown(VALUES.sub(said, text))


@functools.lru_cache(2)
def _date(moment: int) -> str:
    """A second as headers have it."""
    return email.utils.formatdate(moment, usegmt=True)


class _Arriving:
    """The bytes of a connection as they come."""

    def __init__(self, file: io.BufferedReader) -> None:
        self.file = file

    def read(self, most: int, /) -> bytes:
        """The next bytes that come."""
        return self.file.read1(most)

    def readline(self, most: int, /) -> bytes:
        """The next line."""
        return self.file.readline(most)


class Handler(http.server.BaseHTTPRequestHandler):
    """One connection, with one request after another."""

    protocol_version = "HTTP/1.1"
    timeout = PATIENCE
    disable_nagle_algorithm = True
    server: Server
    rfile: io.BufferedReader
    raw_requestline: bytes
    head = Head()
    target = ""
    idle: float | None = None  # seconds between two requests; before the first of a connection there are none
    is_begun = False
    is_answered = False
    put: Put | None = None  # the put that was answered last, until it is known whether the answer arrived

    def setup(self) -> None:
        """Has the bytes of the connection come in their time."""
        super().setup()
        self.rfile.close()
        self.incoming = Incoming(self.connection, self.client_address[0], self.server.places, self.timeout)
        self.rfile = io.BufferedReader(self.incoming)

    def handle_one_request(self) -> None:
        """One request: its head, which has its time, and its answer."""
        self.requestline, self.command, self.head = "", "", Head()
        self.incoming.await_head(HEAD, self.idle)
        try:
            super().handle_one_request()
        except Fault as fault:
            self._turn_away(fault)

    def parse_request(self) -> bool:
        """Reads the head. False where nothing came, `Fault` where its first line is none; whether the others are lines
        of a head is looked at as the request is."""
        self.close_connection = True
        self.requestline = str(self.raw_requestline, "latin-1").rstrip("\r\n")
        words = self.requestline.split()
        if not words:
            return False
        if len(words) != 3 or words[2] not in ("HTTP/1.1", "HTTP/1.0"):
            raise Fault("InvalidRequest", "the head can't be read")
        self.command, self.target, self.request_version = words
        self.head = read_head(self.rfile, LARGEST)
        wishes = self._said("connection").replace(" ", "").split(",")
        self.close_connection = "close" in wishes or self.request_version == "HTTP/1.0" and "keep-alive" not in wishes
        return True

    def _turn_away(self, fault: Fault) -> None:
        """Answers a head that doesn't come, or is none, notes that in the log, and ends the connection."""
        self.close_connection = True
        self.command = self.command or "-"
        answer = of_fault(fault, None)
        line = _noted(self.requestline) or f"from {self.client_address[0]}"
        try:
            self._send(answer)
            if fault.code == "RequestHeaderSectionTooLarge":
                self._linger()
        finally:
            self.server.note(f"- {line} {answer.status} {fault.code}")

    def finish(self) -> None:
        """Ends the connection, and notes a put whose answer didn't arrive."""
        self._look_after_put()
        super().finish()

    def _events(self) -> int:
        """What poll() says of the other end: POLLRDHUP where it sends no more, POLLHUP or POLLERR where it is gone."""
        place = self.connection.fileno()
        if place < 0:
            return select.POLLHUP
        poll = select.poll()
        poll.register(place, select.POLLRDHUP)
        return next((events for _, events in poll.poll(0)), 0)

    def _is_lost(self) -> bool:
        """Whether the answer under way is lost: the client may have given up before it, or is gone by now."""
        gone = select.POLLHUP | select.POLLERR
        return bool(self._events() & (gone if self.is_answered else gone | select.POLLRDHUP))

    def _has_arrived(self) -> bool:
        """Whether what was sent has reached the other end, which takes the time of the way there and back."""
        deadline = time.monotonic() + LINGER
        while not self._events() & (select.POLLHUP | select.POLLERR):
            (left,) = struct.unpack("i", fcntl.ioctl(self.connection, termios.TIOCOUTQ, bytes(4)))
            if not left or time.monotonic() > deadline:
                return not left
            time.sleep(0.01)
        return False

    def _look_after_put(self) -> None:
        put, self.put = self.put, None
        if put and not self._has_arrived():
            self.server.gateway.vault.unanswered.lose(put)

    def _begin(self, seconds: float) -> Source:
        """Has the client send its body, for which it has that many seconds."""
        self.is_begun = True
        self.incoming.await_body(seconds)
        if self._said("expect") == "100-continue" and self.request_version != "HTTP/1.0":
            self.wfile.write(b"HTTP/1.1 100 Continue\r\n\r\n")
        return _Arriving(self.rfile)

    def _said(self, name: str, default: str = "") -> str:
        """The value of a header, in lower case."""
        return self.head.headers.get(name, default).lower()

    def _has_body(self) -> bool:
        """Whether a body may come, by any of what the head says of its length."""
        is_said = self._said("content-length", "0") != "0" or "transfer-encoding" in self.head.headers
        return is_said or not self.head.is_whole

    def _may_send(self) -> bool:
        """Whether more may come of the request: what is left of a body is no next request."""
        return self._has_body() or self.command in ("PUT", "POST")

    def _read(self) -> Request:
        """The head as it came. `Fault` where it can't be read."""
        if not self.head.is_whole:
            raise Fault("InvalidRequest", "the head has a line that is no header, or too many lines")
        return requests.read(self.command, self.target, self.head.headers)

    def _answer(self) -> None:
        """Carries out the request, answers it, and notes it in the log."""
        request, caller, code = None, "-", "-"
        self.is_begun, self.is_answered, self.put = False, False, None  # who goes on has the answer before
        self.incoming.end_head()
        client = Client(self._is_lost)
        with self.server.at_work():
            try:
                request = self._read()
                caller, answer = self.server.gateway.carry_out(request, self._begin, client)
                if self._has_body() and not self.is_begun:
                    self.close_connection = True
            except Fault as fault:
                answer, caller, code = of_fault(fault, request), fault.caller, fault.code
                # Of a head that can't be read nobody knows where it ends.
                self.close_connection = self.close_connection or request is None or self._may_send()
            except OSError:
                raise
            except Exception as error:
                say(f"vaultdesk s3: {type(error).__name__}: {error}")
                unknown = Fault("InternalError", "the gateway met what it doesn't know: its log says what")
                answer, code, self.close_connection = of_fault(unknown, request), unknown.code, True
            self.put = client.put
            self.idle = HEAD if caller == "-" else PATIENCE
            try:
                self._send(answer)
            finally:
                self.server.note(f"{caller} {self.command} {_noted(self.target)} {answer.status} {code}")

    def _send(self, answer: Answer) -> None:
        if self.command == "HEAD":
            answer = without_body(answer)
        is_lingering = self.close_connection and self._may_send()
        # Whoever waits has the place next: there is no other request over this connection.
        self.close_connection = self.close_connection or self.server.places.is_wanted(self.client_address[0])
        headers = {
            "Date": _date(int(time.time())),
            "Server": "vaultdesk",
            "x-amz-request-id": secrets.token_hex(8),
            "Connection": "close" if self.close_connection else "keep-alive",
            **answer.headers,
        }
        if answer.status not in (204, 304):
            headers.setdefault("Content-Length", str(len(answer.body)))
        first = f"HTTP/1.1 {answer.status} {self.responses[answer.status][0]}"
        head = "\r\n".join([first, *(f"{name}: {value}" for name, value in headers.items()), "", ""])
        self.is_answered = True
        self.wfile.write(head.encode("latin-1") + answer.body)
        if self.put:
            self.server.gateway.vault.unanswered.end(self.put)
        if is_lingering:
            self._look_after_put()
            self._linger()

    def _linger(self) -> None:
        """Reads past what the client still sends: a connection that is closed before would lose it the answer."""
        with suppress(OSError, Fault):
            if self.server.context is None:
                self.connection.shutdown(socket.SHUT_WR)
            self.incoming.end_head()
            self.incoming.patience = 1
            deadline, left = time.monotonic() + LINGER, PAST
            while left > 0 and time.monotonic() < deadline:
                found = self.rfile.read1(65_536)
                if not found:
                    break
                left -= len(found)

    do_GET = do_HEAD = do_PUT = do_POST = do_DELETE = _answer

    def send_error(self, code: int, message: str | None = None, explain: str | None = None) -> None:
        """What isn't a head of a request that is taken."""
        self._turn_away(
            Fault("NotImplemented" if code == 501 else "InvalidRequest", message or "the head can't be read")
        )

    def log_message(self, format: str, *args: Any) -> None:
        """What `http.server` would say; each request has its line already."""


class Server(socketserver.ThreadingTCPServer):
    """Listens, with a thread for each connection."""

    allow_reuse_address = True
    daemon_threads = True
    block_on_close = False
    request_queue_size = CONNECTIONS

    def __init__(self, settings: Settings, gateway: Gateway, is_quiet: bool) -> None:
        self.gateway = gateway
        self.is_quiet = is_quiet
        self.places = Places()
        self.working = 0
        self.idle = threading.Condition()
        self.context: ssl.SSLContext | None = None
        if settings.certificate:
            self.context = ssl.SSLContext(ssl.PROTOCOL_TLS_SERVER)
            self.context.load_cert_chain(settings.certificate, settings.certificate_key)
        super().__init__((settings.address, settings.port), Handler)

    def at_work(self) -> _Work:
        """For the time of one request: `wait_idle` waits for it."""
        return _Work(self)

    def wait_idle(self, seconds: float) -> None:
        """Waits for the requests that are under way."""
        with self.idle:
            self.idle.wait_for(lambda: self.working == 0, seconds)

    def note(self, line: str) -> None:
        """A line of the log: when, who, what, and how it was answered."""
        if not self.is_quiet:
            with suppress(OSError):  # whoever read the log is gone
                say(f"{moments.now()} {line}")

    def process_request(self, request: Any, client_address: Any) -> None:
        """Gives a connection its thread, where there is room; else it waits for a place."""
        guest = Guest(request, client_address)
        if self.places.take(guest):
            try:
                super().process_request(request, client_address)
            except RuntimeError:  # the machine has no thread for it, nor for those who wait
                self._turn_away_all(guest)
        elif not self.places.wait(guest):
            self._turn_away(guest)

    def process_request_thread(self, request: Any, client_address: Any) -> None:
        """A connection, in its thread, and after it those that wait for its place."""
        guest: Guest | None = Guest(request, client_address)
        while guest:
            try:
                super().process_request_thread(guest.connection, guest.address)
            finally:
                guest = self.places.leave(guest.host)

    def service_actions(self) -> None:
        """Turns those away who have waited too long."""
        for it in self.places.late():
            self._turn_away(it)

    def server_close(self) -> None:
        """Listens no more; nobody who waits gets a place."""
        super().server_close()
        for it in self.places.late(0):
            self.shutdown_request(it.connection)

    def _turn_away_all(self, guest: Guest | None) -> None:
        while guest:
            self._turn_away(guest)
            guest = self.places.leave(guest.host)

    def _turn_away(self, guest: Guest) -> None:
        """Answers who gets no place that it should come later, and notes that in the log."""
        self.note(f"- from {guest.host} 503 SlowDown")
        with suppress(OSError):
            guest.connection.setblocking(False)
            if self.context is None:
                guest.connection.sendall(BUSY)
                guest.connection.recv(65_536)  # what has come and isn't read would lose it the answer
        self.shutdown_request(guest.connection)

    def finish_request(self, request: Any, client_address: Any) -> None:
        """Serves a connection; with TLS, once it is agreed on."""
        if self.context is None:
            super().finish_request(request, client_address)
            return
        request.settimeout(HEAD)
        try:
            secured = self.context.wrap_socket(request, server_side=True)
        except OSError:
            self.note(f"- from {client_address[0]} - no TLS")
            raise
        with secured:
            super().finish_request(secured, client_address)

    def handle_error(self, request: Any, client_address: Any) -> None:
        """A connection that broke is its client's matter; anything else is said."""
        error = sys.exc_info()[1]
        if not isinstance(error, OSError):
            say(f"vaultdesk s3: {type(error).__name__}: {error}")


class _Work:
    def __init__(self, server: Server) -> None:
        self.server = server

    def __enter__(self) -> None:
        with self.server.idle:
            self.server.working += 1

    def __exit__(self, *_: object) -> None:
        with self.server.idle:
            self.server.working -= 1
            self.server.idle.notify_all()
