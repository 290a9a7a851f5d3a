"""A port for load balancers: whether the server of a vault makes changes, to whoever asks, without a caller."""

from __future__ import annotations

import argparse
import threading
import time
from http import HTTPStatus
from http.server import BaseHTTPRequestHandler, ThreadingHTTPServer

from vaultdesk import server
from vaultdesk.errors import DeskError, UsageError
from vaultdesk.output import say
from vaultdesk.units import Served

ABOUT = """Answers GET and HEAD of /-/health at HEALTH of the vault's configuration, or where --listen says, to
whoever asks: 200 while the vault's server makes changes, and 503 where not, with a line that says why and what to do.
It looks at what check looks at, anew after two seconds. It has no caller, changes nothing and starts no server anew."""
PATH = "/-/health"
FRESH = 2.0  # seconds for which what was seen is answered again
PATIENCE = 5.0  # seconds for a request


def place(text: str) -> tuple[str, int]:
    """The address and the port of `PORT` or `ADDRESS:PORT`. `UsageError` where it is neither."""
    address, _, port = text.rpartition(":")
    if not port.isdecimal() or not int(port) <= 65_535:
        raise UsageError(f"{text!r} is no place to listen at: give PORT, as 8081, or ADDRESS:PORT")
    return address or "127.0.0.1", int(port)


class Look:
    """What is wrong with a vault's server, as it was seen a short while ago at most."""

    def __init__(self, name: str) -> None:
        self.name = name
        self._lock = threading.Lock()
        self._until = 0.0
        self._fault = ""

    def fault(self) -> str:
        """Empty while the server makes changes."""
        with self._lock:
            if time.monotonic() >= self._until:
                self._fault = self._seen()
                self._until = time.monotonic() + FRESH
            return self._fault

    def _seen(self) -> str:
        try:
            return server.seen(Served(self.name)).fault
        except (DeskError, OSError) as error:
            return str(error)


class Port(ThreadingHTTPServer):
    daemon_threads = True

    def __init__(self, where: tuple[str, int], look: Look) -> None:
        self.look = look
        super().__init__(where, Answering)


class Answering(BaseHTTPRequestHandler):
    server: Port
    server_version, sys_version = "vaultdesk", ""
    timeout = PATIENCE

    def do_GET(self) -> None:
        """`200` and `ok`, or `503` and why not; `404` for any other path."""
        if self.path != PATH:
            self._answer(HTTPStatus.NOT_FOUND, f"only {PATH} is answered here")
            return
        fault = self.server.look.fault()
        self._answer(HTTPStatus.SERVICE_UNAVAILABLE if fault else HTTPStatus.OK, fault or "ok")

    do_HEAD = do_GET

    def _answer(self, status: HTTPStatus, text: str) -> None:
        body = f"{text}\n".encode()
        self.send_response(status)
        self.send_header("content-type", "text/plain; charset=utf-8")
        self.send_header("content-length", str(len(body)))
        self.send_header("cache-control", "no-store")
        self.end_headers()
        if self.command != "HEAD":
            self.wfile.write(body)

    def log_message(self, *_: object) -> None:
        """A probe each second is no news."""


def health(words: argparse.Namespace) -> int:
    """Answers until it is ended. `DeskError` where the port isn't free."""
    served = Served(words.name)
    address, number = place(words.listen or served.conf.health())
    try:
        port = Port((address, number), Look(words.name))
    except OSError as error:
        remedy = "end what listens there, or take another port"
        raise DeskError(f"{address}:{number}: {error.strerror}: {remedy}") from error
    with port:
        say(f"health of {words.name} at {address}:{port.server_address[1]}")
        try:
            port.serve_forever()
        except KeyboardInterrupt:
            return 0
    return 0


def add(commands: argparse._SubParsersAction[argparse.ArgumentParser], common: argparse.ArgumentParser) -> None:
    what, example = "answer load balancers whether a vault takes changes", "Example: vaultdesk health records"
    it = commands.add_parser("health", parents=[common], help=what, description=ABOUT, epilog=example)
    it.add_argument("name", metavar="NAME", help="the vault's name")
    it.add_argument("--listen", metavar="WHERE", help="PORT or ADDRESS:PORT (default: HEALTH of the configuration)")
    it.set_defaults(do=health)
