"""An office whose vault is served for tests: by the program, with a door for lines."""

from __future__ import annotations

import contextlib
import json
import socket
import subprocess
import threading
import unittest
from collections.abc import Callable
from pathlib import Path
from typing import Any

from tests.machine import MachineTest
from tests.office import PROGRAM
from vaultdesk.ways import Line, text_of


def free_port() -> int:
    """A port of 127.0.0.1 at which nothing listens."""
    with socket.socket() as trial:
        trial.bind(("127.0.0.1", 0))
        return int(trial.getsockname()[1])


def started(test: unittest.TestCase, file: Path, where: str, port: int = 0) -> subprocess.Popen[str]:
    """A server of a vault that takes lines there, and does so by now; it ends with the test."""
    words = [PROGRAM, "serve", str(file), str(port or free_port()), "--lines", where]
    server = subprocess.Popen(words, stderr=subprocess.PIPE, encoding="utf-8")
    assert server.stderr
    test.addCleanup(server.stderr.close)
    test.addCleanup(server.wait)
    test.addCleanup(server.kill)
    line = server.stderr.readline()
    test.assertIn("lines at", line)
    threading.Thread(target=_read_on, args=(server,), daemon=True).start()
    return server


def _read_on(server: subprocess.Popen[str]) -> None:
    """Reads what a server says, so that it never waits for that."""
    assert server.stderr
    with contextlib.suppress(ValueError):  # the test is over
        while server.stderr.readline():
            pass


class FalseServer:
    """Takes lines at a socket as a server of a vault does, notes them, and answers each as `answer` says."""

    def __init__(self, where: Path, answer: Callable[[dict[str, Any]], Line]) -> None:
        self.answer = answer
        self.lines: list[dict[str, Any]] = []
        self.listener = socket.socket(socket.AF_UNIX)
        self.listener.bind(str(where))
        self.listener.listen()
        self.thread = threading.Thread(target=self._serve, daemon=True)
        self.thread.start()

    def close(self) -> None:
        """Takes no line any more."""
        self.listener.shutdown(socket.SHUT_RDWR)
        self.listener.close()
        self.thread.join()

    def _serve(self) -> None:
        with contextlib.suppress(OSError):
            while True:
                connection, _ = self.listener.accept()
                with connection, connection.makefile("rb") as file:
                    line = file.readline()
                    if line:  # else somebody looks whether a server is there
                        self.lines.append(json.loads(line))
                        connection.sendall(text_of(self.answer(self.lines[-1])).encode() + b"\n")


class ServedTest(MachineTest):
    """The vault `records`, which is served from `serve` on."""

    def setUp(self) -> None:
        super().setUp()
        self.where = self.machine / "locks" / "records" / "lines"

    def serve(self, where: Path | str | None = None) -> subprocess.Popen[str]:
        """Starts a server of the vault that takes lines, and waits until it does."""
        place = str(where or self.where)
        if not place.isdecimal():
            Path(place).parent.mkdir(mode=0o750, parents=True, exist_ok=True)
        self.port = free_port()
        server = started(self, self.file, place, self.port)
        self.set_state("active")
        return server

    def end(self, server: subprocess.Popen[str]) -> None:
        """Ends the server by its door."""
        self.done("close", "--as", "registrar", at=None)
        self.assertEqual(server.wait(60), 0)
