"""Requests over HTTP on loopback, each with a connection of its own. The clients are Python."""

import pathlib
import socket
import sys
import threading
import time

import fixture
import talk
from turns import PROGRAM

sys.path.append(str(pathlib.Path(__file__).resolve().parents[1]))
from trials.parts.servers import HOST, ended, free_port, started

GET = "GET /docs/%s HTTP/1.1\r\nx-vault-caller: ann\r\n\r\n"
PUT = "PUT /docs/%s HTTP/1.1\r\nx-vault-caller: ann\r\ncontent-length: %d\r\n\r\n"


def request(port, text):
    """The seconds that a request takes, until its whole answer is there."""
    began = time.perf_counter()
    with socket.create_connection((HOST, port)) as connection:
        connection.sendall(text)
        answer = connection.recv(65_536)
        start = answer[:40]
        while answer:
            answer = connection.recv(65_536)
    if not start.startswith(b"HTTP/1.1 200 OK\r\n"):
        sys.exit(f"HTTP: {start!r}")
    return time.perf_counter() - began


class Server:
    """The program as it serves a copy of a vault."""

    def __init__(self, vaults, shape):
        path = fixture.copy(vaults.of(shape), vaults.folder / "served.vault")
        self.port, self.shape, self.count = free_port(), shape, 0
        self.process = started(path, self.port, program=vaults.program)

    def put(self, size):
        self.count += 1
        return (PUT % (f"http/{self.count}", size)).encode() + fixture.content(self.count, size)

    def get(self, i):
        return (GET % self.shape.key(1 + i % (self.shape.entries - 1))).encode()

    def take(self, requests, clients):
        """The seconds of requests by that many clients, those of the server's processor, and the median of those that a
        client waits for one."""
        waits = []

        def ask(some):
            waits.extend([request(self.port, it) for it in some])

        threads = [threading.Thread(target=ask, args=(requests[i::clients],)) for i in range(clients)]
        before, began = talk.processor_time(self.process.pid), time.perf_counter()
        for it in threads:
            it.start()
        for it in threads:
            it.join()
        seconds, processor = time.perf_counter() - began, talk.processor_time(self.process.pid) - before
        if len(waits) != len(requests):
            sys.exit("HTTP: a client was not answered")
        return seconds, processor, sorted(waits)[len(waits) // 2]

    def end(self):
        most = talk.peak(self.process.pid)
        ended(self.process)
        return most


def measure(results, server, what, size, turns, make, clients):
    """Turns of requests, and what one takes."""
    for turn in range(turns + 1):
        requests = make()
        seconds, processor, wait = server.take(requests, clients)
        if turn == 0:
            continue
        results.note(what, size, PROGRAM, seconds / len(requests), processor / len(requests))
        if clients > 1:
            results.note(f"{what}: a client waits", size, PROGRAM, wait, 0)


def by_clients(wanted, vaults, results):
    """Small requests by one client and by eight at once."""
    for size in wanted.sizes:
        server = Server(vaults, fixture.Shape(size))
        for clients, name in ((1, ""), (8, ", 8 clients")):
            few = max(8, wanted.ops)

            def puts():
                return [server.put(fixture.CONTENT) for _ in range(few)]

            def gets():
                return [server.get(7 * i) for i in range(few)]

            measure(results, server, f"PUT{name}", size, wanted.turns, puts, clients)
            measure(results, server, f"GET{name}", size, wanted.turns, gets, clients)
        results.note_memory("PUT", size, PROGRAM, server.end())


def by_bytes(wanted, vaults, results):
    """Requests with bodies of rising size, by one client; the size is given in KiB."""
    for kibibytes in (1, 100, 1_024):
        server = Server(vaults, fixture.Shape(16, size=kibibytes << 10))
        few = max(1, min(wanted.ops, wanted.ops * 8 // kibibytes))

        def puts():
            return [server.put(kibibytes << 10) for _ in range(few)]

        def gets():
            return [server.get(i) for i in range(few)]

        measure(results, server, "PUT of KiB", kibibytes, wanted.turns, puts, 1)
        measure(results, server, "GET of KiB", kibibytes, wanted.turns, gets, 1)
        results.note_memory("PUT of KiB", kibibytes, PROGRAM, server.end())
