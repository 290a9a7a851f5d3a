"""Trail: a server that writes a line of each request and each line to standard error.

Each test serves a new vault in a folder of its own, asks something, and looks at what the server wrote.
"""

import json
import pathlib
import socket
import subprocess
import time
from typing import Any

from trials.door import LINE, SLACK, Server, get, line, put
from trials.parts.program import PROGRAM, Case, check, make_office
from trials.parts.servers import HOST, LIMIT, answer_to, ended, free_port, read_all, started, wait_for

FILE = "records.vault"
LONG = "x" * 1_000_000
# The members of which the values differ from run to run.
VARYING = ("at", "ms")


def request(method: str, target: str, caller: str = "ann", body: bytes = b"") -> bytes:
    length = f"content-length: {len(body)}\r\n" if body else ""
    return f"{method} {target} HTTP/1.1\r\nhost: x\r\nx-vault-caller: {caller}\r\n{length}\r\n".encode() + body


def entries(said: str) -> list[dict[str, Any]]:
    """The entries of what a server wrote, each without what differs from run to run."""
    found = []
    for text in said.splitlines():
        entry = json.loads(text)
        check(entry["at"].startswith("20") and isinstance(entry["ms"], int), f"the moment or the time of {text}")
        found.append({name: value for name, value in entry.items() if name not in VARYING})
    return found


class Trail(Case):
    def setUp(self) -> None:
        super().setUp()
        make_office(self.folder / FILE, "put", "get")

    def are(self, found: list[dict[str, Any]], *wanted: dict[str, Any]) -> None:
        check(found == list(wanted), f"the log has {found}, wanted {list(wanted)}")

    def test_requests(self) -> None:
        """Reads, refusals and what nobody understands; the query of what isn't understood may be a secret."""
        asked = [
            request("PUT", "/docs/a", body=b"hello"),
            request("GET", "/docs/a?versionId=1"),
            request("GET", "/docs/b", "zoe"),
            request("GET", "/docs/b"),
            request("HEAD", "/docs/b"),
            request("GET", "/docs/a?X-Amz-Signature=secret"),
            b"nonsense\r\n\r\n",
        ]
        port = free_port()
        server = started(FILE, port, "--log", folder=self.folder)
        try:
            answers = [answer_to(port, it) for it in asked]
            # The line of a request comes after its answer, and before the next request is taken.
            answer_to(port, request("GET", "/docs/last"))
        finally:
            said = ended(server)
        check("secret" not in said, f"a signature is in {said}")
        sizes = [{"in": len(it), "out": len(answer)} for it, answer in zip(asked, answers)]
        ann, http = {"as": "ann"}, {"door": "http"}
        self.are(
            entries(said)[:len(asked)],
            {**http, **ann, "do": "PUT", "target": "/docs/a", "status": 200, "result": "ok", **sizes[0]},
            {**http, **ann, "do": "GET", "target": "/docs/a?versionId=1", "status": 200, "result": "ok", **sizes[1]},
            {**http, "as": "zoe", "do": "GET", "target": "/docs/b", "status": 403, "result": "AccessDenied",
             "reason": "unknown-caller", **sizes[2]},
            {**http, **ann, "do": "GET", "target": "/docs/b", "status": 404, "result": "NoSuchKey", **sizes[3]},
            {**http, **ann, "do": "HEAD", "target": "/docs/b", "status": 404, "result": "refused", **sizes[4]},
            {**http, **ann, "do": "GET", "target": "/docs/a", "status": 501, "result": "NotImplemented", **sizes[5]},
            {**http, "status": 400, "result": "InvalidArgument", **sizes[6]},
        )

    def test_times(self) -> None:
        """A request's time is counted from when its connection was taken, and that of the next one from then."""
        port, slow = free_port(), request("PUT", "/docs/a", body=b"hello")
        server = started(FILE, port, "--log", folder=self.folder)
        try:
            with socket.create_connection((HOST, port), LIMIT) as peer:
                peer.sendall(slow[:20])
                time.sleep(0.5)
                peer.sendall(slow[20:])
                read_all(peer)
            for _ in range(2):
                answer_to(port, request("GET", "/docs/a"))
        finally:
            said = ended(server)
        took = [json.loads(it)["ms"] for it in said.splitlines()]
        check(450 <= took[0] < 500 + 1_000 * SLACK and took[1] < took[0], f"the requests took {took} ms")

    def test_lines(self) -> None:
        server = Server(self.folder)
        server.start("--log")
        try:
            asked = [put("a"), get("a"), line("zoe", "get", bucket="docs", key="a"), b"{]\n", line("registrar", "close")]
            server.lines(put("long", LONG))
            replies = [b"\n".join([*server.lines(it), b""]) for it in asked]
            check(server.serving.wait(LIMIT) == 0, "the server doesn't end")
            assert server.serving.stderr is not None
            said = server.serving.stderr.read()
        finally:
            server.end()
        check(json.loads(said.splitlines()[0])["ms"] > 0, "a line with a long content took no time")
        sizes = [{"in": len(it) - 1, "out": len(reply)} for it, reply in zip(asked, replies)]
        at_a = {"bucket": "docs", "key": "a"}
        self.are(
            entries(said)[1:],
            {"door": "lines", "as": "ann", "do": "put", **at_a, "result": "ok", **sizes[0]},
            {"door": "lines", "as": "ann", "do": "get", **at_a, "result": "ok", **sizes[1]},
            {"door": "lines", "as": "zoe", "do": "get", **at_a, "result": "AccessDenied", "reason": "unknown-caller", **sizes[2]},
            {"door": "lines", "result": "MalformedBody", **sizes[3]},
            {"door": "lines", "as": "registrar", "do": "close", "result": "ok", **sizes[4]},
        )

    def test_late(self) -> None:
        """What comes late, or breaks off, is in the log, with how many bytes of a request came."""
        server = Server(self.folder)
        server.start("--log")
        half = request("GET", "/docs/a")[:20]
        try:
            with socket.create_connection((HOST, server.port), LIMIT) as peer:
                peer.sendall(half)
            with server.connect() as talk:
                talk.sendall(put("late")[:-1])
                talk.settimeout(LINE + SLACK)
                check(talk.recv(1) == b"", "a line that is late is answered")
            server.http_get("last")
        finally:
            server.end()
        assert server.serving.stderr is not None
        found = entries(server.serving.stderr.read())[:2]
        check([it["result"] for it in found] == ["InvalidArgument", "late"], f"the log has {found}")
        check(found[0]["in"] == 20 and found[1]["door"] == "lines", f"the log has {found}")

    def test_full_device(self) -> None:
        """A log that can't be written ends nothing, and neither does one whose reader is gone."""
        for full in (True, False):
            port = free_port()
            words = [PROGRAM, "serve", FILE, str(port), "--log"]
            with open("/dev/full" if full else pathlib.Path(self.folder, "unread"), "wb") as device:
                sink = device if full else subprocess.PIPE
                server = subprocess.Popen(words, cwd=self.folder, stderr=sink)
                try:
                    if server.stderr is not None:
                        server.stderr.close()
                    wait_for(port)
                    for _ in range(3):
                        check(b"404" in answer_to(port, request("GET", "/docs/none"))[:16], "a request isn't answered")
                    check(server.poll() is None, "the server has ended")
                finally:
                    server.kill()
                    server.wait()

    def test_without(self) -> None:
        port = free_port()
        server = started(FILE, port, folder=self.folder)
        try:
            answer_to(port, request("GET", "/docs/a"))
        finally:
            said = ended(server)
        check(said == "", f"without --log the server writes {said}")
