"""Servers of a vault that the program starts, their ports, and connections to them."""

import contextlib
import http.client
import json
import os
import pathlib
import resource
import select
import signal
import socket
import struct
import subprocess
import time
from typing import Any, Iterable, Iterator, Mapping

from trials.parts import program
from trials.parts.program import PROGRAM, check

HOST = "127.0.0.1"
# Seconds that one waits for a server to listen or to end, and for the next bytes of an answer.
LIMIT = program.LIMIT / 5
File = pathlib.Path | str


def free_ports(count: int) -> list[int]:
    """That many ports that nobody has. All are taken before any is given back, so that none is given twice."""
    with contextlib.ExitStack() as held:
        taken = [held.enter_context(socket.socket()) for _ in range(count)]
        for it in taken:
            it.bind((HOST, 0))
        return [it.getsockname()[1] for it in taken]


def free_port() -> int:
    return free_ports(1)[0]


def wait_for(port: int) -> None:
    """Waits until something listens at a port."""
    end = time.monotonic() + LIMIT
    while time.monotonic() < end:
        with socket.socket() as it:
            if it.connect_ex((HOST, port)) == 0:
                return
        time.sleep(0.05)
    check(False, f"nothing listens at port {port}")


def started(
    file: File, port: int, *words: str, folder: pathlib.Path | None = None, front: Iterable[str] = (),
    program: File | None = None,
) -> subprocess.Popen[bytes]:
    """A server of a vault, once it says that it listens; it says nothing else. Whoever asks for it ends it. `front` are
    words before its own; another program than the one that is tried may be given."""
    asked = [*front, program or PROGRAM, "serve", file, str(port), *words]
    server = subprocess.Popen(asked, cwd=folder, stdout=subprocess.DEVNULL, stderr=subprocess.PIPE)
    wanted, said = f"serving {file} at {HOST}:{port}\n".encode(), b""
    end = time.monotonic() + LIMIT
    assert server.stderr is not None
    while not said.endswith(b"\n"):
        ready, _, _ = select.select([server.stderr], [], [], max(0, end - time.monotonic()))
        part = os.read(server.stderr.fileno(), 65_536) if ready else b""
        if not part:
            break
        said += part
    if said != wanted:
        ended(server)
        check(False, f"once it listens the server says {said!r}, wanted {wanted!r}")
    return server


def ended(server: subprocess.Popen[bytes]) -> str:
    """Kills a server if it runs, and returns what it wrote on standard error since it listened."""
    server.kill()
    server.wait()
    assert server.stderr is not None
    if server.stderr.closed:
        return ""
    with server.stderr as said:
        return said.read().decode()


@contextlib.contextmanager
def serving(file: File, *words: str, folder: pathlib.Path | None = None) -> Iterator[int]:
    """The port of a server of that vault, which is killed at the end. With `--count N` among its words the server has
    to end by itself, with status 0."""
    port = free_port()
    server = started(file, port, *words, folder=folder)
    try:
        yield port
        if "--count" in words:
            check(server.wait(LIMIT) == 0, f"the server has the status {server.returncode}")
    finally:
        ended(server)


def leave_no_descriptors(process: int) -> None:
    """Lets a server take no more connections, once those of its last answers are closed."""
    taken: set[int] = set()
    while (now := {int(it) for it in os.listdir(f"/proc/{process}/fd")}) != taken:
        taken = now
        time.sleep(0.5)
    free = min(it for it in range(len(taken) + 1) if it not in taken)
    resource.prlimit(process, resource.RLIMIT_NOFILE, (free, 1_000))


def leave_descriptors(process: int) -> None:
    """Lets it take connections again."""
    resource.prlimit(process, resource.RLIMIT_NOFILE, (1_000, 1_000))


def read_all(peer: socket.socket, *ends: type[OSError]) -> bytes:
    """What comes up to the connection's end, which a reset is too, and each of these errors."""
    parts = []
    with contextlib.suppress(ConnectionResetError, *ends):
        while part := peer.recv(65_536):
            parts.append(part)
    return b"".join(parts)


def answer_to(port: int, request: bytes) -> bytes:
    """What is answered to a request, after which its client ends its sending."""
    with socket.create_connection((HOST, port), LIMIT) as peer:
        peer.sendall(request)
        with contextlib.suppress(OSError):
            peer.shutdown(socket.SHUT_WR)
        return read_all(peer)


def reset(peer: socket.socket) -> None:
    """Closes the connection at once, and has what is under way thrown away."""
    peer.setsockopt(socket.SOL_SOCKET, socket.SO_LINGER, struct.pack("ii", 1, 0))
    peer.close()


def reply_to(where: pathlib.Path, line: dict[str, Any]) -> Any:
    """The reply to a line at the door of lines; None where the server ends before it answers."""
    with socket.socket(socket.AF_UNIX) as peer:
        peer.settimeout(LIMIT)
        try:
            peer.connect(str(where))
            peer.sendall(json.dumps(line).encode() + b"\n")
            peer.shutdown(socket.SHUT_WR)
            with peer.makefile("rb") as file:
                found = file.read()
        except (ConnectionError, FileNotFoundError):
            return None
    return json.loads(found) if found.endswith(b"\n") else None


def status_of(
    port: int, method: str, target: str, content: str | None = None, headers: Mapping[str, str] | None = None,
) -> int | None:
    """The status of the answer to a request by `ann`; None where the server ends before it answers."""
    peer = http.client.HTTPConnection(HOST, port, timeout=LIMIT)
    with contextlib.closing(peer), contextlib.suppress(ConnectionError, http.client.HTTPException):
        peer.request(method, target, content, {"x-vault-caller": "ann", **(headers or {})})
        return peer.getresponse().status
    return None


class BothDoors:
    """A server of a vault with a door of lines too, once it listens at both. `front` are words before its own; another
    program than the one that is tried may be given. What it says is in the file `said` beside the vault's."""

    def __init__(
        self, file: pathlib.Path, where: pathlib.Path, *words: object, front: Iterable[object] = (),
        program: File | None = None,
    ) -> None:
        self.file, self.where, self.port, self.said = file, where, free_port(), file.with_name("said")
        asked = [*front, program or PROGRAM, "serve", file, self.port, "--lines", where, *words]
        with self.said.open("wb") as said:
            how: dict[str, Any] = {"stdout": subprocess.DEVNULL, "stderr": said, "start_new_session": True}
            self.process = subprocess.Popen([str(it) for it in asked], **how)
        end = time.monotonic() + LIMIT
        while f"lines at {where}\n" not in self.said.read_text():
            if self.process.poll() is not None or time.monotonic() > end:
                self.stop()
                check(False, f"no server: {self.said.read_text()}")
            time.sleep(0.02)

    def ask(self, do: str, who: str = "ann", **members: Any) -> Any:
        """The reply to a line; None where the server ends before it answers."""
        return reply_to(self.where, {"as": who, "do": do, **members})

    def request(self, method: str, target: str, content: str | None = None, **headers: str) -> int | None:
        """The status of the answer to a request; None where the server ends before it answers."""
        return status_of(self.port, method, target, content, {it.replace("_", "-"): text for it, text in headers.items()})

    def done(self, do: str, **members: Any) -> Any:
        """What is answered to a line that is carried out."""
        reply = self.ask(do, **members)
        check(reply and "ok" in reply, f"{do} {members}: {reply}")
        return reply["ok"]

    def ended(self) -> int:
        """The status with which it ends by itself."""
        return self.process.wait(LIMIT)

    def close(self) -> None:
        """Ends it by its line."""
        check(self.ask("close", "registrar") == {"ok": {}}, "the line that ends it isn't answered")
        check(self.ended() == 0, f"the server has the status {self.process.returncode}: {self.said.read_text()}")

    def stop(self) -> None:
        """Ends it in any case, and the words before it."""
        with contextlib.suppress(ProcessLookupError):
            os.killpg(self.process.pid, signal.SIGKILL)
        self.process.wait()
