"""A vault with a gateway for clients of S3, and what stands between: for the trials of s3.py."""

import contextlib
import datetime as dt
import json
import os
import pathlib
import socket
import subprocess
import sys
import threading
import time
from typing import Any, Callable

from trials.parts import program
from trials.parts.program import DESK, check
from trials.parts.servers import BothDoors, free_port

RIGHTS = ["config", "put", "retain", "hold", "get", "list", "delete", "delete-version", "run", "report", "bypass"]
PLAIN = ["put", "retain", "get", "list", "delete", "delete-version"]
OPENING = [
    {"do": "add-dept", "dept": "records"},
    {"do": "add-caller", "caller": "ann", "dept": "records", "rights": RIGHTS},
    {"do": "add-caller", "caller": "bea", "dept": "records", "rights": PLAIN},
    {"do": "add-bucket", "bucket": "docs", "dept": "records"},
    {"do": "add-bucket", "bucket": "scans", "dept": "records"},
]
TRIED = program.LIMIT  # seconds for one run of a client, and for what the gateway is waited for
# The desk with a clock that is that many seconds ahead.
AHEAD = """\
import runpy, sys, time
shift, name, clock = float(sys.argv[1]), sys.argv[2], time.time
time.time = lambda: clock() + shift
sys.argv[:2] = []
runpy.run_path(name, run_name="__main__")
"""
Line = dict[str, Any]


class Gateway:
    """A vault with callers `ann`, who may all, and `bea`, and its gateway, before a server of the vault if `served`.

    The gateway's clock is `ahead` seconds ahead of the clients'."""

    served = False

    def __init__(self, vaultctl: pathlib.Path, folder: pathlib.Path, ahead: int = 0, **settings: Any) -> None:
        self.program, self.folder, self.ahead = vaultctl, folder, ahead
        self.file = folder / "records.vault"
        self.env = {it: value for it, value in os.environ.items() if "CA_BUNDLE" not in it and not it.startswith("AWS_")}
        self.env |= {"VAULTCTL": str(vaultctl), "HOME": str(folder), "PYTHONDONTWRITEBYTECODE": "1"}
        subprocess.run([vaultctl, "init", self.file], check=True)
        self.lines(*OPENING)
        self.port = free_port()
        given = {"vault": str(self.file), "keys": str(folder / "keys.toml"), "etags": str(folder / "etags"),
                 "unanswered": str(folder / "unanswered"), "port": self.port, **settings}
        self.settings = folder / "s3.toml"
        self.settings.write_text("".join(f"{it} = {json.dumps(value)}\n" for it, value in given.items()))
        self.keys = {it: json.loads(self.desk("key", "add", it, "--json")) for it in ("ann", "bea")}
        self.scheme = "https" if "certificate" in settings else "http"
        self.child: subprocess.Popen[bytes] | None = None
        self.server: BothDoors | None = None

    def desk(self, *words: object) -> str:
        asked = [str(it) for it in (DESK, "s3", *words, "--settings", self.settings)]
        ran = subprocess.run(asked, env=self.env, capture_output=True, text=True)
        check(ran.returncode == 0, ran.stderr)
        return ran.stdout

    def office(self, *words: str) -> str:
        """What the desk prints of the vault."""
        ran = subprocess.run([DESK, *words, "--vault", self.file], env=self.env, capture_output=True, text=True)
        check(ran.returncode == 0, f"{words[0]}: {ran.stderr}")
        return ran.stdout

    def lines(self, *lines: Line) -> list[Line]:
        """The replies of the engine to lines, by the registrar where none says who asks; the gateway stands still."""
        at = dt.datetime.now(dt.timezone.utc).strftime("%Y-%m-%dT%H:%M:%SZ")
        script = "".join(json.dumps({"at": at, "as": "registrar", **it}) + "\n" for it in lines)
        ran = subprocess.run([self.program, "replay", self.file], input=script, capture_output=True, text=True, check=True)
        return [json.loads(it) for it in ran.stdout.splitlines()]

    def start_server(self) -> None:
        """Has the vault served, with a door where a gateway looks for one."""
        self.server = BothDoors(self.file, self.folder / "records.lines")

    def end_server(self) -> None:
        """Ends the server by its door, in good order."""
        self.office("close", "--as", "registrar")
        assert self.server
        check(self.server.process.wait(TRIED) == 0, f"the server ended with {self.server.process.returncode}")
        self.server = None

    def start(self) -> None:
        if self.served and not self.server:
            self.start_server()
        front = [sys.executable, "-c", AHEAD, str(self.ahead)] if self.ahead else []
        words = [*front, str(DESK), "s3", "serve", "--settings", str(self.settings)]
        with open(self.folder / "log", "a") as log:
            self.child = subprocess.Popen(words, env=self.env, stderr=log)
        deadline = time.monotonic() + TRIED
        while True:
            with contextlib.suppress(OSError), socket.create_connection(("127.0.0.1", self.port), timeout=5):
                return
            check(time.monotonic() < deadline and self.child.poll() is None, (self.folder / "log").read_text())
            time.sleep(0.1)

    def stop(self) -> None:
        assert self.child
        self.child.terminate()
        check(self.child.wait(TRIED) == 0, f"the gateway ended with {self.child.returncode}")
        if self.server:
            self.end_server()

    def kill(self) -> None:
        assert self.child
        self.child.kill()
        self.child.wait()

    def versions(self, bucket: str = "docs") -> list[Line]:
        """What the bucket holds; the gateway stands still."""
        found: list[Line] = []
        more: Line = {}
        while True:
            listed = self.lines({"as": "ann", "do": "list-versions", "bucket": bucket, **more})[0]["ok"]
            found += listed["entries"]
            if not listed["more"]:
                return found
            more = {"after_key": found[-1]["key"], "after_id": found[-1]["version_id"]}

    def locks(self, bucket: str = "docs") -> dict[str, Line]:
        """The locks of the newest content of each key that has one; the gateway stands still."""
        keys = [it["key"] for it in self.versions(bucket) if it["current"] and not it["delete_marker"]]
        told = self.lines(*({"as": "ann", "do": "head", "bucket": bucket, "key": it} for it in keys))
        return {key: it["ok"] for key, it in zip(keys, told)}

    def __enter__(self) -> "Gateway":
        self.start()
        return self

    def __exit__(self, kind: object, error: object, trace: object) -> None:
        assert self.child
        if self.child.poll() is None:
            if kind is None:
                self.stop()
            else:
                self.kill()
        if self.server:
            self.server.stop()
        if kind is None:
            ran = subprocess.run([self.program, "verify", self.file], capture_output=True, text=True)
            check(ran.stdout == "sound\n", ran.stdout + ran.stderr)

    def run(self, *words: object, status: int | None = 0, **env: str) -> str:
        """The output of a client's command, and the status that is wanted; none: any but 0."""
        ran = subprocess.run([str(it) for it in words], cwd=self.folder, env={**self.env, **env}, capture_output=True, text=True,
                             timeout=TRIED)
        is_wanted = ran.returncode != 0 if status is None else ran.returncode == status
        check(is_wanted, f"{words}: status {ran.returncode}\n{ran.stdout}{ran.stderr}")
        return ran.stdout + ran.stderr


# ---- between a client and the gateway, and between the gateway and the server


class Between:
    """Stands between clients and a gateway. It notes each request, and passes on the answers; but not those to the first
    puts, which are cut off before the gateway has answered, or after; then it does what it is asked to."""

    def __init__(self, gateway: Gateway, cuts: int, is_before: bool = True, meanwhile: Callable[[], None] | None = None) -> None:
        self.gateway, self.cuts, self.is_before, self.meanwhile = gateway, cuts, is_before, meanwhile
        self.requests: list[bytes] = []
        self.listener = socket.create_server(("127.0.0.1", 0))
        self.port = self.listener.getsockname()[1]
        threading.Thread(target=self.serve, daemon=True).start()

    def serve(self) -> None:
        with contextlib.suppress(OSError):
            while True:
                connection = self.listener.accept()[0]
                threading.Thread(target=self.pass_on, args=(connection,), daemon=True).start()

    def read(self, connection: socket.socket) -> bytes:
        """One request; who waits for leave to send its body gets that here."""
        with connection.makefile("rb", buffering=0) as file:
            lines = []
            while (line := file.readline()) not in (b"\r\n", b""):
                lines.append(line)
            names = {name.lower(): value.strip() for name, _, value in (it.partition(b":") for it in lines)}
            if b"expect" in names:
                connection.sendall(b"HTTP/1.1 100 Continue\r\n\r\n")
            left, body = int(names.get(b"content-length", 0)), b""
            while len(body) < left and (part := file.read(left - len(body))):
                body += part
        kept = [it for it in lines if not it.lower().startswith((b"expect:", b"connection:"))]
        return b"".join([*kept, b"Connection: close\r\n\r\n", body]) if lines else b""

    def pass_on(self, connection: socket.socket) -> None:
        """One request, and its answer, or none."""
        with connection, contextlib.suppress(OSError):
            connection.settimeout(TRIED)
            whole = self.read(connection)
            if not whole:
                return
            self.requests.append(whole)
            is_cut = whole.startswith(b"PUT ") and self.cuts > 0
            self.cuts -= is_cut
            answer = b"" if is_cut and self.is_before and self.send_alone(whole) else sent(self.gateway, whole)
            if is_cut and self.meanwhile:
                self.meanwhile()
            if not is_cut:
                connection.sendall(answer)

    def send_alone(self, whole: bytes) -> bool:
        """Sends a request, and goes away."""
        with socket.create_connection(("127.0.0.1", self.gateway.port), timeout=TRIED) as there:
            there.sendall(whole)
        return True


def made_tree(folder: pathlib.Path) -> pathlib.Path:
    """A folder of files to be synced."""
    tree = folder / "tree"
    (tree / "sub folder").mkdir(parents=True)
    (tree / "one.txt").write_text("one\n")
    (tree / "sub folder" / "two ü+.txt").write_text("two\n")
    (tree / "three.gz").write_bytes(bytes(range(256)) * 4)
    (tree / "big.bin").write_bytes(os.urandom(300_000))
    (tree / "empty").write_bytes(b"")
    return tree


def sent(gateway: Gateway, whole: bytes) -> bytes:
    """The answer of a gateway to the bytes of a request, up to the end of the connection; one that is started is waited
    for."""
    deadline = time.monotonic() + TRIED
    while True:
        with contextlib.suppress(ConnectionRefusedError):
            there = socket.create_connection(("127.0.0.1", gateway.port), timeout=TRIED)
            break
        check(time.monotonic() < deadline, "there is no gateway")
        time.sleep(0.1)
    with there:
        there.sendall(whole)
        answer = b""
        while part := there.recv(65_536):
            answer += part
    return answer


class Door:
    """Stands before a server's door for lines, at a place of its own: counts the lines that come, and does what it is asked
    to before it hands on a reply; without a reply the connection ends."""

    def __init__(self, folder: pathlib.Path) -> None:
        self.there, self.where = folder / "records.lines", folder / "between.lines"
        self.lines: list[bytes] = []
        self.before_reply: Callable[[bytes], bool] = lambda _: True
        self.listener = socket.socket(socket.AF_UNIX)
        self.listener.bind(str(self.where))
        self.listener.listen(128)
        threading.Thread(target=self.serve, daemon=True).start()

    def serve(self) -> None:
        with contextlib.suppress(OSError):
            while True:
                connection = self.listener.accept()[0]
                threading.Thread(target=self.pass_on, args=(connection,), daemon=True).start()

    def pass_on(self, connection: socket.socket) -> None:
        with connection, contextlib.suppress(OSError):
            with connection.makefile("rb") as file:
                line = file.readline()
            if line:
                self.lines.append(line)
                reply = self.reply_to(line)
                if self.before_reply(line):
                    connection.sendall(reply)

    def reply_to(self, line: bytes) -> bytes:
        with socket.socket(socket.AF_UNIX) as server:
            server.connect(str(self.there))
            server.sendall(line)
            with server.makefile("rb") as file:
                return file.readline()
