"""Door: clients at both doors of a server that takes lines, good ones and others.

Each test serves a new vault in a folder of its own, with lines at a Unix socket there. All of it takes less than two
minutes.
"""

import contextlib
import errno
import hashlib
import json
import os
import pathlib
import re
import shutil
import signal
import socket
import subprocess
import threading
import time
from collections.abc import Callable
from typing import Any, Iterable

from trials.parts.program import PROGRAM, Case, a_test_each, carry_out, check, make_office, printed
from trials.parts.servers import HOST, free_port, leave_descriptors, leave_no_descriptors, read_all

# The deadlines, in seconds: for a line from its first byte; for silence where another waits; and how long a client waits
# at most, whatever the server does.
LINE, SILENCE, LIMIT = 5, 5, 60
# Another address of the machine, at which it meets itself too.
OTHER = "127.0.0.2"
# How much later than its deadline something may come on a busy machine.
SLACK = 5
# Seconds after which a server with nothing to do waits for whoever comes.
SOON = 0.3
LONGEST_LINE = 4_194_304
# How many clients wait at each door.
TURNS = 20
MALFORMED = b'{"error":{"code":"MalformedBody","n":12}}'
INVALID = b'{"error":{"code":"InvalidArgument","n":10}}'
NOT_ADMIN = b'{"error":{"code":"AccessDenied","n":3,"reason":"right:admin"}}'
UNKNOWN = b'{"error":{"code":"AccessDenied","n":3,"reason":"unknown-caller"}}'


def equal(given: object, wanted: object, of: str) -> None:
    check(given == wanted, f"{of}: {str(given)[:300]}, wanted {str(wanted)[:300]}")


def line(caller: str, do: str, **members: object) -> bytes:
    return json.dumps({"as": caller, "do": do, **members}).encode() + b"\n"


def put(key: str, text: str = "hello") -> bytes:
    return line("ann", "put", bucket="docs", key=key, text=text)


def get(key: str) -> bytes:
    return line("ann", "get", bucket="docs", key=key)


class Server:
    """A program that serves a vault at two doors."""

    def __init__(self, folder: pathlib.Path, where: str = "") -> None:
        self.folder, self.file, self.port = folder, str(folder / "records.vault"), free_port()
        self.where = where or str(folder / "lines")

    def start(self, *words: str, front: Iterable[str] = ()) -> None:
        """Starts the server, with words before the program's, and reads what it says once it listens."""
        self.serving = subprocess.Popen(
            [*front, PROGRAM, "serve", self.file, str(self.port), "--lines", self.where, *words],
            stderr=subprocess.PIPE, text=True)
        assert self.serving.stderr is not None
        self.said = self.serving.stderr.readline()

    def refused(self) -> str:
        """Starts a server that is to end at once, with status 1, and returns what it says."""
        self.start()
        equal(self.serving.wait(LIMIT), 1, "the status of a server that is refused")
        assert self.serving.stderr is not None
        return self.said + self.serving.stderr.read()

    def connect(self) -> socket.socket:
        """A connection of lines."""
        at_port = self.where.isdigit()
        peer = socket.socket(socket.AF_INET if at_port else socket.AF_UNIX)
        peer.settimeout(LIMIT)
        peer.connect((HOST, int(self.where)) if at_port else self.where)
        return peer

    def lines(self, sent: bytes) -> list[bytes]:
        """The replies to lines that are sent at once, by a client that then ends its side."""
        with self.connect() as peer:
            peer.sendall(sent)
            peer.shutdown(socket.SHUT_WR)
            replies = read_all(peer)
        check(replies[-1:] in (b"", b"\n"), f"the last reply has no line's end: {replies[-300:]!r}")
        return replies.splitlines()

    def request(self, text: str) -> bytes:
        with socket.create_connection((HOST, self.port), LIMIT) as peer:
            peer.sendall(text.encode())
            return read_all(peer)

    def http_get(self, key: str) -> bytes:
        answer = self.request(f"GET /docs/{key} HTTP/1.1\r\nhost: x\r\nx-vault-caller: ann\r\n\r\n")
        return answer.partition(b"\r\n\r\n")[2]

    def most_memory(self) -> int:
        """The bytes of memory that it had at most."""
        found = re.search(r"VmHWM:\s+(\d+) kB", pathlib.Path(f"/proc/{self.serving.pid}/status").read_text())
        assert found is not None
        return int(found[1]) * 1024

    def processor_time(self) -> float:
        """The processor time that it took, in seconds."""
        after_name = pathlib.Path(f"/proc/{self.serving.pid}/stat").read_text().rpartition(")")[2].split()
        return (int(after_name[11]) + int(after_name[12])) / os.sysconf("SC_CLK_TCK")

    def end(self) -> int:
        """Kills the server where it runs still, and returns its status."""
        if self.serving.poll() is None:
            self.serving.kill()
        return self.serving.wait()


def ok_puts(replies: list[bytes]) -> list[int]:
    """The ids of puts that were accepted."""
    found = [json.loads(it) for it in replies]
    return [it["ok"]["version_id"] for it in found if "version_id" in it.get("ok", {})]


def no_accept_waits(process: int) -> None:
    """Fails unless the sockets of both doors are non-blocking: no accept waits, even if its connection is gone."""
    ports, paths = ([it.split() for it in pathlib.Path("/proc/net", name).read_text().splitlines()] for name in ("tcp", "unix"))
    # A port's state, and a Unix socket's flags, say that it listens.
    listening = {it[9] for it in ports if it[3] == "0A"} | {it[6] for it in paths if it[3] == "00010000"}
    ours = [it.name for it in pathlib.Path(f"/proc/{process}/fd").iterdir() if os.readlink(it)[8:-1] in listening]
    shown = [pathlib.Path(f"/proc/{process}/fdinfo/{it}").read_text() for it in ours]
    flags = [int(found, 8) for it in shown for found in re.findall(r"flags:\s+(\d+)", it)]
    equal([it & os.O_NONBLOCK for it in flags], [os.O_NONBLOCK] * 2, "the flags of the sockets that listen")


def plain(server: Server) -> None:
    """Lines and requests over one vault, at the machine's clock."""
    equal(server.said, f"serving {server.file} at {HOST}:{server.port}, lines at {server.where}\n", "what it says")
    no_accept_waits(server.serving.pid)
    equal(server.lines(put("a")), [b'{"ok":{"version_id":1}}'], "a put")
    equal(server.http_get("a"), b"hello", "a get of what a line put")
    before = time.strftime("%Y-%m-%dT%H:%M:%SZ", time.gmtime())
    found = json.loads(server.lines(line("ann", "report", dept="records"))[0])["ok"]
    after = time.strftime("%Y-%m-%dT%H:%M:%SZ", time.gmtime())
    check(before <= found["at"] <= after, f"the reading is {found['at']}, and the clock showed {before} to {after}")
    dated = b'{"at":"2024-01-15T10:30:00Z","as":"ann","do":"report","dept":"records"}\n'
    equal(server.lines(dated + b"\n\r\n" + put("b")), [MALFORMED, b'{"ok":{"version_id":2}}'], "a line with a reading, empty ones, a put")
    equal(server.lines(get("a")[:-1] + b" " * 20_000), server.lines(get("a")), "a long last line without LF")
    equal(server.lines(b"\r"), [MALFORMED], "a CR alone")


def whole_script(server: Server) -> None:
    """A script at once is answered in order, and requests go between its lines."""
    took: list[float] = []
    ended = threading.Event()

    def ask() -> None:
        while not ended.is_set():
            began = time.monotonic()
            server.http_get("k0")
            took.append(time.monotonic() - began)

    asking = threading.Thread(target=ask)
    asking.start()
    try:
        replies = server.lines(b"".join(put(f"k{number}") for number in range(500)))
    finally:
        ended.set()
        asking.join()
    equal(ok_puts(replies), list(range(1, 501)), "the replies to a script")
    check(len(took) >= 20, f"between 500 lines {len(took)} requests were answered")


def late_line(server: Server) -> None:
    """A line that isn't whole in time gets no reply and changes nothing; requests are answered meanwhile."""
    began = time.monotonic()
    with server.connect() as peer:
        peer.sendall(put("late")[:-1])
        equal(server.http_get("none")[:1], b"{", "a request meanwhile")
        equal(read_all(peer), b"", "a line that isn't whole")
    check(LINE - 0.5 < time.monotonic() - began < LINE + SLACK, f"a line had {time.monotonic() - began:.1f} s")
    equal(ok_puts(server.lines(put("next"))), [1], "the put after it")


def silent(server: Server) -> None:
    """A connection that is silent gives way to another one after a while, and not to requests."""
    with server.connect() as first:
        first.sendall(put("a"))
        equal(first.recv(65_536), b'{"ok":{"version_id":1}}\n', "a put")
        equal(server.http_get("a"), b"hello", "a get")
        time.sleep(SOON)
        began = time.monotonic()
        equal(ok_puts(server.lines(put("b"))), [2], "a put by another")
        check(SILENCE - 1 < time.monotonic() - began < SILENCE + SLACK, f"another waited for {time.monotonic() - began:.1f} s")
        equal(read_all(first), b"", "the silent one")


def slow_line(server: Server) -> None:
    """Neither the silence before a line nor the time that it took counts for what comes after it."""
    with server.connect() as peer:
        time.sleep(3)
        peer.sendall(put("a")[:10])
        time.sleep(3)
        peer.sendall(put("a")[10:])
        equal(peer.recv(65_536), b'{"ok":{"version_id":1}}\n', "a line that begins late, in two parts")
        time.sleep(SOON)
        began = time.monotonic()
        equal(ok_puts(server.lines(put("b"))), [2], "a put by another")
        check(time.monotonic() - began > SILENCE - 1, f"another waited for {time.monotonic() - began:.1f} s")


def slow_requests(server: Server) -> None:
    """The time in which a silent client of the other door is waited for isn't a line's."""
    with server.connect() as peer:
        peer.sendall(put("a")[:10])
        time.sleep(0.5)
        with socket.create_connection((HOST, server.port), LIMIT), socket.create_connection((HOST, server.port), LIMIT):
            time.sleep(8)
            peer.sendall(put("a")[10:])
            equal(peer.recv(65_536), b'{"ok":{"version_id":1}}\n', "a line in two parts")


def oversized(server: Server) -> None:
    """The longest line is answered, and a longer one is refused once its LF has come. No more of it is kept."""
    longest = put("long")[:-1]
    longest += b" " * (LONGEST_LINE - len(longest)) + b"\n"
    equal(ok_puts(server.lines(longest)), [1], "the longest line")
    equal(server.lines(b" " + longest + put("after")), [MALFORMED, b'{"ok":{"version_id":2}}'], "a longer one, and a put")
    most = server.most_memory()
    equal(server.lines(b" " * (8 * LONGEST_LINE) + b"\n"), [MALFORMED], "a line of 32 MiB")
    check(server.most_memory() < most + 5 * LONGEST_LINE, f"it had {server.most_memory()} bytes of memory, and {most} before")


def idle(server: Server) -> None:
    """A server that nobody asks anything takes no processor time, whether a connection of lines is open or not."""
    with contextlib.ExitStack() as stack:
        for opened in range(2):
            before = server.processor_time()
            time.sleep(1)
            took = server.processor_time() - before
            check(took < 0.2, f"with {opened} connections the server took {took} s")
            stack.enter_context(server.connect())


def turns(server: Server) -> None:
    """Where clients wait at both doors, a request is answered after each line, and a line after each request."""
    server.serving.send_signal(signal.SIGSTOP)
    asked = b"GET /docs/a HTTP/1.1\r\nhost: x\r\nx-vault-caller: ann\r\n\r\n"
    with contextlib.ExitStack() as stack:
        peers = [stack.enter_context(socket.create_connection((HOST, server.port), LIMIT)) for _ in range(TURNS)]
        for peer in peers:
            peer.sendall(asked)
            peer.shutdown(socket.SHUT_WR)
        lines = stack.enter_context(server.connect())
        lines.sendall(get("a") * TURNS)
        lines.shutdown(socket.SHUT_WR)
        server.serving.send_signal(signal.SIGCONT)
        equal(len(read_all(lines).splitlines()), TURNS, "the lines that were answered")
        for peer in peers:
            check(read_all(peer).startswith(b"HTTP/1.1 404"), "a request isn't answered")
    server.end()
    assert server.serving.stderr is not None
    doors = [json.loads(it)["door"] for it in server.serving.stderr.read().splitlines()]
    # until the connection of lines is taken, requests alone are answered
    begin = doors.index("lines")
    after = doors[begin:2 * TURNS - begin]
    check(len(after) > TURNS and all(one != other for one, other in zip(after, after[1:])), f"the doors were {doors}")


def no_descriptors(server: Server) -> None:
    """Where no connection can be taken for want of descriptors, neither door keeps the server busy, and the log has it. The
    next ones are taken once there are some."""
    equal(ok_puts(server.lines(put("a"))), [1], "a put")
    leave_no_descriptors(server.serving.pid)
    with socket.create_connection((HOST, server.port), LIMIT) as request, server.connect() as lines:
        request.sendall(b"GET /docs/none HTTP/1.1\r\nhost: x\r\nx-vault-caller: ann\r\n\r\n")
        lines.sendall(put("b"))
        before = server.processor_time()
        time.sleep(2)
        took = server.processor_time() - before
        check(took < 0.4, f"without descriptors the server took {took} s")
        leave_descriptors(server.serving.pid)
        equal(lines.recv(65_536), b'{"ok":{"version_id":2}}\n', "a line that had to wait")
        check(read_all(request).startswith(b"HTTP/1.1 404"), "a request that had to wait isn't answered")
    server.end()
    assert server.serving.stderr is not None
    entries = [json.loads(it) for it in server.serving.stderr.read().splitlines()]
    missed = {it["door"] for it in entries if it["result"] == "connection"}
    equal(missed, {"lines", "http"}, "the doors of which the log says that a connection couldn't be taken")


def resetting(server: Server) -> None:
    """Those who leave in the midst of a line, or take no reply, keep nobody waiting."""
    for sent in (b"", put("a")[:10], put("b"), put("c") * 3):
        peer = server.connect()
        peer.sendall(sent)
        peer.close()
    equal(len(ok_puts(server.lines(put("d")))), 1, "a put after them")


def flooding(server: Server) -> None:
    """A client that sends lines for ever and reads nothing is let go; requests are answered meanwhile."""
    with server.connect() as peer:
        peer.settimeout(0.2)
        sent = get("none") * 1_000
        with contextlib.suppress(TimeoutError, BrokenPipeError, ConnectionResetError):
            while peer.send(sent):
                pass
        equal(server.http_get("none")[:1], b"{", "a request meanwhile")
        equal(ok_puts(server.lines(put("a"))), [1], "a put by another")


def closing(server: Server) -> None:
    """A caller with the right to administer ends the server, and nobody else does: the file is whole without its log."""
    equal(ok_puts(server.lines(put("a") + put("b"))), [1, 2], "two puts")
    more = line("registrar", "close", more=1)
    equal(server.lines(line("ann", "close") + line("zoe", "close") + more), [NOT_ADMIN, UNKNOWN, MALFORMED], "others")
    equal(server.lines(line("registrar", "close")), [b'{"ok":{}}'], "the line that ends it")
    equal(server.serving.wait(LIMIT), 0, "the status")
    alone = server.folder / "alone.vault"
    shutil.copy(server.file, alone)
    equal(printed("verify", alone), "sound\n", "the file without its log")
    server.start()
    equal(server.http_get("b"), b"hello", "a get after another start, where the old socket was")


def status(server: Server) -> None:
    """A caller with the right to administer is answered how things are, and nobody else is."""
    first = json.loads(server.lines(line("registrar", "status"))[0])["ok"]
    answered = time.strftime("%Y-%m-%dT%H:%M:%SZ", time.gmtime())
    check(first["since"] <= answered, f"it began at {first['since']}, and the clock shows {answered}")
    equal(ok_puts(server.lines(put("a") + put("b"))), [1, 2], "two puts")
    second = json.loads(server.lines(line("registrar", "status"))[0])["ok"]
    equal(second["last"] >= first["last"], True, "the last moment")
    entries, failures, version = second["entries"], second["failures"], second["version"]
    equal([first["entries"], entries, failures, second["since"]], [0, 2, 0, first["since"]], "what it counts")
    equal(f"vaultctl {version}", printed("--version").splitlines()[0].partition(", commit")[0], "the version")
    others = [line(caller, "status") for caller in ("ann", "zoe", "")]
    equal(server.lines(b"".join(others)), [NOT_ADMIN, UNKNOWN, UNKNOWN], "other callers")
    dated = line("registrar", "status", at="2024-01-15T10:30:00Z")
    odd = line("registrar", "status", more=1) + dated + line("registrar", "statu")
    equal(server.lines(odd), [MALFORMED] * 3, "other members, and another word")
    last = json.loads(server.lines(line("registrar", "status")[:-1] + b"\r")[0])["ok"]
    equal(last, second, "a last line that lacks its LF")
    script = b'{"at":"2024-01-15T10:30:00Z","as":"registrar","do":"status"}\n'
    said = subprocess.run([PROGRAM, "replay"], input=script, capture_output=True, check=True).stdout
    equal(said, MALFORMED + b"\n", "the same in a script")


def buckets(server: Server) -> None:
    """A caller with the right to administer is answered the names of all buckets, 1,000 a line, and nobody else is."""
    names = sorted([f"b{number:04}" for number in range(1_500)] + ["docs"])
    added = [line("registrar", "add-bucket", bucket=name, dept="records") for name in reversed(names) if name != "docs"]
    equal(set(server.lines(b"".join(added[:999]))), {b'{"ok":{}}'}, "buckets to one less than a line has")
    one = json.loads(server.lines(line("registrar", "buckets"))[0])["ok"]
    equal(one, {"buckets": [*names[501:]], "more": False}, "a line that just has them all")
    equal(set(server.lines(b"".join(added[999:]))), {b'{"ok":{}}'}, "the other buckets")
    pages: list[list[str]] = []
    after: str | None = ""
    while after is not None:
        page = json.loads(server.lines(line("registrar", "buckets", after=after))[0])["ok"]
        pages.append(page["buckets"])
        after = page["buckets"][-1] if page["more"] else None
    equal([len(page) for page in pages], [1_000, 501], "how many names each line has")
    equal(sum(pages, []), names, "the names")
    found = [json.loads(it)["ok"]["buckets"] for it in server.lines(
        line("registrar", "buckets", after="docs!") + line("registrar", "buckets", after="b1498"))]
    equal(found, [[], ["b1499", "docs"]], "after a name that no bucket has, and after one")
    odd = [line("registrar", "buckets", **members) for members in ({"after": 1}, {"after": None}, {"most": 1})]
    equal(server.lines(line("ann", "buckets") + b"".join(odd)), [NOT_ADMIN, *[MALFORMED] * 3], "others")
    script = b'{"at":"2024-01-15T10:30:00Z","as":"registrar","do":"buckets"}\n'
    said = subprocess.run([PROGRAM, "replay"], input=script, capture_output=True, check=True).stdout
    equal(said, MALFORMED + b"\n", "the same in a script")


def events(server: Server) -> None:
    """What happened before a moment comes in parts, which are of one past while the vault changes; together they are sealed."""
    server.lines(b"".join(put(f"k{number % 7}", str(number)) for number in range(1_100)))
    time.sleep(1.1)
    removed = line("ann", "delete-version", bucket="docs", key="k0", id=1)
    equal(b'"ok"' in server.lines(removed)[0], True, "a removal")
    before = json.loads(server.lines(line("registrar", "status"))[0])["ok"]["last"]
    parts, after = [], 0
    while after is not None:
        found = json.loads(server.lines(line("registrar", "events", before=before, after=after))[0])["ok"]
        parts.append(found["text"])
        server.lines(put("more") + line("ann", "delete-version", bucket="docs", key=f"k{(after + 1) % 7}", id=after + 2))
        after = found["next"]
    equal(len(parts), 2, "the parts")
    odd = [line("registrar", "events", before=it) for it in ("2100-01-01T00:00:00Z", "soon")]
    others = [line("registrar", "events"), line("ann", "events", before=before)]
    equal(server.lines(b"".join(odd + others)), [INVALID, INVALID, MALFORMED, NOT_ADMIN], "others")
    past = server.lines(line("registrar", "events", before=before, after=4_294_967_295))
    equal(past, [b'{"ok":{"next":null,"text":""}}'], "after the last entry there can be")
    equal(server.lines(line("registrar", "close")), [b'{"ok":{}}'], "the end")
    equal(server.serving.wait(LIMIT), 0, "the status")
    text = "".join(parts)
    equal(text, printed("events", server.file, "--before", before), "the text")
    digest = hashlib.sha256(text.encode()).hexdigest()
    equal(printed("seal", server.file, "--before", before).splitlines()[-1], f"sha256: {digest}", "the seal")


def in_parts(server: Server, do: str) -> list[dict[str, Any]]:
    """The parts that a line asks for, one after another."""
    parts: list[dict[str, Any]] = []
    after: int | None = 0
    while after is not None:
        parts.append(json.loads(server.lines(line("registrar", do, after=after))[0])["ok"])
        after = parts[-1]["next"]
    return parts


def removals(server: Server) -> None:
    """The register comes in parts, which are together what the program prints; one that is taken while a removal comes in
    between has all that was removed before, as it is afterwards."""
    server.lines(b"".join(put(f"k{number}", str(number)) for number in range(1, 2_101)))
    gone = [1, 2, 999, 1_000, 1_001, 1_999, 2_100]
    server.lines(b"".join(line("ann", "delete-version", bucket="docs", key=f"k{it}", id=it) for it in gone))
    server.lines(line("ann", "delete", bucket="docs", key="k5") + line("ann", "delete-version", bucket="docs", key="k5", id=2_101))
    parts = in_parts(server, "register")
    equal([it["next"] for it in parts], [1_000, 2_000, None], "where the next parts begin")
    text = "".join(it["text"] for it in parts)
    ids = [int(row.split(",")[0]) for row in text.splitlines()[1:]]
    equal(ids, [*gone, 2_101], "which were removed, and a marker")
    again = [json.loads(server.lines(line("registrar", "register"))[0])["ok"]["text"]]
    server.lines(line("ann", "delete-version", bucket="docs", key="k7", id=7))
    server.lines(line("ann", "delete-version", bucket="docs", key="k1500", id=1_500))
    again += [json.loads(server.lines(line("registrar", "register", after=it))[0])["ok"]["text"] for it in (1_000, 2_000)]
    nothing = [json.loads(server.lines(line("registrar", "register", after=it))[0])["ok"] for it in (2_101, 4_294_967_295)]
    equal(nothing, [{"next": None, "text": ""}] * 2, "parts after the last entry")
    odd = [line("registrar", "register", **members) for members in ({"before": "2024-01-15"}, {"after": -1}, {"after": 4_294_967_296})]
    equal(server.lines(line("ann", "register") + b"".join(odd)), [NOT_ADMIN, MALFORMED, INVALID, INVALID], "others")
    equal(server.lines(line("registrar", "close")), [b'{"ok":{}}'], "the end")
    equal(server.serving.wait(LIMIT), 0, "the status")
    printed_then = printed("register", server.file).splitlines(keepends=True)
    without = [row for row in printed_then if not row.startswith(("7,", "1500,"))]
    equal(text, "".join(without), "the register before the last two removals")
    equal("".join(again), "".join(row for row in printed_then if not row.startswith("7,")), "with the one that came in time")


def rules_kept(server: Server) -> None:
    """Whether the rules were kept is answered part by part: of a forged history each part names its own first breach."""
    server.lines(b"".join(put(f"k{number}", str(number)) for number in range(1, 2_101)))
    equal(in_parts(server, "lawful"), [{"breach": None, "next": it} for it in (1_000, 2_000, None)], "a lawful vault")
    past = server.lines(line("registrar", "lawful", after=4_294_967_295))
    equal(past, [b'{"ok":{"breach":null,"next":null}}'], "after the last entry there can be")
    odd = [line("registrar", "lawful", **members) for members in ({"id": 1}, {"after": -1})]
    equal(server.lines(line("ann", "lawful") + b"".join(odd)), [NOT_ADMIN, MALFORMED, INVALID], "others")
    equal(server.lines(line("registrar", "close")), [b'{"ok":{}}'], "the end")
    equal(server.serving.wait(LIMIT), 0, "the status")
    carry_out(pathlib.Path(server.file), ["UPDATE settings SET caller = 'registrar' WHERE id IN (5, 6, 1001)"])
    server.start()
    found = [{"law": "first-setting", "version_id": it} for it in (5, 1_001)] + [None]
    equal([it["breach"] for it in in_parts(server, "lawful")], found, "the first breach of each part")
    equal(server.lines(line("registrar", "close")), [b'{"ok":{}}'], "the end once more")
    equal(server.serving.wait(LIMIT), 0, "the status once more")
    said = subprocess.run([PROGRAM, "lawful", str(server.file)], capture_output=True, text=True, check=False)
    equal((said.returncode, said.stdout), (1, "unlawful 5 first-setting\n"), "what the program says of the file")


def refuses_others(port: int) -> None:
    """Nobody listens at a port of another address of the machine than 127.0.0.1."""
    with socket.socket() as it:
        it.settimeout(LIMIT)
        equal(it.connect_ex((OTHER, port)), errno.ECONNREFUSED, f"a connection to {OTHER}:{port}")


def at_a_port(server: Server) -> None:
    """Lines at a port. Both doors are at one address alone."""
    equal(server.said, f"serving {server.file} at {HOST}:{server.port}, lines at {HOST}:{server.where}\n", "what it says")
    equal(ok_puts(server.lines(put("a"))), [1], "a put")
    no_accept_waits(server.serving.pid)
    for port in (server.port, int(server.where)):
        refuses_others(port)
    equal(server.lines(line("registrar", "close")), [b'{"ok":{}}'], "the end")
    equal(server.serving.wait(LIMIT), 0, "the status")


def counted(server: Server) -> None:
    """Requests and lines are counted, and connections and silence aren't."""
    equal(server.lines(b""), [], "a connection without a line")
    equal(len(server.lines(put("a") + put("b"))), 2, "two lines")
    equal(server.http_get("a"), b"hello", "a request")
    equal(server.serving.wait(LIMIT), 0, "the status")


def no_places(server: Server) -> None:
    """Where nobody can listen at one of the doors nothing is served, and what is said of lines is said of theirs alone."""
    server.end()
    there = server.folder / "there"
    there.write_text("kept")
    for where in (str(there), str(server.folder / "none" / "lines"), "0", "70000", ""):
        server.where = where
        said = server.refused()
        equal([said.startswith("--lines: "), "\nserve: Device\n" in said], [True, True], f"what it says for {where!r}: {said!r}")
    equal(there.read_text(), "kept", "what was at the path")
    server.where = str(server.folder / "more-lines")
    with socket.create_server((HOST, server.port)):
        said = server.refused()
    check(said.startswith("serve: Device\n"), f"what it says where the port of requests is taken: {said!r}")


Trial = tuple[Callable[[Server], None], list[str]]
# Each trial, with words for the server.
TRIALS: dict[str, Trial] = {
    "plain": (plain, []),
    "whole-script": (whole_script, []),
    "late-line": (late_line, []),
    "silent": (silent, []),
    "slow-line": (slow_line, []),
    "slow-requests": (slow_requests, []),
    "oversized": (oversized, []),
    "idle": (idle, []),
    "turns": (turns, ["--log"]),
    "no-descriptors": (no_descriptors, ["--log"]),
    "resetting": (resetting, []),
    "flooding": (flooding, []),
    "closing": (closing, []),
    "status": (status, []),
    "buckets": (buckets, []),
    "events": (events, []),
    "removals": (removals, []),
    "rules-kept": (rules_kept, []),
    "at-a-port": (at_a_port, []),
    "counted": (counted, ["--count", "3"]),
    "no-places": (no_places, []),
}


@a_test_each(TRIALS)
class Door(Case):
    is_alone = True

    def look_at(self, name: str) -> None:
        trial, words = TRIALS[name]
        make_office(self.folder / "records.vault", "put", "get", "list", "report", "delete", "delete-version")
        server = Server(self.folder, str(free_port()) if name == "at-a-port" else "")
        server.start(*words)
        try:
            trial(server)
        finally:
            server.end()
        self.is_sound("records.vault")
