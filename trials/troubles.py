"""Troubles: a server with a log whose clients take no reply, or one of whose calls fails; and a clock that shows no moment.

A client closes its connection before its line is answered: the log has the result `untaken`, and the line that ends the
server ends it. Then a server answers a line and a request, and in each run one of its allocations is refused, or one
reading of its monotonic clock fails: the answers say what was done, the log has an entry with the right result for each,
and the vault is sound.

Where the machine's clock shows a moment before 1970 or after 9999, each job, request and line that needs one is refused;
so is a request where it shows one before the vault's last change.
"""

import collections
import contextlib
import itertools
import json
import os
import shutil
import signal
import socket
import subprocess
import time
from typing import Any, Callable, Iterable

from trials.door import LIMIT, Server, get, line, put
from trials.parts.in_turn import each_in_turn, first_number
from trials.parts.program import IS_LONG, PROGRAM, Case, Ran, check, make_office, needs, printed
from trials.parts.servers import HOST, answer_to, ended, free_port, read_all, started
from trials.preload.loaded import Loaded
from trials.trail import request

FILE = "records.vault"
JOBS = len(os.sched_getaffinity(0))
# After how many untroubled runs in a row a search ends.
ENOUGH = 20
# How many readings of the clock succeed before all fail, and how many seconds a client waits for an answer.
READINGS, PATIENCE = 30, 5
OK, MEMORY = b'{"ok":{"version_id":1}}', b'{"error":{"code":"Memory","n":22}}'
# What the log has where there is no memory for an entry.
ROOMLESS = {"result": "memory"}
END = line("registrar", "close")
# What a clock shows, in seconds after the beginning of 1970: a second before that, and the first second after 9999.
NO_MOMENTS = (-1, 253_402_300_800)
NO_MOMENT = '{"error":{"code":"ClockOutOfRange","n":2}}\n'
# What a whole request and a part of a head get then: without a moment there is no date.
UNDATED = [
    b"HTTP/1.1 503 Service Unavailable\r\nconnection: close\r\ncontent-type: application/json\r\ncontent-length: 32\r\n\r\n"
    b'{"code":"ClockOutOfRange","n":2}',
    b"HTTP/1.1 400 Bad Request\r\nconnection: close\r\ncontent-type: application/json\r\ncontent-length: 33\r\n\r\n"
    b'{"code":"InvalidArgument","n":10}',
]
# 2100-01-01T00:00:00Z, and what a request gets a second before it of a vault that was changed then.
CHANGED_AT = 4_102_444_800
TOO_EARLY = (
    b"HTTP/1.1 503 Service Unavailable\r\ndate: Thu, 31 Dec 2099 23:59:59 GMT\r\nconnection: close\r\n"
    b"content-type: application/json\r\ncontent-length: 26\r\n\r\n"
    b'{"code":"ClockBack","n":1}'
)
WHY = "the time lies outside 1970 to 9999, or the machine's clock can't be read: correct --at, or set the clock\n"


def entries(said: str) -> list[dict[str, Any]]:
    return [json.loads(it) for it in said.splitlines()]


def send_and_go(server: Server, sent: bytes) -> None:
    """Sends a line, and closes the connection before the server can answer."""
    server.serving.send_signal(signal.SIGSTOP)
    with server.connect() as peer:
        peer.sendall(sent)
    server.serving.send_signal(signal.SIGCONT)


class Untaken(Case):
    def test_line(self) -> None:
        make_office(self.folder / FILE, "put", "get")
        server = Server(self.folder)
        server.start("--log")
        try:
            for it in (put("a"), get("a"), line("registrar", "status")):
                send_and_go(server, it)
            check(server.lines(get("a")) != [], "the next line isn't answered")
            send_and_go(server, END)
            check(server.serving.wait(LIMIT) == 0, "the line that ends the server doesn't end it where its reply isn't taken")
            assert server.serving.stderr is not None
            found = entries(server.serving.stderr.read())
        finally:
            server.end()
        results = [(it["do"], it["result"]) for it in found]
        wanted = [("put", "untaken"), ("get", "untaken"), ("status", "untaken"), ("get", "ok")]
        check(results[:4] == wanted, f"the log has {found}")
        check([it["do"] for it in found[4:]] == ["close"], f"the log has {found}")


class Run:
    """A run of a server that is asked a line and a request, if it listens: what it answered and wrote, and its status."""

    def __init__(self, server: Server, front: Iterable[str]) -> None:
        server.start("--log", front=front)
        assert server.serving.stderr is not None
        try:
            self.listens = server.said.startswith("serving ")
            if self.listens:
                self.replies, self.answer = [], b""
                with contextlib.suppress(ConnectionError):
                    self.replies = server.lines(put("a"))
                with contextlib.suppress(ConnectionError):
                    self.answer = server.http_get("b")
                check(any(is_ended(server) for _ in range(3)), "it doesn't end")
            self.said = server.serving.stderr.read() if self.listens else server.said
            self.status = server.serving.wait(LIMIT)
        finally:
            server.end()

    def entries(self) -> tuple[list[dict[str, Any]], list[dict[str, Any]]]:
        """The log's entries of the line, which comes first, and those of the request. Between them there may be one of a
        connection on which no line came."""
        found = entries(self.said)
        by_line = [found.pop(0)] if found and found[0].get("door") != "http" else []
        return by_line, [it for it in found if it.get("door") == "http"] or [it for it in found[:1] if it == ROOMLESS]


def is_ended(server: Server) -> bool:
    """Asks a server to end. Returns whether it ends, with a reply or without."""
    with contextlib.suppress(ConnectionError):
        server.lines(END)
    with contextlib.suppress(subprocess.TimeoutExpired):
        server.serving.wait(1)
    return server.serving.poll() is not None


def of_allocation(run: Run, is_there: bool) -> str:
    """What a refused allocation came to. Fails where that isn't what was answered, done and logged."""
    by_line, by_request = run.entries()
    check(len(by_line) == len(by_request) == 1, "an entry is lost")
    # A line that ends the server may be answered by nothing: where there is no room for its reply.
    asked = {(it.get("do") == "close", it["result"]) for it in entries(run.said)} - {(True, "nothing")}
    others = {result for _, result in asked} - {"ok", "NoSuchKey", "Memory", "memory"}
    check(not others, f"{others} in the log")
    of_line, of_request = by_line[0]["result"], by_request[0]["result"]
    if ROOMLESS in by_line + by_request:
        check(run.replies == [OK] and is_there and b"NoSuchKey" in run.answer, "what was done without an entry")
        return "no room for an entry"
    if any(it["result"] == "memory" and it["out"] for it in by_line + by_request):
        check(run.replies == [OK] and is_there and b"NoSuchKey" in run.answer, "what was done without a note of it")
        return "no room for what was asked or answered"
    if of_line != "ok":
        check((run.replies, of_line) in (([MEMORY], "Memory"), ([], "memory")), "the line's entry")
        check(not (is_there and run.replies), "a refused line is carried out")
        check(of_request == "NoSuchKey" and b"NoSuchKey" in run.answer, "the request after it")
        return f"the line: {of_line}"
    check(run.replies == [OK] and is_there, "what the line came to")
    if of_request == "NoSuchKey":
        check(b"NoSuchKey" in run.answer, "what the request came to")
        return "none"
    check(of_request == ("Memory" if b'"Memory"' in run.answer else "memory"), "the request's entry")
    check(b'"Memory"' in run.answer or not run.answer, "what is answered")
    return f"the request: {of_request}"


# The results that the log has of a line without a reply, and whether the line was carried out. A connection that is closed
# before its line is read has no entry.
UNANSWERED = {("late",): False, ("untaken",): True, (): False}


def of_reading(run: Run, is_there: bool) -> str:
    """What a failed reading of the clock came to. Fails where that isn't what was answered, done and logged."""
    by_line, by_request = ([it["result"] for it in found] for found in run.entries())
    if run.replies:
        check(run.replies == [OK] and by_line == ["ok"] and is_there, "what the line came to")
    else:
        check(UNANSWERED.get(tuple(by_line)) == is_there, "the line's entry")
    if run.answer:
        check(b"NoSuchKey" in run.answer and by_request == ["NoSuchKey"], "what the request came to")
        return "none" if run.replies else f"the line: {by_line}"
    check(run.replies and by_request in (["late"], ["untaken"]), "the request's entry")
    return f"the request: {by_request}"


@needs(os.environ.get("CC", "cc"))
class Failing(Case):
    def setUp(self) -> None:
        super().setUp()
        make_office(self.folder / "made", "put", "get")

    def run_once(self, loaded: Loaded, number: int) -> tuple[Run, bool]:
        """A run with that call failing, and whether the version is in the vault then."""
        place = self.folder / f"run-{loaded.what}-{number}"
        place.mkdir()
        shutil.copy(self.folder / "made", place / FILE)
        run = Run(Server(place), loaded.front(number))
        self.is_sound(place / FILE)
        is_there = printed("events", place / FILE).count("\n") > 1
        shutil.rmtree(place)
        return run, is_there

    def first(self, loaded: Loaded) -> int:
        """The number of the first call that may fail while the server listens."""
        return first_number(lambda it: self.listens(loaded, it))

    def listens(self, loaded: Loaded, number: int) -> bool:
        """Whether a server listens of which that call fails. One that doesn't says that it wanted memory."""
        run, is_there = self.run_once(loaded, number)
        said = run.said.splitlines()[:1]
        check(run.listens or (run.status == 1 and said and said[0].endswith(": Memory") and not is_there), vars(run))
        return run.listens

    def sweep(self, what: str, step: int, judge: Callable[[Run, bool], str]) -> set[str]:
        """Judges a run for every call, or every `step`th, after the server listens. Returns what the runs came to."""
        loaded = Loaded(PROGRAM, self.folder, what)

        def judged(number: int) -> str:
            run, is_there = self.run_once(loaded, number)
            try:
                check(run.status == 0, "its status")
                return judge(run, is_there)
            except AssertionError as wrong:
                raise AssertionError(f"{what} {number}: {wrong}: {vars(run)}") from None

        numbers = itertools.count(self.first(loaded), step)
        ways = collections.Counter(way for _, way in each_in_turn(JOBS, judged, numbers, ENOUGH, lambda way: way == "none"))
        print(f"{what}:", dict(ways))
        return set(ways)

    def test_allocations(self) -> None:
        found = self.sweep("refused_allocation", 1 if IS_LONG else 13, of_allocation)
        wanted = {"the line: Memory", "the request: Memory"}
        check(found >= wanted, f"an allocation that is refused comes to {found}")

    def test_no_clock(self) -> None:
        """Without a monotonic clock, from some reading on, an open connection of lines is closed, and nothing is busy."""
        loaded = Loaded(PROGRAM, self.folder, "failed_reading")
        shutil.copy(self.folder / "made", self.folder / FILE)
        server = Server(self.folder)
        server.start("--log", front=loaded.front(-self.first(loaded) - READINGS))
        try:
            with server.connect() as peer:
                peer.settimeout(PATIENCE)
                peer.sendall(get("a"))
                check(peer.recv(65_536).endswith(b"\n"), "a line before isn't answered")
                count = sum(1 for _ in itertools.takewhile(bool, (self.is_answered(server) for _ in range(READINGS))))
                check(0 < count < READINGS, f"{count} requests are answered")
                check(peer.recv(65_536) == b"", "a silent connection isn't closed")
            before = server.processor_time()
            time.sleep(2)
            took = server.processor_time() - before
        finally:
            server.end()
        check(took < 0.4, f"without a clock the server took {took} s")

    def is_answered(self, server: Server) -> bool:
        """Whether a request is answered, and soon."""
        with contextlib.suppress(OSError), socket.create_connection((HOST, server.port), PATIENCE) as peer:
            peer.settimeout(PATIENCE)
            peer.sendall(request("GET", "/docs/a"))
            return read_all(peer).startswith(b"HTTP/1.1 404")
        return False

    def test_readings(self) -> None:
        found = self.sweep("failed_reading", 1, of_reading)
        wanted = {f"the {it}: ['{why}']" for it in ("line", "request") for why in ("late", "untaken")}
        check(found >= wanted, f"a reading that fails comes to {found}")


@needs(os.environ.get("CC", "cc"))
class NoMoment(Case):
    def setUp(self) -> None:
        super().setUp()
        make_office(self.folder / FILE, "put", "get", "report")
        (self.folder / "list.csv").write_text("file,key,mode,until,hold\nlist.csv,a,,,\n")
        self.loaded = Loaded(PROGRAM, self.folder, "shown_clock")

    def test_jobs(self) -> None:
        before = printed("events", self.folder / FILE)
        intake = ["intake", FILE, "docs", "b", "list.csv", ".", "--as", "ann"]
        for shown in NO_MOMENTS:
            for words in (["dept", FILE, "maps", "--as", "registrar"], ["report", FILE, "records", "--as", "ann"], intake):
                refused = self.ran(*words, front=self.loaded.front(shown))
                self.assertEqual(refused, Ran(1, NO_MOMENT, WHY), f"{words[0]}, where the clock shows {shown}")
        self.assertEqual(printed("events", self.folder / FILE), before)
        self.assertEqual(self.ran(*intake).out, "1 admitted 1\n")

    def test_doors(self) -> None:
        for shown in NO_MOMENTS:
            server = Server(self.folder)
            server.start("--log", front=self.loaded.front(shown))
            try:
                answers = [answer_to(server.port, it) for it in (request("GET", "/docs/a"), b"GET\r\n")]
                asked = [put("a"), get("a"), line("registrar", "status"), END]
                replies = server.lines(b"".join(asked))
            finally:
                server.end()
            self.assertEqual(answers, UNDATED)
            self.assertEqual(replies, [NO_MOMENT.encode().rstrip()] * len(asked))
            assert server.serving.stderr is not None
            found = entries(server.serving.stderr.read())
            wanted = [("http", "ClockOutOfRange", False), ("http", "InvalidArgument", False)]
            wanted += [("lines", "ClockOutOfRange", False)] * len(asked)
            self.assertEqual([(it["door"], it["result"], "at" in it) for it in found], wanted)

    def test_earlier(self) -> None:
        """Two changes at one reading are fine, and at an earlier one nothing is answered but that."""
        for shown, asked, wanted in (
            (CHANGED_AT, request("PUT", "/docs/a", body=b"hello"), b"x-amz-version-id: 1\r\n\r\n"),
            (CHANGED_AT, request("PUT", "/docs/a", body=b"again"), b"x-amz-version-id: 2\r\n\r\n"),
            (CHANGED_AT - 1, request("GET", "/docs/a"), TOO_EARLY),
        ):
            port = free_port()
            server = started(FILE, port, folder=self.folder, front=self.loaded.front(shown))
            try:
                answer = answer_to(port, asked)
            finally:
                ended(server)
            check(answer.endswith(wanted), f"where the clock shows {shown} a request gets {answer!r}")
