"""Kills: a server that is killed as it carries out changes at both doors, as it ends by its line, and during a night's work
over its door.

The kills come by `strace`, before calls that change the vault's file or its log: at fifty points of each, or as many as
`TRIALS_KILLS` says, spread over all calls that an untroubled run makes; the gate tries five. After each kill

  - a server opens the vault, and so its tables are sound;
  - each change that was answered is there, with its content, and of those that weren't answered at most the one that was
    under way;
  - the next try works: the server ends by its line with status 0, or the night is done, and then the vault has what it has
    after an untroubled night, and each copy with the name of one is sound.

An `init` and a `migrate` are killed before each such call in `faults.py` and `migrate.py`, a server under load in `serve.py`.
And without a kill a hundred clients go on during a night's work: none is refused for it.
"""

import collections
import concurrent.futures
import json
import os
import pathlib
import shutil
import threading
import unittest
from typing import Any, Iterator, NamedTuple

from trials.parts.calls import CHANGING, KILLED, needs_strace
from trials.parts.program import DESK, IS_LONG, OPENED_AT, PROGRAM, Case, Ran, check, make_office, ran_words
from trials.parts.servers import BothDoors

POINTS = int(os.environ.get("TRIALS_KILLS", 50 if IS_LONG else 5))
CALLS = (*CHANGING, "unlink")
KEYS = [f"2024/{number:02}" for number in range(12)]
NEW = range(40)
# How many puts come before a kill, and after each third of them a removal.
WORKED = 30
# How many clients ask a server at once during a night's work.
CLIENTS = 100
RULE = {
    "ID": "old", "Status": "Enabled", "Prefix": "2024/", "Expiration": {"Days": 30},
    "NoncurrentVersionExpiration": {"NoncurrentDays": 1},
}


class Point(NamedTuple):
    """A call, by its name and its number among those of that name."""

    call: str
    number: int


def points_of(trace: pathlib.Path) -> list[Point]:
    """The calls of a trace, in their order."""
    counts = collections.Counter[str]()
    found = []
    for line in trace.read_text().splitlines():
        name = line.partition("(")[0]
        if name in CALLS:
            counts[name] += 1
            found.append(Point(name, counts[name]))
    return found


def spread(points: list[Point]) -> list[Point]:
    """As many of these as are to be tried, from the first to the last."""
    check(len(points) >= POINTS, f"there are {len(points)} points, and {POINTS} are to be tried")
    return [points[at * (len(points) - 1) // max(1, POINTS - 1)] for at in range(POINTS)]


class Server(BothDoors):
    """A server of the vault in a folder, at whose calls one looks; with a point, it is killed before that call."""

    def __init__(self, folder: pathlib.Path, kill: Point | None = None) -> None:
        file, self.trace, where = folder / "records.vault", folder / "trace", folder / "run" / "records" / "lines"
        where.parent.mkdir(parents=True, exist_ok=True)
        at = [it for end in ("", "-wal") for it in ("-P", f"{file}{end}")]
        killing = ["-e", f"inject={kill.call}:signal=KILL:when={kill.number}"] if kill else []
        front = ["strace", "-qq", "-o", self.trace, *at, "-e", f"trace={','.join(CALLS)}", *killing]
        super().__init__(file, where, front=front)


@needs_strace
class Kills(Case):
    """A vault whose server is killed: each time it begins with the same files."""

    def setUp(self) -> None:
        super().setUp()
        self.made, self.place = self.folder / "made", self.folder / "place"
        self.made.mkdir()
        file = self.made / "records.vault"
        rights = ("put", "get", "list", "delete-version", "run", "config", "report")
        make_office(file, *rights, at=["--at", OPENED_AT])
        lines = [{"do": "set-rules", "bucket": "docs", "rules": [RULE]}]
        lines += [{"do": "put", "bucket": "docs", "key": key, "text": f"{key} {it}"} for it in "ab" for key in KEYS]
        script = "".join(json.dumps({"at": OPENED_AT, "as": "ann", **it}) + "\n" for it in lines)
        replies = self.printed("replay", file, given=script).splitlines()
        self.assertEqual([it for it in replies if not it.startswith('{"ok"')], [])

    def begin_anew(self, kill: Point | None = None) -> Server:
        """A server of the vault as it was made."""
        shutil.rmtree(self.place, ignore_errors=True)
        shutil.copytree(self.made, self.place)
        return self.serve(kill)

    def begin(self, kill: Point | None = None) -> Server:
        """The same, to which something was put meanwhile: all of it was answered."""
        server = self.begin_anew(kill)
        for number in NEW:
            server.done("put", bucket="docs", key=f"new/{number}", text=f"{number} " * 300)
        return server

    def serve(self, kill: Point | None = None) -> Server:
        server = Server(self.place, kill)
        self.addCleanup(server.stop)
        return server

    def look_at_answered(self, server: Server) -> None:
        """Fails unless each put that was answered is there."""
        for number in NEW:
            found = server.done("get", bucket="docs", key=f"new/{number}")
            self.assertEqual(bytes.fromhex(found["hex"]).decode(), f"{number} " * 300)

    def log_size(self) -> int:
        """The bytes of the vault's log."""
        return (self.place / "records.vault-wal").stat().st_size

    def is_killed(self, server: Server, point: Point) -> None:
        self.assertIn(server.ended(), KILLED, f"no kill came before {point}")


def is_answered(answer: Any) -> bool:
    """Whether a change was answered; fails where it was refused."""
    check(answer in (None, 200, 204) or not isinstance(answer, int) and "ok" in answer, f"a change is answered {answer}")
    return answer is not None


class AtChanges(Kills):
    def put(self, server: Server, number: int) -> bool:
        """Puts a version, by a line or by a request; whether that was answered."""
        key, text = f"new/{number}", f"{number} " * 300
        if number % 2 == 0:
            return is_answered(server.ask("put", bucket="docs", key=key, text=text))
        return is_answered(server.request("PUT", f"/docs/{key}", text))

    def remove(self, server: Server, number: int) -> bool:
        """Removes it, at the other door; whether that was answered."""
        key, version = f"new/{number}", 2 * len(KEYS) + 1 + number
        if number % 2 == 0:
            return is_answered(server.request("DELETE", f"/docs/{key}?versionId={version}"))
        return is_answered(server.ask("delete-version", bucket="docs", key=key, id=version))

    def changes(self, server: Server) -> Iterator[tuple[set[int], bool]]:
        """Puts, and after each third one its removal: the numbers of what is there after each, and whether it was answered.
        The first that isn't is the last."""
        held: set[int] = set()
        for number in range(WORKED):
            for change, left in ((self.put, held | {number}), (self.remove, held))[: 2 if number % 3 == 2 else 1]:
                answered = change(server, number)
                yield left, answered
                if not answered:
                    return
                held = left

    def found(self, server: Server) -> set[int]:
        """The numbers of what is there, each with its content."""
        entries = server.done("list-versions", bucket="docs", prefix="new/", most=1_000)["entries"]
        numbers = {int(it["key"].removeprefix("new/")) for it in entries}
        for number in numbers:
            content = server.done("get", bucket="docs", key=f"new/{number}")["hex"]
            self.assertEqual(bytes.fromhex(content).decode(), f"{number} " * 300)
        return numbers

    def test_points(self) -> None:
        """A server that is killed as it carries out changes: the next one has all that was answered, and one more at most."""
        server = self.begin_anew()
        begun = len(points_of(server.trace))
        *_, (whole, is_answered) = self.changes(server)
        self.assertTrue(is_answered)
        self.assertEqual(self.found(server), whole)
        points = points_of(server.trace)[begun:]
        server.close()
        for point in spread(points):
            with self.subTest(point):
                server = self.begin_anew(point)
                made = [(set[int](), True), *self.changes(server)]
                self.is_killed(server, point)
                again = self.serve()
                # What the last answered change left, or the one after it, which wasn't answered.
                may_be = [left for left, _ in (made[-1:] if made[-1][1] else made[-2:])]
                self.assertIn(self.found(again), may_be)
                again.close()
                self.is_sound(self.place / "records.vault")


class AtClose(Kills):
    def test_points(self) -> None:
        """A server that is killed as it ends by its line: the next one has all that was answered, and ends by its line."""
        server = self.begin()
        begun = len(points_of(server.trace))
        server.close()
        left = self.log_size()
        for point in spread(points_of(server.trace)[begun:]):
            with self.subTest(point):
                server = self.begin(point)
                server.ask("close", "registrar")
                self.is_killed(server, point)
                again = self.serve()
                self.look_at_answered(again)
                again.close()
                self.assertEqual(self.log_size(), left, "the bytes of the log, which is in the file")
                self.is_sound(self.place / "records.vault")


@unittest.skipUnless(os.geteuid() == 0, "the night's work is for root")
class AtNight(Kills):
    def night(self) -> Ran:
        """What the desk's night comes to, over the door of the server."""
        (self.place / "records.conf").write_text(f"PORT=8080\nBUCKETS=docs:ann\nBACKUP='{self.place / 'copies'}'\n")
        folders = {"VAULT_CONF": self.place, "VAULT_FOLDER": self.place, "VAULT_LOCKS": self.place / "run"}
        env = {**os.environ, "VAULTCTL": str(PROGRAM), **{name: str(it) for name, it in folders.items()}}
        return ran_words(DESK, "night", "records", "--clock-is-right", "--json", env=env)

    def entries(self, server: Server) -> list[Any]:
        """What the bucket holds, but for moments."""
        found = server.done("list-versions", bucket="docs", most=1_000)["entries"]
        return [(it["key"], it["version_id"], it["delete_marker"], it["current"]) for it in found]

    def test_points(self) -> None:
        """A server that is killed while the desk does a night's work over its door: the next night does the rest."""
        server = self.begin()
        begun = len(points_of(server.trace))
        whole = self.night()
        self.assertEqual((whole.status, whole.err), (0, ""))
        wanted, points = self.entries(server), points_of(server.trace)[begun:]
        done = json.loads(whole.out)["rules"]
        self.assertEqual(done, [{"bucket": "docs", "marked": len(KEYS), "removed": len(KEYS), "lone": 0}])
        server.close()
        for point in spread(points):
            with self.subTest(point):
                server = self.begin(point)
                cut = self.night()
                self.is_killed(server, point)
                self.assertEqual(cut.status, 1, cut)
                again = self.serve()
                self.look_at_answered(again)
                rest = self.night()
                self.assertEqual((rest.status, rest.err), (0, ""))
                self.assertEqual(self.entries(again), wanted)
                self.look_at_answered(again)
                again.close()
                self.is_sound(self.place / "records.vault")
                for copy in (self.place / "copies").glob("*.vault"):
                    self.is_sound(copy)

    def test_clients(self) -> None:
        """A hundred clients go on while the desk does a night's work over the door: each request is answered as by day."""
        server, is_over = self.begin(), threading.Event()

        def client(number: int) -> list[int | None]:
            found: list[int | None] = []
            while not found or not is_over.is_set():
                target = f"/docs/night/{number}-{len(found)}"
                found += [server.request("PUT", target, "by night"), server.request("GET", target)]
            return found

        with concurrent.futures.ThreadPoolExecutor(CLIENTS) as pool:
            asked = [pool.submit(client, number) for number in range(CLIENTS)]
            try:
                night = self.night()
            finally:
                is_over.set()
            found = collections.Counter(status for it in asked for status in it.result())
        self.assertEqual((night.status, night.err), (0, ""))
        self.assertEqual(list(found), [200])
        self.assertGreaterEqual(found[200], 2 * CLIENTS)
        done = json.loads(night.out)["rules"]
        self.assertEqual(done, [{"bucket": "docs", "marked": len(KEYS), "removed": len(KEYS), "lone": 0}])
        server.close()
        self.is_sound(self.place / "records.vault")
