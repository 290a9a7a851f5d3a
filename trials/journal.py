"""Journal: a server that writes a journal, and a second vault that gets its lines.

Each test has a vault, and a copy of it from before its server started. What the server's journal has is carried out over
the copy by `replay`; then both have the same rows in each table and the same seal:

  - after mixed commands at both doors, also refused ones and such that change nothing
  - after a request of each kind that changes a vault
  - while the server goes on, behind `tail -F`; and where the copy's program is killed, by a copy that is made anew
  - after kills of the server: before writes of the journal, when the vault may have one change more, which is the one that
    wasn't answered; and at any moment, when it may also have a part of a lifecycle run
  - by the desk, which sends the copy and the lines to another folder in place of another machine

A lifecycle run that a failing device cuts ends the journal and the server, and so does a journal that can't be written; one
that can't be made is refused, and none stays where nobody can listen.

Forty commands and two kills of each kind are tried; by `--long` a thousand commands and ten kills of each.
"""

import contextlib
import itertools
import json
import os
import pathlib
import random
import shutil
import signal
import socket
import sqlite3
import stat
import subprocess
import time
from typing import Any

from trials.parts.calls import KILLED, needs_strace
from trials.parts.program import DESK, IS_LONG, OPENED_AT, PROGRAM, Case, check, make_office
from trials.parts.servers import LIMIT, BothDoors, free_port

COMMANDS, TIMES = (1_000, 10) if IS_LONG else (40, 2)
END = "# The journal ends here: no line makes the next change again."
RIGHTS = ("config", "put", "retain", "hold", "get", "list", "delete", "delete-version", "run", "report", "bypass")
RULE = {"ID": "old", "Status": "Enabled", "Prefix": "2024/", "Expiration": {"Days": 30}, "NoncurrentVersionExpiration": {"NoncurrentDays": 1}}
OLD = [f"2024/{number:02}" for number in range(12)]
# Commands that change a vault wherever they are done.
CHANGES = ("put", "delete", "delete-version", "set-hold", "set-retention", "set-default", "set-rules", "drop-rules", "move-bucket")
UNTIL, LATER, BYPASS = "2040-01-01T00:00:00Z", "2041-01-01T00:00:00Z", {"x_amz_bypass_governance_retention": "true"}
LOCK = {"x_amz_object_lock_mode": "GOVERNANCE", "x_amz_object_lock_retain_until_date": UNTIL}
BOUNDED = {**RULE, "Prefix": "2023/", "ObjectSizeGreaterThan": 10, "ObjectSizeLessThan": 1_000}
MARKERS = {"ID": "markers", "Status": "Disabled", "Expiration": {"ExpiredObjectDeleteMarker": True}}
# Requests of each kind that changes a vault: method, target, body and headers, and what its line in the journal has beside
# its caller, its moment and its bucket. The first makes the version 25.
REQUESTS: list[tuple[str, str, Any, dict[str, str], dict[str, Any]]] = [
    ("PUT", "/docs/a", "kept", LOCK, {"do": "put", "key": "a", "hex": b"kept".hex(), "mode": "GOVERNANCE", "until": UNTIL}),
    ("PUT", "/docs/a", "held", {"x_amz_object_lock_legal_hold": "ON"}, {"do": "put", "key": "a", "hex": b"held".hex(), "hold": "ON"}),
    ("PUT", "/docs/a?retention", {"mode": "GOVERNANCE", "until": UNTIL}, {},
     {"do": "set-retention", "key": "a", "mode": "GOVERNANCE", "until": UNTIL, "bypass": False}),
    ("PUT", "/docs/a?retention&versionId=25", {"mode": "GOVERNANCE", "until": LATER}, {},
     {"do": "set-retention", "key": "a", "id": 25, "mode": "GOVERNANCE", "until": LATER, "bypass": False}),
    ("PUT", "/docs/a?retention&versionId=25", {"mode": "GOVERNANCE", "until": UNTIL}, BYPASS,
     {"do": "set-retention", "key": "a", "id": 25, "mode": "GOVERNANCE", "until": UNTIL, "bypass": True}),
    ("PUT", "/docs/a?legal-hold", {"hold": "OFF"}, {}, {"do": "set-hold", "key": "a", "hold": "OFF"}),
    ("PUT", "/docs/a?legal-hold&versionId=25", {"hold": "ON"}, {}, {"do": "set-hold", "key": "a", "id": 25, "hold": "ON"}),
    ("PUT", "/docs/a?legal-hold&versionId=25", {"hold": "OFF"}, {}, {"do": "set-hold", "key": "a", "id": 25, "hold": "OFF"}),
    ("DELETE", "/docs/a", None, {}, {"do": "delete", "key": "a"}),
    ("DELETE", "/docs/a?versionId=27", None, {}, {"do": "delete-version", "key": "a", "id": 27, "bypass": False}),
    ("DELETE", "/docs/a?versionId=25", None, BYPASS, {"do": "delete-version", "key": "a", "id": 25, "bypass": True}),
    ("PUT", "/docs?object-lock", {"mode": "GOVERNANCE", "days": 3}, {}, {"do": "set-default", "mode": "GOVERNANCE", "days": 3}),
    ("PUT", "/docs?object-lock", {"mode": "COMPLIANCE", "years": 1}, {}, {"do": "set-default", "mode": "COMPLIANCE", "years": 1}),
    ("PUT", "/docs?object-lock", {}, {}, {"do": "set-default"}),
    ("PUT", "/docs?lifecycle", {"rules": [BOUNDED, MARKERS]}, {}, {"do": "set-rules", "rules": [BOUNDED, {**MARKERS, "Prefix": ""}]}),
    ("DELETE", "/docs?lifecycle", None, {}, {"do": "drop-rules"}),
]


class Server(BothDoors):
    """A server of the vault in a folder, with both doors and a journal; `front` are words before its own."""

    def __init__(self, folder: pathlib.Path, journal: pathlib.Path, *front: object) -> None:
        self.journal = journal
        super().__init__(folder / "records.vault", folder / "lines", "--journal", journal, front=front)


class Work:
    """Mixed commands at both doors, drawn by a number: what each is, and whether it was answered."""

    def __init__(self, server: Server, number: int) -> None:
        self.server, self.draw, self.ids, self.callers = server, random.Random(number), 2 * len(OLD), 0

    def line(self) -> dict[str, Any]:
        """A line. Some are refused, and some change nothing."""
        key, version = f"k/{self.draw.randrange(8)}", self.draw.randint(1, self.ids + 2)
        self.callers += 1
        at = {"bucket": "docs", "key": key}
        return self.draw.choice([
            {"do": "put", **at, "text": f"content {self.callers}"}, {"do": "put", **at, "hex": self.draw.randbytes(300).hex()},
            {"do": "put", **at, "text": "held", "hold": "ON"},
            {"do": "put", **at, "text": "kept", "mode": "GOVERNANCE", "until": "2040-01-01T00:00:00Z"},
            {"do": "put", "bucket": "none", "key": key, "text": "refused"},
            {"do": "get", **at}, {"do": "list-versions", "bucket": "docs", "prefix": "", "most": 100},
            {"do": "delete", **at}, {"do": "delete-version", "bucket": "docs", "key": key, "id": version},
            {"do": "delete-version", "bucket": "docs", "key": key, "id": version, "bypass": True},
            {"do": "set-hold", "bucket": "docs", "key": key, "id": version, "hold": self.draw.choice(["ON", "OFF"])},
            {"do": "set-default", "bucket": "docs", "mode": "GOVERNANCE", "days": self.draw.randint(1, 9)},
            {"do": "set-rules", "bucket": "docs", "rules": [RULE]}, {"do": "run", "bucket": "docs"},
            {"do": "add-caller", "as": "registrar", "caller": f"c{self.callers}", "dept": "records", "rights": ["get"]},
            {"do": "add-dept", "as": "registrar", "dept": f"d{self.callers % 5}"},
            {"do": "intake", "bucket": "docs", "batch": f"b{self.callers % 3}", "line": 2, "key": key, "text": "intake"},
            {"do": "report", "dept": "records"},
        ])

    def next(self) -> tuple[dict[str, Any], Any]:
        """Gives the next command: its line, and the answer; of a request the line that asks for the same."""
        if self.draw.random() < 0.3:
            key, text = f"r/{self.draw.randrange(8)}", f"request {self.draw.random()}"
            status = self.server.request("PUT", f"/docs/{key}", text)
            check(status in (None, 200), f"a request to put is answered {status}")
            self.ids += status == 200
            return {"do": "put", "bucket": "docs", "key": key, "text": text}, status
        line = self.line()
        reply = self.server.ask(**{"who" if name == "as" else name: value for name, value in line.items()})
        self.ids += reply is not None and "version_id" in reply.get("ok", {})
        return line, reply


def rows(file: pathlib.Path) -> dict[str, list[Any]]:
    """The rows of each table of a vault that no program has open."""
    with contextlib.closing(sqlite3.connect(file)) as base:
        names = [name for name, in base.execute("SELECT name FROM sqlite_schema WHERE type = 'table' ORDER BY name")]
        return {name: sorted(map(repr, base.execute(f"SELECT * FROM {name}"))) for name in names}


class Both(Case):
    """A vault with documents of 2024 that a rule removes, and a copy of it."""

    def setUp(self) -> None:
        super().setUp()
        self.made = self.folder / "made"
        self.made.mkdir()
        file = self.made / "records.vault"
        make_office(file, *RIGHTS, at=["--at", OPENED_AT])
        lines = [{"do": "set-rules", "bucket": "docs", "rules": [RULE]}]
        lines += [{"do": "put", "bucket": "docs", "key": key, "text": f"{key} {it}"} for it in "ab" for key in OLD]
        script = "".join(json.dumps({"at": OPENED_AT, "as": "ann", **it}) + "\n" for it in lines)
        replies = self.printed("replay", file, given=script).splitlines()
        self.assertEqual([it for it in replies if not it.startswith('{"ok"')], [])

    def placed(self, name: str) -> pathlib.Path:
        """The vault as it was made, in a new folder of that name."""
        shutil.rmtree(self.folder / name, ignore_errors=True)
        shutil.copytree(self.made, self.folder / name)
        return self.folder / name / "records.vault"

    def serve(self, *front: object) -> Server:
        """A server of the vault as it was made, with a new journal."""
        self.file = self.placed("first")
        server = Server(self.file.parent, self.file.parent / "journal", *front)
        self.addCleanup(server.stop)
        return server

    def carried_out(self, journal: pathlib.Path) -> pathlib.Path:
        """A copy over which the journal's lines were carried out, each of them with a reply that says so."""
        copy = self.placed("second")
        with journal.open("rb") as file:
            replies = self.printed("replay", copy, given=file).splitlines()
        self.assertEqual([it for it in replies if not it.startswith('{"ok"')], [])
        return copy

    def are_equal(self, copy: pathlib.Path) -> None:
        """Fails unless both have the same tables and the same seal, and are sound."""
        for it in (self.file, copy):
            self.is_sound(it)
        self.assertEqual(rows(self.file), rows(copy))
        self.assertEqual(self.printed("seal", self.file), self.printed("seal", copy))
        self.assertEqual(self.printed("events", self.file), self.printed("events", copy))

    def are_equal_but_for(self, copy: pathlib.Path, line: dict[str, Any]) -> None:
        """The same, or the vault has the change of this line more; of a lifecycle run a part, which the same run at its
        reading completes."""
        self.is_sound(self.file)
        if rows(self.file) != rows(copy):
            with contextlib.closing(sqlite3.connect(self.file)) as base:
                [(last,)] = base.execute("SELECT last FROM meta")
            at = time.strftime("%Y-%m-%dT%H:%M:%SZ", time.gmtime(last))
            given = json.dumps({"at": at, "as": "ann", **line}) + "\n"
            for it in (copy, self.file) if line["do"] == "run" else (copy,):
                self.printed("replay", it, given=given)
        self.are_equal(copy)

    def says(self, server: Server, *wanted: str) -> None:
        """Fails unless the server ended with status 1, and said that after it listened, each on a line's beginning."""
        self.assertEqual(server.ended(), 1)
        said = server.said.read_text().splitlines()[1:]
        self.assertEqual([any(it.startswith(text) for it in said) for text in wanted], [True] * len(wanted), said)


class Commands(Both):
    def test_mixed(self) -> None:
        """What changed the vault is in the journal, at both doors, and nothing else; the copy gets it meanwhile."""
        server = self.serve()
        copy = self.placed("following")
        tail = subprocess.Popen(["tail", "-n", "+1", "-F", server.journal], stdout=subprocess.PIPE, stderr=subprocess.DEVNULL)
        with (self.folder / "replies").open("wb") as replies:
            there = subprocess.Popen([PROGRAM, "replay", copy], stdin=tail.stdout, stdout=replies, stderr=subprocess.DEVNULL)
        work, changes = Work(server, 1), 0
        for number in range(COMMANDS):
            before = server.journal.stat().st_size
            line, answer = work.next()
            self.assertIsNotNone(answer, line)
            is_noted = server.journal.stat().st_size > before
            is_done = answer == 200 or "ok" in answer
            self.assertTrue(is_done or not is_noted, (line, answer))
            if line["do"] in ("get", "list-versions", "report"):
                self.assertFalse(is_noted, line)
            if line["do"] in CHANGES:
                self.assertEqual(is_noted, is_done, (line, answer))
            changes += is_noted
        server.close()
        lines = server.journal.read_text().splitlines()
        self.assertEqual(len(lines), changes)
        end = time.monotonic() + LIMIT
        while (self.folder / "replies").read_bytes().count(b"\n") < len(lines) and time.monotonic() < end:
            time.sleep(0.05)
        tail.kill()
        tail.wait()
        self.assertEqual(there.wait(LIMIT), 0)
        self.are_equal(copy)
        self.are_equal(self.carried_out(server.journal))
        self.assertEqual(stat.S_IMODE(server.journal.stat().st_mode), 0o600)

    def test_each_request(self) -> None:
        """Each kind of request that changes the vault has a line in the journal, which asks for the same."""
        server = self.serve()
        for method, target, body, headers, line in REQUESTS:
            content = json.dumps(body) if isinstance(body, dict) else body
            status = server.request(method, target, content, **headers)
            self.assertEqual(status, 200 if method == "PUT" else 204, (method, target))
            found = json.loads(server.journal.read_text().splitlines()[-1])
            del found["at"]
            self.assertEqual(found, {"as": "ann", "bucket": "docs", **line}, (method, target))
        server.close()
        self.are_equal(self.carried_out(server.journal))

    def test_the_copy_is_killed(self) -> None:
        """Where the program of the copy is killed, a copy that is made anew gets all lines once more."""
        server = self.serve()
        work = Work(server, 2)
        for number in range(TIMES):
            copy = self.placed("following")
            with server.journal.open("rb") as journal:
                there = subprocess.Popen([PROGRAM, "replay", copy], stdin=journal, stdout=subprocess.DEVNULL, stderr=subprocess.DEVNULL)
                for _ in range(5):
                    work.next()
                time.sleep(random.Random(number).random() / 5)
                there.kill()
                there.wait()
            self.is_sound(copy)
        server.close()
        self.are_equal(self.carried_out(server.journal))

    def test_the_server_is_killed(self) -> None:
        """Where the server is killed at any moment, the copy has each change that was answered, and lacks at most those of
        the command that was under way."""
        for number in range(TIMES):
            with self.subTest(number):
                server = self.serve()
                killing = subprocess.Popen(["sh", "-c", f"sleep {0.05 + 0.1 * number}; kill -9 {server.process.pid}"])
                work = Work(server, number)
                line, answer = work.next()
                while answer is not None:
                    line, answer = work.next()
                killing.wait()
                self.assertEqual(server.ended(), -signal.SIGKILL)
                self.are_equal_but_for(self.carried_out(server.journal), line)


@needs_strace
class Calls(Both):
    def traced(self, what: str, path: str, *more: object) -> list[object]:
        """Words before the program's own, by which that happens to calls on the file of that name."""
        return ["strace", "-qq", "-o", self.folder / "trace", "-P", self.folder / "first" / path, "-e", what, *more]

    def test_kills_before_the_journal(self) -> None:
        """A kill between a change and its line: the vault has that one more, which wasn't answered, at either door."""
        for number, by_line in itertools.product(range(1, TIMES + 1), (True, False)):
            with self.subTest(number, by_line=by_line):
                server = self.serve(*self.traced("trace=write", "journal", "-e", f"inject=write:signal=KILL:when={number}"))
                for count in range(1, number + 1):
                    line = {"do": "put", "bucket": "docs", "key": f"n/{count}", "text": "hello"}
                    answer = server.ask(**line) if by_line else server.request("PUT", f"/docs/n/{count}", "hello")
                    self.assertEqual(answer is None, count == number)
                self.assertIn(server.ended(), KILLED)
                copy = self.carried_out(server.journal)
                self.is_sound(self.file)
                self.assertNotEqual(rows(self.file), rows(copy))
                self.are_equal_but_for(copy, line)

    def test_a_full_disk_under_the_journal(self) -> None:
        """A journal that can't be written ends the server: the change is in the vault and answered, and not in the journal."""
        server = self.serve(*self.traced("trace=write", "journal", "-e", "inject=write:error=ENOSPC:when=2"))
        line = {"do": "put", "bucket": "docs", "key": "b", "text": "hello"}
        self.assertEqual(server.ask("put", bucket="docs", key="a", text="hello"), {"ok": {"version_id": 2 * len(OLD) + 1}})
        self.assertEqual(server.ask(**line), {"ok": {"version_id": 2 * len(OLD) + 2}})
        self.says(server, "--journal: it can't be written", "serve: Write")
        copy = self.carried_out(server.journal)
        self.assertNotEqual(rows(self.file), rows(copy))
        self.are_equal_but_for(copy, line)

    def test_a_run_that_is_cut(self) -> None:
        """A run that a failing device stops ends the journal by its last line, which `replay` refuses."""
        trace = self.folder / "trace"
        whole = self.serve(*self.traced("trace=fdatasync", "records.vault-wal"))
        before = trace.read_text().count("fdatasync(")
        self.assertIn("ok", whole.ask("run", bucket="docs"))
        after = trace.read_text().count("fdatasync(")
        self.assertGreater(after, before + 4)
        whole.close()
        self.are_equal(self.carried_out(whole.journal))
        failing = f"inject=fdatasync:error=EIO:when={(before + after) // 2}+"
        cut = self.serve(*self.traced("trace=fdatasync", "records.vault-wal", "-e", failing))
        self.assertEqual(cut.ask("put", bucket="docs", key="a", text="hello"), {"ok": {"version_id": 2 * len(OLD) + 1}})
        stopped = cut.ask("run", bucket="docs")["stopped"]
        self.assertEqual((stopped["fault"], stopped["changes"] > 0), ("Device", True), stopped)
        self.says(cut, "--journal: it has ended", "serve: Write")
        lines = cut.journal.read_text().splitlines()
        self.assertEqual((len(lines), lines[-1]), (2, END))
        copy = self.placed("second")
        with cut.journal.open("rb") as file:
            replies = self.printed("replay", copy, given=file).splitlines()
        self.assertEqual([it.split(":")[0] for it in replies], ['{"ok"', '{"error"'])
        self.is_sound(self.file)


class Made(Both):
    def refused(self, path: pathlib.Path | str, port: int | None = None) -> str:
        """What a server says that can't begin: nothing is served, and the status is 1."""
        done = self.ran("serve", self.made / "records.vault", port or free_port(), "--journal", path)
        self.assertEqual((done.status, done.out, "serve: Device\n" in done.err), (1, "", True), done)
        return done.err

    def test_where_none_can_be_made(self) -> None:
        there = self.folder / "there"
        there.write_text("a line\n")
        self.assertTrue(self.refused(there).startswith("--journal: something is at that path"))
        self.assertEqual(there.read_text(), "a line\n")
        self.assertTrue(self.refused(self.folder / "none" / "journal").startswith("--journal: the folder of that path isn't there"))
        self.assertTrue(self.refused(there / "journal").startswith("--journal: the folder of that path isn't there"))
        self.assertTrue(self.refused("x" * 300).startswith("--journal: no file can be made there"))

    def test_where_nobody_can_listen(self) -> None:
        with socket.create_server(("127.0.0.1", 0)) as other:
            self.assertTrue(self.refused(self.folder / "journal", other.getsockname()[1]).startswith("serve: Device\n"))
        self.assertFalse((self.folder / "journal").exists())

    def test_it_isnt_gone_on_with(self) -> None:
        server = self.serve()
        server.ask("put", bucket="docs", key="a", text="hello")
        server.stop()
        self.assertTrue(self.refused(server.journal).startswith("--journal: something is at that path"))
        self.assertEqual(len(server.journal.read_text().splitlines()), 1)


class Followed(Both):
    def test_by_the_desk(self) -> None:
        """The desk sends the copy and the changes, and after a kill of the server the next copy and journal."""
        first, other, programs = self.folder / "first", self.folder / "other", self.folder / "bin"
        programs.mkdir()
        other.mkdir()
        for name, text in (("ssh", 'shift; VAULT_FOLDER="$OTHER" exec sh -c "$*"'), ("vaultdesk", f'exec {DESK} "$@"')):
            (programs / name).write_text(f"#!/bin/sh\n{text}\n")
            (programs / name).chmod(0o755)
        env = {
            **os.environ, "PATH": f"{programs}:{os.environ['PATH']}", "OTHER": str(other), "VAULT_SSH": "ssh", "VAULTCTL": str(PROGRAM),
            **{it: str(first) for it in ("VAULT_CONF", "VAULT_FOLDER", "VAULT_LOCKS")},
        }
        self.file = self.placed("first")
        (first / "records.conf").write_text("PORT=8080\nSTANDBY=other\n")
        copy = other / "records.standby" / "now" / "records.vault"

        def desk(*words: str) -> str:
            done = subprocess.run([DESK, "standby", *words, "records", "--json"], env=env, capture_output=True, text=True)
            return done.stdout

        with contextlib.ExitStack() as after:
            following = None
            for number in range(2):
                journal = pathlib.Path(json.loads(desk("begin"))["journal"])
                server = Server(first, journal)
                after.callback(server.stop)
                if following is None:
                    following = subprocess.Popen([DESK, "standby", "follow", "records"], env=env, stderr=subprocess.DEVNULL)
                    after.callback(following.wait)
                    after.callback(following.kill)
                work = Work(server, number)
                for _ in range(COMMANDS // 4):
                    self.assertIsNotNone(work.next()[1])
                end = time.monotonic() + LIMIT
                while (it := json.loads(desk("lag")) or [{}])[0].get("carried out") != len(journal.read_text().splitlines()):
                    check(time.monotonic() < end and following.poll() is None, f"it doesn't follow: {it}")
                    time.sleep(0.1)
                server.stop()
            self.assertEqual(json.loads(desk("lag"))[0]["to come"], 0)
            assert following
            following.kill()
            following.wait()
        self.is_sound(self.file)
        end = time.monotonic() + LIMIT
        while self.ran("verify", copy).out != "sound\n":
            check(time.monotonic() < end, "the copy stays open")
        self.are_equal(copy)
