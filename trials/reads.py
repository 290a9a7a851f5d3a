"""Reads: reads of an open vault's file that fail, and what is answered in their place.

A vault keeps 8,000 pages in memory, page N in the place N modulo 8,000, and its opening reads all. So the vaults here
have rows in pages after the 8,000th: as these are read, the first pages are dropped, in which the other tables are, and
what is asked next reads the file. Each read that a line at a server's door needs fails once, and the one by which
`register` begins to walk over what was removed: each is answered `Device`, the next answer is the right one, and the
vault is sound afterwards. All of it needs `strace`.
"""

import contextlib
import functools
import itertools
import json
import shutil
import signal
import sqlite3
import subprocess
import unittest

from trials.parts.calls import injected, needs_strace
from trials.door import Server
from trials.parts.program import Case, Ran, check, printed, shared_folder

# How many pages a vault keeps in memory, the bytes of content that one of them takes, and how many pages the content
# has whose reading drops the first ones.
SLOTS, ROOM, FAR = 8000, 1020, 34
AT, LATER = "2024-01-15T09:00:00Z", "2024-01-15T10:00:00Z"
RIGHTS = ["config", "put", "retain", "hold", "get", "list", "delete", "delete-version", "run", "report"]
# The replies where the device failed, of a run and of all else.
STOPPED = {"stopped": {"changes": 0, "fault": "Device"}}
FAILED = {"error": {"code": "Device", "n": 23}}
# What of a report depends on the clock.
PASSING = ("at", "byte_days")


def line(who, do, **members):
    return {"at": AT, "as": who, "do": do, **members}


MADE = [
    line("registrar", "add-dept", dept="records"),
    line("registrar", "add-dept", dept="court"),
    line("registrar", "add-caller", caller="ann", dept="records", rights=RIGHTS),
    *(line("registrar", "add-bucket", bucket=it, dept="records") for it in ("docs", "far")),
    line("ann", "set-rules", bucket="docs", rules=[{"ID": "r", "Status": "Disabled", "Expiration": {"Days": 9}}]),
    line("ann", "put", bucket="docs", key="a", text="of a"),
    line("ann", "put", bucket="docs", key="a", text="a" * 3000),
    line("ann", "put", bucket="docs", key="b", text="of b"),
    line("ann", "set-hold", bucket="docs", key="b", hold="ON"),
    line("ann", "set-hold", bucket="docs", key="b", hold="OFF"),
    line("ann", "delete-version", bucket="docs", key="b", id=3),
    line("ann", "intake", bucket="docs", batch="b1", line=1, key="c", text="of c"),
    *(line("registrar", "move-bucket", bucket="docs", dept=it) for it in ("court", "records")),
    line("ann", "put", bucket="far", key="far", text="f" * FAR * ROOM),
]
# More than one page of buckets, by the end of which all that went before is past.
BUCKETS = [line("registrar", "add-bucket", bucket=f"b{n}-{'x' * 50}", dept="court") | {"at": LATER} for n in range(40)]
# Its answer reads the pages by which the first ones are dropped.
DROPS = line("ann", "get", bucket="far", key="far")
# What is asked at the door, and is answered alike each time.
ASKED = [
    line("ann", "get", bucket="docs", key="a"),
    line("ann", "get", bucket="docs", key="a", id=1),
    line("ann", "head", bucket="docs", key="c"),
    line("ann", "get-retention", bucket="docs", key="a"),
    line("ann", "get-default", bucket="docs"),
    line("ann", "get-rules", bucket="docs"),
    line("ann", "list-versions", bucket="docs"),
    line("ann", "certificate", bucket="docs", id=3),
    line("ann", "report", dept="records"),
    line("ann", "intake", bucket="docs", batch="b1", line=1, key="c", text="of c"),
    line("ann", "run", bucket="docs"),
    line("registrar", "buckets"),
    line("registrar", "events", before=LATER),
    line("registrar", "register"),
    line("registrar", "lawful"),
]


def text_of(lines):
    """These lines as a script."""
    return "".join(json.dumps(it) + "\n" for it in lines)


def put_far(file, table, where, begin):
    """Puts these rows of a table into pages of the file from this one on, as is done where all pages before it are in
    use; these are free afterwards."""
    with contextlib.closing(sqlite3.connect(file, isolation_level=None)) as base:
        base.execute(f"CREATE TEMP TABLE kept AS SELECT * FROM main.{table} WHERE {where}")
        base.execute(f"DELETE FROM {table} WHERE {where}")
        pages, free = (base.execute(f"PRAGMA {it}").fetchone()[0] for it in ("page_count", "freelist_count"))
        base.execute("CREATE TABLE filler (bytes)")
        base.execute("INSERT INTO filler VALUES (zeroblob(?))", [(begin - 1 - pages + free) * ROOM])
        base.execute(f"INSERT INTO {table} SELECT * FROM kept")
        base.execute("DROP TABLE filler")
        base.execute("PRAGMA wal_checkpoint(TRUNCATE)")


@functools.cache
def made():
    """A vault in which each kind of row is."""
    file = shared_folder() / "reads"
    printed("init", file)
    said = printed("replay", file, given=text_of([*MADE, *BUCKETS]))
    check("error" not in said, said)
    return file


def root_of(file, table):
    """The first page of a table."""
    with contextlib.closing(sqlite3.connect(f"file:{file}?mode=ro", uri=True)) as base:
        return base.execute("SELECT rootpage FROM sqlite_master WHERE name = ?", [table]).fetchone()[0]


def reads_of(folder):
    """How many reads the last trace has."""
    return (folder / "trace").read_text().count("pread64(")


def may_attach():
    """Whether strace may trace a process that it didn't start."""
    if not shutil.which("strace"):
        return False
    with subprocess.Popen(["sleep", "60"]) as other:
        words = ["strace", "-o", "/dev/null", "-p", str(other.pid)]
        with subprocess.Popen(words, stderr=subprocess.PIPE, text=True) as tracer:
            said = tracer.stderr.readline()
            tracer.send_signal(signal.SIGINT)
        other.kill()
    return "attached" in said


class Reads(Case):
    def setUp(self):
        super().setUp()
        self.server = Server(self.folder)
        self.file = self.folder / "records.vault"

    def reply(self, asked):
        """The reply to a line at the door."""
        sent = json.dumps({name: it for name, it in asked.items() if name != "at"})
        found, = self.server.lines(f"{sent}\n".encode())
        reply = json.loads(found)
        for name in PASSING:
            reply.get("ok", {}).pop(name, None)
        return reply

    def reply_where(self, asked, number):
        """The reply to a line where that read of the vault's file fails; and whether there was such a read."""
        trace = self.folder / "trace"
        words = [
            "strace", "-f", "-o", trace, "-p", str(self.server.serving.pid), "-P", self.file, "-P", f"{self.file}-wal",
            "-e", "trace=pread64", "-e", f"inject=pread64:error=EIO:when={number}"]
        with subprocess.Popen(words, stderr=subprocess.PIPE, text=True) as tracer:
            while "attached" not in (said := tracer.stderr.readline()):
                check(said, "strace doesn't trace the server")
            reply = self.reply(asked)
            tracer.send_signal(signal.SIGINT)
        return reply, "(INJECTED)" in trace.read_text()

    def look_at(self, asked):
        """Each read that this line needs fails once; how many these are."""
        right = self.reply(asked)
        self.assertIn("ok", right, asked)
        for number in itertools.count(1):
            self.assertIn("ok", self.reply(DROPS))
            reply, has_failed = self.reply_where(asked, number)
            if not has_failed:
                self.assertEqual(reply, right, f"{asked}, where no read fails")
                return number - 1
            with self.subTest(asked=asked["do"], read=number):
                self.assertIn(reply, (FAILED, STOPPED) if asked["do"] == "run" else (FAILED,))
            self.assertEqual(self.reply(asked), right, f"{asked}, once read {number} has failed")

    @unittest.skipUnless(may_attach(), "there is no strace that may trace what it didn't start")
    def test_door(self):
        """Each read that a line at a server's door needs fails once."""
        shutil.copy(made(), self.file)
        put_far(self.file, "contents", "length(bytes) > 9999", SLOTS - 2)
        self.server.start()
        self.addCleanup(self.server.serving.stderr.close)
        self.addCleanup(self.server.end)
        counts = [(it["do"], self.look_at(it)) for it in ASKED]
        self.assertGreater(min(count for _, count in counts), 2, f"the reads of each line: {counts}")
        failures = self.reply(line("registrar", "status"))["ok"]["failures"]
        self.assertEqual(failures, sum(count for _, count in counts), "the failures that the server reports")
        self.assertEqual(self.reply(line("registrar", "close")), {"ok": {}})
        self.assertEqual(self.server.serving.wait(60), 0)
        self.is_sound(self.file)

    @needs_strace
    def test_register(self):
        """Each read fails once by which the register is printed after the opening, whose last reads are of buckets, in
        the page that has the place of the first page of entries."""
        shutil.copy(made(), self.file)
        put_far(self.file, "buckets", "1", SLOTS + root_of(self.file, "entries") - 1)
        right = self.printed("register", self.file)
        injected(self.folder, [self.file.name], {"pread64": ""}, "verify", str(self.file))
        first = reads_of(self.folder) + 1
        for number in itertools.count(first):
            what = {"pread64": f"error=EIO:when={number}"}
            done, has_failed = injected(self.folder, [self.file.name], what, "register", str(self.file))
            if not has_failed:
                break
            self.assertEqual((done.status, done.err.partition("\n")[0]), (1, "register: Device"), done)
            self.assertTrue(right.startswith(done.out), done)
            self.is_sound(self.file)
        self.assertEqual(done, Ran(0, right, ""), "where no read fails")
        self.assertGreater(number, first, "no read of a register comes after the opening")
