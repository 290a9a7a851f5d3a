"""Migrate: copies of the vaults of earlier versions in new files.

The vaults of `examples/earlier` are made by Python's sqlite3 from the statements there. For each of them: its copy is
sound, has the rows of a vault to which this program came through the same day, with a tenure for each version, and says
byte for byte what the earlier program said, but that reports have what was received and handed over, which is nothing;
so is that of tables of some thousand rows. Then what is refused: damaged tables, each by its name, one file for both,
files that are there or that another program has, two of these at once, a device with too little room, output that
can't be written, a kill at any moment; and where there is `strace`, a kill before each call that changes a file of
the copy, a failure of each read of the earlier file, of reads of one that doesn't fit into memory, and of each call
by which the files of a copy are looked at, opened, read or kept, and a kill before each removal of what was begun on
a device that fails. The earlier file and its log keep each byte, no file is left of a copy that was refused, none that was
there before is removed or changed, and the same words given again make it. The commands of `docs/UPGRADING.md` are
tried too.
"""

import contextlib
import itertools
import json
import re
import shutil
import signal
import sqlite3
import stat
import subprocess
import time

from trials.parts.calls import KILLED, LOOKING, injected, kills, needs_strace
from trials.pages import printed_as_shown
from trials.parts.program import EXAMPLES, PROGRAM, Case, Ran, check

EARLIER = EXAMPLES / "earlier"
# The number of the schema in each of them, and the ids that its intake got.
VAULTS = {"schema1": (1, (10, 11)), "schema2": (2, (11, 12))}
LATER = ["--at", "2024-03-05T00:00:00Z"]
EARLIER_TABLES = "meta departments callers buckets rules entries contents settings intake heads".split()
TABLES = [*EARLIER_TABLES, "tenures"]
HELD = (
    "migrate: Device\nanother program has the vault's file open, if only to read: end it, or wait, and give the command"
    " again"
)
NEW_HELD = "migrate: Device\nanother program has the file for the copy open: end it, or give another path"
ONE_FILE = "migrate: Device\nboth paths lead to one file: give another path for the copy"
TAKEN = "migrate: NameTaken\nsomething is in that file, and was left as it is: give another path"
DAMAGED = "the file is damaged: put the last sound backup back"
NO_FILE = "migrate: Damaged meta\nno file is there: check the path, or make a vault by init"
EMPTY = "migrate: Damaged meta\nthe file is empty: check the path, or make a vault by init"
NEWEST = "migrate: Damaged meta\nthe tables are of this version, so there is nothing to copy: check the file by verify"
NO_FOLDER = "migrate: Device\nthe folder of the file isn't there: check the path, or make the folder"
FOLDER = "migrate: Device\na folder is there: give the path of a file"
EARLIER_WORDS = "the vault is of an earlier version: copy it into another file by migrate\n"
UNWRITTEN = (
    "the answer can't be written, as to a full disk or a closed pipe: what was asked may have been done, so look before"
    " you give it again"
)
DAMAGES = {
    "meta": "UPDATE meta SET next = next + 1",
    "departments": "UPDATE departments SET held = held + 1 WHERE name = 'court'",
    "callers": "UPDATE callers SET rights = 4096 WHERE name = 'ann'",
    "buckets": "UPDATE buckets SET mode = 3 WHERE name = 'docs'",
    "rules": "UPDATE rules SET n = 3 WHERE id = 'off'",
    "entries": "UPDATE entries SET removed = admitted - 1, cause = 0, cause_by = 'ann' WHERE id = 8",
    "contents": "UPDATE contents SET bytes = X'7365636f6e65' WHERE id = 8",
    "settings": "UPDATE settings SET n = 4 WHERE id = 2 AND n = 3",
    "intake": "UPDATE intake SET size = 2 WHERE line = 1",
    "heads": "UPDATE heads SET count = count + 1 WHERE key = 'law'",
}
# The number of callers more, and of delete markers, each the only entry of its key: without tenures, and in no sum.
MORE = 3000
# The same with long keys, which take more pages of the least size than the program keeps in memory.
LARGE, KEY_DIGITS, LEAST_PAGE, PAGES_IN_MEMORY = 350, 1_000, 512, 2_000
# How many reads of such a file fail, one in each copy.
LATE_READS = 12


def many(more, digits=5):
    """The statements that make n rows more, with keys of a letter and some digits."""
    return f"""
WITH RECURSIVE n(i) AS (SELECT 1 UNION ALL SELECT i + 1 FROM n WHERE i < {more})
INSERT INTO callers SELECT printf('c%05d', i), NULL, 0, 0 FROM n;
WITH RECURSIVE n(i) AS (SELECT 0 UNION ALL SELECT i + 1 FROM n WHERE i < {more} - 1)
INSERT INTO entries
SELECT next + i, 'docs', printf('m%0{digits}d', i), 1, 0, NULL, last, 0, 'ann', NULL, NULL, NULL FROM n, meta;
INSERT INTO heads SELECT bucket, key, id, 1 FROM entries, meta WHERE id >= next;
UPDATE meta SET next = next + {more};
"""


def limited(size):
    """Words in front of a program for which a file ends at that many blocks of 512 bytes, as on a full device."""
    return ["sh", "-c", f'trap "" XFSZ; ulimit -f {size}; exec "$@"', "sh"]


def exchanged(report):
    """The text of a report with the two lines that came to it: nothing was received or handed over."""
    lines = report.splitlines(keepends=True)
    return "".join([*lines[:3], f"{'received':12}{0:20}\n", *lines[3:5], f"{'handed':12}{0:20}\n", *lines[5:]])


def exchanged_reply(line):
    """The same of a reply to a line of a script, where it is a report."""
    done = json.loads(line).get("ok", {})
    if "byte_days" not in done:
        return line
    return json.dumps({"ok": {**done, "received": 0, "handed": 0}}, separators=(",", ":"), sort_keys=True) + "\n"


def rows_of(file):
    """The rows of each table, in one order, as stock SQLite has them."""
    with contextlib.closing(sqlite3.connect(f"file:{file}?mode=ro", uri=True)) as base:
        check(base.execute("PRAGMA integrity_check").fetchall() == [("ok",)], f"{file} isn't sound")
        check(base.execute("PRAGMA foreign_key_check").fetchall() == [], f"{file}: a row names one that isn't there")
    return {it: all_of(file, it) for it in TABLES}


def all_of(file, table):
    """The rows of that table, in one order."""
    with contextlib.closing(sqlite3.connect(f"file:{file}?mode=ro", uri=True)) as base:
        return sorted(base.execute(f"SELECT * FROM {table}"), key=repr)


def look_at_tenures(file):
    """Each version has one tenure, of its bucket's department from its admission, and nothing was moved."""
    with contextlib.closing(sqlite3.connect(f"file:{file}?mode=ro", uri=True)) as base:
        wanted = (
            "SELECT entries.id, 0, dept, admitted FROM entries JOIN buckets ON name = bucket"
            " WHERE NOT marker ORDER BY 1"
        )
        found = base.execute("SELECT id, n, dept, moment FROM tenures ORDER BY id, n").fetchall()
        check(found and found == base.execute(wanted).fetchall(), f"the tenures are {found}")
        schema, moves = base.execute("SELECT schema, moves FROM meta").fetchone()
        check((schema, moves) == (3, 0), f"meta has schema {schema} and {moves} moves")
        moved = base.execute("SELECT name FROM departments WHERE received <> 0 OR handed <> 0").fetchall()
        check(moved == [], f"something came to {moved}, or went from there")


class Copies:
    """The trials of one earlier vault, which is `old` in the folder of each."""

    vault = ""

    def setUp(self):
        super().setUp()
        self.earlier, (self.schema, self.ids) = EARLIER / self.vault, VAULTS[self.vault]
        self.make("old")
        self.bytes = self.read("old")

    def statements(self):
        """Those that make the earlier vault."""
        return f"BEGIN;\n{self.said('rows.sql')}\nCOMMIT;"

    def said(self, name):
        """What is in this file beside those."""
        return (self.earlier / name).read_text()

    def make(self, name, *changes):
        """Makes the earlier vault from its statements, and these changes of one row each."""
        (self.folder / name).unlink(missing_ok=True)
        with contextlib.closing(sqlite3.connect(self.folder / name)) as base:
            base.executescript(self.statements())
            for change in changes:
                check(base.execute(change).rowcount == 1, f"{change} doesn't change one row")
            base.commit()

    def read(self, name):
        return (self.folder / name).read_bytes()

    def answers(self, words, wanted, **how):
        status, printed, said = self.ran(*words, **how)
        # Of each line that is refused a script says why.
        rest = [it for it in said.splitlines() if words[0] != "replay" or not re.match("line [0-9]+: ", it)]
        self.assertEqual((status, printed, rest), (0, wanted, []), words)

    def refuses(self, words, wanted, **how):
        self.assertEqual(self.ran(*words, **how), Ran(1, "", wanted + "\n"), words)

    def has(self, name):
        return (self.folder / name).exists()

    def remove(self, name="new"):
        for it in (name, f"{name}-wal"):
            (self.folder / it).unlink(missing_ok=True)

    def keeps_old(self, what):
        self.assertEqual(self.read("old"), self.bytes, f"{what}: the earlier file was changed")

    def refuses_copy(self, wanted, what, **how):
        """A copy of `old` into `new`, where no file is, is refused, and no file is there afterwards."""
        self.refuses(["migrate", "old", "new"], wanted, **how)
        self.assertFalse(self.has("new") or self.has("new-wal"), f"{what}: a file is left of the copy")

    def makes_copy(self, name="new"):
        """A copy of `old` is made, is that vault, and is removed again."""
        self.answers(["migrate", "old", name], "migrated\n")
        self.says_the_same(name)
        self.remove(name)

    def says_the_same(self, name):
        """The vault is sound, and each read has the bytes that the earlier program printed, but for the two sums."""
        self.answers(["verify", name], "sound\n")
        replies = "".join(map(exchanged_reply, self.said("reads.out").splitlines(keepends=True)))
        self.answers(["replay", name], replies, given=self.said("reads.jsonl"))
        self.answers(["register", name], self.said("register.csv"))
        for dept in ("records", "court"):
            report = exchanged(self.said(f"report-{dept}.txt"))
            self.answers(["report", name, dept, "--as", "registrar", *LATER], report)
        self.answers(["certificate", name, "docs", "1", "--as", "ann", *LATER], self.said("certificate-1.txt"))

    def test_copy(self):
        """The copy is the earlier vault, and goes on as a vault of this program."""
        self.assertEqual(self.ran("verify", "old"), Ran(1, "damaged meta\n", EARLIER_WORDS))
        self.answers(["migrate", "old", "new"], "migrated\n")
        self.keeps_old("a copy")
        modes = [stat.S_IMODE((self.folder / name).stat().st_mode) for name in ("new", "new-wal")]
        self.assertEqual(modes, [0o600, 0o600], "the modes of the copy and its log")
        self.assertEqual(self.read("new")[16:18], (1024).to_bytes(2, "big"), "the bytes of a page of the copy")
        self.says_the_same("new")
        look_at_tenures(self.folder / "new")
        shutil.copy(self.earlier / "list.csv", self.folder)
        for name, text in (("a.txt", "A"), ("b.txt", "B")):
            (self.folder / name).write_text(text)
        intake = ["docs", "b1", "list.csv", ".", "--as", "ann", "--at", "2024-03-03T12:00:00Z"]
        # The same day in a new vault of this program.
        self.answers(["init", "same"], "")
        done = self.ran("replay", "same", given=self.said("day.jsonl"))
        is_done = (done.status, done.err) == (0, "") and '"error"' not in done.out
        self.assertTrue(is_done, f"the day isn't carried out: {done}")
        self.answers(["intake", "same", *intake], "".join(f"{n} admitted {id}\n" for n, id in enumerate(self.ids, 1)))
        self.says_the_same("same")
        self.assertEqual(rows_of(self.folder / "new"), rows_of(self.folder / "same"))
        # The copy has the notes of the intake too.
        self.answers(["intake", "new", *intake], "".join(f"{n} again {id}\n" for n, id in enumerate(self.ids, 1)))

    def test_log(self):
        """What is in the log beside the earlier file is copied too, and stays there."""
        with contextlib.closing(sqlite3.connect(self.folder / "live")) as base:
            base.execute("PRAGMA journal_mode = WAL")
            base.execute("PRAGMA wal_autocheckpoint = 0")
            base.executescript(self.statements())
            for end in ("", "-wal"):
                shutil.copy(self.folder / f"live{end}", self.folder / f"logged{end}")
        log = self.read("logged-wal")
        self.assertGreater(len(log), 4096, "the log is empty")
        self.refuses(["migrate", "logged", "old"], TAKEN)
        self.assertEqual(self.read("logged-wal"), log, "the log was changed by a copy that was refused")
        for name in ("new", "again"):
            self.answers(["migrate", "logged", name], "migrated\n")
            self.says_the_same(name)
        self.assertEqual(self.read("logged-wal")[:len(log)], log, "the log was changed")

    def test_many(self):
        """Each row of a table is copied, also of one of some thousand rows."""
        self.make("many")
        with contextlib.closing(sqlite3.connect(self.folder / "many")) as base:
            base.executescript(many(MORE))
        self.answers(["migrate", "many", "new"], "migrated\n")
        self.answers(["verify", "new"], "sound\n")
        look_at_tenures(self.folder / "new")
        for table in ("callers", "entries", "heads"):
            old, new = (all_of(self.folder / name, table) for name in ("many", "new"))
            self.assertGreater(len(old), MORE, table)
            self.assertTrue(old == new, f"{table} has other rows than those that were copied")

    def test_damages(self):
        """A damage of each table is reported by its name."""
        for table in EARLIER_TABLES:
            self.make("old", DAMAGES[table])
            self.bytes = self.read("old")
            self.refuses_copy(f"migrate: Damaged {table}\n{DAMAGED}", table)
            self.keeps_old(table)
        self.make("old")
        self.makes_copy()

    def test_names(self):
        """Files that aren't there, that are there, that are one."""
        self.refuses(["migrate", "none", "new"], NO_FILE)
        (self.folder / "empty").touch()
        self.refuses(["migrate", "empty", "new"], EMPTY)
        is_left = self.read("empty") == b"" and not self.has("none") and not self.has("new")
        self.assertTrue(is_left, "a file was made or written")
        self.refuses(["migrate", "old", "old"], ONE_FILE)
        self.keeps_old("one file for both")
        (self.folder / "link").symlink_to("old")
        self.refuses(["migrate", "old", "link"], ONE_FILE)
        self.keeps_old("a link to itself")
        (self.folder / "text").write_text("notes of the office, which are no vault\n" * 9)
        self.answers(["init", "vault"], "")
        for name in ("text", "vault"):
            before = self.read(name)
            self.refuses(["migrate", "old", name], TAKEN)
            self.assertEqual(self.read(name), before, f"{name} was changed")
            self.keeps_old(name)
        self.answers(["verify", "vault"], "sound\n")
        self.refuses(["migrate", "vault", "new"], NEWEST)
        self.refuses(["migrate", "old", "none/new"], NO_FOLDER)
        self.refuses(["migrate", "old", "."], FOLDER)
        self.assertFalse(self.has("new"), "a file is left of a copy that was refused")
        self.makes_copy("empty")

    def changes(self, name, statement):
        """Another program changes rows of that file."""
        with contextlib.closing(sqlite3.connect(self.folder / name)) as base:
            check(base.execute(statement).rowcount > 0, f"{statement} changes no row")
            base.commit()

    def test_external(self):
        """By --external a copy registers contents that are kept outside; so is a vault copied that this program made without it."""
        self.answers(["migrate", "old", "third"], "migrated\n")
        for old, new in (("old", "new"), ("third", "fourth")):
            self.answers(["migrate", old, new, "--external"], "migrated\n")
            self.says_the_same(new)
            [(one, schema, _, _, moves, place, done)] = all_of(self.folder / new, "meta")
            self.assertEqual((one, schema, moves, place, done), (1, 4, 0, 0, 1), new)
            self.assertEqual(all_of(self.folder / new, "external"), [], new)
        self.keeps_old("a copy")
        for words in (["third", "again"], ["new", "again"], ["new", "again", "--external"]):
            self.refuses(["migrate", *words], NEWEST)
        for statement, table in (("DELETE FROM heads", "heads"), ("UPDATE meta SET schema = 9", "meta")):
            self.changes("third", statement)
            self.refuses(["migrate", "third", "again", "--external"], f"migrate: Damaged {table}\n{DAMAGED}")
        self.assertFalse(self.has("again"), "a file is left of a copy that was refused")

    def test_order(self):
        """Of two faults that one is reported which docs/formats/PROGRAM.md names first."""
        self.answers(["init", "vault"], "")
        (self.folder / "text").write_text("notes of the office, which are no vault\n" * 9)
        self.make("damaged", DAMAGES["heads"])
        names = ("vault", "text", "damaged", "old")
        before = {name: self.read(name) for name in names}
        found = (
            ("none", "text", TAKEN),
            ("none", "none/new", NO_FILE),
            ("none", "vault", NO_FILE),
            ("damaged", "none/new", NO_FOLDER),
            ("damaged", "vault", f"migrate: Damaged heads\n{DAMAGED}"),
        )
        for old, new, wanted in found:
            self.refuses(["migrate", old, new], wanted)
        self.assertEqual({name: self.read(name) for name in names}, before, "a file was changed")

    def test_begun(self):
        """Of a file that was there as a copy is refused, nothing is removed, and no table comes into it."""
        self.answers(["init", "vault"], "")
        # the first page of a vault, without the others
        (self.folder / "spoilt").write_bytes(self.read("vault")[:1024])
        with contextlib.closing(sqlite3.connect(self.folder / "blank")) as base:
            base.execute("VACUUM")
        before = {name: self.read(name) for name in ("spoilt", "blank")}
        self.assertEqual(sorted(map(len, before.values())), [1024, 4096], "a file isn't of one page")
        (self.folder / "empty").touch()
        self.refuses(["migrate", "old", "spoilt"], TAKEN)
        self.make("old", DAMAGES["heads"])
        for name in ("blank", "empty"):
            self.refuses(["migrate", "old", name], f"migrate: Damaged heads\n{DAMAGED}")
            is_alone = self.has(name) and not self.has(f"{name}-wal")
            self.assertTrue(is_alone, f"{name} was removed, or a log is left beside it")
        for name, page in {**before, "empty": b""}.items():
            self.assertTrue(self.has(name) and self.read(name) == page, f"{name} was changed or removed")
        self.make("old")
        for name in ("blank", "empty"):
            self.makes_copy(name)

    def test_others(self):
        """Files that another program has."""
        for begun in ("BEGIN EXCLUSIVE", "BEGIN; SELECT one FROM meta"):
            with contextlib.closing(sqlite3.connect(self.folder / "old", isolation_level=None)) as base:
                for statement in begun.split("; "):
                    base.execute(statement).fetchall()
                self.refuses_copy(HELD, f"{begun} elsewhere")
            self.keeps_old(f"{begun} elsewhere")
        self.answers(["init", "held"], "")
        with contextlib.closing(sqlite3.connect(self.folder / "held", isolation_level=None)) as base:
            base.execute("BEGIN EXCLUSIVE")
            self.refuses(["migrate", "old", "held"], NEW_HELD)
        self.answers(["verify", "held"], "sound\n")
        self.makes_copy()

    def test_full(self):
        """A device on which a file gets no longer than that many bytes."""
        blocks = 0
        while (done := self.ran("migrate", "old", "new", front=limited(blocks))) != (0, "migrated\n", ""):
            what = f"a file of {blocks * 512} bytes"
            self.assertEqual(done[:2], (1, ""), f"{what}: {done}")
            self.assertTrue(done.err.startswith("migrate: Device\n"), f"{what}: {done}")
            self.assertFalse(self.has("new") or self.has("new-wal"), f"{what}: one is left of the copy")
            self.keeps_old(what)
            self.makes_copy()
            blocks += 8
        self.assertGreater(blocks, 80, "the copy fits into few blocks")
        self.says_the_same("new")
        self.remove()
        with open("/dev/full", "w") as full:
            self.refuses(["migrate", "old", "new"], f"migrate: Write\n{UNWRITTEN}", stdout=full)
        self.says_the_same("new")

    def is_made_after(self, when):
        """After a kill the same words make the copy, or it is there as a whole."""
        self.keeps_old(when)
        again = self.ran("migrate", "old", "new")
        self.assertIn(again, ((0, "migrated\n", ""), (1, "", f"{TAKEN}\n")), f"after {when}")
        self.says_the_same("new")
        self.remove()

    def test_kills(self):
        """A kill at any moment leaves no table or the whole copy."""
        for step in range(40):
            words = [PROGRAM, "migrate", "old", "new"]
            running = subprocess.Popen(words, cwd=self.folder, stdout=subprocess.DEVNULL)
            time.sleep(step * 0.001)
            running.send_signal(signal.SIGKILL)
            running.wait()
            self.is_made_after("a kill")

    @needs_strace
    def test_each_kill(self):
        """A kill before each call that changes a file of the copy leaves no table or the whole copy."""
        for when in kills(self.folder, "new", self.remove, "migrate", "old", f"{self.folder}/new"):
            self.is_made_after(when)

    @needs_strace
    def test_failing_reads(self):
        """Each read of the earlier file or its log fails once: nothing is copied, no file is left, and the same words
        make the copy."""
        self.answers(["migrate", "old", "new"], "migrated\n")
        whole, failures = self.read("new"), 0
        self.remove()
        words = ["migrate", f"{self.folder}/old", f"{self.folder}/new"]
        for call in ("read", "pread64"):
            for number in itertools.count(1):
                done, has_failed = injected(self.folder, ["old"], {call: f"error=EIO:when={number}"}, *words)
                if not has_failed:
                    self.assertEqual(done.status, 0, f"where no {call} fails: {done}")
                    self.remove()
                    break
                failures += 1
                where = f"where {call} {number} of the earlier file fails"
                self.look_at_failure(done, where)
                self.keeps_old(where)
                self.answers(["migrate", "old", "new"], "migrated\n")
                self.assertEqual(self.read("new"), whole, f"{where}, the same words make another copy")
                self.remove()
        self.assertGreater(failures, 20, "few reads of the earlier file failed")

    @needs_strace
    def test_late_reads(self):
        """Of a file with more pages than are kept in memory, reads fail after it was opened: each is reported as a failed
        device, and no file is left of the copy."""
        with contextlib.closing(sqlite3.connect(self.folder / "large")) as base:
            base.execute(f"PRAGMA page_size = {LEAST_PAGE}")
            base.executescript(self.statements() + many(LARGE, KEY_DIGITS))
            pages = base.execute("PRAGMA page_count").fetchone()[0]
        self.assertGreater(pages, PAGES_IN_MEMORY, "the file fits into memory")
        before, words = self.read("large"), ["migrate", f"{self.folder}/large", f"{self.folder}/new"]
        made, _ = injected(self.folder, ["large"], {"pread64": ""}, *words)
        self.assertEqual(made, Ran(0, "migrated\n", ""))
        self.remove()
        reads = (self.folder / "trace").read_text().count("pread64(")
        for number in range(reads, 0, -(reads // LATE_READS)):
            done, has_failed = injected(self.folder, ["large"], {"pread64": f"error=EIO:when={number}"}, *words)
            self.look_at_failure(done, f"where read {number} of {reads} fails")
            self.assertTrue(has_failed, "no read fails")
            self.assertEqual(self.read("large"), before, "the earlier file was changed")

    def look_at_failure(self, done, where):
        """A call failed: that is reported as a failed device, and no file is left of the copy."""
        is_refused = done[:2] == (1, "") and done.err.startswith("migrate: Device\n")
        self.assertTrue(is_refused and not self.has("new") and not self.has("new-wal"), f"{where}: {done}")

    def look_fails(self, call, when, whole):
        """Makes calls on the copy fail: `3` is the third one, `3+` the third one and all later ones. Returns whether there was
        such a call. A copy that is reported as made is there. Any other is made by the same words. No page of that is left: where
        its files couldn't be opened, they may be there, and empty; a device that goes on failing may keep what a log begins with."""
        made, taken = Ran(0, "migrated\n", ""), Ran(1, "", f"{TAKEN}\n")
        words = ["migrate", f"{self.folder}/old", f"{self.folder}/new"]
        done, has_failed = injected(self.folder, ["new"], {call: f"error=EIO:when={when}"}, *words)
        where = f"{call} {when} on the copy fails"
        if done != made:
            self.assertTrue(done[:2] == (1, "") and done.err.startswith("migrate: Device\n"), f"{where}: {done}")
            left = [(self.folder / f"new{end}").stat().st_size for end in ("", "-wal") if self.has(f"new{end}")]
            self.assertLessEqual(sum(left), 41 if when.endswith("+") else 0, f"{where}, and {left} is left")
        self.keeps_old(where)
        self.assertEqual(self.ran("migrate", "old", "new"), taken if done == made else made, where)
        if self.read("new") != whole:
            self.says_the_same("new")
        self.remove()
        return has_failed

    @needs_strace
    def test_removals(self):
        """The device of the copy fails from each sync on, and a kill comes before each removal of what was begun: the
        same words take over what is left then."""
        count = 0
        for sync, number in ((sync, number) for sync in itertools.count(1) for number in (1, 2)):
            what = {"fdatasync": f"error=EIO:when={sync}+", "unlink": f"signal=KILL:when={number}"}
            done, _ = injected(self.folder, ["new"], what, "migrate", f"{self.folder}/old", f"{self.folder}/new")
            if done.status == 0:
                break
            where = f"a kill before removal {number}, where sync {sync} fails"
            self.assertIn(done.status, KILLED, f"{where}: {done}")
            count += 1
            self.is_made_after(where)
            self.remove()
        self.assertGreater(count, 20, "a copy was killed at few removals")

    def test_page(self):
        """The commands of the page on upgrading, beside the earlier vault and what was said of it."""
        beside = self.folder / "beside"
        beside.mkdir()
        shutil.copy(self.folder / "old", beside / "records.vault")
        shutil.copy(self.earlier / "register.csv", beside / "register-before.csv")
        shutil.copy(self.earlier / "report-records.txt", beside / "report-before.txt")
        printed_as_shown("docs/UPGRADING.md", beside=beside)


class Schema1(Copies, Case):
    vault = "schema1"

    @needs_strace
    def test_each_look(self):
        """Each call by which the files of a copy are looked at, opened, read or kept fails, once and from then on. Of a copy from
        either schema they are the same."""
        self.answers(["migrate", "old", "new"], "migrated\n")
        whole = self.read("new")
        self.remove()
        for call, later in itertools.product(LOOKING, ("", "+")):
            failing = itertools.takewhile(lambda number: self.look_fails(call, f"{number}{later}", whole), itertools.count(1))
            self.assertTrue(sum(1 for _ in failing), f"a copy makes no call of {call}")


class Schema2(Copies, Case):
    vault = "schema2"
