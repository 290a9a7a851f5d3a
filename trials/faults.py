"""Faults: what can't be written, read or opened, what the program says of it, and what it keeps.

Standard output is a full device (/dev/full), standard input a folder, a name one that no file can have, a port
belongs to another program, and so does the vault's file: each is reported by its name, with status 1, and below it in
words; and what was carried out is kept. A log whose file is lost is left as it is, and has what was answered once the
file is back. Where no reading is given, the machine's clock is read. A vault that was closed is whole in its file; and
where there is `strace`, each call that changes one of its files fails once, also as it is closed: what was reported as
done is there all the same.

A refused command leaves a file and its log as they were, by their SHA-256 sums, whatever is in the log; and standard
error says in words why a file isn't opened or made. A new file and its log are their owner's alone, whatever the umask.
Where there is `strace`, an `init` is killed before each call that changes a file, and the next one makes a sound vault;
so it does where the device failed from any sync on, and a kill came as the files were given back.

An intake that a long list, a file that can't be read or the vault's file stops says so, and goes on where it is given
again. What is said of rows counts a name, a key and a cell at its limit as right.
"""

import contextlib
import datetime
import hashlib
import http.client
import itertools
import os
import pathlib
import re
import shutil
import socket
import sqlite3
import stat
import unittest

from trials.parts.calls import CHANGING, KILLED, LOOKING, injected, kills, needs_strace
from trials.parts.program import EXAMPLES, NOBODY, OPENED_AT, PROGRAM, TOP, Case, Ran, check, make_office, ran_words
from trials.parts.servers import serving

AT = ["--at", OPENED_AT]
LINE = '{"at":"2024-01-15T09:00:00Z","as":"registrar","do":"add-dept","dept":"other"}\n'
# What standard error says after the name of a refusal.
WORDS = {
    "no file": "no file is there: check the path, or make a vault by init",
    "empty": "the file is empty: check the path, or make a vault by init",
    "lost": "the file is missing or empty, and its log may have its last changes: put the file back beside the log",
    "no folder": "the folder of the file isn't there: check the path, or make the folder",
    "closed folder": "this user may not read or make files in the folder of the file: run as the folder's owner, or"
    " change its mode",
    "no log": "no log can be made beside the file: let this user make files in its folder, or make room on the disk",
    "folder": "a folder is there: give the path of a file",
    "pipe": "a pipe, socket or device is there: give the path of a file",
    "unreadable": "this user may not read the file: run as its owner, or change its mode",
    "unwritable": "this user may not write the file or its log: run as its owner, or change their modes",
    "hard link": "the file or its log has a second name, a hard link: remove that name",
    "journal": "another program left a journal beside the file: open the file once by sqlite3",
    "other file": "the file is no vault, and none of SQLite: check the path",
    "other tables": "the file is one of SQLite, and no vault: check the path",
    "earlier": "the vault is of an earlier version: copy it into another file by migrate",
    "taken": "something is in that file, and was left as it is: give another path",
    "damaged": "the file is damaged: put the last sound backup back",
    "failed": "reading or writing the file failed, as on a disk that is full or broken: look at its free space, and"
    " into the system's log",
    "unseen": "the system doesn't let the file be looked at or opened: check the path, the length of its names, and the"
    " disk",
}
EARLIER = EXAMPLES / "earlier" / "schema1" / "rows.sql"

HELD = "another program has the vault's file open, if only to read: end it, or wait, and give the command again\n"
PORT = (
    "the port can't be had: another program has it, or it isn't for this user, as those below 1024: end that program,"
    " or take another port from 1024 on\n"
)
TOO_LONG = "list: it has more than 16777216 bytes; cut it into lists, each with a batch of its own"
AHEAD = (
    "--at lies more than a year ahead of this machine's clock: a change that is dated so has the vault refuse whatever is"
    " dated before it, for good"
)
STOPPED = "intake: the vault's file failed; given again, the same intake goes on"
LONGEST_LIST = 16_777_216
DONE = '{"ok":{}}\n'
# What the names of faults mean, which stands below them.
MEANT = {
    "Read\n": "the input can't be read to its end: what was answered was carried out\n",
    "Write\n": "the answer can't be written, as to a full disk or a closed pipe: what was asked may have been done, so"
    " look before you give it again\n",
}
# The write of the last byte of a first page, among those of an `init`.
LAST_BYTE = 6
# The shortest log that has a change: its header and a frame's.
LEAST_LOG = 56


def ask(port, method, content=None):
    """The status of an answer, and its body."""
    asked = http.client.HTTPConnection("127.0.0.1", port, timeout=60)
    asked.request(method, "/docs/log", content, {"x-vault-caller": "ann"})
    answer = asked.getresponse()
    given = answer.status, answer.read()
    asked.close()
    return given


def add_words(name):
    """The words that add a department to the vault."""
    return ["dept", "v", name, "--as", "registrar"]


def is_taken(ran):
    return ran.status == 1 and ran.out.startswith('{"error":{"code":"NameTaken"')


def kept_of(folder, name):
    """The SHA-256 sums of a file and its log, and their modes; None where one isn't there."""
    files = [folder / it for it in (name, f"{name}-wal")]
    return [(hashlib.sha256(it.read_bytes()).hexdigest(), it.stat().st_mode) if it.exists() else None for it in files]


def modes_of(*files):
    return [oct(stat.S_IMODE(it.stat().st_mode)) for it in files]


def make_logged(folder, name, *scripts, beginning=None):
    """A file that is a copy of `beginning`, or made by the first of these scripts, and a log with what the others
    change."""
    live = folder / "live"
    if beginning:
        shutil.copy(beginning, live)
    with contextlib.closing(sqlite3.connect(live, isolation_level=None)) as base:
        base.execute("PRAGMA journal_mode = WAL")
        base.execute("PRAGMA wal_autocheckpoint = 0")
        for number, script in enumerate(scripts):
            base.executescript(script)
            if number == 0 and len(scripts) > 1:
                base.execute("PRAGMA wal_checkpoint(TRUNCATE)")
        for end in ("", "-wal"):
            shutil.copy(f"{live}{end}", folder / f"{name}{end}")
    for end in ("", "-wal", "-shm"):
        pathlib.Path(f"{live}{end}").unlink(missing_ok=True)
    check(os.path.getsize(folder / f"{name}-wal") > LEAST_LOG, f"{name} has no log")


def spoil_header(log):
    """Spoils the first byte of a log, so that no opening takes anything from it."""
    log.write_bytes(b"x" + log.read_bytes()[1:])


def refusals(name, cause):
    """The commands that are refused of a file, and how each is, where the file is no vault for that cause."""
    yield ["verify", name], Ran(1, "damaged meta\n", f"{WORDS[cause]}\n")
    for command in ("register", "events", "seal", "lawful"):
        yield [command, name], Ran(1, "", f"open: Damaged meta\n{WORDS[cause]}\n")
    yield ["init", name], Ran(1, "", f"init: NameTaken\n{WORDS['taken']}\n")


class Meeting(Case):
    """A folder in which the program meets faults."""

    def fails(self, ran, said):
        """Fails unless a run was refused so, on standard error."""
        said += MEANT.get(said.partition(": ")[2], "")
        self.assertEqual((ran.status, ran.err), (1, said), ran)

    def answers(self, ran, said):
        self.assertEqual(ran, Ran(0, said, ""))

    def refuses(self, words, said, cause):
        self.fails(self.ran(*words), f"{said}\n{WORDS[cause]}\n")

    def leaves(self, words, name, wanted):
        """A command is refused so, and leaves the file and its log as they were."""
        before = kept_of(self.folder, name)
        self.assertEqual(self.ran(*words), wanted, words)
        self.assertEqual(kept_of(self.folder, name), before, f"{words}: the files of {name}")


class WithoutVault(Meeting):
    def setUp(self):
        super().setUp()
        (self.folder / "list.csv").write_text("file,key,mode,until,hold\nlist.csv,a,,,\n")
        os.mkfifo(self.folder / "pipe")
        os.mkdir(self.folder / "folder")

    def test_names(self):
        """Names of which the system says neither that a file is there nor that none is; and what is no file isn't
        opened, as a pipe would be waited for."""
        for name, cause in [("v" * 300, "unseen"), ("list.csv/v", "no folder")]:
            self.refuses(["verify", name], "open: Device", cause)
            self.refuses(["report", name, "records", "--as", "ann", *AT], "open: Device", cause)
        for name, cause in [("v" * 300, "unseen"), ("pipe", "pipe"), ("folder", "folder")]:
            self.refuses(["init", name], "init: Device", cause)
            self.refuses(["verify", name], "open: Device", cause)

    def test_full_device(self):
        """What can't be answered is carried out, and reported as an answer that can't be written."""
        rights = ["put", "get", "report", "delete-version"]
        intake = ["intake", "v", "docs", "b", "list.csv", ".", "--as", "ann", *AT]
        self.answers(self.ran("init", "v"), "")
        with open("/dev/full", "w") as full:
            for words in (
                ["dept", "v", "records", "--as", "registrar", *AT],
                ["caller", "v", "ann", *rights, "--dept", "records", "--as", "registrar", *AT],
                ["bucket", "v", "docs", "records", "--as", "registrar", *AT],
                intake,
                *([command, "v"] for command in ("verify", "register", "events", "seal", "lawful")),
            ):
                self.fails(self.ran(*words, stdout=full), f"{words[0]}: Write\n")
            self.fails(self.ran("replay", "v", given=LINE, stdout=full), "replay: Write\n")
        # each of them was carried out
        self.answers(self.ran(*intake), "1 again 1\n")
        again = self.ran("replay", "v", given=LINE)
        self.assertTrue(again.out.startswith('{"error":{"code":"NameTaken"'), f"the line isn't carried out: {again}")
        self.is_sound("v")

    def test_version(self):
        """The version is printed, with the commit if the program knows it; that it can't be written is reported."""
        version = re.escape((TOP / "packaging" / "VERSION").read_text().strip())
        for word in ("--version", "-V"):
            ran = self.ran(word)
            self.assertEqual((ran.status, ran.err), (0, ""), word)
            self.assertRegex(ran.out, rf"\Avaultctl {version} \(schemas 3 and 4\)(, commit [0-9a-f]{{40}})?\n\Z")
            with open("/dev/full", "w") as full:
                self.fails(self.ran(word, stdout=full), "version: Write\n")

    def test_full_disk(self):
        """A file gets no longer than some bytes, as on a full disk: nothing is left of the vault that was begun."""
        limit = ["sh", "-c", 'trap "" XFSZ; ulimit -f 8; exec "$@"', "sh"]
        (self.folder / "begun").touch()
        for name, left in (("full", [None, None]), ("begun", kept_of(self.folder, "begun"))):
            self.fails(self.ran("init", name, front=limit), f"init: Device\n{WORDS['failed']}\n")
            self.assertEqual(kept_of(self.folder, name), left, "init on a full disk leaves something")
            self.assertEqual(self.ran("init", name).status, 0, "init doesn't make a vault once there is room")

    def test_modes(self):
        """A file that is made is its owner's alone, and so is its log, whatever the umask; a log is as open as its
        file."""
        for umask in (0o022, 0o000):
            files = [self.folder / it for it in (f"mask{umask}", f"mask{umask}-wal")]
            self.printed("init", files[0].name, umask=umask)
            self.assertEqual(modes_of(*files), ["0o600", "0o600"], f"under the umask {umask:o}")
            files[1].unlink()
            files[0].chmod(0o640)
            self.printed("verify", files[0].name, umask=umask)
            self.assertEqual(modes_of(*files), ["0o640", "0o640"], "a log beside a file of mode 640")

    @needs_strace
    def test_no_room(self):
        """The disk has no room for a page of a new vault, which is said in words."""
        words = ["init", f"{self.folder}/roomless"]
        ran, _ = injected(self.folder, ["roomless"], {"pwrite64": "error=ENOSPC:when=1+"}, *words)
        self.fails(ran, f"init: Device\n{WORDS['failed']}\n")
        self.assertEqual(kept_of(self.folder, "roomless"), [None, None], "init without room leaves a file")

    @needs_strace
    def test_links(self):
        """A path may be a link: the file that it leads to is made a vault, is opened or stays as it was, and the log is
        beside that file."""
        (self.folder / "far").mkdir()
        os.symlink("far/real", self.folder / "link")
        self.refuses(["init", "link"], "init: Device", "unseen")
        self.assertEqual(os.listdir(self.folder / "far"), [], "a link that leads nowhere")
        (self.folder / "far" / "real").touch()
        before, words = kept_of(self.folder / "far", "real"), ["init", f"{self.folder}/link"]
        ran, has_failed = injected(self.folder, ["far/real"], {"pwrite64": "error=ENOSPC:when=1+"}, *words)
        self.assertTrue(has_failed, "no write of the vault that a link leads to failed")
        self.fails(ran, f"init: Device\n{WORDS['failed']}\n")
        self.assertEqual(kept_of(self.folder / "far", "real"), before, "init without room leaves something")
        self.answers(self.ran("init", "link"), "")
        self.is_sound("far/real")
        (self.folder / "far" / "real").write_bytes(b"")
        (self.folder / "far" / "real-wal").write_bytes(bytes(LEAST_LOG))
        self.refuses(["register", "link"], "open: Damaged meta", "lost")
        self.refuses(["init", "link"], "init: NameTaken", "lost")
        self.assertFalse((self.folder / "link-wal").exists(), "a log is made beside a link")

    def test_no_paths(self):
        """Names by which no file is opened: a vault is refused there, and nothing is made."""
        before = sorted(os.listdir(self.folder))
        for name in (":memory:", "file:v", "file::memory:?cache=shared"):
            self.refuses(["init", name], "init: Device", "unseen")
            self.assertEqual(sorted(os.listdir(self.folder)), before, name)

    @needs_strace
    def test_short_log(self):
        """A log that is empty, or too short for a change, with no file beside it, is used for a new vault. Where no vault can be
        made, the log stays as it was."""
        for size in (0, LEAST_LOG - 1):
            (self.folder / f"short{size}-wal").write_bytes(bytes(size))
            before, words = kept_of(self.folder, f"short{size}"), ["init", f"{self.folder}/short{size}"]
            ran, _ = injected(self.folder, [f"short{size}"], {"pwrite64": "error=ENOSPC:when=1+"}, *words)
            self.fails(ran, f"init: Device\n{WORDS['failed']}\n")
            self.assertEqual(kept_of(self.folder, f"short{size}"), before, "init without room doesn't leave a log as it was")
            self.answers(self.ran(*words), "")
            self.is_sound(f"short{size}")

    @needs_strace
    def test_made_meanwhile(self):
        """Another program makes an empty file after `init` looked for it: a vault is made in that file."""
        words = ["init", f"{self.folder}/meanwhile"]
        ran, has_failed = injected(self.folder, ["meanwhile"], {"openat": "error=EEXIST:when=1"}, *words)
        self.assertTrue(has_failed, "no file is made")
        self.answers(ran, "")
        self.is_sound("meanwhile")

    def clear(self):
        for end in ("", "-wal"):
            (self.folder / f"killed{end}").unlink(missing_ok=True)

    @needs_strace
    def test_killed(self):
        """An `init` is killed before each call that changes a file: what it left is made a vault by the next one, or
        is one."""
        for when in kills(self.folder, "killed", self.clear, "init", f"{self.folder}/killed"):
            self.is_made_after(when)

    def is_made_after(self, when):
        """What an `init` left is made a vault by the next one, or is one."""
        again, sound = self.ran("init", "killed"), self.ran("verify", "killed")
        is_whole = (again.status, again.err) == (1, f"init: NameTaken\n{WORDS['taken']}\n")
        self.assertTrue(is_whole or again.status == 0, f"after {when}: {again}")
        self.assertEqual(sound.out, "sound\n", f"after {when} and another init: {sound}")
        size = (self.folder / "killed").read_bytes()[16:18]
        self.assertEqual(size, (1024).to_bytes(2, "big"), f"the bytes of a page, after {when}")

    def look_fails(self, call, number):
        """Makes that call of an `init` fail. Returns whether there was such a call. The vault is made, or the next `init` makes
        it. Until then nothing is left of it, or, where the files couldn't be opened, what is empty: it may be another's."""
        self.clear()
        ran, has_failed = injected(self.folder, ["killed"], {call: f"error=EIO:when={number}"}, "init", f"{self.folder}/killed")
        where = f"{call} {number} fails"
        if ran.status:
            self.assertIn("Device", ran.err, where)
            files = [self.folder / f"killed{end}" for end in ("", "-wal")]
            left = [it.stat().st_size for it in files if it.exists()]
            self.assertFalse(any(left) or (left and WORDS["failed"] in ran.err), f"{where}, and {left} is left: {ran}")
        self.is_made_after(where)
        return has_failed

    @needs_strace
    def test_each_look(self):
        """Each call by which an `init` looks at its files, opens, reads or writes them fails once."""
        for call in (*LOOKING, "pwrite64"):
            count = sum(1 for _ in itertools.takewhile(lambda it: self.look_fails(call, it), itertools.count(1)))
            self.assertTrue(count, f"an init makes no call of {call}")

    def init_where(self, what):
        """The status of an `init` where this happens to calls on its files."""
        return injected(self.folder, ["killed"], what, "init", f"{self.folder}/killed")[0].status

    def begin(self, is_part):
        """No file, or the part of a first page that an `init` leaves which is killed before the last byte of it."""
        self.clear()
        if is_part:
            status = self.init_where({"pwrite64": f"signal=KILL:when={LAST_BYTE}"})
            self.assertIn(status, KILLED, "no kill comes before a first page is whole")
            left = (self.folder / "killed").read_bytes()
            self.assertEqual((len(left), left[0]), (1024, 0), "a kill before a first page is whole leaves something else")

    def given_back(self, is_part, sync, call):
        """The device of an `init` fails from that sync on, and a kill comes before each call of that name by which files
        are given back: how often one came, and the status of the `init` to which none came."""
        for number in itertools.count(1):
            self.begin(is_part)
            what = {"fdatasync": f"error=EIO:when={sync}+", call: f"signal=KILL:when={number}"}
            status = self.init_where(what)
            if status == 0:
                return number - 1, 0
            self.is_made_after(f"a kill before {call} {number}, where sync {sync} fails, {is_part=}")
            if status not in KILLED:
                self.assertEqual(status, 1, f"where sync {sync} fails")
                return number - 1, 1

    @needs_strace
    def test_failing(self):
        """The device of an `init` fails from each sync on, with a kill as files are given back, or without: the next
        one makes the vault, also where an earlier kill left a part of a first page."""
        for is_part in (False, True):
            count = 0
            for sync in itertools.count(1):
                found = [self.given_back(is_part, sync, call) for call in ("ftruncate", "unlink")]
                count += sum(it for it, _ in found)
                if (0, 0) in found:
                    break
            self.assertGreater(count, 10, f"an init on a device that fails was killed at few calls, {is_part=}")


class Vaulted(Meeting):
    """A vault `v` with a version of `docs`."""

    def setUp(self):
        super().setUp()
        make_office(self.folder / "v", "put", "get", "report", "delete-version", at=AT)
        (self.folder / "list.csv").write_text("file,key,mode,until,hold\nlist.csv,a,,,\n")
        self.answers(self.ran("intake", "v", "docs", "b", "list.csv", ".", "--as", "ann", *AT), "1 admitted 1\n")

    def tearDown(self):
        self.is_sound("v")


class WithVault(Vaulted):
    def serving(self):
        return serving("v", folder=self.folder)

    def put_in_log(self):
        """A server that was killed left a change in its log alone: the log."""
        with self.serving() as port:
            answer = ask(port, "PUT", b"in the log")
            self.assertEqual(answer[0], 200, f"a put is answered {answer}")
        log = self.folder / "v-wal"
        self.assertGreater(log.stat().st_size, LEAST_LOG, "the log of a server that was killed has no change")
        return log

    def read_fails(self, command, before, number):
        """Makes that read of a command fail, and looks whether the vault's files stay as they were. Returns whether there was
        such a read."""
        for end, content in before.items():
            (self.folder / f"v{end}").write_bytes(content)
        kept = kept_of(self.folder, "v")
        ran, has_failed = injected(self.folder, ["v"], {"pread64": f"error=EIO:when={number}"}, command, f"{self.folder}/v")
        if ran.status == 0:
            # It failed, if it did, as the vault was closed.
            self.assertEqual(ran, Ran(0, "sound\n", ""))
            return has_failed
        if has_failed:
            self.assertIn("Device", ran.err, f"where read {number} of {command} fails")
        self.assertEqual(kept_of(self.folder, "v"), kept, f"{command} changes files, and then read {number} fails")
        return has_failed

    @needs_strace
    def test_failed_reads(self):
        """Each read of an opening fails once, with a log that has a change and with one whose header is spoiled: the file and
        its log stay as they were."""
        log = self.put_in_log()
        whole = {end: (self.folder / f"v{end}").read_bytes() for end in ("", "-wal")}
        for command, spoil in itertools.product(("init", "verify"), (True, False)):
            before = {**whole, "-wal": b"x" + whole["-wal"][1:]} if spoil else whole
            count = sum(1 for _ in itertools.takewhile(lambda it: self.read_fails(command, before, it), itertools.count(1)))
            self.assertGreater(count, 5, f"{command} reads little, {spoil=}")
        log.write_bytes(whole["-wal"])

    def test_salts(self):
        """Two copies of a vault write logs with different salts, so that no frame of one is taken for one of the other."""
        shutil.copy(self.folder / "v", self.folder / "copy")
        salts = [self.put_in_log().read_bytes()[16:24]]
        self.is_sound("v")
        shutil.copy(self.folder / "copy", self.folder / "v")
        salts.append(self.put_in_log().read_bytes()[16:24])
        self.assertNotEqual(*salts)

    def test_input(self):
        """An input that can't be read to its end."""
        given = os.open(self.folder, os.O_RDONLY)
        self.addCleanup(os.close, given)
        self.fails(self.ran("replay", "v", given=given), "replay: Read\n")

    def test_taken_port(self):
        with socket.socket() as other:
            other.bind(("127.0.0.1", 0))
            other.listen()
            port = str(other.getsockname()[1])
            self.fails(self.ran("serve", "v", port, "--count", "1"), f"serve: Device\n{PORT}")

    @needs_strace
    def test_ports(self):
        """A port that the system gives to another user alone, or to another program."""
        for error in ("EACCES", "EADDRINUSE"):
            ran, _ = injected(self.folder, [], {"bind": f"error={error}"}, "serve", "v", "80", "--count", "1")
            self.fails(ran, f"serve: Device\n{PORT}")

    def test_clock(self):
        """Where no reading is given, the machine's clock is read."""
        reported = self.printed("report", "v", "records", "--as", "ann")
        said = datetime.datetime.fromisoformat(reported.split("\n")[1].split()[1].replace("Z", "+00:00"))
        now = datetime.datetime.now(datetime.timezone.utc)
        self.assertLess(abs((now - said).total_seconds()), 60, f"the clock shows {now}, and the report {said}")

    def test_far_ahead(self):
        """A reading that is given and lies more than a year ahead of the clock is taken, and words say what follows."""
        now = datetime.datetime.now(datetime.timezone.utc)
        for days, said in ((300, ""), (400, f"{AHEAD}\n")):
            at = ["--at", (now + datetime.timedelta(days=days)).strftime("%Y-%m-%dT%H:%M:%SZ")]
            added = self.ran("dept", "v", f"ahead-{days}", "--as", "registrar", *at)
            self.assertEqual(added, Ran(0, DONE, said), f"a department {days} days ahead")
            taken = self.ran("intake", "v", "docs", f"ahead-{days}", "list.csv", ".", "--as", "ann", *at)
            self.assertEqual((taken.status, taken.err), (0, said), f"an intake {days} days ahead")

    def test_held(self):
        """While another program reads the vault no job opens it."""
        reader = sqlite3.connect(f"file:{self.folder}/v?mode=ro", uri=True, isolation_level=None)
        with contextlib.closing(reader):
            reader.execute("BEGIN")
            reader.execute("SELECT * FROM meta").fetchall()
            self.fails(self.ran("verify", "v"), f"open: Device\n{HELD}")
            self.fails(self.ran("dept", "v", "more", "--as", "registrar"), f"open: Device\n{HELD}")
            self.fails(self.ran("init", "v"), f"init: Device\n{HELD}")

    def test_served(self):
        """While a vault is served no job opens it, and no other program reads it."""
        with self.serving():
            self.fails(self.ran("report", "v", "records", "--as", "ann"), f"open: Device\n{HELD}")
            reader = sqlite3.connect(f"file:{self.folder}/v?mode=ro", uri=True, timeout=0)
            with contextlib.closing(reader), self.assertRaisesRegex(sqlite3.OperationalError, "^database is locked$"):
                reader.execute("SELECT * FROM meta").fetchall()

    def test_lost(self):
        """Without its file a log with a change is left as it is; with it the change is there."""
        log, file, away = self.put_in_log(), self.folder / "v", self.folder / "away"
        before = log.read_bytes()
        for lose in (lambda: None, file.touch):
            file.rename(away)
            lose()
            self.refuses(["init", "v"], "init: NameTaken", "lost")
            self.refuses(["register", "v"], "open: Damaged meta", "lost")
            self.assertEqual(log.read_bytes(), before, "a log whose file is lost was changed")
            self.assertFalse(file.exists() and file.stat().st_size, "a file was made beside a log with changes")
            away.rename(file)
        with self.serving() as port:
            self.assertEqual(ask(port, "GET"), (200, b"in the log"), "what was answered is lost")

    def test_closed(self):
        """Once a command has ended, its change is in the vault's file, without the log."""
        self.answers(self.ran(*add_words("closed")), DONE)
        shutil.copyfile(self.folder / "v", self.folder / "alone")
        self.is_sound("alone")
        again = self.ran("dept", "alone", "closed", "--as", "registrar")
        self.assertTrue(is_taken(again), "a vault that was closed isn't in its file alone")

    def call_fails(self, call, number):
        """The status where that call fails; None where the program makes no such call. What is reported as done is
        there, also where the vault couldn't be closed; what isn't is reported as Device; and the vault is sound."""
        words, where = add_words(f"{call}-{number}"), f"where {call} {number} fails"
        ran, has_failed = injected(self.folder, ["v"], {call: f"error=EIO:when={number}"}, *words)
        if not has_failed:
            self.answers(ran, DONE)
            return None
        self.is_sound("v")
        again = self.ran(*words)
        if ran.status == 0:
            self.answers(ran, DONE)
            self.assertTrue(is_taken(again), f"{where}, what was reported as done isn't there: {again}")
        else:
            self.assertIn("Device", ran.out + ran.err, f"{where}, the answer is {ran}")
            self.assertTrue(is_taken(again) or again.out == DONE, f"{where}, the answer after it is {again}")
        return ran.status

    def test_long_list(self):
        """A list of more bytes than one may have is refused whole; one of as many bytes is taken in."""
        row = b"file,key,mode,until,hold\nlist.csv,b,,,\n"
        for length, status, out, said in (
            (LONGEST_LIST, 0, "1 admitted 2\n", ""),
            (LONGEST_LIST + 1, 1, "stopped EntityTooLarge\n", f"{TOO_LONG}\n"),
        ):
            (self.folder / "long.csv").write_bytes(row.ljust(length, b"\n"))
            words = ["intake", "v", "docs", f"of-{length}", "long.csv", ".", "--as", "ann", *AT]
            self.assertEqual(self.ran(*words), Ran(status, out, said), f"a list of {length} bytes")

    def test_rows_at_limits(self):
        """What is said of a refused row: a name, a key or a cell at its limit is no fault, and is shown whole."""
        longest = "n" * 255
        cells = [
            ("list.csv", "k" * 1_024, "m"), ("list.csv", "k" * 1_025, "m"), ("list.csv", "k", "m" * 255),
            ("list.csv", "k", "m" * 256), (longest, "k", "m"), (f"{longest}n", "k", "m"),
        ]
        rows = [f"{','.join(it)},2040-01-01T00:00:00Z," for it in cells]
        (self.folder / "rows.csv").write_text("\n".join(["file,key,mode,until,hold", *rows, ""]))
        ran = self.ran("intake", "v", "docs", "limits", "rows.csv", ".", "--as", "ann", *AT)
        refused = ["KeyTooLongError" if len(key) > 1_024 else "InvalidArgument" for _, key, _ in cells]
        self.assertEqual(ran.out.splitlines(), [f"{row} refused {name}" for row, name in enumerate(refused, 1)])
        mode = "the mode is `{}`; it has to be GOVERNANCE or COMPLIANCE, in capitals, or empty"
        said = [
            f"list.csv: {mode.format('m')}", "list.csv: the key has 1025 bytes; 1024 are allowed",
            f"list.csv: {mode.format('m' * 255)}", f"list.csv: {mode.format('m' * 255 + ' ..')}",
            f"{longest}: {mode.format('m')}", f"{longest} ..: the file's name has 256 bytes; 255 are allowed",
        ]
        self.assertEqual(ran.err.splitlines(), [f"row {row}: {it}" for row, it in enumerate(said, 1)])

    def stopped_after(self, words, sync):
        """How many rows an intake of three reports whose vault's file fails from that sync on. It says so, and given again it
        takes in the others."""
        shutil.copyfile(self.folder / "v", self.folder / "stopped")
        words = ["intake", "stopped", *words]
        ran, _ = injected(self.folder, ["stopped"], {"fdatasync": f"error=EIO:when={sync}+"}, *words)
        rows = re.findall(r"\d admitted \d\n", ran.out)
        if len(rows) < 3 and ran.out:
            self.assertEqual(ran, Ran(1, f"{''.join(rows)}stopped Device\n", f"{STOPPED}\n"))
        # The row that was under way may be there too.
        wanted = ["".join(f"{row} {'again' if row <= done else 'admitted'} {row + 1}\n" for row in (1, 2, 3)) for done in range(4)]
        again = self.ran(*words)
        self.assertIn(again, [Ran(0, it, "") for it in wanted[len(rows):len(rows) + 2]])
        self.is_sound("stopped")
        return len(rows)

    @needs_strace
    def test_stopped_intake(self):
        """An intake that the vault's file stops after any of its rows says so, and goes on where it is given again."""
        (self.folder / "list.csv").write_text("file,key,mode,until,hold\n" + "list.csv,b,,,\n" * 3)
        words = ["docs", "rows", "list.csv", ".", "--as", "ann", *AT]
        found = [*itertools.takewhile(lambda it: it < 3, (self.stopped_after(words, sync) for sync in itertools.count(1)))]
        self.assertEqual(sorted(set(found)), [0, 1, 2])

    @needs_strace
    def test_unread_file(self):
        """A file that can't be looked at, opened or read stops an intake, which goes on where it is given again."""
        (self.folder / "scans").mkdir()
        for name in ("a.txt", "b.txt"):
            (self.folder / "scans" / name).write_text(f"of {name}")
        (self.folder / "scans.csv").write_text("file,key,mode,until,hold\na.txt,a,,,\nb.txt,b,,,\n")
        calls = (("statx", 1), ("statx", 2), ("openat", 1), ("read", 1))
        for first, ((row, name), (call, when)) in zip(itertools.count(2, 2), itertools.product(((1, "a.txt"), (2, "b.txt")), calls)):
            batch = f"{call}-{when}-{row}"
            words = ["intake", "v", "docs", batch, "scans.csv", str(self.folder / "scans"), "--as", "ann", *AT]
            ran, has_failed = injected(self.folder, [f"scans/{name}"], {call: f"error=EIO:when={when}"}, *words)
            before = f"1 admitted {first}\n" if row == 2 else ""
            said = f"row {row}: {name}: it couldn't be read, and can be by now; give the same intake again\n"
            self.assertEqual((has_failed, ran), (True, Ran(1, f"{before}stopped Device\n", said)), batch)
            self.answers(self.ran(*words), f"1 {'again' if before else 'admitted'} {first}\n2 admitted {first + 1}\n")

    @needs_strace
    def test_each_call(self):
        """Each call that changes one of the vault's files fails once, also as the vault is closed."""
        statuses = set()
        for call in CHANGING:
            found = (self.call_fails(call, number) for number in itertools.count(1))
            statuses |= set(itertools.takewhile(lambda it: it is not None, found))
        self.assertEqual(statuses, {0, 1}, "the statuses where one call fails")

    def test_refused(self):
        """A refused command changes no file: with a log of a vault, of another application, of an earlier schema, with
        a damage, or none; and where nothing can be read of the log."""
        self.put_in_log()
        taken = Ran(1, "", f"init: NameTaken\n{WORDS['taken']}\n")
        self.leaves(["init", "v"], "v", taken)
        self.is_sound("v")
        make_logged(self.folder, "other", "CREATE TABLE notes (note TEXT)", "INSERT INTO notes VALUES (1)")
        make_logged(self.folder, "early", f"BEGIN; {EARLIER.read_text()}; COMMIT;")
        for name, cause in (("other", "other tables"), ("early", "earlier")):
            for words, wanted in refusals(name, cause):
                self.leaves(words, name, wanted)
        spoil_header(self.folder / "other-wal")
        (self.folder / "early-wal").unlink()
        self.leaves(["verify", "other"], "other", Ran(1, "damaged meta\n", f"{WORDS['other tables']}\n"))
        make_logged(self.folder, "bad", "UPDATE departments SET held = held + 1", beginning=self.folder / "v")
        self.leaves(["verify", "bad"], "bad", Ran(1, "damaged departments\n", f"{WORDS['damaged']}\n"))
        for command in ("register", "events", "seal", "lawful"):
            wanted = Ran(1, "", f"open: Damaged departments\n{WORDS['damaged']}\n")
            self.leaves([command, "bad"], "bad", wanted)
        shutil.copy(self.folder / "v", self.folder / "bare")
        self.leaves(["init", "bare"], "bare", taken)
        (self.folder / "bare-wal").touch()
        self.leaves(["init", "bare"], "bare", taken)

    def test_words(self):
        """Why a file isn't opened or made is said in words."""
        top = self.folder
        os.mkfifo(top / "pipe")
        os.mkdir(top / "folder")
        (top / "text").write_text("notes of the office, which are no vault\n" * 9)
        (top / "empty").touch()
        (top / "orphan-wal").write_bytes(bytes(LEAST_LOG))
        shutil.copy(top / "v", top / "linked")
        os.link(top / "linked", top / "second")
        shutil.copy(top / "v", top / "journaled")
        (top / "journaled-journal").write_text("x")
        for name, cause in (("none", "no file"), ("empty", "empty"), ("text", "other file"), ("orphan", "lost")):
            self.refuses(["register", name], "open: Damaged meta", cause)
            self.assertEqual(self.ran("verify", name).err, f"{WORDS[cause]}\n", f"verify of {name}")
        for name, cause in (("folder", "folder"), ("pipe", "pipe"), ("linked", "hard link"), ("journaled", "journal")):
            self.refuses(["register", name], "open: Device", cause)
        for name, cause in (("folder", "folder"), ("pipe", "pipe"), ("none/new", "no folder")):
            self.refuses(["init", name], "init: Device", cause)
        self.refuses(["init", "list.csv/v"], "init: Device", "no folder")
        for name, cause in (("text", "taken"), ("v", "taken"), ("orphan", "lost")):
            self.refuses(["init", name], "init: NameTaken", cause)


@unittest.skipIf(os.geteuid() != 0, "this isn't root, and no file is another user's")
class OfOthers(Vaulted):
    """Files that another user owns, where this one may run the program as that user."""

    def as_nobody(self, *words, place=None):
        return ran_words(self.folder / "program", *words, cwd=place or self.folder, user=NOBODY, group=NOBODY)

    def setUp(self):
        super().setUp()
        self.folder.chmod(0o755)
        shutil.copy(PROGRAM, self.folder / "program")
        (self.folder / "program").chmod(0o755)

    def test_rights(self):
        for name, mode in (("closed", 0o600), ("shown", 0o644), ("open", 0o666)):
            shutil.copy(self.folder / "v", self.folder / name)
            (self.folder / name).chmod(mode)
        for subcommand, name, said, cause in (
            ("register", "closed", "open: Device", "unreadable"),
            ("register", "shown", "open: Device", "unwritable"),
            ("register", "open", "open: Device", "no log"),
            ("init", "made", "init: Device", "closed folder"),
        ):
            self.fails(self.as_nobody(subcommand, name), f"{said}\n{WORDS[cause]}\n")
        self.assertFalse((self.folder / "open-wal").exists(), "a log is left")

    def test_intake(self):
        """A list, and a file that a list names, which this user may not read."""
        place = self.folder / "nobody's"
        (place / "scans").mkdir(parents=True)
        shutil.copy(self.folder / "v", place / "v")
        (place / "list.csv").write_text("file,key,mode,until,hold\na.txt,closed,,,\n")
        for it in (place, place / "v", place / "list.csv"):
            os.chown(it, NOBODY, NOBODY)
        secret = place / "scans" / "a.txt"
        # As large as a file may be, which is no fault of it.
        secret.write_bytes(bytes(1_048_576))
        for closed, said in (
            (secret, "row 1: a.txt: it isn't yours to read; have its owner let you, and give the same intake again\n"),
            (place / "list.csv", "list: list.csv: it isn't yours to read; have its owner let you, or give a copy\n"),
        ):
            os.chown(closed, 0, 0)
            closed.chmod(0o600)
            words = ["intake", "v", "docs", "closed", "list.csv", "scans", "--as", "ann"]
            self.assertEqual(self.as_nobody(*words, place=place), Ran(1, "stopped Device\n", said))
