"""Rows: scripts and their replies, each given to the program in four or five ways.

A row is a script over a new vault and its replies: NAME.jsonl and NAME.out in `examples/rows` or `examples`, or made
by `long_rows.py`. Each is given over a vault in memory; over a file, at once; over a file, line by line, so that it
is closed and opened between any two; and over a file in odd pieces through a pipe, each of which is one read. Where
each line has a reply, it is also given as a conversation: the next line is written once that reply has come.
No reply may be of out of memory or of a device that failed, and the file is sound after each. Where there is
NAME.csv, that is the file's register after each. On standard error there is a line of words for each line that is
refused, and nothing else; where there is NAME.err, that is all of it, given at once. TRIALS_ROWS is a folder with
more scripts and their replies, which are given to the program in memory alone.
"""

import functools
import itertools
import json
import os
import pathlib
import re
import select
import subprocess
import tempfile

from trials.parts.long_rows import long_rows
from trials.parts.program import EXAMPLES, LIMIT, PROGRAM, Case, a_test_each, check, ran

# A piece has at most the bytes that a pipe hands on as one packet.
PIECES = (1, 2, 3, 5, 7, 11, 13, 61, 251, 1_021, 4_093)
FAULTS = ("Memory", "Device")
# Seconds that one waits for a reply while the input is open.
PATIENCE = 30


class Row:
    """A script, its replies, and the register and the words on standard error where these are wanted."""

    def __init__(self, name, script, replies, register=None, words=None):
        self.name, self.script, self.replies, self.register, self.words = name, script, replies, register, words

    def lines(self):
        """The script's lines with their ends; the last one may lack its own."""
        return [it + b"\n" for it in self.script.split(b"\n")[:-1]] + [self.script.split(b"\n")[-1]]

    def is_conversation(self):
        """Whether each line has a reply."""
        return self.script.endswith(b"\n") and self.script.count(b"\n") == self.replies.count(b"\n")


def printed_in_pieces(folder, *words, given):
    """What the program writes for these words, and on standard error, where the input comes in odd pieces."""
    # In a pipe of packets each write is one read.
    taken, put = os.pipe2(os.O_DIRECT | os.O_CLOEXEC)
    with os.fdopen(put, "wb", 0) as pipe, tempfile.TemporaryFile() as out, tempfile.TemporaryFile() as err:
        done = subprocess.Popen([PROGRAM, *words], stdin=taken, stdout=out, stderr=err, cwd=folder)
        os.close(taken)
        feed(pipe, given)
        pipe.close()
        status = done.wait(LIMIT)
        written, explained = whole(out), whole(err)
    check(status == 0, f"in pieces: status {status}, {(written + explained)[-300:]!r}")
    return written, explained


def printed_in_turns(folder, *words, lines):
    """The same, where each line is written once the reply to the one before has come."""
    how = {"stdin": subprocess.PIPE, "stdout": subprocess.PIPE, "cwd": folder, "bufsize": 0}
    with tempfile.TemporaryFile() as err, subprocess.Popen([PROGRAM, *words], stderr=err, **how) as done:
        replies = []
        for line in lines:
            done.stdin.write(line)
            replies.append(reply_from(done))
        done.stdin.close()
        status = done.wait(LIMIT)
        explained = whole(err)
    check(status == 0, f"in turns: status {status}")
    return b"".join(replies), explained


def whole(file):
    """All that a file holds."""
    file.seek(0)
    return file.read()


def answered(script):
    """The numbers of the lines that have a reply: all but the empty ones, and those of a CR before an LF."""
    *ended, last = script.split(b"\n")
    numbers = [number for number, line in enumerate(ended, 1) if line not in (b"", b"\r")]
    return numbers + ([len(ended) + 1] if last else [])


def is_refused(reply):
    """Whether a reply refuses its line."""
    return "error" in json.loads(reply)


def feed(pipe, given):
    """Writes what is given in pieces of those sizes, one after another."""
    at, sizes = 0, itertools.cycle(PIECES)
    while at < len(given):
        at += pipe.write(given[at:at + next(sizes)])


def reply_from(running):
    """The next line that the program writes. Ends the program and fails where none comes."""
    reply = b""
    while not reply.endswith(b"\n"):
        ready, _, _ = select.select([running.stdout], [], [], PATIENCE)
        piece = os.read(running.stdout.fileno(), 65_536) if ready else b""
        if not piece:
            running.kill()
            check(False, f"no reply came while the input was open, but {reply[-300:]!r}")
        reply += piece
    return reply


def compare(replies, wanted):
    """Fails at the first reply that isn't the wanted one."""
    pairs = itertools.zip_longest(replies.split(b"\n"), wanted.split(b"\n"), fillvalue=b"")
    for number, (given, reply) in enumerate(pairs, 1):
        check(given == reply, f"reply {number}: wanted {reply[:300]!r}, got {given[:300]!r}")


def look_at_words(script, replies, explained):
    """Fails unless there is a line of words for each line that was refused, in their order, and for no other reply."""
    wanted = [number for number, reply in zip(answered(script), replies.splitlines()) if is_refused(reply)]
    found = [re.fullmatch(r"line ([0-9]+): .*[a-z] .*", it) for it in explained.decode().splitlines()]
    has = [int(it[1]) if it else 0 for it in found]
    check(has == wanted, f"the lines {wanted} were refused, and standard error has {explained[-300:]!r}")


def tells_of_fault(reply):
    """Whether a reply is of out of memory or of a device that failed."""
    told = json.loads(reply)
    return told.get("error", {}).get("code") in FAULTS or told.get("stopped", {}).get("fault") in FAULTS


@functools.cache
def rows():
    """All rows, by name."""
    found = {name: Row(name, script, replies, words=words) for name, script, replies, words in long_rows()}
    for folder in (EXAMPLES / "rows", EXAMPLES):
        for path in folder.glob("*.jsonl"):
            more = (it.read_bytes() if it.exists() else None for it in map(path.with_suffix, (".csv", ".err")))
            check(path.stem not in found, f"{path.stem} is there twice")
            found[path.stem] = Row(path.stem, path.read_bytes(), path.with_suffix(".out").read_bytes(), *more)
    return found


class Rows(Case):
    """A way in which each row is given."""

    is_in_file = True

    def given(self, script, *words):
        """The replies to a script that is given at once, and what it writes on standard error."""
        done = ran("replay", *words, given=script, cwd=self.folder)
        check(done.status == 0, f"status {done.status}, {(done.out + done.err)[-300:]!r}")
        replies, explained = done.out.encode(errors="surrogateescape"), done.err.encode()
        look_at_words(script, replies, explained)
        return replies, explained

    def ways(self, row):
        """The replies, and what is on standard error where NAME.err has it."""
        raise NotImplementedError

    def look_at(self, name):
        row = rows()[name]
        if self.is_in_file:
            self.assertEqual(self.ran("init", name), (0, "", ""))
        replies, explained = self.ways(row)
        compare(replies, row.replies)
        check(not any(tells_of_fault(it) for it in replies.splitlines()), "a reply is of a fault")
        if row.words is not None and explained is not None:
            compare(explained, row.words)
        if self.is_in_file:
            self.is_sound(name)
            if row.register is not None:
                register = self.ran("register", name)
                self.assertEqual((register.status, register.err), (0, ""))
                compare(register.out.encode(), row.register)


@a_test_each(rows())
class InMemory(Rows):
    is_in_file = False

    def ways(self, row):
        return self.given(row.script)


@a_test_each(rows())
class AtOnce(Rows):
    def ways(self, row):
        return self.given(row.script, row.name)


@a_test_each(rows())
class LineByLine(Rows):
    def ways(self, row):
        return b"".join(self.given(it, row.name)[0] for it in row.lines()), None


@a_test_each(rows())
class InPieces(Rows):
    def ways(self, row):
        replies, explained = printed_in_pieces(self.folder, "replay", row.name, given=row.script)
        look_at_words(row.script, replies, explained)
        return replies, None


@a_test_each(name for name, row in rows().items() if row.is_conversation())
class InTurns(Rows):
    is_in_file = False

    def ways(self, row):
        replies, explained = printed_in_turns(self.folder, "replay", lines=row.lines()[:-1])
        look_at_words(row.script, replies, explained)
        return replies, None


FOLDER = os.environ.get("TRIALS_ROWS")


@a_test_each(sorted(it.stem for it in pathlib.Path(FOLDER).glob("*.jsonl")) if FOLDER else ())
class OfAFolder(Case):
    def look_at(self, name):
        script = pathlib.Path(FOLDER) / f"{name}.jsonl"
        replies = self.printed("replay", given=script.read_bytes())
        compare(replies.encode(errors="surrogateescape"), script.with_suffix(".out").read_bytes())
