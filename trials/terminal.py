"""Terminals: how far long jobs say they have come, after each thousand files, keys, rows or entries, how much an opening
has read, each second, and else nowhere.

The program takes in a list of 1,000 files, marks and then removes them by two runs, prints the register of the 2,000
removals, the 5,000 events and their seal, and looks whether they are lawful: once with a terminal (pty) as standard
error, which has to show each thousand, and once with a pipe, which has to get nothing. A register or events that a
terminal shows say nothing, as nothing may come between their rows.

An opening is made to last: one read of the vault's file takes longer than a second. The line then has the MiB that
were read by then, and those of the file.
"""

import contextlib
import os
import pathlib
import pty
import re
import sqlite3
import subprocess
import time
import urllib.request
from typing import Iterable, Iterator

from trials.parts.calls import needs_strace
from trials.parts.program import EXAMPLES, OPENED_AT, PROGRAM, Case, Ran, check, make_office
from trials.parts.servers import HOST, free_port, serving

FILES = 1_000
AT = ["--at", OPENED_AT]
RULES = (
    '{"at":"2024-01-15T09:00:00Z","as":"ann","do":"set-rules","bucket":"docs","rules":[{"ID":"out","Status":"Enabled",'
    '"Expiration":{"Days":1},"NoncurrentVersionExpiration":{"NoncurrentDays":1}}]}\n'
)


# What an opening says, and how a read is made to take longer than the second that it waits: the third of a file, which
# is one of an opening. Longer than that second, too, is what one waits before a read that is none.
OPENING = re.compile(r"opening: [0-9]+ MiB read, of a file of [0-9]+ MiB")
PAUSE = 1.2
SLOW_READ = f"inject=pread64:delay_enter={round(PAUSE * 1_000_000)}:when=3"
# The bytes of a content, and how many the store can't all hold in memory.
LARGE, MANY = 1 << 20, 4
# A read of an opening. By then more than twice the bytes of such a file were read, so pages were read again, which is
# another call.
LATE = 12_000


def jobs(name):
    """The long jobs, each with what a terminal shows of it."""
    asked = ["docs", "--as", "ann", "--at"]
    return [
        (["intake", name, "docs", "batch", "list.csv", "scans", "--as", "ann", *AT], [f"{FILES} files"]),
        (["run", name, *asked, "2024-02-01T00:00:00Z"], [f"{FILES} keys"]),
        (["run", name, *asked, "2024-03-01T00:00:00Z"], [f"{FILES} keys"]),
        (["register", name], [f"{FILES} rows", f"{2 * FILES} rows"]),
        (["seal", name], [f"{FILES} entries", f"{2 * FILES} entries"]),
        (["lawful", name], [f"{FILES} entries", f"{2 * FILES} entries"]),
        (["events", name], [f"{number * FILES} rows" for number in range(1, 6)]),
    ]


def rest_of(terminal: int) -> Iterator[bytes]:
    """What is shown at a terminal until its other end is closed and empty, as it comes."""
    while True:
        try:
            part = os.read(terminal, 4096)
        except OSError:
            return
        if not part:
            return
        yield part


def on_terminal(
    words: Iterable[str], folder: pathlib.Path, shown: bool = False, front: Iterable[str] = ()
) -> tuple[str, str]:
    """What the program writes to a terminal as its standard error, once it has ended well; and what to standard output,
    if that isn't the same terminal. `front` are words before its own."""
    words, (ours, theirs) = list(words), pty.openpty()
    with subprocess.Popen(
        [*front, PROGRAM, *words], cwd=folder, stdout=theirs if shown else subprocess.PIPE, stderr=theirs
    ) as run:
        os.close(theirs)
        printed = run.stdout.read() if run.stdout else b""
        said = b"".join(rest_of(ours))
    os.close(ours)
    check(run.returncode == 0, f"{words[0]} ended with status {run.returncode}")
    return said.decode(), printed.decode()


def asked(port: int, key: str, content: bytes | None = None) -> bytes:
    """What a server answers that is asked for that key, or is given this content for it."""
    url = f"http://{HOST}:{port}/docs/{key}"
    request = urllib.request.Request(url, content, {"x-vault-caller": "ann"}, method="PUT" if content else "GET")
    with urllib.request.urlopen(request) as answer:
        return answer.read()


def but_openings(said: str) -> list[str]:
    """The lines of what was said but those of openings, which take a second only on a busy machine."""
    return [it for it in said.splitlines() if not OPENING.fullmatch(it)]


class Terminal(Case):
    def setUp(self):
        """Two vaults in which what `ann` puts expires after a day, and what there is to be taken in."""
        super().setUp()
        (self.folder / "scans").mkdir()
        for number in range(FILES):
            (self.folder / "scans" / f"{number}.txt").write_text(f"page {number}\n")
        rows = [f"{number}.txt,2024/{number},,," for number in range(FILES)]
        (self.folder / "list.csv").write_text("\n".join(["file,key,mode,until,hold", *rows, ""]))
        for name in ("first.vault", "second.vault"):
            make_office(self.folder / name, "put", "config", "run", at=AT)
            self.printed("replay", name, given=RULES)

    def test_long_jobs(self):
        for (watched, lines), (piped, _) in zip(jobs("first.vault"), jobs("second.vault")):
            said, printed = on_terminal(watched, self.folder)
            self.assertEqual(but_openings(said), lines, watched[0])
            self.assertEqual(self.ran(*piped), Ran(0, printed, ""), f"{piped[0]} into a pipe")
            self.assertTrue(printed, f"{piped[0]} prints nothing")
        for command in ("register", "events"):
            said, _ = on_terminal([command, "first.vault"], self.folder, shown=True)
            printed = self.printed(command, "second.vault")
            self.assertEqual(but_openings(said), printed.splitlines(), f"{command} on a terminal")


@needs_strace
class Openings(Case):
    def setUp(self) -> None:
        super().setUp()
        make_office(self.folder / "it.vault", "put", "get", "report", at=AT)
        with contextlib.closing(sqlite3.connect(self.folder / "earlier.vault")) as base:
            base.executescript((EXAMPLES / "earlier" / "schema2" / "rows.sql").read_text())

    def slowly(self, file: str) -> list[str]:
        """Words in front of a program of which one read of that file takes long."""
        return ["strace", "-qq", "-o", "/dev/null", "-P", f"{self.folder}/{file}", "-e", "trace=pread64", "-e", SLOW_READ]

    def shows_it(self, file: str, *words: str) -> str:
        """What the program prints on standard output. Fails unless a terminal is shown the opening of that file: a line
        at least, and no more lines than seconds went by."""
        began = time.monotonic()
        said, printed = on_terminal(words, self.folder, front=self.slowly(file))
        seconds, lines = time.monotonic() - began, said.splitlines()
        self.assertEqual(but_openings(said), [], words)
        self.assertTrue(1 <= len(lines) <= seconds, f"{words}: in {seconds} seconds there are {lines}")
        return printed

    def test_slow_read(self) -> None:
        for words in (["verify", "it.vault"], ["report", "it.vault", "records", "--as", "ann", *AT]):
            printed = self.shows_it("it.vault", *words)
            self.assertEqual(self.ran(*words, front=self.slowly("it.vault")), Ran(0, printed, ""), words)
            self.assertTrue(printed, f"{words[0]} prints nothing")

    def test_migrate(self) -> None:
        self.assertEqual(self.shows_it("earlier.vault", "migrate", "earlier.vault", "new"), "migrated\n")

    def with_contents(self) -> dict[str, bytes]:
        """Puts large contents into the vault, which are returned by their keys."""
        contents = {f"large-{n}": os.urandom(LARGE) for n in range(MANY)}
        with serving("it.vault", "--count", str(MANY), folder=self.folder) as port:
            for key, content in contents.items():
                asked(port, key, content)
        return contents

    def test_numbers(self) -> None:
        """A line says how many MiB of the file were read by then, and how many it has."""
        self.with_contents()
        file, trace = self.folder / "it.vault", self.folder / "trace"
        late = f"inject=pread64:delay_enter={round(PAUSE * 1_000_000)}:when={LATE}"
        front = ["strace", "-qq", "-o", str(trace), "-P", str(file), "-e", "trace=pread64", "-e", late]
        said, _ = on_terminal(["verify", "it.vault"], self.folder, front=front)
        reads = trace.read_text().splitlines()
        self.assertIn("(DELAYED)", reads[LATE - 1])
        read = sum(int(it.removesuffix(" (DELAYED)").rpartition(" = ")[2]) for it in reads[:LATE])
        mebibytes = [it >> 20 for it in (read, file.stat().st_size)]
        self.assertGreater(mebibytes[0], 2 * mebibytes[1], mebibytes)
        self.assertGreater(mebibytes[1], 0, mebibytes)
        self.assertIn("opening: {} MiB read, of a file of {} MiB".format(*mebibytes), said.splitlines())

    def test_once_it_is_open(self) -> None:
        """A server has its vault open: what it reads then is no opening, however late that is."""
        contents = self.with_contents()
        (ours, theirs), port, said = pty.openpty(), free_port(), b""
        words = ["serve", "it.vault", str(port), "--count", str(MANY)]
        with subprocess.Popen([PROGRAM, *words], cwd=self.folder, stderr=theirs) as server:
            os.close(theirs)
            for part in rest_of(ours):
                said += part
                if b"serving" in said and said.endswith(b"\n"):
                    break
            time.sleep(PAUSE)
            for key, content in contents.items():
                self.assertEqual(asked(port, key), content)
            rest = b"".join(rest_of(ours))
        os.close(ours)
        self.assertEqual((server.returncode, rest), (0, b""))
        self.assertEqual(but_openings(said.decode()), [f"serving it.vault at {HOST}:{port}"])
