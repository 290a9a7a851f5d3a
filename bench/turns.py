"""The program and the peer at the same work, in turns.

Each has its own copy of a file open in one process. They take the same lines in turns, now one first and now the
other, so that what the machine and its disk do meanwhile troubles both alike. Each turn ends with a get of a long
version, whose time counts too: without it the last replies would be held back."""

import itertools
import os
import sys

import fixture
import talk
from lines import MARK

PROGRAM, PEER = "vaultctl", "sqlite3"


def words(who, program, path):
    """The words that have the program, or the peer, answer lines over a file."""
    peer = [sys.executable, fixture.PEER]
    return [*([program, "replay"] if who == PROGRAM else peer), path]


def ask(process, asked, what):
    """The seconds that lines take, and those of a processor; each has to be done."""
    replies, seconds, processor = process.ask([*asked, MARK])
    for reply in replies:
        if not reply.startswith(b'{"ok":'):
            sys.exit(f"{what}: {reply[:200]!r}")
    return seconds, processor


class Pair:
    """The program and the peer, each over a copy of a file; or the program alone. The peer's copy has the pages of a
    file that SQLite made, or those of the program's file."""

    def __init__(self, program, whole, folder, both=True, same_pages=False):
        self.talks = {}
        for who in (PROGRAM, PEER) if both else (PROGRAM,):
            path = fixture.copy(whole, folder / f"{who}.vault")
            if who == PEER and not same_pages:
                fixture.with_stock_pages(path)
            self.talks[who] = talk.Talk(words(who, program, path))
        # What was copied is on the disk before either begins.
        os.sync()

    def measure(self, results, what, size, source, turns, ops, alone=False):
        """Has them, or the program alone, take that many lines of a source in each turn, and notes the times for one
        line."""
        asked = [list(itertools.islice(source, ops)) for _ in range(turns + 1)]
        order = [PROGRAM] if alone else list(self.talks)
        for turn, some in enumerate(asked):
            for who in order:
                seconds, processor = ask(self.talks[who], some, what)
                if turn > 0:
                    results.note(what, size, who, seconds / ops, processor / ops)
            order.reverse()

    def end(self, results, what, size):
        """Ends both, and notes the most memory that each had."""
        for who, process in self.talks.items():
            results.note_memory(what, size, who, process.end())
