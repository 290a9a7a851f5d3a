"""What refuse-growths and refuse-copies share: the words that both take, and a program that `rt try` builds, of which each
copy has one of its allocations refused."""

import argparse
import contextlib
import os
import pathlib
import pickle
import re
import sys
import time

TOP = pathlib.Path(__file__).resolve().parents[2]
sys.path[:0] = [str(TOP), str(TOP / "tools" / "build")]
from unproved import built

from trials.parts.in_turn import NEVER

# The environment of a run, as empty as that of `rt try`.
NO_WORDS: dict[str, str] = {}
# The status of a run that takes longer than its limit.
ENDLESS = -1
# How many runs in a row that nothing troubled end the search.
ENOUGH = 60


def parser(about: str | None, proved: str) -> argparse.ArgumentParser:
    """The options that both take. `proved` is the name of what is given with `--proved`."""
    words = argparse.ArgumentParser(description=about, formatter_class=argparse.RawDescriptionHelpFormatter)
    words.add_argument("--from", type=int, dest="first", metavar="N")
    words.add_argument("--most", type=int, default=1_000_000, metavar="N")
    words.add_argument("--step", type=int, default=1, metavar="N")
    words.add_argument("--jobs", type=int, default=len(os.sched_getaffinity(0)), metavar="N")
    words.add_argument("--limit", type=int, default=120, metavar="SECONDS")
    words.add_argument("--keep", metavar="FILE")
    words.add_argument("--proved", metavar=proved)
    return words


def places_of(program):
    """Where that number is compared with the count of allocations: for a new one, and for one that grows."""
    places = [it.start() for it in re.finditer(re.escape(NEVER.to_bytes(4, "little")), program)]
    compares = [it for it in places if program[it - 2 : it] == b"\x48\x3d"]
    if len(places) != 2 or compares != places:
        sys.exit(f"the number stands in {len(places)} places of the program, {len(compares)} of them a comparison")
    return places


class Refusing:
    """A program of which each copy has one of its allocations refused, as `rt try --fail-alloc N` has the Nth.

    `rt try` would build it anew for each N. So it is built once, and each N is put into a copy. What was built
    stays in the file `kept`, if one is given, and is taken from there."""

    def __init__(self, options, crate, folder, kept=None):
        self.folder = pathlib.Path(folder)
        file = pathlib.Path(kept) if kept else self.folder / "built"
        if not file.exists():
            found, said = built(["--fail-alloc", str(NEVER), *options], crate, self.folder)
            if not found:
                sys.exit(f"rt try doesn't run {crate}:\n{said[-2000:]}")
            file.write_bytes(pickle.dumps(found))
        self.front, self.bytes = pickle.loads(file.read_bytes())
        self.places = places_of(self.bytes)

    @contextlib.contextmanager
    def refusing(self, number):
        """The words that run a copy in which that allocation is refused; with `NEVER` none is."""
        copy = self.folder / f"program-{number}-{time.monotonic_ns()}"
        there = bytearray(self.bytes)
        for place in self.places:
            there[place : place + 4] = number.to_bytes(4, "little")
        copy.write_bytes(there)
        copy.chmod(0o700)
        try:
            yield [*self.front, str(copy)]
        finally:
            copy.unlink()
