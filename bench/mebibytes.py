"""What a MiB of content takes on each way into a vault and out of it. Beside it stands `sha256sum` of the same bytes,
as whatever comes in is digested."""

import itertools
import sys

import fixture
import lines
import served
import talk
import works
from turns import PROGRAM, Pair, ask

MIB = 1 << 20
SUM = "sha256sum"
# The ways, as the rows are called.
BY_HTTP, BY_LINE, BY_LIST = "PUT over HTTP", "put of a script", "intake of files"
OUT_BY_HTTP, OUT_BY_LINE = "GET over HTTP", "get of a script"


class Ways:
    """The ways into a vault and out of it, each over a copy of one vault, and the files whose bytes go along them."""

    def __init__(self, vaults, count):
        self.vaults, self.count, self.shape = vaults, count, fixture.Shape(count + 1, size=MIB)
        folder = vaults.folder / "mebibytes"
        folder.mkdir()
        self.files, self.listed = works.make_files(folder, count, MIB)
        self.server = served.Server(vaults, self.shape)
        self.pair = Pair(vaults.program, vaults.of(self.shape), vaults.folder, both=False)
        self.puts, self.gets = lines.put_new(self.shape), lines.get(self.shape)

    def by_lines(self, source, what):
        return ask(self.pair.talks[PROGRAM], list(itertools.islice(source, self.count)), what)

    def by_requests(self, make):
        seconds, processor, _ = self.server.take([make(i) for i in range(self.count)], 1)
        return seconds, processor

    def by_list(self):
        seconds, processor, _ = works.intake_once(self.vaults, self.files, self.listed, self.count)
        return seconds, processor

    def digests(self):
        """The times that `sha256sum` takes for the files, from its start to its end."""
        names = sorted(str(it) for it in self.files.iterdir())
        printed, seconds, processor, _ = talk.run([SUM, *names])
        if len(printed.splitlines()) != self.count:
            sys.exit(f"{SUM}: {printed[-200:]!r}")
        return seconds, processor

    def take(self):
        """The times of each way, all contents once."""
        yield BY_HTTP, self.by_requests(lambda _: self.server.put(MIB))
        yield BY_LINE, self.by_lines(self.puts, BY_LINE)
        yield BY_LIST, self.by_list()
        yield OUT_BY_HTTP, self.by_requests(self.server.get)
        yield OUT_BY_LINE, self.by_lines(self.gets, OUT_BY_LINE)

    def end(self, results):
        results.note_memory(BY_HTTP, self.count, PROGRAM, self.server.end())
        self.pair.end(results, BY_LINE, self.count)


def by_way(wanted, vaults, results):
    """So many contents of 1 MiB in each turn, by each way; the first turn isn't counted."""
    count = wanted.mebibytes
    ways = Ways(vaults, count)
    for turn in range(wanted.turns + 1):
        digests = [it / count for it in ways.digests()]
        for what, (seconds, processor) in ways.take():
            if turn > 0:
                results.note(what, count, PROGRAM, seconds / count, processor / count)
                results.note(what, count, SUM, *digests)
    ways.end(results)
