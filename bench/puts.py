"""Durable puts, and reads, of the program and the peer in turns."""

import fixture
import lines
from turns import Pair


def kinds(entries):
    """Vaults that differ from the first in one thing; those of large contents have fewer entries."""
    return {
        "keys in order": fixture.Shape(entries),
        "keys in a random order": fixture.Shape(entries, scattered=True),
        "a hundred departments": fixture.Shape(entries, departments=100),
        "contents of 100 KiB": fixture.Shape(entries * 3 // 100, size=100 << 10),
        "contents of 1 MiB": fixture.Shape(entries * 3 // 1_000, size=1 << 20),
    }


def by_size(wanted, vaults, results, same_pages=False):
    """Puts on new keys, and on keys that have a version, in vaults of rising size, each time on new copies, so that a
    small vault stays small. The peer's file has the pages that SQLite gives to a new one."""
    for size in wanted.sizes:
        for _ in range(wanted.repeat):
            once(fixture.Shape(size), wanted, vaults, results, same_pages)


def once(shape, wanted, vaults, results, same_pages):
    """The turns over one copy each."""
    size = shape.entries
    pair = Pair(vaults.program, vaults.of(shape), vaults.folder, same_pages=same_pages)
    pair.measure(results, "put, new key", size, lines.put_new(shape), wanted.turns, wanted.ops)
    pair.measure(results, "put, key with versions", size, lines.put_again(shape), wanted.turns, wanted.ops)
    pair.end(results, "put, new key", size)


def by_size_of_our_pages(wanted, vaults, results):
    """The same, where the peer's file has the pages of the program's own."""
    by_size(wanted, vaults, results, same_pages=True)


def by_kind(wanted, vaults, results):
    """Puts on new keys of one size of vault, in vaults that differ in one thing."""
    for name, shape in kinds(wanted.entries).items():
        pair = Pair(vaults.program, vaults.of(shape), vaults.folder)
        ops = max(1, min(wanted.ops, wanted.ops * 16_384 // shape.size))
        pair.measure(results, name, shape.entries, lines.put_new(shape), wanted.turns, ops)
        pair.end(results, name, shape.entries)


def reads(wanted, vaults, results):
    """Gets of the current version, sums of a department, and pages of a listing, which the peer doesn't know."""
    for size in wanted.sizes:
        shape = fixture.Shape(size)
        pair = Pair(vaults.program, vaults.of(shape), vaults.folder)
        pair.measure(results, "get", size, lines.get(shape), wanted.turns, wanted.ops)
        pair.measure(results, "report", size, lines.report(shape), wanted.turns, wanted.ops)
        few = max(1, wanted.ops // 5)
        pair.measure(results, "list 100 versions", size, lines.list_page(shape), wanted.turns, few, alone=True)
        pair.end(results, "get", size)
