"""How long it takes to open a vault and to look through all of it, and how much memory: by its entries and by the bytes
of its contents."""

import contextlib
import sqlite3
import sys
import time

import fixture
import lines
import talk
from turns import PEER, PROGRAM, words

MIB = 1 << 20
# How often the bytes of its contents have to be free as memory before a vault is opened here.
ENOUGH = 3


def open_once(vaults, who, path):
    """The seconds from a start to the first reply, those of a processor, and the most memory until then."""
    process = talk.Talk(words(who, vaults.program, path))
    process.ask([lines.line("report", dept="records"), lines.MARK])
    seconds = time.perf_counter() - process.began
    processor = talk.processor_time(process.process.pid)
    return seconds, processor, process.end()


def verify(vaults, path):
    printed, seconds, processor, most = talk.run([vaults.program, "verify", path])
    if printed != "sound\n":
        raise talk.Ended(f"{path}: {printed}")
    return seconds, processor, most


def integrity(path):
    """The same of SQLite's own checks of a file, but for the memory."""
    began, before = time.perf_counter(), time.process_time()
    with contextlib.closing(sqlite3.connect(path)) as connection:
        if connection.execute("PRAGMA integrity_check").fetchall() != [("ok",)]:
            sys.exit(f"{path}: not as SQLite wants it")
        if connection.execute("PRAGMA foreign_key_check").fetchall():
            sys.exit(f"{path}: a foreign key leads nowhere")
    return time.perf_counter() - began, time.process_time() - before, 0


def note(results, what, size, who, measured):
    seconds, processor, most = measured
    results.note(what, size, who, seconds, processor)
    results.note_memory(what, size, who, most)


def measure(wanted, vaults, results, shape, size):
    """Opens and verifies a vault, again and again; SQLite's checks stand beside `verify`. How long it took to make the
    file stands there too."""
    path = vaults.of(shape)
    for _ in range(wanted.repeat):
        for who in (PROGRAM, PEER):
            note(results, "open to first reply", size, who, open_once(vaults, who, path))
        note(results, "verify", size, PROGRAM, verify(vaults, path))
        note(results, "verify", size, PEER, integrity(path))
    results.note("the file, made", size, PEER, *vaults.took[shape])


def by_size(wanted, vaults, results):
    """Vaults of rising numbers of entries of 100 bytes."""
    for size in wanted.sizes:
        measure(wanted, vaults, results, fixture.Shape(size), size)


def by_departments(wanted, vaults, results):
    """Vaults whose entries are in buckets of one department and of a hundred, opened in turn; the size that is told is
    the number of departments."""
    shapes = {count: fixture.Shape(wanted.entries, departments=count) for count in (1, 100)}
    for _ in range(wanted.turns):
        for count, shape in shapes.items():
            path = vaults.of(shape)
            note(results, "open to first reply", count, PROGRAM, open_once(vaults, PROGRAM, path))
            note(results, "verify", count, PROGRAM, verify(vaults, path))


def by_bytes(wanted, vaults, results):
    """Vaults of rising bytes of contents of 1 MiB; the size is given in MiB. Each is removed after it. What the
    machine may have too little memory for isn't measured; where there was too little all the same, it is told."""
    for mebibytes in wanted.volumes:
        if talk.free_memory() - talk.SPARED < ENOUGH * mebibytes * MIB:
            print(f"volume: too little memory is free for {mebibytes:,} MiB of contents", flush=True)
            continue
        shape = fixture.Shape(mebibytes, size=MIB)
        try:
            measure(wanted, vaults, results, shape, mebibytes)
        except talk.Ended as ended:
            print(f"volume: {mebibytes:,} MiB of contents: {ended}", flush=True)
        vaults.drop(shape)
