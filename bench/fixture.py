"""Vaults of any size, made at once: the program makes a new vault, and rows are added behind its back.

What is added has to be sound, or the program refuses the file: so each fixture is audited as it is opened.
"""

import contextlib
import dataclasses
import hashlib
import pathlib
import shutil
import sqlite3
import subprocess
import time

PEER = pathlib.Path(__file__).resolve().parent / "peer.py"

# The moment of all that a fixture has, and its text.
MOMENT = 1_704_067_200
AT = "2024-01-01T00:00:00Z"
DAY = MOMENT // 86_400
# Two days later everything is due under a rule with Days 1.
LATER = "2024-01-03T00:00:00Z"

CONTENT = 100
# The reply to a get of this version is above 65,536 bytes, what the program holds back at most: it is written
# at once, and with it all replies before it.
LONG = 40_000
LONG_KEY = "long"

EVERY_RIGHT = 4095
# How many versions the other key has.
TEN = 10
# The bytes of a page in a file as SQLite makes it.
STOCK_PAGE = 4_096


@dataclasses.dataclass(frozen=True)
class Shape:
    """What a vault has when it is measured."""

    entries: int
    # They are put into the buckets of that many departments in turn.
    departments: int = 1
    # The bytes of a content; the first one is the long one all the same.
    size: int = CONTENT
    # Whether the keys come in a random order, or each after the one before.
    scattered: bool = False
    # How many versions of one key, in a bucket of its own, were removed; one more is held.
    removed: int = 0
    # How many versions of one key, in a bucket of its own, are held; a key of another bucket has ten.
    versions: int = 0

    def key(self, i):
        """The key of an entry of this number, and of those that are put later."""
        if not self.scattered:
            return f"2024/{i:07}"
        return f"{hashlib.md5(str(i).encode()).hexdigest()[:8]}/{i:07}"

    def sizes(self):
        """The bytes that each department holds in its common bucket."""
        held = [0] * self.departments
        for i in range(self.entries):
            held[i % self.departments] += self.size if i else LONG
        return held


def name_of(kind, department):
    """The name of the department, the caller or the bucket (`records`, `ann`, `docs`) of this number, from 0 on."""
    return f"{kind}-{department}" if department else kind


def content(i, size):
    return (f"entry {i} ".encode() * (size // 8 + 1))[:size]


def entries(shape):
    """The number, department, key and bytes of each entry; the first is the long one."""
    yield 1, 0, LONG_KEY, b"x" * LONG
    for i in range(1, shape.entries):
        yield i + 1, i % shape.departments, shape.key(i), content(i, shape.size)


def fill_departments(connection, shape):
    """Adds departments, each with a caller with every right and a bucket with a rule."""
    for number, held in enumerate(shape.sizes()):
        dept, bucket = name_of("records", number), name_of("docs", number)
        execute = connection.execute
        execute("INSERT INTO departments VALUES (?1, ?2, ?2, 0, ?3, 0, 0, 0)", (dept, held, held * DAY))
        execute("INSERT INTO callers VALUES (?, ?, ?, 0)", (name_of("ann", number), dept, EVERY_RIGHT))
        execute("INSERT INTO buckets VALUES (?, ?, 0, NULL, NULL)", (bucket, dept))
        execute("INSERT INTO rules VALUES (?, 1, 'expire', '', 1, 1, 0, NULL, NULL, NULL, NULL)", (bucket,))


def add_tenures(connection):
    """Adds the tenure of each entry that has none: of its bucket's department, from its admission."""
    connection.execute(
        "INSERT INTO tenures SELECT entries.id, 0, dept, admitted FROM entries JOIN buckets ON name = bucket"
        " WHERE entries.id > (SELECT coalesce(max(id), 0) FROM tenures)"
    )


def fill_entries(connection, shape):
    """Adds the entries, each with its bytes, a setting, its tenure and the head of its key."""
    many, docs, ann = connection.executemany, "docs", "ann"
    many(
        "INSERT INTO entries VALUES (?, ?, ?, 0, ?, ?, ?, 0, ?, NULL, NULL, NULL)",
        (
            (n, name_of(docs, d), key, len(data), hashlib.sha256(data).digest(), MOMENT, name_of(ann, d))
            for n, d, key, data in entries(shape)
        ),
    )
    many("INSERT INTO contents VALUES (?, ?)", ((n, data) for n, _, _, data in entries(shape)))
    many(
        "INSERT INTO settings VALUES (?, 1, ?, ?, 0, NULL, 0, 0)",
        ((n, MOMENT, name_of(ann, d)) for n, d, _, _ in entries(shape)),
    )
    many("INSERT INTO heads VALUES (?, ?, ?, 1)", ((name_of(docs, d), key, n) for n, d, key, _ in entries(shape)))
    add_tenures(connection)


def fill_removed(connection, shape):
    """Adds the key of which all versions but the last are removed, in a bucket `old`, and a bucket `new` with a key of
    one version. Both have a rule under which nothing is due."""
    data = content(0, shape.size)
    digest, first = hashlib.sha256(data).digest(), shape.entries + 1
    last = first + shape.removed
    execute, many = connection.execute, connection.executemany
    for bucket in ("old", "new"):
        execute("INSERT INTO buckets VALUES (?, 'records', 0, NULL, NULL)", (bucket,))
        execute("INSERT INTO rules VALUES (?, 1, 'wait', '', 1, 3650, 0, 3650, NULL, NULL, NULL)", (bucket,))
    row = "INSERT INTO entries VALUES (?, ?, 'key', 0, ?, ?, ?, 0, 'ann', ?, ?, ?)"
    gone = (MOMENT, 0, "ann")
    many(row, ((n, "old", len(data), digest, MOMENT, *gone) for n in range(first, last)))
    for number, bucket in ((last, "old"), (last + 1, "new")):
        execute(row, (number, bucket, len(data), digest, MOMENT, None, None, None))
        execute("INSERT INTO contents VALUES (?, ?)", (number, data))
        execute("INSERT INTO heads VALUES (?, 'key', ?, 1)", (bucket, number))
    many(
        "INSERT INTO settings VALUES (?, 1, ?, 'ann', 0, NULL, 0, 0)",
        ((n, MOMENT) for n in range(first, last + 2)),
    )
    add_tenures(connection)
    removed, held = shape.removed * len(data), 2 * len(data)
    execute(
        "UPDATE departments SET admitted = admitted + ?1 + ?2, held = held + ?2, removed = removed + ?1,"
        " weighted = weighted + ?3 WHERE name = 'records'",
        (removed, held, held * DAY),
    )


def fill_versions(connection, shape):
    """Adds two keys with held versions alone: as many as the shape has in a bucket `deep`, and ten in a bucket `flat`.
    Returns how many entries these are."""
    data = content(0, shape.size)
    digest, first = hashlib.sha256(data).digest(), shape.entries + 1
    execute, many = connection.execute, connection.executemany
    for bucket, count in (("deep", shape.versions), ("flat", TEN)):
        numbers = range(first, first + count)
        execute("INSERT INTO buckets VALUES (?, 'records', 0, NULL, NULL)", (bucket,))
        row = "INSERT INTO entries VALUES (?, ?, 'key', 0, ?, ?, ?, 0, 'ann', NULL, NULL, NULL)"
        many(row, ((n, bucket, len(data), digest, MOMENT) for n in numbers))
        many("INSERT INTO contents VALUES (?, ?)", ((n, data) for n in numbers))
        many("INSERT INTO settings VALUES (?, 1, ?, 'ann', 0, NULL, 0, 0)", ((n, MOMENT) for n in numbers))
        execute("INSERT INTO heads VALUES (?, 'key', ?, ?)", (bucket, numbers[-1], count))
        first += count
    add_tenures(connection)
    held = (shape.versions + TEN) * len(data)
    execute(
        "UPDATE departments SET admitted = admitted + ?1, held = held + ?1, weighted = weighted + ?2"
        " WHERE name = 'records'",
        (held, held * DAY),
    )
    return shape.versions + TEN


def fill(connection, shape):
    """Adds all that the vault has, and what a new vault's `meta` says of it."""
    fill_departments(connection, shape)
    fill_entries(connection, shape)
    count = shape.entries
    if shape.removed:
        fill_removed(connection, shape)
        count += shape.removed + 2
    if shape.versions:
        count += fill_versions(connection, shape)
    connection.execute("UPDATE meta SET last = ?, next = ?", (MOMENT, count + 1))


def make(program, path, shape):
    """Makes a vault of this shape in a new file.

    The rows go into the file itself and not through its log, which would be as long again."""
    subprocess.run([program, "init", path], check=True)
    with contextlib.closing(sqlite3.connect(path)) as connection:
        connection.execute("PRAGMA synchronous = OFF")
        connection.execute("PRAGMA journal_mode = MEMORY")
        with connection:
            fill(connection, shape)
        connection.execute("PRAGMA journal_mode = WAL")


def copy(path, to):
    """A copy of a vault: its file, and its log where it has one; none of what stood there before is left."""
    for end in ("", "-wal"):
        pathlib.Path(f"{to}{end}").unlink(missing_ok=True)
        with contextlib.suppress(FileNotFoundError):
            shutil.copyfile(f"{path}{end}", f"{to}{end}")
    return to


def with_stock_pages(path):
    """Gives a file the pages that SQLite gives to a new one."""
    with contextlib.closing(sqlite3.connect(path, isolation_level=None)) as connection:
        connection.execute("PRAGMA journal_mode = DELETE")
        connection.execute(f"PRAGMA page_size = {STOCK_PAGE}")
        connection.execute("VACUUM")
        connection.execute("PRAGMA journal_mode = WAL")
    return path


class Vaults:
    """The vaults of a run of the bench, each made when it is first asked for; of each shape the seconds that it took
    to make, and those of this process's processor."""

    def __init__(self, program, folder):
        self.program, self.folder, self.made, self.took, self.count = program, folder, {}, {}, 0

    def of(self, shape):
        """The file of a vault of this shape. It isn't to be changed: `copy` it first."""
        if shape not in self.made:
            self.count += 1
            path = self.folder / f"{self.count}.vault"
            began, before = time.perf_counter(), time.process_time()
            make(self.program, path, shape)
            self.took[shape] = time.perf_counter() - began, time.process_time() - before
            self.made[shape] = path
        return self.made[shape]

    def drop(self, shape):
        """Removes the vault of this shape, which was large."""
        path = self.made.pop(shape)
        for end in ("", "-wal"):
            pathlib.Path(f"{path}{end}").unlink(missing_ok=True)
