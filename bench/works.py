"""Work over many entries at once: lifecycle runs, and intakes of folders."""

import itertools
import json
import shutil
import sys

import fixture
import lines
import talk
from turns import PROGRAM, Pair

# Files of that many bytes are taken in.
FILE_SIZES = {"small": fixture.CONTENT, "large": 1 << 20}
# The vault that they are taken into.
SMALL = fixture.Shape(100)
# A run of more changes is made once.
MANY_CHANGES = 10_000


def run_once(vaults, shape):
    """The seconds of a run that puts a marker on each key, those of a processor, and the most memory."""
    path = fixture.copy(vaults.of(shape), vaults.folder / "run.vault")
    process = talk.Talk([vaults.program, "replay", path])
    process.ask([lines.MARK])
    later = {"at": fixture.LATER, "as": "ann", "bucket": "docs"}
    asked = [{**later, "do": "run"}, {**later, "do": "get", "key": fixture.LONG_KEY, "id": 1}]
    replies, seconds, processor = process.ask([json.dumps(it) for it in asked])
    if json.loads(replies[0])["ok"]["changes"] != shape.entries:
        sys.exit(f"run: {replies[0]!r}")
    return seconds, processor, process.end()


def runs(wanted, vaults, results):
    """Lifecycle runs that put a marker on each key, by one change."""
    for size in wanted.sizes:
        for _ in range(wanted.repeat if size <= MANY_CHANGES else 1):
            seconds, processor, most = run_once(vaults, fixture.Shape(size))
            results.note("lifecycle run, a change", size, PROGRAM, seconds / size, processor / size)
            results.note_memory("lifecycle run, a change", size, PROGRAM, most)


def make_files(folder, count, size):
    """A folder with that many files, and a list of them."""
    files = folder / "files"
    files.mkdir()
    rows = ["file,key,mode,until,hold"]
    for i in range(count):
        (files / f"{i}.txt").write_bytes(fixture.content(i, size))
        rows.append(f"{i}.txt,taken/{i:07},,,")
    listed = folder / "list.csv"
    listed.write_text("\n".join(rows) + "\n")
    return files, listed


def intake_once(vaults, files, listed, count):
    """The seconds of an intake, with the opening and closing of a small vault; those of a processor; the most memory."""
    path = fixture.copy(vaults.of(SMALL), vaults.folder / "intake.vault")
    asked = [path, "docs", "batch", listed, files, "--as", "ann", "--at", fixture.AT]
    printed, *measured = talk.run([vaults.program, "intake", *asked])
    if printed.count(" admitted ") != count:
        sys.exit(f"intake: {printed[-200:]!r}")
    return measured


def intakes(wanted, vaults, results):
    """Intakes of folders, by one file: of small files, and of large ones."""
    for kind, count in wanted.files.items():
        folder = vaults.folder / kind
        folder.mkdir()
        files, listed = make_files(folder, count, FILE_SIZES[kind])
        for _ in range(wanted.repeat):
            seconds, processor, most = intake_once(vaults, files, listed, count)
            results.note(f"intake, a {kind} file", count, PROGRAM, seconds / count, processor / count)
            results.note_memory(f"intake, a {kind} file", count, PROGRAM, most)
        shutil.rmtree(folder)


def removed(wanted, vaults, results):
    """Work on a key of which many versions were removed and one is held, and on a key of one version."""
    shape = fixture.Shape(1_000, removed=wanted.removed)
    few = max(1, wanted.ops // 10)
    pair = Pair(vaults.program, vaults.of(shape), vaults.folder, both=False)
    for do in ("list-versions", "head", "get", "run", "put"):
        for bucket, size in (("old", wanted.removed), ("new", 0)):
            pair.measure(results, f"{do}, {bucket} key", size, on_key(do, bucket), wanted.turns, few)
    pair.end(results, "put, old key", wanted.removed)


def listings(wanted, vaults, results):
    """One entry by the first prefix of many keys and by the last, and one of a key with ten held versions and of a key
    with many."""
    shape = fixture.Shape(max(wanted.sizes), versions=wanted.versions)
    few = max(1, wanted.ops // 30)
    pair = Pair(vaults.program, vaults.of(shape), vaults.folder, both=False)
    for name, number in (("first", 1), ("last", shape.entries - 1)):
        source = lines.list_by_prefix(shape, number)
        pair.measure(results, f"one by the {name} prefix", shape.entries, source, wanted.turns, few)
    for bucket, size in (("flat", fixture.TEN), ("deep", wanted.versions)):
        pair.measure(results, "one of a key's versions", size, lines.list_one_of(bucket), wanted.turns, few)
    pair.end(results, "one by the last prefix", shape.entries)


def removals(wanted, vaults, results):
    """Removals of versions by their numbers."""
    for size in wanted.sizes:
        shape = fixture.Shape(size)
        few = min(wanted.ops, size // (wanted.turns + 1) - 1)
        pair = Pair(vaults.program, vaults.of(shape), vaults.folder, both=False)
        pair.measure(results, "delete-version", size, lines.remove(shape), wanted.turns, few)
        pair.end(results, "delete-version", size)


def move_once(vaults, shape):
    """The seconds of a move of the bucket with all entries, those of a processor, and the most memory."""
    path = fixture.copy(vaults.of(shape), vaults.folder / "move.vault")
    process = talk.Talk([vaults.program, "replay", path])
    process.ask([lines.MARK])
    by_registrar = {"at": fixture.AT, "as": "registrar"}
    asked = [
        {**by_registrar, "do": "add-dept", "dept": "court"},
        {**by_registrar, "do": "move-bucket", "bucket": "docs", "dept": "court"},
        {**by_registrar, "do": "add-caller", "caller": "cas", "dept": "court", "rights": ["get"]},
        {"at": fixture.AT, "as": "cas", "do": "get", "bucket": "docs", "key": fixture.LONG_KEY},
    ]
    replies, seconds, processor = process.ask([json.dumps(it) for it in asked])
    if any(not it.startswith(b'{"ok":') for it in replies):
        sys.exit(f"move: {replies!r}"[:400])
    return seconds, processor, process.end()


def moves(wanted, vaults, results):
    """Moves of a bucket to another department, by one held version."""
    for size in wanted.sizes:
        for _ in range(wanted.repeat):
            seconds, processor, most = move_once(vaults, fixture.Shape(size))
            results.note("move of a bucket, a version", size, PROGRAM, seconds / size, processor / size)
            results.note_memory("move of a bucket, a version", size, PROGRAM, most)


# A rule whose prefix no key of a fixture has.
NO_KEY = [{"ID": "none", "Prefix": "1999/", "Status": "Enabled", "Expiration": {"Days": 1}}]


def rule(wanted, vaults, results):
    """Lifecycle runs of a bucket whose one rule fits no key. The time is that of a whole run."""
    for size in wanted.sizes:
        pair = Pair(vaults.program, vaults.of(fixture.Shape(size)), vaults.folder, both=False)
        given = itertools.repeat(lines.line("set-rules", bucket="docs", rules=NO_KEY))
        pair.measure(results, "set-rules", size, given, 1, 1)
        asked = itertools.repeat(lines.line("run", bucket="docs"))
        pair.measure(results, "run, a rule for no key", size, asked, wanted.turns, 1)
        pair.end(results, "run, a rule for no key", size)


def on_key(do, bucket):
    """Lines on the one key of a bucket."""
    more = {"head": {"key": "key"}, "get": {"key": "key"}, "put": {"key": "key", "text": "p" * fixture.CONTENT}}
    while True:
        yield lines.line(do, bucket=bucket, **more.get(do, {}))
