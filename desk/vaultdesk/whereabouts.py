"""Where the bytes of a document are, or may be still, of all that the desk knows: where."""

from __future__ import annotations

import argparse
import hashlib
import json
from collections.abc import Iterator, Sequence
from contextlib import contextmanager
from dataclasses import dataclass
from pathlib import Path
from typing import Any

from vaultdesk import conf, copies, moments, reading, snapshot, wiped
from vaultdesk.engine import Engine
from vaultdesk.errors import DeskError, UsageError
from vaultdesk.output import counted_off, print_json, print_rows, shown
from vaultdesk.wiped import Wipes

HAS, MAY, NONE, UNKNOWN = "has them", "may have them", "has none", "isn't known"
COLUMNS = ("bytes", "kind", "versions", "place")
ENTRIES = "SELECT id, bucket, key, lower(hex(digest)), removed FROM entries WHERE digest IS NOT NULL AND "
SAME = "SELECT id, removed FROM entries WHERE digest = ? ORDER BY id"
OF_WIPE = ".wiping"  # after the vault's name: a file that a wipe was ended at
UNREAD = ": it can't be read: "
ELSEWHERE = "Not looked at: what was exported, printed, mailed or copied otherwise, as no vault knows of that."
ABOUT = """Says which files have the bytes of a version, by its digest, so under whichever key: the vault's, its copies
in BACKUP and in each --folder, and what restores, journals and a standby keep beside it. What holds the content in a
version has them. Where such a version was removed they may be in parts of the file that nothing uses, until it is
wiped. Of a second machine nothing is known here: ask there, with --vault."""
Row = dict[str, Any]


@dataclass(frozen=True)
class Version:
    """A version that is meant: `removed` is the moment of its removal, empty while it is held."""

    number: int
    bucket: str
    key: str
    digest: str
    removed: str

    def __str__(self) -> str:
        state = f"removed {self.removed}" if self.removed else "held"
        return f"version {self.number}, {state}, {self.bucket}: {shown(self.key)}"


@dataclass(frozen=True)
class Place:
    """A file that may have the bytes, and what kind of file that is."""

    kind: str
    path: Path


# ---- which versions


def _versions(file: Path, condition: str, *values: Any) -> list[Version]:
    found = reading.rows(file, ENTRIES + condition + " ORDER BY id", values)
    return [
        Version(number, bucket, key, digest, "" if removed is None else moments.of_seconds(removed))
        for number, bucket, key, digest, removed in found
    ]


def _meant(engine: Engine, words: argparse.Namespace) -> list[Version]:
    """The versions that the words mean: of a key all that ever were. `DeskError` where there is none."""
    file, is_number = engine.tables, str(words.key or words.place).isdecimal()
    if words.key is None and not is_number:
        raise UsageError(f"{words.place!r} is no version's number: give one, or BUCKET and KEY")
    if words.key is None:
        found = _versions(file, "id = ?", int(words.place))
    else:
        found = _versions(file, "bucket = ? AND key = ?", words.place, words.key)
        if not found and is_number:
            found = _versions(file, "bucket = ? AND id = ?", words.place, int(words.key))
    if not found:
        raise DeskError("the vault never had such a document with a content: vaultdesk find lists those there are")
    return found


# ---- which files


def _within(folder: Path, *names: str) -> Iterator[Path]:
    """The files of these names in each folder within a folder, but for what a link leads to."""
    there = sorted(it for it in folder.iterdir() if it.is_dir() and not it.is_symlink()) if folder.is_dir() else []
    yield from (it / name for it in there for name in names if (it / name).is_file())


def places(file: Path, folders: Sequence[Path]) -> Iterator[Place]:
    """The files beside a vault, and in the folders of its copies, that may have what it has or had."""
    name, beside = file.name.removesuffix(".vault"), file.parent
    for folder in folders:
        yield from (Place("copy", it) for it in copies.found_in(folder, name) if it.suffix != ".vault-wal")
    replaced = (it for it in _within(beside, file.name) if it.parent.name.endswith(".replaced"))
    yield from (Place("replaced", it) for it in replaced if it.parent.name.startswith(f"{name}-"))
    for ending, kind in ((".restored", "restore"), (".whole", "restore"), (OF_WIPE, "wipe")):
        left = beside / f"{file.name}{ending}"
        yield from [Place(f"left of a {kind}", left)] if left.is_file() else []
    for it in _within(beside / f"{name}.journals", file.name, "journal"):
        yield Place("journal" if it.name == "journal" else "copy of a journal", it)
    yield from (Place("standby", it) for it in _within(beside / f"{name}.standby", file.name))


def on_other(machine: str, file: Path) -> str:
    """Where a second machine has the copies with which it follows a vault."""
    return f"{machine}: {conf.vaults_folder()}/{file.name.removesuffix('.vault')}.standby: ask there"


def configured(file: Path) -> conf.Configuration | None:
    """The configuration of a vault with units; none of another one."""
    name = file.name.removesuffix(".vault")
    is_one = conf.is_configured(name) and file.resolve() == (conf.vaults_folder() / f"{name}.vault").resolve()
    return conf.read(name) if is_one else None


# ---- what they have


def _in_tables(file: Path, digest: str, wipes: Wipes) -> tuple[str, Sequence[int]]:
    """Whether a vault's file has the bytes of that digest, and in which versions it had them."""
    found = reading.rows(file, SAME, (bytes.fromhex(digest),))
    held = [number for number, removed in found if removed is None]
    if held:
        return HAS, held
    is_wiped = all(wipes.when(number, moments.of_seconds(removed)) for number, removed in found)
    return NONE if is_wiped else MAY, [number for number, _ in found]


@contextmanager
def tables_of(copy: Path) -> Iterator[Path]:
    """A file whose tables can be read, as `snapshot.readable` has it, of a copy, beside which nothing is left."""
    index = Path(f"{copy}-shm")
    had_index = index.exists()
    with snapshot.readable(copy) as there:
        yield there
    if not had_index:  # SQLite leaves it beside a file whose log it reads
        index.unlink(missing_ok=True)


def _in_copy(file: Path, digest: str, vault: Path) -> tuple[str, Sequence[int]]:
    with tables_of(file) as there:
        return _in_tables(there, digest, wiped.of(vault, file))


def _content(line: bytes) -> bytes | None:
    """The content that a line of a journal puts; none where it puts none."""
    try:
        found = json.loads(line)
        return bytes.fromhex(found["hex"]) if "hex" in found else str(found["text"]).encode()
    except (ValueError, KeyError, TypeError):
        return None


def digests_in(journal: Path) -> Iterator[str]:
    """The digests of the contents that the lines of a journal put."""
    with journal.open("rb") as lines:
        for content in map(_content, lines):
            if content is not None:
                yield hashlib.sha256(content).hexdigest()


def _in_journal(file: Path, digest: str) -> tuple[str, Sequence[int]]:
    return (HAS if digest in digests_in(file) else NONE), []


def _row(place: Place, digest: str, vault: Path) -> Row:
    """What a file has. One that can't be read may have anything."""
    try:
        is_journal = place.kind == "journal"
        state, versions = _in_journal(place.path, digest) if is_journal else _in_copy(place.path, digest, vault)
    except (DeskError, OSError) as error:
        return _line(UNKNOWN, place.kind, [], f"{place.path}{UNREAD}{error}")
    return _line(state, place.kind, versions, str(place.path))


def _line(state: str, kind: str, versions: Sequence[int], place: str) -> Row:
    return {"bytes": state, "kind": kind, "versions": " ".join(map(str, versions)), "place": place}


def _rows(engine: Engine, there: Sequence[Place], digest: str, machine: str) -> Iterator[Row]:
    vault = engine.desk.file
    state, versions = _in_tables(engine.tables, digest, wiped.of(vault, engine.tables))
    yield _line(state, "vault", versions, str(vault))
    for it in counted_off(there, "files were looked at"):
        yield _row(it, digest, vault)
    if machine:
        yield _line(UNKNOWN, "standby", [], on_other(machine, vault))


def _print(answers: Sequence[tuple[Sequence[Version], Sequence[Row]]]) -> None:
    """Prints what was found of each content, and what wasn't looked at."""
    for those, rows in answers:
        print("\n".join(map(str, those)))
        print(f"sha256 {those[0].digest}")
        print_rows(rows, COLUMNS)
    print(ELSEWHERE)


def where(engine: Engine, words: argparse.Namespace) -> None:
    """Prints which files have the bytes of the versions that are meant. `DeskError` where one can't be read."""
    meant, file = _meant(engine, words), engine.desk.file
    found = configured(file)
    folders = [*map(Path, words.folder or []), *([found.backup()] if found and found.backup().is_dir() else [])]
    there, machine = list(places(file, folders)), found.standby() if found else ""
    by_digest: dict[str, list[Version]] = {}
    for it in meant:
        by_digest.setdefault(it.digest, []).append(it)
    answers = [(those, list(_rows(engine, there, digest, machine))) for digest, those in by_digest.items()]
    if words.json:
        asked = [{"sha256": it[0].digest, "asked": [one.number for one in it]} for it, _ in answers]
        print_json([{**it, "places": rows} for it, (_, rows) in zip(asked, answers, strict=True)])
    else:
        _print(answers)
    unread = {it["place"] for _, rows in answers for it in rows if UNREAD in it["place"]}
    if unread:
        raise DeskError(f"{len(unread)} files can't be read, and may have them: ask as the vault's owner")


def add(commands: argparse._SubParsersAction[argparse.ArgumentParser], common: argparse.ArgumentParser) -> None:
    """Adds the subcommand to the desk's words."""
    what = "which files still have a document's bytes: the vault, its copies, journals and standbys"
    example = "Examples: vaultdesk where 17; vaultdesk where letters 2025/002 --folder /mnt/usb"
    it = commands.add_parser("where", parents=[common], help=what, description=ABOUT, epilog=example)
    it.add_argument("place", metavar="BUCKET|N", help="a version's number, or the bucket of KEY")
    it.add_argument("key", nargs="?", metavar="KEY", help="all versions of that key; or a version's number")
    it.add_argument("--folder", action="append", metavar="FOLDER", help="also the copies of the vault that lie there")
    it.set_defaults(run=where)
