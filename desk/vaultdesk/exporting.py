"""Documents of a bucket written to a folder, or to a bag for an archive: export."""

from __future__ import annotations

import argparse
import contextlib
import csv
import errno
import io
import os
import re
import unicodedata
from collections.abc import Iterator, Mapping, Sequence
from pathlib import Path
from typing import Any, BinaryIO

from vaultdesk import __version__, bags, cards, config, events, mets, moments, premis, spreadsheet
from vaultdesk.documents import checked_content
from vaultdesk.engine import Engine
from vaultdesk.errors import DeskError, UsageError, of_file
from vaultdesk.output import counted_off, print_json, say, shown
from vaultdesk.people import all_of

LISTED = (
    "file", "key", "version", "size", "sha256", "admitted", "retention_mode", "retention_until", "legal_hold",
)  # fmt: skip
LIST, SHEET = "documents.csv", "documents.xlsx"
MOST_NAMED = 10  # how many of the other things in a folder are named
ENDING = re.compile(r"\.[A-Za-z0-9]{1,8}$")
LONGEST = 255  # bytes of a file's name
Entry = Mapping[str, Any]


def by_number(entry: Entry) -> str:
    """The name of a version's file: its number, as a key may have what no file's name can, and the key's ending."""
    ending = ENDING.search(entry["key"])
    return f"{entry['version_id']}{ending[0] if ending else ''}"


def can_be_path(key: str) -> bool:
    """Whether a key can be the path of a file below a folder, letter by letter."""
    parts = key.split("/")
    return all(it not in ("", ".", "..") and len(os.fsencode(it)) <= LONGEST and it.isprintable() for it in parts)


def _folded(name: str) -> str:
    """A name by which those are one that some systems take for the same file."""
    return unicodedata.normalize("NFC", name).casefold()


def _as_it_is(name: str) -> str:
    return name


def _named(entries: Sequence[Entry], by_key: bool, for_all: bool = False) -> Iterator[tuple[Entry, str]]:
    """Each entry with its file: by its key where that is asked, can be a path, and is no earlier file or folder; else
    by its number, at the top of the folder. `for_all`: also on systems for which capitals are small letters."""
    as_taken = _folded if for_all else _as_it_is
    taken, folders = {as_taken(it) for it in (LIST, SHEET)}, set[str]()
    for it in entries:
        key = as_taken(it["key"])
        above = {key[:place] for place, letter in enumerate(key) if letter == "/"}
        is_free = key not in taken | folders and not above & taken
        if by_key and can_be_path(it["key"]) and is_free and not (for_all and bags.is_encoded(key)):
            name = it["key"]
            folders |= above
        else:
            name = by_number(it)
            while as_taken(name) in taken | folders:
                name = f"_{name}"
        taken.add(as_taken(name))
        yield it, name


class Target:
    """The folder that documents are written to. Below it no link is followed: a file goes where its name says."""

    def __init__(self, path: Path, is_forced: bool) -> None:
        self.path, self.is_forced = path, is_forced
        path.mkdir(parents=True, exist_ok=True)
        self.others = {it.name for it in path.iterdir()}

    def open(self, name: str) -> BinaryIO:
        """A file below the folder, to be written. `DeskError` where a link is in the way, or a file that isn't to be
        written over."""
        *above, last = name.split("/")
        self.others.discard(above[0] if above else last)
        here = os.open(self.path, os.O_RDONLY | os.O_DIRECTORY)
        try:
            for it in above:
                with contextlib.suppress(FileExistsError):
                    os.mkdir(it, dir_fd=here)
                below = os.open(it, os.O_RDONLY | os.O_DIRECTORY | os.O_NOFOLLOW, dir_fd=here)
                os.close(here)
                here = below
            if self.is_forced:
                with contextlib.suppress(FileNotFoundError):
                    os.unlink(last, dir_fd=here)
            return open(os.open(last, os.O_WRONLY | os.O_CREAT | os.O_EXCL | os.O_NOFOLLOW, 0o600, dir_fd=here), "wb")
        except FileExistsError as error:
            raise DeskError(f"{self.path / name} is there already: give --force to write over it") from error
        except OSError as error:
            is_link = error.errno in (errno.ELOOP, errno.ENOTDIR)
            why = "a link or a file is in the place of a folder, and is left as it is" if is_link else error.strerror
            raise DeskError(f"{self.path / name}: {why}") from error
        finally:
            os.close(here)


def _look_empty(folder: Path) -> None:
    """`DeskError` where a folder has files."""
    first = min(folder.iterdir(), default=None) if folder.is_dir() else None
    if first:
        ways = "give --into-existing to write beside what is there, or --force to write over files of the same names"
        raise DeskError(f"{folder} has files already, {first.name} among them: name a new folder, {ways}")


def _got(engine: Engine, words: argparse.Namespace, entry: Entry, name: str) -> tuple[bytes, dict[str, Any]]:
    """The content of a version, and its row of the list, with its facts."""
    found = engine.ask("get", bucket=words.bucket, key=entry["key"], id=entry["version_id"])
    content, retention = checked_content(found), found["retention"] or {}
    row = {"file": name, "key": entry["key"], "version": entry["version_id"], "size": len(content)}
    row |= {"sha256": found["sha256"], "admitted": found["admitted"]}
    lock = {"retention_mode": retention.get("mode", ""), "retention_until": retention.get("until", "")}
    facts = cards.of(engine, words.bucket, entry["key"], found["sha256"]).shown()
    return content, {**row, **lock, "legal_hold": found["hold"], **facts}


def _exported(engine: Engine, words: argparse.Namespace, target: Target, entry: Entry, name: str) -> dict[str, Any]:
    """Writes a version to its file, and gives its row of the list."""
    content, row = _got(engine, words, entry, name)
    with target.open(name) as file:
        file.write(content)
    return row


def _listed(rows: Sequence[Mapping[str, Any]]) -> Sequence[str]:
    """The columns of the list: those of each, and the facts that some have."""
    return (*LISTED, *dict.fromkeys(it for row in rows for it in row if it not in LISTED))


def _csv(rows: Sequence[Mapping[str, Any]]) -> bytes:
    text = io.StringIO()
    writer = csv.DictWriter(text, _listed(rows), restval="", lineterminator="\n")
    writer.writeheader()
    writer.writerows(rows)
    return text.getvalue().encode()


def _list(target: Target, rows: Sequence[Mapping[str, Any]]) -> None:
    """Writes the lists: CSV, which has each key as it is, and a spreadsheet in which each cell is a text."""
    listed = _listed(rows)
    with target.open(LIST) as file:
        file.write(_csv(rows))
    if len(rows) >= spreadsheet.MOST_ROWS:
        say(f"{SHEET} isn't written, as a spreadsheet has at most {spreadsheet.MOST_ROWS - 1:,} rows")
        return
    with target.open(SHEET) as file:
        spreadsheet.write_to(file, "documents", [{it: str(row.get(it, "")) for it in listed} for row in rows], listed)


def _vault(engine: Engine) -> str:
    """How a bag names the vault."""
    return engine.desk.file.name.removesuffix(".vault")


def _info(engine: Engine, words: argparse.Namespace, now: str) -> dict[str, str]:
    """What a bag says of itself."""
    prefix = f" whose keys begin with {shown(words.prefix)}" if words.prefix else ""
    versions = ", older versions too" if words.all_versions else ""
    office = config.office_name()
    return {
        **({"Source-Organization": office} if office else {}),
        "External-Identifier": f"{_vault(engine)}/{words.bucket}/{now}",
        "External-Description": f"documents of the bucket {words.bucket}{prefix}{versions}; {bags.LIST} has their keys",
        "Internal-Sender-Identifier": engine.desk.caller,
        "Bagging-Date": now[:10],
        "Bag-Software-Agent": f"vaultdesk {__version__}",
    }


def _life(engine: Engine, words: argparse.Namespace, rows: Sequence[Mapping[str, Any]]) -> bytes:
    """What happened to the documents of these rows, and where older versions are asked for, to removed ones of their
    keys, in PREMIS."""
    lives, people = events.of_all(engine), all_of(engine.tables)
    documents = [premis.Document(lives[it["version"]], f"{bags.PAYLOAD}/{it['file']}") for it in rows]
    if words.all_versions:
        documents += premis.removed(lives.values(), words.bucket, {it["key"] for it in rows})
    return premis.content(_vault(engine), documents, people)


def _bag(engine: Engine, words: argparse.Namespace, entries: Sequence[Entry]) -> None:
    """Writes a bag of these documents, and says its digest."""
    if not entries:
        raise DeskError(f"{words.bucket} holds no such document: a bag has at least one; vaultdesk ls lists them")
    now = engine.at or moments.now()
    info, rows = _info(engine, words, now), []
    made = bags.Writer(Target(Path(words.folder), words.force).open)
    named = list(_named(entries, words.names, for_all=True))
    for it, name in counted_off(named, "documents are written"):
        content, row = _got(engine, words, it, name)
        made.payload(name, content)
        rows.append(row)
    made.tag(bags.LIST, listed := _csv(rows))
    if words.premis:
        made.tag(premis.FILE, life := _life(engine, words, rows))
        made.tag(mets.FILE, mets.content(info, now, (_vault(engine), words.bucket), rows, (listed, life)))
    digest = made.end(info)
    if words.json:
        print_json({**info, "manifest": digest, "documents": rows})
    else:
        print(f"{len(rows)} documents in the bag {words.folder}; the SHA-256 of its manifest-sha256.txt is\n{digest}")


def _folder(engine: Engine, words: argparse.Namespace, entries: Sequence[Entry]) -> None:
    """Writes these documents to a folder, with their list."""
    target = Target(Path(words.folder), words.force)
    named = counted_off(list(_named(entries, words.names)), "documents are written")
    rows = [_exported(engine, words, target, it, name) for it, name in named]
    _list(target, rows)
    if words.json:
        print_json(rows)
    else:
        print(f"{len(rows)} documents in {words.folder}; {LIST} and {SHEET} say which is which")
    if target.others:
        others = sorted(target.others)
        more = f" and {len(others) - MOST_NAMED:,} more" if len(others) > MOST_NAMED else ""
        say(f"also in {words.folder}, and not in the list: {', '.join(others[:MOST_NAMED])}{more}")


def export(engine: Engine, words: argparse.Namespace) -> None:
    """Writes the documents of a bucket to a folder, with a list that says which is which; or to a bag."""
    if words.bagit and (words.force or words.into_existing):
        raise UsageError("a bag is a new folder: leave --force and --into-existing out, or --bagit")
    if words.premis and not words.bagit:
        raise UsageError("--premis goes with --bagit")
    if not words.force and not words.into_existing:
        _look_empty(Path(words.folder))
    held = [it for it in engine.entries(words.bucket, words.prefix) if not it["delete_marker"]]
    entries = cards.without_facts([it for it in held if it["current"] or words.all_versions])
    try:
        (_bag if words.bagit else _folder)(engine, words, entries)
    except OSError as error:
        raise of_file(error.filename or words.folder, error) from error


def add(commands: argparse._SubParsersAction[argparse.ArgumentParser], common: argparse.ArgumentParser) -> None:
    """Adds the subcommand to the desk's words."""
    what = "write all documents of a bucket to a folder, with a list that says which is which"
    example = "Examples: vaultdesk export letters out --prefix 2025/ --names; vaultdesk export letters bag --bagit"
    it = commands.add_parser("export", parents=[common], help=what, epilog=example)
    it.add_argument("bucket")
    it.add_argument("folder", help=f"gets a file for each, named by its number, and {LIST} and {SHEET}, their list")
    it.add_argument("--prefix", metavar="P", help="only keys that begin so")
    text = "name each file by its key, in folders, where a file can be named so"
    it.add_argument("--names", action="store_true", help=text)
    it.add_argument("--all-versions", action="store_true", help="older versions too")
    text = "as a bag of BagIt 1.0 (RFC 8493), for an archive: the documents below data/, with the digests of all files"
    it.add_argument("--bagit", action="store_true", help=text)
    text = f"with --bagit: {premis.FILE}, what happened to each document, in PREMIS 3.0, and {mets.FILE}, in METS 1.12"
    it.add_argument("--premis", action="store_true", help=text)
    it.add_argument("--into-existing", action="store_true", help="into a folder that has other files")
    it.add_argument("--force", action="store_true", help="the same, and write over files that are there")
    it.set_defaults(run=export)
