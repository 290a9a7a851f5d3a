"""Which versions a subcommand is about: one key, all keys that begin so, or those of a list."""

from __future__ import annotations

import argparse
import csv
from collections.abc import Iterator, Mapping
from dataclasses import dataclass
from pathlib import Path
from typing import Any

from vaultdesk.engine import Engine
from vaultdesk.errors import DeskError, UsageError, of_file
from vaultdesk.history import number as version_number


@dataclass(frozen=True)
class Target:
    """A version of a key in a bucket; without a number, the current one."""

    bucket: str
    key: str
    version: int | None = None

    @property
    def place(self) -> dict[str, Any]:
        """The members of a line that name it."""
        return {"bucket": self.bucket, "key": self.key, "id": self.version}


def add_targets(it: argparse.ArgumentParser) -> None:
    """The words that say which versions are meant."""
    it.add_argument("bucket", nargs="?", help="may be left out where a list has the column bucket")
    it.add_argument("key", nargs="?")
    it.add_argument("--version", type=version_number, metavar="N", help="that version of KEY, and not the current one")
    it.add_argument("--prefix", metavar="P", help="in place of KEY: the current version of each key that begins so")
    it.add_argument("--all-versions", action="store_true", help="with --prefix: older versions too")
    more = "in place of KEY: a CSV file with the column key, and if wanted version and bucket, as find --csv prints it"
    it.add_argument("--from", dest="list", metavar="FILE", help=more)


def _by_prefix(engine: Engine, bucket: str, prefix: str, all_versions: bool) -> Iterator[Target]:
    for it in engine.entries(bucket, prefix):
        if not it["delete_marker"] and (it["current"] or all_versions):
            yield Target(bucket, it["key"], it["version_id"])


def _of_row(place: str, row: Mapping[str, str], bucket: str | None) -> Target:
    """The target of a record of a list, whose bucket is the one that the words name, if they name one."""
    there = row.get("bucket") or bucket
    if not there:
        raise DeskError(f"{place}: no bucket is named: give BUCKET, or a list with the column bucket")
    if bucket and there != bucket:
        why = f"its bucket is {there!r}, and not {bucket!r}"
        raise DeskError(f"{place}: {why}: mend the list, or leave BUCKET out; nothing was changed")
    if not row["key"]:
        raise DeskError(f"{place}: it has no key: give it one, or remove the record; nothing was changed")
    version = row.get("version", "")
    if version and not (version.isascii() and version.isdecimal()):
        why = f"{version!r} is no version's number, which is a whole number from 1 on"
        raise DeskError(f"{place}: {why}: mend it, or leave the cell empty; nothing was changed")
    return Target(there, row["key"], int(version) if version else None)


def _by_list(path: Path, bucket: str | None) -> Iterator[Target]:
    try:
        with path.open(encoding="utf-8-sig", newline="") as file:
            rows = [it for it in csv.reader(file, strict=True) if it]
    except OSError as error:
        raise of_file(path, error) from error
    except (UnicodeDecodeError, csv.Error) as error:
        raise DeskError(f"{path}: {error}: save it as CSV in UTF-8 with commas") from error
    if not rows or "key" not in rows[0]:
        raise DeskError(f"{path}: the first record has no column 'key': save it as CSV in UTF-8 with commas")
    for number, row in enumerate(rows[1:], start=2):
        if len(row) != len(rows[0]):
            why = f"record {number} has {len(row)} cells, and the first one {len(rows[0])}"
            raise DeskError(f"{path}: {why}: mend the list; nothing was changed")
        yield _of_row(f"{path}: record {number}", dict(zip(rows[0], row)), bucket)


def targets(engine: Engine, words: argparse.Namespace) -> list[Target]:
    """The versions that the words mean. `UsageError` where they mean none, or in two ways."""
    ways = [words.key, words.prefix, words.list]
    if sum(it is not None for it in ways) != 1:
        raise UsageError("give one of KEY, --prefix and --from")
    if words.version is not None and words.key is None:
        raise UsageError("--version goes with KEY")
    if words.key is not None:
        return [Target(words.bucket, words.key, words.version)]
    if words.list is not None:
        return list(_by_list(Path(words.list), words.bucket))
    if not words.bucket:
        raise UsageError("--prefix is of the keys of a bucket: give BUCKET")
    return list(_by_prefix(engine, words.bucket, words.prefix, words.all_versions))
