"""Receipts of what was handed over: written as a delivery is taken in, and looked at before one is put into a vault."""

from __future__ import annotations

import csv
import io
import re
from collections.abc import Mapping, Sequence
from pathlib import Path
from typing import Any

from vaultdesk import bags
from vaultdesk.errors import DeskError
from vaultdesk.items import Item
from vaultdesk.output import shown

COLUMNS = ("file", "key", "version", "size", "sha256", "bucket", "batch", "received", "received_by", "office", "bag")
DIGEST = re.compile(rb"(?<![0-9A-Fa-f])[0-9A-Fa-f]{64}(?![0-9A-Fa-f])")
MOST_NAMED = 10  # documents that are named


def receipt(taken: Mapping[int, Item], of_all: Mapping[str, Any]) -> bytes:
    """A receipt as CSV: a row for each of these versions, and in each what is the same of all."""
    text = io.StringIO()
    writer = csv.DictWriter(text, COLUMNS, lineterminator="\n")
    writer.writeheader()
    for version, it in taken.items():
        row = {"file": it.file, "key": it.key, "version": version, "size": it.size, "sha256": it.digest}
        writer.writerow({**row, **of_all})
    return text.getvalue().encode("utf-8", "backslashreplace")


def _unnamed(bag: Path, given: bytes) -> tuple[int, Sequence[str]]:
    """How many documents a bag has, and those whose SHA-256 isn't in a receipt of whatever form."""
    digests = bags.digests_of(bag)
    there = {it.decode().lower() for it in DIGEST.findall(given)}
    return len(digests), [name for name, digest in digests.items() if digest not in there]


def look(bag: Path, given: bytes) -> None:
    """`DeskError` where a receipt doesn't name each document of a bag by its SHA-256."""
    count, lacking = _unnamed(bag, given)
    if lacking:
        more = len(lacking) - MOST_NAMED
        named = ", ".join(map(shown, lacking[:MOST_NAMED])) + (f", and {more:,} more" if more > 0 else "")
        why = f"the receipt hasn't the SHA-256 of {len(lacking)} of {count} documents of {bag}: {named}"
        raise DeskError(f"{why}: nothing was put: ask who gave it for a list with the digests")
