"""What a delivery will do, row by row and in sums: what is shown and asked before anything is taken in."""

from __future__ import annotations

import csv
import io
from collections.abc import Sequence
from pathlib import Path
from typing import Any

from vaultdesk import moments
from vaultdesk.documents import write_content
from vaultdesk.items import Item
from vaultdesk.output import shown
from vaultdesk.there import Default

COLUMNS = ("row", "file", "key", "class", "date", "mode", "end", "size", "note")
MOST_NAMED = 10  # files in a line that names them
Row = dict[str, Any]


def _ends(it: Item, default: Default) -> tuple[str, str]:
    """The mode and the end that an item will have."""
    return (default.mode, default.end) if it.is_by_default else (it.mode, it.until)


def row_of(it: Item, default: Default) -> Row:
    """The row of an item in the plan. What isn't taken in has no mode and no end."""
    mode, end = ("", "") if it.is_out else _ends(it, default)
    said = [f"wrong: {'; '.join(it.wrong)}"] if it.wrong else []
    said += ["left out"] if it.is_skipped else []
    said += ["taken in before"] if it.is_taken and not it.is_out else []
    said += [f"by the bucket's default of {default.period}"] if it.is_by_default and not it.is_out else []
    row = {"row": it.number, "file": it.file, "key": it.key, "class": it.kind, "date": it.date, "mode": mode}
    row |= {"end": end, "size": "" if it.size is None else it.size, "note": "; ".join([*said, *it.notes])}
    return row | {name: value for name, value in (it.card.shown() if it.card else {}).items() if name not in row}


def columns_of(rows: Sequence[Row]) -> tuple[str, ...]:
    """The columns of the plan: also those of facts that a row has."""
    facts = dict.fromkeys(name for row in rows for name in row if name not in COLUMNS)
    return (*COLUMNS[:5], *facts, *COLUMNS[5:])


def write(path: Path, rows: Sequence[Row], force: bool) -> None:
    """Writes the plan as CSV. `DeskError` where the file is there and may not be written over."""
    text = io.StringIO()
    writer = csv.DictWriter(text, columns_of(rows), restval="", lineterminator="\n")
    writer.writeheader()
    writer.writerows(rows)
    write_content(path, text.getvalue().encode("utf-8", "backslashreplace"), force)


def findings(items: Sequence[Item]) -> list[Row]:
    """The rows of which something was found."""
    return [
        {"row": it.number, "file": it.file, "wrong": "; ".join(it.wrong), "note": "; ".join(it.notes)}
        for it in items
        if it.wrong or it.notes
    ]


def named(files: Sequence[str]) -> str:
    """The first of these files, and how many more there are."""
    more = len(files) - MOST_NAMED
    return ", ".join(map(shown, files[:MOST_NAMED])) + (f", and {more:,} more" if more > 0 else "")


def _locks(items: Sequence[Item], default: Default) -> tuple[list[str], int, int]:
    """The ends in their order, how many have no guard, and how many nobody can remove before their end."""
    locks = [(it, *_ends(it, default)) for it in items]
    bare = sum(not end and it.hold != "ON" for it, _, end in locks)
    return sorted(end for _, _, end in locks if end), bare, sum(mode == "COMPLIANCE" for _, mode, _ in locks)


def summary(items: Sequence[Item], default: Default) -> str:
    """How many come in, between which moments their retentions end, and what guards them."""
    ends, bare, fixed = _locks(items, default)
    between = f"the first end is {ends[0]}, the last {ends[-1]}" if ends else "none has an end"
    why = "no end, no hold, no default of the bucket" if default.is_known else "unless the bucket has a default"
    guards = f"{bare:,} stay without any guard ({why})" if bare else "0 stay without any guard"
    never = f"{fixed:,} can't be removed by anybody before their end (COMPLIANCE)"
    return f"{len(items):,} documents come in: {between}; {guards}; {never}"


def question(items: Sequence[Item], default: Default, unnamed: int, is_known: bool) -> str:
    """What has to be asked before these are taken in; empty where nothing has.

    Of a batch that is known the rest comes in: what was asked as it began is asked once."""
    _, bare, fixed = _locks(items, default)
    counts = {f"retentions end in more than {moments.FAR} years": sum(it.is_far for it in items)}
    if not is_known:
        counts |= {
            "documents are in the vault already, of another batch": sum(it.is_doubled for it in items),
            "keys are held already, and get one more version": sum(it.is_above for it in items),
            "files are empty": sum(it.size == 0 for it in items),
            "files of the folder are in no row": unnamed,
        }
    if not fixed and not any(counts.values()) and (is_known or not bare):
        return ""
    return "; ".join([summary(items, default), *(f"{count:,} {what}" for what, count in counts.items() if count)])


def made_already(items: Sequence[Item]) -> str:
    """Why this delivery seems to be one that was made before: documents that are there under their key, or all of them
    under whatever key; empty where it doesn't."""
    again = sum(it.is_again for it in items)
    if again:
        return f"{again:,} of {len(items):,} documents are in the bucket already, with that key and content"
    if items and all(it.is_here for it in items):
        return f"the content of all {len(items):,} documents is in the bucket already"
    return ""
