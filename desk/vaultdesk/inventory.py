"""Inventories as offices have them: which sheet and which row has the names of columns, and the rows below it."""

from __future__ import annotations

from collections.abc import Iterable, Mapping, Sequence
from dataclasses import dataclass
from pathlib import Path

from vaultdesk import sheets
from vaultdesk.columns import IGNORED, NAMES, Meanings, folded, of_rows
from vaultdesk.errors import DeskError, UsageError
from vaultdesk.output import say
from vaultdesk.sheets import Line, Sheet
from vaultdesk.spreadsheet import letters

AS_WRITTEN = ("file", "key")  # in which a blank counts
HEADS_WITHIN = 20  # rows of a sheet among which the names of columns are looked for


@dataclass(frozen=True)
class Row:
    """A row: its number as Excel counts it, and its cells by what their columns are."""

    number: int
    cells: Mapping[str, str]


@dataclass(frozen=True)
class Listed:
    """An inventory: where it is, in words, the names of its columns as they are written, and the rows below them."""

    place: str
    heads: Sequence[str]
    lines: Sequence[Line]


def _heads_of(sheet: Sheet, wanted: Iterable[str], meanings: Meanings, place: str) -> Line | None:
    """The row of a sheet that has the names of columns: the first one, or else the only one of the first rows that has
    all that are wanted."""
    there = [it for it in sheet.lines if it[0] <= HEADS_WITHIN or it is sheet.lines[0]]
    fitting = [it for it in there if set(wanted) <= {meanings.get(folded(name), "") for name in it[1]}]
    if len(fitting) > 1 and fitting[0] is not there[0]:
        rows = " and ".join(str(number) for number, _ in fitting)
        raise DeskError(f"{place}: rows {rows} all have names of columns: leave one of them")
    return fitting[0] if fitting else None


def _named(path: Path, sheet: Sheet) -> str:
    return f"{path}, sheet {sheet.name!r}" if sheet.name else str(path)


def _asked(path: Path, given: Sequence[Sheet], name: str) -> list[Sheet]:
    """The sheet of that name, or else of that number. `UsageError` where there is none."""
    found = [it for it in given if folded(it.name) == folded(name)]
    if not found and name.isdecimal() and 1 <= int(name) <= len(given):
        found = [given[int(name) - 1]]
    if not found or not given[0].name:
        names = ", ".join(repr(it.name) for it in given if it.name) or "none, as CSV hasn't"
        raise UsageError(f"{path} has no sheet {name!r}: its sheets are {names}")
    return found


def _lacking(path: Path, given: Sequence[Sheet], wanted: Sequence[str], meanings: Meanings) -> DeskError:
    """Says which column is missing, and where it was looked for."""
    if not given or not given[0].lines:
        return DeskError(f"{path}: it is empty")
    number, cells = given[0].lines[0]
    there = {meanings.get(folded(it), "") for it in cells}
    lacked = next((it for it in wanted if it not in there), wanted[0])
    where = f"row {number} of {_named(path, given[0])}, which has {', '.join(map(repr, filter(None, cells)))}"
    others = ", ".join(repr(it.name) for it in given[1:] if it.name)
    more = f"; nor is it in the other sheets, {others}" if others else ""
    how = ": say which one it is by --columns file=COLUMN" if lacked == "file" else ""
    return DeskError(f"{path}: no column {lacked!r} in {where}{more}{how}")


def listed(path: Path, wanted: Sequence[str], meanings: Meanings = NAMES, sheet: str | None = None) -> Listed:
    """The inventory of a file, in the sheet that is named, or else in the only one that has its columns.

    `DeskError` where the file can't be read, or lacks a column that is wanted; where several sheets have them."""
    given: list[Sheet] = []
    fitting: list[tuple[Sheet, Line]] = []
    for it in sheets.read(path):
        given.append(it)
        fitting += [(it, heads) for heads in [_heads_of(it, wanted, meanings, _named(path, it))] if heads]
        if fitting and not it.is_cut:  # CSV, which may be divided otherwise too
            break
    if sheet is not None:
        there = _asked(path, given, sheet)
        fitting = [it for it in fitting if it[0] in there]
        given = there
    if not fitting:
        raise _lacking(path, given, wanted, meanings)
    if len(fitting) > 1:
        names = ", ".join(repr(it.name) for it, _ in fitting)
        raise UsageError(f"{path}: the sheets {names} all have an inventory: name one by --sheet")
    found, heads = fitting[0]
    if found is not given[0] and found.name or heads is not found.lines[0]:
        say(f"{_named(path, found)}: the names of columns are in row {heads[0]}")
    below = [it for it in found.lines if it[0] > heads[0]]
    return _squared(_named(path, found), heads[1], below, found.is_cut)


def _squared(place: str, heads: Sequence[str], lines: Sequence[Line], is_cut: bool) -> Listed:
    """The same with as many cells in each row as there are columns. `DeskError` where a row of CSV has others.

    A column without a name gets that of its letters, where a row has something in it."""
    width = max(index for index, it in enumerate(heads, start=1) if it.strip())
    for number, cells in lines:
        if not is_cut and (len(cells) < width or any(cells[len(heads):])):
            raise DeskError(f"{place}: row {number} has {len(cells)} cells, and the names of columns are {len(heads)}")
    width = max([width, *(len(cells) for _, cells in lines if is_cut)])
    even = [(number, [*cells[:width], *[""] * (width - len(cells))]) for number, cells in lines]
    names = [*heads[:width], *[""] * (width - len(heads))]
    for place_of, name in enumerate(names):
        if not name.strip() and any(cells[place_of].strip() for _, cells in even):
            names[place_of] = f"column {letters(place_of)}"
    return Listed(place, names, even)


def unknown(given: Listed, meanings: Meanings, allowed: Sequence[str] | None = None) -> list[str]:
    """The names of its columns that aren't known, or that nothing of such an inventory is."""
    known = (*(allowed or of_rows()), IGNORED)
    return [it for it in given.heads if it.strip() and meanings.get(folded(it)) not in known]


def rows(given: Listed, meanings: Meanings, of_classes: Sequence[str] | None = None) -> list[Row]:
    """The rows by what their columns are; columns that aren't known are left out.

    `DeskError` where two columns are the same."""
    kinds, allowed = [meanings.get(folded(it), "") for it in given.heads], of_classes or of_rows()
    for kind in allowed:
        names = [repr(it) for it, there in zip(given.heads, kinds, strict=True) if there == kind]
        if len(names) > 1:
            how = "leave one of them" if of_classes else "leave all but one of them out by --ignore-columns"
            raise DeskError(f"{given.place}: two columns mean the same, {kind}: {', '.join(names)}: {how}")
    found = []
    for number, cells in given.lines:
        there = zip(kinds, cells, strict=True)
        found.append(Row(number, {
            kind: cell if kind in AS_WRITTEN else cell.strip() for kind, cell in there if kind in allowed
        }))  # fmt: skip
    return found
