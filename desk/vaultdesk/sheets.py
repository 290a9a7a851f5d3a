"""Spreadsheets (xlsx) and CSV as rows of texts, each with its number as Excel counts it.

They come from elsewhere. So what one may take is looked at first, without keeping it: a small file can unpack to
gigabytes, or have one cell in its last row and column.
"""

from __future__ import annotations

import csv
import datetime as dt
import importlib
import io
import re
import warnings
import zipfile
from collections.abc import Iterator, Sequence
from dataclasses import dataclass
from pathlib import Path
from typing import Any
from xml.parsers import expat

from vaultdesk.errors import DeskError, of_file

MOST_CSV = 16_777_216  # bytes
MOST_PACKED, MOST_UNPACKED = 8_388_608, 33_554_432  # bytes of an xlsx, and of its texts
MOST_ELEMENTS, MOST_OF_ROW = 2_000_000, 100_000  # of XML in an xlsx, and in a row or a text of it
MOST_DEPTH = 64
MOST_ROWS, LAST_ROW, MOST_COLUMNS = 50_000, 1_048_576, 64
MOST_OF_RECORD = 1_048_576  # characters of a row of CSV
DELIMITERS = ";,\t"
AS_CSV = "save the rows that count as CSV, or in a new spreadsheet"
PART = re.compile(r"(?!customXml/).*\.(xml|rels)", re.DOTALL)  # pictures and the texts of other programs aren't read
CONTROL = re.compile(r"[\x00-\x08\x0e-\x1f]")
Line = tuple[int, list[str]]  # a row that isn't empty: its number, and its cells


@dataclass(frozen=True)
class Sheet:
    """A sheet, or a file of CSV, which has no name. `is_cut`: its rows lack the empty cells at their end."""

    name: str
    lines: Sequence[Line]
    is_cut: bool = False


def read(path: Path) -> Iterator[Sheet]:
    """The sheets of a spreadsheet that somebody sees, or a file of CSV in each way in which it may be divided into
    cells, the likeliest first. `DeskError` where it can't be read, is none, or has more than is taken."""
    try:
        with path.open("rb") as file:
            content = file.read(MOST_CSV + 1)
        if content.startswith(b"PK") or path.suffix.lower() == ".xlsx":
            yield from _of_package(content)
        else:
            yield from _of_csv(content)
    except OSError as error:
        raise of_file(path, error) from error
    except (DeskError, csv.Error) as error:
        raise DeskError(f"{path}: {error}") from error


# ---- CSV


def _decoded(content: bytes) -> str:
    """The text of a file: by its byte order mark, else UTF-8 where it is that, else Windows-1252."""
    for mark, encoding in ((b"\xef\xbb\xbf", "utf-8-sig"), (b"\xff\xfe", "utf-16"), (b"\xfe\xff", "utf-16")):
        if content.startswith(mark):
            return content.decode(encoding)
    try:
        return content.decode("utf-8")
    except UnicodeDecodeError:
        return content.decode("cp1252")


def _of_csv(content: bytes) -> Iterator[Sheet]:
    """The file by each character that may be between its cells."""
    if len(content) > MOST_CSV:
        raise DeskError(f"it has more than {MOST_CSV:,} bytes, which no inventory needs")
    if content.startswith(b"\xd0\xcf\x11\xe0"):
        raise DeskError("it is a spreadsheet of an older kind, or one with a password: save it as xlsx without one")
    try:
        text = _decoded(content)
    except UnicodeDecodeError as error:
        raise DeskError("it is no text, so it is no CSV") from error
    if CONTROL.search(text):
        raise DeskError("it has characters that no text has, so it is no CSV")
    first, _, rest = text.partition("\n")
    if first.lower().startswith("sep="):  # of Excel, which shows no row for it
        text, first = rest, first[4:5] + rest.partition("\n")[0]
    fault: csv.Error | None = None
    for delimiter in sorted(DELIMITERS, key=first.count, reverse=True):
        try:
            yield Sheet("", list(_records(text, delimiter)))
        except csv.Error as error:
            fault = fault or error
    if fault:
        raise fault


def _records(text: str, delimiter: str) -> Iterator[Line]:
    taken = 0

    def lines() -> Iterator[str]:
        nonlocal taken
        for line in io.StringIO(text, newline=""):
            taken += len(line)
            if taken > MOST_OF_RECORD:
                raise csv.Error(f"a row has more than {MOST_OF_RECORD:,} characters")
            yield line

    count = 0
    for number, cells in enumerate(csv.reader(lines(), delimiter=delimiter, strict=True), start=1):
        taken = 0
        if any(cells):
            count += 1
            _look_count(count)
            yield number, cells


def _look_count(count: int) -> None:
    if count > MOST_ROWS:
        raise DeskError(f"it has more than {MOST_ROWS:,} rows: make several deliveries of it")


# ---- xlsx


class _Look:
    """Looks at the texts of a package one by one. `DeskError` where one of them has what no inventory needs."""

    def __init__(self) -> None:
        self.left = MOST_ELEMENTS
        self.of_row = self.depth = self.row = 0
        self.cell = self.lacking = ""  # the last cell; and the same while it has a formula, and no result of it yet
        self.is_text = False  # whether the last cell has a text, which may be empty
        self.parser = expat.ParserCreate()

    def at(self, text: bytes) -> None:
        """Looks at a text."""
        self.of_row = self.depth = self.row = 0
        self.cell = self.lacking = ""
        self.parser = expat.ParserCreate()
        self.parser.StartElementHandler, self.parser.EndElementHandler = self._begin, self._end
        self.parser.StartDoctypeDeclHandler = self._refuse
        try:
            self.parser.Parse(text, True)
        except (expat.ExpatError, ValueError) as error:
            raise DeskError(f"no spreadsheet that can be read: {error}") from error

    def _begin(self, name: str, members: dict[str, str]) -> None:
        self.left -= 1
        self.depth += 1
        self.of_row += 1
        kind = name.rpartition(":")[2]
        self._look_at_cell(kind, members)
        if kind in ("row", "si"):
            self.of_row = 0
        if kind == "row" and "r" in members:
            last, self.row = self.row, int(members["r"])
            if not last < self.row <= LAST_ROW:
                raise DeskError(f"row {self.row} of a sheet comes after row {last}: {AS_CSV}")
        if self.left < 0 or self.of_row > MOST_OF_ROW or self.depth > MOST_DEPTH:
            raise DeskError(f"it has too many cells: {AS_CSV}")

    def _look_at_cell(self, kind: str, members: dict[str, str]) -> None:
        if kind == "c":
            self.cell, self.lacking, self.is_text = members.get("r", "of a sheet"), "", members.get("t") == "str"
        elif kind == "f":
            self.lacking = self.cell
        elif kind == "v" and self.lacking and not self.is_text:
            self.parser.CharacterDataHandler = self._result
        elif kind in ("v", "is"):
            self.lacking = ""

    def _result(self, _: str) -> None:
        self.lacking = ""

    def _end(self, name: str) -> None:
        self.depth -= 1
        kind = name.rpartition(":")[2]
        if kind == "v":
            self.parser.CharacterDataHandler = None
        if kind == "c" and self.lacking:
            raise DeskError(f"cell {self.lacking} has a formula without its result: open it in Excel, and save it")

    def _refuse(self, *_: object) -> None:
        raise DeskError("it defines names of its own (DOCTYPE), which no spreadsheet does")


def _texts(content: bytes) -> Iterator[tuple[str, bytes]]:
    """The texts of a package, which are looked at. `DeskError` where it is no spreadsheet, or too large."""
    with zipfile.ZipFile(io.BytesIO(content)) as given:
        parts = {it.filename: it for it in given.infolist() if PART.fullmatch(it.filename)}
        # By what the package says first: it may say less than there is, and then has that read and no more.
        if sum(it.file_size for it in parts.values()) > MOST_UNPACKED:
            raise DeskError(f"it has more than {MOST_UNPACKED:,} bytes once it is unpacked: {AS_CSV}")
        look = _Look()
        for name, part in parts.items():
            with given.open(part) as file:
                text = file.read(MOST_UNPACKED)
            look.at(text)
            if name == "[Content_Types].xml" and b"spreadsheetml" not in text:
                raise DeskError("no spreadsheet: it is a package of another kind, as a document of Word is")
            yield name, text


def _of_package(content: bytes) -> list[Sheet]:
    if not content.startswith(b"PK"):
        raise DeskError("no spreadsheet, though its name says so: open it in the program that made it, and save it")
    if len(content) > MOST_PACKED:
        raise DeskError(f"it has more than {MOST_PACKED:,} bytes: leave pictures out, or save it as CSV")
    try:
        openpyxl = importlib.import_module("openpyxl")
    except ModuleNotFoundError as error:
        raise DeskError("install python3-openpyxl to have xlsx read, or save it as CSV") from error
    unpacked = io.BytesIO()
    try:
        with zipfile.ZipFile(unpacked, "w") as made:
            for name, text in _texts(content):
                made.writestr(name, text)
    except DeskError:
        raise
    except Exception as error:  # as many kinds as a package has parts: of zlib, of zipfile, of numbers
        raise DeskError(f"no spreadsheet that can be unpacked, as one that was cut short: {error}") from error
    with warnings.catch_warnings():
        warnings.simplefilter("ignore")
        try:
            book = openpyxl.load_workbook(unpacked, read_only=True, data_only=True, keep_links=False)
            return [Sheet(it.title, _rows(it), True) for it in book.worksheets if it.sheet_state == "visible"]
        except DeskError:
            raise
        except Exception as error:  # openpyxl raises whatever its parts raise
            raise DeskError(f"no spreadsheet: {error}") from error


def _rows(sheet: Any) -> list[Line]:
    sheet.reset_dimensions()  # what it says of itself may be a million columns
    found: list[Line] = []
    for number, row in enumerate(sheet.iter_rows(max_col=MOST_COLUMNS + 1, values_only=True), start=1):
        if row.count(None) == len(row):  # as of a million rows above one far cell
            continue
        cells = [_cell_text(it) for it in row]
        while cells and not cells[-1]:
            cells.pop()
        if len(cells) > MOST_COLUMNS:
            raise DeskError(f"row {number} of sheet {sheet.title!r} has more than {MOST_COLUMNS} columns: {AS_CSV}")
        if cells:
            found.append((number, cells))
            _look_count(len(found))
    return found


def _cell_text(value: object) -> str:
    """A cell of a spreadsheet as text: a date as 2025-06-10, a whole number without a point."""
    if value is None:
        return ""
    if isinstance(value, dt.datetime):
        return (value.date() if value.time() == dt.time() else value).isoformat()
    if isinstance(value, float) and value.is_integer():
        return str(int(value))
    return str(value)
