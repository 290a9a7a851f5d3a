"""A spreadsheet (xlsx) in which every cell is a text, so that no program reads one as a number, a date or a formula."""

from __future__ import annotations

import re
import zipfile
from collections.abc import Iterable, Iterator, Mapping, Sequence
from pathlib import Path
from typing import BinaryIO
from xml.sax.saxutils import escape

from vaultdesk.errors import DeskError

MOST_ROWS = 1_048_576  # that a sheet has, the names of the columns among them
LONGEST = 32_767  # characters of a cell
FIRST_MOMENT = (1980, 1, 1, 0, 0, 0)  # of each part, so that the same rows make the same bytes
MAIN = "http://schemas.openxmlformats.org/spreadsheetml/2006/main"
RELATED = "http://schemas.openxmlformats.org/officeDocument/2006/relationships"
PACKAGED = "http://schemas.openxmlformats.org/package/2006"
KIND = "application/vnd.openxmlformats-officedocument.spreadsheetml"
PLAIN = 'fontId="0" fillId="0" borderId="0"'
XML = '<?xml version="1.0" encoding="UTF-8" standalone="yes"?>\n'

PARTS = {
    "[Content_Types].xml": f'<Types xmlns="{PACKAGED}/content-types">'
    '<Default Extension="rels" ContentType="application/vnd.openxmlformats-package.relationships+xml"/>'
    f'<Override PartName="/xl/workbook.xml" ContentType="{KIND}.sheet.main+xml"/>'
    f'<Override PartName="/xl/styles.xml" ContentType="{KIND}.styles+xml"/>'
    f'<Override PartName="/xl/worksheets/sheet1.xml" ContentType="{KIND}.worksheet+xml"/></Types>',
    "_rels/.rels": f'<Relationships xmlns="{PACKAGED}/relationships">'
    f'<Relationship Id="rId1" Type="{RELATED}/officeDocument" Target="xl/workbook.xml"/></Relationships>',
    "xl/_rels/workbook.xml.rels": f'<Relationships xmlns="{PACKAGED}/relationships">'
    f'<Relationship Id="rId1" Type="{RELATED}/worksheet" Target="worksheets/sheet1.xml"/>'
    f'<Relationship Id="rId2" Type="{RELATED}/styles" Target="styles.xml"/></Relationships>',
    # Format 49 is that of texts: what somebody writes into a cell later stays a text too.
    "xl/styles.xml": f'<styleSheet xmlns="{MAIN}"><fonts count="1"><font/></fonts>'
    '<fills count="2"><fill><patternFill patternType="none"/></fill>'
    '<fill><patternFill patternType="gray125"/></fill></fills>'
    f'<borders count="1"><border/></borders><cellStyleXfs count="1"><xf numFmtId="0" {PLAIN}/></cellStyleXfs>'
    f'<cellXfs count="2"><xf numFmtId="0" {PLAIN} xfId="0"/>'
    f'<xf numFmtId="49" {PLAIN} xfId="0" applyNumberFormat="1"/></cellXfs>'
    '<cellStyles count="1"><cellStyle name="Normal" xfId="0" builtinId="0"/></cellStyles></styleSheet>',
}
BOOK = (
    f'<workbook xmlns="{MAIN}" xmlns:r="{RELATED}">'
    '<sheets><sheet name="{}" sheetId="1" r:id="rId1"/></sheets></workbook>'
)
SHEET = (
    f'<worksheet xmlns="{MAIN}"><sheetViews><sheetView workbookViewId="0"><pane ySplit="1" topLeftCell="A2" '
    'activePane="bottomLeft" state="frozen"/></sheetView></sheetViews><sheetData>\n'
)
# What XML can't have is written as _x000B_, and so is a `_` that would begin such a text.
UNWRITTEN = re.compile("[\\x00-\\x08\\x0b\\x0c\\x0d\\x0e-\\x1f\\ufffe\\uffff]|_(?=x[0-9A-Fa-f]{4}_)")


def letters(column: int) -> str:
    """The letters of a column, from 0 on: A, B .. Z, AA .."""
    text = ""
    while column >= 0:
        text = chr(ord("A") + column % 26) + text
        column = column // 26 - 1
    return text


def _cell(row: int, column: int, text: str) -> str:
    if len(text) > LONGEST:
        raise DeskError(f"a cell of a spreadsheet has at most {LONGEST:,} characters, and one has {len(text):,}")
    written = UNWRITTEN.sub(lambda it: f"_x{ord(it[0]):04X}_", text)
    place = f"{letters(column)}{row}"
    return f'<c r="{place}" s="1" t="inlineStr"><is><t xml:space="preserve">{escape(written)}</t></is></c>'


def _sheet(rows: Iterable[Sequence[str]]) -> Iterator[str]:
    yield SHEET
    for number, row in enumerate(rows, start=1):
        cells = "".join(_cell(number, column, text) for column, text in enumerate(row) if text)
        yield f'<row r="{number}">{cells}</row>\n'
    yield "</sheetData></worksheet>"


def write_to(file: BinaryIO, name: str, rows: Sequence[Mapping[str, str]], columns: Sequence[str]) -> None:
    """Writes rows, fewer than `MOST_ROWS`, below their columns' names to a file."""
    lines = ([row[it] for it in columns] for row in rows)
    with zipfile.ZipFile(file, "w", zipfile.ZIP_DEFLATED) as book:
        for part, text in {**PARTS, "xl/workbook.xml": BOOK.format(escape(name))}.items():
            book.writestr(zipfile.ZipInfo(part, FIRST_MOMENT), XML + text)
        with book.open(zipfile.ZipInfo("xl/worksheets/sheet1.xml", FIRST_MOMENT), "w") as sheet:
            sheet.write(XML.encode())
            for text in _sheet([list(columns), *lines]):
                sheet.write(text.encode())


def write(path: Path, name: str, rows: Sequence[Mapping[str, str]], columns: Sequence[str], force: bool) -> None:
    """The same to a path. `DeskError` where there are more rows, or a file is there and may not be written over."""
    if len(rows) >= MOST_ROWS:
        raise DeskError(f"a spreadsheet has at most {MOST_ROWS - 1:,} rows, and these are {len(rows):,}: take CSV")
    try:
        with path.open("wb" if force else "xb") as file:
            write_to(file, name, rows, columns)
    except FileExistsError as error:
        raise DeskError(f"{path} is there already: give --force to write over it") from error
    except OSError as error:
        raise DeskError(f"{path}: {error.strerror}") from error
