"""Spreadsheets for tests, as other programs write them, and as nobody should."""

from __future__ import annotations

import io
import zipfile
from collections.abc import Sequence

MAIN = "http://schemas.openxmlformats.org/spreadsheetml/2006/main"
RELATED = "http://schemas.openxmlformats.org/officeDocument/2006/relationships"
PACKAGED = "http://schemas.openxmlformats.org/package/2006"
KIND = "application/vnd.openxmlformats-officedocument.spreadsheetml"
Cell = str | int | float | None


def _cell(row: int, column: int, value: Cell) -> str:
    place = f'r="{chr(65 + column)}{row}"'
    if value is None:
        return ""
    if isinstance(value, str) and value.startswith("date:"):
        return f'<c {place} s="1"><v>{value[5:]}</v></c>'
    if isinstance(value, str):
        return f'<c {place} t="inlineStr"><is><t xml:space="preserve">{value}</t></is></c>'
    return f"<c {place}><v>{value}</v></c>"


def sheet(rows: Sequence[Sequence[Cell]]) -> str:
    """A sheet of these rows from the first on; a text `date:46186` is the cell of a date by its number of days."""
    lines = (
        f'<row r="{number}">{"".join(_cell(number, column, it) for column, it in enumerate(row))}</row>'
        for number, row in enumerate(rows, start=1)
    )
    return f'<worksheet xmlns="{MAIN}"><sheetData>{"".join(lines)}</sheetData></worksheet>'


def package(parts: dict[str, str | bytes]) -> bytes:
    """A package of these parts."""
    made = io.BytesIO()
    with zipfile.ZipFile(made, "w", zipfile.ZIP_DEFLATED) as book:
        for name, text in parts.items():
            book.writestr(name, text)
    return made.getvalue()


def parts_of(sheets: dict[str, str]) -> dict[str, str | bytes]:
    """The parts of a spreadsheet with these sheets, each by its name."""
    numbered = [*enumerate(sheets.items(), start=1)]
    kinds = "".join(
        f'<Override PartName="/xl/worksheets/sheet{number}.xml" ContentType="{KIND}.worksheet+xml"/>'
        for number, _ in numbered
    )
    named = "".join(f'<sheet name="{name}" sheetId="{number}" r:id="r{number}"/>' for number, (name, _) in numbered)
    places = "".join(
        f'<Relationship Id="r{number}" Type="{RELATED}/worksheet" Target="worksheets/sheet{number}.xml"/>'
        for number, _ in numbered
    )
    plain = '<xf numFmtId="0" fontId="0" fillId="0" borderId="0"/>'
    dated = '<xf numFmtId="14" fontId="0" fillId="0" borderId="0" applyNumberFormat="1"/>'
    fills = '<fills count="2"><fill><patternFill patternType="none"/></fill><fill><patternFill/></fill></fills>'
    return {
        "[Content_Types].xml": f'<Types xmlns="{PACKAGED}/content-types">'
        '<Default Extension="rels" ContentType="application/vnd.openxmlformats-package.relationships+xml"/>'
        f'<Override PartName="/xl/workbook.xml" ContentType="{KIND}.sheet.main+xml"/>'
        f'<Override PartName="/xl/styles.xml" ContentType="{KIND}.styles+xml"/>{kinds}</Types>',
        "_rels/.rels": f'<Relationships xmlns="{PACKAGED}/relationships">'
        f'<Relationship Id="rId1" Type="{RELATED}/officeDocument" Target="xl/workbook.xml"/></Relationships>',
        "xl/workbook.xml": f'<workbook xmlns="{MAIN}" xmlns:r="{RELATED}"><sheets>{named}</sheets></workbook>',
        "xl/_rels/workbook.xml.rels": f'<Relationships xmlns="{PACKAGED}/relationships">{places}'
        f'<Relationship Id="s" Type="{RELATED}/styles" Target="styles.xml"/></Relationships>',
        "xl/styles.xml": f'<styleSheet xmlns="{MAIN}"><fonts count="1"><font/></fonts>{fills}'
        f'<borders count="1"><border/></borders><cellStyleXfs count="1">{plain}</cellStyleXfs>'
        f'<cellXfs count="2">{plain}{dated}</cellXfs></styleSheet>',
        **{f"xl/worksheets/sheet{number}.xml": text for number, (_, text) in numbered},
    }


def book(**sheets: Sequence[Sequence[Cell]]) -> bytes:
    """A spreadsheet with these sheets, each with its rows."""
    return package(parts_of({name: sheet(rows) for name, rows in sheets.items()}))
