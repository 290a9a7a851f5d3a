"""Files that are no inventory: one sentence each, within five seconds and 256 MiB."""

from __future__ import annotations

import importlib.util
import os
import resource
import struct
import subprocess
import sys
import unittest
import zipfile
import zlib
from io import BytesIO
from pathlib import Path
from unittest import mock

from tests.books import MAIN, book, package, parts_of, sheet
from tests.office import OfficeTest
from vaultdesk import sheets
from vaultdesk.errors import DeskError

MOST_MEMORY, MOST_SECONDS = 268_435_456, 5  # of the processor, which others have too
RIGHT = sheet([["File", "Until"], ["a.pdf", "2030-01-01"]])
HAS_XLSX = importlib.util.find_spec("openpyxl") is not None


def limited() -> None:
    """Has this process and those that it starts take no more memory and time."""
    resource.setrlimit(resource.RLIMIT_AS, (MOST_MEMORY, MOST_MEMORY))
    resource.setrlimit(resource.RLIMIT_CPU, (MOST_SECONDS, MOST_SECONDS))


class SheetsTest(OfficeTest):
    def setUp(self) -> None:
        super().setUp()
        self.scans = self.folder / "scans"
        self.scans.mkdir()
        (self.scans / "a.pdf").write_bytes(b"a scan")

    def looked_at(self, name: str, content: bytes) -> subprocess.CompletedProcess[str]:
        """The look at a delivery by that inventory, in a process of its own."""
        listed = self.written(name, content)
        words = ["deliver", str(self.scans), "--bucket", "docs", "--batch", "b1", "--inventory", listed, "--dry-run"]
        command = [sys.executable, "-B", "-m", "vaultdesk", *words, "--at", "2024-01-15T10:00:00Z"]
        return subprocess.run(
            command, preexec_fn=limited, cwd=Path(__file__).parents[1], env=os.environ, timeout=120,
            capture_output=True, text=True, check=False,
        )  # fmt: skip

    def is_wrong(self, name: str, content: bytes, said: str) -> None:
        """Sees that it can't be read, and that this is said."""
        with self.assertRaisesRegex(DeskError, f"^[^\n]*{name}: [^\n]*{said}[^\n]*$"):
            list(sheets.read(Path(self.written(name, content))))

    def is_refused(self, name: str, content: bytes, said: str) -> None:
        """Sees that it is refused by one sentence that says this, whatever the process may take."""
        done = self.looked_at(name, content)
        self.assertEqual((done.returncode, done.stdout), (1, ""), done.stderr)
        self.assertRegex(done.stderr, f"^vaultdesk deliver: [^\n]*{name}: [^\n]*{said}[^\n]*\n$")


@unittest.skipUnless(HAS_XLSX, "python3-openpyxl isn't there")
class Spreadsheets(SheetsTest):
    def with_sheet(self, text: str) -> bytes:
        """A spreadsheet whose sheet is that text."""
        return package(parts_of({"List": text}))

    def test_a_sheet_that_says_it_has_a_million_columns_is_read(self) -> None:
        text = RIGHT.replace("<sheetData>", '<dimension ref="A1:XFD1048576"/><sheetData>')
        far = '<row r="1048576"><c r="XFD1048576" s="1"/></row></sheetData>'
        done = self.looked_at("dim.xlsx", self.with_sheet(text.replace("</sheetData>", far)))
        self.assertEqual(done.returncode, 0, done.stderr)
        self.assertIn("1 of 1 rows would be taken in", done.stderr)

    def bomb(self, said: int) -> bytes:
        """A spreadsheet of 2 MB with a cell of 2 GB, which says that its sheet has that many bytes."""
        begun = f'<worksheet xmlns="{MAIN}"><sheetData><row r="1"><c r="A1" t="inlineStr"><is><t>'
        packer = zlib.compressobj(9, zlib.DEFLATED, -15)
        packed = packer.compress(begun.encode()) + packer.flush(zlib.Z_FULL_FLUSH)
        packed += (packer.compress(b"x" * 67_108_864) + packer.flush(zlib.Z_FULL_FLUSH)) * 32
        packed += packer.compress(b"</t></is></c></row></sheetData></worksheet>") + packer.flush()
        # A part that isn't packed, and then is called so. Its check is that of the packed bytes: nobody comes so far.
        name = "xl/worksheets/sheet1.xml"
        made = BytesIO()
        parts = parts_of({"List": ""})
        parts[name] = packed
        with zipfile.ZipFile(made, "w") as package_:
            for part, text in parts.items():
                package_.writestr(part, text)
            place = package_.getinfo(name).header_offset
        content = bytearray(made.getvalue())
        of_list = content.rindex(name.encode()) - 46
        for method, size in ((place + 8, place + 22), (of_list + 10, of_list + 24)):
            struct.pack_into("<H", content, method, zipfile.ZIP_DEFLATED)
            struct.pack_into("<I", content, size, said)
        return bytes(content)

    def test_a_bomb_of_one_cell(self) -> None:
        bomb = self.bomb(32 * 67_108_864)
        self.assertLess(len(bomb), 2_200_000)
        self.is_refused("bomb.xlsx", bomb, "more than 33,554,432 bytes once it is unpacked")

    def test_a_bomb_that_says_it_is_small(self) -> None:
        self.is_refused("lied.xlsx", self.bomb(33_000_000), "no spreadsheet that can be (read|unpacked)")

    def test_laughs(self) -> None:
        names = "".join(f'<!ENTITY l{n} "{f"&l{n - 1};" * 10}">' for n in range(1, 10))
        text = f'<!DOCTYPE x [<!ENTITY l0 "lol">{names}]>' + RIGHT.replace("a.pdf", "&l9;")
        self.is_refused("laughs.xlsx", self.with_sheet(text), "defines names of its own")

    def test_a_file_that_was_cut(self) -> None:
        content = book(List=[["File", "Until"], *([f"{n}.pdf", "2030-01-01"] for n in range(500))])
        for size in (2, 100, len(content) - 10):
            self.is_wrong("cut.xlsx", content[:size], "no spreadsheet that can be unpacked")
        self.is_refused("cut.xlsx", content[:len(content) // 2], "no spreadsheet that can be unpacked")

    def test_a_document_and_other_files_that_were_renamed(self) -> None:
        kind = "application/vnd.openxmlformats-officedocument.wordprocessingml"
        kinds = f'<Types><Override ContentType="{kind}"/></Types>'
        word = package({"[Content_Types].xml": kinds, "word/document.xml": "<document/>"})
        self.is_refused("word.xlsx", word, "a package of another kind, as a document of Word is")
        self.is_wrong("a.xlsx", b"%PDF-1.7\n%\xe2\xe3", "no spreadsheet, though its name says so")

    def test_more_cells_and_rows_than_anybody_needs(self) -> None:
        for rows, said in (
            ("<x>" * 100_000 + "</x>" * 100_000, "too many cells"),
            ('<row r="999999999999"><c r="A1"/></row>', "row 999999999999 of a sheet comes after row 0"),
            ('<row r="5"><c r="A5"/></row><row r="3"><c r="A3"/></row>', "row 3 of a sheet comes after row 5"),
            ('<row r="1"><c r="BM1"><v>1</v></c></row>', "has more than 64 columns"),
        ):
            text = f'<worksheet xmlns="{MAIN}"><sheetData>{rows}</sheetData></worksheet>'
            self.is_wrong("many.xlsx", self.with_sheet(text), said)
        text = f'<worksheet xmlns="{MAIN}"><sheetData><row r="1">{"<c/>" * 2_000_000}</row></sheetData></worksheet>'
        self.is_refused("many.xlsx", self.with_sheet(text), "too many cells")

    def test_what_other_programs_lay_into_a_spreadsheet_isnt_read(self) -> None:
        parts = parts_of({"List": RIGHT})
        parts |= {"xl/media/image1.png": b"\x89PNG", "customXml/item1.xml": "<!DOCTYPE x><x/>"}
        [it] = sheets.read(Path(self.written("list.xlsx", package(parts))))
        self.assertEqual(it.lines[0], (1, ["File", "Until"]))

    def test_a_formula_without_its_result(self) -> None:
        for kind, result in (("str", ""), ("n", ""), ("n", "<v></v>"), ("n", "<v>17</v>"), ("str", "<v>17</v>")):
            cell = f'<c r="A2" t="{kind}"><f>B2</f>{result}</c>'
            rows = f'<row r="1"><c r="A1" t="str"><v>File</v></c></row><row r="2">{cell}</row>'
            content = self.with_sheet(f'<worksheet xmlns="{MAIN}"><sheetData>{rows}</sheetData></worksheet>')
            if "17" in result:
                [it] = sheets.read(Path(self.written("list.xlsx", content)))
                self.assertEqual(it.lines, [(1, ["File"]), (2, ["17"])])
            else:
                self.is_wrong("list.xlsx", content, "cell A2 has a formula without its result")

    def test_the_bounds_of_rows_and_bytes(self) -> None:
        listed = self.written("list.xlsx", book(List=[["File"], ["a.pdf"], ["b.pdf"]]))
        with mock.patch("vaultdesk.sheets.MOST_ROWS", 2), self.assertRaisesRegex(DeskError, "more than 2 rows"):
            list(sheets.read(Path(listed)))
        self.is_wrong("large.xlsx", b"PK" + bytes(9_000_000), "more than 8,388,608 bytes")


class Texts(SheetsTest):
    def test_files_that_are_no_text(self) -> None:
        self.is_refused("list.csv", b"\x89PNG\r\n\x1a\n\0\0\0\rIHDR", "no text has, so it is no CSV")
        for content, said in (
            (bytes(range(128, 256)), "it is no text, so it is no CSV"),
            (b"\xff\xfea", "it is no text, so it is no CSV"),
            (b"\xd0\xcf\x11\xe0\xa1\xb1\x1a\xe1", "a spreadsheet of an older kind"),
        ):
            self.is_wrong("list.csv", content, said)

    def test_texts_that_are_too_large(self) -> None:
        self.is_wrong("list.csv", b"x" * 17_000_000, "more than 16,777,216 bytes")
        self.is_refused("list.csv", b"File," * 3_000_000, "a row has more than 1,048,576 characters")
        for content, said in (
            (b"File,Key\n" + b'"x\n",' * 2_000_000, "a row has more than 1,048,576 characters"),
            (b"File\n" + b"a.pdf\n" * 60_000, "more than 50,000 rows"),
        ):
            self.is_wrong("list.csv", content, said)

    def test_a_text_that_was_cut(self) -> None:
        self.is_wrong("list.csv", b'File,Key\na.pdf,"k', "unexpected end of data")

    def test_a_line_of_excel_about_the_cells_is_no_row(self) -> None:
        listed = self.written("list.csv", b"sep=,\r\nFile,Key\r\na.pdf,k;1\r\n")
        [it, *_] = sheets.read(Path(listed))
        self.assertEqual(it.lines, [(1, ["File", "Key"]), (2, ["a.pdf", "k;1"])])
