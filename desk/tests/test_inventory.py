"""Inventories as offices have them: which columns, sheets, rows, dates and paths are meant, or what is asked."""

from __future__ import annotations

import csv
import importlib.util
import json
import os
import unittest
from pathlib import Path
from unittest import mock

from tests.books import Cell, book
from tests.office import Done, OfficeTest
from tests.test_asking import Terminal
from vaultdesk import dates
from vaultdesk.columns import NAMES
from vaultdesk.errors import UsageError

HEADS: list[Cell] = ["Reference", "File name", "Shelf", "Document date", "Record class"]
MAPPED = 'key=Reference,date="Document date",class=Record class'
HAS_XLSX = importlib.util.find_spec("openpyxl") is not None


class InventoryTest(OfficeTest):
    """A folder with three scans, two classes, and settings that may be written."""

    def setUp(self) -> None:
        super().setUp()
        self.scans = self.folder / "scans"
        self.scans.mkdir()
        for n in range(4):
            (self.scans / f"Scan {n}.txt").write_bytes(b"scan %d" % n)
        text = b"class,years,mode\ndeed,6,COMPLIANCE\nletter,10,GOVERNANCE\nplan,permanent,GOVERNANCE\n"
        self.classes = self.written("classes.csv", text)
        self.settings = self.folder / "desk.toml"
        self.enterContext(mock.patch.dict(os.environ, {"VAULTDESK_SETTINGS": str(self.settings)}))
        self.settings.write_text('# of the office\ncaller = "ann"\n')

    def deliver(self, listed: str | bytes, *words: str, yes: bool = True) -> Done:
        """A delivery by that inventory: a spreadsheet, or the text of CSV."""
        content = listed.encode() if isinstance(listed, str) else listed
        path = self.written("list.csv" if isinstance(listed, str) else "list.xlsx", content)
        given = ["deliver", str(self.scans), "--bucket", "docs", "--batch", "b1", "--inventory", path]
        return self.desk(*given, "--classes", self.classes, *(["--yes"] if yes else []), *words)

    def plan(self, listed: str | bytes, *words: str) -> list[dict[str, str]]:
        """The plan of a delivery."""
        done = self.deliver(listed, "--dry-run", "--json", *words)
        self.assertEqual(done.status, 0, done.err)
        return list(json.loads(done.out)["plan"])

    def ends(self) -> dict[str, str]:
        """The end of each document that the vault holds, by its key."""
        return {it["key"]: it["until"] for it in json.loads(self.done("held", "--json"))}

    def answered(self, listed: str | bytes, *answers: str) -> Done:
        """A delivery of which somebody at a terminal is asked."""
        with mock.patch("sys.stdin", Terminal("".join(f"{it}\n" for it in answers))):
            return self.deliver(listed, yes=False)


class Columns(InventoryTest):
    LIST = (
        "Reference;File name;Shelf;Document date;Record class\n"
        "2010/7;Scan 0.txt;A deed;2010-05-01;deed\n2024/8;Scan 1.txt;A letter;2024-01-02;letter\n"
    )

    def test_columns_that_arent_known_are_named_and_nothing_comes_in(self) -> None:
        more: tuple[str, ...]
        for more in ((), ("--dry-run",), ("--columns", "key=Reference")):
            done = self.deliver(self.LIST, *more)
            self.assertEqual((done.status, done.out), (2, ""), more)
            self.assertIn("'Shelf', 'Document date', 'Record class'", done.err)
            self.assertIn("--columns", done.err)
            self.assertIn("--ignore-columns", done.err)
        with mock.patch("sys.stdin", Terminal("")):
            self.assertIn("aren't known: 'Reference', 'Shelf'", self.deliver(self.LIST).err)
        self.assertEqual(self.done("ls", "docs"), "")
        self.assertEqual(self.settings.read_text(), '# of the office\ncaller = "ann"\n')

    def test_columns_are_mapped_and_the_settings_keep_it(self) -> None:
        listed = self.LIST.replace("2010-05-01", "2020-05-01")
        done = self.deliver(listed, "--columns", MAPPED, "--ignore-columns", "Shelf")
        self.assertIn(f"kept for the next time in {self.settings}, [columns]: 'Reference' is key", done.err)
        self.assertEqual(self.ends(), {"2010/7": "2027-01-01T00:00:00Z", "2024/8": "2035-01-01T00:00:00Z"})
        self.assertTrue(self.settings.read_text().startswith('# of the office\ncaller = "ann"\n\n[columns]\n'))
        again = self.deliver(listed)
        self.assertEqual(again.status, 0, again.err)
        self.assertNotIn("kept", again.err)

    def test_what_the_settings_have_otherwise_is_written_anew(self) -> None:
        self.settings.write_text('[columns]\n"Shelf" = "key"  # once\n"Box" = "ignore"\n\n[least]\ndocs = "1 year"\n')
        listed = "File name;Reference;Shelf\nScan 0.txt;a;x\n"
        done = self.deliver(listed, "--columns", "key=Reference,ignore=Shelf", "--until", "2030-01-01")
        self.assertEqual(done.status, 0, done.err)
        text = '[columns]\n"Reference" = "key"\n"Shelf" = "ignore"\n"Box" = "ignore"\n\n[least]\ndocs = "1 year"\n'
        self.assertEqual(self.settings.read_text(), text)

    def test_settings_that_cant_be_written_are_said_with_the_words_to_write(self) -> None:
        self.settings.write_text('columns = {Box = "ignore"}\n')
        done = self.deliver("Datei;Ref\nScan 0.txt;a\n", "--columns", "key=Ref", "--until", "2030-01-01")
        self.assertEqual(done.status, 0, done.err)
        self.assertIn("not kept for the next time: 'Ref' is key", done.err)
        self.assertEqual(self.settings.read_text(), 'columns = {Box = "ignore"}\n')

    def test_settings_that_mean_nothing_are_refused(self) -> None:
        texts = {'[columns]\nRef = "kye"\n': "'Ref' is file, key", 'dates = "us"\n': "dates is day-first"}
        for text, said in texts.items():
            self.settings.write_text(text)
            done = self.deliver("Datei;Ref\nScan 0.txt;a\n")
            self.assertEqual((done.status, done.out), (2, ""))
            self.assertIn(said, done.err)

    def test_who_is_at_the_terminal_says_what_they_are(self) -> None:
        listed = self.LIST.replace("2010-05-01", "2020-05-01")
        done = self.answered(listed, "Signatur", "ignore", "date", "class", "yes")
        self.assertEqual(done.status, 0, done.err)
        self.assertEqual(self.ends(), {"2010/7": "2027-01-01T00:00:00Z", "2024/8": "2035-01-01T00:00:00Z"})
        self.assertIn('"Document date" = "date"', self.settings.read_text())
        words = "--columns 'key=Reference,ignore=Shelf,date=Document date,class=Record class'"
        self.assertIn(words, done.err)

    def test_an_answer_that_is_no_column_ends_it(self) -> None:
        for answer in ("reference", ""):
            done = self.answered(self.LIST, answer)
            self.assertEqual(done.status, 1)
            self.assertIn("nothing was changed", done.err)
        with mock.patch("sys.stdin", Terminal("")):  # as after Ctrl-D
            done = self.deliver(self.LIST, yes=False)
        self.assertEqual((done.status, done.err.count("nothing was changed")), (1, 1))
        self.assertEqual(self.done("ls", "docs"), "")

    def test_a_column_that_is_passed_over_is_said(self) -> None:
        done = self.deliver("Datei;Box;Shelf\nScan 0.txt;1;2\n", "--ignore-columns", "--until", "2030-01-01")
        self.assertEqual(done.status, 0, done.err)
        self.assertIn("columns that aren't used: 'Box', 'Shelf'", done.err)

    def test_words_for_columns_that_arent_understood(self) -> None:
        for words, said in (
            (["--columns", "kye=Box"], "--columns kye=Box: write WHAT=COLUMN"),
            (["--columns", "Box"], "write WHAT=COLUMN"),
            (["--columns", 'key="Box'], "a quote isn't closed"),
            (["--columns", "key=Boxes"], "has no column 'Boxes': it has 'Datei', 'Box'"),
            (["--columns", "file=Box"], "two columns mean the same, file: 'Datei', 'Box'"),
            (["--ignore-columns", "Shelf"], "has no column 'Shelf'"),
        ):
            done = self.deliver("Datei;Box\nScan 0.txt;1\n", *words)
            self.assertIn(done.status, (1, 2))
            self.assertIn(said, done.err)
        done = self.desk("deliver", str(self.scans), "--bucket", "docs", "--batch", "b1", "--columns", "key=Box")
        self.assertEqual(done.status, 2)
        self.assertIn("--columns goes with --inventory", done.err)

    def test_a_column_without_a_name_is_named_by_its_letters(self) -> None:
        self.assertIn("aren't known: 'column B'", self.deliver("Datei;;Key\nScan 0.txt;x;a\n").err)
        self.assertEqual([it["key"] for it in self.plan("Datei;;Key\nScan 0.txt;;a\n")], ["a"])

    def test_a_column_of_classes_is_none_of_an_inventory(self) -> None:
        self.assertIn("aren't known: 'Jahre'", self.deliver("Datei;Jahre\nScan 0.txt;6\n").err)

    def test_a_digest_in_the_inventory_is_compared(self) -> None:
        done = self.deliver(f"Datei;sha256\nScan 0.txt;{'0' * 64}\n")
        self.assertEqual(done.status, 1)
        self.assertIn("its content isn't the one whose digest the inventory has", done.out)


class Locks(InventoryTest):
    def refused(self, listed: str, *words: str) -> str:
        """What is printed of a delivery that is refused, of which nothing came in."""
        done = self.deliver(listed, *words)
        self.assertEqual(done.status, 1, done)
        self.assertEqual(self.done("ls", "docs"), "")
        return done.out

    def test_a_mode_wants_an_end(self) -> None:
        for mode in ("COMPLIANCE", "GOVERNANCE"):
            listed = f"File;Key;Mode;Until\nScan 0.txt;a;{mode};\n"
            for _ in range(2):
                self.assertIn(f"{mode} wants an end: a column until, a class, or --until", self.refused(listed))
                self.lines({"do": "set-default", "bucket": "docs", "mode": "COMPLIANCE", "years": 1})
            self.lines({"do": "set-default", "bucket": "docs"})
        self.assertEqual(self.deliver(listed, "--until", "2030-01-01").status, 0)
        self.assertEqual(self.ends(), {"a": "2030-01-01T00:00:00Z"})

    def test_the_words_give_an_end_to_rows_that_have_none(self) -> None:
        listed = "File;Class;Date;Until\nScan 0.txt;;;\nScan 1.txt;letter;2024-01-02;\nScan 2.txt;;;2031-01-01\n"
        rows = self.plan(listed, "--until", "2030-01-01", "--mode", "COMPLIANCE")
        self.assertEqual([(it["mode"], it["end"][:4]) for it in rows],
                         [("COMPLIANCE", "2030"), ("GOVERNANCE", "2035"), ("COMPLIANCE", "2031")])

    def test_a_class_wants_a_date(self) -> None:
        said = "its class counts from the document's date, and it has none"
        self.assertIn(said, self.refused("File;Key;Class;Date\nScan 0.txt;a;deed;\n"))
        self.assertIn(said, self.refused("File;Key;Class\nScan 0.txt;a;deed\n"))

    def test_a_mode_that_isnt_the_classs_is_wrong(self) -> None:
        said = self.refused("File;Class;Date;Mode\nScan 0.txt;deed;2024-01-01;GOVERNANCE\n")
        self.assertIn("its mode is GOVERNANCE, and that of its class COMPLIANCE", said)

    def test_a_class_without_a_file_of_classes_names_the_option(self) -> None:
        listed = self.written("list.csv", b"File;Class;Date\nScan 0.txt;deed;2024-01-01\n")
        done = self.desk("deliver", str(self.scans), "--bucket", "docs", "--batch", "b1", "--inventory", listed)
        self.assertEqual(done.status, 1)
        self.assertIn("--classes", done.out)

    def test_a_mode_that_contradicts_the_buckets_default_is_noted(self) -> None:
        self.lines({"do": "set-default", "bucket": "docs", "mode": "COMPLIANCE", "years": 1})
        [row] = self.plan("File;Mode;Until\nScan 0.txt;GOVERNANCE;2030-01-01\n")
        self.assertIn("its mode is GOVERNANCE, and the bucket's default is COMPLIANCE", row["note"])
        [row] = self.plan("File;Mode;Until\nScan 0.txt;COMPLIANCE;2030-01-01\n")
        self.assertEqual(row["note"], "")

    def test_permanent_is_the_last_moment(self) -> None:
        for word in ("permanent", "dauernd", "Unlimited"):
            self.classes = self.written("classes.csv", f"Klasse;Jahre;Modus\nplan;{word};GOVERNANCE\n".encode())
            [row] = self.plan("File;Key;Class\nScan 0.txt;a;plan\n")
            self.assertEqual(row["end"], "9999-12-31T23:59:59Z")
        done = self.deliver("File;Key;Class\nScan 0.txt;a;plan\n")
        self.assertEqual((done.status, self.ends()), (0, {"a": "9999-12-31T23:59:59Z"}), done.err)

    def test_classes_that_arent_right_are_named_with_their_row(self) -> None:
        for row, said in (
            ("deed,ever,GOVERNANCE", "row 2: class 'deed': years is a number up to 1,000, or permanent"),
            ("deed,6,governance", "row 2: class 'deed': .*mode GOVERNANCE or COMPLIANCE"),
            ("deed,6,GOVERNANCE\ndeed,9,GOVERNANCE", "row 3: class 'deed' comes twice"),
        ):
            self.classes = self.written("classes.csv", f"class,years,mode\n{row}\n".encode())
            done = self.deliver("File;Key\nScan 0.txt;a\n")
            self.assertEqual(done.status, 1)
            self.assertRegex(done.err, said)

    def test_an_end_after_the_last_moment_is_wrong(self) -> None:
        self.classes = self.written("classes.csv", b"class,years,mode\ndeed,1000,GOVERNANCE\n")
        self.assertIn("ends after 9999-12-31T23:59:59Z", self.refused("File;Class;Date\nScan 0.txt;deed;9100-01-01\n"))

    def test_keys_that_the_spreadsheet_has_spoilt_are_wrong(self) -> None:
        for key, said in (("#N/A", "a cell has an error of the spreadsheet: #N/A"),
                          ("1,23457E+11", "1,23457E\\+11 is a number that the spreadsheet shortened")):
            self.assertRegex(self.refused(f"File;Key;Until\nScan 0.txt;{key};2030-01-01\n"), said)


class Dates(InventoryTest):
    CLASSED = "File;Key;Class;Date\nScan 0.txt;a;letter;{}\nScan 1.txt;b;letter;{}\n"

    def ends_of(self, *cells: str) -> list[str]:
        return [it["end"][:4] for it in self.plan(self.CLASSED.format(*cells))]

    def test_dates_as_csv_of_excel_has_them(self) -> None:
        for first, second in (("13.06.2020", "1.2.2021"), ("6/13/2020", "1/2/2021"), ("2020-06-13", "13/6/2021"),
                              ("13.06.2020 14:30", "2021-02-01 08:00:00")):
            self.assertEqual(self.ends_of(first, second), ["2031", "2032"], first)
        rows = self.plan("File;Until\nScan 0.txt;01.02.2030\nScan 1.txt;31.03.2031\n")
        self.assertEqual([it["end"][:10] for it in rows], ["2030-02-01", "2031-03-31"])

    def test_dates_that_may_be_two_are_wrong(self) -> None:
        for first, second, said in (
            ("01.02.2020", "03.04.2021", "no date of its column shows which number is the day"),
            ("13.06.2020", "06.13.2020", "the day first, as 13.06.2020, and the month first, as 06.13.2020"),
            ("13.06.2020", "13/06/2021", "dates of two forms, as 13.06.2020 and 13/06/2021"),
        ):
            done = self.deliver(self.CLASSED.format(first, second))
            self.assertEqual((done.status, self.done("ls", "docs")), (1, ""), first)
            self.assertEqual(done.out.count(said), 2)
            self.assertEqual(done.out.count("give the xlsx, or --dates day-first or month-first"), 2)

    def test_the_words_or_the_settings_say_which_number_is_the_day(self) -> None:
        listed = "File;Until\nScan 0.txt;01.02.2030\n"
        for order, end in (("day-first", "2030-02-01"), ("month-first", "2030-01-02")):
            self.assertEqual(self.plan(listed, "--dates", order)[0]["end"][:10], end)
            self.settings.write_text(f'dates = "{order}"\n')
            self.assertEqual(self.plan(listed)[0]["end"][:10], end)

    def test_each_order_reads_the_calendar(self) -> None:
        order = dates.order_of(["31.12.2020", "2020-02-01"], None)
        self.assertEqual([order.date(it) for it in ("1.2.2020", "2020-02-01", "")], ["2020-02-01", "2020-02-01", ""])
        for text in ("31.02.2020", "1.13.2020"):
            with self.assertRaisesRegex(UsageError, "is no date of the calendar"):
                order.date(text)


class Paths(InventoryTest):
    def files(self, *cells: str) -> list[str]:
        """The files of rows that name them so, or what is wrong with them."""
        rows = self.plan("File;Until\n" + "".join(f"{it};2030-01-01\n" for it in cells))
        return [it["note"] if it["note"].startswith("wrong") else it["file"] for it in rows]

    def test_full_paths_of_windows_are_taken_from_the_folder_on(self) -> None:
        found = self.files(r"C:\Scans\Scan 1.txt", r"c:\scans\Scan 2.txt")
        self.assertEqual(found, ["Scan 1.txt", "Scan 2.txt"])
        self.assertEqual(self.files(r"\\server\share\Scan 0.txt"), ["Scan 0.txt"])
        [row] = self.plan("File;Until\nC:\\Scans\\Scan 1.txt;2030-01-01\n")
        self.assertEqual(row["key"], "Scan 1.txt")
        self.assertIn(r"the inventory has C:\Scans\Scan 1.txt", row["note"])

    def test_what_is_below_the_folder_keeps_its_path(self) -> None:
        (self.scans / "2024").mkdir()
        (self.scans / "2024" / "Scan 1.txt").write_bytes(b"of 2024")
        found = self.files(r"D:\a\Scans\2024\Scan 1.txt", r"D:\a\Scans\Scan 1.txt")
        self.assertEqual(found, ["2024/Scan 1.txt", "Scan 1.txt"])
        self.assertEqual(self.files(r"2024\Scan 1.txt"), ["2024/Scan 1.txt"])

    def test_paths_of_two_folders_are_no_files_of_one(self) -> None:
        found = self.files(r"C:\2023\Scan 1.txt", r"C:\2024\Scan 1.txt")
        self.assertEqual([it.startswith("wrong: no such file in the folder: the inventory has a path of Windows")
                          for it in found], [True, True])

    def test_a_name_in_other_letters_is_named(self) -> None:
        self.assertEqual(self.files("scan 1.TXT"), ["wrong: no such file in the folder: it has 'Scan 1.txt'"])


@unittest.skipUnless(HAS_XLSX, "python3-openpyxl isn't there")
class Sheets(InventoryTest):
    ROWS: list[list[Cell]] = [["File", "Class", "Date"], ["Scan 0.txt", "letter", "date:43831"]]

    def test_dates_and_numbers_of_a_spreadsheet_are_read(self) -> None:
        row: list[Cell] = ["Scan 0.txt", 17, "deed", "date:43831.5"]
        rows: list[list[Cell]] = [["File", "Key", "Class", "Date", None], [], row]
        [it] = self.plan(book(List=rows))
        self.assertEqual((it["row"], it["key"], it["date"], it["end"][:4]), (3, "17", "2020-01-01", "2027"))

    def test_the_sheet_with_an_inventory_is_found_or_named(self) -> None:
        several = book(Cover=[["Cover sheet"]], First=self.ROWS, Second=self.ROWS)
        done = self.deliver(several)
        self.assertEqual((done.status, done.out), (2, ""))
        self.assertIn("the sheets 'First', 'Second' all have an inventory: name one by --sheet", done.err)
        for name in ("second", "3"):
            self.assertEqual(len(self.plan(several, "--sheet", name)), 1)
        done = self.deliver(several, "--sheet", "Third")
        self.assertIn("has no sheet 'Third': its sheets are 'Cover', 'First', 'Second'", done.err)
        done = self.deliver(book(Cover=[["Cover"]], List=self.ROWS), "--dry-run")
        self.assertIn("sheet 'List': the names of columns are in row 1", done.err)

    def test_a_row_above_the_names_of_columns_is_passed_over(self) -> None:
        titled: list[list[Cell]] = [["Scans of June"], [], *self.ROWS]
        done = self.deliver(book(List=titled), "--dry-run", "--json")
        self.assertEqual([it["row"] for it in json.loads(done.out)["plan"]], [4], done.err)
        self.assertIn("the names of columns are in row 3", done.err)
        text = "Scans of June;;\n\nDatei;Klasse;Datum\nScan 0.txt;letter;2020-01-01\n"
        self.assertEqual([it["row"] for it in self.plan(text)], [4])

    def test_where_no_row_has_them_sheet_and_row_are_named(self) -> None:
        done = self.deliver(book(Cover=[[], ["Cover sheet", "x"]], More=[["y"]]))
        self.assertEqual(done.status, 1)
        self.assertIn("no column 'file' in row 2 of", done.err)
        self.assertIn("sheet 'Cover', which has 'Cover sheet', 'x'; nor is it in the other sheets, 'More'", done.err)
        done = self.deliver(book(List=[["a"], *self.ROWS, ["Datei", "b"]]))
        self.assertIn("rows 2 and 4 all have names of columns", done.err)


class Manual(InventoryTest):
    """A clerk by the manual alone, with an inventory as Excel has it."""

    ROWS: list[list[Cell]] = [
        HEADS, ["2010/7", "Scan 0.txt", "A deed", "date:43952", "deed"],
        ["2024/8", "Scan 1.txt", "A letter", "date:45293", "letter"], [2025, "Scan 2.txt", "A plan", None, "plan"],
        ["2025/1", "Scan 3.txt", "A note", "date:45294", None],
    ]  # fmt: skip

    @unittest.skipUnless(HAS_XLSX, "python3-openpyxl isn't there")
    def test_what_the_plan_says_is_what_the_vault_has(self) -> None:
        self.lines({"do": "set-default", "bucket": "docs", "mode": "GOVERNANCE", "days": 100})
        listed, planned = book(Sheet1=self.ROWS), self.folder / "plan.csv"
        looked = self.deliver(listed, "--dry-run")
        self.assertEqual((looked.status, looked.out), (2, ""))
        self.assertIn("'Reference', 'Shelf', 'Document date', 'Record class'", looked.err)
        mapped = ("--columns", MAPPED, "--ignore-columns", "Shelf")
        looked = self.deliver(listed, "--dry-run", "--csv", str(planned), *mapped)
        self.assertEqual(looked.status, 0, looked.err)
        self.assertIn("4 of 4 rows would be taken in", looked.err)
        said = "the first end is 2024-04-24T10:00:00Z, the last 9999-12-31T23:59:59Z; 0 stay without any guard; 1 can't"
        self.assertIn(said, looked.err)
        self.assertEqual(self.done("ls", "docs"), "")
        with planned.open(encoding="utf-8", newline="") as file:
            rows = list(csv.DictReader(file))
        self.assertEqual([*rows[0].values()][:8],
                         ["2", "Scan 0.txt", "2010/7", "deed", "2020-05-01", "COMPLIANCE", "2027-01-01T00:00:00Z", "6"])
        self.assertEqual([it["end"][:10] for it in rows], ["2027-01-01", "2035-01-01", "9999-12-31", "2024-04-24"])
        done = self.deliver(listed, *mapped)
        self.assertEqual(done.status, 0, done.err)
        self.assertIn("4 of 4 rows are in the vault, 4 of them with the digest of their file", done.out)
        self.assertEqual(self.ends(), {it["key"]: it["end"] for it in rows})
        modes = {it["key"]: it["retention"] for it in json.loads(self.done("held", "--json"))}
        self.assertEqual(modes, {it["key"]: it["mode"] for it in rows})
        # The settings know the columns by now, and the same command given again changes nothing.
        again = self.deliver(listed)
        self.assertEqual((again.status, len(json.loads(self.done("ls", "docs", "--json")))), (0, 4), again.err)

    def test_the_page_has_every_name_that_is_known(self) -> None:
        text = (Path(__file__).parents[2] / "docs" / "INVENTORY.md").read_text(encoding="utf-8")
        for name in NAMES:
            self.assertIn(f"`{name}`", text)
