"""Pages that an office signs: their head, what they certify, how words are broken, and PDF/A."""

from __future__ import annotations

import contextlib
import html
import json
import os
import re
import shutil
import subprocess
import tempfile
import unittest
from collections.abc import Iterator, Mapping
from pathlib import Path
from typing import Any
from unittest import mock

from tests.office import OfficeTest
from vaultdesk import certificate_page, court_page, events, paper
from vaultdesk.court_page import WHAT, Page, Part
from vaultdesk.errors import DeskError

NAMED = '[office]\nname = "County <Archive>"\n'
NOW = "2025-06-02T09:00:00Z"
DIGEST = "5" * 64
CERTIFICATE = f"""CERTIFICATE OF DESTRUCTION
version: 17
bucket: letters
key: 2025/a "b" & <c>
size: 5
sha256: {DIGEST}
admitted: 2024-01-15T10:30:00Z by ann
removed: 2024-02-05T03:00:00Z
cause: rule old versions
days held: 21
seal: {"6" * 64}
"""
FALSE_MAKER = """#!/bin/sh
echo "$*" > "$0.words"
cat > "$0.page"
cat "$0.says"
"""


def event(name: str, moment: str, kind: str = "version") -> events.Event:
    """An event of version 17."""
    cells = {it: "" for it in events.Event.__annotations__} | {"event": name, "moment": moment, "by": "ann"}
    cells |= {"bucket": "letters", "key": "2025/002", "kind": kind, "sha256": DIGEST if kind == "version" else ""}
    return events.Event(**{**cells, "version": 17, "size": 5})  # type: ignore[arg-type]


def page(*found: events.Event, is_good: bool = True) -> str:
    """The page of that version for a court, of two parts."""
    document = Part("document", "The document", (), WHAT, [{"what": "sha256", "is": DIGEST}])
    life = [{"moment": NOW, "who": "ann", "what": "29 bytes"}, {"moment": NOW, "who": "x" * 40, "what": "all of it"}]
    parts = [document, Part("life", f"At {NOW}", (), ("moment", "who", "what"), life)]
    return court_page.as_html(Page(parts, found, "records.vault", NOW, is_good, "gov"))


def objects_of(file: Path) -> dict[str, Any]:
    """The objects of a file of PDF by their names, as qpdf has them."""
    words = ["qpdf", "--json=2", "--json-key=qpdf", str(file)]
    done = subprocess.run(words, capture_output=True, check=True)
    return dict(json.loads(done.stdout)["qpdf"][1])


def not_pdf_a(objects: Mapping[str, Any]) -> Iterator[str]:
    """What of PDF/A-3b these objects lack. It is a look at some rules of ISO 19005-3, and no validator of it."""
    values = [it.get("value") or it["stream"]["dict"] for it in objects.values()]
    kinds = {it["/Type"]: it for it in values if isinstance(it, dict) and "/Type" in it}
    trailer, catalog = objects["trailer"]["value"], kinds.get("/Catalog", {})
    if len(trailer.get("/ID", ())) != 2 or "/Encrypt" in trailer:  # 6.1.3
        yield "the trailer has no /ID, or an encryption"
    if "/GTS_PDFA1" not in json.dumps(catalog.get("/OutputIntents")) or not any("/N" in it for it in values):  # 6.2.3
        yield "there is no output intent"
    fonts = [it for it in values if isinstance(it, dict) and "/FontName" in it]
    if not fonts or not all({"/FontFile", "/FontFile2", "/FontFile3"} & it.keys() for it in fonts):  # 6.2.11.4
        yield "a font isn't embedded"
    if any("/CIDFontType2" == it.get("/Subtype") and "/CIDToGIDMap" not in it for it in values if isinstance(it, dict)):
        yield "a font has no map of its glyphs"  # 6.2.11.3.2
    if not {"/Metadata"} <= catalog.keys() or {"/AA", "/OpenAction"} & catalog.keys():  # 6.6.2.1, 6.5
        yield "there are no metadata, or there is an action"
    if kinds.get("/Catalog", {}).get("/Lang") != "u:en":
        yield "the language isn't said"


class PaperTest(unittest.TestCase):
    def setUp(self) -> None:
        self.folder = Path(self.enterContext(tempfile.TemporaryDirectory()))
        (self.folder / "settings.toml").write_text(NAMED)
        settings = {"VAULTDESK_SETTINGS": str(self.folder / "settings.toml")}
        self.enterContext(mock.patch.dict(os.environ, settings))
        self.enterContext(mock.patch("vaultdesk.moments.now", return_value=NOW))

    @contextlib.contextmanager
    def maker(self, says: str) -> Iterator[Path]:
        """With a program in the place of the one that makes PDF; it says that, and notes what it was given."""
        program = self.folder / "bin" / paper.MAKER
        program.parent.mkdir()
        program.write_text(FALSE_MAKER)
        program.chmod(0o755)
        program.with_name(f"{program.name}.says").write_text(says)
        with mock.patch.dict(os.environ, {"PATH": f"{program.parent}:{os.environ['PATH']}"}):
            yield program


class Signed(PaperTest):
    def test_the_head_has_the_office_when_and_by_whom(self) -> None:
        text = page(event("admitted", NOW))
        self.assertIn('<p class="office">County &lt;Archive&gt;</p>', text)
        self.assertIn("<p>Issued on 2 June 2025, 09:00:00 UTC by gov.</p>", text)
        self.assertIn("<p>Place, date</p><p>Name, signature, seal</p>", text)
        self.assertIn("@page { margin", text)
        self.assertIn('counter(page) " of " counter(pages)', text)
        self.assertIn('name="viewport" content="width=device-width', text)
        (self.folder / "settings.toml").write_text("")
        self.assertNotIn('class="office"', page(event("admitted", NOW)))
        self.assertIn("<p>The office that keeps the vault certifies", page(event("admitted", NOW)))

    def test_only_what_nothing_speaks_against_is_certified(self) -> None:
        good, bad = page(event("admitted", NOW)), page(event("admitted", NOW), is_good=False)
        wanted = "certifies that its vault records.vault has what is below of version 17 of the bucket letters"
        self.assertIn(wanted, good)
        self.assertNotIn("certifies", bad)
        self.assertIn("nothing is certified until that is explained", bad)

    def test_what_of_the_bytes_is_gone(self) -> None:
        self.assertIn("<li>None: the vault holds the whole content.</li>", page(event("admitted", NOW)))
        gone = page(event("admitted", NOW), event("removed", NOW))
        self.assertIn("This page doesn't show that its bytes were wiped", gone)
        self.assertIn("<code>vaultdesk where 17</code>", gone)
        marker = page(event("admitted", NOW, "marker"))
        self.assertIn("<li>A delete marker has no bytes.</li>", marker)
        self.assertNotIn("sha256sum", marker)

    def test_no_word_and_no_moment_is_broken(self) -> None:
        text = page(event("admitted", NOW))
        moment = f'<span class="fixed">{NOW}</span>'
        self.assertIn(f"<h2>At {moment}</h2>", text)
        cells = f'<td class="fixed">{moment}</td><td class="fixed">ann</td><td class="sentence">29 bytes</td>'
        self.assertIn(cells, text)
        self.assertIn(f'<td class="long">{"x" * 40}</td>', text)
        self.assertIn(f'<td class="long">{DIGEST}</td>', text)
        broken = re.findall(r"([^{}]*)\{[^}]*(?:anywhere|break-word|break-all)", paper.STYLE)
        self.assertEqual([it.strip() for it in broken], [".long, pre, code"])

    def test_a_certificate_is_the_engines_with_what_goes_with_it(self) -> None:
        by_bypass = CERTIFICATE.replace("rule old versions", "bypass gov")
        text = certificate_page.page([(CERTIFICATE, "", ""), (by_bypass, "", NOW)], "ann")
        self.assertEqual(html.unescape(text.partition("<pre>")[2].partition("</pre>")[0]), CERTIFICATE)
        said = "removed version 17 of the bucket letters on 5 February 2024, 03:00:00 UTC, "
        self.assertIn(said + "by the lifecycle rule \u201cold versions\u201d, and that no command reads", text)
        self.assertIn(said + "as gov asked, who bypassed a retention in GOVERNANCE, and that", text)
        self.assertIn(f"<code>{DIGEST}</code>", text)
        certificate = '<span class="fixed">certificate-0000000017.txt</span>'
        self.assertIn(f"<code>head -n -1 {certificate} | sha256sum</code>", text)
        self.assertEqual((text.count("<section>"), text.count('class="sign"')), (2, 2))
        unwiped, wiped = text.split("</section>")[:2]
        self.assertIn("This certificate doesn't show that its bytes were wiped", unwiped)
        self.assertIn(f"Its bytes were wiped from the vault's file on {paper.in_words(NOW)}; they may stay", wiped)
        self.assertNotIn("doesn't show that its bytes", wiped)


class Printed(PaperTest):
    def test_the_maker_gets_the_page_for_the_paper(self) -> None:
        given = page(event("admitted", NOW))
        with self.maker("%PDF-1.7 made") as program:
            self.assertEqual(paper.pdf(given, "Letter"), b"%PDF-1.7 made")
            self.assertIn("--pdf-variant pdf/a-3b", (program.with_name(f"{program.name}.words")).read_text())
            sized = program.with_name(f"{program.name}.page").read_text()
        self.assertEqual(sized, given.replace("@page { margin", "@page { size: Letter; margin"))
        self.assertNotEqual(sized, given)

    def test_what_is_no_pdf_is_a_failure(self) -> None:
        with self.maker("no such variant"), self.assertRaisesRegex(DeskError, "weasyprint made no PDF"):
            paper.pdf("x", "A4")
        missing = self.assertRaisesRegex(DeskError, "apt install weasyprint")
        with mock.patch.dict(os.environ, {"PATH": ""}), missing:
            paper.pdf("x", "A4")

    @unittest.skipUnless(shutil.which(paper.MAKER), "there is no weasyprint")
    def test_it_is_marked_as_pdf_a(self) -> None:
        made = paper.pdf(page(event("admitted", NOW)), "A4")
        self.assertRegex(made, rb'pdfaid:part="3" pdfaid:conformance="B"|<pdfaid:part>3</pdfaid:part>')
        self.assertIn(b"/GTS_PDFA1", made)
        self.assertNotIn(b"/JavaScript", made)
        self.assertRegex(made, rb"/ID \[")

    @unittest.skipUnless(shutil.which(paper.MAKER) and shutil.which("qpdf"), "there is no weasyprint, or no qpdf")
    def test_qpdf_finds_no_fault_and_what_pdf_a_wants_is_there(self) -> None:
        file = self.folder / "a.pdf"
        keyed = CERTIFICATE.replace("2025/a", "2025/\u00e4 \u0416")
        file.write_bytes(paper.pdf(certificate_page.page([(CERTIFICATE, "", ""), (keyed, "", "")], "ann"), "A4"))
        words = ["qpdf", "--check", str(file)]
        done = subprocess.run(words, capture_output=True, text=True, check=False)
        self.assertEqual(done.returncode, 0, done.stdout + done.stderr)
        self.assertEqual(list(not_pdf_a(objects_of(file))), [])
        self.assertEqual(len(list(not_pdf_a({"trailer": {"value": {"/Encrypt": {}}}}))), 5)


class Asked(OfficeTest):
    def test_the_files_that_are_named_are_written(self) -> None:
        self.lines({"do": "put", "bucket": "docs", "key": "a", "text": "x"},
                   {"do": "delete-version", "bucket": "docs", "key": "a", "id": 1})
        out, pdf = self.folder / "a.html", self.folder / "a.pdf"
        with mock.patch("vaultdesk.paper.pdf", side_effect=lambda given, size: f"%PDF {size} {given}".encode()):
            both = ("--html", str(out), "--pdf", str(pdf), "--paper", "Letter")
            self.assertEqual(self.done("certificate", "1", *both), "")
            self.assertEqual(pdf.read_text(), f"%PDF Letter {out.read_text()}")
            self.assertIn("by ann.", out.read_text())
            self.assertEqual(self.done("answer", "1", "--force", "--pdf", str(pdf)), "")
            self.assertIn("%PDF A4 <!DOCTYPE html>", pdf.read_text())
            self.done("certificates", str(self.folder / "out"), "--pdf", "--paper", "Letter")
            self.assertTrue((self.folder / "out" / "certificates.pdf").read_text().startswith("%PDF Letter"))
        done = self.desk("certificate", "1", "--paper", "A4")
        self.assertEqual(done.status, 2)
        self.assertIn("--paper goes with --pdf FILE", done.err)
        out.unlink()
        with mock.patch.dict(os.environ, {"PATH": ""}):
            done = self.desk("certificate", "1", "--html", str(out), "--pdf", str(pdf), "--force")
        self.assertEqual((done.status, out.exists()), (1, False))
        done = self.desk("certificate", "1", "--html", str(out), "--pdf", str(pdf))
        self.assertEqual((done.status, out.exists()), (1, False))
        self.assertIn("a.pdf is there already: give --force", done.err)
