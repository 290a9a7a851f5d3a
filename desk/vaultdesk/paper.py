"""Pages that an office signs: what they have at their head and their end, on A4, Letter and a phone, and as PDF/A."""

from __future__ import annotations

import argparse
import datetime as dt
import hashlib
import html
import re
import shutil
import subprocess
from collections.abc import Sequence
from pathlib import Path

from vaultdesk import config, moments
from vaultdesk.documents import look_free, write_content
from vaultdesk.errors import DeskError, UsageError
from vaultdesk.output import shown

# Words stay whole: only digests, keys and lines of a certificate are broken, where they don't fit.
STYLE = """
body { font: 11pt/1.4 Georgia, "DejaVu Serif", serif; color: #000; background: #fff; max-width: 46em;
  margin: 2em auto; padding: 0 1em }
.office { font-variant: small-caps; letter-spacing: .05em; border-bottom: 1px solid #000; margin: 0 0 1.5em }
h1 { font-size: 16pt; line-height: 1.2; margin: 0 0 .4em } h2 { font-size: 12pt; margin: 1.4em 0 .3em }
p, ul { margin: .4em 0 } ul { padding-left: 1.2em }
table { border-collapse: collapse; width: 100%; margin: .4em 0 }
th, td { border-bottom: 1px solid #999; padding: .2em .8em .2em 0; text-align: left; vertical-align: top }
.fixed { white-space: nowrap } .long, pre, code { overflow-wrap: anywhere } .long { min-width: 9em }
pre, code { font-family: "DejaVu Sans Mono", Menlo, monospace; font-size: 8.5pt }
pre { border: 1px solid #000; padding: .8em; white-space: pre-wrap }
.sign { display: flex; margin-top: 3.5em } .sign p { border-top: 1px solid #000; flex: 1; padding-top: .3em;
  font-size: 9pt } .sign p + p { margin-left: 2em }
section + section { margin-top: 5em; break-before: page }
.sign, pre, tr, li { break-inside: avoid } h1, h2 { break-after: avoid } thead { display: table-header-group }
@media (max-width: 34em) { body { margin: 1em auto; font-size: 10pt } pre, code { font-size: 7.5pt }
  th, td { padding-right: .5em } table { font-size: 9pt } }
@media print { body { margin: 0; padding: 0; max-width: none; font-size: 10pt } section + section { margin-top: 0 } }
@page { margin: 20mm 18mm 22mm; @bottom-left { content: string(page-title); font: 8pt Georgia, "DejaVu Serif", serif }
  @bottom-right { content: "page " counter(page) " of " counter(pages); font: 8pt Georgia, "DejaVu Serif", serif } }
h1 { string-set: page-title content() }
"""
PAPERS = ("A4", "Letter")
VARIANT = "pdf/a-3b"
LONGEST = 24  # letters of a name that is never broken
MAKER = "weasyprint"
MOMENT = re.compile(r"\d{4}-\d{2}-\d{2}T[\d:]{8}Z")


def in_words(moment: str) -> str:
    """A moment of the engine's form as people write it: `2 June 2025, 09:00:00 UTC`."""
    read = dt.datetime.fromisoformat(moment.replace("Z", "+00:00"))
    return f"{read.day} {read:%B %Y, %H:%M:%S} UTC"


def office() -> str:
    """How a page names the office that signs it."""
    return config.office_name() or "The office that keeps the vault"


def head(title: str, asker: str | None) -> str:
    """The head of a page: the office, the title, and when and by whom it was issued."""
    named = config.office_name()
    first = f'<p class="office">{text(named)}</p>\n' if named else ""
    by = f" by {text(asker)}" if asker else ""
    return f"{first}<h1>{text(title)}</h1>\n<p>Issued on {in_words(moments.now())}{by}.</p>\n"


def text(given: str) -> str:
    """A text in which no moment is broken."""
    return MOMENT.sub(r'<span class="fixed">\g<0></span>', html.escape(shown(given), quote=False))


def listed(title: str, sentences: Sequence[str]) -> str:
    """A heading, and sentences below it. What stands between ` is a command or a digest."""
    return f"<h2>{text(title)}</h2>\n<ul>{''.join(f'<li>{_marked(it)}</li>' for it in sentences)}</ul>\n"


def _marked(sentence: str) -> str:
    parts = sentence.split("`")
    return "".join(f"<code>{_command(it)}</code>" if number % 2 else text(it) for number, it in enumerate(parts))


def _command(words: str) -> str:
    """A command in which no name is broken at a hyphen."""
    return " ".join(f'<span class="fixed">{text(it)}</span>' if "-" in it[1:] else text(it) for it in words.split(" "))


def of_bytes(what: str, version: int, wiped: str) -> str:
    """What a page of that kind says of the bytes of a removed version: when they were wiped, where that is noted."""
    if wiped:
        where = "they may stay readable in older copies of it, and in free parts of its disk"
        done = f"Its bytes were wiped from the vault's file on {in_words(wiped)}"
        return f"{done}; {where}. `vaultdesk where {version}` lists the copies."
    where = "they may stay readable in unused parts of the vault's files, and in copies of them"
    return f"This {what} doesn't show that its bytes were wiped: {where}. `vaultdesk where {version}` lists these."


def cell(given: str, is_value: bool = False) -> str:
    """A cell of a table: a short name or moment stays on its line, a value may be broken where it doesn't fit."""
    is_sentence = " " in given
    kind = "long" if is_value or not is_sentence and len(given) > LONGEST else "sentence" if is_sentence else "fixed"
    return f'<td class="{kind}">{text(given)}</td>'


def signature() -> str:
    """A place for a date and a signature."""
    return '<div class="sign"><p>Place, date</p><p>Name, signature, seal</p></div>\n'


def page(title: str, body: str) -> str:
    """A page as HTML that loads nothing from elsewhere."""
    meta = '<meta charset="utf-8"><meta name="viewport" content="width=device-width, initial-scale=1">'
    whole = f"{meta}<title>{html.escape(title)}</title><style>{STYLE}</style>"
    return f'<!DOCTYPE html>\n<html lang="en"><head>{whole}</head><body>\n{body}</body></html>\n'


def _sized(given: str, paper: str) -> str:
    """A page for a paper of that size; as HTML it takes what the printer has."""
    return given.replace("@page { margin", f"@page {{ size: {paper}; margin", 1)


def pdf(given: str, paper: str) -> bytes:
    """A page as PDF/A-3b. `DeskError` where the program that makes it isn't there, or fails."""
    if not shutil.which(MAKER):
        raise DeskError(f"{MAKER} isn't there, which makes PDF/A: apt install {MAKER}, or print the HTML by a browser")
    content = _sized(given, paper).encode()
    # A file of PDF/A has an identifier in its trailer; some versions of the program write none by themselves.
    named = ["--pdf-identifier", hashlib.sha256(content).hexdigest()[:32]]
    words = [MAKER, "--quiet", "--encoding", "utf-8", "--pdf-variant", VARIANT, *named, "-", "-"]
    done = subprocess.run(words, input=content, capture_output=True, check=False)
    if done.returncode or not done.stdout.startswith(b"%PDF"):
        said = done.stderr.decode(errors="replace").strip()[-300:]
        raise DeskError(f"{MAKER} made no PDF: {said or 'it says nothing'}: print the HTML by a browser")
    return done.stdout


def write(words: argparse.Namespace, given: str) -> bool:
    """Writes a page to the files that the words name, and returns whether they name one.

    `DeskError` where a file is there and may not be written over, or no PDF can be made; then nothing is written."""
    if words.paper and not words.pdf:
        raise UsageError("--paper goes with --pdf FILE")
    look_free([Path(it) for it in (words.html, words.pdf) if it], words.force)
    made = pdf(given, words.paper or PAPERS[0]) if words.pdf else b""
    if words.html:
        write_content(Path(words.html), given.encode(), words.force)
    if words.pdf:
        write_content(Path(words.pdf), made, words.force)
    return bool(words.html or words.pdf)


def add(it: argparse.ArgumentParser) -> None:
    """The options of a subcommand that makes such a page."""
    it.add_argument("--html", metavar="FILE", help="write the page as HTML, to be printed and signed")
    it.add_argument("--pdf", metavar="FILE", help=f"write the page as PDF/A, by {MAKER}")
    it.add_argument("--paper", choices=PAPERS, help=f"of the PDF ({PAPERS[0]})")
    it.add_argument("--force", action="store_true", help="write over a file that is there")
