"""Boxes: each block of commands or configuration of four pages is tried by something, or a reason says why it can't be.

A box that begins with ```console is carried out by `pages.py`, and one with ```root by `package.py`, where they name
its page. Of any other box a trial takes the text from the page, by `shown`: so what it carries out is what the page
shows, and a box that is new or altered makes a trial fail. `box_system.py` does so in a system that it boots.

`python3 -m trials.boxes` prints the table: each box, and what tries it.
"""

import importlib
import re
import sys
from typing import Iterator, Mapping, NamedTuple

from trials.parts.program import TOP, Case, check

BOXED = ("ENGINEER", "S3", "OFFICES", "AUDITOR")
# The trials that take boxes from these pages.
TAKERS = ("box_system", "timestamps")
# The page and the first line of each box that nothing can carry out here, with the reason.
REASONS: dict[tuple[str, str], str] = {}
# The module that takes each box.
TAKEN: dict[tuple[str, str], str] = {}


class Box(NamedTuple):
    """A block of a page: the line on which it begins, what stands after its ```, and its lines."""

    page: str
    line: int
    kind: str
    lines: list[str]

    def name(self) -> tuple[str, str]:
        """Its page and its first line."""
        return self.page, self.lines[0]


def boxes(page: str, text: str | None = None) -> Iterator[Box]:
    """The boxes of a page, or of a text in its place."""
    found: Box | None = None
    for number, line in enumerate((text or (TOP / "docs" / f"{page}.md").read_text(encoding="utf-8")).split("\n"), 1):
        if line.startswith("```") and found:
            yield found
            found = None
        elif line.startswith("```"):
            found = Box(page, number, line[3:], [])
        elif found:
            found.lines.append(line)


def shown(page: str, first: str, replaced: Mapping[str, str] | None = None) -> str:
    """The box of a page that begins with that line, without prompts, and with each of some texts replaced."""
    found = [it for it in boxes(page) if it.lines[0] == first]
    check(len(found) == 1, f"{page}.md has {len(found)} boxes that begin with {first!r}: the trial is for another one")
    box = found[0]
    TAKEN[box.name()] = sys._getframe(1).f_globals["__name__"].rpartition(".")[2]
    text = "".join(re.sub(r"^[#$] ", "", line) + "\n" for line in box.lines)
    for old, new in (replaced or {}).items():
        check(old in text, f"{page}.md:{box.line}: there is no {old!r} to be replaced")
        text = text.replace(old, new)
    return text


def tried(found: Iterator[Box]) -> dict[tuple[str, str], list[str]]:
    """Who tries each box, by its name: nobody where the list is empty."""
    pages, package = importlib.import_module("trials.pages"), importlib.import_module("trials.package")
    for it in TAKERS:
        importlib.import_module(f"trials.{it}")
    tries: dict[tuple[str, str], list[str]] = {}
    for box in found:
        by = tries.setdefault(box.name(), [])
        if box.kind == "console" and f"docs/{box.page}.md" in pages.PAGES:
            by.append("pages.py")
        if box.kind == "root" and box.page in package.OTHER_PAGES:
            by.append("package.py")
        if box.name() in TAKEN:
            by.append(f"{TAKEN[box.name()]}.py")
        if box.name() in REASONS:
            by.append(f"nothing: {REASONS[box.name()]}")
    return tries


class Boxes(Case):
    def test_each_is_tried(self) -> None:
        there = [it for page in BOXED for it in boxes(page)]
        self.assertGreater(len(there), 30)
        tries = tried(iter(there))
        self.assertEqual(len(tries), len(there), "two boxes begin with the same line")
        self.assertEqual([name for name, by in tries.items() if not by], [], "nothing tries these boxes")
        self.assertEqual([name for name, by in tries.items() if len(by) > 1 and name in REASONS], [])
        self.assertEqual((REASONS.keys() | TAKEN.keys()) - tries.keys(), set(), "there are no such boxes")
        self.assertEqual(set(TAKEN.values()), set(TAKERS))

    def test_one_that_nothing_tries_is_found(self) -> None:
        text = "```\n# systemctl mask vault-serve@records\n```\n```console\n$ ls\n```\n"
        found = list(boxes("ENGINEER", text))
        self.assertEqual([(it.line, it.kind, it.lines) for it in found], [
            (1, "", ["# systemctl mask vault-serve@records"]), (4, "console", ["$ ls"]),
        ])  # fmt: skip
        self.assertEqual(list(tried(iter(found)).values()), [[], ["pages.py"]])


def main() -> None:
    """Prints a line for each box: its page and line, what tries it, and its first line."""
    for page in BOXED:
        for box in boxes(page):
            print(f"{page}.md:{box.line}: {', '.join(*tried(iter([box])).values())}: {box.lines[0]}")


if __name__ == "__main__":
    importlib.import_module("trials.boxes").main()
