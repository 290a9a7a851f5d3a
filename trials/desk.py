"""Desk: its tests on mutants. Each row of the tables in `trials/edits` has to make the test fail that is beside it.

A row has a module of the desk, a text in it, the text that takes its place, and a test of `desk/tests`. A table with the
name of a folder of the desk's modules is about that folder. An edit is made in a copy of `desk`, which runs over the
program. A body that names what isn't there says nothing of the test: it is no edit of these. The gate looks only whether
each can be made, and its test is there (`CanBeMade`).
"""

import importlib
import os
import pathlib
import re
import shutil
import sys
from collections.abc import Iterator
from typing import NamedTuple

from trials.parts.program import PROGRAM, TOP, Case, a_test_each, check, ran_words

TAKES_LONG = True
TABLES = sorted(it.stem for it in (TOP / "trials" / "edits").glob("[a-z]*.py"))
# Errors of a body that isn't one, with which each test fails.
NO_BODY = re.compile(r"\b(NameError|UnboundLocalError|SyntaxError|IndentationError|ImportError|ModuleNotFoundError)\b.*")


class Edit(NamedTuple):
    """In that file, by its path from the top of the repository, the one text becomes the other; the test has to fail."""

    file: str
    old: str
    new: str
    test: str

    def unmade(self, top: pathlib.Path) -> str:
        """Why it can't be made and tried below that folder; nothing where it can."""
        module, _, test = self.test.split(".")
        text = (top / self.file).read_text(encoding="utf-8")
        if self.old not in text:
            return f"{self.file}: there is no {self.old!r}"
        if self.file.endswith(".py"):
            try:
                compile(text.replace(self.old, self.new), self.file, "exec")
            except SyntaxError as error:
                return f"{self.file}: {self.new!r}: {error}"
        is_there = f"def {test}(" in (top / "desk" / "tests" / f"{module}.py").read_text(encoding="utf-8")
        return "" if is_there else f"there is no test {self.test}"

    def make(self, top: pathlib.Path) -> None:
        """Makes it below that folder."""
        path = top / self.file
        path.write_text(path.read_text(encoding="utf-8").replace(self.old, self.new), encoding="utf-8")


def edits() -> Iterator[Edit]:
    """The rows of all tables."""
    for table in TABLES:
        own = f"desk/vaultdesk/{table}"
        folder = own if (TOP / own).is_dir() else "desk/vaultdesk"
        for module, old, new, test in importlib.import_module(f"trials.edits.{table}").EDITS:
            # A query of contrib/ is named by its path.
            yield Edit(module if module.endswith(".sql") else f"{folder}/{module}.py", old, new, test)


EDITS = {f"{number} {it.file} {it.test}": it for number, it in enumerate(edits())}


class CanBeMade(Case):
    def test_edits(self) -> None:
        self.assertLess(700, len(EDITS))
        self.assertEqual([why for it in EDITS.values() if (why := it.unmade(TOP))], [])


@a_test_each(EDITS)
class Desk(Case):
    def look_at(self, name: str) -> None:
        """Fails unless the test of an edit fails."""
        edit = EDITS[name]
        for it in ("desk", "contrib"):
            shutil.copytree(TOP / it, self.folder / it, ignore=shutil.ignore_patterns("__pycache__"))
        why = edit.unmade(self.folder)
        check(not why, why)
        edit.make(self.folder)
        env = {**os.environ, "VAULTCTL": str(PROGRAM)}
        words = [sys.executable, "-B", "-m", "unittest", f"tests.{edit.test}"]
        ran = ran_words(*words, cwd=self.folder / "desk", env=env)
        is_tried = "Ran 1 test" in ran.err and "AttributeError: type object" not in ran.err
        check(is_tried, f"{edit.test}: it wasn't tried: {ran.err}")
        broken = NO_BODY.search(ran.err)
        check(not broken, f"{edit.file}: {edit.new!r} is no body: {broken and broken[0]}")
        check(ran.status, f"{edit.file}: {edit.old!r} as {edit.new!r} is let through by {edit.test}")
