"""How the desk starts: what it imports for a word, counted in modules, and the words by their modules."""

from __future__ import annotations

import argparse
import importlib
import subprocess
import sys
import unittest
from pathlib import Path

from vaultdesk.cli import words
from vaultdesk.commands import FAMILIES, MACHINE
from vaultdesk.spelling import Parser, kinds_of

DESK = Path(__file__).resolve().parents[1]
PROBE = """import sys
had = {*sys.modules}
try:
    from vaultdesk.cli import main
    main(sys.argv[1:])
except SystemExit:
    print(*sorted(sys.modules.keys() - had), file=sys.stderr)
"""
# The most modules of the desk that a word may import, of some 140; and of all for the help.
MOST, MOST_FOR_HELP = 52, 70


def imported(*given: str) -> set[str]:
    """The modules that the desk imports for these words."""
    ran = subprocess.run([sys.executable, "-c", PROBE, *given], cwd=DESK, capture_output=True, text=True, check=True)
    return set(ran.stderr.splitlines()[-1].split())


class StartingTest(unittest.TestCase):
    def test_help(self) -> None:
        """The help of all words imports no module that has one."""
        for given in (("--help",), ("help",), ("no-such-word",)):
            there = imported(*given)
            of_words = {it for it in there for name in (*FAMILIES, *MACHINE) if it == f"vaultdesk.{name}"}
            self.assertEqual(of_words, set(), given)
            self.assertLessEqual(len(there), MOST_FOR_HELP, given)

    def test_words(self) -> None:
        """A word imports its module and what that needs, and neither the gateway nor the pages."""
        for word, module in (("put", "documents"), ("find", "find"), ("register", "years_end"), ("night", "night")):
            for given in ((word, "--help"), ("help", word), ("--vault", "v", word, "--help")):
                there = {it for it in imported(*given) if it.startswith("vaultdesk.")}
                self.assertIn(f"vaultdesk.{module}", there, given)
                self.assertLessEqual(len(there), MOST, given)
                others = {it for it in there if it.startswith(("vaultdesk.s3", "vaultdesk.web"))}
                self.assertEqual(others, set(), given)

    def test_table(self) -> None:
        """Each module has just the words that the table gives it, with the same texts, in the same order."""
        for families in (FAMILIES, MACHINE):
            for name, about in families.items():
                commands = Parser(prog="vaultdesk").add_subparsers()
                importlib.import_module(f"vaultdesk.{name}").add(commands, argparse.ArgumentParser(add_help=False))
                found = {it.dest: it.help for it in commands._choices_actions}
                self.assertEqual([*found.items()], [*about.items()], name)

    def test_one_beside_the_names_of_all(self) -> None:
        """The parser of one word has the names of all, in the same order."""
        self.assertEqual([*kinds_of(words(only="hold"))], [*kinds_of(words())])


if __name__ == "__main__":
    unittest.main()
