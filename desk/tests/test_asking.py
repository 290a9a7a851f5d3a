"""What is asked before what can't be undone."""

from __future__ import annotations

import argparse
import contextlib
import io
import unittest
from unittest import mock

from vaultdesk.asking import confirm
from vaultdesk.errors import DeskError, UsageError

ASKED = argparse.Namespace(yes=False)


class Terminal(io.StringIO):
    """A terminal at which somebody types that."""

    def isatty(self) -> bool:
        return True


class Confirm(unittest.TestCase):
    def answered(self, text: str) -> None:
        """Asks somebody who answers so."""
        with mock.patch("sys.stdin", Terminal(f"{text}\n")), contextlib.redirect_stdout(io.StringIO()) as printed:
            try:
                confirm(ASKED, "3 versions are removed for good")
            finally:
                self.assertIn("3 versions are removed for good?", printed.getvalue())

    def test_yes_alone_goes_on(self) -> None:
        for text in ("yes", "y", " YES "):
            self.answered(text)
        for text in ("no", "", "n", "yess", "1"):
            self.assertRaises(DeskError, self.answered, text)

    def test_where_nobody_can_be_asked_nothing_is_done(self) -> None:
        with mock.patch("sys.stdin", io.StringIO("yes\n")):
            self.assertRaises(UsageError, confirm, ASKED, "3 versions are removed for good")
            confirm(argparse.Namespace(yes=True), "3 versions are removed for good")
