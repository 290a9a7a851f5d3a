"""What the desk says on standard error: lines of a log, and what a person sees while a subcommand takes long."""

from __future__ import annotations

import contextlib
import io
import time
import unittest
from concurrent.futures import ThreadPoolExecutor
from unittest import mock

from vaultdesk import output


class Terminal(io.StringIO):
    def isatty(self) -> bool:
        return True


class Slow(io.StringIO):
    """Notes each write, and lets other threads write in between."""

    def __init__(self) -> None:
        super().__init__()
        self.writes: list[str] = []

    def write(self, text: str, /) -> int:
        self.writes.append(text)
        time.sleep(0.000_1)
        return super().write(text)


class Say(unittest.TestCase):
    def test_lines_of_a_hundred_threads_are_lines(self) -> None:
        lines = [f"line {number}" for number in range(1_000)]
        with contextlib.redirect_stderr(Slow()) as log, ThreadPoolExecutor(100) as pool:
            list(pool.map(output.say, lines))
        self.assertTrue(set(log.getvalue().splitlines()) == set(lines), log.getvalue()[:300])
        self.assertTrue(sorted(log.writes) == sorted(f"{it}\n" for it in lines), log.writes[:9])


class CountedOff(unittest.TestCase):
    def said(self, where: io.StringIO) -> list[str]:
        """The lines that are said of ten items, each of which takes a second."""
        clock = iter(range(100))
        with mock.patch("time.monotonic", side_effect=lambda: next(clock)), contextlib.redirect_stderr(where):
            self.assertEqual(list(output.counted_off(list("abcdefghij"), "letters were read")), list("abcdefghij"))
        return where.getvalue().splitlines()

    def test_at_a_terminal_a_line_comes_each_two_seconds(self) -> None:
        lines = self.said(Terminal())
        self.assertIn("1 of 10 letters were read", lines)
        self.assertGreater(len(lines), 2)

    def test_elsewhere_none_does(self) -> None:
        self.assertEqual(self.said(io.StringIO()), [])
