"""The words that were typed: where they may stand, and what is said of those that the desk hasn't."""

from __future__ import annotations

import argparse
import difflib
import re
import sys
from collections.abc import Callable, Iterable, Sequence
from typing import NoReturn

# The options that may stand before the command too, and whether each takes a value.
LEADING = {"--json": False, "--vault": True, "--as": True, "--at": True, "--door": True}
CHOICE = re.compile(r"argument (?P<name>.+): invalid choice: (?P<given>.+) \(choose from (?P<those>.*)\)")
MOST = 9_223_372_036_854_775_807  # what a number of a line can be


def nearest(word: str, those: Iterable[str]) -> str:
    """Which of these a misspelt word is nearest to, as a question; empty where it is near to none."""
    by_letters = {it.lower(): it for it in those}
    found = difflib.get_close_matches(word.lower(), by_letters, n=1)
    return f": is {by_letters[found[0]]} meant?" if found else ""


def whole(least: int = 1, most: int = MOST) -> Callable[[str], int]:
    """What reads a whole number within these bounds among the words."""
    bounds = f"from {least} on" if most == MOST else f"from {least:,} to {most:,}"

    def read(text: str) -> int:
        if not (text.isascii() and text.isdecimal() and len(text) < 20 and least <= int(text) <= most):
            raise argparse.ArgumentTypeError(f"{text!r} is no whole number {bounds}")
        return int(text)

    return read


def kinds_of(parser: argparse.ArgumentParser) -> dict[str, argparse.ArgumentParser]:
    """The parsers of the words that may come first, by these words."""
    found = (it.choices for it in parser._actions if isinstance(it, argparse._SubParsersAction))
    return dict(next(found, {}))


class Parser(argparse.ArgumentParser):
    """A parser that says of what isn't understood what was meant, or an example of what is."""

    def error(self, message: str) -> NoReturn:
        """Ends the program with status 2."""
        self.print_usage(sys.stderr)
        example = "" if kinds_of(self) else f"\n{self.epilog}" if self.epilog else ""
        self.exit(2, f"{self.prog}: error: {self._said(message)}{example}\n")

    def _said(self, message: str) -> str:
        found = CHOICE.fullmatch(message)
        if found is None:
            needs_word = message.endswith(("required: COMMAND", "required: KIND"))
            return f"{message}: {self._help()} lists them" if needs_word else message
        given, those = found["given"].strip("'"), found["those"].replace("'", "").split(", ")
        guess = nearest(given, those)
        if found["name"] in ("COMMAND", "KIND"):
            what = "there is no command" if found["name"] == "COMMAND" else f"{self.prog} has no"
            return f"{what} {given!r}{guess or ': ' + self._help() + ' lists what there is'}"
        commas = ": each is a word of its own, without commas" if "," in given else ""
        return f"argument {found['name']}: {given} is none of {', '.join(those)}{commas}"

    def _help(self) -> str:
        first, *kind = self.prog.split()
        return " ".join([first, "help", *kind])

    def options(self) -> list[str]:
        """The names of its options."""
        return [name for it in self._actions for name in it.option_strings]

    def refuse_words(self, words: Sequence[str]) -> NoReturn:
        """Ends the program with status 2, as it doesn't know these words."""
        unknown = next((it for it in words if it.startswith("-")), None)
        if unknown is None:
            why = 'a name with blanks stands in quotes, as "2025/002 permit"'
            self.error(f"too many words, from {words[0]!r} on: {why}")
        name = unknown.partition("=")[0]
        if name == "--vault":
            self.error("the vault is a word of its own here, and no option")
        options = [*self.options(), *(LEADING if kinds_of(self) else ())]
        self.error(f"there is no option {name}{nearest(name, options) or ': --help lists those there are'}")


def _leaf(parser: argparse.ArgumentParser, words: Sequence[str]) -> tuple[argparse.ArgumentParser, int]:
    """The parser that has the words after these names of commands, and how many names there are."""
    count = 0
    while count < len(words) and words[count] in kinds_of(parser):
        parser = kinds_of(parser)[words[count]]
        count += 1
    return parser, count


def _led(given: Sequence[str]) -> tuple[list[str], list[str]]:
    """The options that stand before the command, and the words from the command on."""
    name, first, rest = "", list[str](), list(given)
    while rest and (name := rest[0].partition("=")[0]) in LEADING:
        is_pair = LEADING[name] and "=" not in rest[0]
        first += rest[:2] if is_pair else rest[:1]
        rest = rest[2:] if is_pair else rest[1:]
    return first, rest


def first_word(given: Sequence[str]) -> str:
    """The command that is asked for, or whose help is; empty where none is."""
    _, rest = _led(given)
    rest = rest[1:] if rest[:1] == ["help"] else rest
    return rest[0] if rest else ""


def arranged(parser: Parser, given: Sequence[str]) -> list[str]:
    """The words as the parser takes them: options that stand before the command come after it, and `help WORD` is
    `WORD --help`. The program ends with status 2 where another option stands there."""
    first, rest = _led(given)
    if rest[:1] == ["help"]:
        return [*rest[1:], "--help"]
    name = rest[0].partition("=")[0] if rest else ""
    if name.startswith("-") and not any(it.startswith(name) for it in parser.options()):
        parser.refuse_words(rest[:1])
    _, count = _leaf(parser, rest)
    return [*rest[:count], *first, *rest[count:]]


def parsed(parser: Parser, given: Sequence[str]) -> argparse.Namespace:
    """What the words ask for. The program ends with status 2 where they aren't understood."""
    words = arranged(parser, given)
    asked, left = parser.parse_known_args(words)
    if left:
        leaf, _ = _leaf(parser, words)
        assert isinstance(leaf, Parser)
        leaf.refuse_words(left)
    return asked
