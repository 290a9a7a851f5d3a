"""Asking before what can't be undone."""

from __future__ import annotations

import argparse
import sys

from vaultdesk.errors import DeskError, UsageError
from vaultdesk.output import is_heard


class Unconfirmed(UsageError):
    """What has to be asked before it is done, where the question can't be asked here. `option` is the yes to it."""

    def __init__(self, question: str, option: str) -> None:
        super().__init__(f"{question}: give --{option} where nobody can be asked")
        self.question = question
        self.option = option


def asked(question: str) -> str:
    """What a person at the terminal answers. `DeskError` where the answer is none, as of Ctrl-D or Ctrl-C."""
    try:
        return input(question).strip()
    except (EOFError, KeyboardInterrupt) as error:
        print()  # the question's line has no end yet
        raise DeskError("nothing was changed") from error


def confirm(words: argparse.Namespace, question: str, option: str = "yes") -> None:
    """Goes on where --yes was given (or that other option), or a person at the terminal answers yes.

    `Unconfirmed` where nobody can be asked, `DeskError` where the answer is another one."""
    if getattr(words, option):
        return
    if is_heard() or not sys.stdin.isatty():
        raise Unconfirmed(question, option)
    if asked(f"{question}? [yes/no] ").lower() not in ("y", "yes"):
        raise DeskError("nothing was changed")


def add_yes(it: argparse.ArgumentParser) -> None:
    """The options of a subcommand whose work can't be undone."""
    it.add_argument("--yes", action="store_true", help="don't ask")
    it.add_argument("--dry-run", action="store_true", help="say what would be done, and change nothing")
