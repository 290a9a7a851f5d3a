"""A subcommand of the desk that a page asks for: its words by their names, and what it prints as JSON."""

from __future__ import annotations

import argparse
import functools
from collections.abc import Mapping
from dataclasses import dataclass
from typing import Any

from vaultdesk import output
from vaultdesk.asking import Unconfirmed
from vaultdesk.engine import Engine
from vaultdesk.errors import DeskError


@dataclass(frozen=True)
class Done:
    """What a subcommand printed, what it said beside that, and why not all of it was done, where something was printed
    all the same."""

    value: Any
    said: list[str]
    error: DeskError | None = None


@functools.cache
def _parsers() -> Mapping[str, argparse.ArgumentParser]:
    from vaultdesk.cli import words  # which names this family too
    from vaultdesk.spelling import kinds_of

    return kinds_of(words())


@functools.cache
def _left_out(command: str) -> Mapping[str, Any]:
    """All words of a subcommand as they are where they are left out, by the desk's parser."""
    parser = _parsers()[command]
    found = {it.dest: parser.get_default(it.dest) for it in parser._actions if it.dest != "help"}
    return found | parser._defaults


def prepare() -> None:
    """Has all words of the desk ready, which takes a third of a second: else each of those who ask first makes them."""
    _parsers()


def words_of(command: str, **given: Any) -> argparse.Namespace:
    """The words of a subcommand, which prints JSON. `KeyError` where it hasn't one of them."""
    left_out = _left_out(command)
    for name in given:
        left_out[name]
    return argparse.Namespace(**{**left_out, "json": True, **given})


def done(engine: Engine, command: str, **given: Any) -> Done:
    """What a subcommand comes to. `DeskError` as of that one, where it prints nothing; `Unconfirmed` where it asks."""
    words = words_of(command, **given)
    error = None
    with output.heard() as found:
        try:
            words.run(engine, words)
        except Unconfirmed:
            raise
        except DeskError as fault:
            if not found.values:
                raise
            error = fault
    return Done(found.values[-1] if found.values else None, found.said, error)
