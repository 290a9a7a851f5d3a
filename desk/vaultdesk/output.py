"""What the desk prints: columns for people, one JSON value for programs."""

from __future__ import annotations

import json
import sys
import threading
import time
from collections.abc import Iterable, Iterator, Mapping, Sequence, Sized
from contextlib import contextmanager
from contextvars import ContextVar
from dataclasses import dataclass, field
from typing import Any, TypeVar

_TURN = threading.Lock()  # of those who say a line
EACH = 2.0  # seconds between two lines that say how far a subcommand has come
It = TypeVar("It")


@dataclass
class Heard:
    """The JSON values that subcommands printed, and the lines that they said."""

    values: list[Any] = field(default_factory=list)
    said: list[str] = field(default_factory=list)


_HEARD: ContextVar[Heard | None] = ContextVar("heard", default=None)


@contextmanager
def heard() -> Iterator[Heard]:
    """Has this thread's subcommands print and say nothing within the `with` block, and keeps it. Nobody at a terminal
    is asked meanwhile."""
    found = Heard()
    token = _HEARD.set(found)
    try:
        yield found
    finally:
        _HEARD.reset(token)


def is_heard() -> bool:
    """Whether what is said is kept, and no terminal's."""
    return _HEARD.get() is not None


def shown(text: str) -> str:
    """A text in which what a terminal would obey, or what ends a line, is escaped."""
    if text.isprintable():
        return text
    return "".join(it if it.isprintable() else it.encode("unicode_escape").decode() for it in text)


def say(text: str) -> None:
    """Prints a line on standard error, after what was printed on standard output until then.

    It is one write, so that the lines of several threads stay lines."""
    kept = _HEARD.get()
    if kept is not None:
        kept.said.append(text)
        return
    with _TURN:
        sys.stdout.flush()
        sys.stderr.write(f"{text}\n")
        sys.stderr.flush()


def print_json(value: Any) -> None:
    """Prints one JSON value and a line's end. What of a file's name isn't UTF-8 is there as an escape of JSON."""
    kept = _HEARD.get()
    if kept is not None:
        kept.values.append(value)
        return
    text = json.dumps(value, ensure_ascii=False, indent=2)
    print(text.encode("utf-8", "backslashreplace").decode("utf-8"))


def table_lines(rows: Sequence[Mapping[str, Any]], columns: Sequence[str]) -> list[str]:
    """The lines of a table: rows below their columns' names, numbers to the right; none where there is no row."""
    if not rows:
        return []
    cells = [[shown(str(row.get(it, ""))) for it in columns] for row in rows]
    widths = [max(len(it) for it in [name, *column]) for name, column in zip(columns, zip(*cells), strict=True)]
    numbers = [all(isinstance(row.get(it, 0), int) for row in rows) for it in columns]
    lines = []
    for line in [list(columns), *cells]:
        fitted = [it.rjust(w) if number else it.ljust(w) for it, w, number in zip(line, widths, numbers, strict=True)]
        lines.append("  ".join(fitted).rstrip())
    return lines


def print_rows(rows: Sequence[Mapping[str, Any]], columns: Sequence[str]) -> None:
    """Prints rows as a table."""
    for line in table_lines(rows, columns):
        print(line)


def print_table(rows: Sequence[Mapping[str, Any]], columns: Sequence[str], as_json: bool) -> None:
    """Prints rows as a table, or as a JSON list of objects."""
    if as_json:
        print_json([{it: row.get(it) for it in columns} for row in rows])
    else:
        print_rows(rows, columns)


def print_done(as_json: bool, **what: Any) -> None:
    """Prints what a subcommand did that says nothing to people, where JSON is asked for."""
    if as_json:
        print_json(what)


def refusals(refused: Sequence[str], count: int, is_dry: bool = False) -> str:
    """How many of a subcommand's rows were refused, and what became of the others; empty where none was.

    Each refusal is in words that begin with its name. After `Device` and `Interrupted` a change may have been made."""
    share = f"{len(refused)} of {count}"
    if is_dry:
        return f"{share} would be refused" if refused else ""
    if len(refused) < count:
        return f"{share} were refused, and the others were done" if refused else ""
    unsure = any(it.startswith(("Device", "Interrupted")) for it in refused)
    return f"{share} were refused" + ("" if unsure else ": nothing was changed")


def say_while_long(text: str) -> None:
    """A line for a person at a terminal, before what may take long."""
    if sys.stderr.isatty() and not is_heard():
        say(text)


def counted_off(items: Iterable[It], what: str, count: int | None = None) -> Iterator[It]:
    """The items one by one; every two seconds a line says how many are done, for a person at a terminal.

    `count` is how many they are, where they are none that can be counted."""
    last, count = time.monotonic(), len(items) if isinstance(items, Sized) else count
    for number, it in enumerate(items):
        if time.monotonic() - last >= EACH:
            last = time.monotonic()
            say_while_long(f"{number:,} of {count:,} {what}")
        yield it
