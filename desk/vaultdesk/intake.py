"""A delivery taken in: by the engine's own intake where the vault's file is free, else line by line at a server's door.

Both number the lines of a batch by its rows, so that what the one began the other ends. Empty rows and those above the
names of columns don't count there: to people a row has the number that Excel shows.
"""

from __future__ import annotations

import argparse
import contextlib
import csv
import os
import re
import subprocess
import tempfile
from collections.abc import Iterator, Mapping, Sequence
from dataclasses import dataclass
from pathlib import Path
from typing import Any

from vaultdesk.engine import Engine
from vaultdesk.errors import DeskError, EngineError, Refused
from vaultdesk.items import Item
from vaultdesk.output import counted_off, say, say_while_long
from vaultdesk.refusals import meaning

ROW = re.compile(r"(\d+) (admitted|again|refused) (\S+)")
CAUSE = re.compile(r"row (\d+): (.*)")
STOPPING = ("Device", "Memory")  # refusals after which nothing more is tried
Row = dict[str, Any]


@dataclass(frozen=True)
class Intake:
    """What the engine's intake said: its lines, and in words why rows were refused, by their lines of the batch."""

    lines: Sequence[str]
    causes: Mapping[int, str]


def taken_in(engine: Engine, words: argparse.Namespace, items: Sequence[Item]) -> Intake:
    """Has the engine take in these items."""
    engine.look_at_date()
    say_while_long(f"vaultctl takes in {len(items):,} rows: some seconds for each 100 MB that come or are there")
    # The engine's own intake takes files of the folder itself alone.
    by_lines = engine.is_served or any("/" in it.file for it in items if not it.is_out)
    return _by_lines(engine, words, items) if by_lines else _by_program(engine, words, items)


def results(intake: Intake, items: Sequence[Item]) -> Iterator[Row]:
    """What became of each item that wasn't left out, as far as the engine came."""
    for line in intake.lines:
        found = ROW.fullmatch(line)
        if found and not items[int(found[1]) - 1].is_out:
            it = items[int(found[1]) - 1]
            cause = intake.causes.get(it.line, "") if found[2] == "refused" else ""
            row: Row = {"row": it.number, "file": it.file, "key": it.key}
            yield {**row, "result": found[2], "value": found[3], "cause": cause}


@contextlib.contextmanager
def _broken_off(lines: Sequence[str]) -> Iterator[None]:
    """`DeskError` where a person breaks the intake off, after these lines."""
    try:
        yield
    except KeyboardInterrupt as error:
        done = f"{len(lines):,} rows were answered, and what came in stays"
        again = "give the same command again: nothing is taken in twice"
        raise DeskError(f"interrupted: {done}: {again}") from error


# ---- by the program


def _write_list(path: Path, items: Sequence[Item]) -> None:
    """The engine's list. A row that is left out is there without a file, so that the others keep their numbers:
    mended and given again, it is taken in, and those that are in the vault aren't taken in twice."""
    with path.open("w", encoding="utf-8", newline="") as file:
        writer = csv.writer(file, lineterminator="\n")
        writer.writerow(("file", "key", "mode", "until", "hold"))
        for it in items:
            writer.writerow(("",) * 5 if it.is_out else (it.file, it.key, it.mode, it.until, it.hold))


def _cause(items: Sequence[Item], line: int, words: str) -> str:
    """The cause of a refused row, without the file's name, which is beside it."""
    return words.removeprefix(f"{items[line - 1].file}: ")


def _ran(command: Sequence[str], count: int) -> tuple[int, list[str], list[str]]:
    """The status of the engine's intake, its lines, and what it says on standard error."""
    how: dict[str, Any] = {"encoding": "utf-8", "errors": "replace"}
    with tempfile.TemporaryFile("w+", **how) as said:
        try:
            with subprocess.Popen(command, stdout=subprocess.PIPE, stderr=said, **how) as child:
                assert child.stdout
                lines = list[str]()
                with _broken_off(lines):
                    lines += (it.removesuffix("\n") for it in counted_off(child.stdout, "rows were taken in", count))
        except OSError as error:
            raise EngineError(f"{command[0]}: {error.strerror}") from error
        said.seek(0)
        return child.returncode, lines, said.read().split("\n")


def _by_program(engine: Engine, words: argparse.Namespace, items: Sequence[Item]) -> Intake:
    engine.close()
    with tempfile.TemporaryDirectory() as scratch:
        listed = Path(scratch) / "list.csv"
        _write_list(listed, items)
        command = [engine.desk.program, "intake", str(engine.desk.file), words.bucket, words.batch, str(listed)]
        command += [words.folder, "--as", engine.desk.caller]
        command += ["--at", engine.at] if engine.at else []
        status, lines, told = _ran(command, len(items))
    causes = {}
    for line in told:
        found = CAUSE.fullmatch(line)
        if found:
            causes[int(found[1])] = _cause(items, int(found[1]), found[2])
        elif line:
            say(line)
    if status not in (0, 1):
        raise EngineError(f"the intake wasn't begun: status {status}")
    return Intake(lines, causes)


# ---- line by line


def _content(path: Path) -> bytes:
    """The content of a file of the folder itself: no link is followed."""
    with open(os.open(path, os.O_RDONLY | os.O_NOFOLLOW | os.O_NONBLOCK), "rb") as file:
        return file.read()


def _line_of(words: argparse.Namespace, it: Item) -> dict[str, Any]:
    """The members of the line of an item. `OSError` where its file can't be read."""
    lock = {name: value or None for name, value in (("mode", it.mode), ("until", it.until), ("hold", it.hold))}
    place = {"bucket": words.bucket, "batch": words.batch, "line": it.line, "key": it.key}
    return {**place, "hex": _content(Path(words.folder) / it.file).hex(), **lock}


def _by_lines(engine: Engine, words: argparse.Namespace, items: Sequence[Item]) -> Intake:
    """The lines are those that the program would print."""
    lines, causes = list[str](), dict[int, str]()
    with _broken_off(lines):
        _ask_each(engine, words, items, lines, causes)
    return Intake(lines, causes)


def _ask_each(
    engine: Engine, words: argparse.Namespace, items: Sequence[Item], lines: list[str], causes: dict[int, str]
) -> None:
    """Asks for each item, and notes its line, and its cause where it is refused."""
    for it in counted_off(items, "rows were taken in"):
        if it.is_out:
            continue
        try:
            done = engine.ask("intake", **_line_of(words, it))
            lines.append(f"{it.line} {'again' if done['again'] else 'admitted'} {done['version_id']}")
        except Refused as error:
            if error.code in STOPPING:
                say(f"row {it.number}: {it.file}: {error}")
                lines.append(f"stopped {error.code}")
                break
            lines.append(f"{it.line} refused {error.code}")
            causes[it.line] = meaning(error)
        except OSError as error:
            lines.append(f"{it.line} refused InvalidArgument")
            causes[it.line] = f"it can't be read: {error.strerror}"
