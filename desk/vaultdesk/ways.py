"""The ways to the engine: how a line gets to it, and its reply back."""

from __future__ import annotations

import contextlib
import json
import os
import re
import subprocess
import tempfile
from collections.abc import Mapping
from dataclasses import dataclass
from pathlib import Path
from typing import IO, Any, Protocol

from vaultdesk import moments
from vaultdesk.errors import EngineError
from vaultdesk.output import say_while_long

LARGE = 50_000_000  # bytes of a file whose audit takes a person's time
MOST_SAID = 1_048_576  # bytes of what the engine says of refused lines that are kept
OF_LINE = re.compile(r"^line \d+: ")  # how what is said of a line begins
Line = Mapping[str, Any]
TEXTS = json.JSONEncoder(ensure_ascii=False)


@dataclass(frozen=True)
class Answer:
    """The reply to a line, and the line's reading: `is_certain` where it is just that second. `said` is what the engine
    says of the line on standard error, where that can be read."""

    reply: Mapping[str, Any]
    at: str
    is_certain: bool = True
    said: str = ""


class Way(Protocol):
    """How lines get to the engine that has the vault."""

    def answer(self, line: Line, at: str | None) -> Answer:
        """What the engine answers to a line, which has no `at`: its reading is that moment, or else the clock's.

        `EngineError` where no reply comes."""

    def close(self) -> None:
        """Ends what this way has open. `EngineError` where the engine ended with a fault."""


def text_of(line: Line) -> str:
    """A line as the engine reads it, without its end. Of a member that is bytes it has the hex digits, in which JSON
    escapes nothing: to look through those of a large content takes longer than all else of a put."""
    contents = "".join(f', "{name}": "{it.hex()}"' for name, it in line.items() if isinstance(it, bytes))
    text = TEXTS.encode({name: it for name, it in line.items() if not isinstance(it, bytes)} if contents else line)
    return f"{text[:-1]}{contents}}}" if contents else text


def missing(program: str, error: OSError) -> EngineError:
    """Says that the engine can't be started."""
    return EngineError(f"{program}: {error.strerror}: is vaultctl installed? $VAULTCTL names another program")


class Replay:
    """One `vaultctl replay` over a vault's file, which is open from the first line on until `close`.

    Without a moment each line has the machine's clock, which is never handed in earlier than before."""

    def __init__(self, program: str, file: Path) -> None:
        self.program = program
        self.file = file
        self._latest = ""
        self._child: subprocess.Popen[str] | None = None
        self._said: IO[str] | None = None
        self._words = ""

    def answer(self, line: Line, at: str | None) -> Answer:
        """What the engine answers to the line at its reading. `EngineError` where it ended."""
        reading = at or self._clock()
        begun = self._place()
        reply = self._exchange(text_of({"at": reading, **line}))
        return Answer(reply, reading, said=self._said_since(begun) if "error" in reply else "")

    def close(self) -> None:
        """Closes the vault. `EngineError` where the engine ended with a fault."""
        if self._child is not None and self._end() != 0:
            raise EngineError(self._last_words())

    def _clock(self) -> str:
        # A clock that is set back by a second between two lines would have the second one refused.
        self._latest = max(self._latest, moments.now())
        return self._latest

    def _exchange(self, line: str) -> Mapping[str, Any]:
        child = self._child
        assert child and child.stdin and child.stdout
        try:
            child.stdin.write(line + "\n")
            child.stdin.flush()
            answer = child.stdout.readline()
        except BrokenPipeError:
            answer = ""
        if not answer:
            self._end()
            raise EngineError(self._last_words())
        reply: Mapping[str, Any] = json.loads(answer)
        return reply

    def _start(self) -> None:
        with contextlib.suppress(OSError):
            if not self.file.exists():  # the engine would call it damaged
                raise EngineError(f"{self.file}: there is no such file: --vault or $VAULT names the vault")
        self._say_if_large()
        self._said = tempfile.TemporaryFile("w+", encoding="utf-8", errors="replace")
        words = [self.program, "replay", str(self.file)]
        try:
            # In a group of its own: an interrupt at the terminal reaches the desk alone, which closes the vault.
            self._child = subprocess.Popen(
                words, 0, None, subprocess.PIPE, subprocess.PIPE, self._said, encoding="utf-8", process_group=0
            )
        except OSError as error:
            raise missing(self.program, error) from error

    def _say_if_large(self) -> None:
        with contextlib.suppress(OSError):
            size = self.file.stat().st_size
            if size >= LARGE:
                say_while_long(f"{self.file} has {size / 1e6:,.0f} MB, all of which is audited as it is opened")

    def _place(self) -> int:
        """Where in its file the engine, which is started where it isn't yet, will say what it says next.

        What was said of lines long ago is let go of: an engine that is open for months would fill the disk."""
        if self._child is None:
            self._start()
        assert self._said
        said = self._said.fileno()
        end = os.lseek(said, 0, os.SEEK_CUR)  # the engine's end of the file is this one's, too
        if end > MOST_SAID:
            os.ftruncate(said, 0)
            end = os.lseek(said, 0, os.SEEK_SET)
        return end

    def _said_since(self, begun: int) -> str:
        """What the engine said of the last line, which it says before it replies."""
        assert self._said
        said = self._said.fileno()
        found = os.pread(said, os.lseek(said, 0, os.SEEK_CUR) - begun, begun).decode("utf-8", "replace")
        return OF_LINE.sub("", found.strip())

    def _end(self) -> int:
        """Ends the engine, which closes the vault, and returns its status."""
        child, self._child = self._child, None
        assert child and child.stdin and child.stdout and self._said
        with contextlib.suppress(BrokenPipeError):
            child.stdin.close()
        child.stdout.close()
        status = child.wait()
        self._said.seek(0)
        self._words = self._said.read().strip()
        self._said.close()
        return status

    def _last_words(self) -> str:
        """What the engine wrote to standard error before it ended."""
        return self._words or f"the engine ended: look at {self.file} by vaultctl verify"
