"""Mistakes at the office's desk, and what a person reads of each: the transcript examples/desk-mistakes.txt.

It is of the form of the program's own transcripts (`transcripts.py`), but that a run begins with `vaultctl` or
`vaultdesk`. The desk is run in this process, as its tests run it; `VAR=VALUE` before it is in its environment alone.
Where a run has lines of standard input, they are typed at a terminal: `^C` interrupts there, and after the last of them
the input ends. In `[least]` and `[greatest]` nothing is set, and this machine's clock stands still at `CLOCK`.
"""

import contextlib
import io
import os
import re
import sys
from collections.abc import Iterator
from pathlib import Path
from typing import Any
from unittest import mock

from trials.parts.program import EXAMPLES, PROGRAM, TOP, Case, Ran, check, ran
from trials.transcripts import make_or_read, steps, what_differs

sys.path.insert(0, str(TOP / "desk"))
from vaultdesk import cli, moments  # noqa: E402

TRANSCRIPT = EXAMPLES / "desk-mistakes.txt"
CLOCK, TOMORROW = "2024-02-01T10:00:00Z", "2024-02-02T10:00:00Z"
WIDTH = "100"
# The least number of mistakes, and of those whose cause and remedy are said.
MISTAKES, REMEDIES = 130, 120
MISTAKE = re.compile(r"^# (\d+)( \(cause alone\))?\. ", re.MULTILINE)


class Terminal(io.StringIO):
    """A terminal at which these lines are typed."""

    def isatty(self) -> bool:
        return True

    def readline(self, *most: Any) -> str:
        line = super().readline(*most)
        sys.stdout.write(line.rstrip("\n") if line == "^C\n" else line)
        if line == "^C\n":
            raise KeyboardInterrupt
        return line


@contextlib.contextmanager
def desk_in(folder: Path, environment: dict[str, str]) -> Iterator[None]:
    """The desk's surroundings: that folder, a clock that stands still, and nothing of this machine's settings."""
    place = {"VAULT_CONF": "conf", "VAULT_FOLDER": "vaults", "VAULT_LOCKS": "locks", "VAULTDESK_SETTINGS": ""}
    whole = {"VAULT": "records.vault", "VAULT_CALLER": "ann", "VAULTCTL": str(PROGRAM), "COLUMNS": WIDTH, "HOME": "."}
    with contextlib.ExitStack() as stack:
        stack.callback(os.umask, os.umask(0o022))
        stack.enter_context(contextlib.chdir(folder))
        stack.enter_context(mock.patch.dict(os.environ, {**whole, **place, **environment}))
        stack.enter_context(mock.patch.object(moments, "now", return_value=CLOCK))
        stack.enter_context(mock.patch.object(moments, "tomorrow", return_value=TOMORROW))
        yield


def ran_desk(folder: Path, words: list[str], typed: str, environment: dict[str, str]) -> Ran:
    """What the desk does with these words."""
    out, err = io.TextIOWrapper(io.BytesIO(), encoding="utf-8"), io.StringIO()
    given = Terminal(typed.replace("^D\n", "")) if typed else io.StringIO()
    with desk_in(folder, environment), mock.patch.object(sys, "stdin", given):
        with contextlib.redirect_stdout(out), contextlib.redirect_stderr(err):
            try:
                status = cli.main(words)
            except SystemExit as ended:
                status = int(ended.code or 0)
            except BaseException as error:  # what a person would see as a traceback
                status, _ = 1, err.write(f"Traceback: {type(error).__name__}\n")
    out.flush()
    assert isinstance(out.buffer, io.BytesIO)
    # Pages are named by their paths.
    texts = (out.buffer.getvalue().decode("utf-8", "surrogateescape"), err.getvalue())
    return Ran(status, *(it.replace(f"{TOP}/", "") for it in texts))


def ran_step(folder: Path, run: dict[str, Any]) -> Ran:
    """What a run of the transcript does."""
    words, environment = [os.fsdecode(it) for it in run["$"]], {}
    while "=" in words[0]:
        name, _, value = words.pop(0).partition("=")
        environment[name] = value
    if words[0] == "vaultctl":
        return ran(*words[1:], given=run["<"], cwd=folder)
    check(words[0] == "vaultdesk", f"{words[0]} is neither vaultctl nor vaultdesk")
    return ran_desk(folder, words[1:], run["<"], environment)


class DeskMistakes(Case):
    def test_each_says_what_the_transcript_has(self) -> None:
        for step in list(steps(TRANSCRIPT.read_text())):
            if "$" in step:
                given, wanted = ran_step(self.folder, step), Ran(int(step["="]), step[">"], step["!"])
                wrong = None if given == wanted else f"wanted {wanted}, got {given}"
            else:
                make_or_read(self.folder, step, TRANSCRIPT, {})
                wrong = what_differs(self.folder, step)
            check(not wrong, f"{TRANSCRIPT}:{step['line']}: {wrong}")

    def test_most_have_a_cause_and_a_remedy(self) -> None:
        found = MISTAKE.findall(TRANSCRIPT.read_text())
        self.assertEqual([int(number) for number, _ in found], list(range(1, len(found) + 1)))
        self.assertGreaterEqual(len(found), MISTAKES)
        self.assertGreaterEqual(sum(not alone for _, alone in found), REMEDIES)
