"""Calls of the program that fail, or before which it is killed, by `strace`."""

import itertools
import pathlib
import shutil
import signal
import subprocess
import unittest
from typing import Any, Callable, Iterable, Iterator

from trials.parts.program import Ran, check, ran

# The calls that change a file, or have its changes kept.
CHANGING = ("pwrite64", "ftruncate", "fsync", "fdatasync")
# The same, and those that make, name or remove one.
TOUCHING = (*CHANGING, "openat", "fchmod", "fchown", "unlink")
# The calls by which the program looks at its files, makes them its own, reads or keeps them.
LOOKING = ("readlink", "statx", "openat", "fcntl", "fchmod", "fsync", "pread64", "fdatasync")
# The statuses of a program that was killed: of itself, and where a shell says so.
KILLED = (-signal.SIGKILL, 128 + signal.SIGKILL)


def can_trace() -> bool:
    words = ["strace", "-qq", "-o", "/dev/null", "true"]
    return bool(shutil.which("strace")) and subprocess.run(words, capture_output=True).returncode == 0


needs_strace = unittest.skipUnless(can_trace(), "there is no strace that may trace")


def strace_words(folder: pathlib.Path, files: Iterable[str], what: dict[str, str]) -> list[str]:
    """Words in front of the program, by which something happens to its calls of these names, on those files there and
    their logs, or on any where none is named; the file `trace` there says to which."""
    at = [it for file in files for end in ("", "-wal") for it in ("-P", f"{folder}/{file}{end}")]
    doing = [it for call, how in what.items() if how for it in ("-e", f"inject={call}:{how}")]
    return ["strace", "-qq", "-o", f"{folder}/trace", *at, "-e", f"trace={','.join(what)}", *doing]


def injected(
    folder: pathlib.Path, files: Iterable[str], what: dict[str, str], *words: str, **how: Any
) -> tuple[Ran, bool]:
    """What the program does in a folder where something happens to calls, as `strace_words` has it; and whether there
    was such a call."""
    done = ran(*words, front=strace_words(folder, files, what), cwd=folder, **how)
    return done, "(INJECTED)" in (folder / "trace").read_text()


def kills(folder: pathlib.Path, file: str, clear: Callable[[], None], *words: str) -> Iterator[str]:
    """Carries out these words again and again, and kills the program before each call that touches that file or its
    log; which call it was. What is there is cleared before each turn, and after the last. Fails where there are few."""
    count = 0
    for call in TOUCHING:
        for number in itertools.count(1):
            clear()
            done, _ = injected(folder, [file], {call: f"signal=KILL:when={number}"}, *words)
            check(done.status in (0, *KILLED), f"where {call} {number} is to be met by a kill: {done}")
            if done.status not in KILLED:
                break
            count += 1
            yield f"a kill before {call} {number}"
    clear()
    check(count > 20, f"the program was killed at {count} calls")
