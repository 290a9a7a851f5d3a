"""The program that is tried, how it is run, and the case that trials are made of."""

import contextlib
import functools
import os
import pathlib
import re
import shutil
import sqlite3
import subprocess
import sys
import tempfile
import unittest
from typing import IO, Any, Callable, Iterable, NamedTuple, TypeVar

TOP = pathlib.Path(__file__).resolve().parents[2]
EXAMPLES, CONTRIB = TOP / "examples", TOP / "contrib"
DESK = TOP / "desk" / "bin" / "vaultdesk"
# The program is the one that `VAULTCTL` names, or else the one that the gate has built.
PROGRAM = pathlib.Path(os.environ.get("VAULTCTL") or TOP / "crates" / "vaultctl" / "out" / "vaultctl").resolve()
# Whether trials do all that they can, for which the gate has no time.
IS_LONG = bool(os.environ.get("TRIALS_LONG"))
# Seconds that one run may take; a slow program needs more.
LIMIT = int(os.environ.get("TRIALS_LIMIT", 300))
OPENED_AT = "2024-01-15T09:00:00Z"
# The user that owns nothing.
NOBODY = 65534
A = TypeVar("A", bound=type)

sys.path[:0] = [str(CONTRIB), str(TOP / "tools" / "packaging")]


class Ran(NamedTuple):
    """The status of a run, and what it wrote on standard output and on standard error."""

    status: int
    out: str
    err: str


def check(holds: object, what: object) -> None:
    """Fails, with these words, unless that holds."""
    if not holds:
        raise AssertionError(what)


def text_of(written: bytes | None) -> str:
    return (written or b"").decode(errors="surrogateescape")


def bytes_of(given: str | bytes) -> bytes:
    return given.encode(errors="surrogateescape") if isinstance(given, str) else given


def ran_words(*words: object, given: str | bytes | IO[Any] | int = "", **how: Any) -> Ran:
    """What a command does with this input, which is a text or an open file; `how` is as `subprocess.run` has it."""
    how = {"stdout": subprocess.PIPE, "stderr": subprocess.PIPE, "timeout": LIMIT, **how}
    how |= {"input": bytes_of(given)} if isinstance(given, (str, bytes)) else {"stdin": given}
    done = subprocess.run([str(it) if not isinstance(it, bytes) else it for it in words], **how)
    return Ran(done.returncode, text_of(done.stdout), text_of(done.stderr))


def ran(*words: object, front: Iterable[object] = (), **how: Any) -> Ran:
    """What the program does with these words; `front` are words before its own."""
    return ran_words(*front, PROGRAM, *words, **how)


def printed(*words: object, **how: Any) -> str:
    """What the program prints for these words. Fails unless its status is 0."""
    done = ran(*words, **how)
    check(done.status == 0, f"{words}: {done}")
    return done.out


def make_office(file: pathlib.Path | str, *rights: str, at: Iterable[str] = ()) -> None:
    """Makes a vault with the department `records`, its caller `ann` of these rights, and its bucket `docs`."""
    asked = ["--as", "registrar", *at]
    printed("init", file)
    printed("dept", file, "records", *asked)
    printed("caller", file, "ann", *rights, "--dept", "records", *asked)
    printed("bucket", file, "docs", "records", *asked)


def carry_out(file: pathlib.Path, statements: Iterable[str]) -> None:
    """Carries out statements in a file, without a look at foreign keys; its log is part of it then."""
    with contextlib.closing(sqlite3.connect(file, isolation_level=None)) as base:
        for it in statements:
            base.executescript(it)
        base.execute("PRAGMA wal_checkpoint(TRUNCATE)")


def needs(*programs: str) -> Callable[[Any], Any]:
    """Skips a test, or all of a class, where one of these programs isn't there."""
    missing = [it for it in programs if not shutil.which(it)]
    return unittest.skipIf(bool(missing), f"there is no {' and no '.join(missing)}")


def a_test_each(names: Iterable[str]) -> Callable[[A], A]:
    """Gives a class a test for each of these names, which calls its method `look_at` with the name."""

    def with_tests(case: A) -> A:
        for it in names:
            test = f"test_{re.sub(r'[^0-9A-Za-z]+', '_', it).strip('_')}"
            check(not hasattr(case, test), f"two tests have the name {test}")
            setattr(case, test, functools.partialmethod(case.look_at, it))  # type: ignore[attr-defined]
        return case

    return with_tests


class Case(unittest.TestCase):
    """A trial with a new folder of its own, in which the program is run."""

    # Whether it measures time, so that no other trial may run beside it.
    is_alone = False
    maxDiff = None

    def setUp(self) -> None:
        folder = tempfile.TemporaryDirectory(prefix="trial-", ignore_cleanup_errors=True)
        self.addCleanup(folder.cleanup)
        self.folder = pathlib.Path(folder.name)

    def ran(self, *words: object, **how: Any) -> Ran:
        return ran(*words, **{"cwd": self.folder, **how})

    def printed(self, *words: object, **how: Any) -> str:
        return printed(*words, **{"cwd": self.folder, **how})

    def is_sound(self, name: str | pathlib.Path) -> None:
        """Fails unless `verify` says that the vault is sound."""
        self.assertEqual(self.ran("verify", name), Ran(0, "sound\n", ""))


@functools.cache
def shared_folder() -> pathlib.Path:
    """A folder that is there as long as this process: for what is made once and copied by each test."""
    folder = tempfile.TemporaryDirectory(prefix="trials-")
    kept.append(folder)
    return pathlib.Path(folder.name)


kept: list[tempfile.TemporaryDirectory[str]] = []
