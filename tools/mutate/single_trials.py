"""The trials that the gate runs, each alone: over a program that is named then, in a process of its own."""

import contextlib
import importlib
import os
import pathlib
import signal
import subprocess
import sys
import tempfile
import time
import unittest
from importlib.machinery import SourceFileLoader
from importlib.util import module_from_spec, spec_from_loader
from typing import NamedTuple, NoReturn

TOP = pathlib.Path(__file__).resolve().parents[2]
# Whole scripts in memory: they take hundredths of a second.
EXAMPLES = {it.name: it for it in sorted((TOP / "examples").glob("*.jsonl"))}


class Outcome(NamedTuple):
    """What came of a trial: `passed`, `skipped`, `failed` or `late`; its seconds, and what it said."""

    how: str
    seconds: float
    said: str


def load() -> list[str]:
    """Imports the modules with trials, but for those that take long; the names of their tests, and of the examples."""
    # Limits of time are those of a quick program.
    os.environ.setdefault("TRIALS_LIMIT", "60")
    os.chdir(TOP)
    sys.path.insert(0, str(TOP))
    loader = SourceFileLoader("trials_run", str(TOP / "trials" / "run"))
    spec = spec_from_loader("trials_run", loader)
    assert spec
    run = sys.modules["trials_run"] = module_from_spec(spec)
    loader.exec_module(run)
    names = [f"trials.{it}" for it, takes_long in run.modules().items() if not takes_long]
    for it in names:
        importlib.import_module(it)
    return [*EXAMPLES, *(it.id() for it in run.tests_in(unittest.TestLoader().loadTestsFromNames(names)))]


def said_of_example(name: str, program: pathlib.Path) -> str | None:
    """What is wrong with the replies to an example."""
    with open(EXAMPLES[name], "rb") as script:
        done = subprocess.run([program, "replay"], stdin=script, capture_output=True, timeout=60)
    return None if done.stdout == EXAMPLES[name].with_suffix(".out").read_bytes() else "other replies"


def said_of_test(name: str) -> str | None:
    """What is wrong with a test."""
    result = unittest.TestResult()
    unittest.defaultTestLoader.loadTestsFromName(name).run(result)
    return "\n".join(it for _, it in result.errors + result.failures) or None


def carry_out(name: str, program: pathlib.Path, folder: pathlib.Path, said: pathlib.Path) -> NoReturn:
    """Runs a trial in this process, which ends then, with status 1 if something is wrong."""
    os.setsid()
    nothing = os.open(os.devnull, os.O_RDWR)
    for it in range(3):
        os.dup2(nothing, it)
    os.environ |= {"TMPDIR": str(folder), "VAULTCTL": str(program)}
    tempfile.tempdir = str(folder)
    for module, there in sys.modules.items():
        if module.startswith("trials.") and hasattr(there, "PROGRAM"):
            setattr(there, "PROGRAM", program)
    try:
        wrong = said_of_example(name, program) if name in EXAMPLES else said_of_test(name)
    except Exception as error:
        wrong = repr(error)
    if wrong:
        said.write_text(wrong)
    os._exit(1 if wrong else 0)


def end_all(program: pathlib.Path) -> None:
    """Kills what still runs that program."""
    for it in pathlib.Path("/proc").glob("[0-9]*"):
        with contextlib.suppress(OSError):
            if os.readlink(it / "exe").startswith(str(program)):
                os.kill(int(it.name), signal.SIGKILL)


def waited(child: int, limit: float) -> int | None:
    """The status with which a process ended, or none if it hadn't in time."""
    begun = time.monotonic()
    while time.monotonic() - begun < limit:
        done, status = os.waitpid(child, os.WNOHANG)
        if done:
            return status
        time.sleep(0.005 if time.monotonic() - begun < 1 else 0.05)
    return None


def outcome(name: str, program: pathlib.Path, limit: float) -> Outcome:
    """What comes of a trial of a program, if it may take that many seconds. What still runs the program then is killed,
    by the path of its file."""
    with tempfile.TemporaryDirectory(prefix="trial-of-", ignore_cleanup_errors=True) as it:
        folder, said = pathlib.Path(it), pathlib.Path(it) / "said"
        # Some tests run as a user who owns nothing.
        folder.chmod(0o755)
        begun = time.monotonic()
        child = os.fork()
        if child == 0:
            try:
                carry_out(name, program, folder, said)
            finally:
                os._exit(2)
        status = waited(child, limit)
        with contextlib.suppress(ProcessLookupError):
            os.killpg(child, signal.SIGKILL)
        if status is None:
            os.waitpid(child, 0)
        end_all(program)
        how = "late" if status is None else "failed" if status else "passed"
        return Outcome(how, time.monotonic() - begun, said.read_text() if said.exists() else "")
