"""Copies of the sources in which crates are checked, and whether a check refuses what was altered there."""

import os
import pathlib
import re
import shutil
import subprocess
from typing import Any

TOP = pathlib.Path(__file__).resolve().parents[2]
PROVED = "the crate is still proved with it"
# What `rt check` says at a place of a file; in a proof, that it names what isn't there; that it can't read a text.
PLACED = re.compile(r"(note: )?\S+:\d+:\d+:")
OF_A_NAME = re.compile(r"(\./)?proofs/.*(has no field|is not in scope|has no `|was not admitted)")
AN_ERROR = re.compile(r"(?:\./)?((?:src|specs)/\S+?):\d+:\d+: error: (`[^`]*`: )?(.*)")
UNREAD = re.compile(r"is not in scope|has no field|is no name|operand is missing|expected the end|cannot continue")
# A function of which the check found no proof, by its own fault and not by that of a function that it calls.
UNPROVED = re.compile(r"(?m)^fn (\S+): (?:not proved|no proof)(?!.*(?:it calls|it passes|a call of))")
# The same in a check with other edits, where a function has a fault of its own beside one of those that it calls.
OF_A_CALL = r"(?:it calls|it passes|a call of)"
OWN_FAULT = re.compile(rf"(?m)^fn (\S+): (?:not proved|no proof)(?=.*did not prove|(?!.*{OF_A_CALL}))")


def copy_sources(folder: pathlib.Path) -> None:
    """Copies the crates, with the libraries that were built of them and without the gate's edits."""
    skipped = shutil.ignore_patterns("out", "must-fail")
    shutil.copytree(TOP / "crates", folder / "crates", ignore=skipped)
    for name in ("crates.txt", "HANDLES"):
        shutil.copy(TOP / name, folder / name)
    for library in sorted(TOP.glob("crates/*/out/rlib")):
        shutil.copytree(library, folder / library.relative_to(TOP), copy_function=link_or_copy)


def link_or_copy(source: str, target: str) -> None:
    """Links a file, or copies it where the folders are on two disks."""
    try:
        os.link(source, target)
    except OSError:
        shutil.copy2(source, target)


def checked(folder: pathlib.Path, *words: str) -> tuple[int, str]:
    """The status of `rt check` with these words in the folder of a crate, and what it says."""
    how: dict[str, Any] = {"stdin": subprocess.DEVNULL, "stdout": subprocess.PIPE, "stderr": subprocess.STDOUT}
    ran = subprocess.run(["rt", "check", *words], cwd=folder, text=True, errors="replace", **how)
    return ran.returncode, ran.stdout


def why_unread(said: str) -> str | None:
    """What in a check's output shows that an edited text can't be read, so that no contract was tried; none if nothing."""
    for line in said.splitlines():
        found = AN_ERROR.match(line)
        if found and (not found[2] or UNREAD.search(re.sub(r"`[^`]*`", "", found[3]))):
            return line
    return None


def judged(status: int, said: str) -> tuple[bool, str]:
    """Whether a check refused the edit, and a word on it: why not, or in what way."""
    unread = why_unread(said)
    if unread:
        return False, f"the prover can't read the edited text: {unread[:160]}"
    if status == 0:
        return False, PROVED
    if status != 1 or not re.search(r"(?m)^(logic=not-proved|only=\d+ proved=)", said):
        errors = [line for line in said.splitlines() if "error" in line] or said.splitlines() or ["nothing was said"]
        return False, f"it didn't reach the prover, and rt check ended with {status}: {errors[0][:160]}"
    places = [line for line in said.splitlines() if PLACED.match(line)]
    if places and all(OF_A_NAME.match(line) for line in places if ": error" in line or line.startswith("note: ")):
        return True, f"refused only as a proof names what it took away: {places[0][:160]}"
    return True, f"refused at {', '.join(sorted(set(UNPROVED.findall(said)))) or (places or ['no place'])[0][:160]}"
