"""What a program was built from and with, as PROVED and CHANGELOG.md say it."""

import hashlib
import pathlib
import re
import subprocess
from typing import NamedTuple

TOP = pathlib.Path(__file__).resolve().parents[2]


class Facts(NamedTuple):
    """The version, the commit, the toolchain, and the digest of the program."""

    version: str
    commit: str
    kit: str
    sha256: str


def said(*words: str) -> str:
    return subprocess.run(words, check=True, stdout=subprocess.PIPE, text=True, cwd=TOP).stdout.strip()


def printed_commit(program: pathlib.Path) -> str:
    """The commit that a program's `--version` prints; empty where it prints none."""
    ran = subprocess.run([program, "--version"], capture_output=True, text=True)
    found = re.search(r", commit ([0-9a-f]+)$", ran.stdout.strip())
    return found[1] if found else ""


def other_commit(program: pathlib.Path, facts: Facts) -> str:
    """Why a program isn't of these facts, by the commit that it prints; empty where it prints none or this one."""
    printed = printed_commit(program)
    if printed in ("", facts.commit):
        return ""
    return f"{program} was built from commit {printed}, and the sources are {facts.commit}"


def facts_of(program: pathlib.Path) -> Facts:
    """Those of a program, with the sources as they stand here."""
    is_changed = said("git", "status", "--porcelain", "--untracked-files=no") != ""
    commit = said("git", "rev-parse", "HEAD") + (", with changes that aren't committed" if is_changed else "")
    version = (TOP / "packaging" / "VERSION").read_text().strip()
    return Facts(version, commit, said("rt", "version"), hashlib.sha256(program.read_bytes()).hexdigest())
