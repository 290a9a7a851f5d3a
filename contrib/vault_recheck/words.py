"""The command line: what is asked of which file, and what is printed."""

import argparse
import collections
import contextlib
import io
import os
import pathlib
import sqlite3
import sys
from typing import Callable, Iterator, Optional, Sequence

from vault_recheck import bodies
from vault_recheck.audit import audit
from vault_recheck.coherent import contradictions
from vault_recheck.compare import differences
from vault_recheck.events import TooLate, check_seals, seals_of, write_events
from vault_recheck.lawful import first_breach, last_shown
from vault_recheck.vault import Damaged, meta_of, moment_of, moment_text, opened, say

ABOUT = """Looks at a vault's file by itself, without the program that writes it.

The file is opened for reading alone, with the log beside it. SQLite may leave an index of the log beside the file
(FILE-shm); --immutable leaves nothing, and reads no log. But for `audit`, each subcommand audits the file first, and
refuses one whose tables don't fit together.
"""
STATUSES = {
    "0": "What was asked is so, or is done.",
    "1": "It isn't so, or a file can't be read: standard error says why.",
    "2": "The words aren't understood.",
}
STATUS = "Status: " + " ".join(f"{number}: {text}" for number, text in STATUSES.items())


Command = Callable[[argparse.Namespace], int]


class Refused(Exception):
    """What was asked can't be answered: why."""


def moment(text: str) -> int:
    """A moment among the words."""
    try:
        return moment_of(text)
    except ValueError as error:
        raise argparse.ArgumentTypeError(str(error)) from error


@contextlib.contextmanager
def audited(name: str, immutable: bool) -> Iterator[sqlite3.Connection]:
    """The file, where its tables are those of a vault."""
    try:
        with opened(name, immutable) as base:
            audit(base)
            yield base
    except Damaged as damage:
        raise Refused(f"{name}: damaged {damage.table}: {damage.why}") from damage


def say_differences(found: Iterator[str], none: str) -> int:
    """Prints a line for each difference, or `none` if there is no difference, and returns the status."""
    status = 0
    for it in found:
        status = 1
        print(it)
    if status == 0:
        print(none)
    return status


# ---- the subcommands: each prints its answer, and returns the status


def do_audit(words: argparse.Namespace) -> int:
    try:
        with opened(words.file, words.immutable) as base:
            audit(base)
    except Damaged as damage:
        print(f"damaged {damage.table}", flush=True)
        say(damage.why)
        return 1
    print("sound")
    return 0


def do_lawful(words: argparse.Namespace) -> int:
    with audited(words.file, words.immutable) as base:
        breach, last, shown = first_breach(base), meta_of(base).last, last_shown(base)
    if breach is None:
        print("lawful", flush=True)
        if shown < last:
            known = moment_text(shown)
            say(f"the vault's last change is of {moment_text(last)}, and the last that an entry shows of {known}")
        return 0
    print(f"unlawful {breach.id} {breach.rule}", flush=True)
    say(f"entry {breach.id}: {breach.why}")
    return 1


def do_coherent(words: argparse.Namespace) -> int:
    with audited(words.file, words.immutable) as base:
        return say_differences(contradictions(base), "coherent")


def do_events(words: argparse.Namespace) -> int:
    with audited(words.file, words.immutable) as base:
        write_events(base, words.before, sys.stdout)
    return 0


def do_seal(words: argparse.Namespace) -> int:
    with audited(words.file, words.immutable) as base:
        try:
            seals = seals_of(base, words.before or [meta_of(base).last])
        except TooLate as late:
            raise Refused(str(late)) from late
    print("".join(it.text() for it in seals), end="")
    return 0


def do_check_seals(words: argparse.Namespace) -> int:
    with audited(words.file, words.immutable) as base:
        try:
            found, torn = check_seals(base, words.seals)
        except ValueError as error:
            raise Refused(f"{words.seals}: {error}") from error
    for it in torn:
        print(f"torn {it}")
    for it in found:
        print(f"differs {it}")
    if not found:
        print("as sealed")
    return 1 if found else 0


def do_compare(words: argparse.Namespace) -> int:
    with audited(words.old, words.immutable) as old, audited(words.new, words.immutable) as new:
        return say_differences(differences(old, new), "unaltered")


def do_bodies(words: argparse.Namespace) -> int:
    folder = pathlib.Path(words.folder)
    if not folder.is_dir():
        raise Refused(f"{folder}: there is no such folder")
    counts = collections.Counter[str]()
    with audited(words.file, words.immutable) as base:
        meta = meta_of(base)
        if not meta.is_external:
            raise Refused(f"{words.file}: a vault of schema {meta.schema} has all contents in its tables")
        for it in bodies.look(base, folder):
            counts[it.state] += 1
            if it.state != "there":
                print(it.text(), flush=True)
    summary = ", ".join(f"{it} {counts[it]}" for it in ("missing", "differs", "unread"))
    print(f"looked at {counts.total()}: {summary}")
    return 0 if counts.total() == counts["there"] else 1


TEXTS = {
    "audit": "prints `sound`, or `damaged TABLE` with the first table that isn't a vault's",
    "lawful": "prints `lawful`, or `unlawful ID RULE` with the first rule that an entry's history breaks",
    "coherent": "prints `coherent`, or a line for each contradiction between an entry and the rest of the file",
    "events": "prints all that ever happened to each entry, as CSV",
    "seal": "prints the seal of the events before a moment; left out, it is the vault's last one",
    "check-seals": "prints `as sealed`, or a line for each seal that doesn't come out of the file",
    "bodies": "prints a line for each held version that is kept outside and whose bytes aren't in FOLDER as registered,"
    " and how many were looked at",
    "compare": "prints `unaltered` where all of OLD stands in NEW, else a line for each difference",
}


def add_command(
    commands: "argparse._SubParsersAction[argparse.ArgumentParser]", name: str, do: Command, *files: str
) -> argparse.ArgumentParser:
    """A subcommand that is asked of these files."""
    text = TEXTS[name]
    made = commands.add_parser(name, help=text, description=f"{text[0].upper()}{text[1:]}.", epilog=STATUS)
    for it in files:
        made.add_argument(it, metavar=it.upper())
    made.add_argument("--immutable", action="store_true", help="nobody writes to the file; a log beside it isn't read")
    made.set_defaults(do=do)
    return made


def parser() -> argparse.ArgumentParser:
    whole = argparse.ArgumentParser(
        prog="vault-recheck", description=ABOUT, epilog=STATUS, formatter_class=argparse.RawDescriptionHelpFormatter
    )
    commands = whole.add_subparsers(metavar="COMMAND", required=True)
    add_command(commands, "audit", do_audit, "file")
    add_command(commands, "lawful", do_lawful, "file")
    add_command(commands, "coherent", do_coherent, "file")
    events = add_command(commands, "events", do_events, "file")
    events.add_argument("--before", type=moment, metavar="MOMENT", help="leaves out what is of that moment or later")
    seal = add_command(commands, "seal", do_seal, "file")
    more = "the moment; given again, another seal follows"
    seal.add_argument("--before", type=moment, action="append", metavar="MOMENT", help=more)
    add_command(commands, "check-seals", do_check_seals, "file", "seals")
    add_command(commands, "compare", do_compare, "old", "new")
    add_command(commands, "bodies", do_bodies, "file", "folder")
    return whole


def main(given: Optional[Sequence[str]] = None) -> int:
    """Carries out the words, and returns the status."""
    words = parser().parse_args(given)
    do: Command = words.do
    if isinstance(sys.stdout, io.TextIOWrapper):
        sys.stdout.reconfigure(encoding="utf-8", newline="\n")
    try:
        return do(words)
    except BrokenPipeError:
        os.dup2(os.open(os.devnull, os.O_WRONLY), 1)
        return 1
    except (Refused, OSError, sqlite3.Error) as error:
        say(f"vault-recheck: {error}")
        return 1
