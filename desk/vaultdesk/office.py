"""The office: departments, buckets and callers, listed and added."""

from __future__ import annotations

import argparse
from typing import Any

from vaultdesk import reading
from vaultdesk.asking import add_yes, confirm
from vaultdesk.engine import Engine
from vaultdesk.errors import DeskError, UsageError
from vaultdesk.output import print_done, print_table

# Each right and its number in the column of rights.
RIGHTS = {
    "admin": 1,
    "config": 2,
    "put": 4,
    "retain": 8,
    "hold": 16,
    "get": 32,
    "list": 64,
    "delete": 128,
    "delete-version": 256,
    "run": 512,
    "report": 1024,
    "bypass": 2048,
}

BUCKETS = """
SELECT b.name, b.dept,
    count(e.id) FILTER (WHERE NOT e.marker), coalesce(sum(e.size), 0), count(e.id) FILTER (WHERE e.marker),
    (SELECT count(*) FROM rules AS r WHERE r.bucket = b.name)
FROM buckets AS b LEFT JOIN entries AS e ON e.bucket = b.name AND e.removed IS NULL
GROUP BY b.name ORDER BY b.name
"""


def departments(engine: Engine, words: argparse.Namespace) -> None:
    """Lists the departments with what they hold, or adds one."""
    if words.add:
        engine.ask("add-dept", dept=words.add)
        print_done(words.json, department=words.add, done="added")
        return
    statement = "SELECT name, admitted + received, held, removed FROM departments ORDER BY name"
    found = reading.rows(engine.tables, statement)
    columns = ("department", "came in", "held", "removed")
    print_table([dict(zip(columns, it, strict=True)) for it in found], columns, words.json)


def _move(engine: Engine, words: argparse.Namespace) -> None:
    """Moves a bucket with all that it holds to another department."""
    goes = {"bucket": words.move, "department": words.department}
    if words.dry_run:
        if not words.json:
            print(f"{words.move} would go to {words.department}")
        print_done(words.json, **goes, done="would be moved")
        return
    confirm(words, f"{words.move} is of {words.department} from now on, and counts against its quota")
    moved = engine.ask("move-bucket", bucket=words.move, dept=words.department)["bytes"]
    if not words.json:
        print(f"{moved:,} bytes went with {words.move} to {words.department}")
    print_done(words.json, **goes, bytes=moved, done="moved")


def buckets(engine: Engine, words: argparse.Namespace) -> None:
    """Lists the buckets with what they hold, adds one to a department, or moves one to another department."""
    if (words.add or words.move) and not words.department:
        raise UsageError("a bucket is a department's: give --department")
    if words.move:
        _move(engine, words)
        return
    if words.add:
        engine.ask("add-bucket", bucket=words.add, dept=words.department)
        print_done(words.json, bucket=words.add, department=words.department, done="added")
        return
    columns = ("bucket", "department", "documents", "bytes", "markers", "rules")
    found = reading.rows(engine.tables, BUCKETS)
    print_table([dict(zip(columns, it, strict=True)) for it in found], columns, words.json)


def rights_text(number: int) -> str:
    """The rights of a number in the column of rights."""
    return " ".join(name for name, bit in RIGHTS.items() if number & bit)


def callers(engine: Engine, words: argparse.Namespace) -> None:
    """Lists the callers with their rights, adds one, or closes one for good."""
    if words.close:
        _close(engine, words)
        return
    if words.add:
        _add_caller(engine, words)
        return
    found = reading.rows(engine.tables, "SELECT name, dept, rights, closed FROM callers ORDER BY name")
    rows: list[dict[str, Any]] = [
        {"caller": name, "department": dept or "", "rights": rights_text(rights), "closed": "closed" if closed else ""}
        for name, dept, rights, closed in found
    ]
    print_table(rows, ("caller", "department", "rights", "closed"), words.json)


def _close(engine: Engine, words: argparse.Namespace) -> None:
    """Closes a caller for good, unless nobody could add callers after that."""
    statement = "SELECT name FROM callers WHERE NOT closed AND rights & 1 AND name <> ?"
    found = reading.rows(engine.tables, "SELECT 1 FROM callers WHERE name = ? AND rights & 1", (words.close,))
    if found and not reading.rows(engine.tables, statement, (words.close,)):
        why = "nobody could add another: add one first"
        raise DeskError(f"{words.close} is the last caller with the right admin: {why}")
    if words.dry_run:
        if not words.json:
            print(f"{words.close} would be closed")
        print_done(words.json, caller=words.close, done="would be closed")
        return
    confirm(words, f"{words.close} is closed for good")
    engine.ask("close-caller", caller=words.close)
    print_done(words.json, caller=words.close, done="closed")


def _add_caller(engine: Engine, words: argparse.Namespace) -> None:
    """Adds a caller. Without a department only `admin` is of use, and it can't be given later."""
    if not words.department and words.rights != ["admin"]:
        raise UsageError("a caller without a department can do nothing in any bucket: give --department")
    engine.ask("add-caller", caller=words.add, dept=words.department, rights=words.rights)
    print_done(words.json, caller=words.add, department=words.department, rights=words.rights, done="added")


def add(commands: argparse._SubParsersAction[argparse.ArgumentParser], common: argparse.ArgumentParser) -> None:
    """Adds the subcommands to the desk's words."""
    example = "Example: vaultdesk departments --add court --as registrar"
    it = commands.add_parser("departments", parents=[common], help="list the departments, or add one", epilog=example)
    it.add_argument("--add", metavar="NAME", help="a new department")
    it.set_defaults(run=departments)

    example = "Example: vaultdesk buckets --add files --department court --as registrar"
    what = "list the buckets, add one, or move one to another department"
    it = commands.add_parser("buckets", parents=[common], help=what, epilog=example)
    one = it.add_mutually_exclusive_group()
    one.add_argument("--add", metavar="NAME", help="a new bucket of --department")
    one.add_argument("--move", metavar="NAME", help="move this bucket to --department, with all that it holds")
    it.add_argument("--department", metavar="NAME", help="the bucket's department")
    add_yes(it)
    it.set_defaults(run=buckets)

    example = "Example: vaultdesk callers --add ann --department records --rights put get list --as registrar"
    what = "list the callers, add one, or close one for good"
    it = commands.add_parser("callers", parents=[common], help=what, epilog=example)
    one = it.add_mutually_exclusive_group()
    one.add_argument("--add", metavar="NAME", help="a new caller; its name, department and rights never change")
    one.add_argument("--close", metavar="NAME", help="that caller can do nothing from now on")
    it.add_argument("--department", metavar="NAME", help="the new caller works on the buckets of that department")
    it.add_argument("--rights", nargs="+", choices=tuple(RIGHTS), default=[], metavar="RIGHT", help=" ".join(RIGHTS))
    add_yes(it)
    it.set_defaults(run=callers)
