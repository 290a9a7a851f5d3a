"""What was asked of a vault, refused requests and reads too, as documents of the vault: trail."""

from __future__ import annotations

import argparse
import datetime as dt
import hashlib
import re
import subprocess
import sys
from collections.abc import Iterator
from pathlib import Path
from typing import Any

from vaultdesk import moments
from vaultdesk.documents import MOST
from vaultdesk.engine import Engine
from vaultdesk.errors import DeskError, UsageError, of_file
from vaultdesk.output import counted_off, print_json

NAME = re.compile(r"[A-Za-z0-9:@\\._-]{1,255}")  # as systemd allows it for a unit
BATCH = re.compile(r"[a-z0-9._-]{1,64}")
SHOWN, DIGITS = 20, 26  # of a name that no batch can have: how much of it is shown, and of its digest
ABOUT = """Takes a log into the vault, in pieces of at most 1 MiB that end with a line, as documents NAME/DAY/0001 and
so on: what nginx, a server, a gateway or sudo wrote of a day. The bucket's default retention guards them as it guards
all documents, so give it one in COMPLIANCE. The log is a file, standard input (-), or with --unit what systemd's
journal has of a unit for the day, yesterday if none is named, in UTC. Given again for the same day, nothing is taken
in twice; where the log has grown since, the last piece is refused, and what is new needs another name. The log of a day
on which nothing was written is taken in as an empty document, so that each day has one, and that is printed."""


def batch_of(name: str, day: dt.date) -> str:
    """The batch in which a log of a day is taken in: the same each time, and no two logs of a day have one.

    Where the name can't stand in a batch's name, a part of it and the digest of the whole do, after another sign."""
    plain = f"trail-{name}-{day}"
    if BATCH.fullmatch(plain):
        return plain
    shown = re.sub(r"[^a-z0-9._-]", "-", name.lower())[:SHOWN]
    return f"trail_{shown}-{hashlib.sha256(name.encode()).hexdigest()[:DIGITS]}-{day}"


def pieces_of(content: bytes) -> Iterator[bytes]:
    """The content in pieces that a version can have, each up to the end of a line where it has one."""
    while len(content) > MOST:
        end = content.rfind(b"\n", 0, MOST) + 1 or MOST
        yield content[:end]
        content = content[end:]
    yield content


def _journal(unit: str, day: dt.date) -> bytes:
    """What the journal has of a unit for a day of UTC. `DeskError` where it can't be read."""
    span = ["--since", f"{day} 00:00:00 UTC", "--until", f"{day + dt.timedelta(days=1)} 00:00:00 UTC"]
    words = ["journalctl", "--utc", "--no-pager", "--quiet", "--output", "short-iso", "--unit", unit, *span]
    try:
        done = subprocess.run(words, capture_output=True, check=False)
    except OSError as error:
        raise DeskError(f"journalctl: {error.strerror}: this is for a machine with systemd") from error
    if done.returncode != 0:
        raise DeskError(f"journalctl: {done.stderr.decode('utf-8', 'replace').strip()}")
    return done.stdout


def _content(words: argparse.Namespace, day: dt.date) -> bytes:
    if words.unit:
        return _journal(words.unit, day)
    try:
        return sys.stdin.buffer.read() if words.path == "-" else Path(words.path).read_bytes()
    except OSError as error:
        raise of_file(words.path, error) from error


def _day(words: argparse.Namespace, now: str) -> dt.date:
    """The day that is named, or yesterday. `UsageError` where the journal's isn't over."""
    today = dt.date.fromisoformat(now[:10])
    day = dt.date.fromisoformat(moments.read(words.day)[:10]) if words.day else today - dt.timedelta(days=1)
    if words.unit and day >= today:
        raise UsageError(f"{day} isn't over: what comes later that day would be left out for good")
    return day


def trail(engine: Engine, words: argparse.Namespace) -> None:
    """Takes a log of a day into the vault."""
    if (words.path is None) == (words.unit is None):
        raise UsageError("give the log's FILE, or --unit UNIT")
    name = words.name or words.unit or ("" if words.path == "-" else Path(words.path).name)
    if not NAME.fullmatch(name):
        signs = "letters, digits, @, :, ., _, - and \\"
        raise UsageError(f"{name!r} is no name of a log: give --name, with 1 to 255 of {signs}")
    day = _day(words, engine.at or moments.now())
    pieces = list(pieces_of(_content(words, day)))
    rows: list[dict[str, Any]] = []
    for line, piece in enumerate(counted_off(pieces, "pieces were taken in"), start=1):
        key = f"{name}/{day}/{line:04}"
        place = {"bucket": words.bucket, "batch": batch_of(name, day), "line": line, "key": key}
        done = engine.ask("intake", **place, hex=piece.hex())
        rows.append({"version": done["version_id"], "key": key, "bytes": len(piece), "again": done["again"]})
    if words.json:
        print_json(rows)
        return
    fresh = sum(not it["again"] for it in rows)
    what = f"the log of {name} of {day}"
    if pieces == [b""]:
        print(f"{what} is empty: an empty document {'was taken in' if fresh else 'was there already'}")
    else:
        rest = "" if fresh == len(rows) else "; the others were there"
        print(f"{fresh} of {len(rows)} pieces of {what} were taken in{rest}")


def add(commands: argparse._SubParsersAction[argparse.ArgumentParser], common: argparse.ArgumentParser) -> None:
    """Adds the subcommand to the desk's words."""
    what = "take a day's log of requests into the vault: refused ones and reads too"
    example = "Example: vaultdesk trail trails --unit nginx.service --day 2026-11-27 --as clerk"
    it = commands.add_parser("trail", parents=[common], help=what, description=ABOUT, epilog=example)
    it.add_argument("bucket")
    it.add_argument("path", nargs="?", metavar="FILE", help="the log; - is standard input")
    it.add_argument("--unit", metavar="UNIT", help="in place of FILE: the journal of that unit")
    it.add_argument("--day", metavar="DATE", help="the day of the log (default: yesterday)")
    it.add_argument("--name", metavar="NAME", help="the log's name in keys (default: the unit's or the file's)")
    it.set_defaults(run=trail)
