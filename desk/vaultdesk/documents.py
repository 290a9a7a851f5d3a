"""Documents of a bucket: put, get, ls, info."""

from __future__ import annotations

import argparse
import base64
import hashlib
import json
import os
import sys
from collections.abc import Callable, Iterable, Mapping
from pathlib import Path
from typing import Any

from vaultdesk import beside, cards, defaults, keys, limits, moments, receipts, schedule
from vaultdesk.asking import confirm
from vaultdesk.engine import Engine
from vaultdesk.errors import DeskError, Refused, UsageError, of_file
from vaultdesk.history import number
from vaultdesk.output import print_json, print_table, say

MOST = 1_048_576  # bytes that a version may have
TOO_LARGE = f"cut it into parts, as {beside.page('MANUAL')} shows (Larger scans)"


def read_content(path: str) -> bytes:
    """The content of a file, `-` for standard input. `DeskError` where it can't be read or is too large."""
    try:
        if path == "-":
            content = sys.stdin.buffer.read(MOST + 1)
        else:
            with open(path, "rb") as file:
                content = file.read(MOST + 1)
    except OSError as error:
        raise of_file(path, error) from error
    if len(content) > MOST:
        raise DeskError(f"{path}: more than {MOST:,} bytes, which a version may have: {TOO_LARGE}")
    return content


def look_free(paths: Iterable[Path], force: bool) -> None:
    """`DeskError` where one of these files is there, if only as a link, and may not be written over."""
    there = next((it for it in paths if os.path.lexists(it)), None)
    if there is not None and not force:
        raise DeskError(f"{there} is there already: give --force to write over it")


def write_content(path: Path, content: bytes, force: bool) -> None:
    """Writes a file that isn't there yet, or any with `force`. `DeskError` where that can't be."""
    flags = os.O_WRONLY | os.O_CREAT | (os.O_TRUNC if force else os.O_EXCL)
    try:
        with open(os.open(path, flags, 0o600), "wb") as file:
            file.write(content)
    except FileExistsError as error:
        raise DeskError(f"{path} is there already: give --force to write over it") from error
    except OSError as error:
        raise of_file(path, error) from error


def _look_new(engine: Engine, words: argparse.Namespace) -> None:
    """`DeskError` where the key has a current version."""
    try:
        head = engine.ask("head", bucket=words.bucket, key=words.key)
    except Refused as error:
        if error.code != "NoSuchKey":
            raise
        return
    there = f"{words.key} has version {head['version_id']} already"
    raise DeskError(f"{there}: nothing was put; without --new the content becomes one more version")


def _turn(key: str, number: int) -> str:
    """The name of the batch whose one line is put by the one who is first to put the key as new for that time."""
    return f"new-{hashlib.sha256(json.dumps([number, key]).encode()).hexdigest()[:40]}"


def _put_new(engine: Engine, words: argparse.Namespace, members: Mapping[str, Any]) -> int:
    """Puts a version where nothing is held under the key, and returns its number. `DeskError` where something is.

    A look and a put are two lines, and a server answers others in between. But it takes a line of a batch in once: so
    of those who find nothing, and put the key as line 1 of the same batch, one is let in, and the others look again."""
    number = 0
    while True:
        _look_new(engine, words)
        try:
            done = engine.ask("intake", batch=_turn(words.key, number), line=1, **members)
        except Refused as error:
            if error.code != "IntakeConflict":
                raise
        else:
            if not done["again"]:
                return int(done["version_id"])
        number += 1


def _below(engine: Engine, words: argparse.Namespace, version: int) -> int | None:
    """The version that was current as that one came, if one was."""
    there = [it for it in engine.entries(words.bucket, words.key) if it["key"] == words.key]
    older = [it for it in there if it["version_id"] < version]
    return int(older[0]["version_id"]) if older and not older[0]["delete_marker"] else None


def _look_still_new(engine: Engine, words: argparse.Namespace, version: int) -> None:
    """`DeskError` where somebody put the key in between, and not as new, which a server allows."""
    below = _below(engine, words, version) if engine.is_served else None
    if below is not None:
        why = f"version {below} of the key came at the same moment, by somebody else"
        raise DeskError(f"{why}: version {version} was put all the same, and is above it")


def end_of(engine: Engine, words: argparse.Namespace, now: str) -> str | None:
    """The end of the retention that the words give. `UsageError` where it is outside limits, or a mode has none."""
    if not words.until:
        if words.mode:
            why = f"--mode {words.mode} is the mode of a retention, which has an end: give --until DATE"
            raise UsageError(f"{why}, or leave --mode out for the bucket's default: nothing was put")
        return None
    until = moments.read(words.until)
    limits.look(engine.desk.limits, words.bucket, until, now)
    if moments.is_far(until, now):
        confirm(words, f"the retention ends in more than {moments.FAR} years, at {until}")
    return until


def put(engine: Engine, words: argparse.Namespace) -> None:
    """Puts a file's content as a new version, and prints its number."""
    now = engine.at or moments.now()
    keys.look(words.key)
    card = _card(engine, words)
    mode, until = _retention(engine, words, card, now)
    content = read_content(words.path)
    if words.receipt_for:
        receipts.look(Path(words.receipt_for), content)
    lock = {
        "mode": mode if until else None,
        "until": until,
        "hold": "ON" if words.hold else None,
    }
    members = {
        "bucket": words.bucket,
        "key": words.key,
        "hex": content.hex(),
        **lock,
    }
    version = _put_new(engine, words, members) if words.new else int(engine.ask("put", **members)["version_id"])
    note = _guard_note(engine, words, version, mode if until else "")
    if words.json:
        place = {"version": version, "bucket": words.bucket, "key": words.key}
        print_json({**place, "size": len(content), "sha256": hashlib.sha256(content).hexdigest(), "note": note})
    else:
        print(version)
    if note:
        say(note)
    if card:
        cards.put(engine, (words.bucket, words.key), card, hashlib.sha256(content).hexdigest(), lock)
    if words.new:
        _look_still_new(engine, words, version)
    if not until:
        _look_kept(engine, words, version, now)


def _card(engine: Engine, words: argparse.Namespace) -> cards.Card | None:
    """The facts that the words give. `UsageError` where one isn't understood, or none can be of such a key."""
    found = cards.given(words)
    if found and cards.why_not(words.key):
        raise UsageError(f"{cards.why_not(words.key)}: nothing was put")
    return schedule.classed(engine, cards.Card().with_facts(found)) if found else None


def _retention(
    engine: Engine, words: argparse.Namespace, card: cards.Card | None, now: str
) -> tuple[str, str | None]:
    """The mode and the end that the words give, or else the class by the schedule. `UsageError` as of `end_of`, or
    where the mode isn't that of the class."""
    if words.until or not card or not card.kept:
        return words.mode or "GOVERNANCE", end_of(engine, words, now)
    mode, until = schedule.lock_of(engine, card)
    if words.mode not in (None, mode):
        raise UsageError(f"--mode {words.mode}: that of the class is {mode}: leave --mode out; nothing was put")
    limits.look(engine.desk.limits, words.bucket, until, now)
    if moments.is_far(until, now) and card.kept.mode == mode:
        confirm(words, f"the retention ends in more than {moments.FAR} years, at {until}")
    return mode, until


def _guard_note(engine: Engine, words: argparse.Namespace, version: int, mode: str) -> str:
    """What is said where a version has another mode than the bucket's default, or nothing guards it; else empty. It has
    no mode where it came without a retention."""
    if mode:
        return defaults.mode_note(engine, words.bucket, mode)
    is_looked_at = words.bucket in engine.desk.limits.least  # by _look_kept
    return "" if words.hold or is_looked_at else defaults.guard_note(engine, words.bucket, words.key, version)


def _look_kept(engine: Engine, words: argparse.Namespace, version: int, now: str) -> None:
    """`DeskError` where a version that was put without an end isn't kept as long as the settings have for the bucket.

    It takes the bucket's default retention, which a caller may set and not see: so the version is looked at."""
    if not limits.are_of(engine.desk.limits, words.bucket):
        return
    retention = engine.ask("head", bucket=words.bucket, key=words.key, id=version)["retention"]
    why = limits.why_not_kept(engine.desk.limits, words.bucket, retention and retention["until"], now)
    if why:
        raise DeskError(f"version {version} was put, and {why}: set its retention by vaultdesk retain")


def checked_content(found: dict[str, Any]) -> bytes:
    """The content of a version, whose digest is looked at. `DeskError` where it is another one."""
    content = bytes.fromhex(found["hex"])
    if hashlib.sha256(content).hexdigest() != found["sha256"]:
        raise DeskError(f"version {found['version_id']}: its content has another digest: vaultdesk verify says more")
    return content


def get(engine: Engine, words: argparse.Namespace) -> None:
    """Writes a version's content to a file, or to standard output where no file is named."""
    found = engine.ask("get", bucket=words.bucket, key=words.key, id=words.version)
    content = checked_content(found)
    if words.path:
        write_content(Path(words.path), content, words.force)
    if words.json:
        row = {"version": found["version_id"], "bucket": words.bucket, "key": words.key, "size": found["size"]}
        where = {"file": words.path} if words.path else {"base64": base64.b64encode(content).decode("ascii")}
        print_json({**row, "sha256": found["sha256"], "admitted": found["admitted"], **where})
    elif not words.path:
        sys.stdout.buffer.write(content)
        sys.stdout.buffer.flush()


def info(engine: Engine, words: argparse.Namespace) -> None:
    """Prints what a document is, and what guards it now."""
    found = engine.ask("head", bucket=words.bucket, key=words.key, id=words.version)
    retention = found["retention"] or {}
    row = {name: found[name] for name in ("size", "sha256", "admitted")}
    whole = {"version": found["version_id"], "bucket": words.bucket, "key": words.key, **row}
    whole |= {"mode": retention.get("mode"), "until": retention.get("until"), "hold": found["hold"]}
    whole |= cards.of(engine, words.bucket, words.key, found["sha256"]).shown()
    if words.json:
        print_json(whole)
    else:
        rows = [{"what": name, "is": "none" if value is None else value} for name, value in whole.items()]
        print_table(rows, ("what", "is"), as_json=False)


def kind_of(entry: dict[str, object]) -> str:
    """`current`, `older`, `marker` (a delete marker on top) or `older marker`."""
    kinds = {
        (True, False): "current",
        (False, False): "older",
        (True, True): "marker",
        (False, True): "older marker",
    }
    return kinds[bool(entry["current"]), bool(entry["delete_marker"])]


def ls(engine: Engine, words: argparse.Namespace) -> None:
    """Lists what a bucket holds."""
    rows = [
        {
            "version": it["version_id"],
            "size": it["size"],
            "admitted": it["admitted"],
            "kind": kind_of(dict(it)),
            "key": it["key"],
        }
        for it in engine.entries(words.bucket, words.prefix)
    ]
    print_table(rows, ("version", "size", "admitted", "kind", "key"), words.json)


def _subcommand(
    commands: argparse._SubParsersAction[argparse.ArgumentParser],
    common: argparse.ArgumentParser,
    run: Callable[[Engine, argparse.Namespace], None],
    what: str,
    example: str,
) -> argparse.ArgumentParser:
    it = commands.add_parser(run.__name__, parents=[common], help=what, epilog=f"Example: vaultdesk {example}")
    it.add_argument("bucket")
    it.set_defaults(run=run)
    return it


def add(commands: argparse._SubParsersAction[argparse.ArgumentParser], common: argparse.ArgumentParser) -> None:
    """Adds the subcommands to the desk's words."""
    example = 'put letters "2025/002 permit" letter.pdf --until 2035-01-01'
    it = _subcommand(commands, common, put, "put a file's content as a new version", example)
    it.add_argument("key")
    it.add_argument("path", help="the file; - is standard input")
    it.add_argument("--until", metavar="DATE", help="a retention that ends then")
    it.add_argument("--mode", choices=("GOVERNANCE", "COMPLIANCE"), help="its mode (GOVERNANCE)")
    it.add_argument("--hold", action="store_true", help="with a legal hold")
    it.add_argument("--new", action="store_true", help="only if nothing is held under KEY")
    text = "only if the file has the SHA-256 of each document of that bag, of export --bagit: a receipt for it"
    it.add_argument("--receipt-for", metavar="BAG", help=text)
    cards.add_words(it, cards.PUTTING)
    it.add_argument("--date", metavar="DATE", help="its own date")
    it.add_argument("--yes", action="store_true", help="don't ask")

    example = 'get letters "2025/002 permit" letter.pdf'
    it = _subcommand(commands, common, get, "write a version's content to a file", example)
    it.add_argument("key")
    it.add_argument("path", nargs="?", help="the file to write (default: standard output)")
    it.add_argument("--version", type=number, metavar="N", help="that version, and not the current one")
    it.add_argument("--force", action="store_true", help="write over a file that is there")

    it = _subcommand(commands, common, ls, "list what a bucket holds", "ls letters 2025/")
    it.add_argument("prefix", nargs="?", help="only keys that begin so")

    it = _subcommand(commands, common, info, "what a document is, and what guards it now", "info letters 2025/002")
    it.add_argument("key")
    it.add_argument("--version", type=number, metavar="N", help="that version, and not the current one")
