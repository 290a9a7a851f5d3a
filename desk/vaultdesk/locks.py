"""Locks: hold, release, retain; and what takes a document away: rm, delete."""

from __future__ import annotations

import argparse
import contextlib
import functools
import textwrap
from collections.abc import Callable, Mapping, Sequence
from pathlib import Path
from typing import Any

from vaultdesk import cards, defaults, limits, moments, reasons
from vaultdesk.asking import add_yes, confirm
from vaultdesk.cases import HOLD, RELEASE, Cases, Note, check_name, file_beside
from vaultdesk.engine import Engine
from vaultdesk.errors import DeskError, Refused, UsageError
from vaultdesk.output import counted_off, print_json, print_rows, refusals, say, shown
from vaultdesk.targets import Target, add_targets, targets
from vaultdesk.trying import Work, work
from vaultdesk.wiped import LEFT

UNWIPED = """\
What is removed isn't wiped: no command reads it again, but its bytes stay readable in unused parts of the vault's files
until vaultdesk wipe, and in copies of these. Its key and its digest stay in the vault for ever, with who removed it and
when.
"""
WIDTH = 96  # columns of a line that says what a refusal means
UNDER_WAY = "Interrupted: it was under way, and may have been changed: look by vaultdesk info"
NOT_COME_TO = "Left: it wasn't come to, and is as it was: give the command again for these"
COLUMNS = ("bucket", "version", "was", "is", "refused", "key")
Row = dict[str, Any]
Change = Callable[[Target], Row]


class NotDone(DeskError):
    """A version that was left as it is, by what the office has noted of it."""


def retention_text(retention: Mapping[str, str] | None) -> str:
    """A retention as `COMPLIANCE until 2034-01-01T00:00:00Z`, or `no retention`."""
    return f"{retention['mode']} until {retention['until']}" if retention else "no retention"


def lock_text(head: Mapping[str, Any]) -> str:
    """The lock of a version as `COMPLIANCE until 2034-01-01T00:00:00Z, hold ON`."""
    return f"{retention_text(head['retention'])}, hold {head['hold']}"


def _each(found: Sequence[Target], change: Change) -> list[Row]:
    """The row of each target; what is refused has its refusal in its row, and those after it are tried all the same,
    unless a person breaks it off."""
    rows, is_broken_off = list[Row](), False
    for it in counted_off(found, "versions were come to"):
        row: Row = {"bucket": it.bucket, "key": it.key, "version": it.version or "current", "was": "", "is": ""}
        row["refused"] = NOT_COME_TO if is_broken_off else ""
        try:
            row |= {} if is_broken_off else change(it)
        except (Refused, NotDone) as error:
            row["refused"] = str(error)
        except KeyboardInterrupt:
            row["refused"], is_broken_off = UNDER_WAY, True
        rows.append(row)
    return rows


def _print_table(rows: Sequence[Row], words: argparse.Namespace) -> None:
    """Prints the rows with the name of each refusal, and below them once for each name what it means."""
    named = [{**it, "refused": it["refused"].partition(": ")[0]} for it in rows]
    there = {"bucket": not words.bucket, "refused": any(it["refused"] for it in rows)}
    print_rows(named, [it for it in COLUMNS if there.get(it, True)])
    for text in dict.fromkeys(it["refused"] for it in rows if ": " in it["refused"]):
        print(textwrap.fill(shown(text), WIDTH, subsequent_indent="  ", break_on_hyphens=False))


def _print(rows: Sequence[Row], words: argparse.Namespace, last: str = "") -> None:
    """Prints the rows, and a line below their table. `DeskError` where one was refused, after all of them."""
    if words.json:
        print_json(rows)
    else:
        _print_table(rows, words)
        print(last, end="\n" if last else "")
    for note in sorted({it["note"] for it in rows if it.get("note")}):
        say(note)
    summary = refusals([it["refused"] for it in rows if it["refused"]], len(rows), words.dry_run)
    if summary:
        raise DeskError(summary)


# ---- legal holds


class _Holds:
    """Sets or lifts legal holds, and notes for which case."""

    def __init__(self, work: Work, words: argparse.Namespace, vault: Path) -> None:
        self.work = work
        self.engine = work.engine
        self.case = check_name(words.case) if words.case is not None else None
        self.vault = vault

    @functools.cached_property
    def cases(self) -> Cases:
        """The office's file of cases."""
        return Cases(file_beside(self.vault))

    def _note(self, done: str, it: Target, version: int, was: str) -> None:
        if self.case is not None and not self.work.is_dry:
            moment = self.engine.at or moments.now()
            self.cases.add(Note(moment, self.engine.desk.caller, self.case, done, it.bucket, it.key, version, was))

    def _set(self, it: Target, head: Mapping[str, Any], hold: str) -> Row:
        """Sets the hold of just the version that was looked at."""
        version, was = int(head["version_id"]), lock_text(head)
        self.work.change("set-hold", bucket=it.bucket, key=it.key, id=version, hold=hold)
        self._note(HOLD if hold == "ON" else RELEASE, it, version, was)
        return {"version": version, "was": was, "is": self.work.text(lock_text({**head, "hold": hold}))}

    def hold(self, it: Target) -> Row:
        """Puts a legal hold on a version."""
        return self._set(it, self.engine.ask("head", **it.place), "ON")

    def release(self, it: Target) -> Row:
        """Lifts the legal hold of a version, unless another case has it on hold, or none is on."""
        head = self.engine.ask("head", **it.place)
        version, was = int(head["version_id"]), lock_text(head)
        cases = self.cases.held_for(it.bucket, it.key, version)
        if self.case is not None and self.case not in cases:
            raise NotDone(f"it isn't on hold for case {self.case!r}: release it without --case, or look at its cases")
        others = ", ".join(repr(other) for other in sorted(cases - {self.case}))
        if others and self.case is None:
            raise NotDone(f"it is on hold for case {others}: release it by --case")
        if not others and head["hold"] == "ON":
            return self._set(it, head, "OFF")
        self._note(RELEASE, it, version, was)
        why = f"still for case {others}" if others else "no hold was on"
        return {"version": version, "was": was, "is": self.work.text(f"{was}: {why}")}

    def gone(self, it: Target) -> Row:
        """Notes the release of what a case had on hold and the vault holds no more."""
        self._note(RELEASE, it, it.version or 0, "not held any more")
        return {"is": "not held any more"}

    def carry_out(self, found: Sequence[Target], change: Change) -> list[Row]:
        """The rows of all targets. The file of cases is opened before the first change."""
        noted = self.case is not None and not self.work.is_dry
        with self.cases.open() if noted else contextlib.nullcontext():
            return _each(found, change)


def _meant(engine: Engine, words: argparse.Namespace) -> list[Target]:
    """The versions that a lock is set on: those that are named, and the facts of each. A prefix names both."""
    found = targets(engine, words)
    return found if words.prefix is not None else cards.with_facts(engine, found)


def hold(engine: Engine, words: argparse.Namespace) -> None:
    """Sets a legal hold on each version that is meant."""
    with work(engine, words.dry_run) as done:
        holds = _Holds(done, words, engine.desk.file)
        rows = holds.carry_out(_meant(done.engine, words), holds.hold)
    _print(rows, words)


def release(engine: Engine, words: argparse.Namespace) -> None:
    """Lifts the legal hold of each version that is meant: without others, of all that a case has on hold."""
    named = any(it is not None for it in (words.bucket, words.key, words.prefix, words.list))
    with work(engine, words.dry_run) as done:
        holds = _Holds(done, words, engine.desk.file)
        if named or holds.case is None:
            rows = holds.carry_out(_meant(done.engine, words), holds.release)
        else:
            rows = _release_case(holds, holds.case)
    _print(rows, words)


def _release_case(holds: _Holds, case: str) -> list[Row]:
    """The rows of all that a case has on hold. `DeskError` where that is nothing."""
    found = [Target(it.bucket, it.key, it.version) for it in holds.cases.of_case(case)]
    if not found:
        raise DeskError(f"{holds.cases.path} has nothing on hold for case {case!r}: vaultdesk cases lists them")

    def change(it: Target) -> Row:
        try:
            return holds.release(it)
        except Refused as error:
            if error.code != "NoSuchVersion":
                raise
            return holds.gone(it)

    return holds.carry_out(found, change)


# ---- retentions, and what takes a document away


def retain(engine: Engine, words: argparse.Namespace) -> None:
    """Sets a retention on each version that is meant."""
    until = moments.read(words.until)
    with work(engine, words.dry_run) as done:
        found = _meant(done.engine, words)
        _look_at_end(engine, words, found, until)
        rows = _each(found, lambda it: _retained(done, words, it, until))
        _note_modes(done.engine, rows, words.mode)
    _print(rows, words)


def _look_at_end(engine: Engine, words: argparse.Namespace, found: Sequence[Target], until: str) -> None:
    """`UsageError` where the settings have other limits for a bucket; asks before an end that can't be undone."""
    now = engine.at or moments.now()
    for bucket in sorted({it.bucket for it in found}):
        limits.look(engine.desk.limits, bucket, until, now)
    far = moments.is_far(until, now)
    if (words.mode == "COMPLIANCE" or far) and not words.dry_run:
        who = "anybody" if words.mode == "COMPLIANCE" else "whoever has no right to bypass"
        confirm(words, f"{len(found)} versions can't be removed by {who} before {until}")


def _retained(done: Work, words: argparse.Namespace, it: Target, until: str) -> Row:
    """Sets the retention of a version."""
    head = done.engine.ask("head", **it.place)
    version, after = head["version_id"], {**head, "retention": {"mode": words.mode, "until": until}}
    place = {"bucket": it.bucket, "key": it.key, "id": version}
    done.change("set-retention", **place, mode=words.mode, until=until, bypass=words.bypass or None)
    return {"version": version, "was": lock_text(head), "is": done.text(lock_text(after))}


def _note_modes(engine: Engine, rows: Sequence[Row], mode: str) -> None:
    """Notes in each row that was done where its retention has another mode than its bucket's default."""
    done = [it for it in rows if not it["refused"]]
    notes = {bucket: defaults.mode_note(engine, bucket, mode) for bucket in {it["bucket"] for it in done}}
    for row in done:
        row["note"] = notes[row["bucket"]]


def rm(engine: Engine, words: argparse.Namespace) -> None:
    """Puts a delete marker on top of each key that is meant: what is below it stays."""
    with work(engine, words.dry_run) as done:

        def change(it: Target) -> Row:
            marker = done.change("delete", bucket=it.bucket, key=it.key)
            return {"is": done.text("marked")} | ({} if done.is_dry else {"version": marker["version_id"]})

        rows = _each(targets(done.engine, words), change)
    _print(rows, words)


def delete(engine: Engine, words: argparse.Namespace) -> None:
    """Removes each version that is meant for good."""
    with work(engine, words.dry_run) as done:
        found = targets(done.engine, words)
        if any(it.version is None for it in found):
            why = "what is removed for good is named by its number"
            raise UsageError(f"{why}: give --version N, or a list with versions")
        noting = reasons.begun(engine, words)
        contents = list[Target]()
        if not words.dry_run:
            confirm(words, f"{len(found)} versions are removed for good")

        def change(it: Target) -> Row:
            removed = done.change("delete-version", **it.place, bypass=words.bypass or None)
            if removed and not removed["delete_marker"]:
                contents.append(it)
            return {"is": done.text(f"removed ({removed['cause']})" if removed else "asked for")}

        rows = _each(found, change)
    if noting and not words.dry_run:
        reasons.note(engine, noting, [it for it in rows if not it["refused"]])
    _print(rows, words, LEFT if contents and not words.dry_run else "")


def _add_holds(commands: argparse._SubParsersAction[argparse.ArgumentParser], common: argparse.ArgumentParser) -> None:
    example = 'Example: vaultdesk hold letters --prefix "2025/" --case "4 O 17/25"'
    what = "set a legal hold: on one document, on many by prefix, or by a list"
    it = commands.add_parser("hold", parents=[common], help=what, epilog=example)
    it.set_defaults(run=hold)
    add_targets(it)
    it.add_argument("--case", metavar="NAME", help="note in NAME.cases, beside NAME.vault, for which case it is")
    it.add_argument("--dry-run", action="store_true", help="say what would be done, and change nothing")

    example = 'Example: vaultdesk release --case "4 O 17/25"'
    what = "lift a legal hold: of one document, of many by prefix, by a list, or all of a case"
    it = commands.add_parser("release", parents=[common], help=what, epilog=example)
    it.set_defaults(run=release)
    add_targets(it)
    more = "of that case; alone, all that the case has on hold; holds of other cases stay"
    it.add_argument("--case", metavar="NAME", help=more)
    it.add_argument("--dry-run", action="store_true", help="say what would be done, and change nothing")


def add(commands: argparse._SubParsersAction[argparse.ArgumentParser], common: argparse.ArgumentParser) -> None:
    """Adds the subcommands to the desk's words."""
    _add_holds(commands, common)
    example = "Example: vaultdesk retain letters 2025/002 --until 2035-01-01"
    it = commands.add_parser("retain", parents=[common], help="set or extend a retention", epilog=example)
    add_targets(it)
    it.add_argument("--until", metavar="DATE", required=True, help="its end; a date is its midnight in UTC")
    it.add_argument("--mode", choices=("GOVERNANCE", "COMPLIANCE"), default="GOVERNANCE", help="its mode (GOVERNANCE)")
    it.add_argument("--bypass", action="store_true", help="also while a retention in GOVERNANCE is in force")
    add_yes(it)
    it.set_defaults(run=retain)

    example = "Example: vaultdesk rm letters 2025/002"
    it = commands.add_parser("rm", parents=[common], help="put a delete marker on top of a key", epilog=example)
    add_targets(it)
    it.add_argument("--dry-run", action="store_true", help="say what would be done, and change nothing")
    it.set_defaults(run=rm)

    example = "Example: vaultdesk delete letters 2025/002 --version 17"
    what = "remove a version for good"
    it = commands.add_parser("delete", parents=[common], help=what, description=UNWIPED, epilog=example)
    add_targets(it)
    it.add_argument("--bypass", action="store_true", help="also under a retention in GOVERNANCE")
    it.add_argument("--reason", metavar="TEXT", help="why, which is kept as a document of the office")
    it.add_argument("--authority", metavar="TEXT", help="with --reason: by which disposal authority")
    add_yes(it)
    it.set_defaults(run=delete)
