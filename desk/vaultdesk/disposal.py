"""Disposal by two: what is due is planned by one caller, approved by another one, and removed by no planner.

Plans, approvals, refusals and outcomes are documents of the office under COMPLIANCE. Who put each of them the vault
says, and not the document. docs/RECORDS.md has their forms.
"""

from __future__ import annotations

import argparse
import contextlib
import itertools
import json
from collections.abc import Callable, Mapping, Sequence
from dataclasses import dataclass
from typing import Any

from vaultdesk import book, cards, moments, people, reading
from vaultdesk.asking import add_yes, confirm
from vaultdesk.book import Kept
from vaultdesk.cards import Card
from vaultdesk.engine import Engine
from vaultdesk.errors import DeskError, Refused
from vaultdesk.output import counted_off, print_json, print_table, say
from vaultdesk.wiped import LEFT

FOLDER = "disposal/"
MOST, BYTES = 1_000, 600_000  # documents and bytes of a plan, so that its outcome too is a version that can be
ENDED = "its retention ended at {}"
SHOWN = ("version", "bucket", "key", "ended", "class", "authority", "title")
PLANS = ("plan", "planned", "by", "documents", "state", "approved by")
OUTCOME = ("version", "bucket", "key", "outcome")
Row = dict[str, Any]


# ---- what there is of a plan


@dataclass(frozen=True)
class Plan:
    """A plan with what became of it."""

    name: str
    bucket: str
    made: Kept
    rows: Sequence[Row]
    approvals: Sequence[Kept] = ()
    rejections: Sequence[Kept] = ()
    outcome: Kept | None = None

    @property
    def approvers(self) -> list[str]:
        """Who else than its planner has approved just this plan, as the vault has it."""
        found = [it.by for it in self.approvals if _of(it).get("sha256") == self.made.digest]
        return [it for it in dict.fromkeys(found) if it != self.made.by]

    @property
    def state(self) -> str:
        """`carried out`, `rejected`, `approved`, or `waits for an approval`."""
        if self.outcome:
            return "carried out"
        if self.rejections:
            return "rejected"
        return "approved" if self.approvers else "waits for an approval"

    @property
    def is_open(self) -> bool:
        """Whether it may still be carried out."""
        return self.state in ("approved", "waits for an approval")


def _of(found: Kept) -> Row:
    """What a document says; nothing where it isn't one of these."""
    with contextlib.suppress(ValueError, TypeError):
        return dict(json.loads(found.content))
    return {}


def plans_in(engine: Engine, bucket: str) -> list[Plan]:
    """The plans of a department's bucket, in the order in which they were made."""
    by_name: dict[str, dict[str, list[Kept]]] = {}
    for it in book.kept(engine.tables, bucket, FOLDER, ".json"):
        name, _, what = it.key.removeprefix(FOLDER).removesuffix(".json").rpartition("/")
        by_name.setdefault(name, {}).setdefault(what.partition("-")[0], []).append(it)
    return [
        Plan(name, bucket, found["plan"][0], _of(found["plan"][0])["documents"], found.get("approved", ()),
             found.get("rejected", ()), found["outcome"][0] if "outcome" in found else None)
        for name, found in by_name.items() if "plan" in found and "documents" in _of(found["plan"][0])
    ]  # fmt: skip


def _named(engine: Engine, name: str) -> Plan:
    """The plan of that name. `DeskError` where there is none that whoever asks has to do with."""
    plans = plans_in(engine, book.bucket_of(engine))
    found = next((it for it in plans if it.name == name), None)
    if found is None:
        there = ", ".join(it.name for it in plans if it.is_open) or "none"
        raise DeskError(f"there is no plan {name!r}: open are {there}; vaultdesk disposal list has all")
    return found


# ---- what is due


def _why(card: Card, until: str) -> str:
    """Why a document is due."""
    ended = ENDED.format(until)
    if not card.kept:
        return ended
    years, _, trigger, _ = card.kept.cells
    begun = card.values.get("event" if trigger == "event" else "date", "")
    return f"class {card.values.get('class')}: {years} years from {begun}; {ended}"


def _locks(engine: Engine, department: str) -> dict[int, reading.Row]:
    """Of each version that a department holds its lock."""
    rows = reading.query(engine.tables, "held", at=engine.at or moments.now())
    return {it["version"]: it for it in rows if it["department"] == department}


def _is_due(lock: Mapping[str, Any] | None) -> bool:
    """Whether a version with that lock may go: its retention has ended, and no hold is on."""
    return bool(lock and lock["retention"] == "ended" and lock["hold"] == "OFF")


def due(engine: Engine, department: str) -> list[Row]:
    """The documents of a department whose retention has ended, with their facts; none of the office's own, and no
    facts, which go with their documents."""
    file, own = engine.tables, book.buckets(engine.tables)
    locks, noted = _locks(engine, department), cards.all_in(file)
    nothing = {"bucket": None, "prefix": None, "text": None, "sha256": None, "since": None, "before": None}
    found = []
    for it in reading.query(file, "find", state="held", **nothing):
        lock, card = locks.get(it["version"]), noted.get((it["bucket"], it["key"], it["sha256"]), Card())
        if not _is_due(lock) or it["bucket"] in own or it["key"].endswith(cards.ENDING):
            continue
        assert lock
        row = {name: it[name] for name in ("version", "bucket", "key", "size", "sha256", "admitted")}
        facts = {name: card.values.get(name, "") for name in cards.NAMES}
        facts |= {"authority": card.kept.authority if card.kept else "", "reason": _why(card, lock["until"])}
        found.append({**row, "ended": lock["until"], **facts, "fields": dict(card.fields)})
    return found


# ---- planning


def _wanted(engine: Engine, words: argparse.Namespace) -> list[Row]:
    """The rows of a new plan: what is due, was asked for, and is in no open plan."""
    bucket = book.bucket_of(engine, words.department)
    planned = {row["version"] for it in plans_in(engine, bucket) if it.is_open for row in it.rows}
    found = [
        it for it in due(engine, words.department)
        if words.bucket in (None, it["bucket"]) and it["key"].startswith(words.prefix or "")
        and words.of_class in (None, it["class"])
    ]  # fmt: skip
    fresh = [it for it in found if it["version"] not in planned]
    if len(fresh) < len(found):
        say(f"{len(found) - len(fresh)} are in an open plan already: vaultdesk disposal list has these")
    for it in fresh:
        it["authority"] = it["authority"] or words.authority or ""
        it["reason"] = words.reason or it["reason"]
    fitting = _fitting(fresh)
    if len(fresh) > len(fitting):
        say(f"{len(fresh) - len(fitting):,} more are due: plan them once more, as a plan has at most {MOST:,}")
    return fitting


def _fitting(rows: Sequence[Row]) -> list[Row]:
    """The first of these rows, as many as a plan can have."""
    sizes = itertools.accumulate(len(json.dumps(it, ensure_ascii=False).encode()) for it in rows[:MOST])
    return [it for it, size in zip(rows, sizes) if size <= BYTES]


def _put_plan(engine: Engine, bucket: str, department: str, rows: Sequence[Row]) -> str:
    """Puts a plan under the first name of the day that is free, and returns that name."""
    day, number = (engine.at or moments.now())[:10], 1
    while True:
        name = f"{department}-{day}-{number}"
        content = json.dumps({"plan": name, "department": department, "documents": rows}, ensure_ascii=False).encode()
        place = {"bucket": bucket, "batch": f"disposal-{day}-{number}", "line": 1, "key": f"{FOLDER}{name}/plan.json"}
        try:
            if not engine.ask("intake", **place, hex=content.hex(), **book.locked(engine))["again"]:
                return name
        except Refused as error:
            if error.code != "IntakeConflict":
                raise
        number += 1


def plan(engine: Engine, words: argparse.Namespace) -> None:
    """Puts a plan of what is due, and prints its name."""
    bucket = book.bucket_of(engine, words.department)
    rows = _wanted(engine, words)
    if words.dry_run:
        print_table(rows, SHOWN, words.json)
        return
    if not rows:
        raise DeskError(f"nothing of {words.department} is due that no open plan has: nothing was planned")
    until = book.locked(engine)["until"]
    confirm(words, f"{len(rows)} documents are planned; nobody removes the plan before {until} (COMPLIANCE)")
    name = _put_plan(engine, bucket, words.department, rows)
    if words.json:
        print_json({"plan": name, "documents": rows})
    else:
        print(name)


def list_plans(engine: Engine, words: argparse.Namespace) -> None:
    """Lists the plans of all departments, or shows the documents of one."""
    found = [it for bucket in book.buckets(engine.tables) for it in plans_in(engine, bucket)]
    if words.plan:
        rows = next((it.rows for it in found if it.name == words.plan), None)
        if rows is None:
            raise DeskError(f"there is no plan {words.plan!r}: vaultdesk disposal list has all")
        print_table(rows, SHOWN, words.json)
        return
    rows = [{"plan": it.name, "planned": it.made.at, "by": it.made.by, "documents": len(it.rows), "state": it.state,
             "approved by": ", ".join(it.approvers)} for it in found]  # fmt: skip
    print_table(rows, PLANS, words.json)


# ---- approving


def _look_at_second(engine: Engine, found: Plan, what: str) -> None:
    """`DeskError` where who asks has planned it, by the same name or as the same person."""
    caller, planner = engine.desk.caller, found.made.by
    if caller == planner:
        raise DeskError(f"{caller} has planned it: let another caller {what}; nothing was changed")
    there = people.all_of(engine.tables)
    name = people.name_at(there, caller, engine.at or moments.now())
    if name and name == people.name_at(there, planner, found.made.at):
        raise DeskError(f"{caller} and {planner}, who has planned it, are both {name}: nothing was changed")


def _look_open(found: Plan) -> None:
    if not found.is_open:
        raise DeskError(f"the plan {found.name} was {found.state} already: nothing was changed")


def _note(engine: Engine, found: Plan, kind: str, **more: str) -> int:
    """Puts a document of what a caller says of a plan, which names the plan's digest."""
    content = {"plan": found.name, "version": found.made.version, "sha256": found.made.digest, **more}
    key = f"{FOLDER}{found.name}/{kind}-{engine.desk.caller}.json"
    return book.put(engine, found.bucket, key, json.dumps(content, ensure_ascii=False).encode(), **book.locked(engine))


def approve(engine: Engine, words: argparse.Namespace) -> None:
    """Approves a plan, as another caller than the one who has made it."""
    found = _named(engine, words.plan)
    _look_open(found)
    _look_at_second(engine, found, "approve it")
    if engine.desk.caller in found.approvers:
        raise DeskError(f"{engine.desk.caller} has approved it already: nothing was changed")
    confirm(words, f"{len(found.rows)} documents of {found.name} may be removed for good")
    version = _note(engine, found, "approved")
    if words.json:
        print_json({"plan": found.name, "approved_by": engine.desk.caller, "version": version})
    else:
        print(f"{found.name} is approved by {engine.desk.caller}: {len(found.rows)} documents")


def reject(engine: Engine, words: argparse.Namespace) -> None:
    """Ends a plan without removing anything: its documents may be planned anew."""
    found = _named(engine, words.plan)
    _look_open(found)
    version = _note(engine, found, "rejected", reason=words.reason)
    if words.json:
        print_json({"plan": found.name, "rejected_by": engine.desk.caller, "version": version})
    else:
        print(f"{found.name} is rejected: its documents stay, and may be planned anew")


# ---- carrying out


def _stays(lock: Mapping[str, Any] | None, row: Row, there: Mapping[int, str]) -> str:
    """Why a document of a plan isn't removed now; empty where it is to be."""
    if there.get(row["version"]) is None:
        return "it was removed before"
    if there[row["version"]] != row["sha256"] or lock is None:
        return "it isn't the document that was planned, or another department's"
    if lock["hold"] == "ON":
        return "a legal hold is on"
    return "" if _is_due(lock) else f"its retention is in force until {lock['until']}"


def _remove(engine: Engine, row: Row) -> Row:
    """Removes a document, and says what became of it."""
    try:
        engine.ask("delete-version", bucket=row["bucket"], key=row["key"], id=row["version"])
    except Refused as error:
        return {"outcome": f"stays: {error}"}
    return {"outcome": "removed"}


def _remove_facts(engine: Engine, row: Row, facts: Sequence[int]) -> list[int]:
    """Removes the facts of a document that was removed, and returns their versions."""
    gone = []
    for number in facts:
        try:
            engine.ask("delete-version", bucket=row["bucket"], key=cards.key_of(row["key"]), id=number)
            gone.append(number)
        except Refused as error:
            say(f"version {row['version']} was removed, and version {number}, its facts, stays: {error}")
    return gone


def _removed_since(engine: Engine, found: Plan) -> dict[int, Row]:
    """What of a plan was removed since it was approved, as the vault has it: when, and by whom."""
    approved = min(it.at for it in found.approvals if it.by in found.approvers)
    rows = reading.query(engine.tables, "removed", since=approved, before=None)
    planned = {it["version"] for it in found.rows}
    return {it["version"]: it for it in rows if it["version"] in planned and it["cause"] == "request"}


def _carried_out(engine: Engine, found: Plan) -> list[Row]:
    """Each document of a plan with what became of it: what is still due is removed."""
    department = book.buckets(engine.tables)[found.bucket]
    locks, facts = _locks(engine, department), cards.versions_in(engine.tables)
    statement = "SELECT id, lower(hex(digest)) FROM entries WHERE removed IS NULL AND NOT marker"
    there: dict[int, str] = {number: digest for number, digest in reading.rows(engine.tables, statement)}
    begun, rows = _removed_since(engine, found), []
    for row in counted_off(found.rows, "documents were come to"):
        why = "" if row["version"] in begun else _stays(locks.get(row["version"]), row, there)
        done: Row = {"outcome": f"stays: {why}"} if why else {"outcome": "removed"}
        if not why and row["version"] not in begun:
            done = _remove(engine, row)
        if done["outcome"] == "removed":
            place = (row["bucket"], row["key"], row["sha256"])
            done |= {"facts": _remove_facts(engine, row, facts.get(place, ()))}
        rows.append({**row, **done})
    since = _removed_since(engine, found)
    for row in rows:
        gone = since.get(row["version"])
        row |= {"removed": gone["removed"], "by": gone["cause_by"]} if gone else {}
    return rows


def carry_out(engine: Engine, words: argparse.Namespace) -> None:
    """Removes what is still due of a plan that another caller has approved, and puts what came of it."""
    found = _named(engine, words.plan)
    _look_open(found)
    _look_at_second(engine, found, "carry it out")
    if not found.approvers:
        raise DeskError(f"{found.name} has no approval: vaultdesk disposal approve gives one; nothing was changed")
    confirm(words, f"up to {len(found.rows)} documents are removed for good")
    rows = _carried_out(engine, found)
    content = {"plan": found.name, "sha256": found.made.digest, "planned_by": found.made.by,
               "approved_by": found.approvers, "documents": rows}  # fmt: skip
    key = f"{FOLDER}{found.name}/outcome.json"
    whole = json.dumps(content, ensure_ascii=False).encode()
    version = book.put(engine, found.bucket, key, whole, **book.locked(engine))
    gone = sum(it["outcome"] == "removed" for it in rows)
    if words.json:
        print_json({"version": version, **content})
    else:
        print_table(rows, OUTCOME, as_json=False)
        print(f"{gone} of {len(rows)} documents of {found.name} are removed: version {version} has what came of it")
        if gone:
            print(LEFT)


# ---- the words


def _kind(
    kinds: Any, common: argparse.ArgumentParser, name: str, run: Callable[..., None], texts: Sequence[str]
) -> Any:
    it = kinds.add_parser(name, parents=[common], help=texts[0], epilog=f"Example: vaultdesk {texts[1]}")
    it.set_defaults(run=run)
    return it


def _add_plan(kinds: Any, common: argparse.ArgumentParser) -> None:
    texts = ("plan what of a department is due, and print the plan's name", "disposal plan records")
    it = _kind(kinds, common, "plan", plan, texts)
    it.add_argument("department")
    it.add_argument("--bucket", metavar="B", help="only of that bucket")
    it.add_argument("--prefix", metavar="P", help="only keys that begin so")
    it.add_argument("--class", dest="of_class", metavar="CLASS", help="only of that class")
    it.add_argument("--authority", metavar="TEXT", help="by which they go, where their class has none")
    it.add_argument("--reason", metavar="TEXT", help="in place of what their retention says")
    add_yes(it)


def _add_steps(kinds: Any, common: argparse.ArgumentParser, prefix: str) -> None:
    """The steps after a plan: as kinds of `disposal`, and as words of their own."""
    example = f"{prefix}approve records-2035-01-02-1 --as bea"
    texts = ("approve a plan of disposal, as another caller than the one who made it", example)
    it = _kind(kinds, common, "approve", approve, texts)
    it.add_argument("plan", metavar="PLAN")
    it.add_argument("--yes", action="store_true", help="don't ask")
    texts = (
        "remove what is still due of an approved plan of disposal, as another caller than the one who made it",
        f"{prefix}carry-out records-2035-01-02-1 --as bea",
    )
    it = _kind(kinds, common, "carry-out", carry_out, texts)
    it.add_argument("plan", metavar="PLAN")
    it.add_argument("--yes", action="store_true", help="don't ask")


def add(commands: argparse._SubParsersAction[argparse.ArgumentParser], common: argparse.ArgumentParser) -> None:
    """Adds the subcommands to the desk's words."""
    what = "disposal by two: plan what is due, approve the plan as another caller, carry it out"
    kinds = commands.add_parser("disposal", help=what).add_subparsers(dest="kind", required=True, metavar="KIND")
    _add_plan(kinds, common)
    _add_steps(kinds, common, "disposal ")
    texts = ("end a plan without removing anything", 'disposal reject records-2035-01-02-1 --reason "wrong class"')
    it = _kind(kinds, common, "reject", reject, texts)
    it.add_argument("plan", metavar="PLAN")
    it.add_argument("--reason", metavar="TEXT", required=True, help="why, which is kept with it")
    texts = ("list the plans and what became of them, or the documents of one", "disposal list records-2035-01-02-1")
    _kind(kinds, common, "list", list_plans, texts).add_argument("plan", metavar="PLAN", nargs="?")
    _add_steps(commands, common, "")
