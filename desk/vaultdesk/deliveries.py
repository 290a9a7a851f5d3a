"""Deliveries: a folder of scans taken in by an inventory, looked at before and compared afterwards."""

from __future__ import annotations

import argparse
import hashlib
from collections.abc import Iterator, Mapping, Sequence
from dataclasses import dataclass, field
from pathlib import Path
from typing import Any

from vaultdesk import cards, columns, config, dates, looks, moments, plan, there
from vaultdesk.asking import add_yes, confirm
from vaultdesk.bags import Bag
from vaultdesk.delivery import Delivery, look, look_at_words, open_bag
from vaultdesk.documents import read_content, write_content
from vaultdesk.engine import Engine
from vaultdesk.errors import DeskError, EngineError, Refused
from vaultdesk.intake import Intake, results, taken_in
from vaultdesk.items import Item
from vaultdesk.output import counted_off, print_json, print_table, refusals, say
from vaultdesk.receipts import receipt
from vaultdesk.refusals import meaning

FOUND = ("row", "file", "wrong", "note")
OTHERWISE = "it came with other facts before, which stay: vaultdesk facts --set changes them"
Row = dict[str, Any]


@dataclass
class FactsIn:
    """How many documents of a delivery have their facts beside them, and the rows whose facts were refused."""

    count: int = 0
    refused: list[Row] = field(default_factory=list)


# ---- afterwards


def _differing(engine: Engine, bucket: str, taken: Mapping[int, Item]) -> list[str]:
    """The files whose content isn't what the vault holds, by the digests of both. `EngineError` where neither the
    vault's tables can be read, nor each version may be asked for."""
    try:
        held = {it["version"]: str(it["sha256"]) for it in there.held_in(engine.tables, bucket)}
    except EngineError:
        if not engine.is_served:
            raise
        held = dict(_asked_digests(engine, bucket, taken))
    return [it.file for version, it in taken.items() if held.get(version) != it.digest]


def _asked_digests(engine: Engine, bucket: str, taken: Mapping[int, Item]) -> Iterator[tuple[int, str]]:
    """The digests of versions, as the server has them. `EngineError` where the caller may not read them."""
    for version in counted_off(list(taken), "documents were compared"):
        try:
            yield version, str(engine.ask("head", bucket=bucket, key=taken[version].key, id=version)["sha256"])
        except Refused as error:
            if error.code == "AccessDenied":
                raise EngineError(str(error)) from error
            yield version, ""  # it was removed in between


def _why_not_all(intake: Intake, refused: Sequence[Row], done: int, wanted: int) -> str:
    """Says that not all that was right came in; nothing where it did."""
    if done < wanted:
        last = intake.lines[-1] if intake.lines else "no line of the engine"
        return f"{len(refused)} rows were refused, {wanted - done} weren't come to: {last}"
    return refusals([str(it["value"]) for it in refused], wanted) if refused else ""


def _report(
    engine: Engine, words: argparse.Namespace, given: Delivery, intake: Intake, bag: Bag | None, facts: FactsIn
) -> None:
    """Prints what became of the delivery. `DeskError` where not all that was right is in the vault as it is there, or
    who came by a server's door may not read the tables to compare it."""
    items, wanted = given.items, len(given.right)
    rows = list(results(intake, items))
    refused = [it for it in rows if it["result"] == "refused"]
    taken = {int(it["value"]): item for it, item in zip(rows, _of_rows(rows, items)) if it["result"] != "refused"}
    differing, why = None, None
    try:
        differing = _differing(engine, words.bucket, taken)
    except EngineError as error:
        why = f"what is in the vault wasn't compared with the folder: {error}"
    if words.receipt and differing is not None:
        _write_receipt(engine, words, {it: item for it, item in taken.items() if item.file not in differing}, bag)
    if words.json:
        told = {"taken_in": len(taken), "refused": refused, "differing": differing, "rows": rows}
        skipped = [it.number for it in items if it.is_skipped]
        told |= {"findings": plan.findings(items), "skipped": skipped, "in_no_row": given.unnamed}
        print_json({**told, "with_facts": facts.count, "facts_refused": facts.refused})
    else:
        _print_result(items, refused, taken, differing)
        _print_facts(facts)
    if differing:
        raise DeskError(f"the vault holds other content than the folder has now: {', '.join(differing)}")
    not_all = _why_not_all(intake, refused, len(rows), wanted)
    if not_all:
        raise DeskError(not_all)
    if why:
        raise DeskError(why)
    if facts.refused:
        raise DeskError(f"the facts of {len(facts.refused)} rows were refused: their documents are there without them")


def _print_facts(facts: FactsIn) -> None:
    print_table(facts.refused, ("row", "file", "key", "cause"), as_json=False)
    if facts.count:
        print(f"{facts.count} of them have their facts beside them")


def _write_receipt(
    engine: Engine, words: argparse.Namespace, taken: Mapping[int, Item], bag: Bag | None
) -> None:
    """Writes the receipt for what is in the vault as it is in the folder."""
    of_all = {"bucket": words.bucket, "batch": words.batch, "received": engine.at or moments.now()}
    of_all |= {"received_by": engine.desk.caller, "office": config.office_name()}
    content = receipt(taken, {**of_all, "bag": bag.name if bag else ""})
    write_content(Path(words.receipt), content, words.force)
    say(f"the receipt for {len(taken):,} documents is {words.receipt}")


def _of_rows(rows: Sequence[Row], items: Sequence[Item]) -> list[Item]:
    """The items of these rows of results."""
    by_number = {it.number: it for it in items}
    return [by_number[it["row"]] for it in rows]


def _print_result(
    items: Sequence[Item], refused: Sequence[Row], taken: Mapping[int, Item], differing: Sequence[str] | None
) -> None:
    print_table(refused, ("row", "file", "key", "value", "cause"), as_json=False)
    same = "" if differing is None else f", {len(taken) - len(differing)} of them with the digest of their file"
    skipped = sum(it.is_skipped for it in items)
    left = f"; {skipped} were left out, as their content is there" if skipped else ""
    print(f"{len(taken)} of {len(items)} rows are in the vault{same}{left}")


# ---- the facts of what came in


def _facts_in(engine: Engine, words: argparse.Namespace, given: Delivery, intake: Intake) -> FactsIn:
    """Puts the facts of what is in the vault beside it, each as a line of a batch of their own: given again, none is
    taken in twice."""
    rows = list(results(intake, given.items))
    there = [it for it, row in zip(_of_rows(rows, given.items), rows) if row["result"] != "refused" and it.card]
    found = FactsIn()
    for it in counted_off(there, "documents got their facts"):
        assert it.card
        lock = {name: value or None for name, value in (("mode", it.mode), ("until", it.until), ("hold", it.hold))}
        place = {"bucket": words.bucket, "batch": cards.batch_of(words.batch), "line": it.line}
        content = it.card.content(it.key, it.digest).hex()
        try:
            engine.ask("intake", **place, key=cards.key_of(it.key), hex=content, **lock)
            found.count += 1
        except Refused as error:
            why = OTHERWISE if error.code == "IntakeConflict" else meaning(error)
            found.refused.append({"row": it.number, "file": it.file, "key": it.key, "cause": why})
    return found


# ---- the whole


def _keep_list(engine: Engine, words: argparse.Namespace) -> None:
    """Puts the inventory as it was given, unless it is the key's current version already."""
    content = read_content(words.inventory)
    try:
        current = engine.ask("head", bucket=words.bucket, key=words.keep_inventory)["sha256"]
    except Refused as error:
        if error.code != "NoSuchKey":
            raise
        current = ""
    if current != hashlib.sha256(content).hexdigest():
        done = engine.ask("put", bucket=words.bucket, key=words.keep_inventory, hex=content.hex())
        say(f"the inventory is version {done['version_id']}, {words.keep_inventory}")


def _print_look(words: argparse.Namespace, given: Delivery, is_last: bool) -> None:
    """Prints what was found, and where nothing is to be taken in, the plan."""
    rows = given.rows()
    if words.csv:
        plan.write(Path(words.csv), rows, words.force)
        say(f"the plan is in {words.csv}")
    found = plan.findings(given.items)
    if not words.json and words.dry_run:
        print_table(rows, plan.columns_of(rows), as_json=False)
    elif not words.json:
        print_table(found, FOUND, as_json=False)
    elif is_last:
        print_json({"taken_in": 0, "findings": found, "plan": rows, "in_no_row": given.unnamed})
    if given.unnamed:
        say(f"{len(given.unnamed)} files of the folder are in no row: {plan.named(given.unnamed)}")


def _ask(words: argparse.Namespace, given: Delivery) -> None:
    """Asks what has to be asked before it is taken in. A delivery that was made already is asked for with --yes too."""
    again = plan.made_already(given.fresh)
    if again:
        confirm(words, f"{again}: --skip-held leaves them out, --again takes them in once more", "again")
    question = plan.question(given.fresh, given.there.default, len(given.unnamed), bool(given.there.lines))
    if question:
        confirm(words, question)


def deliver(engine: Engine, words: argparse.Namespace) -> None:
    """Looks at a delivery, takes it in, and compares what the vault has with the folder."""
    bag = open_bag(words)
    look_at_words(words)
    given, said = look(engine, words, bag)
    skipped = looks.skip_doubles(given.items) if words.skip_held else 0
    if skipped:
        say(f"{skipped} rows are left out: the vault holds their content already, or an earlier row has it")
    wrong = sum(bool(it.wrong) for it in given.items)
    is_refused = not given.right and not skipped or bool(wrong) and not words.leave_out
    _print_look(words, given, words.dry_run or is_refused)
    if words.dry_run:
        say(f"{len(given.right)} of {len(given.items)} rows would be taken in")
        say(plan.summary(given.fresh, given.there.default))
        return
    if is_refused:
        what = f"{wrong} of {len(given.items)} rows are wrong" if given.items else "there is no row"
        raise DeskError(f"{what}: nothing was changed: mend them, or give --leave-out")
    if given.right and not given.fresh:
        say("this delivery was made already: nothing new comes in, and what is there is compared once more")
    _ask(words, given)
    columns.keep(said)
    intake = taken_in(engine, words, given.items)
    _report(engine, words, given, intake, bag, _facts_in(engine, words, given, intake))
    if words.keep_inventory:
        _keep_list(engine, words)


def _add_list(it: argparse.ArgumentParser) -> None:
    """The options of the inventory, and of what its rows ask for."""
    help_text = "CSV or xlsx with the column file, and if wanted key, class, date, mode, until, hold, sha256"
    it.add_argument("--inventory", metavar="FILE", help=help_text)
    help_text = "what columns of other names are, as key=Reference,date='Document date'; the settings keep it"
    it.add_argument("--columns", metavar="WHAT=COLUMN", action="append", help=help_text)
    help_text = "pass over these columns, with commas between them; without names all that aren't known"
    it.add_argument("--ignore-columns", metavar="COLUMN", nargs="?", const=columns.ALL, action="append", help=help_text)
    it.add_argument("--sheet", metavar="NAME", help="the sheet of an xlsx, by its name or number")
    help_text = "which number of a date as 01.02.2026 is the day, where the inventory doesn't show it"
    it.add_argument("--dates", choices=dates.ORDERS, help=help_text)
    it.add_argument("--classes", metavar="FILE", help="CSV or xlsx with the columns class, years, mode")
    it.add_argument("--until", metavar="DATE", help="a retention that ends then, for rows without an end or a class")
    help_text = "the mode of ends that have none (GOVERNANCE)"
    it.add_argument("--mode", choices=("GOVERNANCE", "COMPLIANCE"), help=help_text)
    help_text = "put the inventory itself as a document under this key, with the columns that only the office knows"
    it.add_argument("--keep-inventory", metavar="KEY", help=help_text)


def add(commands: argparse._SubParsersAction[argparse.ArgumentParser], common: argparse.ArgumentParser) -> None:
    """Adds the subcommand to the desk's words."""
    example = "Example: vaultdesk deliver scans --bucket files --batch 2025-06 --inventory a.xlsx --classes years.csv"
    what = "take in a folder of scans: by an inventory, or each file under its name"
    about = f"Takes in a folder of scans. {columns.PAGE}, and what each column says. --dry-run prints the plan."
    it = commands.add_parser("deliver", parents=[common], help=what, description=about, epilog=example)
    it.add_argument("folder")
    it.add_argument("--bucket", required=True)
    it.add_argument("--batch", required=True, help="the delivery's name: given again, nothing is taken in twice")
    _add_list(it)
    help_text = "the folder is a bag of BagIt 1.0 (RFC 8493): it is compared with its manifests before anything else"
    it.add_argument("--bag", action="store_true", help=help_text)
    help_text = "write a receipt there: each document that came in, by its file, key, version and SHA-256 (CSV)"
    it.add_argument("--receipt", metavar="FILE", help=help_text)
    it.add_argument("--recursive", action="store_true", help="without an inventory: also files of folders within it")
    it.add_argument("--skip-held", action="store_true", help="leave out rows whose content the vault holds already")
    it.add_argument("--again", action="store_true", help="take in once more what the bucket holds already")
    it.add_argument("--leave-out", action="store_true", help="take in the other rows where some are wrong")
    it.add_argument("--csv", metavar="FILE", help="write the plan there: key, mode, end and more of each row")
    it.add_argument("--force", action="store_true", help="with --csv and --receipt: write over a file")
    add_yes(it)
    it.set_defaults(run=deliver)
