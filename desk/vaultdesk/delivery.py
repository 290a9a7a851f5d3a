"""A delivery before anything of it is taken in: what the words ask for, its rows, and what is found of them."""

from __future__ import annotations

import argparse
import re
from collections.abc import Sequence
from dataclasses import dataclass
from pathlib import Path

from vaultdesk import (
    bags, book, classes, columns, config, dates, folder, inventory, keys, limits, looks, moments, plan, schedule, there,
)  # fmt: skip
from vaultdesk.bags import Bag
from vaultdesk.documents import read_content
from vaultdesk.engine import Engine
from vaultdesk.errors import UsageError
from vaultdesk.folder import Folder
from vaultdesk.items import Asked, Item, items_of
from vaultdesk.output import counted_off, say
from vaultdesk.there import There

BATCH = re.compile(r"[a-z0-9._-]{1,64}")


@dataclass(frozen=True)
class Delivery:
    """The items of a delivery, in the order of their rows; what the vault has already; and which files of the folder no
    row names."""

    items: Sequence[Item]
    there: There
    unnamed: Sequence[str]

    @property
    def right(self) -> list[Item]:
        """Those that are to be taken in."""
        return [it for it in self.items if not it.is_out]

    @property
    def fresh(self) -> list[Item]:
        """Those of them that the batch hasn't yet."""
        return [it for it in self.right if not it.is_taken]

    def rows(self) -> list[plan.Row]:
        """The plan."""
        return [plan.row_of(it, self.there.default) for it in self.items]


def look_at_words(words: argparse.Namespace) -> None:
    """`UsageError` where what was asked can't be, whatever the folder and the vault have."""
    if not BATCH.fullmatch(words.batch):
        better = re.sub(r"[^a-z0-9._-]+", "-", words.batch.lower())[:64]
        how = f", as {better}" if BATCH.fullmatch(better) else ""
        raise UsageError(f"--batch {words.batch!r}: a batch's name has 1 to 64 of a-z, 0-9, -, _ and .{how}")
    needing = {"keep-inventory": words.keep_inventory, "columns": words.columns, "sheet": words.sheet}
    for name, value in {**needing, "ignore-columns": words.ignore_columns}.items():
        if value is not None and not words.inventory:
            raise UsageError(f"--{name} goes with --inventory FILE")
    if words.keep_inventory:
        keys.look(words.keep_inventory)
        read_content(words.inventory)
    for path in (words.csv, words.receipt):
        if path and Path(path).exists() and not words.force:
            raise UsageError(f"{path} is there already: give --force to write over it")


def open_bag(words: argparse.Namespace) -> Bag | None:
    """Looks at the bag that is delivered, and has the words mean its documents, by its own list where no other is
    named; none where the folder is no bag. `DeskError` where it isn't whole."""
    if not words.bag:
        return None
    bag = bags.look(Path(words.folder))
    words.folder, words.recursive = str(bag.payload), True
    words.inventory = words.inventory or (str(bag.list) if bag.list else None)
    return bag


def _all_files(words: argparse.Namespace, given: Folder) -> list[inventory.Row]:
    """A row for each file: of the folder itself, and where that is asked, of those within it.

    What systems lay there by themselves is left out, and named."""
    left = [it for it in given.files if folder.is_of_system(it) and (words.recursive or "/" not in it)]
    if left:
        say(f"left out, as a system lays them into folders by itself: {plan.named(left)}")
    files = [it for it in given.files if not folder.is_of_system(it)]
    taken = [it for it in files if words.recursive or "/" not in it]
    if len(taken) < len(files):
        count = len(files) - len(taken)
        say(f"{count} files are in folders of {words.folder}, and left out: --recursive takes them in")
    return [inventory.Row(number, {"file": it}) for number, it in enumerate(taken, start=1)]


def _listed(words: argparse.Namespace) -> tuple[list[inventory.Row], dict[str, str]]:
    """The rows of the inventory, and what was said of its columns. `UsageError` where nobody says what one is."""
    said = columns.given_by(words)
    given = inventory.listed(Path(words.inventory), ("file",), columns.meanings_of(said), words.sheet)
    columns.look_given(said, given.heads, given.place)
    unknown = inventory.unknown(given, columns.meanings_of(said))
    said |= columns.asked_for(words, unknown, given.place)
    return inventory.rows(given, columns.meanings_of(said)), said


def _asked(engine: Engine, words: argparse.Namespace) -> Asked:
    """What the words ask of all rows. `UsageError` where an end isn't one."""
    until = moments.read(words.until) if words.until else ""
    if until:
        limits.look(engine.desk.limits, words.bucket, until, engine.at or moments.now())
    scheduled = schedule.current(engine)
    if scheduled is not None and words.classes:
        why = "the department has a schedule, and its classes count (vaultdesk schedule show)"
        raise UsageError(f"--classes {words.classes}: {why}: leave --classes out")
    found = classes.read(Path(words.classes)) if words.classes else scheduled
    reported = schedule.events(engine, book.found_bucket(engine)) if scheduled else {}
    return Asked(found, until, words.mode or "", columns.fields(), reported)


def _order(words: argparse.Namespace) -> str | None:
    """How the inventory has its dates, where that was said. `UsageError` where the settings have another word."""
    order: str | None = words.dates or config.settings().dates
    if order not in (None, *dates.ORDERS):
        raise UsageError(f"settings: dates is {' or '.join(dates.ORDERS)}, and not {order!r}")
    return order


def _unnamed(words: argparse.Namespace, given: Folder, items: Sequence[Item]) -> list[str]:
    """The files that no row names, but for those of systems, and the lists themselves; where there is an inventory."""
    if not words.inventory:
        return []
    lists = {Path(it).resolve() for it in (words.inventory, words.classes, words.csv) if it}
    named = {it.file for it in items}
    left = [it for it in given.files if it not in named and not folder.is_of_system(it)]
    return [it for it in left if (given.path / it).resolve() not in lists]


def look(engine: Engine, words: argparse.Namespace, bag: Bag | None) -> tuple[Delivery, dict[str, str]]:
    """The delivery, each of its items with what was found of it, and what was said of the inventory's columns.

    The files of a bag are those whose digests were compared as it was looked at."""
    asked, order = _asked(engine, words), _order(words)
    rows, said = _listed(words) if words.inventory else (None, {})
    given = folder.read(Path(words.folder))
    rows = _all_files(words, given) if rows is None else rows
    now, form = engine.at or moments.now(), keys.form()
    items = items_of(rows, asked, order, given.below(it.cells["file"] for it in rows))
    digests = bag.digests if bag else {}
    for it in counted_off(items, "rows were looked at"):
        it.wanted = it.wanted or digests.get(it.file, "")
        looks.look_at_words(it, now, form)
        looks.look_at_limits(it, engine.desk.limits, words.bucket, now)
        looks.look_at_file(it, given)
    found = there.look(engine, words)
    looks.look_at_doubles(items, found)
    for it in items:
        looks.look_at_default(it, found)
        if not found.lines:
            looks.look_at_keys(it, found)
    return Delivery(items, found, _unnamed(words, given, items)), said
