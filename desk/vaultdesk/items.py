"""What a delivery brings: its rows, each with the lock that it asks for."""

from __future__ import annotations

import re
from collections.abc import Mapping, Sequence
from dataclasses import dataclass, field

from vaultdesk import cards, classes, dates, inventory, moments
from vaultdesk.cards import Card
from vaultdesk.classes import Class
from vaultdesk.errors import UsageError

ERRORS = ("#N/A", "#REF!", "#VALUE!", "#NAME?", "#DIV/0!", "#NULL!", "#NUM!")
SHORTENED = re.compile(r"\d([.,]\d+)?E\+\d+")
MODES = ("", "GOVERNANCE", "COMPLIANCE")


@dataclass
class Item:
    """A row of a delivery, and what was found of it: what is wrong has it left out, a note doesn't.

    `number` is its row as Excel counts it, `line` its line of the batch: the rows from 1 on, without empty ones.
    `kind` is its class, `date` the document's, `size` that of its file. `wanted` is the digest that the inventory has.
    `is_far`: its retention ends in more than thirty years; `is_doubled`: the vault holds its content already;
    `is_second`: an earlier row of the delivery has the same one; `is_skipped`: it is left out for one of the two;
    `is_above`: the bucket holds a document of its key already, `is_here`: one of its content, `is_again`: of both;
    `is_taken`: its line of the batch was taken in before; `is_by_default`: its retention is the bucket's default.
    `event` is the one that its class may count from; `card` has the facts that are kept beside it."""

    number: int
    line: int
    file: str
    key: str
    mode: str
    until: str
    hold: str
    kind: str = ""
    event: str = ""
    date: str = ""
    wanted: str = ""
    digest: str = ""
    size: int | None = None
    is_far: bool = False
    is_doubled: bool = False
    is_second: bool = False
    is_above: bool = False
    is_here: bool = False
    is_again: bool = False
    is_taken: bool = False
    is_skipped: bool = False
    is_by_default: bool = False
    card: Card | None = None
    wrong: list[str] = field(default_factory=list)
    notes: list[str] = field(default_factory=list)

    @property
    def is_out(self) -> bool:
        """Whether it isn't taken in."""
        return bool(self.wrong) or self.is_skipped


@dataclass(frozen=True)
class Asked:
    """What the words of a delivery ask of its rows: the classes, and the end and the mode of rows without their own;
    what the settings have of facts that only the office knows; and the days of the events that were reported."""

    classes: Mapping[str, Class] | None = None
    until: str = ""
    mode: str = ""
    fields: tuple[str, ...] = ()
    events: Mapping[str, str] = field(default_factory=dict)


def _of_class(it: Item, asked: Asked) -> tuple[str, str]:
    """The mode and the end of an item's class."""
    if asked.classes is None:
        how = "give the file of classes by --classes, set a schedule (vaultdesk schedule set), or pass its column over"
        raise UsageError(f"class {it.kind!r}: {how}")
    if it.kind not in asked.classes:
        raise UsageError(f"no class {it.kind!r} in the file of classes")
    kept = asked.classes[it.kind]
    if it.mode not in ("", kept.mode):
        raise UsageError(f"its mode is {it.mode}, and that of its class {kept.mode}: leave one of them out")
    if classes.is_waiting(kept, it.event, asked.events):
        it.notes.append(f"it waits for the event {it.event!r}, which sets its end")
    return classes.lock_of(kept, it.date, it.event, asked.events)


def _lock(it: Item, asked: Asked) -> tuple[str, str]:
    """The mode and the end of an item's retention: its own, that of its class, or the one that is asked for all."""
    if it.until:
        if it.kind:
            it.notes.append("its end is its own, and not that of its class")
        return it.mode or asked.mode or "GOVERNANCE", moments.read(it.until)
    if it.kind:
        return _of_class(it, asked)
    if asked.until:
        return it.mode or asked.mode or "GOVERNANCE", asked.until
    if it.mode:
        raise UsageError(f"{it.mode} wants an end: a column until, a class, or --until")
    return "", ""


def item_of(line: int, row: inventory.Row, asked: Asked, orders: Mapping[str, dates.Order]) -> Item:
    """A row of the inventory as an item; `orders` has how the columns date and until have their dates."""
    cells = row.cells
    it = Item(row.number, line, cells["file"], cells.get("key") or cells["file"], cells.get("mode", ""), "", "")
    it.event = " ".join(cells.get("event", "").split())
    it.hold, it.kind, it.wanted = cells.get("hold", "").upper(), cells.get("class", ""), cells.get("sha256", "").lower()
    if not cells.get("key", "-"):
        it.notes.append("it has no key: its file's name is taken")
    it.wrong += [f"a cell has an error of the spreadsheet: {cell}" for cell in cells.values() if cell in ERRORS]
    if SHORTENED.fullmatch(it.key):
        it.wrong.append(f"the key {it.key} is a number that the spreadsheet shortened: have its column be text")
    try:
        it.date = orders["date"].date(dates.without_time(cells.get("date", "")))
        it.until = orders["until"].date(cells.get("until", ""))
        it.mode, it.until = _lock(it, asked)
    except UsageError as error:
        it.until = ""
        it.wrong.append(str(error))
    it.card = _card_of(it, cells, asked)
    if it.card and cards.why_not(it.key):
        it.wrong.append(cards.why_not(it.key))
    return it


def _card_of(it: Item, cells: Mapping[str, str], asked: Asked) -> Card | None:
    """The facts of a row, where it has more than its date and a class that no schedule of the vault has."""
    more = {name: cells[name] for name in ("title", "sender", "reference") if cells.get(name)}
    own = {name: cells[name] for name in asked.fields if cells.get(name)}
    found = (asked.classes or {}).get(it.kind) if it.kind else None
    kept = found if found and found.schedule else None
    whole = {**more, "date": it.date, "class": it.kind, "event": it.event}
    return Card(whole, own, kept) if more or own or kept else None


def items_of(rows: Sequence[inventory.Row], asked: Asked, order: str | None, paths: Mapping[str, str]) -> list[Item]:
    """The rows of the inventory as items; `paths` has names of files that are written otherwise in the folder."""
    texts = {"date": [dates.without_time(it.cells.get("date", "")) for it in rows]}
    texts["until"] = [it.cells.get("until", "") for it in rows]
    orders = {kind: dates.order_of(of_column, order) for kind, of_column in texts.items()}
    found = []
    for line, row in enumerate(rows, start=1):
        file = row.cells["file"]
        named = inventory.Row(row.number, {**row.cells, "file": paths.get(file, file)})
        found.append(item_of(line, named, asked, orders))
        found[-1].notes += [f"the inventory has {file}"] if file in paths else []
    return found
