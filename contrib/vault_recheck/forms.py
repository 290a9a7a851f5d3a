"""Which tables a vault's file of a schema has, in which order, and how each is made; and at which of them a file
differs."""

import re
import sqlite3
from typing import Iterator, NamedTuple, Optional

from vault_recheck.vault import INSIDE, OUTSIDE


class Column(NamedTuple):
    name: str
    kind: str
    may_be_null: bool = False
    refers: str = ""  # the table whose key it names, as `departments.name`


class Table(NamedTuple):
    name: str
    columns: tuple[Column, ...]
    key: tuple[str, ...]  # its columns; one that is INTEGER and first is the row's number
    unique: tuple[str, ...] = ()  # a constraint beside the key

    def is_by_number(self) -> bool:
        return self.key == (self.columns[0].name,) and self.columns[0].kind == "INTEGER"


def column_of(words: str) -> Column:
    """A column by its words: name, kind, then `?` where it may be NULL, and what it refers to."""
    name, kind, *more = words.split()
    return Column(name, kind, "?" in more, next((it for it in more if "." in it), ""))


def table_of(name: str, key: str, columns: str, unique: str = "") -> Table:
    return Table(name, tuple(column_of(it) for it in columns.split(",")), tuple(key.split()), tuple(unique.split()))


INSIDE_TABLES = (
    table_of("meta", "one", "one INTEGER ?, schema INTEGER, last INTEGER, next INTEGER, moves INTEGER"),
    table_of(
        "departments",
        "name",
        "name TEXT, admitted INTEGER, held INTEGER, removed INTEGER, weighted INTEGER, closed INTEGER,"
        "received INTEGER, handed INTEGER",
    ),
    table_of("callers", "name", "name TEXT, dept TEXT ? departments.name, rights INTEGER, closed INTEGER"),
    table_of("buckets", "name", "name TEXT, dept TEXT departments.name, mode INTEGER, days INTEGER ?, years INTEGER ?"),
    table_of(
        "rules",
        "bucket n",
        "bucket TEXT buckets.name, n INTEGER, id TEXT, prefix TEXT, enabled INTEGER, days INTEGER ?, lone INTEGER,"
        "nc_days INTEGER ?, nc_keep INTEGER ?, larger INTEGER ?, smaller INTEGER ?",
    ),
    table_of(
        "entries",
        "id",
        "id INTEGER ?, bucket TEXT buckets.name, key TEXT, marker INTEGER, size INTEGER, digest BLOB ?,"
        "admitted INTEGER, by_rule INTEGER, admitted_by TEXT, removed INTEGER ?, cause INTEGER ?, cause_by TEXT ?",
        unique="bucket key id",
    ),
    table_of("contents", "id", "id INTEGER ? entries.id, bytes BLOB"),
    table_of(
        "settings",
        "id n",
        "id INTEGER entries.id, n INTEGER, moment INTEGER, caller TEXT, mode INTEGER, until INTEGER ?, hold INTEGER,"
        "bypass INTEGER",
    ),
    table_of(
        "intake",
        "bucket batch line",
        "bucket TEXT buckets.name, batch TEXT, line INTEGER, key TEXT, size INTEGER, digest BLOB, mode INTEGER,"
        "until INTEGER ?, hold INTEGER ?, id INTEGER entries.id",
    ),
    table_of(
        "heads", "bucket key", "bucket TEXT buckets.name, key TEXT, newest INTEGER entries.id, count INTEGER"
    ),
    table_of("tenures", "id n", "id INTEGER entries.id, n INTEGER, dept TEXT departments.name, moment INTEGER"),
)  # fmt: skip

# What a vault that registers contents kept outside has besides: two columns at the end of `meta`, and a table.
LATER_COLUMNS = (column_of("place INTEGER"), column_of("done INTEGER"))
EXTERNAL = table_of("external", "id", "id INTEGER ? entries.id")
TABLES = {
    INSIDE: INSIDE_TABLES,
    OUTSIDE: (
        INSIDE_TABLES[0]._replace(columns=INSIDE_TABLES[0].columns + LATER_COLUMNS), *INSIDE_TABLES[1:], EXTERNAL
    ),
}  # fmt: skip

# The one index that isn't made by a key or a constraint: the entries by bucket, key and removal, the latest first. All
# tables are made before it but `external`.
HELD_INDEX = ("entries_held", "entries", (("bucket", False), ("key", False), ("removed", True)))

# Words in the statement that made a table, of which the tables of a vault have none.
FOREIGN_WORDS = {"CHECK", "COLLATE", "GENERATED", "AS", "DEFAULT", "AUTOINCREMENT", "DEFERRABLE", "CONFLICT", "WITHOUT"}


class Thing(NamedTuple):
    """A table, an index, a view or a trigger, with its number in the file's list of them."""

    number: int
    kind: str
    name: str
    table: str
    sql: str


class Difference(NamedTuple):
    """The first table at which a file differs from a vault's, and how."""

    table: str
    why: str


def schema_of(base: sqlite3.Connection) -> int:
    """The schema whose tables the file has to have, by the number in `meta`; the earlier one where it has none."""
    try:
        return OUTSIDE if base.execute("SELECT schema FROM meta").fetchall() == [(OUTSIDE,)] else INSIDE
    except sqlite3.Error:
        return INSIDE


def things_in(base: sqlite3.Connection) -> list[Thing]:
    rows = base.execute("SELECT rowid, type, name, tbl_name, sql FROM sqlite_schema ORDER BY rowid")
    return [Thing(number, kind, name, table, sql or "") for number, kind, name, table, sql in rows]


def automatic_indexes(table: Table) -> list[tuple[str, ...]]:
    """The columns of each index that SQLite makes for a table's key and constraint."""
    return [it for it in (() if table.is_by_number() else table.key, table.unique) if it]


def wanted_places(schema: int) -> dict[str, int]:
    """How many tables and indexes stand before each table, by its name."""
    places, place = {}, 0
    for table in TABLES[schema]:
        place += table == EXTERNAL
        places[table.name] = place
        place += 1 + len(automatic_indexes(table))
    return places


def words_of(sql: str) -> set[str]:
    """The words of a statement outside of quotes."""
    return {it.upper() for it in re.findall(r"\w+", re.sub(r"'[^']*'|\"[^\"]*\"|`[^`]*`|\[[^]]*\]|--[^\n]*", " ", sql))}


def column_faults(base: sqlite3.Connection, table: Table) -> Iterator[str]:
    found = base.execute(f"PRAGMA table_xinfo({table.name})").fetchall()
    if [it[1] for it in found] != [it.name for it in table.columns]:
        yield f"its columns are {', '.join(it[1] for it in found)}"
        return
    for column, (_, name, kind, not_null, default, at, hidden) in zip(table.columns, found):
        place = table.key.index(name) + 1 if name in table.key else 0
        if (kind.upper(), bool(not_null)) != (column.kind, not column.may_be_null):
            yield f"column {name} is {kind}{' NOT NULL' if not_null else ''}"
        elif default is not None or hidden or at != place:
            yield f"column {name} has a default, is computed, or has another place in the key"


def reference_faults(base: sqlite3.Connection, table: Table) -> Iterator[str]:
    rows = base.execute(f"PRAGMA foreign_key_list({table.name})").fetchall()
    found = {(child, f"{parent}.{column}", update, delete) for _, _, parent, child, column, update, delete, _ in rows}
    wanted = {(it.name, it.refers, "NO ACTION", "NO ACTION") for it in table.columns if it.refers}
    if found != wanted or len(rows) != len(wanted):
        yield "its foreign keys are others"


def columns_of_index(base: sqlite3.Connection, name: str) -> list[tuple[str, bool, str]]:
    """The columns of an index, each with whether it falls and how its texts compare."""
    quoted = name.replace("'", "''")
    rows = base.execute(f"PRAGMA index_xinfo('{quoted}')").fetchall()
    return [(column, bool(falls), collation) for _, _, column, falls, collation, is_key in rows if is_key]


def automatic_index_faults(base: sqlite3.Connection, table: Table) -> Iterator[str]:
    rows = base.execute(f"PRAGMA index_list({table.name})").fetchall()
    found = [columns_of_index(base, name) for _, name, _, origin, _ in rows if origin != "c"]
    wanted = [[(column, False, "BINARY") for column in it] for it in automatic_indexes(table)]
    # The row's number in a constraint has no name of its own in an index.
    by_number = [[(name or table.columns[0].name, *more) for name, *more in it] for it in found]
    if sorted(by_number) != sorted([tuple(it) for it in index] for index in wanted):
        yield "its key or its constraint has other columns"


def table_faults(base: sqlite3.Connection, table: Table, place: int, things: list[Thing]) -> Iterator[str]:
    """How a table of the file differs from a vault's, which has that many tables and indexes before it."""
    thing = next((it for it in things if it.kind == "table" and it.name == table.name), None)
    if thing is None:
        yield "there is no such table"
        return
    if thing.number != place + 1:
        yield "it has another number among the tables and indexes"
    strict = base.execute("SELECT strict, wr FROM pragma_table_list WHERE schema = 'main' AND name = ?", (table.name,))
    if strict.fetchone() != (1, 0):
        yield "it isn't STRICT, or is WITHOUT ROWID"
    yield from column_faults(base, table)
    yield from reference_faults(base, table)
    yield from automatic_index_faults(base, table)
    foreign = words_of(thing.sql) & FOREIGN_WORDS
    if foreign:
        yield f"the statement that made it has {', '.join(sorted(foreign))}"


def wanted_indexes() -> list[tuple[str, str, int]]:
    """The indexes in their order, each with its table and how many tables and indexes stand before it; one of a key or
    a constraint has no name here."""
    made, place = [], 0
    for table in INSIDE_TABLES:
        automatic = len(automatic_indexes(table))
        made += [("", table.name, place + at) for at in range(1, automatic + 1)]
        place += 1 + automatic
    return [*made, (*HELD_INDEX[:2], place)]


def is_held_index(base: sqlite3.Connection, thing: Thing) -> bool:
    name, table, columns = HELD_INDEX
    listed = base.execute(f"PRAGMA index_list({table})").fetchall()
    plain = [(it[2], it[4]) for it in listed if it[1] == name] == [(0, 0)]
    wanted = [(column, falls, "BINARY") for column, falls in columns]
    return (thing.name, thing.table) == (name, table) and plain and columns_of_index(base, name) == wanted


def index_difference(base: sqlite3.Connection, names: set[str], things: list[Thing]) -> Optional[Difference]:
    found, wanted = [it for it in things if it.kind == "index"], wanted_indexes()
    for at, (name, table, place) in enumerate(wanted):
        thing = found[at] if at < len(found) else None
        if thing is None or thing.number != place + 1 or (name and not is_held_index(base, thing)):
            return Difference(table, f"there is no index {name or 'of its key'}, or one of another form in its place")
        if not name and (thing.sql or thing.table != table):
            return Difference(table, f"the index {thing.name} stands in the place of that of its key")
    for thing in found[len(wanted):]:
        owner = thing.table if thing.table in names else "meta"
        return Difference(owner, f"there is an index {thing.name}, which no vault has")
    return None


def first_difference(base: sqlite3.Connection, schema: int) -> Optional[Difference]:
    """The first table at which the file differs from a vault's of that schema; `meta` where something foreign stands
    beside them."""
    things, places = things_in(base), wanted_places(schema)
    for table in TABLES[schema]:
        for why in table_faults(base, table, places[table.name], things):
            return Difference(table.name, why)
    foreign = [it for it in things if it.kind == "table" and it.name not in places]
    if foreign:
        return Difference("meta", f"there is a table {foreign[0].name}, which no vault of schema {schema} has")
    different = index_difference(base, set(places), things)
    if different is not None:
        return different
    for it in things:
        if it.kind not in ("table", "index"):
            return Difference("meta", f"there is a {it.kind} {it.name}, which no vault has")
    return None
