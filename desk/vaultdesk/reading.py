"""What the desk reads in the vault's tables while the engine hasn't the file; it never changes a row there, and nothing
else of the desk opens them, or an index of them (`index.py`).

Lists, pasts and sums are asked by the queries that auditors have too (`contrib/queries`), so that stock `sqlite3` gives
the same answers.
"""

from __future__ import annotations

import itertools
import os
import re
import sqlite3
import urllib.parse
from collections.abc import Iterable, Iterator, Mapping, Sequence
from contextlib import closing, contextmanager
from pathlib import Path
from typing import Any

from vaultdesk import beside, recheck, snapshot
from vaultdesk.errors import DeskError, EngineError
from vaultdesk.output import say


class NoDatabase(EngineError):
    """A file is none that SQLite can read."""


Values = Sequence[Any] | Mapping[str, Any]
Row = dict[str, Any]

# A view that a connection has in place of the table: no version is guarded.
NO_LOCKS = "CREATE TEMP VIEW settings AS SELECT id, n, 0 AS mode, 0 AS until, 0 AS hold FROM main.settings"

# A query that is given what is no date, or no version, ends with an error of SQLite that quotes what the query says.
SAID_BY_QUERY = re.compile(r"(?:JSON path error near|bad JSON path:) '(.*)'", re.DOTALL)
PARAMETER = re.compile(r" :\w+, which is (.+)")  # in the words of a query, where it says what it was given

# What is said beside an error of SQLite that has such a text.
WHY = {
    "locked": ": a server or another program has the vault: see vaultdesk offline",
    "no such table": ": is it a vault? --vault or $VAULT names it",
    "not a database": ": is it a vault? --vault or $VAULT names it",
}


def _error(file: Path, error: sqlite3.Error) -> DeskError:
    said = SAID_BY_QUERY.fullmatch(str(error))
    if said:
        return DeskError(PARAMETER.sub(r" \1: vaultdesk find lists those there are", said[1].replace("''", "'")))
    why = next((words for text, words in WHY.items() if text in str(error)), "")
    return EngineError(f"{file}: {error}{why}")


def _immutable(file: Path) -> str:
    """How a file on a read-only medium is opened: by itself, as SQLite can't make the index of a log there."""
    if not recheck.vault.is_read_only(file.resolve().parent):
        return ""
    log = Path(f"{file.resolve()}-wal")
    if log.is_file() and log.stat().st_size:
        why = "what is only in the log is left out. Copy both files elsewhere to have it read."
        say(f"{log} isn't read, as nothing can be written there: {why}")
    return "&immutable=1"


class Tables:
    """A vault's tables, open for reading alone."""

    def __init__(self, opened: sqlite3.Connection) -> None:
        self._opened = opened

    def rows(self, statement: str, values: Values = ()) -> list[tuple[Any, ...]]:
        """The rows of a statement."""
        return list(self._opened.execute(statement, values))

    def query(self, name: str, **values: Any) -> list[Row]:
        """The rows of one of the auditor's queries, by the names of its columns; values are those of its parameters."""
        statement = (beside.place_of("queries") / f"{name}.sql").read_text(encoding="utf-8")
        found = self._opened.execute(statement, values)
        names = [it[0] for it in found.description]
        return [dict(zip(names, it, strict=True)) for it in found]


def look_for(file: Path) -> None:
    """`EngineError` where there is no such file, or one may not look."""
    try:
        is_there = file.is_file()
    except PermissionError as error:
        raise EngineError(f"{file}: {error.strerror}: ask as the vault's owner, or of a copy (--vault COPY)") from error
    if not is_there:
        raise EngineError(f"{file}: there is no such file: --vault or $VAULT names the vault")


@contextmanager
def _opened(file: Path, timeout: float = 2) -> Iterator[sqlite3.Connection]:
    """The file for reading alone. `EngineError` where it can't be read, or a program has it."""
    look_for(file)
    place = f"file:{urllib.parse.quote(str(file.resolve()))}?mode=ro{_immutable(file)}"
    try:
        with closing(sqlite3.connect(place, uri=True, timeout=timeout, isolation_level=None)) as opened:
            yield opened
    except sqlite3.Error as error:
        raise _error(file, error) from error


@contextmanager
def at_one_moment(file: Path) -> Iterator[Tables]:
    """The tables of a file as they are at one moment. The faults of reads within it are those of `rows`."""
    with _opened(file) as opened:
        opened.execute("BEGIN")
        yield Tables(opened)


def rows(file: Path, statement: str, values: Values = ()) -> list[tuple[Any, ...]]:
    """The rows of a statement. `EngineError` where the file can't be read, or a program has it."""
    with _opened(file) as opened:
        return Tables(opened).rows(statement, values)


def query(file: Path, name: str, **values: Any) -> list[Row]:
    """The rows of one of the auditor's queries, by the names of its columns; values are those of its parameters.

    `EngineError` as of `rows`, `DeskError` where the query says that a value isn't one."""
    with _opened(file) as opened:
        return Tables(opened).query(name, **values)


def unguarded(file: Path, name: str, **values: Any) -> list[Row]:
    """The rows that one of the auditor's queries would have if no version had a retention or a legal hold.

    Errors as of `query`."""
    with _opened(file) as opened:
        opened.execute(NO_LOCKS)
        return Tables(opened).query(name, **values)


def make(file: Path, statements: Sequence[str], tables: Mapping[str, Iterable[Sequence[Any]]]) -> None:
    """Makes a new file of tables by these statements, for this user alone, with their rows; it is no vault.

    `EngineError` where that can't be done."""
    try:
        os.close(os.open(file, os.O_WRONLY | os.O_CREAT | os.O_EXCL, 0o600))
        with closing(sqlite3.connect(file)) as made, made:
            for it in statements:
                made.execute(it)
            for name, found in tables.items():
                width = len(made.execute(f"SELECT * FROM {name}").description)
                made.executemany(f"INSERT INTO {name} VALUES ({', '.join('?' * width)})", found)
    except sqlite3.Error as error:
        raise _error(file, error) from error


def of_two(file: Path, old: Path, statement: str) -> list[tuple[Any, ...]]:
    """The rows of a query over two vaults, of which the other one's tables are named `old`."""
    with _opened(file) as opened:
        opened.execute("ATTACH ? AS old", (f"{old.resolve().as_uri()}?mode=ro",))
        return Tables(opened).rows(statement)


def back_up(file: Path, target: Path) -> None:
    """Copies a vault that no program has, by SQLite's online backup. `EngineError` where that can't be done."""
    with _opened(file, timeout=0) as opened:
        # A backup waits for ever for a file that is locked: so the file is read first, which fails at once.
        opened.execute("BEGIN")
        opened.execute("SELECT count(*) FROM sqlite_master").fetchone()
        with closing(sqlite3.connect(target)) as made:
            opened.backup(made)


def take_in_log(copy: Path, is_kept: bool = True) -> None:
    """Copies the log of a copy that nobody else has open into its file, so that it is one file; on the disk, where it
    `is_kept`.

    `NoDatabase` where it is no file that SQLite can read, `EngineError` where that can't be done."""
    log = snapshot.log_of(copy)
    if log.exists():
        try:
            with closing(sqlite3.connect(copy, isolation_level=None)) as opened:
                if not is_kept:
                    opened.execute("PRAGMA synchronous = OFF")
                is_busy, pages, copied = opened.execute("PRAGMA wal_checkpoint(TRUNCATE)").fetchone()
        except sqlite3.Error as error:
            kind = NoDatabase if type(error) is sqlite3.DatabaseError else EngineError
            raise kind(f"{copy}: {error}") from error
        if is_busy or pages != copied or pages < 0:
            raise EngineError(f"{copy}: its log can't be copied into it")
    for end in ("-wal", "-shm"):
        Path(f"{copy}{end}").unlink(missing_ok=True)


def write_out(file: Path, new: Path) -> int:
    """Writes the tables of a vault that no program has into an empty file, by SQLite's VACUUM: so without what no table
    has any more. The vault's log is copied into its file, and stays. The new file's `user_version`, which is returned,
    is the vault's and one more.

    `EngineError` where that can't be done."""
    place = f"file:{urllib.parse.quote(str(file))}?mode=rw"
    try:
        with closing(sqlite3.connect(place, uri=True, timeout=0, isolation_level=None)) as opened:
            is_busy, pages, copied = opened.execute("PRAGMA wal_checkpoint(FULL)").fetchone()
            if is_busy or pages != copied:
                raise EngineError(f"{file}: its log can't be copied into it")
            opened.execute("PRAGMA secure_delete = ON")
            opened.execute("VACUUM INTO ?", (str(new),))
            number = int(opened.execute("PRAGMA user_version").fetchone()[0]) + 1
        with closing(sqlite3.connect(new, isolation_level=None)) as made:
            made.execute(f"PRAGMA user_version = {number}")
            made.execute("PRAGMA journal_mode = WAL")
    except sqlite3.Error as error:
        raise _error(file, error) from error
    return number


def differing(file: Path, other: Path) -> str:
    """The first table of which two files don't have the same rows in the same order; that of the tables themselves is
    `sqlite_schema`. Empty where there is no such table. `EngineError` as of `rows`."""
    with _opened(file) as one, _opened(other) as two:
        named = one.execute("SELECT name FROM sqlite_schema WHERE type = 'table'").fetchall()
        for name, columns in (("sqlite_schema", "type, name, tbl_name, sql"), *((name, "*") for (name,) in named)):
            rows = (it.execute(f'SELECT {columns} FROM "{name}"') for it in (one, two))
            if any(those[0] != those[1] for those in itertools.zip_longest(*rows)):
                return str(name)
    return ""
