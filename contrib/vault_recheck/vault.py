"""Opens a vault's file for reading alone, and reads its rows as records."""

import contextlib
import datetime
import os
import pathlib
import re
import sqlite3
import sys
from typing import Iterator, NamedTuple, Optional, Union

Value = Union[None, int, float, str, bytes]
Row = tuple[Value, ...]

# The number in `meta` of a vault whose contents are all in its tables, and of one that registers contents kept outside.
INSIDE, OUTSIDE = 3, 4
LAST_MOMENT = 253_402_300_799
EPOCH = datetime.datetime(1970, 1, 1)
MODES = ("", "GOVERNANCE", "COMPLIANCE")
GOVERNANCE, COMPLIANCE = 1, 2
CAUSES = ("request", "bypass", "rule")
BY_BYPASS, BY_RULE = 1, 2
RIGHTS = {
    "admin": 1, "config": 2, "put": 4, "retain": 8, "hold": 16, "get": 32, "list": 64, "delete": 128,
    "delete-version": 256, "run": 512, "report": 1024, "bypass": 2048,
}  # fmt: skip


class Damaged(Exception):
    """A table isn't one of a vault: which, and why."""

    def __init__(self, table: str, why: str) -> None:
        super().__init__(f"{table}: {why}")
        self.table, self.why = table, why


class Meta(NamedTuple):
    last: int
    next: int
    moves: int
    schema: int = INSIDE

    @property
    def is_external(self) -> bool:
        """Whether the vault registers contents that are kept outside."""
        return self.schema == OUTSIDE


class Caller(NamedTuple):
    name: str
    dept: Optional[str]
    rights: int
    closed: bool

    def has(self, right: str) -> bool:
        """Whether the caller has a right. Rights never change, and closing a caller takes none away."""
        return bool(self.rights & RIGHTS[right])


class Entry(NamedTuple):
    id: int
    bucket: str
    key: str
    marker: bool
    size: int
    digest: Optional[bytes]
    admitted: int
    by_rule: bool
    admitted_by: str
    removed: Optional[int]
    cause: Optional[int]
    cause_by: Optional[str]


class Setting(NamedTuple):
    id: int
    n: int
    at: int
    by: str
    mode: int
    until: Optional[int]
    hold: bool
    bypass: bool

    def in_force(self, at: int) -> int:
        """The mode of the retention, where it is in force at that moment, else 0."""
        return self.mode if self.until is not None and at < self.until else 0

    def text(self) -> str:
        until = "" if self.until is None else f" until {moment_text(self.until)}"
        way = ", by bypass" if self.bypass else ""
        lock = f"{MODES[self.mode] or 'no retention'}{until}, hold {'ON' if self.hold else 'OFF'}"
        return f"{moment_text(self.at)}, {self.by}{way}: {lock}"


class Tenure(NamedTuple):
    id: int
    number: int
    dept: str
    since: int

    def text(self) -> str:
        how = f"move {self.number}" if self.number else "admission"
        return f"{self.dept} since {moment_text(self.since)}, by {how}"


class History(NamedTuple):
    """An entry with its settings by n and its tenures by number."""

    entry: Entry
    settings: list[Setting]
    tenures: list[Tenure]


class Body(NamedTuple):
    """What is registered of the content of a held version that is kept outside."""

    id: int
    size: int
    digest: bytes


# ---- moments


def moment_text(seconds: int) -> str:
    """A moment as 2024-01-15T10:30:00Z, in UTC."""
    return (EPOCH + datetime.timedelta(seconds=seconds)).isoformat().zfill(19) + "Z"


def moment_of(text: str) -> int:
    """The seconds since 1970 of such a text; ValueError where it is no moment."""
    if not re.fullmatch(r"[0-9]{4}-[0-9]{2}-[0-9]{2}T[0-9]{2}:[0-9]{2}:[0-9]{2}Z", text):
        raise ValueError(f"{text!r} isn't written as 2024-01-15T10:30:00Z")
    since = datetime.datetime.fromisoformat(text[:-1]) - EPOCH
    if since.days < 0:
        raise ValueError(f"{text} is before 1970")
    return since.days * 86_400 + since.seconds


# ---- the file


def say(text: str) -> None:
    """A line on standard error."""
    print(text, file=sys.stderr)


def text_of(raw: bytes) -> str:
    """A text as it stands in the file: a byte that is no UTF-8 becomes a surrogate, which no name may have."""
    return raw.decode("utf-8", "surrogateescape")


def is_read_only(folder: pathlib.Path) -> bool:
    """Whether nothing can be written into a folder, so that SQLite can't make the index of a log beside it."""
    return bool(os.statvfs(folder).f_flag & os.ST_RDONLY) or not os.access(folder, os.W_OK)


@contextlib.contextmanager
def opened(name: str, immutable: bool = False) -> Iterator[sqlite3.Connection]:
    """The file for reading alone, as it is at one moment, with the log beside it.

    A file on a read-only medium, or one of which `immutable` says that nobody writes to it, is read by itself: where a
    log with changes stands beside it, a line on standard error says that these are left out. `Damaged` where it is no
    database.
    """
    path = pathlib.Path(name).resolve()
    if not path.is_file():
        raise Damaged("meta", f"there is no file {name}")
    immutable = immutable or is_read_only(path.parent)
    log = path.with_name(path.name + "-wal")
    if immutable and log.exists() and log.stat().st_size:
        say(f"{log} isn't read: what stands in the log alone is left out. Copy both files elsewhere to have it read.")
    how = "mode=ro&immutable=1" if immutable else "mode=ro"
    try:
        base = sqlite3.connect(f"{path.as_uri()}?{how}", uri=True, isolation_level=None)
    except sqlite3.Error as error:
        raise Damaged("meta", f"it can't be opened: {error}") from error
    with contextlib.closing(base):
        base.text_factory = text_of
        try:
            base.execute("BEGIN")
            base.execute("SELECT count(*) FROM sqlite_schema").fetchone()
        except sqlite3.Error as error:
            raise Damaged("meta", f"it can't be read: {error}") from error
        yield base


# ---- the rows of a file that was audited


def meta_of(base: sqlite3.Connection) -> Meta:
    return Meta(*base.execute("SELECT last, next, moves, schema FROM meta").fetchone())


def callers_of(base: sqlite3.Connection) -> dict[str, Caller]:
    rows = base.execute("SELECT name, dept, rights, closed FROM callers ORDER BY name")
    return {name: Caller(name, dept, rights, bool(closed)) for name, dept, rights, closed in rows}


def entries_of(base: sqlite3.Connection) -> Iterator[Entry]:
    """The entries by rising id."""
    rows = base.execute(
        "SELECT id, bucket, key, marker, size, digest, admitted, by_rule, admitted_by, removed, cause, cause_by"
        " FROM entries ORDER BY id"
    )
    for id, bucket, key, marker, size, digest, admitted, by_rule, admitted_by, removed, cause, cause_by in rows:
        yield Entry(
            id, bucket, key, bool(marker), size, digest, admitted, bool(by_rule), admitted_by, removed, cause, cause_by
        )


def settings_of(base: sqlite3.Connection) -> Iterator[Setting]:
    """The settings by rising id, and those of a version by rising n."""
    rows = base.execute("SELECT id, n, moment, caller, mode, until, hold, bypass FROM settings ORDER BY id, n")
    for id, n, at, by, mode, until, hold, bypass in rows:
        yield Setting(id, n, at, by, mode, until, bool(hold), bool(bypass))


def tenures_of(base: sqlite3.Connection) -> Iterator[Tenure]:
    """The tenures by rising id, and those of a version by the number of the move."""
    for row in base.execute("SELECT id, n, dept, moment FROM tenures ORDER BY id, n"):
        yield Tenure(*row)


def histories_of(base: sqlite3.Connection) -> Iterator[History]:
    """The histories by rising id. Three queries go side by side, so that one entry is in memory at a time."""
    settings, tenures = settings_of(base), tenures_of(base)
    setting, tenure = next(settings, None), next(tenures, None)
    for entry in entries_of(base):
        history = History(entry, [], [])
        while setting is not None and setting.id <= entry.id:
            if setting.id == entry.id:
                history.settings.append(setting)
            setting = next(settings, None)
        while tenure is not None and tenure.id <= entry.id:
            if tenure.id == entry.id:
                history.tenures.append(tenure)
            tenure = next(tenures, None)
        yield history


def bodies_of(base: sqlite3.Connection) -> Iterator[Body]:
    """What is kept outside, by the digest: so all versions of the same bytes come one after another."""
    for row in base.execute("SELECT e.id, e.size, e.digest FROM external JOIN entries AS e USING (id) ORDER BY 3, 1"):
        yield Body(*row)
