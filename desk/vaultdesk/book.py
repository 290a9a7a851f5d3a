"""The office's own documents in the vault: who is who, schedules, events, plans of disposal and what came of them.

They are documents as all others, in a bucket of the department whose name is `office` or begins with `office-`: so the
vault's locks, seals and checks are of them too, and the engine decides who may put them. docs/RECORDS.md has their
forms.
"""

from __future__ import annotations

import functools
import hashlib
from collections.abc import Mapping, Sequence
from dataclasses import dataclass
from pathlib import Path
from typing import Any

from vaultdesk import defaults, moments, reading
from vaultdesk.engine import Engine
from vaultdesk.errors import DeskError, EngineError, Refused
from vaultdesk.output import say

NAME = "office"
BUCKETS = f"SELECT name, dept FROM buckets WHERE name = '{NAME}' OR name GLOB '{NAME}-*' ORDER BY name"
# The versions that are held of keys that begin so and end so, of buckets of the office: newest last.
KEPT = """
SELECT e.id, e.bucket, e.key, c.bytes, e.admitted, e.admitted_by
FROM entries AS e JOIN contents AS c USING (id)
WHERE e.removed IS NULL AND e.bucket = :bucket AND substr(e.key, 1, length(:prefix)) = :prefix
    AND (:ending = '' OR substr(e.key, -length(:ending)) = :ending)
ORDER BY e.id
"""


@dataclass(frozen=True)
class Kept:
    """A version of a document of the office. `by` is who put it, as the vault has it; empty where it can't be read."""

    version: int
    bucket: str
    key: str
    content: bytes
    at: str
    by: str

    @functools.cached_property
    def digest(self) -> str:
        """The SHA-256 of its content, in hex digits."""
        return hashlib.sha256(self.content).hexdigest()


def buckets(file: Path) -> dict[str, str]:
    """The buckets that have such documents, each with its department. `EngineError` where the file can't be read."""
    return {str(name): str(dept) for name, dept in reading.rows(file, BUCKETS)}


def department_of(engine: Engine) -> str:
    """The department of who asks; empty where the caller has none. `EngineError` where the tables can't be read."""
    rows = reading.rows(engine.tables, "SELECT dept FROM callers WHERE name = ?", (engine.desk.caller,))
    return str(rows[0][0] or "") if rows else ""


def found_bucket(engine: Engine, department: str | None = None) -> str:
    """The bucket of a department's own documents, of who asks where none is named; empty where there is none.

    Where a server has the vault, and its files can't be read, it is the one of the settings, or else `office`."""
    if engine.desk.office.bucket:
        return engine.desk.office.bucket
    try:
        wanted = department or department_of(engine)
        return next((name for name, dept in buckets(engine.tables).items() if dept == wanted), "")
    except EngineError:
        if not engine.is_served:
            raise
        return NAME


def bucket_of(engine: Engine, department: str | None = None) -> str:
    """The same. `DeskError` where there is none."""
    found = found_bucket(engine, department)
    if not found:
        whose = department or department_of(engine)
        if not whose:
            raise DeskError(f"caller {engine.desk.caller!r} has no department, or isn't there: it can put nothing")
        name = f"{NAME}-{whose}" if NAME in buckets(engine.tables) else NAME
        how = f"an administrator adds one: vaultdesk buckets --add {name} --department {whose}"
        raise DeskError(f"{whose} has no bucket for the office's own documents, named office or office-..: {how}")
    return found


def kept(file: Path, bucket: str, prefix: str, ending: str = "") -> list[Kept]:
    """The versions of a bucket that are held under keys that begin and end so, the newest last."""
    rows = reading.rows(file, KEPT, {"bucket": bucket, "prefix": prefix, "ending": ending})
    return [Kept(number, name, key, bytes(content), moments.of_seconds(at), by)
            for number, name, key, content, at, by in rows]  # fmt: skip


def versions(engine: Engine, bucket: str, key: str) -> list[Kept]:
    """The versions of a document of the office, the newest last; of a server whose files can't be read, the newest
    alone. None where there is no such document, or whoever asks may not read it."""
    if not bucket:
        return []
    try:
        return [it for it in kept(engine.tables, bucket, key) if it.key == key]
    except EngineError:
        if not engine.is_served:
            raise
    try:
        found = engine.ask("get", bucket=bucket, key=key)
    except Refused as error:
        if error.code in ("NoSuchKey", "NoSuchBucket", "AccessDenied"):
            return []
        raise
    return [Kept(int(found["version_id"]), bucket, key, bytes.fromhex(found["hex"]), found["admitted"], "")]


def at_moment(found: Sequence[Kept], at: str | None) -> Kept | None:
    """The version that counted at a moment, or counts now."""
    return next((it for it in reversed(found) if at is None or it.at <= at), None)


def locked(engine: Engine) -> Mapping[str, str]:
    """The lock of what is to be kept as evidence: COMPLIANCE, for as long as the settings say."""
    return {"mode": "COMPLIANCE", "until": engine.desk.office.keep.after(engine.at or moments.now())}


def put(engine: Engine, bucket: str, key: str, content: bytes, **lock: Any) -> int:
    """Puts a version of a document of the office, with that lock, or else the bucket's default; says where nothing
    guards it."""
    version = int(engine.ask("put", bucket=bucket, key=key, hex=content.hex(), **lock)["version_id"])
    note = "" if lock else defaults.guard_note(engine, bucket, key, version)
    if note:
        say(note)
    return version
