"""What of the tables a user may see: what the engine answers to that user, bucket by bucket.

A copy's tables have all departments' documents. So before a row is shown, the engine is asked, as the user, for
something of its bucket or its department; where it answers, the row is shown. Those answers are of the vault as it is:
they are kept until it is changed.
"""

from __future__ import annotations

from dataclasses import dataclass
from pathlib import Path
from typing import Any

from vaultdesk import reading
from vaultdesk.errors import Refused
from vaultdesk.web.engine import NO_KEY
from vaultdesk.web.visit import Visit, visit


@dataclass(frozen=True)
class Bucket:
    """A bucket: its department, and how many documents of how many bytes it holds."""

    name: str
    department: str
    default: str
    documents: int
    bytes: int
    holds: int


class Allowed:
    """What the engine answers to a user, of the vault as it is now."""

    def __init__(self, it: Visit) -> None:
        self._engine = it.engine
        stamp = self._engine.copy.stamp
        kept = it.site.allowed.get(it.user)
        if kept is None or kept[0] != stamp:
            kept = it.site.allowed[it.user] = (stamp, {})
        self._known = kept[1]

    def _may(self, do: str, **members: Any) -> bool:
        """Whether the engine doesn't deny it to the user."""
        asked = (do, *members.items())
        if asked not in self._known:
            self._known[asked] = self._engine.may(do, **members)
        return self._known[asked]

    def lists(self, bucket: str) -> bool:
        """Whether the user may list what a bucket holds."""
        return self._may("list-versions", bucket=bucket, most=1)

    def gets(self, bucket: str) -> bool:
        """Whether the user may read documents of a bucket, their digests and locks."""
        return self._may("head", bucket=bucket, key=NO_KEY)

    def reports(self, department: str) -> bool:
        """Whether the user may have reports and certificates of a department."""
        return self._may("report", dept=department)

    def administers(self) -> bool:
        """Whether the user may ask the server how it is, and for the whole register."""
        asked = ("status",)
        if asked not in self._known:
            try:
                door = self._engine.door
                assert door
                door.ask(self._engine.desk.caller, "status")
                self._known[asked] = True
            except Refused:
                self._known[asked] = False
        return self._known[asked]


def allowed() -> Allowed:
    """What the user of this request may see."""
    return Allowed(visit())


def _read_buckets(file: Path) -> list[Bucket]:
    found = reading.query(file, "buckets")
    return [
        Bucket(it["bucket"], it["department"], it["default"], it["versions"], it["bytes"], it["holds"]) for it in found
    ]


def all_buckets() -> list[Bucket]:
    """All buckets, whoever asks."""
    return visit().engine.known("buckets", _read_buckets)


def buckets_of(may: Allowed) -> list[Bucket]:
    """The buckets whose documents the user may list."""
    return [it for it in all_buckets() if may.lists(it.name)]


def own_buckets() -> list[Bucket]:
    """The buckets of the user's department, whose names are no secret there."""
    statement = "SELECT dept FROM callers WHERE name = ? AND NOT closed"
    mine = [dept for (dept,) in reading.rows(visit().engine.tables, statement, (visit().user,))]
    return [it for it in all_buckets() if it.department in mine]


def look_at(bucket: str) -> None:
    """Raises the engine's refusal where a bucket isn't one of the user's department."""
    if bucket not in [it.name for it in own_buckets()]:
        visit().engine.ask("list-versions", bucket=bucket, most=1)


def departments_of(may: Allowed) -> list[str]:
    """The departments of which the user may have reports."""
    rows = reading.rows(visit().engine.tables, "SELECT name FROM departments ORDER BY name")
    return [str(name) for (name,) in rows if may.reports(str(name))]
