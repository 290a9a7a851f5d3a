"""What the rules of buckets will do, tried night by night on a copy of the vault."""

from __future__ import annotations

from collections.abc import Iterator, Sequence
from pathlib import Path
from typing import Any

from vaultdesk import moments, reading
from vaultdesk.engine import Engine
from vaultdesk.errors import Refused
from vaultdesk.trying import copied

Rule = dict[str, Any]
Row = dict[str, Any]
PLACE = ("bucket", "version", "key")
COLUMNS = ("night", "what", *PLACE)


def rules_of(engine: Engine, bucket: str) -> list[Rule]:
    """The lifecycle rules of a bucket, in their order; none where it has none."""
    try:
        return list(engine.ask("get-rules", bucket=bucket)["rules"])
    except Refused as error:
        if error.code != "NoSuchLifecycleConfiguration":
            raise
        return []


def set_rules(engine: Engine, bucket: str, rules: Sequence[Rule]) -> None:
    """Sets the rules of a bucket in place of those that it has; it may be none."""
    if rules:
        engine.ask("set-rules", bucket=bucket, rules=list(rules))
    else:
        engine.ask("drop-rules", bucket=bucket)


class _Bucket:
    """A bucket of the copy, and what it held after the last run."""

    def __init__(self, trial: Engine, name: str) -> None:
        self.trial = trial
        self.name = name
        self.held, self.markers, self.marked = self._now()

    def _now(self) -> tuple[dict[int, str], dict[int, str], set[str]]:
        """The documents and the delete markers by their numbers, newest first within a key; and the keys with a marker
        on top."""
        held, markers, marked = dict[int, str](), dict[int, str](), set[str]()
        for it in self.trial.entries(self.name):
            (markers if it["delete_marker"] else held)[it["version_id"]] = it["key"]
            if it["delete_marker"] and it["current"]:
                marked.add(it["key"])
        return held, markers, marked

    def run(self, night: str) -> Iterator[Row]:
        """Carries out the rules, and gives a row for each document that was marked or removed, and each marker too."""
        if not self.trial.ask("run", bucket=self.name)["changes"]:
            return
        held, markers, marked = self._now()
        newest = {key: version for version, key in reversed(self.held.items())}
        row = {"night": night, "bucket": self.name}
        for key in sorted(marked - self.marked):
            yield {**row, "what": "marked", "version": newest.get(key, ""), "key": key}
        for version, key in self.held.items():
            if version not in held:
                yield {**row, "what": "removed for good", "version": version, "key": key}
        for version, key in self.markers.items():
            if version not in markers:
                yield {**row, "what": "marker removed", "version": version, "key": key}
        self.held, self.markers, self.marked = held, markers, marked


def _kept(file: Path, buckets: Sequence[str], night: str) -> list[Row]:
    """What the rules of these buckets leave after their run of that night, as a retention or a hold guards it."""
    locks = {it["version"]: _lock_text(it) for it in reading.query(file, "held", at=night)}
    return [
        {"night": night, "what": f"stays: {locks[it['version']]}", **{name: it[name] for name in PLACE}}
        for it in reading.unguarded(file, "due", at=night)
        if (it["change"], it["kind"]) == ("removed", "version") and it["bucket"] in buckets
    ]


def _lock_text(held: Row) -> str:
    """What guards a version, by a row of the query `held`."""
    retention = f"{held['retention']} until {held['until']}"
    locks = {retention: held["retention"] in ("GOVERNANCE", "COMPLIANCE"), "legal hold": held["hold"] == "ON"}
    return ", ".join(name for name, is_on in locks.items() if is_on)


def foreseen(
    engine: Engine, buckets: Sequence[str], last: str, more: Sequence[Rule] = ()
) -> tuple[list[Row], list[Row]]:
    """What the rules of these buckets do from now on up to that moment, with more rules where some are given; and what
    they would have removed by then, if nothing guarded it."""
    with copied(engine) as trial:
        trial.at = first = engine.at or moments.now()
        for bucket in buckets if more else ():
            set_rules(trial, bucket, [*rules_of(trial, bucket), *more])
        looked_at = [_Bucket(trial, it) for it in buckets]
        rows: list[Row] = []
        for trial.at in moments.nights(first, last):
            rows += (row for it in looked_at for row in it.run(str(trial.at)))
        return rows, _kept(trial.tables, buckets, str(trial.at))
