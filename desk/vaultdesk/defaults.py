"""A bucket's default retention, and what is said where a version is guarded otherwise, or by nothing."""

from __future__ import annotations

from collections.abc import Mapping
from typing import Any

from vaultdesk import reading
from vaultdesk.engine import Engine
from vaultdesk.errors import DeskError, Refused
from vaultdesk.limits import Period

MODES = ("", "GOVERNANCE", "COMPLIANCE")  # as the tables have them
NO_CHANGE = "nobody removes it or shortens it before its end"
REMEDY = "if that was meant, give vaultdesk retain --mode COMPLIANCE"


def default_text(found: Mapping[str, Any] | None) -> str:
    """A default retention as `COMPLIANCE for 10 years`, or `none`."""
    if not found:
        return "none"
    unit = "year" if "years" in found else "day"
    return f"{found['mode']} for {Period(int(found[f'{unit}s']), unit)}"


def default_of(engine: Engine, bucket: str) -> Mapping[str, Any] | None:
    """A bucket's default retention; none where it has none. `DeskError` where the caller may not ask for it, and a
    server has the vault: else it is read from the tables."""
    try:
        found: Mapping[str, Any] | None = engine.ask("get-default", bucket=bucket)["default"]
        return found
    except Refused as error:
        if error.code != "AccessDenied" or engine.is_served:
            raise
    rows = reading.rows(engine.tables, "SELECT mode, days, years FROM buckets WHERE name = ?", (bucket,))
    found_rows = [{"mode": MODES[mode], "days": days, "years": years} for mode, days, years in rows if mode]
    return {name: it for name, it in found_rows[0].items() if it is not None} if found_rows else None


def mode_note(engine: Engine, bucket: str, mode: str) -> str:
    """What is said where a retention has another mode than its bucket's default; empty where it hasn't, or the bucket
    has no default, or the caller can't know it."""
    try:
        found = default_of(engine, bucket)
    except DeskError:
        return ""
    if not found or found["mode"] == mode:
        return ""
    what = NO_CHANGE if mode == "COMPLIANCE" else REMEDY
    return f"the mode is {mode}, and the default of {bucket} is {default_text(found)}: {what}"


def guard_note(engine: Engine, bucket: str, key: str, version: int) -> str:
    """What is said of a version that was put without an end and a hold, where the bucket gave it no retention."""
    try:
        retention = engine.ask("head", bucket=bucket, key=key, id=version)["retention"]
    except DeskError as error:
        return f"what guards version {version} isn't known: {error}"
    if retention:
        return ""
    remedy = "set an end by vaultdesk retain, or a default by vaultdesk default"
    return f"nothing guards version {version}, as {bucket} has no default retention: {remedy}"
