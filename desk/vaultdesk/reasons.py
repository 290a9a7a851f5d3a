"""Why versions were removed, where somebody says so as they are: documents of the office under COMPLIANCE."""

from __future__ import annotations

import argparse
import json
from collections.abc import Mapping, Sequence
from dataclasses import dataclass
from typing import Any

from vaultdesk import book, moments
from vaultdesk.engine import Engine
from vaultdesk.errors import UsageError

FOLDER = "removals/"
MOST = 1_000  # versions in one of these documents


@dataclass(frozen=True)
class Noting:
    """What is to be noted of a removal, and in which bucket."""

    bucket: str
    reason: str
    authority: str


def begun(engine: Engine, words: argparse.Namespace) -> Noting | None:
    """What the words give as a reason; none where they give none. `DeskError` where it couldn't be noted."""
    if not words.reason:
        if words.authority:
            raise UsageError("--authority goes with --reason TEXT: nothing was changed")
        return None
    return Noting(book.bucket_of(engine), words.reason, words.authority or "")


def note(engine: Engine, noting: Noting, rows: Sequence[Mapping[str, Any]]) -> None:
    """Notes why these versions were removed. `Refused` where that isn't allowed: what was removed is removed."""
    at = engine.at or moments.now()
    for start in range(0, len(rows), MOST):
        part = rows[start:start + MOST]
        documents = [{name: it[name] for name in ("version", "bucket", "key")} for it in part]
        given = {"reason": noting.reason, "authority": noting.authority, "documents": documents}
        key = f"{FOLDER}{at}-{documents[0]['version']}.json"
        book.put(engine, noting.bucket, key, json.dumps(given, ensure_ascii=False).encode(), **book.locked(engine))
