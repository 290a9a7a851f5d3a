"""When each part of a vault's night was last done: in `NAME.done` beside `NAME.vault`, a JSON object of moments.

It is for programs that watch machines; nothing is decided by it."""

from __future__ import annotations

import json
import time
from pathlib import Path

from vaultdesk.replacing import write_anew

# Each with what it says.
PARTS = {
    "night": "moment of the last night that was done to its end, since 1970",
    "copy": "moment of the last copy that a night made, since 1970",
    "audit": "moment of the last audit of the whole vault by a night, as its copy, since 1970",
    "seal": "moment at which a night last made a seal, since 1970",
}


def path_of(file: Path) -> Path:
    """Where the moments of a vault are."""
    return file.with_name(f"{file.name.removesuffix('.vault')}.done")


def read(file: Path) -> dict[str, int]:
    """The moments of a vault's parts, in seconds since 1970. A part that was never done isn't among them, and none is
    where nothing can be read."""
    try:
        found = json.loads(path_of(file).read_text(encoding="utf-8"))
    except (OSError, ValueError):
        return {}
    return {it: found[it] for it in PARTS if isinstance(found, dict) and isinstance(found.get(it), int)}


def note(file: Path, *parts: str) -> None:
    """Notes that these parts are done now. `DeskError` where that can't be written."""
    moments = {**read(file), **dict.fromkeys(parts, int(time.time()))}
    write_anew(path_of(file), json.dumps(moments) + "\n", lambda _: None)
