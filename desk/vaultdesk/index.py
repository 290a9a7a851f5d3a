"""Documents by their facts: an index of a vault's documents, made anew where the vault was changed since.

It is a file in the user's cache, for that user alone, and has what whoever made it could read in the vault. It may be
deleted at any time.
"""

from __future__ import annotations

import hashlib
import json
import os
import tempfile
from collections.abc import Iterator, Mapping
from contextlib import contextmanager
from pathlib import Path

from vaultdesk import cards, noted, reading, snapshot
from vaultdesk.cards import Card
from vaultdesk.engine import Engine
from vaultdesk.errors import EngineError
from vaultdesk.output import say
from vaultdesk.reading import Row
from vaultdesk.texts import folded

FORM = 1  # of the index: one of another form is made anew
FACTS = (*cards.NAMES, "fields")
FOUND = (
    "version", "bucket", "key", "kind", "size", "sha256", "admitted", "admitted_by", "removed", "cause", "cause_by",
)  # fmt: skip
FOLDED = {name: f"{name}_folded" for name in ("key", "title", "class", "sender", "reference", "event")}
COLUMNS = (*FOUND, *FACTS, *FOLDED.values())
MAKE = (
    "CREATE TABLE made(of_state TEXT)",
    "CREATE TABLE documents({})".format(", ".join(f'"{it}"' for it in COLUMNS)),
)

WANTED = """
SELECT * FROM documents
WHERE (:title IS NULL OR instr(title_folded, :title) > 0)
    AND (:sender IS NULL OR instr(sender_folded, :sender) > 0)
    AND (:reference IS NULL OR instr(reference_folded, :reference) > 0)
    AND (:event IS NULL OR instr(event_folded, :event) > 0)
    AND (:kind IS NULL OR class_folded = :kind)
    AND (:dated_since IS NULL OR date >= :dated_since)
    AND (:dated_before IS NULL OR date <> '' AND date < :dated_before)
    AND (:text IS NULL OR instr(key, :text) > 0)
    AND (:folded_text IS NULL OR instr(key_folded, :folded_text) > 0)
    AND (:prefix IS NULL OR substr(key, 1, length(:prefix)) = :prefix)
    AND (:bucket IS NULL OR bucket = :bucket)
    AND (:sha256 IS NULL OR substr(sha256, 1, length(:sha256)) = lower(:sha256))
    AND (:since IS NULL OR admitted >= :since)
    AND (:before IS NULL OR admitted < :before)
    AND (:state IS NULL OR (removed = '') = (:state = 'held'))
ORDER BY version
"""
PARAMETERS = (
    "title", "sender", "reference", "event", "kind", "dated_since", "dated_before", "text", "folded_text", "prefix",
    "bucket", "sha256", "since", "before", "state",
)  # fmt: skip


def place_of(file: Path) -> Path:
    """Where the index of a vault is, in the cache of whoever asks."""
    cache = Path(os.environ.get("XDG_CACHE_HOME") or Path.home() / ".cache")
    return cache / "vaultdesk" / f"{hashlib.sha256(os.fsencode(file.resolve())).hexdigest()[:32]}.facts"


def _state(file: Path) -> str:
    """What changes with each change of a vault: sizes and moments of its two files."""
    found = []
    for path in (file, snapshot.log_of(file)):
        try:
            it = path.stat()
            found.append([it.st_ino, it.st_size, it.st_mtime_ns])
        except FileNotFoundError:
            found.append([])
        except OSError as error:
            raise EngineError(f"{path}: {error.strerror}") from error
    return json.dumps([FORM, *found])


def _row(document: Row, card: Card) -> list[object]:
    known = {name: card.values.get(name, "") for name in cards.NAMES}
    whole = {**document, **known, "fields": json.dumps(card.fields, ensure_ascii=False)}
    return [*(whole[it] for it in (*FOUND, *FACTS)), *(folded(str(whole[it])) for it in FOLDED)]


def _rows(file: Path, known: Mapping[cards.Place, Card]) -> Iterator[list[object]]:
    """A row for each version that has facts; of those that were removed as well."""
    nothing = {"bucket": None, "prefix": None, "text": None, "sha256": None, "since": None, "before": None}
    for it in reading.query(file, "find", state=None, **nothing):
        card = known.get((it["bucket"], it["key"], it["sha256"]))
        if card:
            yield _row(it, card)


def _is_of(index: Path, state: str) -> bool:
    """Whether that is the index of a vault in that state."""
    try:
        return index.is_file() and reading.rows(index, "SELECT of_state FROM made") == [(state,)]
    except EngineError:
        return False


def _make(engine: Engine, index: Path, state: str) -> None:
    rows = _rows(engine.tables, noted.all_cards(engine.tables))
    reading.make(index, MAKE, {"made": [[state]], "documents": rows})


@contextmanager
def of(engine: Engine) -> Iterator[Path]:
    """The index of the engine's vault as it is now, whose rows `reading` has. Where nothing can be written into the
    cache, it is made for this once. `EngineError` where the vault's files can't be read."""
    reading.look_for(engine.desk.file)
    index, state = place_of(engine.desk.file), _state(engine.desk.file)
    if _is_of(index, state):
        yield index
        return
    try:
        index.parent.mkdir(mode=0o700, parents=True, exist_ok=True)
        with tempfile.TemporaryDirectory(dir=index.parent) as scratch:
            new = Path(scratch) / "new"
            _make(engine, new, state)
            new.replace(index)
    except OSError as error:
        say(f"no index is kept: {index.parent}: {error.strerror}")
        with tempfile.TemporaryDirectory() as scratch:
            _make(engine, Path(scratch) / "new", state)
            yield Path(scratch) / "new"
        return
    yield index


def rows(engine: Engine, wanted: Mapping[str, str | None]) -> list[Row]:
    """The documents that have such facts and places, by their numbers; `fields` has those that only the office has.
    What isn't named isn't asked. Errors as of `of`."""
    with of(engine) as index:
        found = reading.rows(index, WANTED, {**dict.fromkeys(PARAMETERS), **wanted})
    named = (dict(zip((*FOUND, *FACTS), it)) for it in found)
    return [{**it, "fields": json.loads(it["fields"])} for it in named]
