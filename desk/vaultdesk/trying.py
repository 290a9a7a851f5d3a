"""A copy of a vault as it is now, on which the engine is asked for changes: it says what it would do, and what it would
refuse and why, by its own rules and words, and nothing of the vault is changed."""

from __future__ import annotations

import contextlib
import tempfile
from collections.abc import Iterator
from dataclasses import dataclass, replace
from pathlib import Path
from typing import Any

from vaultdesk import snapshot
from vaultdesk.engine import Engine
from vaultdesk.errors import EngineError
from vaultdesk.output import say

UNKNOWN = "which would be refused isn't known"


@contextlib.contextmanager
def copied(engine: Engine) -> Iterator[Engine]:
    """The engine over a copy of its vault, which goes with the `with` block.

    The copy may be asked of any moment from the vault's last change on, also of one that is to come. `EngineError`
    where the vault's files can't be read, or the copy can't be written."""
    engine.close()
    with tempfile.TemporaryDirectory() as folder:
        copy = Path(folder) / engine.desk.file.name
        snapshot.copy(engine.desk.file, copy)
        with Engine(replace(engine.desk, vault=copy, door=None), engine.at, is_copy=True) as trial:
            yield trial


@dataclass(frozen=True)
class Work:
    """The engine that a subcommand asks: over the vault, or in a dry run over a copy; `is_asked` is whether it is asked
    for changes."""

    engine: Engine
    is_dry: bool
    is_asked: bool = True

    def change(self, do: str, /, **members: Any) -> dict[str, Any]:
        """The engine's reply to a change; nothing where it is asked for none. `Refused` as of `ask`."""
        return self.engine.ask(do, **members) if self.is_asked else {}

    def text(self, change: str) -> str:
        """What a change came to, in words."""
        return f"would be: {change}" if self.is_dry else change


@contextlib.contextmanager
def work(engine: Engine, is_dry: bool) -> Iterator[Work]:
    """What a subcommand works on. A dry run is one on a copy; where a server has the vault, and its files can't be
    read, it only looks at each version, and says so. `EngineError` as of `copied`."""
    with contextlib.ExitStack() as stack:
        found = Work(engine, is_dry)
        try:
            if is_dry:
                found = Work(stack.enter_context(copied(engine)), is_dry)
        except EngineError as error:
            if not engine.is_served:
                raise
            say(f"{UNKNOWN}: {error}")
            found = Work(engine, is_dry, is_asked=False)
        yield found
