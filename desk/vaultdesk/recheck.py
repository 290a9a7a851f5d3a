"""The second opinion: vault-recheck's own code, which shares none with the program that writes the vault."""

from __future__ import annotations

import sqlite3
import sys
from collections.abc import Iterator
from contextlib import contextmanager
from pathlib import Path

from vaultdesk import beside
from vaultdesk.errors import DeskError, EngineError

sys.path.append(str(beside.place_of("vault_recheck").parent))

from vault_recheck import coherent, compare, events, lawful, vault  # noqa: E402
from vault_recheck.audit import audit  # noqa: E402

__all__ = ["WHO", "audited", "coherent", "compare", "events", "lawful", "vault"]

WHO = "vault-recheck, which shares no code with the program that writes the vault"


@contextmanager
def audited(file: Path) -> Iterator[sqlite3.Connection]:
    """The file for reading alone, where its tables fit together. `DeskError` where they don't, or it can't be read."""
    try:
        with vault.opened(str(file)) as base:
            audit(base)
            yield base
    except vault.Damaged as damage:
        if "locked" in damage.why:
            raise EngineError(f"{file}: a server or another program has the vault: see vaultdesk offline") from damage
        raise DeskError(f"{file}: damaged {damage.table}: {damage.why}: put the last sound copy back") from damage
    except sqlite3.Error as error:
        raise EngineError(f"{file}: {error}") from error
