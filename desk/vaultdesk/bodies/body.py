"""What names the bytes of a document, what a store may have in their place, and what is wrong with them."""

from __future__ import annotations

import re
from collections.abc import Callable, Iterable
from dataclasses import dataclass
from pathlib import Path
from typing import NamedTuple, Protocol

from vaultdesk.errors import DeskError

DIGEST = re.compile(r"[0-9a-f]{64}")
MOST = 5_368_709_120  # bytes of a body: 5 GiB, the most of one put to S3
PIECE = 1_048_576  # bytes that are in memory at once


class Missing(DeskError):
    """A body isn't in the store."""


class Altered(DeskError):
    """What is in a body's place isn't that body."""


@dataclass(frozen=True, order=True)
class Body:
    """The bytes of a document, by their SHA-256 in small hex digits and their number. `ValueError` where the digest
    isn't 64 of these, as it becomes a path, or the number is below 0."""

    digest: str
    size: int

    def __post_init__(self) -> None:
        if not DIGEST.fullmatch(self.digest) or self.size < 0:
            raise ValueError(f"{self.digest!r} of {self.size} bytes names no body")


# Gives the body of each version that is held, as the ledger has it at the moment of the call.
Held = Callable[[], Iterable[Body]]
# Gives the numbers of the versions that had the body of a digest.
Versions = Callable[[str], Iterable[int]]


@dataclass(frozen=True)
class Found:
    """What a store has: its name there; the digest, where the name is a body's; and the size, where it is a file."""

    name: str
    digest: str | None
    size: int | None

    @property
    def body(self) -> Body | None:
        """The body that it may be, by its name and size."""
        return Body(self.digest, self.size) if self.digest is not None and self.size is not None else None


class Source(Protocol):
    """Where bytes come from."""

    def read(self, most: int, /) -> bytes | None:
        """The next bytes, no more than that; no byte at the end."""


class Places(NamedTuple):
    """Where the bodies of a vault are, and the records that are kept of them."""

    store: Path
    erased: Path
    fixity: Path


def places_of(vault: Path) -> Places:
    """The places beside a vault: `records.bodies`, `.erased` and `.fixity` beside `records.vault`."""
    name = vault.name.removesuffix(".vault")
    return Places(*(vault.with_name(f"{name}.{it}") for it in ("bodies", "erased", "fixity")))
