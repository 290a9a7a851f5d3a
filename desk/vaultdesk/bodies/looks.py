"""Looks at a store by its ledger: which bodies are spare, and swept; which are missing, or aren't what they were."""

from __future__ import annotations

from collections.abc import Iterable, Iterator
from dataclasses import dataclass
from pathlib import Path

from vaultdesk import moments
from vaultdesk.bodies import records
from vaultdesk.bodies.body import Altered, Body, Held, Missing, Versions
from vaultdesk.bodies.records import Look
from vaultdesk.bodies.store import Bodies, Erasure
from vaultdesk.errors import DeskError
from vaultdesk.output import counted_off

FIRST = 8  # hex digits by which bodies are divided into slices


@dataclass(frozen=True)
class Part:
    """A slice N of M of all bodies, by their digests: so each is in one of the M, whatever comes and goes."""

    number: int
    of: int

    def has(self, digest: str) -> bool:
        """Whether the body of a digest is in it."""
        return int(digest[:FIRST], 16) % self.of == self.number - 1

    @classmethod
    def read(cls, text: str) -> Part:
        """The part that is written as N/M. `DeskError` where it isn't one."""
        number, slash, of = text.partition("/")
        if not (slash and number.isdecimal() and of.isdecimal() and 1 <= int(number) <= int(of)):
            raise DeskError(f"{text!r} is no slice: write 3/30 for the third of thirty")
        return cls(int(number), int(of))


ALL = Part(1, 1)


@dataclass(frozen=True)
class Result:
    """What came of a look: its record; the bodies that are missing or altered, each with why; and the names of what no
    held version names."""

    look: Look
    missing: dict[Body, str]
    altered: dict[Body, str]
    spare: list[str]

    @property
    def is_sound(self) -> bool:
        """Whether each body of a held version is there, as far as was looked."""
        return not self.missing and not self.altered


@dataclass
class _Found:
    """What was found until now, of the bodies that are looked at."""

    missing: dict[Body, str]
    altered: dict[Body, str]

    def note(self, body: Body, wrong: DeskError) -> None:
        """Notes what is wrong with a body."""
        (self.missing if isinstance(wrong, Missing) else self.altered)[body] = str(wrong)

    def still(self, held: Iterable[Body]) -> None:
        """Leaves out what no version has that is held now: it was erased meanwhile."""
        named = set(held)
        for kind in (self.missing, self.altered):
            for it in set(kind) - named:
                del kind[it]


def _by_names(bodies: Bodies, held: Held, part: Part) -> tuple[set[Body], _Found, list[str]]:
    """The held bodies of a part, what is wrong by name and size, and what is spare. Nothing is erased meanwhile; what
    is being added, and isn't named yet, is spare."""
    found = _Found({}, {})
    with bodies.lock.shared():
        named = {it for it in held() if part.has(it.digest)}
        there = [it for it in bodies.walk() if it.digest is None or part.has(it.digest)]
        whole = {it.body for it in there}
        for it in named - whole:
            try:
                if not bodies.has(it):
                    raise Missing(f"body {it.digest}: it isn't in the store")
            except (Missing, Altered) as wrong:
                found.note(it, wrong)
        digests = {it.digest for it in named}
        spare = [it for it in there if it.digest not in digests]
    if spare:
        digests = {it.digest for it in held()}  # those that were named since
    return named, found, sorted(it.name for it in spare if it.digest not in digests)


def _read(bodies: Bodies, named: Iterable[Body], found: _Found) -> None:
    """Reads these bodies, and notes those that aren't what they were."""
    for it in counted_off(sorted(named), "bodies were read"):
        try:
            with bodies.open(it) as reader:
                reader.look()
        except (Missing, Altered) as wrong:
            found.note(it, wrong)


def check(bodies: Bodies, held: Held, fixity: Path, part: Part | None = None) -> Result:
    """Compares the store with the ledger, and appends what came of it to the record `fixity`: all bodies by name and
    size, or those of a part with all their bytes. What goes away meanwhile, as its version does, isn't missing.

    `DeskError` where the store or the ledger can't be read, or the record can't be written."""
    how = "names" if part is None else "digests" if part == ALL else f"slice {part.number}/{part.of}"
    named, found, spare = _by_names(bodies, held, part or ALL)
    if part is not None:
        _read(bodies, named - found.missing.keys() - found.altered.keys(), found)
    if found.missing or found.altered:
        found.still(held())
    look = Look(moments.now(), how, len(named), len(found.missing), len(found.altered), len(spare))
    records.append(fixity, [look])
    return Result(look, found.missing, found.altered, spare)


def _spare(bodies: Bodies, held: Held) -> Iterator[Body]:
    """The bodies that no held version names. `DeskError` where all are, and the ledger names others."""
    named = {it.digest for it in held()}
    there = [it.body for it in bodies.walk() if it.body]
    if there and named and not any(it.digest in named for it in there):
        raise DeskError("no held version has its body here: is this the store of another vault? Nothing was erased")
    yield from (it for it in there if it.digest not in named)


def sweep(bodies: Bodies, held: Held, versions: Versions) -> Erasure:
    """Erases the bodies that no held version names, and what came in and wasn't changed for seven days.

    `held` is called while nobody adds, so a body that somebody is about to name stays. `DeskError` where it or an
    erasing fails."""

    def choose() -> Iterator[Body]:
        yield from _spare(bodies, held)
        bodies.set_old_aside()

    return bodies.erase(choose, versions)
