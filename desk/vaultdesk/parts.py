"""What a server answers in parts, beside its other work: the register, a seal, and whether the rules were kept.

It takes a caller with the right admin, and neither the vault's file nor a copy of it. Each part is of 1,000 entries and
one turn of the server, so nobody waits for a whole text.
"""

from __future__ import annotations

import csv
import io
from collections.abc import Iterator, Mapping
from typing import Any

from vaultdesk import recheck, status
from vaultdesk.engine import Engine
from vaultdesk.errors import EngineError


def _parts(engine: Engine, do: str, **members: Any) -> Iterator[Mapping[str, Any]]:
    """The parts that a server answers, one after another. The faults are those of `status.asked`."""
    after: int | None = 0
    while after is not None:
        found = status.asked(engine, do, after=after, **members)
        yield found
        after = found["next"]


def register(engine: Engine) -> str:
    """The text of the register. Of what is removed before the last part came it has some, else all."""
    return "".join(it["text"] for it in _parts(engine, "register"))


def seal(engine: Engine, before: str | None) -> recheck.events.Seal:
    """The seal of a moment, or of the vault's last change: the digest of the parts of the events.

    `Refused` where the vault hasn't reached that moment, `EngineError` where the text doesn't begin with its header."""
    moment = before or status.state(engine)["last"]
    sealing = recheck.events.Sealing(recheck.vault.moment_of(moment))  # which begins with the header
    header = recheck.events.HEADER
    for it in _parts(engine, "events", before=moment):
        if not it["text"].startswith(header):
            raise EngineError("the server's events have other columns than a seal is made of")
        text = it["text"].removeprefix(header)
        header = ""
        happened = [row[1] for row in csv.reader(io.StringIO(text, newline=""))]
        sealing.add(happened.count("admitted"), len(happened), text.encode())
    return sealing.seal()


def breach(engine: Engine) -> Mapping[str, Any] | None:
    """The first entry that breaks a rule, and which; none where no part has one. That the records of one move agree is
    looked at within each part, and not between two."""
    found = (it["breach"] for it in _parts(engine, "lawful"))
    return next((it for it in found if it is not None), None)
