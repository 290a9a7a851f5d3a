"""The way to the engine: a line of a caller, and its answer."""

from __future__ import annotations

import csv
import io
import threading
from collections.abc import Iterator
from contextlib import contextmanager, suppress
from dataclasses import dataclass
from typing import Any, Protocol

from vaultdesk import reading
from vaultdesk.engine import Engine
from vaultdesk.errors import EngineError, Refused
from vaultdesk.output import say
from vaultdesk.s3.faults import Fault, of_engine, of_refusal

PATIENCE = 60  # seconds that a request waits for those before it


@dataclass(frozen=True)
class Told:
    """The value of `ok` in the engine's answer, and the reading of its line: `is_certain` where it is just that second.
    """

    value: dict[str, Any]
    at: str
    is_certain: bool = True


class Door(Protocol):
    """What carries lines to a vault."""

    def ask(self, caller: str, do: str, **members: Any) -> Told:
        """What the engine answers to a line of that caller. `Fault` where it refuses, or gives no answer."""

    def buckets(self) -> list[str]:
        """The names of all buckets as they are now, in order. `Fault` where the engine gives no answer."""

    def close(self) -> None:
        """Ends it; the vault is closed where nobody else has it."""


class OwnEngine:
    """A server's engine, or one of the gateway's own: it answers one line after another. An own one that ended is
    started again. `admin` has the right `admin`, and asks a server which buckets there are."""

    def __init__(self, engine: Engine, admin: str = "registrar") -> None:
        self.engine = engine
        self.admin = admin
        self.turn = threading.Lock()
        self.is_closed = False
        self.own: list[str] | None = None  # the buckets of a vault that nobody else can open meanwhile

    def open(self) -> list[str]:
        """Opens the vault now, and not as the first request comes, and returns the names of its buckets.

        `EngineError` where it can't be opened, or its server doesn't say which there are."""
        found = self._names()
        with suppress(Refused):
            self.engine.ask("get-default", "registrar", bucket="none")
        return found

    def ask(self, caller: str, do: str, **members: Any) -> Told:
        """What the engine answers. `Fault` where it refuses, gives no answer, or others take too long."""
        with self._in_turn():
            value = self.engine.ask(do, caller, **members)
            return Told(value, self.engine.last_reading, self.engine.is_certain)

    def buckets(self) -> list[str]:
        """The names of all buckets. `Fault` where the engine gives no answer, or others take too long."""
        with self._in_turn():
            return self._names()

    def close(self) -> None:
        """Closes the vault, after the line that is under way; whoever asks later opens it no more."""
        with self.turn:
            self.is_closed = True
            self.engine.close()

    @contextmanager
    def _in_turn(self) -> Iterator[None]:
        """Has the engine for lines that come one after another. What goes wrong meanwhile is a `Fault`."""
        if not self.turn.acquire(timeout=PATIENCE):
            raise Fault("SlowDown", f"the vault was busy for {PATIENCE} seconds")
        try:
            if self.is_closed:
                raise Fault("SlowDown", "the gateway ends")
            yield
        except Refused as refusal:
            raise of_refusal(refusal) from refusal
        except EngineError as error:
            self.own = None  # an own engine that ended had the vault no more
            say(f"vaultdesk s3: {error}")
            raise of_engine(error) from error
        finally:
            self.turn.release()

    def removed(self) -> Iterator[int]:
        """The numbers of the versions that were removed, some or all; before a vault that the gateway has to itself is
        open. `Fault` or `EngineError` where nobody says which."""
        if not self.engine.is_served:
            there = reading.rows(self.engine.tables, "SELECT id FROM entries WHERE removed IS NOT NULL")
            yield from (int(it) for (it,) in there)
            return
        after: int | None = 0
        while after is not None:
            with self._in_turn():
                part = self.engine.ask("register", self.admin, after=after)
            rows = csv.reader(io.StringIO(part["text"], newline=""))
            yield from (int(row[0]) for row in rows if row[0].isdecimal())  # the first one may be the header
            after = part["next"]

    def _names(self) -> list[str]:
        if self.engine.is_served:
            return list(self._listed())
        if self.own is None:
            rows = reading.rows(self.engine.tables, "SELECT name FROM buckets ORDER BY name")
            self.own = [str(name) for (name,) in rows]
        return self.own

    def _listed(self) -> Iterator[str]:
        """The names that a server has, page after page."""
        more, last = True, None
        while more:
            try:
                found = self.engine.ask("buckets", self.admin, after=last)
            except Refused as refusal:
                raise self._unlisted(refusal) from refusal
            yield from found["buckets"]
            more = found["more"]
            last = found["buckets"][-1] if more else None

    def _unlisted(self, refusal: Refused) -> Refused | EngineError:
        """What is raised where a server doesn't say which buckets there are: of what is set up wrongly, what to do."""
        if refusal.code == "MalformedBody":
            why = "the server is of an earlier version, which doesn't say which buckets there are"
            return EngineError(f"{why}: start it anew, by the program of this version")
        if refusal.code == "AccessDenied":
            return EngineError(f"{self.admin} can't ask which buckets there are: {refusal}: see admin in the settings")
        return refusal
