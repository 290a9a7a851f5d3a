"""Puts that are sent again: what tells one put from another, so that the engine admits each once.

A put goes to the engine as line 1 of an intake batch of its own. The batch is named after what makes the put one: the
id that AWS's SDKs give it, or else the signature of its request and the digest of its content. A client without ids
that signs anew what it sends again gives no such sign. So a put whose answer didn't reach the client is noted, and the
next one that is the same in all takes its name over. Notes are in memory, and in a folder too where one is named, a
file for each: so they outlast the gateway.
"""

from __future__ import annotations

import hashlib
import json
import os
import re
import secrets
import threading
import time
from collections.abc import Callable, Mapping
from dataclasses import dataclass
from pathlib import Path
from typing import Any

from vaultdesk.errors import DeskError
from vaultdesk.output import say
from vaultdesk.s3.faults import Fault
from vaultdesk.s3.signature import SKEW

MEMORY = 900  # seconds for which a put without an answer is noted
MOST = 10_000  # puts that are noted at once; of more, the oldest are forgotten
MOST_SEEN = 100_000  # signatures that are noted at once
NAME = re.compile("s3-[0-9a-f]{40}")
WHAT = re.compile("[0-9a-f]{64}")


def _digest(*parts: str) -> str:
    return hashlib.sha256(json.dumps(parts).encode()).hexdigest()


def name_of(*parts: str) -> str:
    """The name of the batch that has these signs of a put, or a new one where there are none."""
    return f"s3-{_digest(*parts)[:40] if parts else secrets.token_hex(20)}"


def what_of(caller: str, members: Mapping[str, Any]) -> str:
    """A digest of who puts what, where, and with which locks. The members of its line have the content's digest."""
    return _digest(caller, json.dumps(members, sort_keys=True))


def _always() -> bool:
    return True


@dataclass
class Put:
    """A put that isn't known to be answered: its batch, what it puts, since when, and whether its answer is lost.

    `is_own` is whether the batch is that of its request, `is_taken_over` whether another request goes on with it."""

    name: str
    what: str
    moment: float
    is_lost: Callable[[], bool] = _always
    is_own: bool = True
    is_taken_over: bool = False


class Unanswered:
    """Puts that are under way, and those whose answers were lost."""

    def __init__(self, folder: Path | None) -> None:
        self.folder = folder
        self.turn = threading.Lock()
        self.puts: dict[str, Put] = {}
        self.seen: dict[str, tuple[str | None, float]] = {}
        self.names: dict[str, str] = {}  # batches of requests that went on with another's put, by their signatures
        if folder:
            try:
                folder.mkdir(mode=0o700, exist_ok=True)
                for it in sorted(folder.iterdir(), key=lambda it: it.stat().st_mtime):
                    self._read(it)
            except OSError as error:
                raise DeskError(f"{folder}: {error.strerror}") from error

    def _read(self, path: Path) -> None:
        """Takes over what an earlier gateway noted; what isn't a note of this form stays, and is read past."""
        if not NAME.fullmatch(path.name):
            return
        what, moment = path.read_text(encoding="ascii", errors="replace").strip(), path.stat().st_mtime
        if WHAT.fullmatch(what) and abs(time.time() - moment) <= MEMORY:
            self.puts[path.name] = Put(path.name, what, moment)
        else:
            path.unlink()

    def look(self, signature: str | None, invocation: str | None) -> None:
        """`Fault` where a request of that signature came with another id: SDKs don't sign it, so that somebody on the
        way could have changed it to have the put made once more."""
        now = time.time()
        with self.turn:
            while self.seen:
                oldest = next(iter(self.seen))
                if abs(now - self.seen[oldest][1]) <= 2 * SKEW and len(self.seen) < MOST_SEEN:
                    break
                del self.seen[oldest]
                self.names.pop(oldest, None)
            if signature and self.seen.setdefault(signature, (invocation, now))[0] != invocation:
                raise Fault("AccessDenied", "this request came before, with another amz-sdk-invocation-id")

    def begin(self, what: str, name: str, signature: str | None, is_lost: Callable[[], bool]) -> Put:
        """Notes a put that begins. It has the name of one whose answer was lost, if that is the same in all."""
        now = time.time()
        with self.turn:
            self._forget(now)
            name = self.names.get(signature or "", name)
            lost = next((it for it in self.puts.values() if it.what == what and it.is_lost()), None)
            put = Put(lost.name if lost else name, what, now, is_lost)
            put.is_own = put.name == name
            if lost:
                lost.is_taken_over = True
            self._keep(put)
        return put

    def name(self, put: Put, signature: str | None) -> None:
        """Notes of a request that went on with another's put which that is, for when it comes once more."""
        if signature and not put.is_own:
            with self.turn:
                self.names[signature] = put.name

    def lose(self, put: Put) -> None:
        """Notes that the answer to a put didn't arrive, or doesn't say whether it was made."""
        with self.turn:
            if not put.is_taken_over:
                self._keep(Put(put.name, put.what, time.time()))

    def end(self, put: Put) -> None:
        """Forgets a put: it was answered, or surely wasn't made."""
        with self.turn:
            if self.puts.get(put.name) is put:
                self._drop(put.name)

    def _forget(self, now: float) -> None:
        """Forgets puts that were lost too long ago, and the oldest of too many."""
        for it in list(self.puts.values()):
            if abs(now - it.moment) <= MEMORY and len(self.puts) < MOST:
                return
            if len(self.puts) >= MOST or it.is_lost():
                self._drop(it.name)

    def _keep(self, put: Put) -> None:
        """Notes a put as the latest of all."""
        self.puts.pop(put.name, None)
        self.puts[put.name] = put
        if self.folder:
            try:
                note = os.open(f"{self.folder}/{put.name}", os.O_WRONLY | os.O_CREAT | os.O_TRUNC, 0o600)
                try:
                    os.write(note, f"{put.what}\n".encode("ascii"))
                finally:
                    os.close(note)
            except OSError as error:
                self._give_up(error)

    def _drop(self, name: str) -> None:
        del self.puts[name]
        if self.folder:
            try:
                os.unlink(f"{self.folder}/{name}")
            except FileNotFoundError:
                pass
            except OSError as error:
                self._give_up(error)

    def _give_up(self, error: OSError) -> None:
        say(f"vaultdesk s3: {self.folder}: {error.strerror}: puts without an answer are noted in memory alone")
        self.folder = None


@dataclass
class Client:
    """Who waits for the answer to a request: whether the answer is lost, and the put that is answered, if one is."""

    is_lost: Callable[[], bool] = _always
    put: Put | None = None
