"""Who is logged in: a session is known by a cookie that is drawn at random, and kept in memory alone. So all of them
end with the server, and a copy of the disk lets nobody in."""

from __future__ import annotations

import hashlib
import secrets
import threading
import time
from collections.abc import Callable
from dataclasses import dataclass, field
from typing import Any

IDLE = 1_800.0  # seconds without a request after which a session ends
WHOLE = 36_000.0  # and after which it ends in any case
MOST = 10_000  # sessions; the one that was idle longest ends for one more


@dataclass
class Session:
    """A user who is logged in. `digest` is that of the password then, `token` stands in each form, `notes` are for the
    next page, and `kept` is what a user's several steps are about, by a name that is drawn for it."""

    user: str
    digest: str
    begun: float
    seen: float
    token: str = field(default_factory=lambda: secrets.token_urlsafe(32))
    notes: list[str] = field(default_factory=list)
    kept: dict[str, Any] = field(default_factory=dict)

    def end(self) -> None:
        """Lets go of what is kept."""
        for it in self.kept.values():
            it.end()
        self.kept.clear()


def _name_of(cookie: str) -> str:
    """What a session is kept by: who reads the memory doesn't get cookies by that."""
    return hashlib.sha256(cookie.encode()).hexdigest()


class Sessions:
    """The sessions that haven't ended."""

    def __init__(self, clock: Callable[[], float] = time.monotonic) -> None:
        self._clock = clock
        self._turn = threading.Lock()
        self._there: dict[str, Session] = {}

    def begin(self, user: str, digest: str) -> tuple[str, Session]:
        """A new session, and its cookie."""
        cookie, now = secrets.token_urlsafe(32), self._clock()
        made = Session(user, digest, now, now)
        with self._turn:
            self._drop_old()
            self._there[_name_of(cookie)] = made
        return cookie, made

    def find(self, cookie: str) -> Session | None:
        """The session of a cookie, which goes on by that; none where it has ended, or there never was one."""
        name, now = _name_of(cookie), self._clock()
        with self._turn:
            self._drop_old()
            found = self._there.get(name)
            if found is not None and now - found.begun >= WHOLE:
                self._drop(name)
                return None
            if found is not None:
                found.seen = now
                self._there[name] = self._there.pop(name)  # the last one is the one that was seen last
            return found

    def end(self, cookie: str) -> None:
        """Ends a session."""
        with self._turn:
            self._drop(_name_of(cookie))

    def end_all(self) -> None:
        """Ends all of them."""
        with self._turn:
            for name in list(self._there):
                self._drop(name)

    def _drop(self, name: str) -> None:
        found = self._there.pop(name, None)
        if found is not None:
            found.end()

    def _drop_old(self) -> None:
        """Drops those that were idle too long, and the one that was idle longest where there are too many."""
        now = self._clock()
        while self._there:
            name, oldest = next(iter(self._there.items()))
            if now - oldest.seen < IDLE and len(self._there) < MOST:
                return
            self._drop(name)
