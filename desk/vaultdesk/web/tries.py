"""How often one may try a password within some minutes: by the user's name, by the address, and by both together."""

from __future__ import annotations

import threading
import time
from collections.abc import Callable, Iterator

SPAN = 300.0  # seconds for which a wrong try counts
OF_BOTH, OF_ADDRESS, OF_NAME = 5, 30, 50  # wrong tries after which one waits
MOST = 10_000  # names and addresses that are remembered
Key = tuple[str, str]


class Tries:
    """The wrong tries of the last minutes."""

    def __init__(self, clock: Callable[[], float] = time.monotonic) -> None:
        self._clock = clock
        self._turn = threading.Lock()
        self._wrong: dict[Key, list[float]] = {}

    @staticmethod
    def _keys(name: str, address: str) -> Iterator[tuple[Key, int]]:
        yield (name, address), OF_BOTH
        yield ("", address), OF_ADDRESS
        yield (name, ""), OF_NAME

    def wait(self, name: str, address: str) -> float:
        """Seconds until the next try is looked at; 0 where it is now."""
        now = self._clock()
        with self._turn:
            return max(0.0, *(self._until(key, most) - now for key, most in self._keys(name, address)))

    def _until(self, key: Key, most: int) -> float:
        recent = [it for it in self._wrong.get(key, ()) if it > self._clock() - SPAN]
        return recent[-most] + SPAN if len(recent) >= most else 0.0

    def was_wrong(self, name: str, address: str) -> None:
        """Notes a wrong try."""
        now = self._clock()
        with self._turn:
            for key, most in self._keys(name, address):
                self._wrong[key] = [*self._wrong.pop(key, [])[1 - most:], now]
            while len(self._wrong) > MOST:
                del self._wrong[next(iter(self._wrong))]

    def was_right(self, name: str, address: str) -> None:
        """Forgets the wrong tries of a user from there."""
        with self._turn:
            self._wrong.pop((name, address), None)
