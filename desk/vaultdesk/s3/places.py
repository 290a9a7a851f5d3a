"""Who is served at once, and who waits: no address has all places, so none can keep the others out."""

from __future__ import annotations

import contextlib
import socket
import threading
import time
from collections import Counter
from dataclasses import dataclass, field

CONNECTIONS = 128  # served at once
OF_ONE = 32  # of one address
WAITING = 256  # that wait for a place
WAITING_OF_ONE = 96  # of one address
LONGEST = 10  # seconds for which one waits


@dataclass(eq=False)
class Guest:
    """A connection, the address that it is from, and since when it is there."""

    connection: socket.socket
    address: tuple[str, int]
    since: float = field(default_factory=time.monotonic)

    @property
    def host(self) -> str:
        """The address without its port."""
        return self.address[0]


class Places:
    """The connections that are served, by address, and those that wait for one of them to end, in their order."""

    def __init__(self) -> None:
        self.turn = threading.Lock()
        self.served: Counter[str] = Counter()
        self.waiting: list[Guest] = []
        self.idle: dict[socket.socket, str] = {}  # served, and between two requests

    def _has_room(self, host: str) -> bool:
        return self.served[host] < OF_ONE and self.served.total() < CONNECTIONS

    def take(self, guest: Guest) -> bool:
        """Gives it a place, if there is one."""
        with self.turn:
            has_room = self._has_room(guest.host)
            if has_room:
                self.served[guest.host] += 1
        return has_room

    def wait(self, guest: Guest) -> bool:
        """Has it wait for a place, if not too many do. One that is between two requests makes room for it."""
        with self.turn:
            of_one = sum(it.host == guest.host for it in self.waiting)
            if len(self.waiting) >= WAITING or of_one >= WAITING_OF_ONE:
                return False
            self.waiting.append(guest)
            found = next((it for it, host in self.idle.items() if self._is_wanted(host)), None)
            if found:
                del self.idle[found]
                with contextlib.suppress(OSError):
                    socket.socket.shutdown(found, socket.SHUT_RD)  # that of TLS would end more than the reading
        return True

    def leave(self, host: str) -> Guest | None:
        """Takes back a place of that address, and returns who has it next, if somebody waits for it."""
        with self.turn:
            self.served[host] -= 1
            if not self.served[host]:
                del self.served[host]
            found = next((it for it in self.waiting if self._has_room(it.host)), None)
            if found:
                self.waiting.remove(found)
                self.served[found.host] += 1
        return found

    def late(self, seconds: float = LONGEST) -> list[Guest]:
        """Those who have waited longer than that, and do so no more."""
        with self.turn:
            now = time.monotonic()
            found = [it for it in self.waiting if now - it.since >= seconds]
            self.waiting = [it for it in self.waiting if it not in found]
        return found

    def _is_wanted(self, host: str) -> bool:
        return any(it.host == host or self.served[it.host] < OF_ONE for it in self.waiting)

    def is_wanted(self, host: str) -> bool:
        """Whether somebody waits for a place of that address."""
        with self.turn:
            return self._is_wanted(host)

    def begin_idle(self, connection: socket.socket, host: str) -> bool:
        """Notes that a connection is between two requests; not where somebody waits for its place."""
        with self.turn:
            if self._is_wanted(host):
                return False
            self.idle[connection] = host
        return True

    def end_idle(self, connection: socket.socket) -> bool:
        """Notes that a next request comes, and returns whether the connection has its place still."""
        with self.turn:
            return self.idle.pop(connection, None) is not None
