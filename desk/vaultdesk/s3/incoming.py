"""The bytes of a connection as they come: a head and a body have their time as a whole, and not byte by byte."""

from __future__ import annotations

import io
import math
import socket
import time

from vaultdesk.s3.faults import Fault
from vaultdesk.s3.places import Places

LARGEST = 81_920  # bytes of a head, and of what is read along with it


class Incoming(io.RawIOBase):
    """What a client sends. `patience` is the seconds for its next bytes."""

    def __init__(self, connection: socket.socket, host: str, places: Places, patience: float) -> None:
        super().__init__()
        self.connection = connection
        self.host = host
        self.places = places
        self.patience = patience
        self.deadline = math.inf
        self.room = math.inf  # bytes that may come
        self.head = 0.0  # seconds for a whole head
        self.idle: float | None = None  # seconds until it begins, where it is the next of a connection

    def await_head(self, seconds: float, idle: float | None) -> None:
        """A head comes now, in that time; of a connection that had one before, its first byte within `idle` seconds."""
        self.head, self.idle, self.room = seconds, idle, LARGEST
        self.deadline = time.monotonic() + seconds

    def end_head(self) -> None:
        """The head is there."""
        self.deadline = self.room = math.inf

    def await_body(self, seconds: float) -> None:
        """A body comes now, in that time."""
        self.deadline = time.monotonic() + seconds

    def readable(self) -> bool:
        """It is."""
        return True

    def readinto(self, buffer: memoryview, /) -> int:  # type: ignore[override]
        """The next bytes; none at the end. `Fault` where they don't come in their time, or are too many for a head."""
        if self.idle is not None:
            return self._begin_head(buffer)
        count = self._received(buffer, self.deadline - time.monotonic())
        self.room -= count
        if self.room < 0:
            raise Fault("RequestHeaderSectionTooLarge", f"a head has at most {LARGEST:,} bytes")
        return count

    def _received(self, buffer: memoryview, seconds: float) -> int:
        try:
            if seconds <= 0:
                raise TimeoutError
            self._have(min(self.patience, seconds))
            return self.connection.recv_into(buffer)
        except TimeoutError as error:
            raise Fault("RequestTimeout", "the request came too slowly") from error
        finally:
            self._have(self.patience)

    def _have(self, seconds: float) -> None:
        """Has a call of the connection take that long at most; each change is a call of the system."""
        if self.connection.gettimeout() != seconds:
            self.connection.settimeout(seconds)

    def _begin_head(self, buffer: memoryview) -> int:
        """The first bytes of a next head; none where it doesn't come, or another connection has the place by now."""
        idle, self.idle = self.idle or 0, None
        if not self.places.begin_idle(self.connection, self.host):
            return 0
        count = 0
        try:
            count = self._received(buffer, idle)
        except Fault:
            pass
        finally:
            has_place = self.places.end_idle(self.connection)
        self.deadline = time.monotonic() + self.head
        return count if has_place else 0
