"""The door of a server that takes lines: a Unix socket, or a port of 127.0.0.1.

Each line has a connection of its own, so that others come in between. Its reading is the server's, of the machine's
clock. A door is named (--door, $VAULT_DOOR, the settings) or at a usual place: /run/vaultctl/NAME/lines for a vault
with units, and `NAME.lines` beside `NAME.vault`.
"""

from __future__ import annotations

import json
import os
import select
import socket
import struct
import time
from collections.abc import Iterator, Mapping
from contextlib import contextmanager
from pathlib import Path
from typing import Any

from vaultdesk import conf, moments
from vaultdesk.config import Desk
from vaultdesk.errors import DeskError, EngineError
from vaultdesk.refusals import refused
from vaultdesk.ways import Answer, Line, text_of

PATIENCE = 300.0  # seconds for the reply: a long run may be under way
LOOK = 5.0  # seconds in which a server takes a connection
PIECE = 65_536
LONGEST = 107  # bytes of the path of a socket
UNKNOWN = "what was asked may have been done: look before it is given again"


class LinesDoor:
    """A server's door for lines, and for how many seconds a reply is waited for."""

    def __init__(self, where: str, patience: float | None = None) -> None:
        self.where = where
        self.patience = patience or PATIENCE

    def answer(self, line: Line, at: str | None) -> Answer:
        """What the server answers; its reading is certain where the clock shows one second before and after.

        `EngineError` where no reply comes, or a moment is given."""
        if at is not None:
            raise EngineError(f"{self.where}: a server reads the machine's clock, and takes no moment")
        before = moments.now()
        with self._connected(self.patience) as connection:
            reply = self._exchange(connection, line)
        after = moments.now()
        return Answer(reply, after, before == after)

    def ask(self, caller: str, do: str, **members: Any) -> Mapping[str, Any]:
        """What the server answers to a line that isn't a command. `Refused` where it refuses that, `EngineError` where
        no reply comes, `DeskError` where the server is of an earlier version."""
        line = {"as": caller, "do": do, **members}
        reply = self.answer(line, None).reply
        if "ok" in reply:
            return dict(reply["ok"])
        if reply["error"]["code"] == "MalformedBody":
            raise DeskError(f"the server is of an earlier version, which doesn't answer `{do}`")
        raise refused(reply["error"], line)

    def close(self) -> None:
        """Nothing is open between two lines."""

    def end(self, caller: str) -> Answer:
        """Has the server end, and waits until its process has: then the log is in the file.

        At a port it isn't known which process that is, so there the reply is all that is waited for. `EngineError`
        where no reply comes, or the process goes on."""
        before = moments.now()
        with self._connected(self.patience) as connection, _watched(connection) as process:
            reply = self._exchange(connection, {"as": caller, "do": "close"})
            if "ok" in reply and process is not None and not _has_ended(process, self.patience):
                raise EngineError(f"{self.where}: the server answered, and hasn't ended in {self.patience:.0f} seconds")
        return Answer(reply, before, is_certain=False)

    def is_there(self) -> bool:
        """Whether a server takes lines there. `EngineError` where one may not come."""
        try:
            with self._connected(LOOK):
                return True
        except _Nobody:
            return False

    def process(self) -> int | None:
        """The process that listens there; none where that isn't known, as at a port. `EngineError` where nobody
        does, or one may not come."""
        with self._connected(LOOK) as connection:
            return _process_of(connection)

    def _exchange(self, connection: socket.socket, line: Line) -> Line:
        """The reply to a line, after which the connection is done."""
        found = bytearray()
        try:
            connection.sendall(text_of(line).encode() + b"\n")
            connection.shutdown(socket.SHUT_WR)
            while not found.endswith(b"\n"):
                piece = connection.recv(PIECE)
                if not piece:
                    raise EngineError(f"{self.where}: the server gave no answer: {UNKNOWN}")
                found += piece
        except TimeoutError as error:
            raise EngineError(f"{self.where}: no answer within {self.patience:.0f} seconds: {UNKNOWN}") from error
        except OSError as error:
            raise EngineError(f"{self.where}: {error.strerror}: {UNKNOWN}") from error
        try:
            reply: Line = json.loads(found)
        except ValueError as error:
            raise EngineError(f"{self.where}: what answers there is no server of a vault") from error
        return reply

    def _connected(self, patience: float) -> socket.socket:
        """A connection. `_Nobody` where no server takes lines there, `EngineError` where one may not come."""
        is_port = self.where.isdecimal()
        place: tuple[str, int] | str = ("127.0.0.1", int(self.where)) if is_port else self.where
        connection = socket.socket(socket.AF_INET if is_port else socket.AF_UNIX)
        try:
            connection.settimeout(patience)
            until = time.monotonic() + patience
            while (error := _failed(connection, place)) is not None:
                self._look_at_failure(error, is_late=time.monotonic() >= until)
                time.sleep(0.05)  # as many as may wait there do
        except BaseException:
            connection.close()
            raise
        return connection

    def _look_at_failure(self, error: OSError, is_late: bool) -> None:
        """Raises where a connection that failed isn't tried again."""
        if isinstance(error, (FileNotFoundError, ConnectionRefusedError, NotADirectoryError)):
            why = "no server takes lines there: start it, or give another place by --door"
            raise _Nobody(f"{self.where}: {why}") from error
        if isinstance(error, PermissionError):
            cause = "only the vault's owner, and who is of the folder's group, may ask there"
            raise EngineError(f"{self.where}: {error.strerror}: {cause}") from error
        if not isinstance(error, BlockingIOError) or is_late:
            raise EngineError(f"{self.where}: {error.strerror or error}") from error


class _Nobody(EngineError):
    """No server takes lines at a place."""


def _failed(connection: socket.socket, place: tuple[str, int] | str) -> OSError | None:
    """Why a connection isn't made; none where it is."""
    try:
        connection.connect(place)
    except OSError as error:
        return error
    return None


# ---- the server's process


def _process_of(connection: socket.socket) -> int | None:
    """The process that listens at the other end of a Unix socket; none where that isn't known."""
    if connection.family != socket.AF_UNIX:
        return None
    number, _, _ = struct.unpack("3i", connection.getsockopt(socket.SOL_SOCKET, socket.SO_PEERCRED, 12))
    return int(number) or None


@contextmanager
def _watched(connection: socket.socket) -> Iterator[int | None]:
    """A descriptor of the process that listens at the other end of a Unix socket; none where that isn't known."""
    number = _process_of(connection)
    try:
        process = os.pidfd_open(number) if number else None
    except OSError:
        process = None
    try:
        yield process
    finally:
        if process is not None:
            os.close(process)


def _has_ended(process: int, patience: float) -> bool:
    """Whether a process ends within some seconds."""
    waiting = select.poll()
    waiting.register(process, select.POLLIN)
    return bool(waiting.poll(patience * 1000))


# ---- where it is


def usual(file: Path) -> list[Path]:
    """The sockets at which a server of that vault usually takes lines."""
    name = file.name.removesuffix(".vault")
    found = []
    if file.resolve().parent == conf.vaults_folder().resolve() and conf.NAME.fullmatch(name):
        found.append(conf.lines_of(name))
    if os.access(file.absolute().parent, os.X_OK):
        found.append(file.with_name(f"{name}.lines"))
    return [it for it in found if len(os.fsencode(it)) <= LONGEST]


def door_of(desk: Desk) -> LinesDoor | None:
    """The door of a vault: the one that is named, or a usual one at which a server takes lines; none: there is none.

    `EngineError` where one may not come."""
    if desk.door:
        return LinesDoor(desk.door)
    doors = (LinesDoor(str(it)) for it in usual(desk.file))
    return next((it for it in doors if it.is_there()), None)
