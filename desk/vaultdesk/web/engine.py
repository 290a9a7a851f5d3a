"""The engine as a page asks it: by a user, at the door of the server that has the vault."""

from __future__ import annotations

from collections.abc import Callable
from pathlib import Path
from typing import Any, TypeVar

from vaultdesk.config import Desk
from vaultdesk.door import LinesDoor
from vaultdesk.engine import Engine
from vaultdesk.errors import EngineError, Refused
from vaultdesk.ways import Way
from vaultdesk.web.copies import Copies, Copy

Known = TypeVar("Known")
NO_KEY = "-"  # whether there is such a key is asked after the right
SHOWN = ("bucket", "key", "id", "batch", "line", "dept", "until", "mode", "hold")  # of a line, in the log


class PageEngine(Engine):
    """A vault for one request. `lines` has what was asked, for the log; tables are read from a copy that other requests
    read too."""

    def __init__(self, desk: Desk, copies: Copies) -> None:
        super().__init__(desk)
        self.copies = copies
        self.lines: list[str] = []
        self._shown: dict[str, bool] = {}
        self._copy: Copy | None = None

    def ask(self, do: str, asker: str | None = None, /, **members: Any) -> dict[str, Any]:
        """As the engine's, and noted."""
        shown = [f"{name}={members[name]!r}" for name in SHOWN if members.get(name) is not None]
        self.lines.append(" ".join([do, *shown]))
        return super().ask(do, asker, **members)

    @property
    def copy(self) -> Copy:
        """The copy that this request reads."""
        if self._copy is None:
            self._copy = self.copies.take()
        return self._copy

    @property
    def tables(self) -> Path:
        """A copy of the vault's tables; it is one until a change is asked for."""
        return self.copy.file

    def known(self, name: str, read: Callable[[Path], Known]) -> Known:
        """What is read of the tables once, as long as the vault isn't changed."""
        copy = self.copy
        if name not in copy.known:
            copy.known[name] = read(copy.file)
        found: Known = copy.known[name]
        return found

    def shows(self, bucket: str) -> bool:
        """Whether the engine answers to the user what a bucket holds, and what a document of it is."""
        if bucket not in self._shown:
            self._shown[bucket] = self.may("list-versions", bucket=bucket, most=1) and self.may(
                "head", bucket=bucket, key=NO_KEY
            )
        return self._shown[bucket]

    def may(self, do: str, **members: Any) -> bool:
        """Whether the engine doesn't deny it to the user. `Refused` where it refuses it for the clock, or a fault."""
        try:
            self.ask(do, **members)
        except Refused as error:
            if not error.code.startswith(("AccessDenied", "NoSuch")):
                raise
            return error.code != "AccessDenied"
        return True

    def _found(self) -> Way:
        """The server's door: the pages never open the vault by themselves."""
        if not self.desk.door:
            raise EngineError("no server takes lines of the vault")
        return LinesDoor(self.desk.door)

    def _forget_tables(self) -> None:
        super()._forget_tables()
        if self._copy is not None:
            self.copies.give_back(self._copy)
            self._copy = None
