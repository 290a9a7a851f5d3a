"""The engine, by whichever way it is there: each line that is asked, and the tables that it keeps."""

from __future__ import annotations

import contextlib
import subprocess
from collections.abc import Iterator, Mapping
from pathlib import Path
from types import TracebackType
from typing import Any

from vaultdesk import moments, reading, snapshot
from vaultdesk.config import Desk
from vaultdesk.door import LinesDoor, door_of
from vaultdesk.errors import EngineError, UsageError
from vaultdesk.refusals import refused
from vaultdesk.ways import Answer, Replay, Way, missing

READS = (
    "get", "head", "get-retention", "get-hold", "get-default", "get-rules", "list-versions", "report", "certificate",
)  # fmt: skip
PAGE = 1_000  # entries in one reply of a listing, at most


class Engine:
    """A vault: where a server has it, by the server's door for lines; else its file, which is open from the first line
    on to the end of the `with` block. What a subcommand asks is the same by both ways.

    It decides nothing: each answer is the engine's. `at` is the reading of all its lines; without one, each line
    has the machine's clock. A server's lines have the clock alone: reads of a moment are answered of a copy, and no
    change is asked for with a moment. No change is asked for that is dated ahead of the clock, unless `is_copy`: the
    vault would refuse whatever is dated before it.
    """

    def __init__(self, desk: Desk, at: str | None = None, is_copy: bool = False) -> None:
        self.desk = desk
        self.at = at
        self.is_copy = is_copy
        self._way: Way | None = None
        self._past: Replay | None = None
        self._answer: Answer | None = None
        self._tables: Path | None = None
        self._copies = contextlib.ExitStack()
        self._made = 0  # changes that were answered
        self._under_way = ""  # the change that isn't answered yet

    def __enter__(self) -> Engine:
        return self

    def __exit__(
        self, kind: type[BaseException] | None, error: BaseException | None, trace: TracebackType | None
    ) -> None:
        self.close()

    # ---- lines

    def ask(self, do: str, asker: str | None = None, /, **members: Any) -> dict[str, Any]:
        """The value of `ok` in the reply to a line by the desk's caller, or by `asker`; members of None are left out.

        `Refused` where the line is refused or a run was stopped, `EngineError` where no reply comes, `UsageError` where
        a change has a moment and a server has the vault."""
        if do not in READS:
            self.look_at_date()
            self._forget_tables()
            self._under_way = do
        given = {name: value for name, value in members.items() if value is not None}
        line = {"as": asker or self.desk.caller, "do": do, **given}
        way, at = self._way_of(do)
        self._answer = way.answer(line, at)
        reply = self._answer.reply
        self._made += bool("ok" in reply and self._under_way)
        self._under_way = ""
        if "ok" in reply:
            return dict(reply["ok"])
        if "error" in reply:
            dated = {"at": self._answer.at, **line}
            raise refused(reply["error"], dated, self._answer.said, is_dated=self.at is not None)
        stopped = reply["stopped"]
        raise EngineError(f"the run stopped after {stopped['changes']} changes, which stand: {stopped['fault']}")

    def entries(self, bucket: str, prefix: str | None = None) -> Iterator[Mapping[str, Any]]:
        """The held entries of a bucket whose key begins with the prefix: by key, within a key newest first."""
        after: dict[str, Any] = {}
        more = True
        while more:
            found = self.ask("list-versions", bucket=bucket, prefix=prefix, most=PAGE, **after)
            yield from found["entries"]
            more = found["more"]
            if more:
                last = found["entries"][-1]
                after = {"after_key": last["key"], "after_id": last["version_id"]}

    @property
    def last_reading(self) -> str:
        """The reading of the last line; of a server's, one that may be a second or more off, unless it is certain."""
        return self.at or (self._answer.at if self._answer else "")

    @property
    def is_certain(self) -> bool:
        """Whether the last line had just that reading."""
        return bool(self._answer and self._answer.is_certain)

    @property
    def changed(self) -> str:
        """What was changed up to now, for who breaks a subcommand off."""
        made = f"{self._made:,} changes were made, and stay" if self._made else "nothing was changed"
        unsure = f", but for one that was under way ({self._under_way}): look whether it was made"
        return made + (unsure if self._under_way else "")

    def look_at_date(self) -> None:
        """`UsageError` where a change would be dated more than a day ahead of the machine's clock."""
        if self.at and self.at > moments.tomorrow() and not self.is_copy:
            why = "nothing that is dated before a change is carried out after it, so the vault would be shut until then"
            what = f"--at {self.at} is more than a day ahead of this machine's clock"
            raise UsageError(f"{what}: {why}: give an earlier moment, or leave --at out")

    # ---- tables

    @property
    def tables(self) -> Path:
        """A file whose tables can be read: the vault's own, which is closed first, or while a server has it, a copy.

        The copy is one until a change is asked for. `EngineError` where the file can't be read, or isn't there."""
        if self._past is not None:
            self._past.close()
        if self._tables is None:
            self._end_ways()
            reading.look_for(self.desk.file)  # the program's verdict on a file that isn't there is that it is damaged
            self._tables = self._copies.enter_context(snapshot.readable(self.desk.file))
        return self._tables

    def shows(self, bucket: str) -> bool:
        """Whether who asks may see what the tables have of a bucket: all of it, where they may read the file."""
        return True

    def printed(self, command: str) -> str:
        """What a subcommand of `vaultctl` prints of the vault's tables. `EngineError` where it ends with a fault."""
        words = [self.desk.program, command, str(self.tables)]
        try:
            done = subprocess.run(words, capture_output=True, check=False)
        except OSError as error:
            raise missing(self.desk.program, error) from error
        if done.returncode != 0:
            raise EngineError(done.stderr.decode(errors="replace").strip())
        return done.stdout.decode("utf-8")

    # ---- ways

    @property
    def door(self) -> LinesDoor | None:
        """The door of the server that has the vault, if one has it and takes lines."""
        way = self._found()
        return way if isinstance(way, LinesDoor) else None

    @property
    def is_served(self) -> bool:
        """Whether a server has the vault, and takes lines."""
        return self.door is not None

    def close(self) -> None:
        """Closes the vault. `EngineError` where the engine ended with a fault."""
        self._forget_tables()
        self._end_ways()

    def _found(self) -> Way:
        """The way to the vault, which is looked for once."""
        if self._way is None:
            self._way = door_of(self.desk) or Replay(self.desk.program, self.desk.file)
        return self._way

    def _way_of(self, do: str) -> tuple[Way, str | None]:
        """The way of a line, and its reading."""
        if not self.is_served:
            self._forget_tables()
        if self.at is None or not self.is_served:
            return self._found(), self.at
        if do not in READS:
            why = "a server has the vault, and dates what is changed by the machine's clock"
            raise UsageError(f"--at {self.at}: {why}: leave --at out")
        if self._past is None:
            self._past = Replay(self.desk.program, self.tables)
        return self._past, self.at

    def _end_ways(self) -> None:
        for it in (self._past, self._way):
            if it is not None:
                it.close()
        self._past = None

    def _forget_tables(self) -> None:
        """Lets go of the copy, if there is one: what is read next is read anew."""
        if self._past is not None:
            self._past.close()
        self._past = self._tables = None
        self._copies.close()
