"""The night's work on a vault with units: the rules of its buckets, a copy that is audited, and a seal."""

from __future__ import annotations

import argparse
import contextlib
import functools
import os
import subprocess
import tempfile
import time
from collections.abc import Callable, Iterator
from contextlib import AbstractContextManager
from dataclasses import dataclass, field
from pathlib import Path
from typing import Any, TypeVar

from vaultdesk import backup, config, evidence, last_done, moments, parts, reading, recheck, snapshot, status
from vaultdesk.config import Desk
from vaultdesk.engine import Engine
from vaultdesk.errors import DeskError
from vaultdesk.output import print_json, print_rows, say
from vaultdesk.units import Served

DAY = 86_400
ABOUT = """Carries out the lifecycle rules of a vault's buckets, makes a copy, audits the copy, and puts a seal after
those of earlier nights. A server that takes lines goes on meanwhile; one that doesn't is stopped first, and started
again afterwards. /etc/vaultctl/NAME.conf says which buckets (BUCKETS), by which callers (BUCKET:CALLER, or NIGHT),
where the copies go (BACKUP) and how many are kept (KEEP). No rule is carried out while the machine's clock isn't
synchronized, unless TRUST_CLOCK is yes; nor where it is more than MAX_JUMP days past the vault's last change and the
last night: what a clock that is ahead removes can't be put back. The copy is made all the same. The status is 1
where one of these wasn't done to its end."""
COLUMNS = ("bucket", "marked", "removed", "lone")
FORETOLD = ("what", "bucket", "version", "key")
MEMORY = Path("/proc/meminfo")
It = TypeVar("It")

GONE = """
SELECT 'removed for good' AS what, bucket, id, key FROM entries JOIN old.entries AS before USING (id, bucket, key)
WHERE entries.removed IS NOT NULL AND before.removed IS NULL
UNION ALL SELECT 'marked', bucket, id, key FROM entries WHERE id NOT IN (SELECT id FROM old.entries)
ORDER BY bucket, key, id
"""


def is_synchronized() -> bool:
    """Whether timedatectl says that something keeps the machine's clock right."""
    try:
        done = subprocess.run(
            ["timedatectl", "show", "-p", "NTPSynchronized", "--value"], capture_output=True, text=True, check=False
        )
    except OSError:
        return False
    return done.stdout.strip() == "yes"


def why(error: DeskError | OSError) -> str:
    """What is said of a fault."""
    return f"{error.filename}: {error.strerror}" if isinstance(error, OSError) and error.filename else str(error)


@dataclass
class Night:
    """A night: the vault, the clock as it was looked at, and what came of it."""

    served: Served
    is_sure: bool
    goes_on: bool  # whether the server does meanwhile
    now: int = 0
    rows: list[dict[str, Any]] = field(default_factory=list)
    copy: Path | None = None
    seal: evidence.Seal | None = None
    removed: list[Path] = field(default_factory=list)
    is_whole: bool = True

    def mark(self) -> Path:
        """The file whose age says when the last night was whose clock was right."""
        return self.served.folder / f"{self.served.name}.night"

    def tables(self, file: Path) -> AbstractContextManager[Path]:
        """A file whose tables can be read: that one, or while a server has it, a copy beside it for a while."""
        return snapshot.readable(file, self.served.folder)

    def done(self, part: Callable[[], None]) -> bool:
        """Whether a part of the work was done; where it wasn't, a line says why, and the other parts are tried."""
        try:
            part()
            return True
        except (DeskError, OSError) as error:
            say(f"vaultdesk night: {why(error)}")
            self.is_whole = False
            return False

    @contextlib.contextmanager
    def looked_at(self, file: Path) -> Iterator[Path | None]:
        """The same as `tables`, and none where no copy can be made, as the folder has no room for it: that is said."""
        with contextlib.ExitStack() as opened:
            try:
                tables = opened.enter_context(self.tables(file))
            except (DeskError, OSError) as error:
                if not self.goes_on:
                    raise
                say(f"vaultdesk night: {why(error)}. The server is asked in its place")
                yield None
                return
            yield tables

    def asked(self, question: Callable[[Engine], It]) -> It:
        """What the server answers to the caller ADMIN."""
        door = self.served.door().where
        with Engine(Desk(config.program(), self.served.file, self.served.conf.admin(), door), None) as engine:
            return question(engine)

    def last_change(self, tables: Path | None) -> int:
        """The moment of the vault's last change, by its tables, or as its server says."""
        if tables is None:
            return recheck.vault.moment_of(str(self.asked(status.state)["last"]))
        [(last,)] = reading.rows(tables, "SELECT last FROM meta")
        return int(last)

    def look_at_clock(self, tables: Path | None) -> None:
        """By the vault's last change: `DeskError` where the clock can't be relied on.

        What one that is ahead removes can't be put back."""
        last = self.last_change(tables)
        self.now = int(time.time())  # after that was read: a server goes on meanwhile
        clock = moments.of_seconds(self.now)
        if self.now < last:
            raise DeskError(f"the clock ({clock}) is before the vault's last change ({moments.of_seconds(last)})")
        if self.is_sure:
            return
        if not self.served.conf.trusts_clock() and not is_synchronized():
            cause = "the clock isn't synchronized, as timedatectl says"
            raise DeskError(f"{cause}. Where the machine has no time service, set TRUST_CLOCK=yes")
        known = max(last, int(self.mark().stat().st_mtime)) if self.mark().exists() else last
        days = self.served.conf.max_jump()
        if known and self.now - known > days * DAY:
            known_text = f"the vault's last change and the last night ({moments.of_seconds(known)})"
            remedy = f"If it is right: vaultdesk night --clock-is-right {self.served.name}"
            raise DeskError(f"the clock ({clock}) is more than {days} days past {known_text}. {remedy}")

    def carry_out(self, desk: Desk, at: str | None) -> None:
        """Carries out the rules of all buckets at a moment, or by the clock, over one opening of the file."""
        buckets = self.served.conf.buckets()
        with Engine(desk, at) as engine:
            for bucket, caller in buckets:
                try:
                    self.rows.append({"bucket": bucket, **engine.ask("run", caller, bucket=bucket)})
                except DeskError as error:
                    say(f"vaultdesk night: the rules of {bucket} weren't carried out to their end: {error}")
                    self.is_whole = False

    def warn_of_memory(self, tables: Path) -> None:
        """A vault is in memory as a whole as it is opened, and the kernel kills what takes too much."""
        try:
            found = [it.split() for it in MEMORY.read_text(encoding="ascii").splitlines()]
        except OSError:
            return
        free = next((int(it[1]) * 1024 for it in found if it[0] == "MemAvailable:"), None)
        [(held,)] = reading.rows(tables, "SELECT coalesce(sum(size), 0) FROM entries WHERE removed IS NULL")
        if free is not None and held > free // 2:
            cause = f"warning: the vault holds {held} bytes, and {free} bytes of memory are free"
            say(f"vaultdesk night: {cause}. Where it can't be opened for want of memory, the kernel kills the server")

    def note(self) -> None:
        """Notes that a night was whose clock was right."""
        try:
            self.mark().touch()
        except OSError as error:
            cause = f"{self.mark()}: {error.strerror}: this night isn't noted"
            raise DeskError(f"{cause}: after MAX_JUMP days without a change the clock is taken for wrong") from error

    def make_copy(self) -> None:
        """Makes the night's copy."""
        self.copy = backup.made(self.served.file, self.served.conf.backup(), config.program())
        last_done.note(self.served.file, "copy", "audit")  # it is made only of what its audit calls sound

    def make_seal(self) -> None:
        """Appends the seal of all that was before the last moment to those of earlier nights."""
        with self.looked_at(self.copy or self.served.file) as tables:
            self.seal = evidence.seal_of(tables, None) if tables else self.asked(lambda it: parts.seal(it, None))
        if self.copy:  # SQLite leaves its index of the log beside a file that was read
            self.copy.with_name(f"{self.copy.name}-shm").unlink(missing_ok=True)
        evidence.append(evidence.seals_beside(self.served.file), self.seal)
        last_done.note(self.served.file, "seal")

    def remove_old(self) -> None:
        """Removes the oldest copies; the one of this night always stays."""
        found = backup.outdated(self.served.conf.backup(), self.served.name, self.served.conf.keep())
        self.removed = [it for it in found if it != self.copy]
        backup.remove(self.removed)

    def work(self) -> int:
        """All of it, and the status. It is done as the vaults' owner."""
        with self.looked_at(self.served.file) as tables:
            is_right = self.done(lambda: self.look_at_clock(tables))
            if tables:
                self.done(functools.partial(self.warn_of_memory, tables))
        if is_right:
            door = self.served.door().where if self.goes_on else None
            self.done(lambda: self.carry_out(Desk(config.program(), self.served.file, "", door), None))
            self.done(self.note)
        else:
            say(f"vaultdesk night: no rule of the vault {self.served.name} was carried out")
        if self.done(self.make_copy) and is_right:
            self.done(self.remove_old)
        self.done(self.make_seal)
        if self.is_whole:
            self.done(lambda: last_done.note(self.served.file, "night"))
        return 0 if self.is_whole else 1

    def print(self, as_json: bool) -> None:
        """What came of the night."""
        if as_json:
            copies = {"copy": self.copy and str(self.copy), "copies_removed": [str(it) for it in self.removed]}
            seal = {"seal": self.seal and evidence.seal_json(self.seal)}
            print_json({"rules": [{it: row[it] for it in COLUMNS} for row in self.rows], **copies, **seal})
            return
        for row in self.rows:
            print(f"{row['bucket']}: {row['marked']} marked, {row['removed']} removed, {row['lone']} lone markers")
        if self.copy:
            print(self.copy)
        if self.seal:
            print(self.seal.text(), end="")


def foretold(night: Night) -> list[dict[str, Any]]:
    """What the rules would do at this moment: they are carried out on a copy, which is laid beside the vault."""
    with tempfile.TemporaryDirectory() as name:
        before, after = Path(name) / "before", Path(name) / "after"
        old, new = (it / night.served.file.name for it in (before, after))
        for it in (before, after):
            it.mkdir()
        snapshot.look_for_room(Path(name), 2 * snapshot.size_of(night.served.file))
        snapshot.copy(night.served.file, old)
        snapshot.copy(old, new)
        night.carry_out(Desk(config.program(), new, ""), moments.now())
        return [dict(zip(FORETOLD, it, strict=True)) for it in reading.of_two(new, old, GONE)]


def _try(night: Night, as_json: bool) -> int:
    """Prints what the night would do, and does nothing of it."""
    with night.tables(night.served.file) as tables:
        night.done(lambda: night.look_at_clock(tables))
    rows = foretold(night)
    old = backup.outdated(night.served.conf.backup(), night.served.name, night.served.conf.keep(), coming=1)
    if as_json:
        print_json({"rules": rows, "copies_removed": [str(it) for it in old]})
    else:
        print_rows(rows, FORETOLD)
        for it in old:
            print(f"{it} would be removed")
    return 0 if night.is_whole else 1


def _worked(night: Night, words: argparse.Namespace) -> int:
    os.umask(0o077)
    status = night.work()
    night.print(words.json)
    return status


def night(words: argparse.Namespace) -> int:
    """Carries out the rules, makes a copy and a seal: while the server goes on, if it takes lines."""
    served = Served(words.name)
    with served.alone():
        goes_on = served.door().is_there()
        if words.dry_run:
            return served.owner().carry_out(lambda: _try(Night(served, words.clock_is_right, goes_on), words.json))
        with contextlib.nullcontext() if goes_on else served.standing_still():
            return _night(Night(served, words.clock_is_right, goes_on), words)


def _night(it: Night, words: argparse.Namespace) -> int:
    """The status of the night's work, which the vaults' owner does."""
    served = it.served
    status = served.owner().carry_out(lambda: _worked(it, words))
    if status == 0:
        served.forget_alarm("vault-run")
    return status


def add(commands: argparse._SubParsersAction[argparse.ArgumentParser], common: argparse.ArgumentParser) -> None:
    """Adds the subcommand to the desk's words."""
    what = "the night's work on a vault that is served: its rules, a copy, and a seal"
    example = "Example: vaultdesk night records --dry-run"
    it = commands.add_parser("night", parents=[common], help=what, description=ABOUT, epilog=example)
    it.add_argument("name", metavar="NAME", help="the vault /var/lib/vaultctl/NAME.vault, with /etc/vaultctl/NAME.conf")
    text = "carry out the rules by a clock that nothing synchronizes, or that is far ahead of all that is known"
    it.add_argument("--clock-is-right", action="store_true", help=text)
    it.add_argument("--dry-run", action="store_true", help="say what would be marked and removed, and change nothing")
    it.set_defaults(do=night)
