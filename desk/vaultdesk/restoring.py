"""A copy of a vault that is put in the vault's place: restore.

A vault is two files, and no call gives both other names at once. So the copy's log is copied into its file first, and
what stands there is made one file, too: a copy of its file gets what its log has, and takes the file's place, where the
log fits it still. Then the log goes, and the one file takes the place of the other. Whenever that ends, what is in the
vault's place is the vault as it was, or the copy; and both files that stood there are in the folder of what was there.
"""

from __future__ import annotations

import argparse
import os
import shutil
import stat
from collections.abc import Callable, Iterator
from contextlib import ExitStack, contextmanager
from pathlib import Path
from typing import Any, BinaryIO

from vaultdesk import disk, moments, reading, snapshot
from vaultdesk.backup import stamp
from vaultdesk.errors import DeskError
from vaultdesk.output import print_json
from vaultdesk.server import NAMED
from vaultdesk.units import Served

ABOUT = """Puts a copy of a vault in the vault's place, and starts its server. The copy is audited before anything
else is done: where it isn't sound, all stays as it is, and the server isn't stopped. The files that were there are
put into a folder NAME-MOMENT.replaced beside them: remove it yourself. What the vault has and the copy hasn't is said,
with --dry-run before it is lost. However it ends, the vault or the copy is there as a whole: give it again then. It
takes room for the copy, and for the vault if that has a log."""
KINDS = {"": (b"SQLite format 3\0",), "-wal": tuple(it.to_bytes(4, "big") for it in snapshot.MAGIC)}
MADE = ("", "-wal", "-shm")  # the ends of the files' names that SQLite makes

# What the vault that is replaced, `old`, has and the copy hasn't: entries, and what happened to each.
LOST = """
WITH
gone AS MATERIALIZED (
    SELECT id, admitted FROM old.entries AS it WHERE NOT EXISTS (
        SELECT 1 FROM main.entries AS kept
        WHERE kept.id = it.id AND kept.bucket = it.bucket AND kept.key = it.key AND kept.admitted = it.admitted
            AND kept.digest IS it.digest
    )
),
events(moment) AS (
    SELECT admitted FROM gone
    UNION ALL
    SELECT moment FROM old.settings AS it WHERE id IN (SELECT id FROM gone)
        OR NOT EXISTS (SELECT 1 FROM main.settings AS kept WHERE kept.id = it.id AND kept.n = it.n)
    UNION ALL
    SELECT moment FROM old.tenures AS it WHERE n > (SELECT min(n) FROM old.tenures AS any WHERE any.id = it.id)
        AND (id IN (SELECT id FROM gone)
            OR NOT EXISTS (SELECT 1 FROM main.tenures AS kept WHERE kept.id = it.id AND kept.n = it.n))
    UNION ALL
    SELECT removed FROM old.entries AS it WHERE removed IS NOT NULL AND (id IN (SELECT id FROM gone)
        OR EXISTS (SELECT 1 FROM main.entries AS kept WHERE kept.id = it.id AND kept.removed IS NULL))
)
SELECT (SELECT count(*) FROM gone), (SELECT count(*) FROM events), (SELECT min(id) FROM gone),
    (SELECT max(id) FROM gone), (SELECT min(moment) FROM events), (SELECT last FROM main.meta),
    (SELECT last FROM old.meta)
"""


# ---- what is lost


def _lost(file: Path, copy: Path) -> dict[str, Any]:
    """What a vault has and a copy hasn't: how much, the ids of the first and the last entry, since when, and the last
    moments of both. `DeskError` where that can't be read."""
    [(entries, events, first, last, since, copied, changed)] = reading.of_two(copy, file, LOST)
    found = {"entries": entries, "events": events, "first": first, "last": last}
    since_text = None if since is None else moments.of_seconds(since)
    return {**found, "since": since_text, "copy": moments.of_seconds(copied), "vault": moments.of_seconds(changed)}


def _counted(number: int, one: str, more: str) -> str:
    return f"{number:,} {one if number == 1 else more}"


def _lost_text(found: dict[str, Any], is_dry: bool) -> str:
    """The same as a sentence, before it is done or afterwards."""
    one, more = ("would be", "would be") if is_dry else ("is", "are")
    if "fault" in found:
        return f"What {one} lost isn't known: {found['fault']}"
    if not found["events"] and found["copy"] >= found["vault"]:
        return f"Nothing {one} lost: the vault's last change is of {found['vault']}."
    what = f"{_counted(found['entries'], 'entry', 'entries')} and {_counted(found['events'], 'event', 'events')}"
    is_earlier = found["since"] is None or found["since"] >= found["copy"]
    text = f"{what} {'after ' + found['copy'] if is_earlier else 'from ' + found['since'] + ' on'} {more} gone"
    if found["entries"] == 1:
        text += f": version {found['first']}"
    elif found["entries"]:
        text += f": versions {found['first']} to {found['last']}"
    return f"{text}. So {one} what was set up since, until {found['vault']}: departments, callers, buckets, rules."


# ---- the files, as the vaults' owner


def _opened(path: Path) -> BinaryIO:
    try:
        return open(os.open(path, os.O_RDONLY | os.O_NOFOLLOW | os.O_NONBLOCK), "rb")
    except OSError as error:
        raise DeskError(f"{path}: {error.strerror}") from error


@contextmanager
def _given(copy: Path) -> Iterator[dict[str, BinaryIO]]:
    """The files of a copy, by the ends of their names. `DeskError` where the copy is no file of SQLite.

    Root reads them, and the vaults' owner gets what they have: so it is nothing but what a vault consists of."""
    with ExitStack() as opened:
        found = dict[str, BinaryIO]()
        for end, kinds in KINDS.items():
            path = Path(f"{copy.resolve()}{end}")
            if not path.is_file():
                continue
            file = opened.enter_context(_opened(path))
            is_one = stat.S_ISREG(os.fstat(file.fileno()).st_mode) and file.read(len(kinds[0])) in kinds
            if not end and not is_one:
                raise DeskError(f"{copy} isn't sound (it is no file of SQLite): nothing was changed")
            file.seek(0)
            if is_one:
                found[end] = file
        if "" not in found:
            raise DeskError(f"{copy} isn't a file")
        yield found


def _clear(*files: Path) -> None:
    for it in files:
        for end in MADE:
            Path(f"{it}{end}").unlink(missing_ok=True)


class Places:
    """Where the files of a restore are, and the steps of it; each is done by the vaults' owner."""

    def __init__(self, served: Served) -> None:
        self.folder, self.file, self.name = served.folder, served.file, served.name
        self.log = snapshot.log_of(served.file)
        self.new = self.folder / f"{self.file.name}.restored"
        self.whole = self.folder / f"{self.file.name}.whole"
        self.away = self._unused()

    def _unused(self) -> Path:
        """The folder of what is replaced, which isn't there yet."""
        name = f"{self.name}-{stamp()}"
        found = (self.folder / f"{name}{it}.replaced" for it in ("", *(f"-{number}" for number in range(2, 10_000))))
        return next(it for it in found if not os.path.lexists(it))

    def clear(self) -> None:
        """Removes what is left of a restore."""
        _clear(self.new, self.whole)

    def bring(self, given: dict[str, BinaryIO]) -> None:
        """Puts the copy beside the vault, as one file that is on the disk."""
        self.clear()
        snapshot.look_for_room(self.folder, sum(os.fstat(it.fileno()).st_size for it in given.values()))
        for end, source in given.items():
            with disk.new_file(Path(f"{self.new}{end}")) as made:
                shutil.copyfileobj(source, made, snapshot.PIECE)
        reading.take_in_log(self.new)
        disk.sync(self.new, self.folder)

    def look(self) -> dict[str, Any] | None:
        """What is lost with the vault that is there, or why that isn't known; none where no vault is there."""
        if not self.file.exists():
            return None
        try:
            with snapshot.readable(self.file, self.folder) as tables:
                return _lost(tables, self.new)
        except DeskError as error:
            return {"fault": str(error)}

    def exchange(self) -> None:
        """Puts what stands there into the folder of what is replaced, and the copy in its place."""
        is_whole = self.log.exists() and self.file.exists() and self._make_whole()
        self.away.mkdir(mode=0o700)
        for it in (self.file, self.log):
            if it.exists():
                os.link(it, self.away / it.name, follow_symlinks=False)
        disk.sync(self.away, self.folder)
        if is_whole:
            self.whole.replace(self.file)
            disk.sync(self.folder)
        if self.log.exists():
            self.log.unlink()
            disk.sync(self.folder)
        Path(f"{self.file}-shm").unlink(missing_ok=True)
        self.new.replace(self.file)
        disk.sync(self.folder)

    def _make_whole(self) -> bool:
        """Makes one file of the vault's file and its log; false where it is no file that SQLite can read: with a log or
        without, nobody has a vault of it."""
        snapshot.copy(self.file, self.whole)
        try:
            reading.take_in_log(self.whole)
        except reading.NoDatabase:
            return False
        disk.sync(self.whole)
        return True


def _done(served: Served, work: Callable[[], Any]) -> Any:
    """What work comes to that the vaults' owner does. `DeskError` where it isn't done."""

    def done() -> Any:
        try:
            return work()
        except OSError as error:
            raise DeskError(f"{error.filename}: {error.strerror}") from error

    return served.owner().do(done)


# ---- the subcommand


def restore(words: argparse.Namespace) -> int:
    """Audits a copy of a vault, and puts it in the vault's place; what stood there is in a folder beside it then."""
    served = Served(words.name)
    with served.alone(), _given(Path(words.copy)) as given:
        places = Places(served)
        try:
            _done(served, lambda: places.bring(given))
            verdict = served.verdict(places.new)
            if verdict != "sound":
                raise DeskError(f"{words.copy} isn't sound ({verdict}): nothing was changed")
            if words.dry_run:
                found = _done(served, places.look)
                _print(words, f"{words.copy} is sound, and would be put in the place of {served.file}", None, found)
                return 0
            with served.standing_still(served.state() == "failed" or served.is_enabled()):
                found = _done(served, places.look)
                _done(served, places.exchange)
                verdict = served.verdict(served.file)
                if verdict != "sound":
                    raise DeskError(f"{served.file} isn't sound ({verdict}); what stood there is in {places.away}")
        finally:
            _done(served, places.clear)
    text = f"{served.file} is put back from {words.copy}; what stood there is in {places.away}"
    _print(words, text, places.away, found)
    return 0


def _print(words: argparse.Namespace, text: str, away: Path | None, found: dict[str, Any] | None) -> None:
    """Prints what was done, or would be, and what is lost by it."""
    if words.json:
        print_json({"vault": words.name, "copy": words.copy, "replaced": str(away) if away else None, "lost": found})
        return
    print(text)
    if found:
        print(_lost_text(found, words.dry_run))


def add(commands: argparse._SubParsersAction[argparse.ArgumentParser], common: argparse.ArgumentParser) -> None:
    """Adds the subcommand to the desk's words."""
    example = "Example: vaultdesk restore records /var/backups/vaultctl/records-20261127T030000Z.vault"
    what = "put a copy of a vault in the vault's place"
    it = commands.add_parser("restore", parents=[common], help=what, description=ABOUT, epilog=example)
    it.add_argument("name", metavar="NAME", help=NAMED)
    it.add_argument("copy", metavar="COPY", help="a copy of a vault's file; COPY-wal goes with it, if it is there")
    it.add_argument("--dry-run", action="store_true", help="audit the copy, say what would be lost, and change nothing")
    it.set_defaults(do=restore)
