"""Copies of a vault that a program has open: each is of one moment, and has all that was answered before it."""

from __future__ import annotations

import io
import json
import sqlite3
import subprocess
import threading
from contextlib import closing
from pathlib import Path
from unittest import mock

from tests.office import PROGRAM, OfficeTest
from vaultdesk import snapshot
from vaultdesk.config import Desk
from vaultdesk.engine import Engine
from vaultdesk.errors import EngineError


class OfAVault(OfficeTest):
    def setUp(self) -> None:
        super().setUp()
        self.copy = self.folder / "copy.vault"
        self.engine = Engine(Desk(PROGRAM, self.file, "ann"))
        self.addCleanup(self.engine.close)

    def put(self, key: str, content: bytes = b"x") -> None:
        self.engine.ask("put", bucket="docs", key=key, hex=content.hex())

    def keys(self) -> list[str]:
        """The keys of the copy, which is sound."""
        found = subprocess.run([PROGRAM, "verify", str(self.copy)], capture_output=True, text=True, check=False)
        self.assertEqual(found.stdout, "sound\n")
        listed = json.loads(self.done("ls", "docs", "--vault", str(self.copy), "--json", at=None))
        return [str(it["key"]) for it in listed]

    def test_what_was_answered_is_in_it(self) -> None:
        for number in range(5):
            self.put(str(number))
        self.assertTrue(snapshot.is_taken(self.file))
        snapshot.copy(self.file, self.copy)
        self.assertEqual(self.keys(), ["0", "1", "2", "3", "4"])
        self.put("5")
        self.assertEqual([it.stat().st_mode & 0o777 for it in (self.copy, snapshot.log_of(self.copy))], [0o600] * 2)
        self.engine.close()
        self.assertFalse(snapshot.is_taken(self.file))
        snapshot.copy(self.file, self.copy)
        self.assertEqual(len(self.keys()), 6)

    def test_a_log_that_is_cut_anywhere_has_whole_changes_alone(self) -> None:
        for number in range(3):
            self.put(str(number), b"x" * 5_000)
        log = snapshot.log_of(self.file).read_bytes()
        whole = snapshot.whole_changes(io.BytesIO(log))
        ends = {len(snapshot.whole_changes(io.BytesIO(log[:it]))) for it in range(0, len(whole) + 1, 997)}
        self.assertGreater(len(ends), 2)
        page = int.from_bytes(log[8:12], "big")
        for number, end in enumerate(sorted({*ends, len(whole)})):
            if end:
                last = end - page - snapshot.FRAME
                self.assertNotEqual(log[last + 4:last + 8], bytes(4), "no frame that ends a change")
            self.copy = self.folder / f"{number}.vault"
            self.copy.write_bytes(self.file.read_bytes())
            if end:
                snapshot.log_of(self.copy).write_bytes(log[:end])
            found = subprocess.run([PROGRAM, "verify", str(self.copy)], capture_output=True, text=True, check=False)
            self.assertEqual(found.stdout, "sound\n", end)
        self.assertEqual(self.keys(), ["0", "1", "2"])

    def test_while_it_is_changed_all_along(self) -> None:
        done: list[str] = []
        stop = threading.Event()

        def write() -> None:
            while not stop.is_set():
                self.put(f"{len(done):04}", b"x" * 20_000)
                done.append(f"{len(done):04}")
                stop.wait(0.02)

        writer = threading.Thread(target=write)
        writer.start()
        try:
            for number in range(3):
                before = list(done)
                self.copy = self.folder / f"{number}.vault"
                snapshot.copy(self.file, self.copy)
                keys = self.keys()
                self.assertEqual(keys, [f"{it:04}" for it in range(len(keys))])
                self.assertGreaterEqual(len(keys), len(before))
        finally:
            stop.set()
            writer.join()

    def test_what_cant_be_read_or_written_is_told(self) -> None:
        with self.assertRaisesRegex(EngineError, "No such file"):
            snapshot.copy(self.folder / "none.vault", self.copy)
        with mock.patch("vaultdesk.snapshot._copy_file", side_effect=PermissionError(13, "Permission denied", "f")):
            with self.assertRaisesRegex(EngineError, "of a copy"):
                snapshot.copy(self.file, self.copy)
        self.assertFalse(self.copy.exists())


class OfALog(OfficeTest):
    """Over a database that Python's SQLite has, as that one begins a log anew as it is told."""

    def make(self) -> None:
        self.copy = self.folder / "copy.vault"
        self.base = sqlite3.connect(self.file, isolation_level=None, check_same_thread=False)
        self.addCleanup(self.base.close)
        for it in ("journal_mode=WAL", "locking_mode=EXCLUSIVE", "wal_autocheckpoint=0", "synchronous=OFF"):
            self.base.execute(f"PRAGMA {it}")
        self.base.execute("CREATE TABLE t (n INTEGER, filled BLOB)")

    def add(self, count: int = 1) -> None:
        self.base.execute("BEGIN")
        for _ in range(count):
            self.base.execute("INSERT INTO t SELECT count(*), zeroblob(3000) FROM t")
        self.base.execute("COMMIT")

    def count(self) -> int:
        """How many rows the copy has, which fits together."""
        with closing(sqlite3.connect(self.copy)) as base:
            self.assertEqual(base.execute("PRAGMA integrity_check").fetchall(), [("ok",)])
            [(count,)] = base.execute("SELECT count(*) FROM t")
            return int(count)

    def begin_anew(self) -> None:
        """Copies the log into the file, and begins it anew with another row."""
        self.base.execute("PRAGMA wal_checkpoint(RESTART)")
        self.add()

    def tries(self, after: int, meanwhile: str = "begin_anew") -> int:
        """How often it is tried, where something happens after a number of files was copied."""
        copied: list[Path] = []
        copy_file, self.copied = snapshot._copy_file, copied

        def counted(file: Path, target: Path) -> None:
            if len(copied) == after - 1:
                getattr(self, meanwhile)()
            copy_file(file, target)
            copied.append(target)
            if len(copied) == after:
                getattr(self, meanwhile)()

        with mock.patch("vaultdesk.snapshot._copy_file", counted), mock.patch.object(snapshot, "PAUSE", 0):
            snapshot.copy(self.file, self.copy)
        return len(copied)

    def test_a_log_that_is_begun_anew_meanwhile_has_it_tried_again(self) -> None:
        self.add(20)
        self.assertEqual(self.tries(after=1), 2)
        self.assertEqual(self.count(), 22)

    def test_one_that_only_grows_doesnt(self) -> None:
        self.add(20)
        self.assertEqual(self.tries(after=1, meanwhile="add"), 1)
        self.assertEqual(self.count(), 22)

    def test_one_that_is_begun_anew_all_along_is_given_up(self) -> None:
        self.add(5)
        copy_file = snapshot._copy_file

        def anew(file: Path, target: Path) -> None:
            copy_file(file, target)
            self.begin_anew()

        with mock.patch("vaultdesk.snapshot._copy_file", anew), mock.patch.object(snapshot, "PAUSE", 0):
            with self.assertRaisesRegex(EngineError, "changed too fast"):
                snapshot.copy(self.file, self.copy)
        self.assertEqual([it.name for it in self.folder.iterdir() if it.name.startswith("copy")], [])

    def test_the_file_alone_as_it_changes(self) -> None:
        self.add(20)
        self.base.execute("PRAGMA wal_checkpoint(TRUNCATE)")
        self.assertEqual(self.tries(after=1, meanwhile="begin_anew"), 2)
        self.assertEqual(self.count(), 22)
