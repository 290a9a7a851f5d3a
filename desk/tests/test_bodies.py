"""The body store in a folder: what is added, read, erased and looked at, damaged, stopped, and by many at once."""

from __future__ import annotations

import contextlib
import csv
import fcntl
import io
import multiprocessing
import os
import random
import resource
import shutil
import signal
import subprocess
import sys
import tempfile
import threading
import time
import unittest
from collections.abc import Callable, Iterator
from pathlib import Path
from typing import Any
from unittest import mock

from tests.bodies_office import IS_LONG, BodiesTest, Stop, Watched, body_of
from tests.office import MEMORY
from vaultdesk.bodies import files, looks, records, store
from vaultdesk.bodies.body import Altered, Body, Missing, places_of
from vaultdesk.bodies.in_folder import FolderBodies
from vaultdesk.bodies.lock import flocked
from vaultdesk.bodies.looks import Part
from vaultdesk.errors import DeskError

DAMAGES = 400
SMALL = 134_217_728  # bytes of what is tried in memory, where a sync takes no time
SEED = 20_261_201
KINDS = (
    "bit", "cut", "longer", "zeros", "other", "link", "folder", "gone", "empty", "pipe", "linked", "misplaced",
)  # fmt: skip
READ_ALONE = ("bit", "zeros", "other")  # of these, which only who reads the bytes can find
DESK = Path(__file__).resolve().parents[1]


class Adding(BodiesTest):
    def test_it_is_in_its_place_with_its_mode_and_nothing_is_left_incoming(self) -> None:
        os.umask(0)
        it = self.added(b"a deed")
        path = self.path(it)
        self.assertEqual((path.read_bytes(), path.stat().st_mode & 0o7777), (b"a deed", 0o400))
        for above in (path.parents[0], path.parents[1], self.places.store, self.places.store / "incoming"):
            self.assertEqual(above.stat().st_mode & 0o7777, 0o700, above)
        self.assertEqual(self.inside("incoming"), [])
        self.assertTrue(self.bodies.has(it))
        self.assertEqual([found.body for found in self.bodies.walk()], [it])

    def test_one_that_is_there_isnt_written_again(self) -> None:
        it = self.added(b"a deed")
        before = self.path(it).stat()
        with self.bodies.lock.shared():
            added = self.bodies.add(io.BytesIO(b"a deed"))
        self.assertEqual((added.body, added.was), (it, "there"))
        after = self.path(it).stat()
        self.assertEqual((before.st_ino, before.st_mtime_ns), (after.st_ino, after.st_mtime_ns))
        self.assertEqual(self.inside("incoming"), [])

    def test_it_comes_in_the_place_of_what_has_another_size_or_is_a_link(self) -> None:
        it = self.added(b"a deed")
        other = self.folder / "other"
        other.write_bytes(b"a deed")
        for is_link in (False, True):
            self.path(it).unlink()
            if is_link:
                self.path(it).symlink_to(other)
            else:
                self.path(it).write_bytes(b"a dee")
            with self.bodies.lock.shared():
                self.assertEqual(self.bodies.add(io.BytesIO(b"a deed")).was, "altered")
            self.assertFalse(self.path(it).is_symlink())
            self.assertEqual(self.path(it).read_bytes(), b"a deed")
        self.assertTrue(other.exists())

    def test_a_folder_in_its_place_is_reported_and_stays(self) -> None:
        it = self.added(b"a deed")
        self.path(it).unlink()
        self.path(it).mkdir()
        (self.path(it) / "of somebody").write_bytes(b"x")
        with self.bodies.lock.shared(), self.assertRaisesRegex(Altered, "a folder is in its place"):
            self.bodies.add(io.BytesIO(b"a deed"))
        self.assertTrue((self.path(it) / "of somebody").exists())
        self.assertEqual(self.inside("incoming"), [])

    def test_what_isnt_wanted_or_is_too_long_or_cant_be_read_leaves_nothing(self) -> None:
        broken = mock.Mock(read=mock.Mock(side_effect=[b"a d", OSError(5, "Input/output error")]))
        with self.bodies.lock.shared():
            with self.assertRaises(Altered):
                self.bodies.add(io.BytesIO(b"a dead"), wanted=body_of(b"a deed"))
            with mock.patch.object(store, "MOST", 5), self.assertRaisesRegex(DeskError, "at most 5 bytes"):
                self.bodies.add(io.BytesIO(b"a deed"))
            with self.assertRaises(OSError):  # as the caller knows which file it is
                self.bodies.add_all([io.BytesIO(b"a deed"), broken])
            with mock.patch.object(store, "MOST", 6):
                self.bodies.add(io.BytesIO(b"a deed"), wanted=body_of(b"a deed"))
        self.assertEqual((self.inside("incoming"), [it.body for it in self.bodies.walk()]), ([], [body_of(b"a deed")]))

    def test_nobody_settles_without_the_lock(self) -> None:
        received = self.bodies.receive(io.BytesIO(b"a deed"))
        with self.assertRaises(RuntimeError):
            self.bodies.settle([received])
        self.bodies.drop(received)
        self.assertEqual((self.inside("incoming"), list(self.bodies.walk())), ([], []))

    def test_a_store_that_isnt_there_isnt_made(self) -> None:
        shutil.rmtree(self.places.store)
        with self.assertRaisesRegex(DeskError, "is its disk mounted"):
            self.again()
        self.places.store.mkdir()  # where a disk should be
        with self.assertRaisesRegex(DeskError, "is its disk mounted"):
            self.again()
        (self.places.store / "lost+found").mkdir()  # a disk of its own
        bodies = FolderBodies.make(self.places.store, self.places.erased)
        self.assertEqual((list(bodies.walk()), self.places.store.stat().st_mode & 0o7777), ([], 0o700))
        self.added(b"a deed", bodies)
        with self.assertRaisesRegex(DeskError, "something is in it"):
            FolderBodies.make(self.places.store, self.places.erased)

    def test_a_name_that_is_no_digest_names_no_body(self) -> None:
        for it in ("../../../../etc/passwd", "A" * 64, "a" * 63, "a" * 64 + "\n", ""):
            with self.assertRaises(ValueError):
                Body(it, 1)
        with self.assertRaises(ValueError):
            Body("a" * 64, -1)

    def test_the_places_are_beside_the_vault(self) -> None:
        found = [it.name for it in places_of(Path("/srv/records.vault"))]
        self.assertEqual(found, ["records.bodies", "records.erased", "records.fixity"])


def damaged(path: Path, content: bytes, chance: random.Random) -> str:
    """Damages the file of a body in one of many ways, and says in which."""
    kind = chance.choice(KINDS)
    at = chance.randrange(len(content))
    path.chmod(0o600)
    if kind == "bit":
        path.write_bytes(content[:at] + bytes([content[at] ^ 1 << chance.randrange(8)]) + content[at + 1:])
    elif kind == "cut":
        path.write_bytes(content[:at])
    elif kind == "longer":
        path.write_bytes(content + chance.randbytes(chance.choice([1, 70_000])))
    elif kind == "zeros":
        path.write_bytes(content[:at] + bytes(len(content) - at - 1) + bytes([content[-1] ^ 255]))
    elif kind == "other":
        path.write_bytes(chance.randbytes(len(content)))
    elif kind == "empty":
        path.write_bytes(b"")
    elif kind == "linked":  # the folder above is a link to one that has the body
        path.parent.rename(path.parents[2] / "elsewhere")
        path.parent.symlink_to("../elsewhere")
    elif kind == "misplaced":
        path.rename(path.parents[2] / path.name)
    else:
        away = path.with_name("away")
        path.rename(away)
        if kind == "link":
            path.symlink_to(away)
        elif kind == "folder":
            path.mkdir()
        elif kind == "pipe":
            os.mkfifo(path)
    return kind


class Damages(BodiesTest):
    def look_at(self, it: Body, kind: str) -> None:
        """Fails unless each way to the body finds that it is damaged."""
        wrong = Missing if kind in ("gone", "misplaced") else Altered
        target, handed = self.folder / "target", b""
        target.write_bytes(b"before")
        with self.assertRaises(wrong), self.bodies.open(it) as reader:
            while piece := reader.read(50_000):
                handed += piece
        self.assertLess(len(handed), it.size if kind in READ_ALONE else 1)
        with self.assertRaises(wrong):
            self.bodies.copy_to(it, target)
        self.assertEqual((target.read_bytes(), sorted(os.listdir(self.folder))), (b"before", self.there))
        found = looks.check(self.bodies, self.held, self.places.fixity, looks.ALL)
        self.assertEqual((list(found.missing), list(found.altered)), ([it], []) if wrong is Missing else ([], [it]))
        self.assertEqual((found.look.looked_at, found.is_sound), (len(self.named), False))
        by_name = looks.check(self.bodies, self.held, self.places.fixity)
        self.assertEqual(by_name.is_sound, kind in READ_ALONE)

    def test_each_of_hundreds_is_found_by_each_who_reads(self) -> None:
        chance = random.Random(SEED)
        contents = [chance.randbytes(size) for size in (1, 2, 49_999, 50_000, 50_001, 100_000, 130_000)]
        for content in contents:
            self.added(content)
        looks.check(self.bodies, self.held, self.places.fixity)
        self.there = sorted([*os.listdir(self.folder), "target"])
        for number in range(DAMAGES):
            content = chance.choice(contents)
            it = body_of(content)
            with self.subTest(number=number):
                kind = damaged(self.path(it), content, chance)
                self.look_at(it, kind)
            self.mend(it, content)
        found = looks.check(self.bodies, self.held, self.places.fixity, looks.ALL)
        self.assertEqual((found.is_sound, found.spare), (True, []))
        # A line for each look, and none was cut.
        self.assertEqual(len(self.records(self.places.fixity)), 2 * DAMAGES + 2)

    def mend(self, it: Body, content: bytes) -> None:
        """Puts a body back, and takes away what a damage left."""
        path = self.path(it)
        if path.parent.is_symlink():
            path.parent.unlink()
            (path.parents[2] / "elsewhere").rename(path.parent)
        if path.is_dir() and not path.is_symlink():
            path.rmdir()
        for left in (path, path.with_name("away"), path.parents[2] / path.name):
            left.unlink(missing_ok=True)
        path.write_bytes(content)
        path.chmod(0o400)

    def test_whoever_reads_just_the_size_has_no_whole_body(self) -> None:
        content = bytes(100_000)
        it = self.added(content)
        self.path(it).chmod(0o600)
        self.path(it).write_bytes(content[:-1] + b"x")
        with self.bodies.open(it) as reader:
            self.assertEqual(reader.read(99_999), content[:-1])
            for _ in range(3):  # also who goes on after that
                with self.assertRaises(Altered):
                    reader.read(1)
            self.assertFalse(reader.is_whole)

    def test_an_empty_body_is_looked_at_as_it_is_opened(self) -> None:
        it = self.added(b"")
        with self.bodies.open(it) as reader:
            self.assertEqual((reader.read(10), reader.is_whole), (b"", True))
        with mock.patch.object(os, "read", lambda *_: b"x"), self.assertRaises(Altered):  # it grew after its look
            self.bodies.open(it)
        wrong = Body("0" * 64, 0)
        self.path(wrong).parent.mkdir(parents=True)
        self.path(wrong).write_bytes(b"")
        with self.assertRaises(Altered):
            self.bodies.open(wrong)

    def test_what_the_disk_doesnt_give_is_altered_and_the_look_goes_on(self) -> None:
        bad, good = self.added(b"bad sector"), self.added(b"good")
        real = os.read

        def read(descriptor: int, most: int) -> bytes:
            if os.readlink(f"/proc/self/fd/{descriptor}").endswith(bad.digest):
                raise OSError(5, "Input/output error")
            return real(descriptor, most)

        with mock.patch.object(os, "read", read):
            found = looks.check(self.bodies, self.held, self.places.fixity, looks.ALL)
        self.assertEqual((list(found.altered), found.look.looked_at, self.bodies.has(good)), ([bad], 2, True))

    def test_a_whole_body_is_copied_over_what_was_there(self) -> None:
        content = random.Random(SEED).randbytes(3_000_000)
        it, target = self.added(content), self.folder / "target"
        target.write_bytes(b"before")
        self.bodies.copy_to(it, target)
        self.assertEqual((target.read_bytes() == content, target.stat().st_mode & 0o777), (True, 0o600))
        with self.assertRaises(DeskError):
            self.bodies.copy_to(it, self.folder / "nowhere" / "target")


class Disk:
    """Which names and bytes a loss of power would take: what was written or renamed, and not synced since."""

    def __init__(self, test: BodiesTest, watched: Watched) -> None:
        self.test = test
        self.files: set[int] = set()  # whose bytes aren't on the disk
        self.folders: set[str] = set()  # whose names aren't
        watched.before, watched.after = self.before, self.after

    @staticmethod
    def _folder(named: dict[str, Any], key: str = "dir_fd") -> str:
        return os.readlink(f"/proc/self/fd/{named[key]}")

    def before(self, name: str, args: tuple[Any, ...], named: dict[str, Any]) -> None:
        """What has to be on the disk before a call."""
        if name == "rename":
            inode = os.lstat(f"{self._folder(named, 'src_dir_fd')}/{args[0]}").st_ino
            self.test.assertNotIn(inode, self.files, "renamed before its bytes are on the disk")
        if name == "write" and "/aside/" in os.readlink(f"/proc/self/fd/{args[0]}"):
            self.test.assertEqual(self.folders, set(), "wiped before it is out of its place on the disk")
        if name == "unlink" and self._folder(named).endswith("/aside"):
            inode = os.lstat(f"{self._folder(named)}/{args[0]}").st_ino
            self.test.assertNotIn(inode, self.files, "the name goes before the zeros are on the disk")
            noted = [it for it in self.test.records(self.test.places.erased) if args[0].partition(".")[0] in it]
            self.test.assertEqual(len(noted), 1, "the name goes before its record is there")

    def after(self, name: str, args: tuple[Any, ...], named: dict[str, Any], found: Any) -> None:
        """What isn't on the disk after a call."""
        if name in ("write", "fchmod"):
            self.files.add(inode_of(args[0]))
        elif name == "mkdir":
            self.folders.add(self._folder(named))
        elif name == "rename":
            self.folders |= {self._folder(named, it) for it in ("src_dir_fd", "dst_dir_fd")}
            self.folders -= {it for it in self.folders if it.endswith("/incoming")}  # what is left there is swept
        elif name == "fsync":
            self.files.discard(inode_of(args[0]))
            self.folders.discard(os.readlink(f"/proc/self/fd/{args[0]}"))
        elif name == "sync_all":
            self.files, self.folders = set(), set()


REAL_FSTAT = os.fstat


def inode_of(descriptor: int) -> int:
    """The number of a file that is open."""
    return REAL_FSTAT(descriptor).st_ino


class Durable(BodiesTest):
    @contextlib.contextmanager
    def disk(self) -> Iterator[Disk]:
        watched = Watched()
        disk = Disk(self, watched)
        with watched.watching():
            yield disk

    def test_what_is_added_is_on_the_disk_with_all_folders_above_it(self) -> None:
        for count in (1, 8, 9, 40):  # a few, each by itself, and many at once
            contents = [b"%d of %d" % (number, count) for number in range(count)]
            with self.disk() as disk, self.bodies.lock.shared():
                added = self.bodies.add_all(map(io.BytesIO, contents))
                self.assertEqual((disk.files, disk.folders), (set(), set()), count)
            self.assertEqual([(it.body, it.was) for it in added], [(body_of(it), "new") for it in contents])
        self.assertEqual(len(self.all_whole()), 58)

    def test_many_take_two_syncs(self) -> None:
        watched, made = Watched(), list[str]()
        watched.after = lambda name, *_: made.append(name)
        with watched.watching(), self.bodies.lock.shared():
            self.bodies.add_all(io.BytesIO(b"%d" % it) for it in range(50))
        self.assertEqual((made.count("sync_all"), made.count("fsync")), (2, 0))

    def test_one_that_another_process_put_there_a_moment_ago_is_on_the_disk_too(self) -> None:
        with self.disk() as disk, self.bodies.lock.shared():
            other = self.again()
            with mock.patch.object(FolderBodies, "_sync_place", lambda *_: None), other.lock.shared():
                other.add(io.BytesIO(b"a deed"))  # it hasn't synced it yet
            self.assertNotEqual(disk.folders, set())
            self.assertEqual(self.bodies.add(io.BytesIO(b"a deed")).was, "there")
            self.assertEqual((disk.files, disk.folders), (set(), set()))

    def test_what_is_erased_is_out_of_its_place_then_zeros_then_noted_then_gone(self) -> None:
        gone = [self.added(b"gone %d" % it) for it in range(20)]
        kept = self.added(b"kept")
        self.named = {kept}
        descriptor = os.open(self.path(gone[0]), os.O_RDONLY)
        with self.disk() as disk:
            done = looks.sweep(self.bodies, self.held, self.versions)
            self.assertEqual((disk.files, disk.folders), (set(), set()))
        with open(descriptor, "rb") as file:
            self.assertEqual(file.read(), bytes(gone[0].size))  # who has it open sees the zeros
        self.assertEqual((sorted(done.done), done.locked), (sorted(gone), []))
        self.assertEqual((list(self.all_whole()), self.inside("aside")), ([kept.digest], []))
        rows = [it.split(",")[1:] for it in self.records(self.places.erased)]
        wanted = [[it.digest, str(it.size), f"{int(it.digest[:4], 16)} 99999"] for it in gone]
        self.assertEqual(sorted(rows), sorted(wanted))
        self.assertEqual(self.places.erased.read_text().splitlines()[0], "moment,sha256,size,versions")

    def test_a_few_erased_are_in_that_order_too(self) -> None:
        it = self.added(b"gone")
        with self.disk() as disk:
            self.bodies.erase(lambda: [it], self.versions)
            self.assertEqual((disk.files, disk.folders), (set(), set()))
        self.assertEqual((self.all_whole(), len(self.records(self.places.erased))), ({}, 1))


class Stops(BodiesTest):
    def each_stop(self, prepare: Callable[[], None], do: Callable[[FolderBodies], None]) -> Iterator[int]:
        """Stops at each call in turn, from the first one up to the last, each time over a store as it was prepared."""
        for number in range(1, 10_000):
            shutil.rmtree(self.places.store)
            self.places.erased.unlink(missing_ok=True)
            self.named = set()
            self.bodies = FolderBodies.make(self.places.store, self.places.erased)
            prepare()
            bodies, watched = self.again(), Watched(number)
            try:
                with watched.watching():
                    do(bodies)
                self.assertGreater(number, 10)
                return
            except Stop:
                yield number

    def settled(self) -> None:
        """Fails unless all that is named is whole, and a sweep afterwards leaves just that, and all else is gone."""
        there = self.all_whole()
        self.assertLessEqual({it.digest for it in self.named}, set(there))
        later = time.time() + 8 * 86_400
        with mock.patch.object(time, "time", lambda: later):
            looks.sweep(self.again(), self.held, self.versions)
        self.assertEqual(self.all_whole(), {it.digest: it.size for it in self.named})
        self.assertEqual((self.inside("incoming"), self.inside("aside")), ([], []))

    def test_of_adding(self) -> None:
        contents = [b"one", b"there", bytes(1_200_000)]

        def prepare() -> None:
            self.added(b"there")

        def do(bodies: FolderBodies) -> None:
            for it in contents:
                self.added(it, bodies)

        for _ in self.each_stop(prepare, do):
            named = set(self.named)
            self.settled()
            self.assertEqual(self.named, named)
            for it in contents:  # it goes on as if nothing had been
                self.added(it, self.again())
            self.settled()

    def test_of_adding_many(self) -> None:
        contents = [b"%d" % it for it in range(10)]

        def do(bodies: FolderBodies) -> None:
            with bodies.lock.shared():
                self.named |= {it.body for it in bodies.add_all(map(io.BytesIO, contents))}

        for _ in self.each_stop(lambda: None, do):
            self.settled()

    def test_of_a_sweep(self) -> None:
        contents = [b"gone 1", b"gone 2", bytes(1_200_000)]

        def prepare() -> None:
            for it in contents:
                self.added(it)
            self.named = set()
            self.added(b"kept")

        def do(bodies: FolderBodies) -> None:
            looks.sweep(bodies, self.held, self.versions)

        gone = {body_of(it) for it in contents}
        for _ in self.each_stop(prepare, do):
            there = self.all_whole()
            kept = set(self.named)
            for it in contents:  # whoever adds the same now has it whole
                self.added(it, self.again())
            self.assertEqual(len(self.all_whole()), 4)
            self.named = kept
            self.settled()
            noted = [it.split(",")[1] for it in self.records(self.places.erased)]
            self.assertEqual(set(noted), {it.digest for it in gone})
            self.assertGreaterEqual(len(noted), len(gone) + sum(it.digest not in there for it in gone))

    def test_of_a_copy(self) -> None:
        target, content = self.folder / "target", bytes(1_200_000)

        def prepare() -> None:
            target.write_bytes(b"before")
            self.added(content)

        def do(bodies: FolderBodies) -> None:
            bodies.copy_to(body_of(content), target)

        for _ in self.each_stop(prepare, do):
            self.assertIn(target.read_bytes(), (b"before", content))


class Erasing(BodiesTest):
    def test_what_is_held_or_new_incoming_or_no_body_stays(self) -> None:
        kept, gone = self.added(b"kept"), self.added(b"gone")
        self.named.remove(gone)
        incoming = self.bodies.receive(io.BytesIO(b"coming"))
        stray = self.path(kept).with_name("notes.txt")
        stray.write_bytes(b"x")
        misplaced = self.places.store / "ab" / gone.digest
        misplaced.parent.mkdir(exist_ok=True)
        misplaced.write_bytes(b"gone")
        self.path(body_of(b"link")).parent.mkdir(parents=True)
        self.path(body_of(b"link")).symlink_to(self.path(kept))
        self.assertEqual(looks.sweep(self.bodies, self.held, self.versions).done, [gone])
        self.assertTrue(stray.exists() and misplaced.exists() and self.path(body_of(b"link")).is_symlink())
        self.assertEqual(self.inside("incoming"), [incoming.name])
        found = looks.check(self.bodies, self.held, self.places.fixity)
        self.assertEqual((found.is_sound, len(found.spare)), (True, 3))

    def test_what_is_incoming_for_more_than_seven_days_goes(self) -> None:
        self.added(b"kept")
        received = self.bodies.receive(io.BytesIO(b"coming"))
        upload = self.places.store / "incoming" / "upload"
        upload.mkdir()
        for it, days in (("1", 8), ("2", 6)):
            (upload / it).write_bytes(b"part")
            os.utime(upload / it, (time.time() - days * 86_400,) * 2)
        os.utime(upload, (time.time() - 9 * 86_400,) * 2)
        part = os.open(upload / "1", os.O_RDONLY)
        looks.sweep(self.bodies, self.held, self.versions)
        self.assertEqual(sorted(self.inside("incoming")), sorted([received.name, "upload"]))  # as its last part is new
        os.utime(upload / "2", (time.time() - 8 * 86_400,) * 2)
        os.utime(upload, (time.time() - 9 * 86_400,) * 2)
        looks.sweep(self.bodies, self.held, self.versions)
        self.assertEqual((self.inside("incoming"), self.inside("aside")), ([received.name], []))
        with open(part, "rb") as file:
            self.assertEqual(file.read(), bytes(4))
        self.assertEqual(self.records(self.places.erased), [])  # it was no body yet

    def test_a_store_of_another_vault_isnt_swept(self) -> None:
        self.added(b"one"), self.added(b"two")
        before = self.all_whole()
        self.named = {body_of(b"of another vault")}
        with self.assertRaisesRegex(DeskError, "of another vault"):
            looks.sweep(self.bodies, self.held, self.versions)
        self.assertEqual(self.all_whole(), before)

    def test_a_ledger_that_fails_half_way_has_nothing_swept(self) -> None:
        one, two = self.added(b"one"), self.added(b"two")

        def half() -> Iterator[Body]:
            yield one
            raise DeskError("the vault can't be read")

        with self.assertRaises(DeskError):
            looks.sweep(self.bodies, half, self.versions)
        self.assertEqual(set(self.all_whole()), {one.digest, two.digest})

    def test_one_that_cant_be_wiped_doesnt_keep_the_others(self) -> None:
        gone = [self.added(b"%d" % it) for it in range(5)]
        self.named = set()
        real = files.wipe

        def wipe(name: str, at: int) -> None:
            if name.startswith(gone[2].digest):
                raise OSError(5, "Input/output error")
            real(name, at)

        with mock.patch.object(files, "wipe", wipe), self.assertRaisesRegex(DeskError, "Input/output error"):
            looks.sweep(self.bodies, self.held, self.versions)
        self.assertEqual([it.partition(".")[0] for it in self.inside("aside")], [gone[2].digest])
        self.assertEqual(self.all_whole(), {})
        self.assertEqual(len(self.records(self.places.erased)), 4)
        looks.sweep(self.bodies, self.held, self.versions)
        self.assertEqual((self.inside("aside"), len(self.records(self.places.erased))), ([], 5))


class Looking(BodiesTest):
    def test_each_look_is_a_line_and_the_last_is_read(self) -> None:
        self.assertIsNone(records.last_look(self.places.fixity))
        kept = [self.added(b"%d" % it) for it in range(30)]
        self.path(kept[0]).unlink()
        self.path(kept[1]).chmod(0o600)
        self.path(kept[1]).write_bytes(b"x")  # of the same size
        self.named.remove(kept[2])
        found = looks.check(self.bodies, self.held, self.places.fixity)
        self.assertEqual(([*found.missing], [*found.altered], len(found.spare)), ([kept[0]], [], 1))
        found = looks.check(self.bodies, self.held, self.places.fixity, looks.ALL)
        self.assertEqual(([*found.missing], [*found.altered], len(found.spare)), ([kept[0]], [kept[1]], 1))
        rows = list(csv.reader(self.places.fixity.read_text().splitlines()))
        self.assertEqual(rows[0], ["moment", "how", "looked_at", "missing", "altered", "spare"])
        wanted = [["names", "29", "1", "0", "1"], ["digests", "29", "1", "1", "1"]]
        self.assertEqual([it[1:] for it in rows[1:]], wanted)
        self.assertEqual(records.last_look(self.places.fixity), found.look)
        with self.places.fixity.open("a") as file:
            file.write("2026-12-01T00:00:00Z,names,29,0,0,1")  # of 12, as the power failed
        self.assertEqual(records.last_look(self.places.fixity), found.look)
        again = looks.check(self.bodies, self.held, self.places.fixity)
        self.assertEqual(records.last_look(self.places.fixity), again.look)

    def test_slices_have_each_body_once(self) -> None:
        kept = [self.added(b"%d" % it) for it in range(60)]
        bad = kept[7]
        self.path(bad).chmod(0o600)
        self.path(bad).write_bytes(b"x")
        spare = self.added(b"spare")
        self.named.remove(spare)
        found = [looks.check(self.bodies, self.held, self.places.fixity, Part(it, 7)) for it in range(1, 8)]
        self.assertEqual(sum(it.look.looked_at for it in found), 60)
        self.assertEqual([it for one in found for it in one.altered], [bad])
        self.assertEqual(sum(it.look.spare for it in found), 1)
        self.assertLess(max(it.look.looked_at for it in found), 20)
        self.assertEqual([it.look.how for it in found], [f"slice {it}/7" for it in range(1, 8)])

    def test_a_slice_is_written_as_two_numbers(self) -> None:
        self.assertEqual(Part.read("3/30"), Part(3, 30))
        for it in ("0/3", "4/3", "3", "3/", "/3", "a/3", "1/0", "-1/3"):
            with self.assertRaises(DeskError):
                Part.read(it)

    def test_what_was_removed_and_swept_meanwhile_isnt_missing(self) -> None:
        kept, gone = self.added(b"kept"), self.added(b"gone")
        real = self.bodies.open

        def opened(it: Body) -> Any:
            if gone in self.named:
                self.named.remove(gone)
                looks.sweep(self.again(), self.held, self.versions)
            return real(it)

        with mock.patch.object(self.bodies, "open", opened):
            found = looks.check(self.bodies, self.held, self.places.fixity, looks.ALL)
        self.assertEqual((found.missing, found.altered, self.bodies.has(kept)), ({}, {}, True))

    def test_what_is_named_meanwhile_isnt_spare(self) -> None:
        self.added(b"kept")
        real = FolderBodies.walk

        def walk(bodies: FolderBodies) -> Any:
            self.added(b"new", self.again())
            return real(bodies)

        with mock.patch.object(FolderBodies, "walk", walk):
            found = looks.check(self.bodies, self.held, self.places.fixity)
        self.assertEqual((found.spare, len(self.all_whole())), ([], 2))

    def test_lines_of_many_at_once_come_one_after_another(self) -> None:
        self.added(b"kept")
        threads = [threading.Thread(target=lambda: [
            looks.check(self.again(), self.held, self.places.fixity) for _ in range(20)
        ]) for _ in range(4)]
        with flocked(self.places.fixity, fcntl.LOCK_EX):  # somebody writes it just now
            for it in threads:
                it.start()
            time.sleep(0.3)
            self.assertEqual(self.places.fixity.read_bytes(), b"")
        for it in threads:
            it.join()
        rows = list(csv.reader(self.places.fixity.read_text().splitlines()))
        self.assertEqual((len(rows), {len(it) for it in rows}, rows.count(rows[0])), (81, {6}, 1))


class AtOnce(BodiesTest):
    def test_a_sweep_waits_for_the_line_and_asks_the_ledger_after_it(self) -> None:
        order, added = list[str](), threading.Event()

        def held() -> list[Body]:
            order.append("asked")
            return self.held()

        def sweep() -> None:
            added.wait(10)
            looks.sweep(self.again(), held, self.versions)

        thread = threading.Thread(target=sweep)
        thread.start()
        with self.bodies.lock.shared():
            it = self.bodies.add(io.BytesIO(b"a deed")).body
            added.set()
            time.sleep(0.3)
            order.append("named")
            self.named.add(it)
        thread.join()
        self.assertEqual((order, set(self.all_whole())), (["named", "asked"], {it.digest}))

    def test_who_adds_after_a_sweep_asked_waits_for_it(self) -> None:
        order = list[str]()

        def held() -> list[Body]:
            time.sleep(0.1)
            order.append("swept")
            return self.held()

        def add() -> None:
            other = self.again()
            with other.lock.shared():
                order.append("added")
                self.named.add(other.add(io.BytesIO(b"late")).body)

        sweep = threading.Thread(target=lambda: looks.sweep(self.again(), held, self.versions))
        late = threading.Thread(target=add)
        with self.bodies.lock.shared():
            for it in (sweep, late):
                it.start()
                time.sleep(0.2)
            self.assertEqual(order, [])
        for it in (sweep, late):
            it.join()
        self.assertEqual((order, len(self.all_whole())), (["swept", "added"], 1))

    def test_a_thread_that_shares_the_lock_erases_nothing(self) -> None:
        with self.bodies.lock.shared():
            with self.bodies.lock.shared():
                self.assertRaises(RuntimeError, looks.sweep, self.bodies, self.held, self.versions)
            self.assertTrue(self.bodies.lock.is_shared)
        self.assertFalse(self.bodies.lock.is_shared)
        looks.sweep(self.bodies, self.held, self.versions)

    def test_wiping_keeps_nobody_waiting(self) -> None:
        gone = self.added(b"gone")
        self.named = set()
        wiping, goes_on, real, went_on = threading.Event(), threading.Event(), files.wipe, list[bool]()

        def wipe(name: str, at: int) -> None:
            wiping.set()
            went_on.append(goes_on.wait(5))
            real(name, at)

        with mock.patch.object(files, "wipe", wipe):
            thread = threading.Thread(target=looks.sweep, args=(self.again(), self.held, self.versions))
            thread.start()
            wiping.wait(10)
            self.assertEqual(self.added(b"gone"), gone)  # the same body comes again meanwhile
            goes_on.set()
            thread.join()
        self.assertEqual((went_on, self.all_whole()), ([True], {gone.digest: gone.size}))

    def test_two_who_add_and_one_who_sweeps(self) -> None:
        ledger, ends = self.folder / "ledger", time.time() + (20 if IS_LONG else 3)
        ledger.write_text("")
        context = multiprocessing.get_context("fork")
        given = (self.places.store, ledger, ends)
        processes = [context.Process(target=adds, args=(*given, it)) for it in range(2)]
        processes.append(context.Process(target=sweeps, args=given))
        for it in processes:
            it.start()
        for it in processes:
            it.join()
        self.assertEqual([it.exitcode for it in processes], [0, 0, 0])
        named = read_ledger(ledger)
        there = self.all_whole()
        self.assertGreater(len(named), 20)
        self.assertLessEqual({it.digest for it in named}, set(there))
        self.assertGreater(len(self.records(self.places.erased)), 5)


def read_ledger(path: Path) -> set[Body]:
    """The bodies that are held: of `+` lines without a `-` line after them."""
    held = set[Body]()
    for line in path.read_text().splitlines():
        sign, digest, size = line.split(" ")
        (held.add if sign == "+" else held.discard)(Body(digest, int(size)))
    return held


def _note(path: Path, sign: str, it: Body) -> None:
    with path.open("a") as file:
        file.write(f"{sign} {it.digest} {it.size}\n")


def adds(place: Path, ledger: Path, ends: float, number: int) -> None:
    """Adds bodies of few contents and names them, and removes the versions of some, until that moment."""
    bodies, chance = FolderBodies(place, place.with_suffix(".erased")), random.Random(number)
    while time.time() < ends:
        content = b"%d" % chance.randrange(60) * chance.choice([1, 1_000])
        with bodies.lock.shared():
            it = bodies.add(io.BytesIO(content)).body
            time.sleep(0.001)
            _note(ledger, "+", it)
        if chance.random() < 0.5:
            _note(ledger, "-", it)


def sweeps(place: Path, ledger: Path, ends: float) -> None:
    """Sweeps until that moment."""
    bodies = FolderBodies(place, place.with_suffix(".erased"))
    while time.time() < ends:
        with contextlib.suppress(DeskError):  # where not one body is held just then
            looks.sweep(bodies, lambda: read_ledger(ledger), lambda _: [])


MEASURE = """
import resource, sys
from pathlib import Path
from vaultdesk.bodies.in_folder import FolderBodies
from vaultdesk.bodies.lock import flocked
place, stream, target = map(Path, sys.argv[1:4])
bodies = FolderBodies.make(place, place.with_suffix(".erased"))
with bodies.lock.shared(), stream.open("rb") as source:
    body = bodies.add(source).body
with bodies.open(body) as reader:
    reader.look()
if sys.argv[4:]:
    bodies.copy_to(body, target)
    bodies.erase(lambda: [body], lambda _: [])
print(body.digest, body.size, resource.getrusage(resource.RUSAGE_SELF).ru_maxrss)
"""


class Large(unittest.TestCase):
    def measured(self, size: int) -> list[str]:
        """What a process prints that adds and reads a sparse stream of that size, and copies and erases a small one."""
        with tempfile.TemporaryDirectory(dir=None if size > SMALL else MEMORY) as folder:
            stream = Path(folder) / "stream"
            with stream.open("wb") as file:
                file.truncate(size)
            words = [sys.executable, "-c", MEASURE, f"{folder}/records.bodies", str(stream), f"{folder}/target"]
            words += ["all"] if size <= SMALL else []
            done = subprocess.run(words, cwd=DESK, capture_output=True, encoding="utf-8", check=True)
            self.assertTrue(size > SMALL or (Path(folder) / "target").stat().st_size == size)
            return done.stdout.split()

    def look_at(self, size: int, digest: str) -> None:
        """Fails where it takes 64 MiB of memory or more, or comes to another digest."""
        found = self.measured(size)
        self.assertEqual(found[:2], [digest, str(size)])
        self.assertLess(int(found[2]), 65_536, "KiB of memory")

    def test_nothing_at_all(self) -> None:
        self.look_at(0, "e3b0c44298fc1c149afbf4c8996fb92427ae41e4649b934ca495991b7852b855")

    def test_a_stream_of_128_mebibytes(self) -> None:
        self.look_at(SMALL, "254bcc3fc4f27172636df4bf32de9f107f620d559b20d760197e452b97453917")

    @unittest.skipUnless(IS_LONG, "it writes 3 GiB: TRIALS_LONG=1 has it tried")
    def test_a_stream_of_3_gibibytes(self) -> None:
        self.look_at(3_221_225_472, "305b66a59d15b252092fbda9d09711230c429f351897cbd430e7b55a35fd3b97")


class Full(BodiesTest):
    def look_at(self, bodies: FolderBodies) -> None:
        """Fails unless a body that doesn't fit is refused, and the store is as it was."""
        with bodies.lock.shared():
            kept = bodies.add(io.BytesIO(bytes(100_000))).body
            with self.assertRaisesRegex(DeskError, "No space left|File too large"):
                bodies.add(io.BytesIO(bytes(2_097_152)))
            self.assertEqual([it.body for it in bodies.walk()], [kept])
            self.assertEqual(os.listdir(bodies.folder / "incoming"), [])
            self.assertEqual(bodies.add(io.BytesIO(b"small")).was, "new")
        with self.assertRaises(DeskError):
            bodies.copy_to(kept, bodies.folder.parent / "no" / "where")

    @unittest.skipUnless(os.geteuid() == 0, "it mounts a small disk")
    def test_a_full_disk(self) -> None:
        small = self.folder / "small"
        small.mkdir()
        done = subprocess.run(["mount", "-t", "tmpfs", "-o", "size=2m", "tmpfs", str(small)], check=False)
        if done.returncode:
            self.skipTest("nothing may be mounted here")
        self.addCleanup(lambda: subprocess.run(["umount", str(small)], check=True))
        bodies = FolderBodies.make(small / "records.bodies", small / "records.erased")
        self.look_at(bodies)
        with bodies.lock.shared():  # what was copied in part is taken away
            other = bodies.add(io.BytesIO(bytes(800_000))).body
        free = shutil.disk_usage(small).free
        (small / "rest").write_bytes(bytes(free - 500_000))
        with self.assertRaisesRegex(DeskError, "No space left"):
            bodies.copy_to(other, small / "target")
        self.assertEqual(sorted(os.listdir(small)), ["records.bodies", "rest"])

    def test_a_limit_of_a_files_size(self) -> None:
        bodies, before = self.bodies, resource.getrlimit(resource.RLIMIT_FSIZE)
        self.addCleanup(signal.signal, signal.SIGXFSZ, signal.signal(signal.SIGXFSZ, signal.SIG_IGN))
        self.addCleanup(resource.setrlimit, resource.RLIMIT_FSIZE, before)
        resource.setrlimit(resource.RLIMIT_FSIZE, (2_000_000, before[1]))
        self.look_at(bodies)
