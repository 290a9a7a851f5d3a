"""The body store in a bucket: of the house's own gateway, and of a stand-in for what a vault can't show."""

from __future__ import annotations

import datetime as dt
import importlib.util
import io
import os
import subprocess
import sys
import tempfile
import time
import unittest
from collections.abc import Callable
from pathlib import Path
from typing import Any
from unittest import mock

from tests.bodies_office import IS_LONG, Stop, body_of
from tests.office import MEMORY
from tests.s3_office import ANN, SECRET, GatewayTest
from tests.s3_stand_in import StandIn
from vaultdesk import moments
from vaultdesk.bodies import looks
from vaultdesk.bodies.body import Altered, Body, Missing, places_of
from vaultdesk.bodies.in_s3 import Bucket, S3Bodies, client_of
from vaultdesk.errors import DeskError

HAS_BOTO3 = importlib.util.find_spec("boto3") is not None
DESK = Path(__file__).resolve().parents[1]
FIRST, LATER, MIDDLE = "2040-01-01T00:00:00Z", "2045-06-30T12:00:00Z", "2042-01-01T00:00:00Z"
KEYS = {"AWS_ACCESS_KEY_ID": ANN, "AWS_SECRET_ACCESS_KEY": SECRET, "AWS_MAX_ATTEMPTS": "1", "AWS_CONFIG_FILE": "/none"}


def versions(_: str) -> list[int]:
    """The versions that had a body."""
    return [17, 23]


def added(bodies: S3Bodies, content: bytes, until: str | None = None) -> tuple[Body, str]:
    """The body of these bytes, and what was in its place."""
    with bodies.lock.shared():
        found = bodies.add(io.BytesIO(content), until=until)
    return found.body, found.was


@unittest.skipUnless(HAS_BOTO3, "there is no boto3")
class InGateway(GatewayTest):
    """A bucket of a vault, whose locks are proved."""

    def setUp(self) -> None:
        super().setUp()
        self.now = time.time()
        self.enterContext(mock.patch.dict(os.environ, KEYS))
        self.places = places_of(self.folder / "other.vault")
        self.client = client_of(f"http://127.0.0.1:{self.server.server_address[1]}", "us-east-1")
        self.addCleanup(self.client.close)
        bucket = Bucket(self.client, "docs", lock=True)
        self.bodies = S3Bodies.make(self.places.store, self.places.erased, bucket)

    def until(self, it: Body) -> str | None:
        """Until when the vault guards a body, where that is in COMPLIANCE."""
        found = self.client.get_object_retention(Bucket="docs", Key=it.digest)["Retention"]
        assert found["Mode"] == "COMPLIANCE"
        return str(found["RetainUntilDate"].strftime("%Y-%m-%dT%H:%M:%SZ"))

    def test_what_is_added_is_there_and_read_and_walked_over(self) -> None:
        contents = [b"", b"a deed", bytes(range(256)) * 4_000]
        named = [added(self.bodies, it)[0] for it in contents]
        self.assertEqual(named, [body_of(it) for it in contents])
        self.assertEqual({it.body for it in self.bodies.walk()}, set(named))
        for it, content in zip(named, contents, strict=True):
            self.assertTrue(self.bodies.has(it))
            self.bodies.copy_to(it, self.folder / "target")
            self.assertEqual((self.folder / "target").read_bytes(), content)
        self.assertFalse(self.bodies.has(body_of(b"another")))
        self.assertRaises(Missing, self.bodies.open, body_of(b"another"))
        self.assertEqual(added(self.bodies, b"a deed"), (named[1], "there"))
        self.assertEqual(len(self.entries()), 3)  # it wasn't put again
        found = looks.check(self.bodies, lambda: [*named, body_of(b"x")], self.places.fixity, looks.ALL)
        self.assertEqual((list(found.missing), found.altered, found.look.looked_at), ([body_of(b"x")], {}, 4))
        self.assertEqual(os.listdir(self.places.store / "incoming"), [])

    def test_its_lock_is_extended_and_never_shortened(self) -> None:
        it, _ = added(self.bodies, b"a deed", FIRST)
        self.assertEqual(self.until(it), FIRST)
        self.assertEqual((added(self.bodies, b"a deed", LATER)[1], self.until(it)), ("there", LATER))
        self.assertEqual((added(self.bodies, b"a deed", MIDDLE)[1], self.until(it)), ("there", LATER))
        for end in (None, FIRST, MIDDLE):
            self.bodies.keep(it, end)
            self.assertEqual(self.until(it), LATER)
        self.assertEqual(len(self.entries()), 1)

    def test_one_that_came_without_an_end_gets_its_lock_later(self) -> None:
        it, _ = added(self.bodies, b"a deed")
        self.bodies.keep(it, FIRST)
        self.assertEqual(self.until(it), FIRST)

    def test_another_lock_becomes_compliance(self) -> None:
        it, _ = added(self.bodies, b"a deed")
        retention = {"Mode": "GOVERNANCE", "RetainUntilDate": dt.datetime(2045, 6, 30, 12, tzinfo=dt.timezone.utc)}
        self.client.put_object_retention(Bucket="docs", Key=it.digest, Retention=retention)
        self.bodies.keep(it, FIRST)
        self.assertEqual(self.until(it), LATER)  # in COMPLIANCE now, and for no less time

    def test_a_bucket_that_isnt_locked_locks_nothing(self) -> None:
        bodies = S3Bodies(self.places.store, self.places.erased, Bucket(self.client, "docs"))
        it, _ = added(bodies, b"a deed", FIRST)
        added(bodies, b"a deed", LATER)
        self.assertEqual(self.bodies._retention(it), {})

    def test_a_sweep_takes_what_isnt_locked_and_names_what_is(self) -> None:
        kept, _ = added(self.bodies, b"kept")
        gone, _ = added(self.bodies, b"gone")
        locked, _ = added(self.bodies, b"locked", FIRST)
        done = looks.sweep(self.bodies, lambda: [kept], versions)
        self.assertEqual((done.done, done.locked), ([gone], [locked]))
        self.assertEqual({it.body for it in self.bodies.walk()}, {kept, locked})
        rows = [it.split(",")[1:] for it in self.places.erased.read_text().splitlines()[1:]]
        self.assertEqual(rows, [[gone.digest, "4", "17 23"]])
        self.assertEqual(os.listdir(self.places.store / "aside"), [])
        self.door.engine.at = "2040-01-02T00:00:00Z"  # its end is over
        with mock.patch.object(moments, "tomorrow", lambda: moments.LAST):
            self.assertEqual(looks.sweep(self.bodies, lambda: [kept], versions).done, [locked])
        self.assertEqual([it.body for it in self.bodies.walk()], [kept])

    def test_what_a_marker_hides_is_missing_and_comes_back_whole(self) -> None:
        it, _ = added(self.bodies, b"a deed", FIRST)
        self.client.delete_object(Bucket="docs", Key=it.digest)
        found = looks.check(self.bodies, lambda: [it], self.places.fixity)
        self.assertEqual((list(found.missing), self.bodies.has(it)), ([it], False))
        time.sleep(1.1)  # the same put in one second is one that is sent again
        self.assertEqual((added(self.bodies, b"a deed", FIRST)[1], self.until(it)), ("new", FIRST))


@unittest.skipUnless(HAS_BOTO3, "there is no boto3")
class InStandIn(unittest.TestCase):
    """A bucket that is damaged, refuses, or breaks off."""

    def setUp(self) -> None:
        self.folder = Path(self.enterContext(tempfile.TemporaryDirectory(dir=MEMORY)))
        (self.folder / "objects").mkdir()
        self.store = StandIn(self.folder / "objects")
        self.addCleanup(self.store.server_close)
        self.addCleanup(self.store.shutdown)
        self.enterContext(mock.patch.dict(os.environ, KEYS))
        self.places = places_of(self.folder / "records.vault")
        self.client = client_of(self.store.endpoint, "us-east-1")
        self.addCleanup(self.client.close)
        self.bodies = S3Bodies.make(self.places.store, self.places.erased, Bucket(self.client, "docs", lock=True))

    def again(self) -> S3Bodies:
        """The store as another process finds it."""
        return S3Bodies(self.places.store, self.places.erased, Bucket(self.client, "docs", lock=True))

    def test_each_damage_is_found(self) -> None:
        content = bytes(range(256)) * 1_000
        it, _ = added(self.bodies, content)
        target = self.folder / "target"
        target.write_bytes(b"before")
        spoilt = [content[:-1], content + b"x", b"", content[:-1] + b"x", b"x" + content[1:]]
        for number, other in enumerate(spoilt):
            self.store.spoil(it.digest, other)
            with self.assertRaises(Altered), self.bodies.open(it) as reader:
                handed = b""
                while piece := reader.read(50_000):
                    handed += piece
                    self.assertLess(len(handed), it.size)
            self.assertRaises(Altered, self.bodies.copy_to, it, target)
            self.assertEqual(target.read_bytes(), b"before")
            found = looks.check(self.bodies, lambda: [it], self.places.fixity, looks.ALL)
            self.assertEqual((found.missing, list(found.altered)), ({}, [it]))
            by_name = looks.check(self.bodies, lambda: [it], self.places.fixity)
            self.assertEqual(list(by_name.altered), [it] if number < 3 else [])
        self.store.spoil(it.digest, b"x")
        self.assertEqual(added(self.bodies, content), (it, "altered"))  # which mends it
        self.bodies.copy_to(it, target)
        self.assertEqual(target.read_bytes(), content)

    def test_an_answer_that_is_cut_is_no_damage_and_nothing_whole(self) -> None:
        it, _ = added(self.bodies, bytes(300_000))
        self.store.cut = 1
        with self.assertRaises(DeskError) as caught:
            self.bodies.copy_to(it, self.folder / "target")
        self.assertNotIsInstance(caught.exception, Altered | Missing)
        self.assertFalse((self.folder / "target").exists())

    def test_a_store_that_gives_no_answer_is_an_error_and_no_line(self) -> None:
        it, _ = added(self.bodies, b"a deed")
        self.store.fails = 503
        calls: list[Callable[[], Any]] = [
            lambda: self.bodies.has(it), lambda: self.bodies.open(it), lambda: added(self.bodies, b"x"),
            lambda: looks.check(self.bodies, lambda: [it], self.places.fixity), lambda: list(self.bodies.walk()),
            lambda: looks.sweep(self.bodies, list, versions),
        ]
        for call in calls:
            with self.assertRaises(DeskError) as caught:
                call()
            self.assertNotIsInstance(caught.exception, Altered | Missing)
        self.assertFalse(self.places.fixity.exists() or self.places.erased.exists())
        self.store.fails = 0
        self.assertTrue(self.bodies.has(it))

    def test_all_pages_and_all_versions(self) -> None:
        named = [added(self.bodies, b"%d" % it)[0] for it in range(11)]
        self.store.put("notes.txt", b"x")
        self.assertEqual(len(list(self.bodies.walk())), 12)
        self.store.put(named[0].digest, b"0")  # a second version, which another client put
        self.client.delete_object(Bucket="docs", Key=named[1].digest)
        done = self.bodies.erase(lambda: named[:2], versions)
        self.assertEqual((done.done.sort(), done.locked), (None, []))
        self.assertEqual([self.store.objects[it.digest] for it in named[:2]], [[], []])
        self.assertEqual(looks.check(self.bodies, lambda: named[2:], self.places.fixity).spare, ["notes.txt"])

    def test_an_end_that_is_over_guards_nothing(self) -> None:
        it, _ = added(self.bodies, b"a deed", "2020-01-01T00:00:00Z")
        self.assertEqual(self.bodies._retention(it), {})

    def test_a_stop_at_each_call_leaves_no_erased_body_without_its_record(self) -> None:
        real = self.bodies._ask
        for number in range(1, 20):
            kept, gone = added(self.bodies, b"kept")[0], added(self.bodies, b"gone")[0]
            self.places.erased.unlink(missing_ok=True)
            bodies, left = self.again(), number

            def ask(call: str, **given: Any) -> Any:
                nonlocal left
                left -= 1
                if not left:
                    raise Stop
                return real(call, **given)

            with mock.patch.object(bodies, "_ask", ask), mock.patch.object(bodies, "_wipe_aside", self.stop):
                try:
                    looks.sweep(bodies, lambda: [kept], versions)
                except Stop:
                    pass
            was_there = self.again().has(gone)
            looks.sweep(self.again(), lambda: [kept], versions)
            self.assertEqual((self.again().has(gone), self.again().has(kept)), (False, True))
            noted = self.places.erased.read_text().splitlines()[1:]
            self.assertEqual(([it.split(",")[1] for it in noted]), [gone.digest], (number, was_there))
            if left > 0:
                self.assertGreater(number, 1)
                return

    @staticmethod
    def stop(*_: Any) -> Any:
        """It ends before the record."""
        raise Stop

    def test_what_a_stop_left_and_is_there_again_has_no_record(self) -> None:
        kept, gone = added(self.bodies, b"kept")[0], added(self.bodies, b"gone")[0]
        with mock.patch.object(self.bodies, "_delete", self.stop), self.assertRaises(Stop):
            looks.sweep(self.bodies, lambda: [kept], versions)
        self.assertEqual(len(os.listdir(self.places.store / "aside")), 1)
        looks.sweep(self.again(), lambda: [kept, gone], versions)  # it was named in the meantime
        self.assertEqual((self.bodies.has(gone), self.places.erased.exists()), (True, False))


MEASURE = """
import os, resource, sys
from pathlib import Path
from vaultdesk.bodies.in_s3 import Bucket, S3Bodies, client_of
place, stream, endpoint = Path(sys.argv[1]), Path(sys.argv[2]), sys.argv[3]
bodies = S3Bodies.make(place, place.with_suffix(".erased"), Bucket(client_of(endpoint, "us-east-1"), "docs"))
before = resource.getrusage(resource.RUSAGE_SELF).ru_maxrss
with bodies.lock.shared(), stream.open("rb") as source:
    body = bodies.add(source).body
with bodies.open(body) as reader:
    reader.look()
print(body.size, before, resource.getrusage(resource.RUSAGE_SELF).ru_maxrss)
"""


@unittest.skipUnless(HAS_BOTO3, "there is no boto3")
class Large(unittest.TestCase):
    def test_memory_doesnt_grow_with_a_body(self) -> None:
        size = 3_221_225_472 if IS_LONG else 134_217_728
        with tempfile.TemporaryDirectory(dir=None if IS_LONG else MEMORY) as folder:
            stream = Path(folder) / "stream"
            with stream.open("wb") as file:
                file.truncate(size)
            (Path(folder) / "objects").mkdir()
            there = StandIn(Path(folder) / "objects")
            self.addCleanup(there.server_close)
            self.addCleanup(there.shutdown)
            words = [sys.executable, "-c", MEASURE, f"{folder}/records.bodies", str(stream), there.endpoint]
            done = subprocess.run(
                words, cwd=DESK, capture_output=True, encoding="utf-8", check=True, env={**os.environ, **KEYS}
            )
            found, before, after = map(int, done.stdout.split())
        self.assertEqual(found, size)
        self.assertLess(after - before, 32_768, "KiB of memory beside the libraries")
