"""The gateway over a server's door: as over an engine of its own, while others work on the vault too."""

from __future__ import annotations

import contextlib
import hashlib
import io
import itertools
import json
from collections.abc import Callable
from pathlib import Path
from typing import Any
from unittest import mock

from tests.office import PROGRAM
from tests.s3_office import CID, NOW, GatewayTest
from tests.served import FalseServer, started
from vaultdesk import moments, reading
from vaultdesk.config import Desk
from vaultdesk.engine import Engine
from vaultdesk.errors import EngineError
from vaultdesk.s3 import settings, words
from vaultdesk.s3.door import Told
from vaultdesk.s3.faults import Fault
from vaultdesk.ways import Replay

ONCE = {"amz-sdk-invocation-id": "d969f1fc-afca-45f4-93cf-bb107518bc68"}


class Served(GatewayTest):
    def start(self) -> None:
        self.at = None
        self.process = started(self, self.file, str(self.folder / "records.lines"))
        super().start()

    def end_server(self) -> None:
        self.desk("close", "--as", "registrar", at=None)
        self.assertEqual(self.process.wait(60), 0)

    def test_what_is_put_is_read_and_listed(self) -> None:
        self.done("PUT", "/docs/a", b"hello")
        reply = self.done("GET", "/docs/a")
        self.assertEqual(reply.body, b"hello")
        self.done("HEAD", "/docs/a")
        listed = self.done("GET", "/docs")
        self.assertEqual(listed.all("Key"), ["a"])
        self.assertEqual(listed.all("ETag"), [reply.headers["etag"]])
        self.assertFalse(isinstance(self.door.engine._way, Replay))
        self.refused("NoSuchKey", 404, self.ask("GET", "/docs/none"))

    def test_an_etag_is_noted_for_just_the_second_of_the_admission(self) -> None:
        seconds = (moments.of_seconds(it) for it in itertools.count(NOW))
        with mock.patch("vaultdesk.moments.now", side_effect=seconds):
            self.done("PUT", "/docs/a", b"x")
            admitted = self.door.ask("ann", "head", bucket="docs", key="a").value["admitted"]
            with mock.patch.object(self.door, "ask", side_effect=self.without_get(self.door.ask)):
                self.done("PUT", "/docs/b", b"x")
        # A second that isn't certain is asked for; where the caller may not read, nothing is noted.
        self.assertEqual(self.vault.etags.known, {1: (admitted, hashlib.md5(b"x").hexdigest())})
        with mock.patch("vaultdesk.moments.now", return_value="2026-11-28T01:12:00Z"):
            reply = self.done("PUT", "/docs/c", b"x")
        self.assertEqual(list(self.vault.etags.known), [1, int(reply.headers["x-amz-version-id"])])

    @staticmethod
    def without_get(ask: Callable[..., Told]) -> Callable[..., Told]:
        """What is answered to a caller who lacks the right get."""

        def answered(caller: str, do: str, **members: Any) -> Told:
            if do in ("get", "head"):
                raise Fault("AccessDenied", "right:get")
            return ask(caller, do, **members)

        return answered

    def test_what_was_removed_is_asked_of_the_server(self) -> None:
        for key in ("a%22%2Cb", "b", "c"):
            self.done("PUT", f"/docs/{key}", key.encode())
        for target in ("a%22%2Cb?versionId=1", "c?versionId=3"):
            self.done("DELETE", f"/docs/{target}")
        self.assertEqual(list(self.door.removed()), [1, 3])
        words._shorten(self.vault.etags, self.door)
        self.assertEqual(sorted(self.vault.etags.known), [2])
        self.end_server()
        with contextlib.redirect_stderr(io.StringIO()) as said:
            words._shorten(self.vault.etags, self.door)
        self.assertIn("isn't shortened", said.getvalue())

    def test_others_work_on_the_vault_meanwhile(self) -> None:
        self.done("PUT", "/docs/a", b"hello")
        listed = json.loads(self.desk("ls", "docs", "--json", at=None).out)
        self.assertEqual([it["key"] for it in listed], ["a"])
        self.assertEqual(self.desk("rm", "docs", "a", at=None).status, 0)
        self.refused("NoSuchKey", 404, self.ask("GET", "/docs/a"))

    def test_a_server_that_is_started_anew(self) -> None:
        first = self.done("PUT", "/docs/a", b"hello", ONCE)
        self.end_server()
        with contextlib.redirect_stderr(io.StringIO()) as said:
            self.refused("InternalError", 500, self.ask("PUT", "/docs/a", b"hello", ONCE))
        self.assertIn("no server takes lines there", said.getvalue())
        self.process = started(self, self.file, str(self.folder / "records.lines"))
        again = self.done("PUT", "/docs/a", b"hello", ONCE)
        self.assertEqual(again.headers["x-amz-version-id"], first.headers["x-amz-version-id"])
        self.assertEqual(len(self.entries()), 1)

    def test_a_bucket_that_is_made_meanwhile_is_in_the_next_list(self) -> None:
        self.assertEqual(self.done("GET", "/").all("Name"), ["docs"])
        self.desk("buckets", "--add", "maps", "--department", "records", "--as", "registrar", at=None)
        self.done("PUT", "/maps/a", b"hello")
        self.assertEqual(self.done("GET", "/").all("Name"), ["docs", "maps"])
        self.assertEqual(self.done("GET", "/", who=CID).all("Name"), ["cases"])


class OwnBuckets(GatewayTest):
    """The buckets of a vault that the gateway has to itself."""

    def test_they_are_read_once_and_again_after_an_engine_that_ended(self) -> None:
        with mock.patch("vaultdesk.reading.rows", side_effect=reading.rows) as read:
            for _ in range(2):
                self.assertEqual(self.done("GET", "/").all("Name"), ["docs"])
            self.assertEqual(read.call_count, 1)
        way = self.door.engine._way
        assert isinstance(way, Replay) and way._child
        way._child.kill()
        way._child.wait()
        self.lines({"do": "add-bucket", "as": "registrar", "bucket": "maps", "dept": "records"})
        with contextlib.redirect_stderr(io.StringIO()):
            self.refused("InternalError", 500, self.ask("GET", "/docs"))
        self.assertEqual(self.done("GET", "/").all("Name"), ["docs", "maps"])

    def test_what_was_removed_is_read_before_the_vault_is_open(self) -> None:
        for _ in range(2):
            self.done("PUT", "/docs/a", b"hello")
        self.done("DELETE", "/docs/a?versionId=1")
        self.stop()
        self.assertEqual(list(self.door.removed()), [1])
        self.start()

    def test_those_without_a_default_retention_are_said(self) -> None:
        self.stop()
        self.assertEqual(words._unlocked(self.door.engine), ["cases", "docs"])
        self.lines({"do": "set-default", "bucket": "docs", "mode": "GOVERNANCE", "days": 3})
        self.assertEqual(words._unlocked(Engine(Desk(PROGRAM, self.file))), ["cases"])
        self.start()
        none = self.folder / "none.vault"
        self.assertRaises(EngineError, words._unlocked, Engine(Desk(PROGRAM, none)))


NAMES = [f"b{it:04}" for it in range(2_001)]


class OfAServer(GatewayTest):
    """What a server says of its buckets, and what it doesn't say."""

    def make(self) -> None:
        """Makes no vault: a false server answers."""

    def start(self) -> None:
        self.at = None
        self.refusal: dict[str, object] | None = None
        self.where = self.folder / "records.lines"
        self.false = FalseServer(self.where, self.answer)
        super().start()
        self.door.admin = "chief"

    def stop(self) -> None:
        super().stop()
        self.false.close()
        self.where.unlink()

    def answer(self, line: dict[str, Any]) -> dict[str, Any]:
        """The reply of a server, of whose buckets each third is one of the caller's department."""
        if line["do"] == "register":
            first = line["after"]
            text = "".join(f"{it},docs,k\n" for it in range(first + 1, first + 3))
            text = text if first else f"version,bucket,key\n{text}"
            return {"ok": {"text": text, "next": None if first else 1_000}}
        if line["do"] != "buckets":
            is_own = int(line["bucket"][1:]) % 3 == 0
            denied = {"code": "AccessDenied", "n": 1, "reason": "department"}
            return {"ok": {"entries": [], "more": False}} if is_own else {"error": denied}
        if self.refusal:
            return {"error": self.refusal}
        later = [it for it in NAMES if it > line.get("after", "")]
        return {"ok": {"buckets": later[:1_000], "more": len(later) > 1_000}}

    def test_they_come_page_after_page(self) -> None:
        self.assertEqual(self.done("GET", "/").all("Name"), NAMES[::3])
        asked = [it for it in self.false.lines if it["do"] == "buckets"]
        self.assertEqual([it.get("after") for it in asked], [None, NAMES[999], NAMES[1_999]])
        self.assertEqual({it["as"] for it in asked}, {"chief"})
        self.assertEqual({it["as"] for it in self.false.lines if it["do"] != "buckets"}, {"ann"})

    def test_what_was_removed_comes_page_after_page(self) -> None:
        self.assertEqual(list(self.door.removed()), [1, 2, 1_001, 1_002])
        self.assertEqual({it["as"] for it in self.false.lines}, {"chief"})

    def test_who_may_not_ask_is_said_in_the_log_alone(self) -> None:
        for refusal, said in (
            ({"code": "MalformedBody", "n": 12}, "of an earlier version"),
            ({"code": "AccessDenied", "n": 1, "reason": "right:admin"}, "chief can't ask which buckets there are"),
            ({"code": "AccessDenied", "n": 1, "reason": "unknown-caller"}, "see admin in the settings"),
        ):
            self.refusal = refusal
            with contextlib.redirect_stderr(io.StringIO()) as log:
                reply = self.ask("GET", "/")
            self.refused("InternalError", 500, reply)
            self.assertIn(said, log.getvalue())
            self.assertNotIn(b"chief", reply.body)
        self.refusal = {"code": "Memory", "n": 22}
        self.refused("SlowDown", 503, self.ask("GET", "/"))

    def test_a_gateway_begins_with_a_server_of_its_version_alone(self) -> None:
        text = f'vault = "{self.file}"\nkeys = "{self.keys}"\nport = 0\ndoor = "{self.where}"\nadmin = "chief"\n'
        given = self.written("s3.toml", text.encode())
        for refusal, said in (
            ({"code": "MalformedBody", "n": 12}, "by the program of this version"),
            ({"code": "AccessDenied", "n": 1, "reason": "right:admin"}, "right admin"),
        ):
            self.refusal = refusal
            done = self.desk("s3", "serve", "--settings", given, at=None)
            self.assertEqual((done.status, done.out), (1, ""))
            self.assertIn(said, done.err)

    def test_a_file_that_cant_be_read_keeps_no_gateway_from_serving(self) -> None:
        engine = Engine(Desk(PROGRAM, self.folder / "none.vault", None, str(self.where)))
        with contextlib.redirect_stderr(io.StringIO()) as log:
            self.assertEqual(words._unlocked(engine), [])
        self.assertIn("it isn't known which buckets have no default retention", log.getvalue())


class Settings(GatewayTest):
    def test_a_door_and_who_asks_there_are_read(self) -> None:
        text = f'vault = "v"\nkeys = "{self.keys}"\n'
        given = settings.read(Path(self.written("s3.toml", text.encode())))
        self.assertEqual((given.door, given.admin), (None, "registrar"))
        given = settings.read(Path(self.written("s3.toml", f'{text}door = "/run/x"\nadmin = "chief"\n'.encode())))
        self.assertEqual((given.door, given.admin), ("/run/x", "chief"))
