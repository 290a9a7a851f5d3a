"""A vault that is served: what is asked by the server's door, and what is read of the vault meanwhile."""

from __future__ import annotations

import argparse
import contextlib
import json
import os
import shutil
import socket
import subprocess
import tempfile
import threading
import time
from collections.abc import Callable
from concurrent.futures import ThreadPoolExecutor
from pathlib import Path
from unittest import mock

from tests.office import PROGRAM, Done
from tests.served import ServedTest
from vaultdesk import documents, door, snapshot
from vaultdesk.config import Desk
from vaultdesk.engine import Engine
from vaultdesk.errors import DeskError
from vaultdesk.owner import Owner


class ByTheDoor(ServedTest):
    """Without --at all along: a server's lines have the clock."""

    def call(self, *words: str) -> Done:
        return self.desk(*words, at=None)

    def json(self, *words: str) -> object:
        done = self.desk(*words, "--json", at=None)
        self.assertEqual(done.status, 0, done.err)
        return json.loads(done.out)

    def test_documents_and_locks(self) -> None:
        self.serve()
        before = int(time.time())
        path = self.written("a.txt", b"hello \0 there")
        self.assertEqual(self.done("put", "docs", "Zürich/1", path, at=None), "1\n")
        self.assertEqual(self.done("get", "docs", "Zürich/1", at=None), "hello \0 there")
        [listed] = json.loads(self.done("ls", "docs", "--json", at=None))
        admitted = time.strptime(listed["admitted"], "%Y-%m-%dT%H:%M:%SZ")
        self.assertLessEqual(abs(before - (time.mktime(admitted) - time.timezone)), 60)
        self.done("hold", "docs", "Zürich/1", "--case", "Miller 17", at=None)
        done = self.call("delete", "docs", "Zürich/1", "--version", "1", "--yes")
        self.assertEqual(done.status, 1)
        self.assertIn("legal-hold", done.out)
        self.done("release", "--case", "Miller 17", at=None)
        self.done("delete", "docs", "Zürich/1", "--version", "1", "--yes", at=None)
        self.assertEqual(self.call("get", "docs", "Zürich/1").status, 1)

    def test_of_many_who_put_a_new_one_at_once_one_does(self) -> None:
        self.serve()
        words = argparse.Namespace(bucket="docs", key="a")
        look, everybody, looked = documents._look_new, threading.Barrier(10), set[int]()

        def look_first(engine: Engine, asked: argparse.Namespace) -> None:
            look(engine, asked)
            if threading.get_ident() not in looked:
                looked.add(threading.get_ident())
                everybody.wait(300)  # all of them have found nothing

        def put(number: int) -> int | None:
            members = {"bucket": "docs", "key": "a", "text": f"by number {number // 2}"}
            with Engine(Desk(PROGRAM, self.file, "ann")) as engine, contextlib.suppress(DeskError):
                return documents._put_new(engine, words, members)
            return None

        with mock.patch("vaultdesk.documents._look_new", look_first), ThreadPoolExecutor(10) as pool:
            done = list(pool.map(put, range(10)))
        self.assertEqual(sorted(it for it in done if it is not None), [1])
        self.assertEqual(len(json.loads(self.done("ls", "docs", "--json", at=None))), 1)

    def test_a_new_one_above_a_put_that_came_in_between_is_said(self) -> None:
        self.serve()
        self.done("put", "docs", "a", self.written("a", b"first"), at=None)
        with mock.patch("vaultdesk.documents._look_new"):
            done = self.desk("put", "docs", "a", self.written("b", b"second"), "--new", at=None)
        self.assertEqual((done.status, done.out), (1, "2\n"))
        self.assertIn("version 1 of the key came at the same moment", done.err)

    def test_a_dry_run_asks_a_copy(self) -> None:
        self.lines({"do": "put", "bucket": "docs", "key": "a", "text": "hello", "hold": "ON"})
        self.serve()
        tried = ("--dry-run", "--door", str(self.where))
        done = self.call("delete", "docs", "a", "--version", "1", *tried)
        self.assertEqual((done.status, done.err), (1, "vaultdesk delete: 1 of 1 would be refused\n"))
        self.assertIn("AccessDenied legal-hold", done.out)
        self.assertIn("would be: no retention, hold OFF", self.done("release", "docs", "a", *tried, at=None))
        self.assertEqual(json.loads(self.done("info", "docs", "a", "--json", at=None))["hold"], "ON")

    def test_what_is_put_without_a_guard_or_otherwise_is_said(self) -> None:
        rights = {"do": "add-caller", "as": "registrar", "dept": "records"}
        self.lines({**rights, "caller": "cid", "rights": ["put", "retain"]})
        self.serve()
        words = ("put", "docs", "a", self.written("a", b"x"))
        self.assertIn("nothing guards version 1", self.call(*words).err)
        self.assertIn("what guards version 2 isn't known: AccessDenied right:get", self.call(*words, "--as", "cid").err)
        self.done("default", "docs", "--days", "1", "--mode", "COMPLIANCE", "--yes", at=None)
        end = ("--until", "2034-01-01")
        self.assertIn("the default of docs is COMPLIANCE for 1 day", self.call(*words, *end).err)
        # A server answers who may set a default, and nobody else.
        self.assertEqual(self.call(*words, *end, "--as", "cid"), Done(0, "4\n", ""))

    def test_many_pages_of_a_list(self) -> None:
        self.lines(*({"do": "put", "bucket": "docs", "key": f"{it:04}", "text": "x"} for it in range(25)))
        self.serve()
        with mock.patch("vaultdesk.engine.PAGE", 10):
            listed = json.loads(self.done("ls", "docs", "--json", at=None))
        self.assertEqual([it["key"] for it in listed], [f"{it:04}" for it in range(25)])

    def test_the_largest_content(self) -> None:
        self.serve()
        content = os.urandom(1_048_576)
        self.done("put", "docs", "large", self.written("large", content), at=None)
        out = self.folder / "out"
        self.done("get", "docs", "large", str(out), at=None)
        self.assertEqual(out.read_bytes(), content)

    def test_what_is_refused_is_refused(self) -> None:
        self.serve()
        done = self.call("get", "docs", "none")
        self.assertEqual((done.status, done.out), (1, ""))
        self.assertIn("NoSuchKey", done.err)
        self.assertIn("unknown-caller", self.call("ls", "docs", "--as", "eve").err)

    def test_no_change_has_a_moment(self) -> None:
        self.serve()
        done = self.desk("put", "docs", "a", self.written("a", b"x"), at="2024-02-01")
        self.assertEqual((done.status, done.out), (2, ""))
        self.assertIn("leave --at out", done.err)
        self.assertEqual(self.done("ls", "docs", at=None), "")

    def test_what_is_read_of_the_vault_is_what_it_has_after_its_end(self) -> None:
        self.lines(
            {"do": "put", "bucket": "docs", "key": "a", "text": "first"},
            {"do": "put", "bucket": "docs", "key": "b", "text": "second"},
            {"do": "delete-version", "bucket": "docs", "key": "a", "id": 1},
        )
        server = self.serve()
        self.done("put", "docs", "c", self.written("c", b"third"), at=None)
        self.done("delete", "docs", "b", "--version", "2", "--yes", at=None)
        ways = (
            ("find",), ("held",), ("history", "1"), ("register",), ("departments",), ("buckets",), ("callers",),
            ("seal",), ("report", "records", "--at", "2024-01-20"), ("report", "--all", "--at", "2024-01-20"),
        )  # fmt: skip
        served = [self.json(*it) for it in ways]
        self.end(server)
        self.assertEqual(served, [self.json(*it) for it in ways])
        self.assertEqual(len(json.loads(self.done("register", "--json", at=None))), 2)

    def test_other_pages_while_it_is_served(self) -> None:
        self.lines({"do": "put", "bucket": "docs", "key": "a", "text": "first"})
        self.lines({"do": "delete-version", "bucket": "docs", "key": "a", "id": 1})
        self.serve()
        self.assertIn("<html", self.done("page", str(self.file), at=None))
        self.assertIn("made by vaultdesk", self.done("answer", "1", at=None))
        self.assertIn(f"vault    {self.file}, whose", self.done("answer", "1", at=None))
        self.done("certificates", str(self.folder / "out"), at=None)
        self.assertTrue((self.folder / "out" / "certificate-0000000001.txt").is_file())
        self.assertIn("records,1,docs,a", self.done("offices", "registers", str(self.file), at=None))
        at = "2024-02-01T00:00:00Z"
        self.assertIn(f"records,records,{at},5", self.done("offices", "reports", str(self.file), at=at))
        self.assertEqual([it for it in self.folder.iterdir() if it.name.startswith(".copy-")], [])

    def test_rules_are_tried_on_a_copy_and_carried_out_by_the_door(self) -> None:
        rule = ("--id", "old", "--days", "1", "--noncurrent-days", "1")
        self.lines({"do": "put", "bucket": "docs", "key": "a", "text": "first"})
        self.serve()
        self.done("rules", "add", "docs", *rule, at=None)
        done = self.call("expire", "records", "--yes")
        self.assertEqual(done.status, 0, done.err)
        self.assertIn("marked", done.out)
        self.assertIn("docs: 1 marked, 0 removed", done.err)
        self.assertIn("NoSuchKey", self.call("get", "docs", "a").err)

    def test_the_office_itself(self) -> None:
        self.serve()
        self.done("departments", "--add", "court", "--as", "registrar", at=None)
        done = self.call("callers", "--close", "registrar", "--as", "registrar", "--yes")
        self.assertIn("nobody could add another", done.err)
        rights = ("--rights", "admin", "--as", "registrar")
        self.done("callers", "--add", "eve", *rights, at=None)
        self.done("callers", "--close", "registrar", "--as", "registrar", "--yes", at=None)
        self.assertIn("unknown-caller", self.call("departments", "--add", "more", "--as", "registrar").err)


class Deliveries(ServedTest):
    def setUp(self) -> None:
        super().setUp()
        self.scans = self.folder / "scans"
        self.scans.mkdir()
        for number in range(3):
            (self.scans / f"{number}.pdf").write_bytes(b"scan %d" % number)

    def deliver(self, *words: str) -> Done:
        return self.desk("deliver", str(self.scans), "--bucket", "docs", "--batch", "b1", "--yes", *words, at=None)

    def results(self, *words: str) -> list[str]:
        done = self.deliver("--json", *words)
        self.assertEqual(done.status, 0, done.err)
        return [it["result"] for it in json.loads(done.out)["rows"]]

    def test_what_is_taken_in_by_lines_is_known_to_the_program_and_the_other_way_round(self) -> None:
        classes = self.written("classes.csv", b"class,years,mode\ndeed,10,GOVERNANCE\n")
        text = "file,key,date,class,hold\n0.pdf,a,2024-01-02,deed,\nnone.pdf,b,,,\n2.pdf,c,2024-01-02,deed,on\n"
        listed = self.written("list.csv", text.encode())
        words = ("--inventory", listed, "--classes", classes, "--leave-out")
        server = self.serve()
        self.assertEqual(self.results(*words), ["admitted"] * 2)
        self.assertEqual(self.results(*words), ["again"] * 2)
        self.end(server)
        Path(listed).write_text(text.replace("none.pdf", "1.pdf"))
        self.assertEqual(self.results(*words), ["again", "admitted", "again"])
        self.serve()
        self.assertEqual(self.results(*words), ["again"] * 3)
        held = {it["key"]: it for it in json.loads(self.done("held", "--json", at=None))}
        self.assertEqual([held[it]["hold"] for it in "abc"], ["OFF", "OFF", "ON"])

    def test_a_row_that_is_refused_has_its_cause(self) -> None:
        self.serve()
        self.assertEqual(self.results(), ["admitted"] * 3)
        (self.scans / "1.pdf").write_bytes(b"another")
        done = self.deliver()
        self.assertEqual(done.status, 1)
        self.assertRegex(done.out, r"2  1.pdf  1.pdf  IntakeConflict  that line of the batch was taken in before")
        self.assertIn("2 of 3 rows are in the vault, 2 of them with the digest", done.out)

    def test_no_link_is_followed(self) -> None:
        self.serve()

        def exchanged(*_: object) -> None:
            (self.scans / "1.pdf").unlink()
            (self.scans / "1.pdf").symlink_to("/etc/hostname")

        with mock.patch("vaultdesk.intake.say_while_long", exchanged):
            done = self.deliver()
        self.assertEqual(done.status, 1)
        self.assertRegex(done.out, "1.pdf  InvalidArgument  it can't be read")
        listed = json.loads(self.done("ls", "docs", "--json", at=None))
        self.assertEqual([it["key"] for it in listed], ["0.pdf", "2.pdf"])


class Doors(ServedTest):
    def test_a_door_that_is_named(self) -> None:
        where = self.folder / "elsewhere"
        self.serve(where)
        done = self.desk("ls", "docs", at=None)
        self.assertEqual(done.status, 1)
        self.assertEqual(self.done("ls", "docs", "--door", str(where), at=None), "")
        with mock.patch.dict(os.environ, {"VAULT_DOOR": str(where)}):
            self.assertEqual(self.done("ls", "docs", at=None), "")
        settings = f'[vaults]\noffice = "{self.file}"\n[doors]\noffice = "{where}"\n'
        with mock.patch.dict(os.environ, {"VAULTDESK_SETTINGS": self.written("desk.toml", settings.encode())}):
            self.assertEqual(self.done("ls", "docs", "--vault", "office", at=None), "")
        with self.without("VAULT"):
            self.assertEqual(self.done("ls", "docs", "--door", str(where), at=None), "")

    def test_a_door_at_a_port(self) -> None:
        with socket.socket() as trial:
            trial.bind(("127.0.0.1", 0))
            port = str(trial.getsockname()[1])
        server = self.serve(port)
        self.assertEqual(self.done("ls", "docs", "--door", port, at=None), "")
        self.done("close", "--door", port, "--as", "registrar", at=None)
        self.assertEqual(server.wait(60), 0)

    def test_a_door_beside_the_vault(self) -> None:
        self.serve(self.folder / "records.lines")
        self.assertEqual(self.done("ls", "docs", at=None), "")

    def test_a_vault_with_units_is_known_by_its_name(self) -> None:
        self.serve()
        self.assertEqual(self.done("ls", "docs", "--vault", "records", at=None), "")

    def test_one_that_is_named_and_not_there_opens_no_file(self) -> None:
        done = self.desk("ls", "docs", "--door", str(self.folder / "none"), at=None)
        self.assertEqual((done.status, done.out), (1, ""))
        self.assertIn("no server takes lines there", done.err)

    def test_a_socket_that_a_killed_server_left_is_none(self) -> None:
        server = self.serve()
        server.kill()
        server.wait()
        deadline = time.monotonic() + 60
        while snapshot.is_taken(self.file) and time.monotonic() < deadline:
            time.sleep(0.05)
        self.assertTrue(self.where.exists())
        self.assertEqual(self.done("ls", "docs", at=None), "")

    def test_who_may_not_come_is_told_so(self) -> None:
        with mock.patch("vaultdesk.door._failed", return_value=PermissionError(13, "Permission denied")):
            done = self.desk("ls", "docs", at=None)
        self.assertEqual((done.status, done.out), (1, ""))
        self.assertIn("who is of the folder's group", done.err)

    def test_a_settings_file_with_another_kind_of_door(self) -> None:
        settings = self.written("desk.toml", b"[doors]\noffice = 8081\n")
        with mock.patch.dict(os.environ, {"VAULTDESK_SETTINGS": settings}):
            self.assertEqual(self.desk("ls", "docs", at=None).status, 2)

    def test_a_path_that_is_too_long_for_a_socket_is_no_door(self) -> None:
        deep = self.folder / ("d" * 100)
        deep.mkdir()
        shutil.copyfile(self.file, deep / "records.vault")
        self.assertEqual(self.done("ls", "docs", "--vault", str(deep / "records.vault"), at=None), "")

    def answered(self, answer: Callable[[socket.socket], None]) -> Done:
        """What is said of a server that does that with each connection."""
        where = self.folder / "false"
        where.unlink(missing_ok=True)
        with socket.socket(socket.AF_UNIX) as listener:
            listener.bind(str(where))
            listener.listen()

            def serve() -> None:
                try:
                    while True:
                        connection, _ = listener.accept()
                        with connection:
                            answer(connection)
                except OSError:
                    pass

            threading.Thread(target=serve, daemon=True).start()
            done = self.desk("ls", "docs", "--door", str(where), at=None)
            listener.shutdown(socket.SHUT_RDWR)
        return done

    def test_no_answer_may_mean_that_it_was_done(self) -> None:
        for answer in (lambda it: None, lambda it: it.recv(65_536), lambda it: it.sendall(b'{"ok":')):
            done = self.answered(answer)
            self.assertEqual((done.status, done.out), (1, ""))
            self.assertIn("may have been done", done.err)

        def otherwise(connection: socket.socket) -> None:
            connection.recv(65_536)  # one that is closed before may break what is sent, and the answer is lost
            connection.sendall(b"HTTP/1.1 400 no\n")

        self.assertIn("no server of a vault", self.answered(otherwise).err)
        with mock.patch.object(door, "PATIENCE", 0.2):
            done = self.answered(lambda it: time.sleep(1))
        self.assertIn("no answer within", done.err)

    def test_many_at_once(self) -> None:
        self.serve()

        def put(number: int) -> None:
            with Engine(Desk(PROGRAM, self.file, "ann")) as engine:
                for part in range(3):
                    engine.ask("put", bucket="docs", key=f"{number}/{part}", text=f"{number} {part}")

        clients = [threading.Thread(target=put, args=(it,)) for it in range(20)]
        for it in clients:
            it.start()
        for it in clients:
            it.join()
        self.assertEqual(len(json.loads(self.done("ls", "docs", "--json", at=None))), 60)


class DoorAlone(ServedTest):
    """Who may come to the door, and may not read the vault's file."""

    def setUp(self) -> None:
        super().setUp()
        place = Path(self.enterContext(tempfile.TemporaryDirectory()))
        place.chmod(0o755)
        self.where = place / "lines"

    def as_nobody(self, *words: str) -> Done:
        """A call of the desk by a user who owns nothing, in the folder where that one is."""
        with tempfile.TemporaryFile("w+") as told:

            def call() -> int:
                os.chdir("/")
                done = self.desk(*words, "--door", str(self.where), at=None)
                json.dump([done.status, done.out, done.err], told)
                told.flush()
                return 0

            Owner(65_534, 65_534).carry_out(call)
            told.seek(0)
            return Done(*json.load(told))

    def test_who_may_only_come_to_the_door_is_told_what_wants_the_file(self) -> None:
        self.lines({"do": "put", "bucket": "docs", "key": "a", "text": "hello"})
        self.serve(self.where)
        self.where.chmod(0o666)
        self.assertEqual(self.as_nobody("get", "docs", "a"), Done(0, "hello", ""))
        self.assertEqual(self.as_nobody("hold", "docs", "a").status, 0)
        for words, said in (
            (("find", "a"), "ask as the vault's owner, or of a copy (--vault COPY)"),
            (("release", "docs", "a"), "ask as who may read the file of cases"),
        ):
            done = self.as_nobody(*words)
            self.assertEqual((done.status, done.out), (1, ""))
            self.assertIn(said, done.err)

    def test_a_dry_run_without_the_file_only_looks_and_says_so(self) -> None:
        self.lines({"do": "put", "bucket": "docs", "key": "a", "text": "hello", "hold": "ON"})
        self.serve(self.where)
        self.where.chmod(0o666)
        place = ("docs", "a", "--version", "1", "--dry-run")
        for words, told in ((("delete", *place), "asked for"), (("hold", *place), "no retention, hold ON"),
                            (("retain", *place, "--until", "2134-01-01"), "GOVERNANCE until 2134-01-01T00:00:00Z")):
            done = self.as_nobody(*words)
            self.assertEqual(done.status, 0, done.err)
            self.assertIn(f"would be: {told}", done.out)
            self.assertRegex(done.err, "^which would be refused isn't known: .*: ask as the vault's owner")
        self.assertIn("NoSuchVersion", self.as_nobody("hold", "docs", "a", "--version", "9", "--dry-run").out)
        self.assertEqual(len(self.done("history", "1", at=None).splitlines()), 5)

    def test_a_delivery_is_reported_also_where_it_cant_be_compared(self) -> None:
        scans = self.where.parent / "scans"
        scans.mkdir()
        scans.chmod(0o755)
        (scans / "a.pdf").write_bytes(b"a scan")
        may = {"do": "add-caller", "as": "registrar", "dept": "records"}
        self.lines({**may, "caller": "bob", "rights": ["put"]})
        self.serve(self.where)
        self.where.chmod(0o666)
        words = ("deliver", str(scans), "--bucket", "docs", "--batch", "b1", "--yes")
        done = self.as_nobody(*words, "--as", "bob")
        self.assertEqual((done.status, done.out), (1, "1 of 1 rows are in the vault\n"))
        self.assertIn("wasn't compared with the folder: AccessDenied right:get", done.err)
        # Who may read what came is answered by the server which digests it has.
        done = self.as_nobody(*words)
        told = "1 of 1 rows are in the vault, 1 of them with the digest of their file\n"
        self.assertEqual((done.status, done.out), (0, told), done.err)
        self.assertEqual(self.as_nobody("get", "docs", "a.pdf"), Done(0, "a scan", ""))


class Close(ServedTest):
    def test_after_it_the_file_is_whole_without_its_log(self) -> None:
        server = self.serve()
        for number in range(5):
            self.done("put", "docs", str(number), self.written("x", b"%d" % number), at=None)
        self.end(server)
        alone = self.folder / "alone.vault"
        shutil.copyfile(self.file, alone)
        found = subprocess.run([PROGRAM, "verify", str(alone)], capture_output=True, text=True, check=True)
        self.assertEqual(found.stdout, "sound\n")
        self.assertEqual(len(json.loads(self.done("ls", "docs", "--vault", str(alone), "--json", at=None))), 5)

    def test_who_has_no_right_to_it_ends_nothing(self) -> None:
        server = self.serve()
        done = self.desk("close", at=None)
        self.assertEqual(done.status, 1)
        self.assertIn("right admin", done.err)
        self.assertIsNone(server.poll())
        self.assertEqual(self.done("ls", "docs", at=None), "")

    def test_where_no_server_is_it_says_so(self) -> None:
        done = self.desk("close", "--as", "registrar", at=None)
        self.assertEqual(done.status, 1)
        self.assertIn("no server of the vault takes lines", done.err)

    def test_it_waits_for_the_process(self) -> None:
        server = self.serve()
        waiting = mock.patch("vaultdesk.door._has_ended", return_value=False)
        with waiting, mock.patch.object(door, "PATIENCE", 1.0):
            done = self.desk("close", "--as", "registrar", at=None)
        self.assertEqual(done.status, 1)
        self.assertIn("hasn't ended in 1 seconds", done.err)
        self.assertEqual(server.wait(60), 0)
