"""A vault with units whose server takes lines: the night's work, a start and a stop."""

from __future__ import annotations

import grp
import http.client
import json
import os
import socket
import subprocess
import threading
import unittest
from pathlib import Path
from unittest import mock

from tests.machine import STOPPED_AND_STARTED, UNIT
from tests.office import PROGRAM
from tests.served import ServedTest
from tests.test_night import ago, little_room
from vaultdesk import conf


class NightByTheDoor(ServedTest):
    def setUp(self) -> None:
        super().setUp()
        rule = {"ID": "old", "Status": "Enabled", "Prefix": "", "Expiration": {"Days": 30}}
        self.lines(
            {"do": "add-caller", "as": "registrar", "caller": "night", "dept": "records", "rights": ["run"]},
            {"do": "set-rules", "bucket": "docs", "rules": [rule]},
            {"do": "put", "bucket": "docs", "key": "2024/a", "text": "hello"},
        )
        self.lines({"do": "put", "bucket": "docs", "key": "new", "text": "new"}, at=ago(1))
        self.configure(BUCKETS="docs")

    def test_the_server_goes_on(self) -> None:
        self.serve()
        told = json.loads(self.done("night", "records", "--json", at=None))
        self.assertEqual(told["rules"], [{"bucket": "docs", "marked": 1, "removed": 0, "lone": 0}])
        self.assertEqual(self.asked(), [])
        found = subprocess.run([PROGRAM, "verify", told["copy"]], capture_output=True, text=True, check=True)
        self.assertEqual(found.stdout, "sound\n")
        self.assertEqual([it.stat().st_mode & 0o777 for it in self.made()], [0o600] * len(self.made()))
        held = json.loads(self.done("ls", "docs", "--vault", told["copy"], "--json", at=None))
        self.assertEqual([(it["key"], it["kind"]) for it in held][0], ("2024/a", "marker"))
        self.assertIn("as sealed: 1 seal", self.done("check-seals", at=None))
        self.assertEqual([it.name for it in self.folder.iterdir() if it.name.startswith(".copy-")], [])
        self.assertEqual(self.done("get", "docs", "new", at=None), "new")

    def test_nobody_is_refused_meanwhile(self) -> None:
        self.serve()
        stop, statuses = threading.Event(), list[int]()

        def put(client: int) -> None:
            while not stop.is_set():
                connection = http.client.HTTPConnection("127.0.0.1", self.port, timeout=300)
                headers = {"x-vault-caller": "ann"}
                connection.request("PUT", f"/docs/{client}/{len(statuses)}", b"x" * 1_000, headers)
                statuses.append(connection.getresponse().status)
                connection.close()
                stop.wait(0.01)

        clients = [threading.Thread(target=put, args=(it,)) for it in range(4)]
        for it in clients:
            it.start()
        try:
            told = json.loads(self.done("night", "records", "--json", at=None))
        finally:
            stop.set()
            for it in clients:
                it.join()
        self.assertGreater(len(statuses), 4)
        self.assertEqual(set(statuses), {200})
        found = subprocess.run([PROGRAM, "verify", told["copy"]], capture_output=True, text=True, check=True)
        self.assertEqual((self.asked(), found.stdout), ([], "sound\n"))

    def test_where_the_vaults_folder_has_no_room_the_server_is_asked(self) -> None:
        self.serve()
        with little_room(self.folder):
            done = self.desk("night", "records", "--json", at=None)
        told = json.loads(done.out)
        self.assertEqual((done.status, told["rules"][0]["marked"], bool(told["copy"])), (0, 1, True))
        cause = f"{self.folder} has 10 bytes free, and a copy of the vault takes [0-9,]+ there: make room"
        self.assertRegex(done.err, f"^vaultdesk night: {cause}. The server is asked in its place\n$")
        # With no room for its copy either, the seal is of what the server says.
        with little_room(self.folder), little_room(self.copies):
            done = self.desk("night", "records", "--json", at=None)
        again = json.loads(done.out)
        self.assertEqual((done.status, again["copy"], again["seal"]), (1, None, told["seal"]))
        self.assertEqual([it.name for it in self.folder.iterdir() if it.name.startswith(".copy-")], [])

    def test_where_the_server_may_not_be_asked_no_rule_is_carried_out(self) -> None:
        self.configure(BUCKETS="docs", ADMIN="ann")
        self.serve()
        with little_room(self.folder):
            done = self.desk("night", "records", "--json", at=None)
        told = json.loads(done.out)
        self.assertEqual((done.status, told["rules"], bool(told["copy"]), bool(told["seal"])), (1, [], True, True))
        self.assertIn("AccessDenied", done.err)
        self.assertIn("no rule of the vault records was carried out", done.err)

    def test_a_dry_run_changes_nothing(self) -> None:
        self.serve()
        told = json.loads(self.done("night", "records", "--dry-run", "--json", at=None))
        self.assertEqual([(it["what"], it["key"]) for it in told["rules"]], [("marked", "2024/a")])
        self.assertEqual((self.asked(), self.made()), ([], []))
        self.assertEqual(self.done("get", "docs", "2024/a", at=None), "hello")

    def test_a_clock_that_is_far_ahead(self) -> None:
        self.configure(BUCKETS="docs", MAX_JUMP="0")
        self.serve()
        done = self.desk("night", "records", at=None)
        self.assertEqual(done.status, 1)
        self.assertIn("is more than 0 days past", done.err)
        self.assertEqual(self.done("get", "docs", "2024/a", at=None), "hello")
        self.assertTrue(self.made())

    def test_a_change_of_this_second_is_no_clock_that_is_behind(self) -> None:
        self.serve()
        path = self.written("x", b"x")
        self.done("put", "docs", "just now", path, at=None)
        self.done("night", "records", at=None)

    def test_a_server_that_takes_no_lines_is_stopped(self) -> None:
        self.set_state("active")
        self.done("night", "records", at=None)
        self.assertEqual(self.asked(), STOPPED_AND_STARTED)


class Stop(ServedTest):
    def test_the_server_ends_by_its_door(self) -> None:
        server = self.serve()
        self.done("put", "docs", "a", self.written("a", b"x"), at=None)
        self.done("unit", "stop", "records", at=None)
        self.assertEqual(server.wait(60), 0)

    def test_a_caller_without_the_right_ends_nothing(self) -> None:
        self.configure(ADMIN="ann")
        server = self.serve()
        done = self.desk("unit", "stop", "records", at=None)
        self.assertEqual(done.status, 1)
        self.assertIn("right admin", done.err)
        self.assertIsNone(server.poll())

    def test_where_none_is_there_is_nothing_to_do(self) -> None:
        self.done("unit", "stop", "records", at=None)


class Started(ServedTest):
    def setUp(self) -> None:
        super().setUp()
        self.enterContext(mock.patch.dict(os.environ, {"MAINPID": str(os.getpid())}))
        self.enterContext(mock.patch("vaultdesk.glue._door_of", return_value=str(self.where)))
        self.where.parent.mkdir(parents=True, mode=0o700)
        self.requests = self.enterContext(socket.create_server(("127.0.0.1", 0)))
        self.listens_at = str(self.requests.getsockname()[1])
        self.configure(PORT=self.listens_at)

    def listen(self) -> None:
        """Takes lines, as this process."""
        lines = self.enterContext(socket.socket(socket.AF_UNIX))
        lines.bind(str(self.where))
        self.where.chmod(0o700)
        lines.listen()

    def test_who_is_of_the_group_may_come(self) -> None:
        self.listen()
        group = next(it for it in grp.getgrall() if it.gr_gid not in (0, os.getegid()))
        self.configure(PORT=self.listens_at, LINES_GROUP=group.gr_name)
        self.done("unit", "started", "records", at=None)
        found = [(it.stat().st_mode & 0o777, it.stat().st_gid) for it in (self.where.parent, self.where)]
        self.assertEqual(found, [(0o750, group.gr_gid), (0o660, group.gr_gid)])
        self.assertEqual(conf.run_folder().stat().st_mode & 0o777, 0o755)
        self.assertEqual(self.asked(), [f"reset-failed {UNIT}"])

    def test_a_group_that_isnt_there_is_named(self) -> None:
        self.listen()
        self.configure(PORT=self.listens_at, LINES_GROUP="nobody-of-that-name")
        done = self.desk("unit", "started", "records", at=None)
        self.assertEqual(done.status, 1)
        self.assertIn("LINES_GROUP=nobody-of-that-name", done.err)

    def victim(self, folder: Path) -> Path:
        """A file that nobody but its owner may read, with a socket's name."""
        folder.mkdir(mode=0o700, exist_ok=True)
        path = folder / self.where.name
        path.write_text("secret")
        path.chmod(0o600)
        return path

    def stays(self, *paths: Path) -> None:
        """Fails unless the start is refused, and these are what they were."""
        group = next(it for it in grp.getgrall() if it.gr_gid not in (0, os.getegid()))
        self.configure(PORT=self.listens_at, LINES_GROUP=group.gr_name)
        before = [(it.stat().st_mode, it.stat().st_gid) for it in paths]
        done = self.desk("unit", "started", "records", at=None)
        self.assertEqual((done.status, [(it.stat().st_mode, it.stat().st_gid) for it in paths]), (1, before))
        self.assertIn(str(self.where.parent), done.err)

    def test_a_link_in_its_place_is_followed_by_nobody(self) -> None:
        self.listen()
        victim = self.victim(self.folder / "elsewhere")
        self.where.unlink()
        self.where.symlink_to(victim)
        self.stays(victim, victim.parent)
        self.where.unlink()
        os.link(victim, self.where)
        self.stays(victim)

    def test_a_link_in_the_place_of_its_folder_is_followed_by_nobody(self) -> None:
        self.listen()
        elsewhere = self.folder / "elsewhere"
        self.where.parent.rename(elsewhere)  # with a socket of the same user
        self.where.parent.symlink_to(elsewhere)
        self.stays(elsewhere / self.where.name, elsewhere)

    @unittest.skipUnless(os.geteuid() == 0, "a file is given to another user")
    def test_a_socket_of_another_user_stays_his(self) -> None:
        self.listen()
        os.chown(self.where, 65534, 65534)
        self.stays(self.where)

    def test_its_door_is_waited_for(self) -> None:
        waits = mock.patch("time.sleep", side_effect=lambda _: self.listen())
        with waits as slept:
            self.done("unit", "started", "records", at=None)
        self.assertEqual(slept.call_count, 1)
        self.assertEqual(self.where.stat().st_mode & 0o777, 0o660)


class Locks(ServedTest):
    def test_who_works_on_a_vault_is_for_root_to_lock(self) -> None:
        folder = conf.run_folder()
        for mask in (0o077, 0):
            os.umask(mask)
            self.desk("check", "records", at=None)
            modes = {it.name: it.stat().st_mode & 0o777 for it in folder.iterdir()}
            self.assertEqual((folder.stat().st_mode & 0o777, modes["records.lock"]), (0o755, 0o600))
            (folder / "records.lock").unlink()
