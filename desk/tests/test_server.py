"""Around a server: offline, restore, check, and what units ask for."""

from __future__ import annotations

import json
import os
import socketserver
import subprocess
import sys
import threading
from pathlib import Path
from typing import Any
from unittest import mock

from tests.machine import STOPPED_AND_STARTED, UNIT, MachineTest
from tests.served import ServedTest
from vaultdesk import units


class Offline(MachineTest):
    def test_a_command_is_done_while_the_server_stands_still(self) -> None:
        self.set_state("active")
        done = self.desk("offline", "records", "sh", "-c", 'cp "$MACHINE/state" seen; exit 7', at=None)
        self.assertEqual((done.status, (self.folder / "seen").read_text()), (7, "inactive\n"))
        self.assertEqual(self.asked(), STOPPED_AND_STARTED)

    def test_a_server_that_did_not_run_is_not_started(self) -> None:
        self.done("offline", "records", "true", at=None)
        self.assertEqual(self.asked(), [])

    def test_a_server_that_does_not_start_is_a_failure(self) -> None:
        self.set_state("active")
        (self.machine / "broken").touch()
        done = self.desk("offline", "records", "true", at=None)
        self.assertEqual(done.status, 1)
        self.assertIn("doesn't start", done.err)

    def test_a_command_that_is_not_there(self) -> None:
        self.set_state("active")
        done = self.desk("offline", "records", "nothing-of-that-name", at=None)
        self.assertEqual(done.status, 1)
        self.assertEqual(self.asked(), STOPPED_AND_STARTED)
        self.assertEqual(self.desk("offline", "records", at=None).status, 2)

    def test_a_command_that_is_killed(self) -> None:
        done = self.desk("offline", "records", "sh", "-c", "kill -9 $$", at=None)
        self.assertEqual(done.status, 137)

    def test_a_signal_starts_the_server_all_the_same(self) -> None:
        self.set_state("active")
        words = ("offline", "records", "sh", "-c", f"kill -TERM {os.getpid()}; exec sleep 60")
        done = self.desk(*words, at=None)
        self.assertEqual(done.status, 1)
        self.assertIn("SIGTERM", done.err)
        self.assertEqual(self.asked(), STOPPED_AND_STARTED)

    def test_what_became_of_the_server_is_printed_as_json(self) -> None:
        words = ("offline", "--json", "records", "sh", "-c", "exit 7")
        wanted = {"vault": "records", "command": list(words[3:]), "status": 7, "unit": UNIT}
        for state, moved in (("active", True), ("inactive", False)):
            self.set_state(state)
            done = self.desk(*words, at=None)
            self.assertEqual(done.status, 7)
            self.assertEqual(json.loads(done.out), {**wanted, "stopped": moved, "started": moved})
        self.set_state("active")
        (self.machine / "broken").touch()
        done = self.desk(*words, at=None)
        self.assertEqual(done.status, 1)
        self.assertEqual(json.loads(done.out), {**wanted, "stopped": True, "started": False})

    def test_standard_output_has_the_json_alone(self) -> None:
        words = [sys.executable, "-m", "vaultdesk", "offline", "--json", "records", "echo", "seen"]
        done = subprocess.run(words, cwd=Path(units.__file__).parents[1], capture_output=True, check=True)
        self.assertEqual((json.loads(done.stdout)["status"], done.stderr), (0, b"seen\n"))

    def test_an_option_after_the_name_is_no_command(self) -> None:
        self.set_state("active")
        done = self.desk("offline", "records", "--json", "true", at=None)
        self.assertEqual((done.status, self.asked()), (2, []))
        self.assertIn("before NAME", done.err)

    def test_it_is_for_root(self) -> None:
        with mock.patch("os.geteuid", return_value=1000):
            done = self.desk("offline", "records", "true", at=None)
        self.assertEqual(done.status, 1)
        self.assertIn("this is for root", done.err)


class Answering(socketserver.BaseRequestHandler):
    """Answers the next of the answers that are set, and the last one again."""

    answers: list[tuple[str, str]] = []
    heads: list[bytes] = []

    def handle(self) -> None:
        self.heads.append(self.request.recv(65_536))
        status, body = self.answers[0]
        if len(self.answers) > 1:
            del self.answers[0]
        head = f"HTTP/1.1 {status}\r\ncontent-length: {len(body)}\r\nconnection: close\r\n\r\n"
        self.request.sendall(f"{head}{body}".encode())


SERVES = ("403 Forbidden", '{"code":"AccessDenied","n":3,"reason":"unknown-caller"}')
FAILED = ("500 Internal Server Error", '{"code":"Device","n":23}')


class Check(MachineTest):
    def setUp(self) -> None:
        super().setUp()
        server = socketserver.TCPServer(("127.0.0.1", 0), Answering)
        self.enterContext(server)
        threading.Thread(target=server.serve_forever, daemon=True).start()
        self.addCleanup(server.shutdown)
        self.configure(PORT=str(server.server_address[1]))
        Answering.heads.clear()
        self.set_state("active")

    def fault(self, *answers: tuple[str, str]) -> str:
        """What the check says of a server that answers so; empty where it serves."""
        Answering.answers = list(answers)
        done = self.desk("check", "records", at=None)
        self.assertEqual(done.status, 1 if "vault records: " in done.err.split("started anew")[-1] else 0, done.err)
        return done.err

    def test_one_that_serves(self) -> None:
        self.assertEqual(self.fault(SERVES), "")
        self.assertEqual(self.asked(), [])
        self.fault(SERVES)
        callers = {it.split(b"x-vault-caller: ")[1].split(b"\r\n")[0] for it in Answering.heads}
        self.assertEqual(len(callers), 2)

    def test_one_whose_file_failed_is_started_anew(self) -> None:
        self.assertIn("the server is started anew", self.fault(FAILED, SERVES))
        self.assertEqual(self.asked(), [f"reset-failed {UNIT}", f"restart {UNIT}"])
        self.assertIn("vault records: its file failed (500)", self.fault(FAILED, FAILED))

    def test_one_that_serves_nobody(self) -> None:
        self.assertIn("before the vault's last change", self.fault(("503 x", '{"code":"ClockBack","n":1}')))
        self.assertIn("shows no moment", self.fault(("503 x", '{"code":"ClockOutOfRange","n":2}')))
        self.assertIn("no memory left", self.fault(("503 x", '{"code":"Memory","n":22}')))

    def test_another_program(self) -> None:
        self.assertIn("isn't its server", self.fault(("404 Not Found", "nothing here")))
        self.assertIn("isn't its server", self.fault(("403 Forbidden", "no")))

    def test_no_answer(self) -> None:
        self.configure(PORT="1")
        self.assertIn("no answer at port 1", self.fault(SERVES))

    def test_one_that_is_enabled_and_does_not_run(self) -> None:
        self.set_state("inactive")
        self.assertEqual(self.fault(SERVES), "")
        (self.machine / "enabled").touch()
        self.assertIn("is enabled and doesn't run", self.fault(SERVES))
        self.set_state("activating")
        self.assertEqual(self.fault(SERVES), "")

    def test_while_another_job_works_nothing_is_asked(self) -> None:
        (self.machine / "enabled").touch()
        done = self.desk("offline", "records", "sh", "-c", self.words_of_a_check(), at=None)
        self.assertEqual((done.status, Answering.heads), (0, []))

    def words_of_a_check(self) -> str:
        """A check by a process of its own."""
        desk = Path(__file__).resolve().parents[1] / "bin" / "vaultdesk"
        return f"exec {desk} check records"

    def test_one_whose_file_is_away_is_never_started_anew(self) -> None:
        self.file.rename(self.file.with_name("away"))
        for answer in (FAILED, SERVES):
            self.assertIn("not where the server opened it", self.fault(answer))
        self.assertEqual(self.asked(), [])


class Changes(ServedTest):
    """The check of a server that answers reads, and may refuse changes."""

    def setUp(self) -> None:
        super().setUp()
        self.serve()
        self.configure(PORT=str(self.port))

    def check(self, status: int) -> tuple[str, dict[str, Any]]:
        """What the check says in words, and as JSON."""
        words, as_json = (self.desk("check", "records", *it, at=None) for it in ((), ("--json",)))
        self.assertEqual((words.status, as_json.status), (status, status), words.err)
        self.assertEqual(self.asked(), [])
        return words.err, json.loads(as_json.out)

    def test_one_that_changes_its_vault(self) -> None:
        wanted = {"vault": "records", "serves": True, "fault": "", "failures": 0, "moved": []}
        self.assertEqual(self.check(0), ("", wanted))

    def test_one_that_refuses_changes(self) -> None:
        away = self.file.with_name("away")
        self.file.rename(away)
        told, found = self.check(1)
        self.assertIn(f"vault records: {self.file}: not where the server opened it", told)
        self.assertEqual((found["serves"], found["moved"], found["failures"]), (False, [str(self.file)], 0))
        self.assertIn("Device", self.desk("put", "docs", "a", self.written("a", b"x"), at=None).err)
        away.rename(self.file)
        told, found = self.check(1)
        self.assertIn(f"start the server anew: systemctl restart {UNIT}", told)
        self.assertEqual((found["serves"], found["moved"], found["failures"]), (False, [], 1))

    def test_a_caller_who_may_not_ask_is_no_fault(self) -> None:
        self.configure(PORT=str(self.port), ADMIN="ann")
        told, found = self.check(0)
        self.assertIn("whether its file failed isn't known: AccessDenied right:admin", told)
        self.assertEqual((found["serves"], found["failures"]), (True, None))


class Glue(MachineTest):
    def test_a_failure_is_reported_once_an_hour(self) -> None:
        self.configure(ALARM='cat > "$MACHINE/told"; echo "$UNIT $VAULT" >> "$MACHINE/told"')
        told = self.machine / "told"
        self.done("unit", "failed", "vault-run@records", at=None)
        unit = "vault-run@records"
        wanted = [f"the state of {unit}.service", f"the journal of {unit}.service", f"{unit} records"]
        self.assertEqual(told.read_text().splitlines(), wanted)
        told.unlink()
        self.done("unit", "failed", "vault-run@records", at=None)
        self.assertFalse(told.exists())
        self.done("night", "records", "--clock-is-right", at=None)
        self.done("unit", "failed", "vault-run@records", at=None)
        self.assertTrue(told.exists())

    def test_an_alarm_that_fails_is_given_again(self) -> None:
        self.configure(ALARM='echo >> "$MACHINE/tried"; exit 3')
        for _ in range(2):
            done = self.desk("unit", "failed", "vault-check@records", at=None)
            self.assertEqual(done.status, 1)
            self.assertIn("status 3", done.err)
        self.assertEqual((self.machine / "tried").read_text(), "\n\n")

    def test_a_name_without_a_vault_is_reported_to_nobody(self) -> None:
        self.done("unit", "failed", "vault-run@recrods", at=None)

    def test_after_a_stop_the_log_is_in_the_file(self) -> None:
        self.assertEqual(self.done("unit", "stopped", "records", at=None), "")
        with mock.patch.dict(os.environ, {"SERVICE_RESULT": "success", "EXIT_CODE": "killed"}):
            self.assertEqual(self.done("unit", "stopped", "records", at=None), "sound\n")

    def test_a_server_that_ended_is_not_waited_for(self) -> None:
        with mock.patch.dict(os.environ, {"MAINPID": "4194305"}):
            done = self.desk("unit", "started", "records", at=None)
        self.assertEqual(done.status, 1)

    def test_a_server_that_listens_is_waited_for(self) -> None:
        with socketserver.TCPServer(("127.0.0.1", 0), Answering) as server:
            self.configure(PORT=str(server.server_address[1]))
            with mock.patch.dict(os.environ, {"MAINPID": str(os.getpid())}):
                self.done("unit", "started", "records", at=None)
        self.assertEqual(self.asked(), [f"reset-failed {UNIT}"])
