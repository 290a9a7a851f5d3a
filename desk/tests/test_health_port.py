"""A port for load balancers: what it answers while a vault's server makes changes, and while it refuses them."""

from __future__ import annotations

import http.client
import threading
import urllib.error
import urllib.request

from tests.served import ServedTest
from vaultdesk import health_port


class Asked(ServedTest):
    def setUp(self) -> None:
        super().setUp()
        self.serve()
        self.configure(PORT=str(self.port))
        self.listen()

    def listen(self) -> None:
        self.at = health_port.Port(("127.0.0.1", 0), health_port.Look("records"))
        self.addCleanup(self.at.server_close)
        threading.Thread(target=self.at.serve_forever, daemon=True).start()
        self.addCleanup(self.at.shutdown)

    def answer(self, path: str = "/-/health", method: str = "GET") -> tuple[int, str]:
        where = f"http://127.0.0.1:{self.at.server_address[1]}{path}"
        try:
            with urllib.request.urlopen(urllib.request.Request(where, method=method), timeout=30) as found:
                return found.status, found.read().decode()
        except urllib.error.HTTPError as error:
            with error:
                return error.code, error.read().decode()

    def test_a_server_that_makes_changes(self) -> None:
        self.assertEqual(self.answer(), (200, "ok\n"))
        self.assertEqual(self.answer(method="HEAD"), (200, ""))
        self.assertEqual(self.answer("/docs/a")[0], 404)
        self.assertEqual(self.answer(method="PUT")[0], 501)

    def test_a_server_whose_file_is_away(self) -> None:
        self.file.rename(self.file.with_name("away"))
        status, said = self.answer()
        self.assertEqual(status, 503)
        self.assertIn("not where the server opened it", said)
        self.assertEqual(self.answer(method="HEAD"), (503, ""))

    def test_what_was_seen_is_answered_for_a_short_while(self) -> None:
        self.assertEqual(self.answer()[0], 200)
        self.file.rename(self.file.with_name("away"))
        self.assertEqual(self.answer()[0], 200)
        self.at.look._until = 0.001
        self.assertEqual(self.answer()[0], 503)

    def test_one_that_says_nothing_holds_nobody_up(self) -> None:
        silent = http.client.HTTPConnection("127.0.0.1", self.at.server_address[1])
        silent.connect()
        self.addCleanup(silent.close)
        self.assertEqual(self.answer()[0], 200)


class Words(ServedTest):
    def test_where_it_listens(self) -> None:
        self.assertEqual(health_port.place("8081"), ("127.0.0.1", 8081))
        self.assertEqual(health_port.place("0.0.0.0:80"), ("0.0.0.0", 80))
        self.configure(PORT="1")
        self.assertIn("HEALTH is missing", self.desk("health", "records", at=None).err)
        done = self.desk("health", "records", "--listen", "nowhere", at=None)
        self.assertEqual((done.status, "give PORT, as 8081" in done.err), (2, True))
