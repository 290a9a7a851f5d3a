"""TLS that the pages speak by themselves: what is refused before they are served, and a day's requests over it."""

from __future__ import annotations

import http.client
import itertools
import re
import shutil
import socket
import ssl
import subprocess
import sys
import tempfile
import unittest
import urllib.parse
from pathlib import Path
from typing import Any

from tests.office import OfficeTest
from tests.web_office import PASSWORD, WHY, WebTest
from vaultdesk.errors import DeskError
from vaultdesk.web import tls

DESK = Path(__file__).parents[1] / "bin" / "vaultdesk"
LONG = 300.0  # seconds that a test waits at most
KIND = ("-newkey", "ec", "-pkeyopt", "ec_paramgen_curve:prime256v1")
HAS_OPENSSL = shutil.which("openssl") is not None


def made(folder: Path, name: str = "vault") -> tuple[Path, Path]:
    """A certificate of 127.0.0.1 that signs itself, and its key."""
    certificate, key = folder / f"{name}.pem", folder / f"{name}.key"
    words = ["openssl", "req", "-x509", *KIND, "-nodes", "-days", "2", "-subj", "/CN=127.0.0.1"]
    words += ["-addext", "subjectAltName=IP:127.0.0.1", "-keyout", str(key), "-out", str(certificate)]
    subprocess.run(words, check=True, capture_output=True)
    return certificate, key


@unittest.skipUnless(HAS_OPENSSL, "openssl isn't there")
class Files(unittest.TestCase):
    def setUp(self) -> None:
        self.folder = Path(self.enterContext(tempfile.TemporaryDirectory()))
        self.certificate, self.key = made(self.folder)

    def test_tls_is_of_1_2_or_later(self) -> None:
        context = tls.context_of(self.certificate, self.key)
        self.assertEqual(context.minimum_version, ssl.TLSVersion.TLSv1_2)

    def test_a_file_that_is_another_one_is_named(self) -> None:
        _, other = made(self.folder, "other")
        text, locked = self.folder / "text", self.folder / "locked"
        text.write_text("a letter\n")
        ciphered = ["openssl", "pkey", "-in", str(self.key), "-aes256", "-passout", "pass:secret", "-out", str(locked)]
        subprocess.run(ciphered, check=True, capture_output=True)
        gone = self.folder / "gone"
        for files, said in (
            ((gone, self.key), f"{gone}: No such file or directory"),
            ((self.certificate, gone), f"{gone}: No such file or directory"),
            ((self.folder, self.key), f"{self.folder}: Is a directory"),
            ((text, self.key), f"{text} has no certificate in PEM"),
            ((self.key, self.key), f"{self.key} has no certificate in PEM"),
            ((self.certificate, text), f"{text} has no private key in PEM"),
            ((self.certificate, self.certificate), f"{self.certificate} has no private key in PEM"),
            ((self.certificate, locked), f"{locked} has no private key in PEM that can be read without a password"),
            ((self.certificate, other), f"{other} isn't the key of {self.certificate}"),
        ):
            with self.subTest(said), self.assertRaisesRegex(DeskError, f"^{re.escape(said)}"):
                tls.context_of(*files)

    def test_nobody_comes_to_the_pages_but_by_tls(self) -> None:
        listener = socket.create_server(("127.0.0.1", 0))
        front = tls.Front(tls.context_of(self.certificate, self.key), listener)
        self.addCleanup(front.close)
        front.peers["40001"] = "192.0.2.7"
        seen, said = list[dict[str, Any]](), list[str]()
        pages = front.before(lambda environ, _: [str(environ["REMOTE_ADDR"]).encode()])
        for port in ("40001", "40002", None):
            environ = {"REMOTE_ADDR": "127.0.0.1", "REMOTE_PORT": port}
            seen.append({"body": b"".join(pages(environ, lambda status, _: said.append(status)))})
        self.assertEqual(seen[0]["body"], b"192.0.2.7")
        self.assertEqual(said, ["403 Forbidden"] * 2)


class Words(OfficeTest):
    def test_a_certificate_and_a_key_go_together(self) -> None:
        if WHY:
            self.skipTest(WHY)
        users = self.folder / "web.users"
        users.write_text("")
        where = ("--port", "0", "--users", str(users), "--door", "1")
        for given in ("--tls-cert", "--tls-key"):
            done = self.desk("web", str(self.file), *where, given, str(users), at=None)
            self.assertEqual(done.status, 2)
            self.assertIn("give --tls-cert and --tls-key, or neither", done.err)
        both = ("--tls-cert", str(users), "--tls-key", str(users))
        done = self.desk("web", str(self.file), *where, *both, at=None)
        self.assertEqual(done.status, 1)
        self.assertIn(f"{users} has no certificate in PEM", done.err)


@unittest.skipUnless(HAS_OPENSSL, "openssl isn't there")
class Served(WebTest):
    def setUp(self) -> None:
        super().setUp()
        self.certificate, key = made(self.folder)
        words = [sys.executable, str(DESK), "web", str(self.file), "--port", "0", "--users", str(self.users)]
        words += ["--door", self.where, "--tls-cert", str(self.certificate), "--tls-key", str(key), "--json"]
        self.said = self.folder / "pages.log"
        with self.said.open("wb") as log:
            self.pages = subprocess.Popen(words, stdout=subprocess.PIPE, stderr=log, text=True)
        self.addCleanup(self.stop)
        assert self.pages.stdout
        text = "".join(itertools.takewhile(lambda line: line != "}\n", self.pages.stdout))  # once they are served
        found = re.search(r'"serves": "https://127\.0\.0\.1:(\d+)"', text)
        assert found, self.said.read_text()
        self.port = int(found[1])

    def stop(self) -> None:
        """Ends the pages' server in good order."""
        self.pages.terminate()
        self.assertEqual(self.pages.wait(LONG), 0, self.said.read_text())
        assert self.pages.stdout
        self.pages.stdout.close()

    def client(self) -> http.client.HTTPSConnection:
        """A connection by TLS from another address than the one at which the pages listen."""
        trusts = ssl.create_default_context(cafile=str(self.certificate))
        from_ = ("127.0.0.2", 0)
        found = http.client.HTTPSConnection("127.0.0.1", self.port, timeout=LONG, context=trusts, source_address=from_)
        self.addCleanup(found.close)
        return found

    def sent(self, client: Any, path: str, body: bytes = b"", **headers: str) -> tuple[Any, bytes]:
        """The answer to a request, and its body."""
        named = {it.replace("_", "-"): value for it, value in headers.items()}
        client.request("POST" if body else "GET", path, body or None, named)
        answer = client.getresponse()
        return answer, answer.read()

    def token(self, page: bytes) -> str:
        """The token of the last form of a page."""
        return str(re.findall(r'name="token" value="([^"]+)"', page.decode())[-1])

    def test_a_clerk_logs_in_puts_and_reads(self) -> None:
        client, content = self.client(), bytes(range(256)) * 4_096
        answer, page = self.sent(client, "/login")
        self.assertEqual(answer.headers["Strict-Transport-Security"], "max-age=31536000")
        mark = str(answer.headers["Set-Cookie"])
        self.assertRegex(mark, r"^__Host-vault-login=\S+; Secure; HttpOnly; Path=/; SameSite=Lax$")
        form = urllib.parse.urlencode({"token": self.token(page), "name": "ann", "password": PASSWORD}).encode()
        kind = "application/x-www-form-urlencoded"
        answer, _ = self.sent(client, "/login", form, Cookie=mark.split(";")[0], Content_Type=kind)
        self.assertEqual(answer.status, 303)
        [cookie] = [it.split(";")[0] for it in answer.headers.get_all("Set-Cookie") or [] if "__Host-vault=" in it]
        _, page = self.sent(client, "/put?bucket=docs&key=scan", Cookie=cookie)
        head = "".join(
            f'--x\r\nContent-Disposition: form-data; name="{name}"\r\n\r\n{value}\r\n'
            for name, value in {"token": self.token(page), "bucket": "docs", "key": "scan"}.items()
        ) + '--x\r\nContent-Disposition: form-data; name="file"; filename="f.bin"\r\n\r\n'
        body = head.encode() + content + b"\r\n--x--\r\n"
        kind = "multipart/form-data; boundary=x"
        answer, said = self.sent(client, "/put/file", body, Cookie=cookie, Content_Type=kind)
        self.assertEqual(answer.status, 303, said)
        _, found = self.sent(client, f"{answer.headers['Location']}/content", Cookie=cookie)
        self.assertEqual(found, content)
        self.assertIn(" 127.0.0.2 ann POST /put/file 303 ", self.said.read_text())

    def test_who_is_silent_or_speaks_no_tls_keeps_nobody_out(self) -> None:
        silent = [socket.create_connection(("127.0.0.1", self.port)) for _ in range(60)]
        for it in silent:
            self.addCleanup(it.close)
        with socket.create_connection(("127.0.0.1", self.port), LONG) as plain:
            plain.sendall(b"GET /login HTTP/1.1\r\nHost: pages\r\n\r\n")
            self.assertNotIn(b"200", plain.recv(1_000))
        answer, _ = self.sent(self.client(), "/login")
        self.assertEqual(answer.status, 200)
        self.assertNotIn("Traceback", self.said.read_text())


if __name__ == "__main__":
    unittest.main()
