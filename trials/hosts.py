"""Hosts: a server that answers requests for some hosts alone, at its port and beside a door of lines.

Each test serves a new vault. A put for another host is refused, and leaves no version.
"""

import socket

from trials.parts.program import Case, check, make_office
from trials.parts.servers import HOST, answer_to, serving

FILE = "records.vault"
# The hosts that a server of `--host vault.example.org --host vault` answers for, and others; PORT is the server's.
KNOWN = ("localhost:PORT", "LOCALHOST", "127.0.0.1:PORT", "[::1]:PORT", "vault.example.org", "Vault.Example.Org:443", "vault")
STRANGE = ("evil.example:PORT", "vault.example.org.evil.example", "localhost:x", "127.0.0.2", "[::1", "")
REFUSED = b'{"code":"InvalidArgument","n":10}'


def put_for(port: int, *hosts: str) -> bytes:
    """What is answered to a put with a header `host` for each of these."""
    lines = "".join(f"Host: {it}\r\n".replace("PORT", str(port)) for it in hosts)
    head = f"PUT /docs/a HTTP/1.1\r\n{lines}x-vault-caller: ann\r\ncontent-length: 5\r\n\r\n"
    return answer_to(port, head.encode() + b"hello")


class Hosts(Case):
    def setUp(self) -> None:
        super().setUp()
        make_office(self.folder / FILE, "put")

    def is_refused(self, port: int, *hosts: str) -> None:
        answer = put_for(port, *hosts)
        check(answer.startswith(b"HTTP/1.1 400 Bad Request\r\n") and answer.endswith(REFUSED), f"{hosts}: {answer!r}")

    def is_put(self, port: int, version: int, *hosts: str) -> None:
        answer = put_for(port, *hosts)
        wanted = f"x-amz-version-id: {version}\r\n\r\n".encode()
        check(answer.startswith(b"HTTP/1.1 200 OK\r\n") and answer.endswith(wanted), f"{hosts}: {answer!r}")

    def are_judged(self, port: int) -> None:
        """Puts for strange hosts, and then for those that are known, whose versions are the first ones."""
        for it in STRANGE:
            self.is_refused(port, it)
        self.is_refused(port)
        self.is_refused(port, "localhost", "localhost")
        for version, it in enumerate(KNOWN, start=1):
            self.is_put(port, version, it)

    def test_named_hosts(self) -> None:
        with serving(FILE, "--host", "vault.example.org", "--host", "vault", folder=self.folder) as port:
            self.are_judged(port)
        self.is_sound(FILE)

    def test_head_of_strangers(self) -> None:
        with serving(FILE, "--host", "vault", folder=self.folder) as port:
            answer = answer_to(port, b"HEAD /docs/a HTTP/1.1\r\nhost: evil.example\r\n\r\n")
            check(answer.endswith(b"content-length: 33\r\n\r\n"), f"a HEAD for another host: {answer!r}")

    def test_bodies_of_strangers(self) -> None:
        """A client that waits to go on is refused at once."""
        head = b"PUT /docs/a HTTP/1.1\r\nhost: evil.example\r\nexpect: 100-continue\r\ncontent-length: 5\r\n\r\n"
        with serving(FILE, "--host", "vault", folder=self.folder) as port:
            with socket.create_connection((HOST, port), 10) as peer:
                peer.sendall(head)
                answer = peer.recv(65_536)
            check(answer.startswith(b"HTTP/1.1 400 "), f"a client that waits to go on: {answer!r}")

    def test_any_host(self) -> None:
        with serving(FILE, folder=self.folder) as port:
            for version, it in enumerate(("evil.example", "", "[::1"), start=1):
                self.is_put(port, version, it)
            self.is_put(port, 4)
            self.is_put(port, 5, "a", "b")
