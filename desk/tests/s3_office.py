"""A gateway for tests: over an office's vault, with a fixed clock, and what a client signs by hand."""

from __future__ import annotations

import contextlib
import hashlib
import hmac
import itertools
import re
import socket
import threading
import urllib.parse
from collections.abc import Iterator, Mapping
from dataclasses import dataclass
from pathlib import Path
from typing import Any

from tests.office import PROGRAM, OfficeTest
from vaultdesk.config import Desk
from vaultdesk.engine import Engine
from vaultdesk.s3.again import Unanswered
from vaultdesk.s3.asked import Vault
from vaultdesk.s3.door import OwnEngine
from vaultdesk.s3.etags import Etags
from vaultdesk.s3.gateway import Gateway
from vaultdesk.s3.keys import Keys
from vaultdesk.s3.server import Server
from vaultdesk.s3.settings import Settings
from vaultdesk.s3.unguarded import Unguarded

AT = "2024-01-15T10:00:00Z"  # of the vault
NOW = 1_795_828_320  # 2026-11-28T01:12:00Z, of the gateway: when the kept requests were signed
DATE = "20261128T011200Z"
SECRET = "a-secret-for-tests-alone-0123456789abcdef"
ANN, BEA, CID = "VKTESTKEYOFANNANN234", "VKTESTKEYOFBEABEA234", "VKTESTKEYOFCIDCID234"
# What clients sent on 28 November 2026: boto3 1.43.11, aws 2.9.19, s3cmd 2.3.0, rclone 1.60.1.
KEPT = Path(__file__).parent / "s3_requests"
EMPTY = hashlib.sha256(b"").hexdigest()
COUNT = itertools.count(1)


@dataclass(frozen=True)
class Reply:
    """An answer: its status, its headers by lower-case names, and its body."""

    status: int
    headers: Mapping[str, str]
    body: bytes

    @property
    def code(self) -> str:
        """The code of a refusal."""
        return self.all("Code")[0] if b"<Error>" in self.body else ""

    def all(self, name: str) -> list[str]:
        """The texts of all elements of that name in the body."""
        found = re.findall(f"<{name}>(.*?)</{name}>", self.body.decode(), re.DOTALL)
        return [it.replace("&lt;", "<").replace("&gt;", ">").replace("&amp;", "&") for it in found]


def quoted(text: str) -> str:
    """A text as a path has it."""
    return urllib.parse.quote(text, safe="/-._~")


def signature(lines: list[str], secret: str = SECRET, day: str = DATE[:8], region: str = "us-east-1") -> str:
    """The signature of these lines."""
    key = f"AWS4{secret}".encode()
    for part in (day, region, "s3", "aws4_request"):
        key = hmac.new(key, part.encode(), hashlib.sha256).digest()
    return hmac.new(key, "\n".join(lines).encode(), hashlib.sha256).hexdigest()


def request(
    method: str, target: str, body: bytes = b"", headers: Mapping[str, str] | None = None, access_key: str = ANN
) -> bytes:
    """A request as a client signs it, whose headers are all signed. Its signature is its own: one of them counts."""
    path, _, query = target.partition("?")
    given = {"host": "vault", "user-agent": f"tests/{next(COUNT)}", "x-amz-date": DATE}
    given["x-amz-content-sha256"] = hashlib.sha256(body).hexdigest()
    given |= {name.lower(): value for name, value in (headers or {}).items()}
    date = given["x-amz-date"]
    pairs = sorted(tuple(it.split("=", 1)) if "=" in it else (it, "") for it in query.split("&") if it)
    names = sorted(given)
    canonical = [
        method, path, "&".join(f"{name}={value}" for name, value in pairs),
        *[f"{it}:{given[it]}" for it in names], "", ";".join(names), given["x-amz-content-sha256"],
    ]  # fmt: skip
    scope = f"{date[:8]}/us-east-1/s3/aws4_request"
    digest = hashlib.sha256("\n".join(canonical).encode()).hexdigest()
    signed = signature(["AWS4-HMAC-SHA256", date, scope, digest], day=date[:8])
    who = f"Credential={access_key}/{scope}, SignedHeaders={';'.join(names)}, Signature={signed}"
    head = [f"{method} {target} HTTP/1.1", *[f"{it}: {given[it]}" for it in names]]
    head.append(f"Authorization: AWS4-HMAC-SHA256 {who}")
    if "transfer-encoding" not in given and "content-length" not in given and (body or method in ("PUT", "POST")):
        head.append(f"content-length: {len(body)}")
    return "\r\n".join([*head, "", ""]).encode() + body


def replies(connection: socket.socket, requests: bytes) -> list[Reply]:
    """All answers to what is sent, up to the end of the connection."""
    connection.sendall(requests)
    connection.shutdown(socket.SHUT_WR)
    with connection.makefile("rb") as file:
        return list(read_replies(file.read(), requests))


def read_replies(text: bytes, requests: bytes = b"") -> Iterator[Reply]:
    """The answers of which the bytes are; those to HEAD have no body."""
    methods = re.findall(rb"(?:^|\n|[^\r\n])(GET|HEAD|PUT|POST|DELETE) /\S* HTTP/1.1\r\n", requests)
    while text:
        head, _, text = text.partition(b"\r\n\r\n")
        first, *lines = head.decode("latin-1").split("\r\n")
        status = int(first.split()[1])
        if status == 100:
            continue
        headers = {name.lower(): value.strip() for name, _, value in (it.partition(":") for it in lines)}
        method = methods.pop(0) if methods else b""
        size = 0 if method == b"HEAD" or status in (204, 304) else int(headers.get("content-length", "0"))
        yield Reply(status, headers, text[:size])
        text = text[size:]


class GatewayTest(OfficeTest):
    """A gateway over the office's vault. `ann` has all rights, `bea` may put and delete, `cid` is of another
    department."""

    PRESIGNED = False
    DROPPED: frozenset[str] = frozenset()
    UNGUARDED: tuple[str, ...] = ("docs", "cases", "maps")  # of which it was said that nothing guards what comes in
    made: dict[str, bytes] = {}  # the files of the vault, which is made once for all tests

    def make(self) -> None:
        """Makes the vault, or a copy of one that was made."""
        if not self.made:
            super().make()
            self.make_others()
            self.made.update({it: Path(f"{self.file}{it}").read_bytes() for it in ("", "-wal")})
        for name, content in self.made.items():
            Path(f"{self.file}{name}").write_bytes(content)

    def make_others(self) -> None:
        """Makes the callers beside `ann`."""
        plain = ["put", "get", "list", "delete", "delete-version"]
        self.lines(
            {"do": "add-caller", "as": "registrar", "caller": "bea", "dept": "records", "rights": plain},
            {"do": "add-dept", "as": "registrar", "dept": "court"},
            {"do": "add-caller", "as": "registrar", "caller": "cid", "dept": "court", "rights": plain},
            {"do": "add-bucket", "as": "registrar", "bucket": "cases", "dept": "court"},
        )

    def setUp(self) -> None:
        super().setUp()
        text = "".join(
            f'[{name}]\ncaller = "{caller}"\nsecret = "{SECRET}"\n'
            for name, caller in ((ANN, "ann"), (BEA, "bea"), (CID, "cid"))
        )
        self.keys = Path(self.written("keys.toml", text.encode()))
        self.keys.chmod(0o600)
        self.now = float(NOW)
        self.at: str | None = AT
        self.etags: Path | None = self.folder / "etags"
        self.start()
        self.addCleanup(self.stop)

    def start(self) -> None:
        """Starts a gateway."""
        given = Settings(
            str(self.file), self.keys, self.etags, 0, presigned=self.PRESIGNED, dropped_metadata=self.DROPPED,
            unanswered=self.folder / "unanswered",
        )  # fmt: skip
        self.door = OwnEngine(Engine(Desk(PROGRAM, self.file), self.at))
        notes = Unanswered(given.unanswered)
        self.vault = Vault(self.door, Etags(given.etags), given, notes, Unguarded(self.UNGUARDED))
        self.server = Server(given, Gateway(self.vault, Keys(self.keys), lambda: self.now), is_quiet=True)
        threading.Thread(target=self.server.serve_forever, args=(0.01,), daemon=True).start()

    def stop(self) -> None:
        """Stops it, and closes the vault."""
        self.server.shutdown()
        self.server.server_close()
        self.door.close()
        self.vault.etags.close()

    @contextlib.contextmanager
    def connected(self) -> Iterator[socket.socket]:
        """A connection to the gateway."""
        with socket.create_connection(("127.0.0.1", self.server.server_address[1]), timeout=300) as connection:
            yield connection

    def send(self, requests: bytes) -> list[Reply]:
        """The answers to the bytes of requests over one connection."""
        with self.connected() as connection:
            return replies(connection, requests)

    def ask(
        self, method: str, target: str, body: bytes = b"", headers: Mapping[str, str] | None = None, who: str = ANN
    ) -> Reply:
        """The answer to one request."""
        (reply,) = self.send(request(method, target, body, headers, who))
        return reply

    def done(  # type: ignore[override]
        self, method: str, target: str, body: bytes = b"", headers: Mapping[str, str] | None = None, who: str = ANN
    ) -> Reply:
        """The answer to one request that is carried out."""
        reply = self.ask(method, target, body, headers, who)
        self.assertLess(reply.status, 300, reply.body)
        return reply

    def refused(self, code: str, status: int, reply: Reply) -> None:
        """The answer has that code and status."""
        self.assertEqual((reply.code, reply.status), (code, status), reply.body)

    def entries(self, bucket: str = "docs") -> list[dict[str, Any]]:
        """What the bucket holds."""
        who = "cid" if bucket == "cases" else "ann"
        return list(self.door.ask(who, "list-versions", bucket=bucket).value["entries"])

    def kept(self, name: str) -> bytes:
        """The bytes that a client sent once."""
        return (KEPT / f"{name}.http").read_bytes()
