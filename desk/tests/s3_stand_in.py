"""A stand-in for an S3 store with versions and locks, for what a vault can't show: objects above its limit, or altered,
and answers that are cut. It keeps contents in files, and its lists have three rows a page."""

from __future__ import annotations

import base64
import datetime as dt
import hashlib
import http.server
import itertools
import re
import threading
import urllib.parse
from dataclasses import dataclass
from pathlib import Path
from typing import Any

PAGE = 3
PIECE = 1_048_576


@dataclass
class Version:
    """A version of an object, or a delete marker (without a file)."""

    number: str
    file: Path | None
    mode: str | None = None
    until: str | None = None

    @property
    def is_locked(self) -> bool:
        """Whether it may not be deleted now."""
        return self.until is not None and dt.datetime.fromisoformat(self.until) > dt.datetime.now(dt.timezone.utc)


class StandIn(http.server.ThreadingHTTPServer):
    """Its objects, the newest version of each last; `cut` is how many bytes an answer lacks, `fails` its status where
    it answers nothing else."""

    def __init__(self, folder: Path) -> None:
        super().__init__(("127.0.0.1", 0), Handler)
        self.folder = folder
        self.objects: dict[str, list[Version]] = {}
        self.numbers = itertools.count(1)
        self.cut = 0
        self.fails = 0
        threading.Thread(target=self.serve_forever, args=(0.01,), daemon=True).start()

    def handle_error(self, *_: Any) -> None:
        """Says nothing where a client has gone."""

    @property
    def endpoint(self) -> str:
        """Its address."""
        return f"http://127.0.0.1:{self.server_address[1]}"

    def newest(self, key: str) -> Version | None:
        """The version that counts; none where a marker is on top."""
        found = self.objects.get(key, [])
        return found[-1] if found and found[-1].file else None

    def spoil(self, key: str, content: bytes) -> None:
        """Has the newest version of a key be other bytes."""
        found = self.newest(key)
        assert found and found.file
        found.file.write_bytes(content)

    def put(self, key: str, content: bytes) -> Version:
        """Puts a version, as another client does."""
        number = str(next(self.numbers))
        file = self.folder / number
        file.write_bytes(content)
        self.objects.setdefault(key, []).append(Version(number, file))
        return self.objects[key][-1]


def _tag(xml: bytes, name: str) -> str:
    found = re.search(f"<{name}>(.*?)</{name}>", xml.decode())
    assert found
    return found[1]


class Handler(http.server.BaseHTTPRequestHandler):
    """One connection."""

    protocol_version = "HTTP/1.1"
    server: StandIn

    def log_message(self, *_: Any) -> None:
        """Nothing is said."""

    def answer(self, status: int, body: bytes = b"", **headers: str) -> None:
        """Answers so."""
        self.send_response(status)
        for name, it in headers.items():
            self.send_header(name.replace("_", "-"), it)
        if "Content_Length" not in headers:
            self.send_header("Content-Length", str(len(body)))
        self.end_headers()
        if self.command != "HEAD":
            self.wfile.write(body)

    def refuse(self, status: int, code: str) -> None:
        """Refuses with that code."""
        self.close_connection = True
        self.answer(status, f"<Error><Code>{code}</Code><Message>no</Message></Error>".encode(), Connection="close")

    def asked(self) -> tuple[str, dict[str, str]]:
        """The key and the query."""
        path, _, query = self.path.partition("?")
        return path.partition("/")[2].partition("/")[2], dict(urllib.parse.parse_qsl(query, keep_blank_values=True))

    def do_GET(self) -> None:
        """A list, a retention or an object."""
        key, query = self.asked()
        if self.server.fails:
            self.refuse(self.server.fails, "SlowDown")
        elif not key:
            self.list_versions(query) if "versions" in query else self.list_objects(query)
        elif "retention" in query:
            self.retention(self.server.newest(key))
        else:
            self.give(self.server.newest(key))

    do_HEAD = do_GET

    def retention(self, found: Version | None) -> None:
        """The lock of a version."""
        if not found or not found.until:
            self.refuse(404, "NoSuchObjectLockConfiguration")
            return
        self.answer(200, f"<Retention><Mode>{found.mode}</Mode><RetainUntilDate>{found.until}</RetainUntilDate>"
                         "</Retention>".encode())  # fmt: skip

    def give(self, found: Version | None) -> None:
        """An object, without its last bytes where that is asked for."""
        if not found or not found.file:
            self.refuse(404, "NoSuchKey")
            return
        size = found.file.stat().st_size
        self.answer(200, Content_Length=str(size), Last_Modified="Tue, 01 Dec 2026 00:00:00 GMT")
        left = (size - self.server.cut) * (self.command != "HEAD")
        with found.file.open("rb") as file:
            while left > 0:
                left -= self.wfile.write(file.read(min(left, PIECE)))
        self.close_connection = self.close_connection or bool(self.server.cut)

    def list_objects(self, query: dict[str, str]) -> None:
        """A page of objects."""
        keys = sorted(it for it in self.server.objects if self.server.newest(it))
        keys = [it for it in keys if it > query.get("continuation-token", "")]
        rows = []
        for it in keys[:PAGE]:
            found = self.server.newest(it)
            assert found and found.file
            rows.append(f"<Contents><Key>{it}</Key><Size>{found.file.stat().st_size}</Size></Contents>")
        more = f"<IsTruncated>{str(len(keys) > PAGE).lower()}</IsTruncated>"
        more += f"<NextContinuationToken>{keys[PAGE - 1]}</NextContinuationToken>" if len(keys) > PAGE else ""
        self.answer(200, f"<ListBucketResult>{''.join(rows)}{more}</ListBucketResult>".encode())

    def list_versions(self, query: dict[str, str]) -> None:
        """The versions of keys that begin so."""
        rows = []
        for key, versions in self.server.objects.items():
            for it in reversed(versions) if key.startswith(query.get("prefix", "")) else ():
                kind = "Version" if it.file else "DeleteMarker"
                rows.append(f"<{kind}><Key>{key}</Key><VersionId>{it.number}</VersionId></{kind}>")
        self.answer(200, f"<ListVersionsResult>{''.join(rows)}</ListVersionsResult>".encode())

    def do_PUT(self) -> None:
        """A retention or an object."""
        key, query = self.asked()
        left = int(self.headers["Content-Length"])
        if "retention" in query:
            self.put_retention(self.server.newest(key), self.rfile.read(left))
            return
        made, digest = self.server.put(key, b""), hashlib.sha256()
        assert made.file
        if self.headers.get("Expect") == "100-continue" and not left:
            self.send_response_only(100)
            self.end_headers()
        with made.file.open("wb") as file:
            while piece := self.rfile.read(min(left, PIECE)):
                left -= len(piece)
                digest.update(piece)
                file.write(piece)
        if self.headers["x-amz-checksum-sha256"] != base64.b64encode(digest.digest()).decode():
            self.server.objects[key].remove(made)
            self.refuse(400, "BadDigest")
            return
        made.mode = self.headers.get("x-amz-object-lock-mode")
        made.until = self.headers.get("x-amz-object-lock-retain-until-date")
        self.answer(200, x_amz_version_id=made.number)

    def put_retention(self, found: Version | None, xml: bytes) -> None:
        """A lock of a version, which is never shortened."""
        assert found
        until = _tag(xml, "RetainUntilDate")
        if found.is_locked and dt.datetime.fromisoformat(until) < dt.datetime.fromisoformat(str(found.until)):
            self.refuse(403, "AccessDenied")
            return
        found.mode, found.until = _tag(xml, "Mode"), until
        self.answer(200)

    def do_DELETE(self) -> None:
        """A version goes, or a marker comes on top."""
        key, query = self.asked()
        versions = self.server.objects.get(key, [])
        if "versionId" not in query:
            versions.append(Version(str(next(self.server.numbers)), None))
        for it in [it for it in versions if it.number == query.get("versionId")]:
            if it.is_locked:
                self.refuse(403, "AccessDenied")
                return
            versions.remove(it)
        self.answer(204)
