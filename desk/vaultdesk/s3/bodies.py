"""The body of a request, as it comes: its content, and whether that is what the head says of it."""

from __future__ import annotations

import hashlib
import io
from collections.abc import Callable, Mapping, Sequence
from dataclasses import dataclass, field
from functools import cached_property

from vaultdesk.s3 import checksums
from vaultdesk.s3.checksums import Checks
from vaultdesk.s3.chunks import PIECE, Chain, Decoder
from vaultdesk.s3.faults import Fault
from vaultdesk.s3.framing import NUMBER, Reader, Source, cut, framed
from vaultdesk.s3.request import Request
from vaultdesk.s3.signature import UNSIGNED, Signed, payload_of

SIGNED_CHUNKS = "STREAMING-AWS4-HMAC-SHA256-PAYLOAD"
SIGNED_TRAILER = "STREAMING-AWS4-HMAC-SHA256-PAYLOAD-TRAILER"
UNSIGNED_TRAILER = "STREAMING-UNSIGNED-PAYLOAD-TRAILER"
STREAMS = (SIGNED_CHUNKS, SIGNED_TRAILER, UNSIGNED_TRAILER)
CONTENT = 1_048_576  # bytes of a version
SMALL = 65_536  # bytes of an XML document that isn't large
DOCUMENT = 4_194_304  # bytes of a large one
TOO_LARGE = f"a version has at most {CONTENT:,} bytes: cut the content into parts, each a version of a key of its own"
IN_PARTS = (
    f"uploads in parts (multipart) aren't taken, of any size: send the content as one put that says its length, "
    f"at most {CONTENT:,} bytes; a client that doesn't know the length beforehand sends parts"
)


@dataclass(frozen=True)
class Body:
    """A content whose digest, signatures and checksums are right, its MD5, and the checksums that were sent."""

    content: bytes
    md5: str
    checksums: Mapping[str, str] = field(default_factory=dict)

    @cached_property
    def sha256(self) -> str:
        """The SHA-256 of the content, in hex digits."""
        return hashlib.sha256(self.content).hexdigest()


def body_of(content: bytes) -> Body:
    """A content that came from the vault."""
    return Body(content, hashlib.md5(content, usedforsecurity=False).hexdigest())


def _too_large(most: int) -> Fault:
    words = TOO_LARGE if most == CONTENT else f"the body of this request has at most {most:,} bytes"
    return Fault("EntityTooLarge", words)


class Content:
    """The content of a body as it comes. What it returns is the content only after it has returned the end: by then its
    length, digest, signatures and checksums were right."""

    def __init__(self, source: Reader | Decoder, most: int, checks: Checks, length: str | None) -> None:
        """At most that many bytes. `length` is that of the content, where the head says it beside that of the body."""
        self.source = source
        self.most = most
        self.checks = checks
        self.length = length
        self.size = 0
        self.checksums: Mapping[str, str] = {}

    def read(self, most: int, /) -> bytes:
        """The next bytes, no more than that; none at the end. `Fault` where the content is longer than it may be, ends
        early, or isn't what its digest, signatures and checksums say."""
        found = self.source.read(most)
        self.size += len(found)
        if self.size > self.most:
            raise _too_large(self.most)
        if found:
            self.checks.update(found)
        elif most:
            if self.length is not None and self.length != str(self.size):
                raise cut()
            self.checksums = self.checks.compare(self.source.trailer if isinstance(self.source, Decoder) else {})
        return found


# ---- the whole body


def declared(request: Request) -> int:
    """The length of the content that the head declares, 0 where it declares none."""
    is_streamed = request.headers.get("x-amz-content-sha256") in STREAMS
    name = "x-amz-decoded-content-length" if is_streamed else "content-length"
    length = request.headers.get(name, "0")
    return int(length) if NUMBER.fullmatch(length) else 0


def may_be_large(request: Request) -> bool:
    """Whether the head declares a large document, or no length."""
    return declared(request) > SMALL or not declared(request) and "transfer-encoding" in request.headers


def _announced(request: Request, form: str) -> Sequence[str]:
    """The names that the trailer will have. `Fault` where a body of that form can't have them."""
    names = [it.strip().lower() for it in request.headers.get("x-amz-trailer", "").split(",") if it.strip()]
    if names and form == SIGNED_CHUNKS or not all(it.startswith(checksums.PREFIX) for it in names):
        raise Fault("InvalidRequest", f"x-amz-trailer: {form} has no such trailer here")
    return names


def _look_at_form(request: Request, payload: str) -> None:
    """`Fault` where the body is of a form that isn't taken."""
    is_streamed = payload in STREAMS
    if payload.startswith("STREAMING-") and not is_streamed:
        raise Fault("InvalidRequest", f"x-amz-content-sha256 is {payload}: bodies of that form aren't taken")
    is_chunked = "aws-chunked" in request.headers.get("content-encoding", "").lower().replace(" ", "").split(",")
    if is_chunked and not is_streamed:
        raise Fault("InvalidRequest", "content-encoding is aws-chunked, and x-amz-content-sha256 says another form")


def opened(request: Request, signed: Signed, key: bytes, most: int, begin: Callable[[], Source]) -> Content:
    """The content of a request whose signature is right, at most that many bytes.

    `begin` asks the client to send it, as its first bytes are read. `Fault` where the head has what is refused."""
    payload = payload_of(request, signed)
    _look_at_form(request, payload)
    if declared(request) > most:
        raise _too_large(most)
    body = framed(request, _Begun(begin))
    if payload not in STREAMS:
        return Content(body, most, Checks(request, (), None if payload == UNSIGNED else payload), None)
    names = _announced(request, payload)
    chain = None if payload == UNSIGNED_TRAILER else Chain(signed, key)
    decoder = Decoder(body, chain, names, payload == SIGNED_TRAILER)
    length = request.headers.get("x-amz-decoded-content-length")
    return Content(decoder, most, Checks(request, names, None), length)


def read(request: Request, signed: Signed, key: bytes, most: int, begin: Callable[[], Source]) -> Body:
    """The whole content of a request, as `opened` has it. `Fault` also where it isn't what the head says of it."""
    content = opened(request, signed, key, most, begin)
    kept = io.BytesIO()
    while piece := content.read(PIECE):
        kept.write(piece)
    return Body(kept.getvalue(), content.checks.md5.hexdigest(), content.checksums)


class _Begun:
    """A source that is begun as the first of its bytes are asked for."""

    def __init__(self, begin: Callable[[], Source]) -> None:
        self.begin = begin
        self.source: Source | None = None

    def _there(self) -> Source:
        self.source = self.source or self.begin()
        return self.source

    def read(self, most: int, /) -> bytes:
        """The next bytes."""
        return self._there().read(most) if most else b""

    def readline(self, most: int, /) -> bytes:
        """The next line."""
        return self._there().readline(most) if most else b""
