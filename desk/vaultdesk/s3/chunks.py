"""The content of a body in `aws-chunked`, decoded as it comes: its chunks, their signatures, and its trailer."""

from __future__ import annotations

import hashlib
import hmac
import io
import re
from collections.abc import Sequence

from vaultdesk.s3.faults import Fault
from vaultdesk.s3.framing import LINE, Reader, cut
from vaultdesk.s3.signature import EMPTY, Signed, sign

TRAILER = 4_096  # bytes of a trailer
PIECE = 65_536  # bytes that are read at once
FIRST = re.compile(rb"([0-9A-Fa-f]{1,8})(?:;chunk-signature=([0-9a-f]{64}))?\r\n")  # line of a chunk
LEAST = 8_192  # bytes of each chunk but the last, as each costs a signature
TRAILING = "x-amz-trailer-signature"


class Chain:
    """The signatures of chunks, each of which is made with the one before it."""

    def __init__(self, signed: Signed, key: bytes) -> None:
        self.signed = signed
        self.key = key
        self.last = signed.signature

    def _follow(self, kind: str, digests: tuple[str, ...], signature: str) -> None:
        lines = (f"AWS4-HMAC-SHA256-{kind}", self.signed.date, self.signed.scope, self.last, *digests)
        self.last = sign(self.key, lines)
        if not hmac.compare_digest(self.last.encode(), signature.encode("latin-1")):
            raise Fault("SignatureDoesNotMatch", "the signature of a part of the body isn't that of this access key")

    def chunk(self, digest: str, signature: str) -> None:
        """`Fault` where that isn't the signature of the next chunk, whose SHA-256 is `digest`."""
        self._follow("PAYLOAD", (EMPTY, digest), signature)

    def trailer(self, lines: bytes, signature: str) -> None:
        """`Fault` where that isn't the signature of the trailer."""
        self._follow("TRAILER", (hashlib.sha256(lines).hexdigest(),), signature)


class _Raw(io.RawIOBase):
    """A reader as Python's buffers have it."""

    def __init__(self, source: Reader) -> None:
        super().__init__()
        self.source = source

    def readable(self) -> bool:
        """It is."""
        return True

    def readinto(self, buffer: memoryview, /) -> int:  # type: ignore[override]
        """The next bytes; none at the end."""
        found = self.source.read(len(buffer))
        buffer[: len(found)] = found
        return len(found)


class Decoder:
    """The content of a body in `aws-chunked`, over a reader of the body. It keeps one piece, however long the body or a
    chunk is.

    What it returns is the content only after it has returned the end: by then each signature was right. `trailer` has
    the values of the trailer from then on."""

    def __init__(
        self, body: Reader, chain: Chain | None = None, announced: Sequence[str] = (), is_trailer_signed: bool = False
    ) -> None:
        """`chain` where chunks are signed, and which names the trailer has, in their order."""
        self.body = io.BufferedReader(_Raw(body), PIECE)
        self.chain = chain
        self.announced = announced
        self.is_trailer_signed = is_trailer_signed
        self.trailer: dict[str, str] = {}
        self.left = 0  # bytes of the chunk that haven't come
        self.size = LEAST  # of the chunk
        self.signature = ""
        self.digest = hashlib.sha256()
        self.is_done = False

    def read(self, most: int, /) -> bytes:
        """The next bytes of the content, no more than that; none at its end. `Fault` where the chunks aren't whole, or
        their signatures or the trailer aren't right."""
        if not self.left and not self.is_done:
            self._begin()
        if self.is_done or not most:
            return b""
        found = self.body.read1(min(most, self.left))
        if not found:
            raise cut()
        self.left -= len(found)
        if self.chain:
            self.digest.update(found)
        if not self.left:
            self._look_at_signature()
            if self.body.readline(2) != b"\r\n":
                raise cut()
        return found

    def _begin(self) -> None:
        """Goes on to the next chunk; after the last one, which has no byte, to the trailer."""
        found = FIRST.fullmatch(self.body.readline(LINE))
        if not found or (found[2] is None) != (self.chain is None):
            raise cut()
        before, self.size = self.size, int(found[1], 16)
        if self.size and before < LEAST:
            raise Fault("InvalidChunkSizeError", f"only the last chunk may have less than {LEAST:,} bytes")
        self.left, self.signature = self.size, (found[2] or b"").decode()
        self.digest = hashlib.sha256()
        if not self.size:
            self._look_at_signature()
            self.trailer, self.is_done = self._read_trailer(), True

    def _look_at_signature(self) -> None:
        if self.chain:
            self.chain.chunk(self.digest.hexdigest(), self.signature)

    def _read_trailer(self) -> dict[str, str]:
        """The values of the trailer. `Fault` where it hasn't just the names that were announced, or is signed wrongly.
        """
        rest = self.body.read(TRAILER + 1)
        found: dict[str, str] = {}
        for line in filter(None, rest.decode("latin-1").replace("\r\n", "\n").split("\n")):
            name, colon, value = line.partition(":")
            if not colon or name.lower() in found:
                raise _malformed()
            found[name.lower()] = value.strip(" \t")
        signature = found.pop(TRAILING, "") if self.is_trailer_signed else ""
        if sorted(found) != sorted(self.announced) or len(rest) > TRAILER:
            raise _malformed()
        if self.is_trailer_signed and self.chain:
            lines = "".join(f"{it}:{found[it]}\n" for it in self.announced)
            self.chain.trailer(lines.encode("latin-1"), signature)
        return found


def _malformed() -> Fault:
    return Fault("MalformedTrailerError", "the trailer hasn't what x-amz-trailer says")
