"""Bodies in `aws-chunked` as they come: each form, in odd pieces, and each kind of damage."""

from __future__ import annotations

import base64
import hashlib
import tracemalloc
import unittest
import zlib
from collections.abc import Iterator

from tests.s3_office import ANN, DATE, EMPTY, SECRET, signature
from tests.test_s3_bodies import LEAST, SCOPE, signed, unsigned
from vaultdesk.s3 import bodies, signature as signatures
from vaultdesk.s3.checksums import Checks
from vaultdesk.s3.chunks import PIECE, Chain, Decoder
from vaultdesk.s3.faults import Fault
from vaultdesk.s3.framing import Reader, Source
from vaultdesk.s3.request import Request, read

CONTENT = bytes(range(251)) * 90  # 22,590 bytes
SEED = "0" * 64
NAME = "x-amz-checksum-crc32"
# Whether chunks are signed, and whether a trailer comes.
FORMS = ((True, False), (True, True), (False, False), (False, True))


def crc(content: bytes) -> str:
    return base64.b64encode(zlib.crc32(content).to_bytes(4, "big")).decode()


def body_of(is_signed: bool, is_trailed: bool, content: bytes = CONTENT, size: int = LEAST) -> bytes:
    """A content in that form, in chunks of that size."""
    line = f"{NAME}:{crc(content)}" if is_trailed else ""
    if is_signed:
        return signed(f"Signature={SEED}".encode(), content, size, line)
    return unsigned(content, size, f"{line}\r\n".encode() if line else b"")


class Pieces:
    """A body of which at most n bytes come at once. It counts the bytes that came."""

    def __init__(self, body: bytes, size: int = 1_000_000) -> None:
        self.body = memoryview(body)
        self.size = size
        self.given = 0

    def read(self, most: int, /) -> bytes:
        """The next bytes."""
        found = self.body[self.given: self.given + min(most, self.size)]
        self.given += len(found)
        return bytes(found)


def chain() -> Chain:
    one = signatures.Signed(ANN, DATE[:8], "us-east-1", (), SEED, DATE)
    return Chain(one, signatures.signing_key(SECRET, one))


def decoder(source: Reader, is_signed: bool, is_trailed: bool) -> Decoder:
    return Decoder(source, chain() if is_signed else None, (NAME,) if is_trailed else (), is_signed and is_trailed)


def head(**headers: str) -> Request:
    return read("PUT", "/docs/a", {it.replace("_", "-"): value for it, value in headers.items()})


def whole(source: Reader, most: int = PIECE) -> bytes:
    """All that comes of a reader, asked for that many bytes at once."""
    found = bytearray()
    while piece := source.read(most):
        assert len(piece) <= most
        found += piece
    assert source.read(most) == b""
    return bytes(found)


class Chunks(unittest.TestCase):
    def content(self, body: bytes, is_signed: bool, is_trailed: bool, most: int = 1_048_576) -> bodies.Content:
        names = (NAME,) if is_trailed else ()
        source = decoder(Pieces(body), is_signed, is_trailed)
        return bodies.Content(source, most, Checks(head(), names, None), str(len(CONTENT)))

    def refused(self, code: str, body: bytes, is_signed: bool, is_trailed: bool, most: int = 1_048_576) -> None:
        with self.assertRaises(Fault) as failed:
            whole(self.content(body, is_signed, is_trailed, most))
        self.assertEqual(failed.exception.code, code, failed.exception.message)

    def test_each_form_comes_out_of_odd_pieces(self) -> None:
        for form in FORMS:
            for size in (LEAST, LEAST + 1, len(CONTENT) - 1, len(CONTENT), 30_000):
                body = body_of(*form, size=size)
                for piece, most in ((1, PIECE), (2, 5), (7, 1_000), (8_191, 1), (8_194, PIECE), (1_000_000, 8_192)):
                    with self.subTest(form=form, size=size, piece=piece, most=most):
                        source = decoder(Pieces(body, piece), *form)
                        self.assertEqual(whole(source, most), CONTENT)
                        self.assertEqual(source.trailer, {NAME: crc(CONTENT)} if form[1] else {})
            self.assertEqual(whole(decoder(Pieces(body_of(*form, content=b"")), *form)), b"")

    def test_what_is_cut_anywhere_is_refused(self) -> None:
        for form in FORMS:
            body = body_of(*form)
            last = body.rindex(b"\r\n0")
            for end in (0, 1, 3, 5, 90, 4_000, *range(LEAST, LEAST + 200), *range(last, len(body) - 4)):
                with self.subTest(form=form, end=end), self.assertRaises(Fault) as failed:
                    whole(self.content(body[:end], *form))
                codes = ["IncompleteBody"]
                if end > last and form[1]:
                    codes += ["MalformedTrailerError", "BadDigest", "InvalidDigest", "SignatureDoesNotMatch"]
                self.assertIn(failed.exception.code, codes)
                if end < last:
                    self.assertRaises(Fault, whole, decoder(Pieces(body[:end]), *form))

    def test_sizes_that_arent_true(self) -> None:
        for form in FORMS:
            body = body_of(*form)
            first, rest = body[:4], body[4:]
            self.assertEqual(first, b"2000")
            for size in (b"2001", b"1fff", b"2002", b"ffffffff", b"200", b"020000"):
                with self.subTest(form=form, size=size), self.assertRaises(Fault) as failed:
                    whole(self.content(size + rest, *form))
                codes = ("IncompleteBody", "SignatureDoesNotMatch", "EntityTooLarge", "InvalidChunkSizeError")
                self.assertIn(failed.exception.code, codes)
            for size in (b"", b" 2000", b"0x2000", b"+2000", b"-2000", b"2_000", b"20g0", b"000002000", b"2000 "):
                with self.subTest(form=form, size=size):
                    self.refused("IncompleteBody", size + rest, *form)
            self.assertEqual(whole(self.content(b"00002000" + rest, *form)), CONTENT)
            self.refused("EntityTooLarge", body, *form, most=len(CONTENT) - 1)
            self.refused("IncompleteBody", body_of(*form, content=CONTENT + b"x"), *form)
            self.refused("InvalidChunkSizeError", body_of(*form, size=LEAST - 1), *form)

    def test_lines_that_arent_those_of_the_form(self) -> None:
        for form in FORMS:
            body = body_of(*form)
            self.refused("IncompleteBody", body_of(not form[0], form[1]), *form)
            self.refused("IncompleteBody", body.replace(b"\r\n", b"\n", 1), *form)
            self.refused("IncompleteBody", body.replace(b"2000", b"2000;a=b", 1), *form)
            begun = body.index(b"\r\n") + 2
            self.refused("IncompleteBody", body[:begun + LEAST] + b"\r\r" + body[begun + LEAST + 2:], *form)

    def test_chunks_that_are_signed_otherwise(self) -> None:
        for form in FORMS[:2]:
            body = body_of(*form)
            at = [body.index(b"2000;"), body.index(b"2000;", 1), body.index(b"183e;")]
            one, two, rest = body[: at[1]], body[at[1]: at[2]], body[at[2]:]
            for damaged in (
                two + one + rest, one + rest, one + one + two + rest, one + two + rest.replace(b"\x01", b"\x02", 1),
                body.replace(b"0;chunk-signature=", b"0;chunk-signature=" + b"0" * 64 + b"\r\n", 1),
            ):  # fmt: skip
                with self.subTest(form=form, size=len(damaged)):
                    self.refused("SignatureDoesNotMatch", damaged, *form)
            last = body.rindex(b"0;chunk-signature=") + 18
            self.refused("SignatureDoesNotMatch", body[:last] + b"0" * 64 + body[last + 64:], *form)

    def test_trailers_that_arent_the_contents(self) -> None:
        line = f"{NAME}:{crc(CONTENT)}".encode()
        for form in FORMS[1::2]:
            body = body_of(*form)
            for damaged in (
                b"", line + b"\r\n" + line, line.replace(b"crc32:", b"crc32c:"), line + b"\r\na:b",
                line.replace(b":", b" "), line + b"\r\n" + b"x" * 5_000, line + b"\r\n" * 3_000,
            ):  # fmt: skip
                with self.subTest(form=form, damaged=damaged[:60]):
                    self.refused("MalformedTrailerError", body.replace(line, damaged), *form)
            other = body.replace(line, f"{NAME}:{crc(b'x')}".encode())
            self.refused("SignatureDoesNotMatch" if form[0] else "BadDigest", other, *form)
        signed_one = body_of(True, True)
        at = signed_one.index(b"x-amz-trailer-signature:")
        for damaged in (signed_one[:at], signed_one[:at] + b"x-amz-trailer-signature:\xff\r\n"):
            self.refused("SignatureDoesNotMatch", damaged, True, True)
        for is_signed in (True, False):
            self.refused("MalformedTrailerError", body_of(is_signed, True), is_signed, False)

    def test_a_chunk_is_looked_at_before_the_next_is_read(self) -> None:
        content = bytes(600_000)
        body = bytearray(body_of(True, False, content, 200_000))
        body[1_000] ^= 1
        source = Pieces(bytes(body))
        with self.assertRaises(Fault) as failed:
            whole(decoder(source, True, False))
        self.assertEqual(failed.exception.code, "SignatureDoesNotMatch")
        self.assertLess(source.given, 200_000 + 2 * PIECE)

    def test_a_long_chunk_takes_no_memory(self) -> None:
        count = 200 * PIECE
        for is_signed, is_trailed in FORMS:
            with self.subTest(is_signed=is_signed, is_trailed=is_trailed):
                source = decoder(Flow(of_zeros(is_signed, is_trailed, count)), is_signed, is_trailed)
                tracemalloc.start()
                got = 0
                while piece := source.read(PIECE):
                    got += len(piece)
                _, highest = tracemalloc.get_traced_memory()
                tracemalloc.stop()
                self.assertEqual(got, count)
                self.assertLess(highest, 8 * PIECE)

    def test_what_cant_be_checked_is_refused_before_the_body(self) -> None:
        one = signatures.Signed(ANN, DATE[:8], "us-east-1", (), SEED, DATE)

        def begin() -> Source:
            raise AssertionError("the body was begun")

        stream = {"x_amz_content_sha256": bodies.UNSIGNED_TRAILER, "content_length": "5"}
        for request in (
            head(**stream, x_amz_trailer="x-amz-checksum-xxhash3"), head(**stream, x_amz_trailer="x-amz-meta-a"),
            head(x_amz_content_sha256="UNSIGNED-PAYLOAD", content_length="5", x_amz_checksum_xxhash3="AAAA"),
            head(x_amz_content_sha256="UNSIGNED-PAYLOAD", content_length="5", x_amz_sdk_checksum_algorithm="CRC32"),
        ):
            with self.subTest(request.headers), self.assertRaises(Fault) as failed:
                bodies.opened(request, one, b"", 10, begin)
            self.assertEqual(failed.exception.code, "InvalidRequest")


class Flow:
    """What comes piece by piece, and is nowhere as a whole."""

    def __init__(self, pieces: Iterator[bytes]) -> None:
        self.pieces = pieces
        self.rest = b""

    def read(self, most: int, /) -> bytes:
        """The next bytes."""
        self.rest = self.rest or next(self.pieces, b"")
        found, self.rest = self.rest[:most], self.rest[most:]
        return found


def of_zeros(is_signed: bool, is_trailed: bool, count: int) -> Iterator[bytes]:
    """Zeros in one chunk of that form; each piece has 65,536."""
    digest, check, piece = hashlib.sha256(), 0, bytes(PIECE)
    for _ in range(count // PIECE):
        digest.update(piece)
        check = zlib.crc32(piece, check)
    last = SEED

    def signing(kind: str, *digests: str) -> bytes:
        nonlocal last
        last = signature([f"AWS4-HMAC-SHA256-{kind}", DATE, SCOPE, last, *digests])
        return last.encode()

    def line(size: int, sha256: str) -> bytes:
        return b"%x%b\r\n" % (size, b";chunk-signature=" + signing("PAYLOAD", EMPTY, sha256) if is_signed else b"")

    yield line(count, digest.hexdigest())
    for _ in range(count // PIECE):
        yield piece
    yield b"\r\n" + line(0, EMPTY)
    if is_trailed:
        value = f"{NAME}:{base64.b64encode(check.to_bytes(4, 'big')).decode()}"
        yield value.encode() + b"\r\n"
        if is_signed:
            yield b"x-amz-trailer-signature:" + signing("TRAILER", hashlib.sha256(f"{value}\n".encode()).hexdigest())
    yield b"\r\n"
