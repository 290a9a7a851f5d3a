"""Bodies of puts: chunks, checksums, and lengths. What isn't right leaves no version."""

from __future__ import annotations

import base64
import hashlib
import importlib.util
import random
import time
import unittest
import zlib
from unittest import mock

from tests.s3_office import DATE, EMPTY, GatewayTest, read_replies, request, signature
from vaultdesk.s3.checksums import ALGORITHMS, CRC32C, CRC64NVME, Crc

CONTENT = b"a deed of 1924\n" * 1_500
LEAST = 8_192  # bytes of a chunk but the last
MOST = 1_048_576
SCOPE = f"{DATE[:8]}/us-east-1/s3/aws4_request"
STREAM = "STREAMING-AWS4-HMAC-SHA256-PAYLOAD"
UNSIGNED = "STREAMING-UNSIGNED-PAYLOAD-TRAILER"


def chunks(content: bytes, size: int) -> list[bytes]:
    """The content in pieces of that size, and an empty one behind."""
    return [*(content[at:at + size] for at in range(0, len(content), size)), b""]


def head_of(form: str, length: int, headers: dict[str, str] | None = None) -> dict[str, str]:
    """The headers of a body in aws-chunked."""
    given = {"x-amz-content-sha256": form, "x-amz-decoded-content-length": str(length)}
    return {**given, "content-encoding": "aws-chunked", **(headers or {})}


def streamed(headers: dict[str, str], body: bytes, is_chunked: bool = False) -> bytes:
    """A put whose head is signed, and whose body is that."""
    if is_chunked:
        headers = {**headers, "transfer-encoding": "chunked"}
        body = b"".join(b"%x\r\n%b\r\n" % (len(it), it) for it in chunks(body, 7))
    else:
        headers = {**headers, "content-length": str(len(body))}
    return request("PUT", "/docs/a", b"", headers) + body


def unsigned(content: bytes, size: int, trailer: bytes = b"") -> bytes:
    """A content in chunks without signatures."""
    parts = [b"%x\r\n%b\r\n" % (len(it), it) for it in chunks(content, size)[:-1]]
    return b"".join(parts) + b"0\r\n" + trailer + b"\r\n"


def signed(head: bytes, content: bytes, size: int, trailer: str = "") -> bytes:
    """A content in chunks, each signed with the signature before it."""
    last = head.split(b"Signature=")[1][:64].decode()
    body = b""
    for it in chunks(content, size):
        lines = ["AWS4-HMAC-SHA256-PAYLOAD", DATE, SCOPE, last, EMPTY, hashlib.sha256(it).hexdigest()]
        last = signature(lines)
        body += b"%x;chunk-signature=%b\r\n" % (len(it), last.encode()) + (it + b"\r\n" if it else b"")
    if trailer:
        digest = hashlib.sha256(f"{trailer}\n".encode()).hexdigest()
        last = signature(["AWS4-HMAC-SHA256-TRAILER", DATE, SCOPE, last, digest])
        body += f"{trailer}\r\nx-amz-trailer-signature:{last}\r\n".encode()
    return body + b"\r\n"


def digest_of(name: str, *pieces: bytes) -> bytes:
    """The checksum of that name of a content that comes in these pieces."""
    running = ALGORITHMS[name]()
    for it in pieces:
        running.update(it)
    return running.digest()


class Checksums(unittest.TestCase):
    def test_check_values(self) -> None:
        wanted = {"crc32": "cbf43926", "crc32c": "e3069283", "crc64nvme": "ae8b14860a799888"}
        for name, value in wanted.items():
            self.assertEqual(digest_of(name, b"123456789").hex(), value)
            self.assertEqual(digest_of(name, b"12345", b"", b"6789").hex(), value)
        self.assertEqual((CRC32C.carry_on(b"123456789"), CRC64NVME.carry_on(b"123456789")),
                         (0xE3069283, 0xAE8B14860A799888))

    def test_long_contents_have_the_checks_that_come_byte_by_byte(self) -> None:
        chance = random.Random(7)
        for crc in (CRC32C, CRC64NVME, Crc(32, 0xEDB88320)):
            for size in (1_023, 1_024, 1_025, 1_031, 2_047, 4_096, 65_537):
                content = chance.randbytes(size)
                value = crc.ones
                for it in content:
                    value = crc.table[(value ^ it) & 255] ^ value >> 8
                self.assertEqual(crc.carry_on(content), value ^ crc.ones, size)
                begun = crc.carry_on(content[:1_000])
                self.assertEqual(crc.carry_on(content[1_000:], begun), value ^ crc.ones, size)
        content = chance.randbytes(100_001)
        self.assertEqual(Crc(32, 0xEDB88320).carry_on(content), zlib.crc32(content))

    def test_a_long_content_takes_less_than_its_bytes_one_by_one(self) -> None:
        content = bytes(MOST)
        for crc in (CRC32C, CRC64NVME):
            begun = time.process_time()
            crc.carry_on(content)
            folded = time.process_time() - begun
            value, begun = 0, time.process_time()
            for it in content:
                value = crc.table[(value ^ it) & 255] ^ value >> 8
            self.assertLess(folded, (time.process_time() - begun) * 0.7)

    def test_without_crcmod_the_checks_are_the_same(self) -> None:
        pieces = random.Random(8).randbytes(200_000), b"a", b"", bytes(70_000)
        for crc in (CRC32C, CRC64NVME):
            with mock.patch.dict("sys.modules", {"crcmod": None, "crcmod._crcfunext": None}):
                plain = crc.quick()
            self.assertEqual(plain, crc.carry_on)
            value, other = 0, 0
            for it in pieces:
                value, other = plain(it, value), crc.quick()(it, other)
            self.assertEqual(value, other)

    @unittest.skipUnless(importlib.util.find_spec("crcmod"), "there is no crcmod")
    def test_with_crcmod_each_takes_no_longer_than_the_digest_of_the_vault(self) -> None:
        content = bytes(4 * MOST)
        begun = time.process_time()
        hashlib.sha256(content)
        most = (time.process_time() - begun) * 3
        for name in ALGORITHMS:
            begun = time.process_time()
            digest_of(name, content)
            self.assertLess(time.process_time() - begun, most, name)


class Bodies(GatewayTest):
    def kept_content(self) -> bytes:
        return bytes.fromhex(self.door.ask("ann", "get", bucket="docs", key="a").value["hex"])

    def taken(self, raw: bytes, content: bytes = CONTENT) -> None:
        """What is sent becomes a version of that content."""
        before = len(self.entries())
        reply = self.send(raw)[-1]
        self.assertEqual(reply.status, 200, reply.body)
        self.assertEqual((len(self.entries()), self.kept_content()), (before + 1, content))

    def left(self, code: str, raw: bytes, status: int = 400) -> None:
        """What is sent is refused so, and nothing is put."""
        before = self.entries()
        self.refused(code, status, self.send(raw)[-1])
        self.assertEqual(self.entries(), before)

    def test_plain(self) -> None:
        self.taken(request("PUT", "/docs/a", CONTENT))
        self.taken(request("PUT", "/docs/a", b""), b"")
        whole = request("PUT", "/docs/a", CONTENT)
        self.left("IncompleteBody", whole[:-1])
        self.left("XAmzContentSHA256Mismatch", whole[:-1] + b"x")
        self.left("XAmzContentSHA256Mismatch", request("PUT", "/docs/a", CONTENT, {"x-amz-content-sha256": EMPTY}))
        unsigned_payload = {"x-amz-content-sha256": "UNSIGNED-PAYLOAD"}
        self.taken(request("PUT", "/docs/a", CONTENT, unsigned_payload))
        self.left("MissingContentLength", whole.replace(f"content-length: {len(CONTENT)}\r\n".encode(), b""), 411)
        self.left("InvalidArgument", whole.replace(b"content-length: ", b"content-length: +"))

    def test_chunks_that_are_signed(self) -> None:
        for size in (LEAST, 11_250, 22_499, 22_500, 65_536):
            for is_chunked in (False, True):
                with self.subTest(size=size, is_chunked=is_chunked):
                    headers = head_of(STREAM, len(CONTENT))
                    if is_chunked:
                        headers["transfer-encoding"] = "chunked"
                    else:
                        headers["content-length"] = str(len(signed(b"Signature=" + b"0" * 64, CONTENT, size)))
                    head = request("PUT", "/docs/a", b"", headers)
                    body = signed(head, CONTENT, size)
                    if is_chunked:
                        body = b"".join(b"%x\r\n%b\r\n" % (len(it), it) for it in chunks(body, 333))
                    self.taken(head + body)

    def test_a_chunk_has_a_least_size(self) -> None:
        small = LEAST - 1
        for size in (small, 300):
            length = str(len(signed(b"Signature=" + b"0" * 64, CONTENT, size)))
            head = request("PUT", "/docs/a", b"", {**head_of(STREAM, len(CONTENT)), "content-length": length})
            self.left("InvalidChunkSizeError", head + signed(head, CONTENT, size), 403)
            plain = streamed(head_of(UNSIGNED, len(CONTENT)), unsigned(CONTENT, size))
            self.left("InvalidChunkSizeError", plain, 403)
        self.taken(streamed(head_of(UNSIGNED, small), unsigned(CONTENT[:small], small)), CONTENT[:small])

    def test_chunks_that_are_signed_wrongly(self) -> None:
        length = str(len(signed(b"Signature=" + b"0" * 64, CONTENT, LEAST)))
        head = request("PUT", "/docs/a", b"", {**head_of(STREAM, len(CONTENT)), "content-length": length})
        body = signed(head, CONTENT, LEAST)
        self.left("SignatureDoesNotMatch", head + body.replace(b"1924", b"1925", 1), 403)
        second = body.index(b"chunk-signature=", 90) + 16
        self.left("SignatureDoesNotMatch", head + body[:second] + b"0" * 64 + body[second + 64:], 403)
        last = body.rindex(b"chunk-signature=") + 16
        self.left("SignatureDoesNotMatch", head + body[:last] + b"0" * 64 + body[last + 64:], 403)
        self.left("IncompleteBody", head + body[: body.rindex(b"0;chunk")])

    def test_chunks_with_a_trailer_that_is_signed(self) -> None:
        crc = base64.b64encode(zlib.crc32(CONTENT).to_bytes(4, "big")).decode()
        trailer = f"x-amz-checksum-crc32:{crc}"
        headers = head_of(f"{STREAM}-TRAILER", len(CONTENT), {"x-amz-trailer": "x-amz-checksum-crc32"})
        headers["content-length"] = str(len(signed(b"Signature=" + b"0" * 64, CONTENT, LEAST, trailer)))
        head = request("PUT", "/docs/a", b"", headers)
        self.taken(head + signed(head, CONTENT, LEAST, trailer))
        wrong = trailer.replace(crc, "AAAAAA==")
        self.left("BadDigest", head + signed(head, CONTENT, LEAST, wrong))
        body = signed(head, CONTENT, LEAST, trailer)
        self.left("SignatureDoesNotMatch", head + body.replace(crc.encode(), b"AAAAAA=="), 403)

    def test_chunks_with_a_trailer(self) -> None:
        crc = base64.b64encode(zlib.crc32(CONTENT).to_bytes(4, "big"))
        trailer = b"x-amz-checksum-crc32:" + crc + b"\r\n"
        headers = head_of(UNSIGNED, len(CONTENT), {"x-amz-trailer": "x-amz-checksum-crc32"})
        for is_chunked in (False, True):
            self.taken(streamed(headers, unsigned(CONTENT, LEAST, trailer), is_chunked))
            self.left("BadDigest", streamed(headers, unsigned(CONTENT[:-1] + b"x", LEAST, trailer), is_chunked))
            self.left("MalformedTrailerError", streamed(headers, unsigned(CONTENT, LEAST), is_chunked))
            other = b"x-amz-checksum-sha1:AAAA\r\n"
            self.left("MalformedTrailerError", streamed(headers, unsigned(CONTENT, LEAST, trailer + other), is_chunked))
            self.left("IncompleteBody", streamed(headers, unsigned(CONTENT[:-1], LEAST, trailer), is_chunked))
            self.left("IncompleteBody", streamed(headers, unsigned(CONTENT, LEAST, trailer)[:300], is_chunked))
        cut = streamed(headers, unsigned(CONTENT, LEAST, trailer), True)
        self.left("IncompleteBody", cut[: cut.index(b"1924") + 2])
        unknown = head_of(UNSIGNED, len(CONTENT), {"x-amz-trailer": "x-amz-meta-a"})
        self.left("InvalidRequest", streamed(unknown, unsigned(CONTENT, LEAST, b"x-amz-meta-a:b\r\n")))

    def test_each_checksum(self) -> None:
        for name in ALGORITHMS:
            with self.subTest(name):
                header, value = f"x-amz-checksum-{name}", base64.b64encode(digest_of(name, CONTENT)).decode()
                self.taken(request("PUT", "/docs/a", CONTENT, {header: value}))
                wrong = base64.b64encode(digest_of(name, CONTENT + b".")).decode()
                self.left("BadDigest", request("PUT", "/docs/a", CONTENT, {header: wrong}))
                self.left("InvalidDigest", request("PUT", "/docs/a", CONTENT, {header: "?"}))
        md5 = base64.b64encode(hashlib.md5(CONTENT).digest()).decode()
        self.taken(request("PUT", "/docs/a", CONTENT, {"content-md5": md5}))
        self.left("BadDigest", request("PUT", "/docs/a", CONTENT + b".", {"content-md5": md5}))

    def test_what_cant_be_checked_is_refused(self) -> None:
        self.left("InvalidRequest", request("PUT", "/docs/a", CONTENT, {"x-amz-checksum-xxhash3": "AAAA"}))
        self.left("InvalidRequest", request("PUT", "/docs/a", CONTENT, {"x-amz-sdk-checksum-algorithm": "CRC32"}))
        self.left("InvalidRequest", request("PUT", "/docs/a", CONTENT, {"content-encoding": "aws-chunked"}))
        ecdsa = head_of("STREAMING-AWS4-ECDSA-P256-SHA256-PAYLOAD", len(CONTENT))
        self.left("InvalidRequest", streamed(ecdsa, unsigned(CONTENT, LEAST)))

    def test_a_content_has_its_limit(self) -> None:
        most = b"x" * MOST
        self.taken(request("PUT", "/docs/a", most), most)
        large = request("PUT", "/docs/a", most + b"x")
        self.left("EntityTooLarge", large)
        self.assertNotIn(b"multipart", self.send(large)[0].body)
        headers = head_of(UNSIGNED, MOST + 1)
        self.left("EntityTooLarge", streamed(headers, unsigned(most + b"x", 65_536)))
        # Where the head says a length that isn't true, the chunks are counted.
        headers = head_of(UNSIGNED, 5)
        self.left("EntityTooLarge", streamed(headers, unsigned(most + b"x", 65_536)))

    def test_who_waits_is_refused_before_the_body(self) -> None:
        headers = {"expect": "100-continue", "x-amz-content-sha256": "UNSIGNED-PAYLOAD"}
        headers["content-length"] = str(MOST + 1)
        with self.connected() as connection:
            connection.sendall(request("PUT", "/docs/a", b"", headers))
            (reply,) = read_replies(connection.recv(65_536))
            self.refused("EntityTooLarge", 400, reply)
            self.assertEqual(reply.headers["connection"], "close")
            self.assertEqual(connection.recv(1), b"")
        headers["content-length"] = "5"
        with self.connected() as connection:
            connection.sendall(request("PUT", "/docs/a", b"", headers))
            self.assertEqual(connection.recv(65_536), b"HTTP/1.1 100 Continue\r\n\r\n")
            connection.sendall(b"hello")
            (reply,) = read_replies(connection.recv(65_536))
            self.assertEqual(reply.status, 200)

    def test_a_body_is_framed_once(self) -> None:
        raw = request("PUT", "/docs/a", CONTENT)
        both = b"transfer-encoding: chunked\r\ncontent-length"
        self.left("InvalidRequest", raw.replace(b"content-length", both))
        raw = request("PUT", "/docs/a", CONTENT, {"transfer-encoding": "gzip"})
        self.left("InvalidRequest", raw)

    def test_parts_are_refused(self) -> None:
        for method, target in (("POST", "/docs/a?uploads"), ("PUT", "/docs/a?partNumber=1&uploadId=x")):
            reply = self.ask(method, target, b"x")
            self.refused("EntityTooLarge", 400, reply)
            self.assertIn(b"multipart", reply.body)
            self.assertIn(b"1,048,576", reply.body)
        self.assertEqual(self.entries(), [])
