"""The checksums that S3 clients send with a content."""

from __future__ import annotations

import base64
import functools
import hashlib
import importlib
import zlib
from collections.abc import Callable, Mapping, Sequence
from typing import Protocol

from vaultdesk.s3.faults import Fault
from vaultdesk.s3.request import Request

PREFIX = "x-amz-checksum-"
# Names that begin so and are no checksum.
OTHERS = ("x-amz-checksum-algorithm", "x-amz-checksum-mode", "x-amz-checksum-type")
Step = Callable[[bytes, int], int]  # a content and the check of what came before it, to the check of both


class Crc:
    """A cyclic redundancy check (CRC) of so many bits, by a polynomial. In all numbers here the lowest bit is of the
    highest power, as checks of this kind have it."""

    LONG = 1_024  # bytes of a content that is folded; a shorter one takes no longer byte by byte
    LENGTHS = 64  # of contents whose tables are kept, as the pieces of a content are mostly of one length

    def __init__(self, bits: int, polynomial: int) -> None:
        self.size = bits // 8
        self.ones = (1 << bits) - 1
        self.polynomial = polynomial
        self.table = list(range(256))
        for _ in range(8):
            self.table = [self._shifted(it) for it in self.table]
        self.maps_over = functools.lru_cache(self.LENGTHS)(lambda count: self._maps(self._power(8 * count)))

    def _shifted(self, value: int) -> int:
        """The value times x, modulo the polynomial."""
        return value >> 1 ^ self.polynomial * (value & 1)

    def _product(self, one: int, other: int) -> int:
        product = 0
        for bit in reversed(range(8 * self.size)):
            product ^= other * (one >> bit & 1)
            other = self._shifted(other)
        return product

    def _power(self, exponent: int) -> int:
        """That power of x, modulo the polynomial."""
        power, square = 1 << 8 * self.size - 1, 1 << 8 * self.size - 2  # one, and x
        while exponent:
            power = self._product(power, square) if exponent & 1 else power
            square, exponent = self._product(square, square), exponent >> 1
        return power

    def _maps(self, factor: int) -> list[bytes]:
        """For each byte of the products of all bytes with that factor, the table by which bytes become it."""
        products = [0]
        for bit in range(8):
            products += [it ^ factor << bit + 1 for it in products]
        return [bytes(it >> 8 * place & 255 for it in products) for place in range(self.size + 1)]

    def _folded(self, content: bytes) -> bytes:
        """About half as many bytes with the same remainder: the first half is multiplied by what it is away from the
        end, all its bytes at once, and added to the second."""
        half = len(content) // 2
        first, second = content[:-half], content[-half:]
        total = int.from_bytes(second, "little") << 8 * (len(first) + self.size - half)
        for place, table in enumerate(self.maps_over(half)):
            total ^= int.from_bytes(first.translate(table), "little") << 8 * place
        return total.to_bytes(len(first) + self.size, "little")

    def carry_on(self, content: bytes, value: int = 0) -> int:
        """The check of what had that check before, with a content after it; as `zlib.crc32` has it."""
        value ^= self.ones
        if len(content) >= self.LONG:
            begun = int.from_bytes(content[: self.size], "little") ^ value
            content, value = begun.to_bytes(self.size, "little") + content[self.size:], 0
        while len(content) >= self.LONG:
            content = self._folded(content)
        for it in content:
            value = self.table[(value ^ it) & 255] ^ value >> 8
        return value ^ self.ones

    def quick(self) -> Step:
        """The same as `carry_on` by crcmod's extension, where it is installed: that is ten times as fast and more."""
        try:
            importlib.import_module("crcmod._crcfunext")  # without it crcmod goes byte by byte
            made = importlib.import_module("crcmod").mkCrcFun
        except ImportError:
            return self.carry_on
        bits = 8 * self.size
        highest_first = int(f"{self.polynomial:0{bits}b}"[::-1], 2) | 1 << bits
        step: Step = made(highest_first, initCrc=0, rev=True, xorOut=self.ones)
        return step


class Running(Protocol):
    """A digest of what comes piece by piece, as those of hashlib."""

    def update(self, piece: bytes, /) -> None:
        """Goes on with the next piece."""

    def digest(self) -> bytes:
        """The digest of all that came."""


class Check:
    """A cyclic redundancy check of what comes piece by piece, as headers have it before base64."""

    def __init__(self, step: Step, bits: int) -> None:
        self.step = step
        self.size = bits // 8
        self.value = 0

    def update(self, piece: bytes, /) -> None:
        """Goes on with the next piece."""
        self.value = self.step(piece, self.value)

    def digest(self) -> bytes:
        """The check of all that came."""
        return self.value.to_bytes(self.size, "big")


CRC32C = Crc(32, 0x82F63B78)
CRC64NVME = Crc(64, 0x9A6C9329AC4BC9B5)

ALGORITHMS: Mapping[str, Callable[[], Running]] = {
    "crc32": functools.partial(Check, zlib.crc32, 32),
    "crc32c": functools.partial(Check, CRC32C.quick(), 32),
    "crc64nvme": functools.partial(Check, CRC64NVME.quick(), 64),
    "sha1": hashlib.sha1,
    "sha256": hashlib.sha256,
}


def base64_of(digest: bytes) -> str:
    """A digest as headers have it."""
    return base64.b64encode(digest).decode()


def _look_at_names(sent: Sequence[str], asked: str) -> None:
    """`Fault` where a checksum is of an algorithm that isn't known here, or one is asked for and doesn't come."""
    unknown = [it for it in sent if it.removeprefix(PREFIX) not in ALGORITHMS]
    if unknown:
        raise Fault("InvalidRequest", f"{unknown[0]}: no checksum of this kind can be checked here")
    if asked and f"{PREFIX}{asked.lower()}" not in sent and asked.upper() != "MD5":
        raise Fault("InvalidRequest", f"a checksum of the kind {asked} is announced, and none comes")


class Checks:
    """The digests of a content as it comes, and what they have to be."""

    def __init__(self, request: Request, announced: Sequence[str], payload: str | None) -> None:
        """What the head says, which checksums the trailer will have, and the SHA-256, if that is said.

        `Fault` where one can't be checked, or is announced and doesn't come."""
        headers = request.headers
        self.sent = {it: headers[it] for it in request.own if it.startswith(PREFIX) and it not in OTHERS}
        names = [*self.sent, *announced]
        _look_at_names(names, headers.get("x-amz-sdk-checksum-algorithm", ""))
        self.running = {it: ALGORITHMS[it.removeprefix(PREFIX)]() for it in names}
        self.wanted_md5 = headers.get("content-md5")
        self.md5 = hashlib.md5(usedforsecurity=False)
        self.payload = payload
        self.sha256 = hashlib.sha256() if payload else None
        self.each = (*self.running.values(), self.md5, *([self.sha256] if self.sha256 else []))

    def update(self, piece: bytes) -> None:
        """Goes on with the next piece of the content."""
        for it in self.each:
            it.update(piece)

    def compare(self, trailer: Mapping[str, str]) -> dict[str, str]:
        """The checksums that came in the head and the trailer, by their names. `Fault` where one isn't the content's.
        """
        if self.sha256 and self.sha256.hexdigest() != self.payload:
            raise Fault("XAmzContentSHA256Mismatch", "the body doesn't have the digest of x-amz-content-sha256")
        for name, value in (*self.sent.items(), *trailer.items()):
            if self.running[name].digest() != _bytes(name, value):
                raise Fault("BadDigest", f"the content doesn't have the {name} that was sent")
        if self.wanted_md5 is not None and self.md5.digest() != _bytes("content-md5", self.wanted_md5):
            raise Fault("BadDigest", "the content doesn't have the content-md5 that was sent")
        return {**self.sent, **trailer}


def _bytes(name: str, value: str) -> bytes:
    try:
        return base64.b64decode(value, validate=True)
    except ValueError as error:
        raise Fault("InvalidDigest", f"{name} is no base64") from error
