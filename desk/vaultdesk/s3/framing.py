"""How HTTP frames a request: the lines of its head, and its body by a length or in chunks (RFC 9112, 5 to 7)."""

from __future__ import annotations

import re
from collections.abc import Mapping
from typing import NamedTuple, Protocol

from vaultdesk.s3.faults import Fault
from vaultdesk.s3.request import Request, joined

FIELDS = 100  # lines of a head, at most
FIELD = re.compile("^([!#$%&'*+.^_`|~0-9A-Za-z-]+):([^\r\n\0]*)\r?\n", re.MULTILINE)
NUMBER = re.compile("[0-9]{1,19}")  # a length
LINE = 1_024  # bytes of a chunk's first line
FIRST = re.compile(rb"([0-9A-Fa-f]{1,8})(?:[ \t]*;[^\r\n]*)?\r\n")  # line of a chunk


class Reader(Protocol):
    """Where bytes come from."""

    def read(self, most: int, /) -> bytes:
        """The next bytes that come, no more than that; none at the end."""


class Source(Reader, Protocol):
    """A connection, on which other requests may follow."""

    def readline(self, most: int, /) -> bytes:
        """The next line, no more of it than that."""


def cut() -> Fault:
    """A body that isn't whole."""
    return Fault("IncompleteBody", "the body ends early, or isn't in the form that its head says")


# ---- heads


class Head(NamedTuple):
    """The headers by their lower-case names, and whether each line was one."""

    headers: Mapping[str, str] = {}
    is_whole: bool = True


def read_head(source: Source, most: int) -> Head:
    """The lines up to the empty one, each of that many bytes at most, which are all read, also where one isn't a line
    of a head: a folded line is no line of a head, and a head that ends early isn't whole."""
    lines = []
    while (line := source.readline(most)) not in (b"\r\n", b"\n", b""):
        lines.append(line)
    fields = FIELD.findall(b"".join(lines).decode("latin-1"))
    return Head(joined(fields), len(fields) == len(lines) <= FIELDS and line != b"")


# ---- bodies


class Counted:
    """A body whose length its head says."""

    def __init__(self, source: Source, length: int) -> None:
        self.source = source
        self.left = length

    def read(self, most: int, /) -> bytes:
        """The next bytes. `Fault` where the client ends before its body does."""
        found = self.source.read(min(most, self.left))
        if not found and most and self.left:
            raise cut()
        self.left -= len(found)
        return found


class Chunked:
    """A body in chunks of HTTP, whose trailer is read past."""

    def __init__(self, source: Source) -> None:
        self.source = source
        self.left = 0
        self.is_done = False

    def _begin(self) -> None:
        """Goes on to the next chunk, if the one before is read."""
        if self.left or self.is_done:
            return
        size = FIRST.fullmatch(self.source.readline(LINE))
        if not size:
            raise cut()
        self.left = int(size[1], 16)
        if not self.left:
            self.is_done = True
            while self.source.readline(LINE) not in (b"\r\n", b""):
                pass

    def read(self, most: int, /) -> bytes:
        """The next bytes. `Fault` where the chunks aren't whole."""
        self._begin()
        found = self.source.read(min(most, self.left)) if self.left else b""
        if not found and self.left and most:
            raise cut()
        self.left -= len(found)
        if found and not self.left and self.source.readline(2) != b"\r\n":
            raise cut()
        return found


def framed(request: Request, source: Source) -> Counted | Chunked:
    """The body as HTTP frames it. `Fault` where the head doesn't say its length, or says it twice."""
    length, coding = request.headers.get("content-length"), request.headers.get("transfer-encoding")
    if coding is not None:
        if length is not None or coding.lower() != "chunked":
            raise Fault("InvalidRequest", "a body is chunked, or has a content-length")
        return Chunked(source)
    if length is None:
        if request.method in ("PUT", "POST"):
            raise Fault("MissingContentLength", "the head says no length of its body")
        return Counted(source, 0)
    if not NUMBER.fullmatch(length):
        raise Fault("InvalidArgument", "content-length is no number")
    return Counted(source, int(length))
