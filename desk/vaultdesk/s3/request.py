"""A request as it came, and an answer."""

from __future__ import annotations

import re
import urllib.parse
from collections.abc import Mapping, Sequence
from dataclasses import dataclass, field
from functools import cached_property

from vaultdesk.s3.faults import Fault

CONTROL = re.compile("[\0-\x1f\x7f]")  # what no key may have


@dataclass(frozen=True)
class Answer:
    """A status, headers, and a body; of a HEAD the body isn't sent, and its length is."""

    status: int = 200
    headers: Mapping[str, str] = field(default_factory=dict)
    body: bytes = b""


def _text(part: str, is_form: bool = False) -> str:
    """What a part of a target stands for. `Fault` where it isn't UTF-8."""
    raw = part.replace("+", " ") if is_form else part
    if "%" not in raw and raw.isascii():
        return raw
    try:
        return urllib.parse.unquote_to_bytes(raw.encode("latin-1")).decode("utf-8")
    except UnicodeError as error:
        raise Fault("InvalidURI", "the target isn't UTF-8 in percent-encoding") from error


def _pairs(query: str) -> list[tuple[str, str]]:
    parts = [it.partition("=") for it in query.split("&") if it]
    return [(_text(name, is_form=True), _text(value, is_form=True)) for name, _, value in parts]


def joined(headers: Sequence[tuple[str, str]]) -> dict[str, str]:
    """Values by lower-case names; those of a name that comes twice are joined, so that none counts alone."""
    found: dict[str, str] = {}
    for name, value in headers:
        lower = name.lower()
        value = value.strip(" \t")
        found[lower] = f"{found[lower]},{value}" if lower in found else value
    return found


@dataclass(frozen=True)
class Request:
    """The head of a request. `path` and `raw_query` stand as they came, as signatures are made of them."""

    method: str
    path: str
    raw_query: str
    headers: Mapping[str, str]
    pairs: Sequence[tuple[str, str]]
    bucket: str
    key: str

    @cached_property
    def query(self) -> dict[str, str]:
        """The values of the query by their names, each of which stands once."""
        return dict(self.pairs)

    @cached_property
    def own(self) -> Sequence[str]:
        """The names of S3's own headers."""
        return [it for it in self.headers if it.startswith("x-amz-")]

    @property
    def version(self) -> dict[str, int]:
        """The member `id` of a line, if a version is named. `Fault` where no version has such an id."""
        text = self.query.get("versionId")
        return {} if text is None else {"id": number(text, "versionId")}

    @property
    def bypass(self) -> dict[str, bool]:
        """The member `bypass` of a line, if it is asked for."""
        text = self.headers.get("x-amz-bypass-governance-retention", "false").lower()
        if text not in ("true", "false"):
            raise Fault("InvalidArgument", "x-amz-bypass-governance-retention is true or false")
        return {"bypass": True} if text == "true" else {}


def number(text: str, name: str) -> int:
    """A whole number, as the engine takes one. `Fault` where it is none."""
    if not (text.isascii() and text.isdecimal() and len(text) <= 10):
        raise Fault("InvalidArgument", f"{name} is no whole number")
    return int(text)


def look_at_key(key: str) -> None:
    """`Fault` where a key has a control character."""
    found = CONTROL.search(key)
    if found:
        why = f"the key has the control character U+{ord(found[0]):04X} in it"
        raise Fault("InvalidArgument", f"{why}, and no key may have one: name it otherwise")


def read(method: str, target: str, headers: Mapping[str, str]) -> Request:
    """The request of a head, whose headers are by lower-case names.

    `Fault` where its target can't be read, or a name of its query comes twice."""
    path, _, raw_query = target.partition("?")
    if not path.startswith("/") or "#" in target:
        raise Fault("InvalidURI", "the target is a path with its query")
    pairs = _pairs(raw_query)
    if len({name for name, _ in pairs}) < len(pairs):
        raise Fault("InvalidArgument", "a name stands twice in the query")
    bucket, _, key = path[1:].partition("/")
    return Request(method, path, raw_query, headers, pairs, _text(bucket), _text(key))
