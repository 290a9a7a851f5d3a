"""Lists of keys and of versions, in pages; common prefixes are made here of what the engine lists."""

from __future__ import annotations

import base64
import urllib.parse
from collections.abc import Iterator
from dataclasses import dataclass
from itertools import islice
from typing import Any

from vaultdesk.s3 import etags, heads, xml
from vaultdesk.s3.asked import Asked, xml_answer
from vaultdesk.s3.faults import Fault
from vaultdesk.s3.objects import stamp
from vaultdesk.s3.request import Answer

MOST = 1_000  # entries of one page, here and in the engine
LONGEST = 1_024  # bytes of a key
LAST = "\U0010ffff"  # no character comes after it


@dataclass(frozen=True)
class Wanted:
    """Which entries a list is of, from where on, and how many."""

    prefix: str
    delimiter: str
    after_key: str
    after_id: int | None
    most: int
    current: bool
    is_encoded: bool

    def common(self, key: str) -> str | None:
        """The common prefix that stands for a key, if one does."""
        head, found, _ = key[len(self.prefix):].partition(self.delimiter) if self.delimiter else (key, "", "")
        return self.prefix + head + found if found else None

    def shown(self, key: str) -> str:
        """A key or a prefix as the client wants it written."""
        return urllib.parse.quote(key, safe="/") if self.is_encoded else key


@dataclass(frozen=True)
class Item:
    """An entry of a list, or a common prefix, whose row is empty."""

    key: str
    row: dict[str, Any]


def _wanted(asked: Asked, after_key: str, after_id: int | None, current: bool) -> Wanted:
    query = asked.request.query
    text = query.get("max-keys", "")
    if text and not (text.isascii() and text.isdecimal() and len(text) <= 10):
        raise Fault("InvalidArgument", "max-keys is no whole number")
    encoding = query.get("encoding-type", "")
    if encoding not in ("", "url"):
        raise Fault("InvalidArgument", "encoding-type is url")
    most = min(int(text), MOST) if text else MOST
    prefix, delimiter = query.get("prefix", ""), query.get("delimiter", "")
    return Wanted(prefix, delimiter, after_key, after_id, most, current, encoding == "url")


def _behind(wanted: Wanted, key: str) -> dict[str, Any]:
    """The members of a line that go on behind a key; behind a common prefix with all that it stands for."""
    last = key + LAST
    if wanted.common(key) == key and len(last.encode()) <= LONGEST:
        return {"after_key": last}
    return {"after_key": key}


def _first(wanted: Wanted) -> dict[str, Any]:
    """The members of a line that go on where the page before ended."""
    if wanted.after_id is not None:
        return {"after_key": wanted.after_key, "after_id": wanted.after_id}
    return _behind(wanted, wanted.after_key) if wanted.after_key else {}


def _next(wanted: Wanted, row: dict[str, Any], shown: str) -> dict[str, Any]:
    """The members of a line that go on behind a row, and behind the common prefix that was shown, if it has that."""
    if wanted.common(row["key"]) == shown:
        return _behind(wanted, shown)
    return {"after_key": row["key"]} if wanted.current else {"after_key": row["key"], "after_id": row["version_id"]}


def _items(asked: Asked, wanted: Wanted) -> Iterator[Item]:
    """The entries that are asked for, in order, each common prefix once."""
    shown = wanted.after_key
    after, more = _first(wanted), True
    line = {"bucket": asked.request.bucket, "prefix": wanted.prefix or None, "most": min(MOST, 4 * wanted.most + 16)}
    while more:
        found = asked.ask("list-versions", **line, **after)
        for row in found["entries"]:
            common = wanted.common(row["key"])
            if common is not None and common == shown:
                continue
            if wanted.current and (row["delete_marker"] or not row["current"]):
                continue
            shown = shown if common is None else common
            yield Item(row["key"], row) if common is None else Item(common, {})
        more = found["more"]
        after = _next(wanted, found["entries"][-1], shown) if more else {}


def _page(asked: Asked, wanted: Wanted) -> tuple[list[Item], bool]:
    """A page of a list, and whether more would follow."""
    if not wanted.most:
        asked.ask("list-versions", bucket=asked.request.bucket, most=1)
        return [], False
    found = list(islice(_items(asked, wanted), wanted.most + 1))
    return found[: wanted.most], len(found) > wanted.most


OWNER: xml.Node = ("Owner", [("ID", heads.OWNER), ("DisplayName", heads.OWNER)])


def _entry(asked: Asked, wanted: Wanted, item: Item, has_owner: bool) -> xml.Node:
    """What a list says of a version, a delete marker or a common prefix."""
    row = item.row
    key: xml.Node = ("Key", wanted.shown(item.key))
    if not row:
        return "CommonPrefixes", [("Prefix", wanted.shown(item.key))]
    when: xml.Node = ("LastModified", stamp(row["admitted"]))
    owner = [OWNER] if has_owner else []
    ids: list[xml.Node] = [("VersionId", str(row["version_id"])), ("IsLatest", row["current"])]
    if row["delete_marker"]:
        return "DeleteMarker", [key, *ids, when, *owner]
    tag = etags.listed(row["version_id"], asked.vault.etags.find(row["version_id"], row["admitted"]))
    content: list[xml.Node] = [("ETag", tag), ("Size", row["size"]), ("StorageClass", "STANDARD")]
    if wanted.current:
        return "Contents", [key, when, *content, *owner]
    return "Version", [key, *ids, when, *content, *owner]


def _common_nodes(asked: Asked, wanted: Wanted, is_cut: bool) -> list[xml.Node]:
    nodes: list[xml.Node] = [("Name", asked.request.bucket), ("Prefix", wanted.shown(wanted.prefix))]
    if wanted.delimiter:
        nodes.append(("Delimiter", wanted.shown(wanted.delimiter)))
    if wanted.is_encoded:
        nodes.append(("EncodingType", "url"))
    return [*nodes, ("MaxKeys", wanted.most), ("IsTruncated", is_cut)]


def _token_of(key: str) -> str:
    return base64.urlsafe_b64encode(key.encode()).decode()


def _key_of(token: str) -> str:
    try:
        return base64.b64decode(token, altchars=b"-_", validate=True).decode("utf-8")
    except ValueError as error:
        raise Fault("InvalidArgument", "continuation-token is none of this gateway's") from error


def objects_v2(asked: Asked) -> Answer:
    """Keys with a current content (ListObjectsV2)."""
    query = asked.request.query
    if query["list-type"] != "2":
        raise Fault("InvalidArgument", "list-type is 2")
    token, start = query.get("continuation-token"), query.get("start-after", "")
    wanted = _wanted(asked, start if token is None else _key_of(token), None, True)
    items, is_cut = _page(asked, wanted)
    nodes = _common_nodes(asked, wanted, is_cut) + [("KeyCount", len(items))]
    if start:
        nodes.append(("StartAfter", wanted.shown(start)))
    if token is not None:
        nodes.append(("ContinuationToken", token))
    if is_cut:
        nodes.append(("NextContinuationToken", _token_of(items[-1].key)))
    has_owner = query.get("fetch-owner") == "true"
    return xml_answer("ListBucketResult", nodes + [_entry(asked, wanted, it, has_owner) for it in items])


def objects_v1(asked: Asked) -> Answer:
    """Keys with a current content (ListObjects)."""
    marker = asked.request.query.get("marker", "")
    wanted = _wanted(asked, marker, None, True)
    items, is_cut = _page(asked, wanted)
    nodes = _common_nodes(asked, wanted, is_cut) + [("Marker", wanted.shown(marker))]
    if is_cut:
        # S3 leaves it out without a delimiter, and its clients take the last key then, as they find it here.
        nodes.append(("NextMarker", wanted.shown(items[-1].key)))
    return xml_answer("ListBucketResult", nodes + [_entry(asked, wanted, it, True) for it in items])


def versions(asked: Asked) -> Answer:
    """Versions and delete markers, by key, within a key newest first (ListObjectVersions)."""
    query = asked.request.query
    marker, version = query.get("key-marker", ""), query.get("version-id-marker", "")
    if version and not (marker and version.isascii() and version.isdecimal() and len(version) <= 10):
        raise Fault("InvalidArgument", "version-id-marker is the number of a version, and goes with key-marker")
    wanted = _wanted(asked, marker, int(version) if version else None, False)
    items, is_cut = _page(asked, wanted)
    nodes = _common_nodes(asked, wanted, is_cut) + [("KeyMarker", wanted.shown(marker)), ("VersionIdMarker", version)]
    if is_cut:
        nodes.append(("NextKeyMarker", wanted.shown(items[-1].key)))
        if items[-1].row:
            nodes.append(("NextVersionIdMarker", str(items[-1].row["version_id"])))
    return xml_answer("ListVersionsResult", nodes + [_entry(asked, wanted, it, True) for it in items])
