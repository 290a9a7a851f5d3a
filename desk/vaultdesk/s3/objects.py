"""Versions: put, copied, read, and deleted."""

from __future__ import annotations

import datetime as dt
import email.utils
import re
from collections.abc import Mapping
from contextlib import suppress
from dataclasses import replace
from typing import Any, NamedTuple

from vaultdesk.s3 import again, heads, xml
from vaultdesk.s3.asked import Asked, xml_answer
from vaultdesk.s3.bodies import Body, body_of
from vaultdesk.s3.checksums import base64_of
from vaultdesk.s3.door import Told
from vaultdesk.s3.faults import Fault
from vaultdesk.s3.request import Answer, Request, look_at_key, number, read as read_request

MOST_DELETED = 1_000  # keys of one DeleteObjects
RANGE = re.compile(r"bytes=[ \t]*(\d{0,19})-(\d{0,19})[ \t]*", re.ASCII | re.IGNORECASE)
MOST_PARTS = 10_000  # parts of an upload, as S3 numbers them
DESCRIBING = (
    "cache-control", "content-disposition", "content-encoding", "content-language", "content-type", "expires",
)  # fmt: skip
OVERRIDES = {f"response-{it}": it for it in DESCRIBING}
TO_ITSELF = (
    "This copy request is illegal because it is trying to copy an object to itself without changing the object's "
    "metadata, storage class, website redirect location or encryption attributes."
)
OVERTAKEN = "this request was carried out before, and the key has another version since: sign it anew to put it again"


def _date(moment: str) -> str:
    """A moment of the engine as headers have it."""
    return email.utils.format_datetime(dt.datetime.fromisoformat(moment.replace("Z", "+00:00")), usegmt=True)


# ---- put


def _take_in(asked: Asked, batch: str, members: Mapping[str, Any]) -> Told:
    """Has the engine admit a put as the line of its batch: once, however often it is asked to."""
    return asked.vault.door.ask(asked.caller, "intake", **members, batch=batch, line=1)


def _is_newest(asked: Asked, version: int) -> bool:
    """Whether a version is the newest of its key, where the caller may look."""
    try:
        return bool(asked.ask("head", **asked.place)["version_id"] == version)
    except Fault as fault:
        if fault.code not in ("AccessDenied", "NoSuchKey"):
            raise
        return fault.code == "AccessDenied"


def _take_in_signed(asked: Asked, own: str, members: Mapping[str, Any], what: str) -> Told:
    """Has a put without an id admitted, in its own batch or in that of the same put whose answer was lost; `what` is
    the same of both.

    `Fault` where this very request was carried out before, and another version of the key came since: nobody knows
    whether it was put again or sent again."""
    notes = asked.vault.unanswered
    put = notes.begin(what, own, asked.signature, asked.client.is_lost)
    try:
        reply = _take_in(asked, put.name, members)
        is_overtaken = reply.value["again"] and not _is_newest(asked, reply.value["version_id"])
    except Fault as fault:
        # An engine that gave no answer may have admitted it.
        (notes.lose if fault.code == "InternalError" else notes.end)(put)
        raise
    if not is_overtaken:
        asked.client.put = put
        notes.name(put, asked.signature)
        return reply
    notes.end(put)
    if put.is_own:
        raise Fault("OperationAborted", OVERTAKEN)
    return _take_in_signed(asked, own, members, what)


def _put_once(asked: Asked, body: Body) -> Told:
    """Has a put admitted as one version, also if it was sent before."""
    members: dict[str, Any] = {**asked.place, "hex": body.content, **heads.locks_of(asked.request)}
    asked.vault.unanswered.look(asked.signature, asked.invocation)
    if asked.invocation:
        return _take_in(asked, again.name_of("id", asked.caller, asked.invocation), members)
    signs = ("signature", asked.caller, asked.signature, body.sha256) if asked.signature else ()
    what = again.what_of(asked.caller, {**members, "hex": body.sha256})
    return _take_in_signed(asked, again.name_of(*signs), members, what)


class Admitted(NamedTuple):
    """A version that was put: its number, the MD5 of its content, and when it was admitted."""

    version: int
    md5: str
    moment: str


def _admission(asked: Asked, version: int) -> str | None:
    """When a version was admitted, as a server says it to a caller with the right get; none to others."""
    try:
        return str(asked.ask("head", **asked.place, id=version)["admitted"])
    except Fault:
        return None


def _admitted(asked: Asked, body: Body) -> Admitted:
    """Has a content admitted with the locks that are asked for."""
    if xml.UNWRITABLE.search(asked.request.key):
        raise Fault("InvalidArgument", "no list could show a key with U+FFFE or U+FFFF")
    reply = _put_once(asked, body)
    version = int(reply.value["version_id"])
    if not reply.value["again"]:
        _look_at_guard(asked, version)
    if reply.value["again"]:
        # Admitted by an earlier request; it may be gone by now, so nothing more is asked of it.
        return Admitted(version, body.md5, reply.at)
    moment = reply.at if reply.is_certain else _admission(asked, version)
    if moment is None:
        # By a second the MD5 would be noted of another moment: it is noted as the version is read.
        return Admitted(version, body.md5, reply.at)
    return Admitted(version, asked.vault.etags.note(version, moment, body.md5), moment)


def _look_at_guard(asked: Asked, version: int) -> None:
    """Has the log say where nothing guards what came in, as far as the caller may look."""
    headers, bucket = asked.request.headers, asked.request.bucket
    is_asked = "x-amz-object-lock-mode" in headers or headers.get("x-amz-object-lock-legal-hold") == "ON"
    if is_asked or not asked.vault.unguarded.is_due(bucket):
        return
    with suppress(Fault):
        if not asked.ask("head", **asked.place, id=version)["retention"]:
            asked.vault.unguarded.say(bucket, version)


def put(asked: Asked) -> Answer:
    """A new version of a key."""
    done = _admitted(asked, asked.body)
    return Answer(200, {"ETag": f'"{done.md5}"', "x-amz-version-id": str(done.version), **asked.body.checksums})


def _source(text: str) -> Request:
    """What a copy is made of, as a request for it."""
    path, _, version = text.partition("?versionId=")
    query = f"?versionId={version}" if version else ""
    source = read_request("GET", f"/{path.removeprefix('/')}{query}", {})
    if "?" in path or not source.key:
        raise Fault("InvalidArgument", "x-amz-copy-source is BUCKET/KEY, or BUCKET/KEY?versionId=ID")
    look_at_key(source.key)
    return source


def copy(asked: Asked) -> Answer:
    """A new version with the content of another one, and with the locks that the request asks for."""
    headers = asked.request.headers
    source = _source(headers["x-amz-copy-source"])
    if (source.bucket, source.key) == (asked.request.bucket, asked.request.key) and not source.version:
        raise Fault("InvalidRequest", TO_ITSELF)
    found = asked.ask("get", bucket=source.bucket, key=source.key, **source.version)
    content = body_of(bytes.fromhex(found["hex"]))
    prefix = "x-amz-copy-source-"
    conditions = {name.removeprefix(prefix): value for name, value in headers.items() if name.startswith(prefix)}
    if _condition(conditions, content.md5, found["admitted"]):
        raise Fault("PreconditionFailed", "the source isn't what x-amz-copy-source-if says")
    done = _admitted(asked, content)
    answer = xml_answer("CopyObjectResult", [("LastModified", stamp(done.moment)), ("ETag", f'"{done.md5}"')])
    ids = {"x-amz-version-id": str(done.version), "x-amz-copy-source-version-id": str(found["version_id"])}
    return replace(answer, headers={**answer.headers, **ids})


def stamp(moment: str) -> str:
    """A moment of the engine as S3's XML has it."""
    return moment.replace("Z", ".000Z")


# ---- get and head


def _is_listed(tags: str, md5: str) -> bool:
    return tags.strip() == "*" or any(it.strip().removeprefix("W/").strip('"') == md5 for it in tags.split(","))


def _is_later(admitted: str, date: str) -> bool | None:
    """Whether it was admitted after a date; none where that is no date, which S3 reads past."""
    try:
        given = email.utils.parsedate_to_datetime(date)
    except ValueError:
        return None
    if given.tzinfo is None:
        given = given.replace(tzinfo=dt.timezone.utc)
    return dt.datetime.fromisoformat(admitted.replace("Z", "+00:00")) > given


def _condition(headers: Mapping[str, str], md5: str, admitted: str) -> int:
    """412 or 304 where a condition of the request says so, else 0 (RFC 9110, 13.2.2)."""
    if "if-match" in headers:
        if not _is_listed(headers["if-match"], md5):
            return 412
    elif "if-unmodified-since" in headers and _is_later(admitted, headers["if-unmodified-since"]):
        return 412
    if "if-none-match" in headers:
        return 304 if _is_listed(headers["if-none-match"], md5) else 0
    if "if-modified-since" in headers and _is_later(admitted, headers["if-modified-since"]) is False:
        return 304
    return 0


def _is_still(text: str, md5: str, admitted: str) -> bool:
    """Whether `If-Range` names this version, by its ETag or by the second of its admission (RFC 9110, 13.1.5)."""
    return text == _date(admitted) or text.strip('"') == md5


def _part(request: Request, size: int) -> tuple[int, int] | None:
    """The part of that number: each version is one of one part. `Fault` where it has no such part."""
    part = number(request.query["partNumber"], "partNumber")
    if not 1 <= part <= MOST_PARTS:
        raise Fault("InvalidArgument", f"partNumber is a number from 1 to {MOST_PARTS:,}")
    if "range" in request.headers:
        raise Fault("InvalidRequest", "a Range and a partNumber can't both be asked for")
    if part > 1:
        raise Fault("InvalidPartNumber", "the version is of one part")
    return (0, size) if size else None


def _range(request: Request, size: int, md5: str, admitted: str) -> tuple[int, int] | None:
    """The first byte and the one after the last of the range or the part that is asked for; none: the whole.

    `Fault` where it lies outside. Several ranges are answered by the whole, as by S3."""
    if "partNumber" in request.query:
        return _part(request, size)
    text = request.headers.get("range")
    found = RANGE.fullmatch(text) if text else None
    if not found or (found[1] == "" and found[2] == ""):
        return None
    if "if-range" in request.headers and not _is_still(request.headers["if-range"], md5, admitted):
        return None
    if found[1] == "":
        first, last = max(0, size - int(found[2])), size - 1
    else:
        first, last = int(found[1]), min(int(found[2]) if found[2] else size - 1, size - 1)
        if found[2] and int(found[2]) < first:
            return None
    if first > last:
        raise Fault("InvalidRange", "the content has no such bytes", {"Content-Range": f"bytes */{size}"})
    return first, last + 1


def _headers(asked: Asked, reply: Mapping[str, Any], md5: str) -> dict[str, str]:
    """The headers of a version's answer."""
    headers = {
        "Accept-Ranges": "bytes",
        "Content-Type": "application/octet-stream",
        "ETag": f'"{md5}"',
        "Last-Modified": _date(reply["admitted"]),
        "x-amz-version-id": str(reply["version_id"]),
        "x-amz-object-lock-legal-hold": reply["hold"],
    }
    if reply["retention"]:
        headers["x-amz-object-lock-mode"] = reply["retention"]["mode"]
        headers["x-amz-object-lock-retain-until-date"] = reply["retention"]["until"]
    for name, header in OVERRIDES.items():
        value = asked.request.query.get(name)
        if value is not None:
            if not (value.isascii() and value.isprintable()):
                raise Fault("InvalidArgument", f"{name} can't be sent in a header")
            headers[header.title()] = value
    return headers


def _version_meant(asked: Asked) -> tuple[dict[str, Any], bytes, str]:
    """What the engine says of the version that is meant, its content, which is empty for a HEAD, and its MD5."""
    line: dict[str, Any] = {**asked.place, **asked.request.version}
    if asked.request.method == "HEAD":
        reply = asked.ask("head", **line)
        md5 = asked.vault.etags.find(reply["version_id"], reply["admitted"])
        if md5:
            return reply, b"", md5
        line["id"] = reply["version_id"]
    reply = asked.ask("get", **line)
    content = bytes.fromhex(reply["hex"])
    return reply, content, asked.vault.etags.note(reply["version_id"], reply["admitted"], body_of(content).md5)


def get(asked: Asked) -> Answer:
    """A version: its content or a part of it, or for HEAD its headers alone."""
    request = asked.request
    reply, content, md5 = _version_meant(asked)
    headers = _headers(asked, reply, md5)
    status = _condition(request.headers, md5, reply["admitted"])
    if status == 304:
        return Answer(304, {it: headers[it] for it in ("ETag", "Last-Modified", "x-amz-version-id")})
    if status:
        raise Fault("PreconditionFailed", "the version isn't what the condition says")
    part = _range(request, reply["size"], md5, reply["admitted"])
    first, end = part or (0, reply["size"])
    if part:
        headers["Content-Range"] = f"bytes {first}-{end - 1}/{reply['size']}"
    if end - first == reply["size"] and request.headers.get("x-amz-checksum-mode", "").upper() == "ENABLED":
        headers["x-amz-checksum-sha256"] = base64_of(bytes.fromhex(reply["sha256"]))
        headers["x-amz-checksum-type"] = "FULL_OBJECT"
    headers["Content-Length"] = str(end - first)
    return Answer(200 if part is None else 206, headers, b"" if request.method == "HEAD" else content[first:end])


# ---- delete


def _deleted(asked: Asked, place: Mapping[str, Any], bypass: Mapping[str, Any]) -> dict[str, Any]:
    """Puts a delete marker on top of a key, or removes the version that is named."""
    if "id" in place:
        return asked.ask("delete-version", **place, **bypass)
    return asked.ask("delete", **place)


def delete(asked: Asked) -> Answer:
    """A delete marker on top of a key, or the end of one version."""
    request = asked.request
    done = _deleted(asked, {**asked.place, **request.version}, request.bypass)
    headers = {"x-amz-version-id": str(done["version_id"])}
    if done["delete_marker"]:
        headers["x-amz-delete-marker"] = "true"
    return Answer(204, headers)


class Named(NamedTuple):
    """A key of DeleteObjects, and the version, if one is named."""

    key: str
    version: str | None


def _named(it: xml.Element) -> Named:
    """What an Object names. `Fault` where it has no key, or anything else beside it."""
    it.only("Key", "VersionId")
    key = it.value("Key")
    if key is None:
        raise xml.malformed("an Object has a Key")
    return Named(key, it.value("VersionId"))


def _result(asked: Asked, it: Named) -> xml.Node:
    """What became of one key of DeleteObjects."""
    version = it.version
    named: list[xml.Node] = [("Key", it.key), *([("VersionId", version)] if version is not None else [])]
    try:
        look_at_key(it.key)
        place = {"bucket": asked.request.bucket, "key": it.key}
        one = {} if version is None else {"id": number(version, "VersionId")}
        done = _deleted(asked, {**place, **one}, asked.request.bypass)
    except Fault as fault:
        return "Error", [*named, ("Code", fault.code), ("Message", fault.message)]
    if done["delete_marker"]:
        named += [("DeleteMarker", True), ("DeleteMarkerVersionId", str(done["version_id"]))]
    return "Deleted", named


def delete_many(asked: Asked) -> Answer:
    """Up to 1,000 keys or versions, one after another; of each it is said what became of it.

    The whole document is looked at before the first of them: one that is refused has nothing deleted."""
    document = asked.document("Delete")
    document.only("Object", "Quiet")
    is_quiet = document.value("Quiet") == "true"
    objects = [_named(it) for it in document.all("Object")]
    if not 1 <= len(objects) <= MOST_DELETED:
        raise xml.malformed(f"there are 1 to {MOST_DELETED} Objects")
    results = [_result(asked, it) for it in objects]
    if is_quiet:
        results = [it for it in results if it[0] == "Error"]
    return xml_answer("DeleteResult", results)
