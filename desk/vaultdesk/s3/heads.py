"""Which headers a request may have: nothing that changes what is kept is left out in silence."""

from __future__ import annotations

import datetime as dt
import re
from typing import Any

from vaultdesk import moments
from vaultdesk.s3 import checksums
from vaultdesk.s3.faults import Fault, refused_upload
from vaultdesk.s3.request import Request
from vaultdesk.s3.settings import Settings

OWNER = "vault"  # the owner of all buckets, as S3 names accounts
# Headers that say how a request is signed or sent, or ask for nothing.
PLAIN = {
    "x-amz-content-sha256", "x-amz-date", "x-amz-decoded-content-length", "x-amz-request-payer",
    "x-amz-sdk-checksum-algorithm", "x-amz-trailer", "x-amz-user-agent", *checksums.OTHERS,
}  # fmt: skip
LOCKS = {"x-amz-object-lock-mode", "x-amz-object-lock-retain-until-date", "x-amz-object-lock-legal-hold"}
COPIES = {"x-amz-copy-source", "x-amz-metadata-directive", "x-amz-tagging-directive"}
COPY_CONDITIONS = {f"x-amz-copy-source-if-{it}" for it in ("match", "none-match", "modified-since", "unmodified-since")}
BYPASS = {"x-amz-bypass-governance-retention"}
# Those of an upload that can't be kept, and are refused by name; x-amz-storage-class is dropped.
DROPPED = {"x-amz-storage-class"}
CONDITIONS = ("if-match", "if-none-match", "if-modified-since", "if-unmodified-since")
DESCRIBING = ("content-disposition", "content-language", "x-amz-website-redirect-location", "x-amz-tagging")
ACLS = ("private", "bucket-owner-full-control")
ONE_ALONE = "x-amz-object-lock-mode and x-amz-object-lock-retain-until-date go together, so nothing was put"
MOMENT = re.compile(r"(\d{4}-\d\d-\d\dT\d\d:\d\d:\d\d)\.(\d+)(Z|[+-]\d\d:\d\d)")


def look_at_names(request: Request, known: set[str]) -> None:
    """`Fault` where a request that changes something has a header of S3 that isn't known here."""
    if "x-amz-security-token" in request.headers:
        raise Fault("InvalidToken", "there are no session tokens here")
    if request.headers.get("x-amz-expected-bucket-owner", OWNER) != OWNER:
        raise Fault("AccessDenied", f"the owner of all buckets is {OWNER}")
    if request.method in ("GET", "HEAD"):
        return
    allowed = PLAIN | known | {"x-amz-expected-bucket-owner"}
    for it in request.own:
        if it not in allowed and not it.startswith(checksums.PREFIX):
            raise refused_upload(it)


def look_at_change(request: Request) -> None:
    """`Fault` where a change has a condition: a check and a change would be two requests."""
    there = [it for it in CONDITIONS if it in request.headers]
    if there:
        raise Fault("InvalidRequest", f"{there[0]}: a change with a condition isn't taken, and nothing was changed")


def look_at_upload(request: Request, settings: Settings) -> set[str]:
    """The names of S3's headers that are dropped. `Fault` where one of the upload's can't be kept."""
    headers, own = request.headers, request.own
    look_at_change(request)
    codings = headers.get("content-encoding", "").lower().replace(" ", "").split(",")
    if any(it not in ("", "aws-chunked", "identity") for it in codings):
        raise refused_upload("content-encoding")
    for it in DESCRIBING:
        if headers.get(it):
            raise refused_upload(it)
    if any(it.startswith("x-amz-server-side-encryption") for it in own):
        raise Fault("InvalidEncryptionAlgorithmError", "the vault doesn't encrypt, so nothing was put")
    if headers.get("x-amz-acl", "private") not in ACLS or any(it.startswith("x-amz-grant-") for it in own):
        raise Fault("AccessControlListNotSupported", "the vault has no access control lists, so nothing was put")
    if ("x-amz-object-lock-mode" in headers) != ("x-amz-object-lock-retain-until-date" in headers):
        raise Fault("InvalidRequest", ONE_ALONE)
    metadata = {it for it in own if it.startswith("x-amz-meta-")}
    kept = {it for it in metadata if it.removeprefix("x-amz-meta-") not in settings.dropped_metadata}
    if kept:
        raise refused_upload(min(kept))
    return {*metadata, *DROPPED, *DESCRIBING, "x-amz-acl"}


def moment_of(text: str) -> str:
    """A moment as the engine takes one: parts of a second are rounded up, so that no lock ends before it was to."""
    found = MOMENT.fullmatch(text)
    if not found:
        return text
    whole = found[1] + found[3]
    if not int(found[2]):
        return whole
    try:
        return moments.text_of(dt.datetime.fromisoformat(whole.replace("Z", "+00:00")) + dt.timedelta(seconds=1))
    except (ValueError, OverflowError):
        return whole


def locks_of(request: Request) -> dict[str, Any]:
    """The members of a line for the locks that an upload asks for."""
    headers = request.headers
    members = {
        "mode": headers.get("x-amz-object-lock-mode"),
        "until": headers.get("x-amz-object-lock-retain-until-date"),
        "hold": headers.get("x-amz-object-lock-legal-hold"),
    }
    if members["until"] is not None:
        members["until"] = moment_of(members["until"])
    return members
