"""Which call a request is."""

from __future__ import annotations

from collections.abc import Callable, Mapping
from dataclasses import dataclass

from vaultdesk.s3 import bodies, buckets, heads, lifecycle, listings, locks, objects
from vaultdesk.s3.asked import Asked
from vaultdesk.s3.bodies import CONTENT, DOCUMENT, SMALL
from vaultdesk.s3.faults import Fault, not_there
from vaultdesk.s3.request import Answer, Request, look_at_key
from vaultdesk.s3.settings import Settings


def _nothing(_: Request, __: Settings) -> set[str]:
    return set()


def _change(request: Request, _: Settings) -> set[str]:
    heads.look_at_change(request)
    return heads.BYPASS


def _upload(request: Request, settings: Settings) -> set[str]:
    return heads.look_at_upload(request, settings) | heads.LOCKS


def _copy(request: Request, settings: Settings) -> set[str]:
    return _upload(request, settings) | heads.COPIES | heads.COPY_CONDITIONS


def _rules(request: Request, _: Settings) -> set[str]:
    heads.look_at_change(request)
    return {"x-amz-transition-default-minimum-object-size"}  # no rule here has a transition


@dataclass(frozen=True)
class Call:
    """What is done, and what of a request it knows.

    `look` returns the names of S3's headers that the call knows, and refuses a head before a body is read."""

    name: str
    do: Callable[[Asked], Answer]
    query: frozenset[str] = frozenset()
    look: Callable[[Request, Settings], set[str]] = _nothing
    most: int = 0


VERSION = frozenset({"versionId"})
READ = VERSION | {"partNumber"} | set(objects.OVERRIDES)
LISTED = frozenset({"prefix", "delimiter", "max-keys", "encoding-type"})
UPLOADS = frozenset({"key-marker", "upload-id-marker", "max-uploads"})
# By method, what the target names (a service, a bucket, or a key), and the name in its query that selects the call.
CALLS: Mapping[tuple[str, str, str], Call] = {
    ("GET", "service", ""): Call("ListBuckets", buckets.list_all),
    ("HEAD", "bucket", ""): Call("HeadBucket", buckets.head),
    ("PUT", "bucket", ""): Call("CreateBucket", buckets.create, most=SMALL, look=lambda *_: {"x-amz-acl"}),
    ("GET", "bucket", ""): Call("ListObjects", listings.objects_v1, LISTED | {"marker"}),
    ("GET", "bucket", "list-type"): Call(
        "ListObjectsV2", listings.objects_v2, LISTED | {"continuation-token", "start-after", "fetch-owner"}
    ),
    ("GET", "bucket", "versions"): Call(
        "ListObjectVersions", listings.versions, LISTED | {"key-marker", "version-id-marker"}
    ),
    ("GET", "bucket", "uploads"): Call("ListMultipartUploads", buckets.uploads, LISTED | UPLOADS),
    ("GET", "bucket", "location"): Call("GetBucketLocation", buckets.location),
    ("GET", "bucket", "versioning"): Call("GetBucketVersioning", buckets.versioning),
    ("GET", "bucket", "object-lock"): Call("GetObjectLockConfiguration", locks.get_default),
    ("PUT", "bucket", "object-lock"): Call(
        "PutObjectLockConfiguration", locks.put_default, look=_change, most=SMALL
    ),
    ("GET", "bucket", "lifecycle"): Call("GetBucketLifecycleConfiguration", lifecycle.get),
    ("PUT", "bucket", "lifecycle"): Call(
        "PutBucketLifecycleConfiguration", lifecycle.put, look=_rules, most=DOCUMENT
    ),
    ("DELETE", "bucket", "lifecycle"): Call("DeleteBucketLifecycle", lifecycle.drop, look=_change),
    ("POST", "bucket", "delete"): Call("DeleteObjects", objects.delete_many, look=_change, most=DOCUMENT),
    ("GET", "key", ""): Call("GetObject", objects.get, READ),
    ("HEAD", "key", ""): Call("HeadObject", objects.get, READ),
    ("PUT", "key", ""): Call("PutObject", objects.put, look=_upload, most=CONTENT),
    ("DELETE", "key", ""): Call("DeleteObject", objects.delete, VERSION, look=_change),
    ("GET", "key", "retention"): Call("GetObjectRetention", locks.get_retention, VERSION),
    ("PUT", "key", "retention"): Call(
        "PutObjectRetention", locks.put_retention, VERSION, look=_change, most=SMALL
    ),
    ("GET", "key", "legal-hold"): Call("GetObjectLegalHold", locks.get_hold, VERSION),
    ("PUT", "key", "legal-hold"): Call("PutObjectLegalHold", locks.put_hold, VERSION, look=_change, most=SMALL),
    **{("GET", "bucket", it): Call(f"of {it}", buckets.absent) for it in buckets.ABSENT},
}
COPY = Call("CopyObject", objects.copy, look=_copy)
# What names a call in a query.
SELECTING = {selector for _, _, selector in CALLS if selector}
# What every request may have in its query: who signed it, and the name that some SDKs give their call.
SIGNING = {
    "X-Amz-Algorithm", "X-Amz-Credential", "X-Amz-Date", "X-Amz-Expires", "X-Amz-SignedHeaders", "X-Amz-Signature",
    "X-Amz-Content-Sha256", "x-id",
}  # fmt: skip
METHODS = ("GET", "HEAD", "PUT", "POST", "DELETE")


def _target(request: Request) -> str:
    if not request.bucket and request.key:
        raise Fault("InvalidBucketName", "the path is /BUCKET or /BUCKET/KEY")
    if not request.bucket:
        return "service"
    return "key" if request.key else "bucket"


def call_of(request: Request) -> Call:
    """The call that a request is. `Fault` where it is none of those that are translated."""
    names = set(request.query) - SIGNING
    if {"uploads", "uploadId", "partNumber"} & names and request.method not in ("GET", "HEAD"):
        raise Fault("EntityTooLarge", bodies.IN_PARTS)
    target = _target(request)
    look_at_key(request.key)
    selecting = [it for it in SELECTING & names if it != "versions" or target == "bucket"]
    if len(selecting) > 1:
        raise Fault("InvalidArgument", f"{' and '.join(sorted(selecting))} are two calls")
    selector = selecting[0] if selecting else ""
    call = CALLS.get((request.method, target, selector))
    if call and call.do is objects.put and "x-amz-copy-source" in request.headers:
        call = COPY
    others = names - {selector} - (call.query if call else frozenset())
    if not call or others:
        raise not_there(" ".join([request.method, target, *sorted(others or selecting)]))
    return call
