"""Each call of S3 by each client that has words for it: it works, or is refused by S3's own code. For the trials of s3.py."""

import json
import pathlib
from typing import Any, NamedTuple

from trials.parts.program import check
from trials.s3_clients.gateway import Gateway
from trials.s3_clients.tools import Aws, Boto3, Rclone, S3cmd, Tool

DOCS, NEW = {"Bucket": "docs"}, {"Bucket": "another"}
DEED, DRAFT = {**DOCS, "Key": "deed"}, {**DOCS, "Key": "draft"}
RULE = {"ID": "r", "Status": "Enabled", "Filter": {"Prefix": "x/"}, "Expiration": {"Days": 30}}
DEFAULT = {"ObjectLockEnabled": "Enabled", "Rule": {"DefaultRetention": {"Mode": "GOVERNANCE", "Days": 1}}}
POLICY = json.dumps({"Version": "2012-10-17", "Statement": []})
ACL = {"ACL": "private"}


class Call(NamedTuple):
    """A call as SDKs name it, what it is given, and the code with which it is refused; none: it works."""

    name: str
    given: dict[str, Any]
    code: str = ""


# In this order, over a bucket with the key `deed`, whose version is 1.
CALLS = [
    Call("list_buckets", {}), Call("head_bucket", DOCS), Call("head_bucket", NEW, "404"),
    Call("get_bucket_location", DOCS), Call("get_bucket_versioning", DOCS),
    Call("get_bucket_location", NEW, "NoSuchBucket"), Call("get_bucket_versioning", NEW, "NoSuchBucket"),
    Call("create_bucket", DOCS, "BucketAlreadyOwnedByYou"), Call("create_bucket", NEW, "InvalidRequest"),
    Call("list_objects_v2", {**DOCS, "Prefix": "d", "Delimiter": "/"}), Call("list_objects", DOCS),
    Call("list_object_versions", DOCS), Call("list_objects_v2", NEW, "NoSuchBucket"),
    Call("head_object", {**DEED, "VersionId": "1"}), Call("head_object", DRAFT, "404"),
    Call("get_object_retention", DEED, "NoSuchObjectLockConfiguration"),
    Call("get_object_legal_hold", DEED),
    Call("put_object_legal_hold", {**DEED, "LegalHold": {"Status": "ON"}}),
    Call("delete_object", {**DEED, "VersionId": "1"}, "AccessDenied"),
    Call("put_object_legal_hold", {**DEED, "LegalHold": {"Status": "OFF"}}),
    Call("put_object_retention", {**DEED, "Retention": {"Mode": "GOVERNANCE", "RetainUntilDate": "2040-01-01T00:00:00Z"}}),
    Call("get_object_retention", DEED),
    Call("delete_object", {**DEED, "VersionId": "1"}, "AccessDenied"),
    Call("put_object_lock_configuration", {**DOCS, "ObjectLockConfiguration": DEFAULT}),
    Call("get_object_lock_configuration", DOCS),
    Call("copy_object", {**DRAFT, "CopySource": "docs/deed"}), Call("copy_object", {**DRAFT, "CopySource": "docs/draft"}, "InvalidRequest"),
    Call("delete_object", DRAFT), Call("delete_objects", {**DOCS, "Delete": {"Objects": [{"Key": "draft"}]}}),
    Call("delete_object", {**DRAFT, "VersionId": "999"}, "NoSuchVersion"),
    Call("get_bucket_lifecycle_configuration", DOCS, "NoSuchLifecycleConfiguration"),
    Call("put_bucket_lifecycle_configuration", {**DOCS, "LifecycleConfiguration": {"Rules": [RULE]}}),
    Call("get_bucket_lifecycle_configuration", DOCS), Call("delete_bucket_lifecycle", DOCS),
    Call("get_bucket_policy", DOCS, "NoSuchBucketPolicy"), Call("get_bucket_cors", DOCS, "NoSuchCORSConfiguration"),
    Call("get_bucket_tagging", DOCS, "NoSuchTagSet"), Call("get_bucket_website", DOCS, "NoSuchWebsiteConfiguration"),
    Call("get_bucket_encryption", DOCS, "ServerSideEncryptionConfigurationNotFoundError"),
    Call("get_bucket_replication", DOCS, "ReplicationConfigurationNotFoundError"),
    Call("create_multipart_upload", DRAFT, "EntityTooLarge"), Call("delete_bucket", DOCS, "NotImplemented"),
    Call("put_bucket_versioning", {**DOCS, "VersioningConfiguration": {"Status": "Suspended"}}, "NotImplemented"),
    Call("put_bucket_policy", {**DOCS, "Policy": POLICY}, "NotImplemented"),
    Call("put_bucket_acl", {**DOCS, **ACL}, "NotImplemented"), Call("get_bucket_acl", DOCS, "NotImplemented"),
    Call("put_object_acl", {**DEED, **ACL}, "NotImplemented"), Call("get_object_acl", DEED, "NotImplemented"),
    Call("put_object_tagging", {**DEED, "Tagging": {"TagSet": []}}, "NotImplemented"),
    Call("get_object_tagging", DEED, "NotImplemented"), Call("list_multipart_uploads", DOCS),
    Call("get_object_attributes", {**DEED, "ObjectAttributes": ["ETag"]}, "NotImplemented"),
    Call("restore_object", {**DEED, "RestoreRequest": {"Days": 1}}, "NotImplemented"),
]
# What s3cmd and rclone are asked for, and what they say then; an empty text: it works.
S3CMD = [
    ("", "ls"), ("", "ls", "s3://docs"), ("", "la"), ("", "du", "s3://docs"), ("", "info", "s3://docs"), ("", "info", "s3://docs/deed"),
    ("BucketAlreadyOwnedByYou", "mb", "s3://docs"), ("InvalidRequest", "mb", "s3://another"),
    ("", "put", "--no-preserve", "in", "s3://docs/draft"), ("", "get", "--force", "s3://docs/draft", "out"),
    ("", "cp", "s3://docs/draft", "s3://docs/copy"), ("", "mv", "s3://docs/copy", "s3://docs/moved"),
    ("copy an object to itself", "modify", "--add-header=x-amz-storage-class:STANDARD", "s3://docs/draft"),
    ("", "del", "s3://docs/moved"), ("", "put", "--no-preserve", "in", "s3://docs/sub/a"),
    ("", "del", "--recursive", "--force", "s3://docs/sub/"),
    ("", "expire", "s3://docs", "--expiry-days=30", "--expiry-prefix=x/"), ("", "getlifecycle", "s3://docs"),
    ("", "dellifecycle", "s3://docs"),
    ("EntityTooLarge", "put", "--no-preserve", "--multipart-chunk-size-mb=5", "huge", "s3://docs/refused"),
    ("NotImplemented", "setacl", "--acl-public", "s3://docs/draft"),
    ("NotImplemented", "setpolicy", "policy", "s3://docs"), ("NotImplemented", "rb", "s3://docs"),
    ("", "multipart", "s3://docs"),
]
RCLONE = [
    ("", "lsd", "v:"), ("", "lsf", "v:docs"), ("", "lsf", "--s3-versions", "v:docs"), ("", "size", "v:docs"),
    ("", "mkdir", "--s3-no-check-bucket=false", "v:docs"), ("InvalidRequest", "mkdir", "--s3-no-check-bucket=false", "v:another"),
    ("", "copyto", "in", "v:docs/draft"), ("", "cat", "v:docs/draft"),
    ("", "cat", "--offset", "2", "--count", "3", "v:docs/draft"), ("", "copyto", "v:docs/draft", "v:docs/copy"),
    ("", "moveto", "v:docs/copy", "v:docs/moved"), ("copy an object to itself", "touch", "v:docs/draft"), ("", "deletefile", "v:docs/moved"),
    ("", "delete", "v:docs/sub"), ("", "hashsum", "MD5", "v:docs"),
    ("EntityTooLarge", "copyto", "--s3-upload-cutoff", "5M", "huge", "v:docs/refused"), ("NotImplemented", "rmdir", "v:docs"),
    ("", "cleanup", "v:docs"),
]


def by_boto3(tool: Boto3, call: Call) -> None:
    from botocore.exceptions import ClientError

    try:
        told = getattr(tool.client, call.name)(**call.given)
    except ClientError as error:
        check(error.response["Error"]["Code"] == call.code, f"{call}: {error}")
        return
    check(not call.code, f"{call} isn't refused: {told}")


def by_aws(tool: Aws, call: Call) -> None:
    words = ("s3api", call.name.replace("_", "-"), "--cli-input-json", json.dumps(call.given))
    said = tool.aws(*words, status=None if call.code else 0)
    check(call.code in said, f"{call}: {said}")


def by_words(tool: S3cmd | Rclone, code: str, words: tuple[str, ...]) -> None:
    said = (tool.s3cmd if isinstance(tool, S3cmd) else tool.rclone)(*words, status=None if code else 0)
    check(code in said, f"{words}: {said}")


def every_call(tool: Tool, gateway: Gateway, folder: pathlib.Path) -> None:
    """Has a client make all of its calls; what is refused leaves no version."""
    (folder / "in").write_text("content")
    (folder / "huge").write_bytes(b"x" * 16_000_000)
    (folder / "policy").write_text(POLICY)
    tool.put("in", "deed")
    if isinstance(tool, Boto3):
        for it in CALLS:
            by_boto3(tool, it)
    elif isinstance(tool, Aws):
        for it in CALLS:
            by_aws(tool, it)
    elif isinstance(tool, (S3cmd, Rclone)):
        for code, *words in S3CMD if isinstance(tool, S3cmd) else RCLONE:
            by_words(tool, code, tuple(words))
    tool.get("deed", "out")
    check((folder / "out").read_text() == "content", "the deed comes back otherwise")
    gateway.stop()
    check("refused" not in [it["key"] for it in gateway.versions()], "what is refused left a version")
