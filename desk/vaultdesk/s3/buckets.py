"""Buckets: which there are, and what S3 asks of one beside its contents and rules."""

from __future__ import annotations

from vaultdesk.s3 import heads, xml
from vaultdesk.s3.asked import Asked, xml_answer
from vaultdesk.s3.faults import Fault
from vaultdesk.s3.request import Answer

# When a bucket was made isn't kept by the vault, and clients want a date.
UNKNOWN = "1970-01-01T00:00:00.000Z"
# What a bucket hasn't, and how S3 says so.
ABSENT = {
    "policy": "NoSuchBucketPolicy",
    "cors": "NoSuchCORSConfiguration",
    "tagging": "NoSuchTagSet",
    "encryption": "ServerSideEncryptionConfigurationNotFoundError",
    "website": "NoSuchWebsiteConfiguration",
    "replication": "ReplicationConfigurationNotFoundError",
}


def _why_not_own(asked: Asked, bucket: str) -> Fault | None:
    """Why a bucket isn't one of the caller's department, by the engine's answer to a list of one entry; None: it is.

    `Fault` where the engine says neither, as of a caller who is closed."""
    try:
        asked.ask("list-versions", bucket=bucket, most=1)
    except Fault as fault:
        if fault.message.startswith("right:list"):
            return None
        if fault.code == "NoSuchBucket" or fault.message.startswith("department:"):
            return fault
        raise
    return None


def _look_at(asked: Asked) -> None:
    """`Fault` where the bucket isn't there, or isn't one of the caller's department."""
    fault = _why_not_own(asked, asked.request.bucket)
    if fault:
        raise fault


def list_all(asked: Asked) -> Answer:
    """The buckets that the caller may list, or whose department is the caller's."""
    own = (it for it in asked.vault.door.buckets() if not _why_not_own(asked, it))
    found: list[xml.Node] = [("Bucket", [("Name", it), ("CreationDate", UNKNOWN)]) for it in own]
    owner: xml.Node = ("Owner", [("ID", heads.OWNER), ("DisplayName", heads.OWNER)])
    return xml_answer("ListAllMyBucketsResult", [owner, ("Buckets", found)])


def head(asked: Asked) -> Answer:
    """Whether a bucket is there, for who may list it."""
    asked.ask("list-versions", bucket=asked.request.bucket, most=1)
    return Answer(200, {"x-amz-bucket-region": asked.vault.settings.region})


def create(asked: Asked) -> Answer:
    """Makes no bucket: one that is the caller's already is answered as that."""
    if not _why_not_own(asked, asked.request.bucket):
        raise Fault("BucketAlreadyOwnedByYou", "the bucket is there")
    raise Fault("InvalidRequest", "buckets are made by the registrar (vaultdesk buckets --add), and not over S3")


def location(asked: Asked) -> Answer:
    """The region, which is the same for all buckets."""
    _look_at(asked)
    region = asked.vault.settings.region
    return xml_answer("LocationConstraint", "" if region == "us-east-1" else region)


def versioning(asked: Asked) -> Answer:
    """That versions are kept, which every bucket does."""
    _look_at(asked)
    return xml_answer("VersioningConfiguration", [("Status", "Enabled")])


def uploads(asked: Asked) -> Answer:
    """That no upload in parts is under way: none is taken."""
    _look_at(asked)
    markers: list[xml.Node] = [("KeyMarker", ""), ("UploadIdMarker", ""), ("MaxUploads", 1_000), ("IsTruncated", False)]
    return xml_answer("ListMultipartUploadsResult", [("Bucket", asked.request.bucket), *markers])


def absent(asked: Asked) -> Answer:
    """What no bucket has."""
    _look_at(asked)
    name = next(it for it in ABSENT if it in asked.request.query)
    raise Fault(ABSENT[name], f"a bucket has no {name}")
