"""Refusals as S3 names them: a code, a status and a sentence."""

from __future__ import annotations

from collections.abc import Mapping

from vaultdesk.errors import EngineError, Refused

# The statuses of codes that aren't 400.
STATUSES = {
    "AccessDenied": 403,
    "BucketAlreadyExists": 409,
    "BucketAlreadyOwnedByYou": 409,
    "InternalError": 500,
    "InvalidAccessKeyId": 403,
    "InvalidChunkSizeError": 403,
    "InvalidPartNumber": 416,
    "InvalidRange": 416,
    "MethodNotAllowed": 405,
    "MissingContentLength": 411,
    "NotImplemented": 501,
    "NotModified": 304,
    "OperationAborted": 409,
    "PreconditionFailed": 412,
    "QuotaExceeded": 403,
    "RequestTimeTooSkewed": 403,
    "SignatureDoesNotMatch": 403,
    "SlowDown": 503,
    "VaultFull": 503,
}
# The engine's codes that S3 has under another name.
RENAMED = {
    "ClockBack": "SlowDown",
    "ClockOutOfRange": "SlowDown",
    "Device": "InternalError",
    "IntakeConflict": "InvalidRequest",
    "MalformedBody": "MalformedXML",
    "Memory": "SlowDown",
    "NameTaken": "InvalidRequest",
    "RetentionOutOfRange": "InvalidArgument",
}
# What is said to an S3 client, where the desk's words of a refusal name the desk's own.
SAID = {
    "Device": "the vault's file failed: whether the change was made isn't known",
    "IntakeConflict": "that amz-sdk-invocation-id, or signature, was used for a put of another key, content or lock",
    "InvalidArgument": "the vault has no such value, or doesn't allow it there",
    "InvalidBucketName": "a bucket's name has 3 to 63 of a-z, 0-9 and '-', with no '-' at an end",
    "MethodNotAllowed": "a delete marker has no content and no lock",
    "NoSuchBucket": "the vault has no bucket of that name",
    "NoSuchKey": "nothing is held under that key",
    "NoSuchLifecycleConfiguration": "the bucket has no rules",
    "NoSuchVersion": "the bucket holds no version of that number under that key",
    "department": "the bucket is another department's, and callers work only on those of their own",
    "marker": "a delete marker is on top of that key",
    "legal-hold": "a legal hold is on: lift it first, by a caller with the right hold",
    "retention-governance": "a retention in GOVERNANCE is in force: a caller with the right bypass may bypass it",
    "unknown-caller": "the vault has no open caller of the name that this access key has",
}


class Fault(Exception):
    """A request that isn't carried out: S3's code, a sentence, the status, and headers of the answer; and the caller,
    where that is known, for the log."""

    caller = "-"

    def __init__(self, code: str, message: str, headers: Mapping[str, str] | None = None) -> None:
        super().__init__(f"{code}: {message}")
        self.code = code
        self.message = message
        self.headers = dict(headers or {})

    @property
    def status(self) -> int:
        """The status of the answer."""
        return STATUSES.get(self.code, 404 if self.code.startswith("NoSuch") or "NotFound" in self.code else 400)


def not_there(what: str) -> Fault:
    """What S3 has and the vault hasn't, as S3 refuses it."""
    return Fault("NotImplemented", f"{what}: the vault has no such thing")


def refused_upload(what: str) -> Fault:
    """What would change what is kept, and can't be kept. The status is 400, so that no client tries it again."""
    return Fault("InvalidRequest", f"{what}: the vault can't keep this, so nothing was put")


def of_refusal(refusal: Refused) -> Fault:
    """The engine's refusal as S3 says it; its reason goes into the sentence."""
    code, reason = refusal.code, refusal.reason
    headers = {}
    if refusal.is_below_marker:
        headers = {"x-amz-delete-marker": "true"}
    elif code == "MethodNotAllowed":
        headers = {"x-amz-delete-marker": "true", "Allow": "DELETE"}
    name = "marker" if refusal.is_below_marker else reason or code
    words = SAID.get(name) or str(refusal).partition(": ")[2]
    if reason.startswith("right:"):
        words = f"the caller lacks the {reason.replace(':', ' ')}"
    return Fault(RENAMED.get(code, code), f"{reason}: {words}" if reason else words, headers)


def of_engine(_: EngineError) -> Fault:
    """An engine that gave no answer. What was asked may have been done: the same request, sent again, finds out."""
    return Fault("InternalError", "the engine gave no answer: the gateway's log says why")
