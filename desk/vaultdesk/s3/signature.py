"""Who asks: signatures of version 4 (AWS4-HMAC-SHA256), in the header or in the query."""

from __future__ import annotations

import datetime as dt
import functools
import hashlib
import hmac
import re
import urllib.parse
from collections.abc import Sequence
from dataclasses import dataclass

from vaultdesk.s3.faults import Fault
from vaultdesk.s3.request import Request

ALGORITHM = "AWS4-HMAC-SHA256"
UNSIGNED = "UNSIGNED-PAYLOAD"
EMPTY = hashlib.sha256(b"").hexdigest()
SKEW = 900  # seconds that a client's clock may differ
LONGEST = 604_800  # seconds for which a presigned URL may be good
DATE = re.compile(r"\d{8}T\d{6}Z", re.ASCII)
SPACES = re.compile("  +")
SCOPE = re.compile(r"([^/]+)/(\d{8})/([^/]+)/s3/aws4_request")
PARTS = re.compile(r"Credential=([^,\s]+),\s*SignedHeaders=([^,\s]+),\s*Signature=([0-9a-f]{64})")
NO_PAYLOAD = f"x-amz-content-sha256 is missing: send and sign it, with the SHA-256 of the body or {UNSIGNED}"
OTHERS = "the signature isn't AWS4-HMAC-SHA256: set the client to signature version 4 (s3v4)"


@dataclass(frozen=True)
class Signed:
    """What a request says of its signature. `expires` is None where it is in the header."""

    access_key: str
    day: str
    region: str
    headers: Sequence[str]
    signature: str
    date: str
    expires: int | None = None

    @property
    def scope(self) -> str:
        """Where a derived key is good."""
        return f"{self.day}/{self.region}/s3/aws4_request"


def _malformed(what: str) -> Fault:
    return Fault("AuthorizationHeaderMalformed", what)


def _scope(credential: str) -> tuple[str, str, str]:
    found = SCOPE.fullmatch(credential)
    if not found:
        raise _malformed("the credential is KEY/YYYYMMDD/REGION/s3/aws4_request")
    return found[1], found[2], found[3]


def _of_header(request: Request, text: str) -> Signed:
    algorithm, _, rest = text.partition(" ")
    if algorithm != ALGORITHM:
        raise Fault("InvalidRequest", OTHERS)
    found = PARTS.fullmatch(rest.strip())
    if not found:
        raise _malformed("Authorization has Credential, SignedHeaders and Signature")
    date = request.headers.get("x-amz-date", "")
    return Signed(*_scope(found[1]), tuple(found[2].split(";")), found[3], date)


def _of_query(request: Request) -> Signed:
    given = request.query
    if given.get("X-Amz-Algorithm") != ALGORITHM:
        raise Fault("InvalidRequest", OTHERS)
    expires = given.get("X-Amz-Expires", "")
    if not re.fullmatch(r"\d{1,6}", expires) or not 1 <= int(expires) <= LONGEST:
        raise Fault("AuthorizationQueryParametersError", f"X-Amz-Expires is a number from 1 to {LONGEST}")
    names = given.get("X-Amz-SignedHeaders", "").split(";")
    signature = given["X-Amz-Signature"]
    if not re.fullmatch("[0-9a-f]{64}", signature):
        raise Fault("AuthorizationQueryParametersError", "X-Amz-Signature is 64 hex digits")
    scope = _scope(given.get("X-Amz-Credential", ""))
    return Signed(*scope, names, signature, given.get("X-Amz-Date", ""), int(expires))


def read(request: Request, takes_presigned: bool) -> Signed:
    """What the request says of its signature.

    `Fault` where it has none, one of another version, two, or one in the query where these aren't taken."""
    text = request.headers.get("authorization")
    names = request.query
    if "Signature" in names or "AWSAccessKeyId" in names or (text or "").startswith("AWS "):
        raise Fault("InvalidRequest", OTHERS)
    if "X-Amz-Signature" in names:
        if text is not None:
            raise Fault("InvalidArgument", "a request is signed in its header or in its query, and not in both")
        if not takes_presigned:
            raise Fault("AccessDenied", "presigned URLs aren't taken here")
        return _of_query(request)
    if text is None:
        raise Fault("AccessDenied", "the request isn't signed")
    return _of_header(request, text)


# ---- what is signed


def _canonical_query(request: Request) -> str:
    quoted = [
        (urllib.parse.quote(name, safe="-._~"), urllib.parse.quote(value, safe="-._~"))
        for name, value in request.pairs
        if name != "X-Amz-Signature"
    ]
    return "&".join(f"{name}={value}" for name, value in sorted(quoted))


def _canonical_headers(request: Request, names: Sequence[str]) -> str:
    return "".join(f"{it}:{SPACES.sub(' ', request.headers.get(it, ''))}\n" for it in names)


def payload_of(request: Request, signed: Signed) -> str:
    """What is said of the body: its digest, that it isn't signed, or in which form it comes."""
    default = UNSIGNED if signed.expires is not None else ""
    return request.headers.get("x-amz-content-sha256", default)


@functools.lru_cache(256)
def _derived(secret: str, day: str, region: str) -> bytes:
    key = f"AWS4{secret}".encode()
    for part in (day, region, "s3", "aws4_request"):
        key = hmac.digest(key, part.encode(), "sha256")
    return key


def signing_key(secret: str, signed: Signed) -> bytes:
    """The key that signs on that day, in that region."""
    return _derived(secret, signed.day, signed.region)


def sign(key: bytes, lines: Sequence[str]) -> str:
    """The signature of these lines."""
    return hmac.digest(key, "\n".join(lines).encode("latin-1"), "sha256").hex()


def signature_of(request: Request, signed: Signed, key: bytes) -> str:
    """The signature that the request has to have."""
    canonical = "\n".join([
        request.method,
        request.path,
        _canonical_query(request),
        _canonical_headers(request, signed.headers),
        ";".join(signed.headers),
        payload_of(request, signed),
    ])  # fmt: skip
    digest = hashlib.sha256(canonical.encode("latin-1")).hexdigest()
    return sign(key, (ALGORITHM, signed.date, signed.scope, digest))


# ---- whether it is right


def _look_at_headers(request: Request, signed: Signed) -> None:
    """`Fault` where a header that says what is to be done isn't signed: anyone on the way could have set it."""
    if "host" not in signed.headers:
        raise Fault("AccessDenied", "the header host has to be signed")
    unsigned = [it for it in request.own if it not in signed.headers]
    if unsigned:
        raise Fault("AccessDenied", f"these headers aren't signed: {', '.join(unsigned)}")


def _look_at_time(signed: Signed, now: float) -> None:
    """`Fault` where the signature is of another time."""
    if not DATE.fullmatch(signed.date) or signed.date[:8] != signed.day:
        raise Fault("AccessDenied", "x-amz-date is a moment, YYYYMMDDTHHMMSSZ, of the day of the credential")
    try:
        begun = dt.datetime.fromisoformat(signed.date).timestamp()
    except ValueError as error:
        raise Fault("AccessDenied", "x-amz-date is no moment of the calendar") from error
    if signed.expires is None:
        if abs(now - begun) > SKEW:
            raise Fault("RequestTimeTooSkewed", f"the clocks of client and gateway differ by more than {SKEW} seconds")
    elif now < begun - SKEW:
        raise Fault("AccessDenied", "the URL isn't good yet")
    elif now >= begun + signed.expires:
        raise Fault("AccessDenied", "the URL has expired")


def check(request: Request, signed: Signed, key: bytes, now: float) -> None:
    """`Fault` where the signature isn't that of the key, is of another time, or leaves out what it has to sign."""
    if not payload_of(request, signed):
        raise Fault("InvalidRequest", NO_PAYLOAD)
    if not hmac.compare_digest(signature_of(request, signed, key), signed.signature):
        raise Fault("SignatureDoesNotMatch", "the signature isn't that of this request by this access key")
    _look_at_headers(request, signed)
    _look_at_time(signed, now)
