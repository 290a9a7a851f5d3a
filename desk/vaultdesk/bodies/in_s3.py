"""A store of bodies in a bucket of an S3 store, by boto3: a body's key is its digest. Where the bucket is locked, each
body gets COMPLIANCE until its document's end, so not even who has the vault's machine can take it away before.

A later object or a delete marker of the same key can hide a body there, and takes nothing away: it is reported as
altered or missing, and the bucket's versions have it still.
"""

from __future__ import annotations

import base64
import contextlib
import datetime as dt
import importlib
import os
from collections.abc import Iterator, Mapping, Sequence
from dataclasses import dataclass
from functools import partial
from pathlib import Path
from typing import Any, TypeGuard

from vaultdesk.bodies import files, store
from vaultdesk.bodies.body import DIGEST, Altered, Body, Found, Missing
from vaultdesk.bodies.reader import Reader
from vaultdesk.bodies.store import ASIDE, INCOMING, Added, Bodies, Received
from vaultdesk.errors import DeskError

ABSENT = ("404", "NoSuchKey", "NotFound")
NO_LOCK = ("NoSuchObjectLockConfiguration", "ObjectLockConfigurationNotFoundError", "InvalidRequest")
GUARDED = ("AccessDenied", "ObjectLocked")


def library(name: str) -> Any:
    """A module of boto3 or botocore; to the type checker any value. `DeskError` where it isn't installed."""
    try:
        return importlib.import_module(name)
    except ImportError as error:
        raise DeskError("python3-boto3 isn't installed: bodies in S3 need apt install python3-boto3") from error


@dataclass(frozen=True)
class Bucket:
    """A bucket, and the client of boto3 that asks for it. `lock` has each body locked until its document's end."""

    client: Any
    name: str
    lock: bool = False


def client_of(endpoint: str | None, region: str | None) -> Any:
    """A client of boto3 for an S3 store, with the keys of its own environment and files. `DeskError` where boto3 isn't
    installed, or the endpoint is no address."""
    style = library("botocore.config").Config(s3={"addressing_style": "path"}) if endpoint else None
    try:
        return library("boto3").client("s3", endpoint_url=endpoint, region_name=region, config=style)
    except (ValueError, library("botocore.exceptions").BotoCoreError) as error:
        raise DeskError(f"S3: {error}") from error


class Refused(DeskError):
    """The S3 store refused a call, with that code."""

    def __init__(self, code: str, text: str) -> None:
        super().__init__(text)
        self.code = code


class S3Bodies(Bodies):
    """A store in a bucket. What comes in is in a folder of this machine until it is there."""

    def __init__(self, folder: Path, erased: Path, bucket: Bucket) -> None:
        super().__init__(folder, erased)
        self.bucket = bucket
        self._errors = library("botocore.exceptions")

    @classmethod
    def make(cls, folder: Path, erased: Path, bucket: Bucket) -> S3Bodies:
        """A new store in a bucket that is there. `DeskError` where something is in the folder's place."""
        store.make_folder(folder)
        return cls(folder, erased, bucket)

    # ---- the five calls

    def has(self, body: Body) -> bool:
        """Whether the body is there, by its key, its size and the SHA-256 that the store has of it, if it has one.
        `Altered` where something else is in its place."""
        try:
            found = self._ask("head_object", Key=body.digest, ChecksumMode="ENABLED")
        except Refused as refused:
            if refused.code in ABSENT:
                return False
            raise
        if found["ContentLength"] != body.size:
            raise Altered(f"body {body.digest}: its object has {found['ContentLength']:,} bytes")
        if found.get("ChecksumSHA256", _checksum(body)) != _checksum(body):
            raise Altered(f"body {body.digest}: its object has another SHA-256")
        return True

    def open(self, body: Body) -> Reader:
        """A reader of the body. `Missing` where it isn't there, `Altered` where something else is in its place."""
        try:
            found = self._ask("get_object", Key=body.digest)
        except Refused as refused:
            if refused.code in ABSENT:
                raise Missing(f"body {body.digest}: it isn't in the bucket {self.bucket.name}") from refused
            raise
        if found["ContentLength"] != body.size:
            found["Body"].close()
            raise Altered(f"body {body.digest}: its object has {found['ContentLength']:,} bytes")
        return Reader(body, partial(self._read, body, found["Body"]), found["Body"].close)

    def walk(self) -> Iterator[Found]:
        """All that is in the store, in no order; not what is coming in, nor what is being erased."""
        for it in self._pages("list_objects_v2", "Contents"):
            yield Found(it["Key"], it["Key"] if DIGEST.fullmatch(it["Key"]) else None, it["Size"])

    # ---- into its place

    def settle(self, received: Sequence[Received]) -> list[Added]:
        """Has all that was received in the bucket; who settles shares the lock until the bodies are named.

        `RuntimeError` where this thread doesn't; `DeskError` where it fails: then some may be there."""
        self._must_share()
        return [self._settle(it) for it in received]

    def _settle(self, received: Received) -> Added:
        body = received.body
        try:
            was = "there" if self.has(body) else "new"
        except Altered:
            was = "altered"
        if was == "there":
            self.keep(body, received.until)
        else:
            with self._failing(self.folder / INCOMING), self._inside(INCOMING) as incoming:
                with open(os.open(received.name, files.READ, dir_fd=incoming), "rb") as file:
                    self._ask("put_object", Key=body.digest, Body=file, ChecksumSHA256=_checksum(body),
                              **self._lock_of(received.until))  # fmt: skip
        self.drop(received)
        return Added(body, was)

    def _is_locked(self, until: str | None) -> TypeGuard[str]:
        """Whether a body is locked until then; an end that is over guards nothing, and S3 refuses it."""
        return self.bucket.lock and until is not None and _moment(until) > dt.datetime.now(dt.timezone.utc)

    def _lock_of(self, until: str | None) -> dict[str, Any]:
        if not self._is_locked(until):
            return {}
        return {"ObjectLockMode": "COMPLIANCE", "ObjectLockRetainUntilDate": _moment(until)}

    def keep(self, body: Body, until: str | None) -> None:
        """Has a locked bucket guard a body until a moment: never for less time than before. `DeskError` where it
        can't."""
        if not self._is_locked(until):
            return
        wanted, there = _moment(until), self._retention(body)
        end = max(wanted, there.get("RetainUntilDate", wanted))
        if there.get("Mode") != "COMPLIANCE" or end != there["RetainUntilDate"]:
            retention = {"Mode": "COMPLIANCE", "RetainUntilDate": end}
            bypass = {"BypassGovernanceRetention": True} if there.get("Mode") == "GOVERNANCE" else {}
            self._ask("put_object_retention", Key=body.digest, Retention=retention, **bypass)

    def _retention(self, body: Body) -> Mapping[str, Any]:
        """The lock of a body; empty where it has none."""
        try:
            found: Mapping[str, Any] = self._ask("get_object_retention", Key=body.digest)["Retention"]
        except Refused as refused:
            if refused.code in NO_LOCK:
                return {}
            raise
        return found

    # ---- out of its place

    def _set_aside(self, doomed: Sequence[Body]) -> list[Body]:
        """An empty file in `aside` says of each that its record is due, also after a stop."""
        locked = []
        with self._failing(self.folder / ASIDE), self._inside(ASIDE) as aside:
            self._look_at_left(aside)
            names = {it: store.aside_name(it) for it in doomed}
            for name in names.values():
                with files.opened(name, files.NEW, aside):
                    pass
            os.fsync(aside)
            for body, name in names.items():
                if not self._delete(body):
                    locked.append(body)
                    os.unlink(name, dir_fd=aside)
        return locked

    def _look_at_left(self, aside: int) -> None:
        """Of what a stop left, only bodies that went away have a record due."""
        for name in os.listdir(aside):
            body = store.aside_body(name)
            with contextlib.suppress(Altered):
                if body and self.has(body):
                    os.unlink(name, dir_fd=aside)

    def _delete(self, body: Body) -> bool:
        """Deletes all versions of a body; false where the store guards one of them."""
        all_of_them = [
            it for kind in ("Versions", "DeleteMarkers")
            for it in self._pages("list_object_versions", kind, Prefix=body.digest) if it["Key"] == body.digest
        ]  # fmt: skip
        try:
            for it in all_of_them:
                self._ask("delete_object", Key=body.digest, VersionId=it["VersionId"])
        except Refused as refused:
            if refused.code in GUARDED:
                return False
            raise
        return True

    # ---- the client

    def _ask(self, call: str, **given: Any) -> Any:
        """What a call of the client answers. `Refused` with its code, `DeskError` where there is no answer."""
        try:
            return getattr(self.bucket.client, call)(Bucket=self.bucket.name, **given)
        except self._errors.ClientError as error:
            raise Refused(error.response["Error"]["Code"], f"S3: {error}") from error
        except self._errors.BotoCoreError as error:
            raise DeskError(f"S3: {error}") from error

    def _pages(self, call: str, kind: str, **given: Any) -> Iterator[Any]:
        """The rows of that kind on all pages of a list."""
        try:
            for page in self.bucket.client.get_paginator(call).paginate(Bucket=self.bucket.name, **given):
                yield from page.get(kind, [])
        except self._errors.ClientError as error:
            raise Refused(error.response["Error"]["Code"], f"S3: {error}") from error
        except self._errors.BotoCoreError as error:
            raise DeskError(f"S3: {error}") from error

    def _read(self, body: Body, stream: Any, most: int) -> bytes:
        """The next bytes of an object. `Altered` where the store's own checksum isn't theirs."""
        try:
            return bytes(stream.read(most))
        except self._errors.FlexibleChecksumError as error:
            raise Altered(f"body {body.digest}: {error}") from error
        except (self._errors.BotoCoreError, library("urllib3.exceptions").HTTPError) as error:
            raise DeskError(f"S3: {error}") from error


def _checksum(body: Body) -> str:
    """A body's digest as S3 has it."""
    return base64.b64encode(bytes.fromhex(body.digest)).decode()


def _moment(until: str) -> dt.datetime:
    return dt.datetime.fromisoformat(until.replace("Z", "+00:00"))
