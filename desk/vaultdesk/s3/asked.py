"""A request whose signature is right: who asks, of which vault, and the content that came with it."""

from __future__ import annotations

from dataclasses import dataclass, field
from typing import Any

from vaultdesk.s3 import xml
from vaultdesk.s3.again import Client, Unanswered
from vaultdesk.s3.bodies import Body
from vaultdesk.s3.door import Door
from vaultdesk.s3.etags import Etags
from vaultdesk.s3.request import Answer, Request
from vaultdesk.s3.settings import Settings
from vaultdesk.s3.unguarded import Unguarded


@dataclass(frozen=True)
class Vault:
    """What the gateway stands before: the way to the engine, noted ETags, settings, puts without an answer, and buckets
    in which nothing guards what comes in."""

    door: Door
    etags: Etags
    settings: Settings
    unanswered: Unanswered
    unguarded: Unguarded = field(default_factory=Unguarded)


@dataclass(frozen=True)
class Asked:
    """A request of a caller, who waits for its answer. `signature` is None where that is a presigned URL's, with which
    many requests may come."""

    request: Request
    caller: str
    body: Body
    vault: Vault
    signature: str | None
    client: Client

    @property
    def place(self) -> dict[str, str]:
        """The members of a line that say which key is meant."""
        return {"bucket": self.request.bucket, "key": self.request.key}

    @property
    def invocation(self) -> str | None:
        """The id that AWS's SDKs give to a call, and have in each request that they send for it."""
        return self.request.headers.get("amz-sdk-invocation-id") or None

    def ask(self, do: str, **members: Any) -> dict[str, Any]:
        """What the engine answers to a line of the caller. `Fault` where it refuses."""
        return self.vault.door.ask(self.caller, do, **members).value

    def document(self, name: str, most: int = xml.MOST) -> xml.Element:
        """The body as XML. `Fault` where it isn't a document of that name, or has more than `most` elements."""
        return xml.read(self.body.content, name, most)


def xml_answer(name: str, content: xml.Content) -> Answer:
    """An answer whose body is a document of that name."""
    return Answer(200, {"Content-Type": "application/xml"}, xml.write(name, content))
