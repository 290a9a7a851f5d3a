"""Carries out one request: who asks, what for, and S3's answer."""

from __future__ import annotations

import secrets
import threading
import time
from collections.abc import Callable, Iterator
from contextlib import contextmanager
from dataclasses import replace

from vaultdesk.errors import DeskError
from vaultdesk.output import say, shown
from vaultdesk.s3 import bodies, heads, routes, signature, xml
from vaultdesk.s3.again import Client
from vaultdesk.s3.asked import Asked, Vault
from vaultdesk.s3.faults import Fault
from vaultdesk.s3.framing import Source
from vaultdesk.s3.keys import Key, Keys
from vaultdesk.s3.request import Answer, Request
from vaultdesk.s3.signature import Signed

BODY = 120  # seconds for a body
TURN = 30  # seconds for a large document, as nobody else can send one meanwhile
WAIT = 60  # seconds that one waits for its turn


class Gateway:
    """Translates requests for a vault into lines of the engine, for the callers of a file of keys."""

    def __init__(self, vault: Vault, keys: Keys, clock: Callable[[], float] = time.time) -> None:
        self.vault = vault
        self.keys = keys
        self.clock = clock
        self.large = threading.Lock()

    def _key_of(self, signed: Signed) -> Key:
        try:
            found = self.keys.find(signed.access_key)
        except DeskError as error:
            say(f"vaultdesk s3: {error}")
            raise Fault("InternalError", "the gateway can't read its access keys") from error
        if found is None:
            raise Fault("InvalidAccessKeyId", "there is no such access key")
        return found

    def who(self, request: Request) -> tuple[str, Signed, bytes]:
        """The caller whose access key signs the request, what it says of that, and the key that signs its chunks.

        `Fault` where the signature isn't right."""
        signed = signature.read(request, self.vault.settings.presigned)
        found = self._key_of(signed)
        key = signature.signing_key(found.secret, signed)
        signature.check(request, signed, key, self.clock())
        return found.caller, signed, key

    @contextmanager
    def _turn_of(self, request: Request, call: routes.Call) -> Iterator[tuple[int, float]]:
        """The bytes that a body may have, and the seconds. Large documents are read and carried out one after another:
        together they would take the memory of the machine."""
        if call.most <= bodies.CONTENT:
            yield call.most, BODY
        elif not bodies.may_be_large(request):
            yield bodies.SMALL, BODY
        elif self.large.acquire(timeout=WAIT):
            try:
                yield call.most, TURN
            finally:
                self.large.release()
        else:
            raise Fault("SlowDown", f"other large documents took {WAIT} seconds")

    def carry_out(
        self, request: Request, begin: Callable[[float], Source], client: Client | None = None
    ) -> tuple[str, Answer]:
        """The caller, and the answer. `begin` has the client send its body, within that many seconds. `Fault` where the
        request is refused."""
        caller, signed, key = self.who(request)
        signature = signed.signature if signed.expires is None else None
        try:
            call = routes.call_of(request)
            heads.look_at_names(request, call.look(request, self.vault.settings))
            with self._turn_of(request, call) as (most, seconds):
                body = bodies.read(request, signed, key, most, lambda: begin(seconds))
                return caller, call.do(Asked(request, caller, body, self.vault, signature, client or Client()))
        except Fault as fault:
            fault.caller = caller
            raise


def of_fault(fault: Fault, request: Request | None) -> Answer:
    """S3's answer to a request that is refused."""
    if fault.status == 304:
        return Answer(304, fault.headers)
    identity = secrets.token_hex(8)
    target = shown(request.path) if request else ""
    said: list[xml.Node] = [("Code", fault.code), ("Message", fault.message)]
    nodes = [*said, ("Resource", target), ("RequestId", identity)]
    body = xml.write("Error", nodes).replace(f' xmlns="{xml.NAMESPACE}"'.encode(), b"", 1)
    return Answer(fault.status, {"Content-Type": "application/xml", **fault.headers}, body)


def without_body(answer: Answer) -> Answer:
    """The answer to a HEAD: the headers that a GET would have."""
    return replace(answer, headers={"Content-Length": str(len(answer.body)), **answer.headers}, body=b"")
