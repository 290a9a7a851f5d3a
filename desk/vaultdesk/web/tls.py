"""TLS before the pages, whose server speaks HTTP alone: a thread takes the connections, and hands on what they send to
that server's port, which is one of this machine. Its limits on bodies, silence and threads stay as they are."""

from __future__ import annotations

import asyncio
import contextlib
import socket
import ssl
import threading
from collections.abc import Callable, Iterable
from pathlib import Path
from typing import Any

from vaultdesk.errors import DeskError, of_file

HANDSHAKE = 10.0  # seconds in which a client agrees on TLS
PATIENCE = 60.0  # and in which one takes some of what is sent to it
PIECE = 65_536
MOST = 1_000  # connections at once: each takes three descriptors

Application = Callable[[dict[str, Any], Any], Iterable[bytes]]


def context_of(certificate: Path, key: Path) -> ssl.SSLContext:
    """What is agreed on with clients: TLS 1.2 or later. `DeskError`, which names the file, where one of them can't be
    read or is something else."""
    for it in (certificate, key):
        try:
            it.read_bytes()
        except OSError as error:
            raise of_file(it, error) from error
    try:
        ssl.SSLContext(ssl.PROTOCOL_TLS_CLIENT).load_verify_locations(certificate)
    except ssl.SSLError as error:
        raise DeskError(f"{certificate} has no certificate in PEM: give the one that nginx would have") from error
    context = ssl.SSLContext(ssl.PROTOCOL_TLS_SERVER)
    context.minimum_version = ssl.TLSVersion.TLSv1_2
    try:
        context.load_cert_chain(certificate, key, lambda: "")  # nobody is asked for a password
    except ssl.SSLError as error:
        if error.reason == "KEY_VALUES_MISMATCH":
            raise DeskError(f"{key} isn't the key of {certificate}: give both of one request") from error
        raise DeskError(f"{key} has no private key in PEM that can be read without a password") from error
    return context


class Front:
    """Takes connections at a listening socket by TLS. `peers` has the address of each that is there, by the port from
    which what it sends is handed on."""

    def __init__(self, context: ssl.SSLContext, listener: socket.socket) -> None:
        self.context = context
        self.listener = listener
        self.peers: dict[str, str] = {}
        self._to = 0
        self._loop = asyncio.new_event_loop()
        self._thread = threading.Thread(target=self._run, name="tls", daemon=True)

    def begin(self, port: int) -> None:
        """Hands on what comes, from now on, to that port of this machine."""
        self._to = port
        self._thread.start()

    def close(self) -> None:
        """Takes no connection any more, and ends those that there are."""
        if self._thread.is_alive():
            self._loop.call_soon_threadsafe(self._loop.stop)
            self._thread.join()
        self._loop.close()
        self.listener.close()

    def before(self, pages: Application) -> Application:
        """The pages, which see the address of the client itself. Nobody comes to them but by TLS."""

        def asked(environ: dict[str, Any], start: Any) -> Iterable[bytes]:
            host = self.peers.get(str(environ.get("REMOTE_PORT")))
            if host is None:
                start("403 Forbidden", [("Content-Type", "text/plain; charset=utf-8")])
                return [b"These pages are served by TLS alone.\n"]
            return pages(environ | {"REMOTE_ADDR": host, "REMOTE_HOST": host}, start)

        return asked

    def _run(self) -> None:
        asyncio.set_event_loop(self._loop)
        serving = self._loop.create_task(self._serve())
        self._loop.run_forever()
        left = asyncio.all_tasks(self._loop) - {serving}
        for it in (serving, *left):
            it.cancel()
        self._loop.run_until_complete(asyncio.gather(serving, *left, return_exceptions=True))

    async def _serve(self) -> None:
        server = await asyncio.start_server(
            self._take, sock=self.listener, ssl=self.context, ssl_handshake_timeout=HANDSHAKE, backlog=MOST
        )
        async with server:
            await server.serve_forever()

    async def _take(self, reader: asyncio.StreamReader, writer: asyncio.StreamWriter) -> None:
        """One connection, from the agreement on TLS to its end."""
        with contextlib.suppress(OSError, TimeoutError):
            if len(self.peers) < MOST:
                await self._joined(reader, writer)
            writer.close()
            async with asyncio.timeout(PATIENCE):
                await writer.wait_closed()
        writer.transport.abort()

    async def _joined(self, reader: asyncio.StreamReader, writer: asyncio.StreamWriter) -> None:
        """Hands on what comes at either end, until one of them ends."""
        inner, to_inner = await asyncio.open_connection("127.0.0.1", self._to)
        port = str(to_inner.get_extra_info("sockname")[1])
        self.peers[port] = writer.get_extra_info("peername")[0]
        both = [asyncio.ensure_future(_hand_on(*it)) for it in ((reader, to_inner), (inner, writer))]
        try:
            await asyncio.wait(both, return_when=asyncio.FIRST_COMPLETED)
        finally:
            for it in both:
                it.cancel()
            await asyncio.gather(*both, return_exceptions=True)
            to_inner.close()
            del self.peers[port]


async def _hand_on(source: asyncio.StreamReader, target: asyncio.StreamWriter) -> None:
    """Hands on what comes in one direction. `TimeoutError` where it isn't taken."""
    while piece := await source.read(PIECE):
        target.write(piece)
        async with asyncio.timeout(PATIENCE):
            await target.drain()
