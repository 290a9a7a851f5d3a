"""The words of `vaultdesk web`, and its server."""

from __future__ import annotations

import argparse
import logging
import resource
import signal
import socket
import sys
from collections.abc import Iterator
from contextlib import ExitStack, contextmanager, suppress
from dataclasses import replace
from pathlib import Path
from types import FrameType
from typing import Any

from vaultdesk import conf, config, door
from vaultdesk.errors import DeskError, UsageError
from vaultdesk.output import print_done, say
from vaultdesk.spelling import whole

ABOUT = """Serves the desk as pages for a browser, until it is stopped by SIGTERM or SIGINT, over a vault whose server
takes lines. It decides nothing: each answer is the desk's, each refusal the engine's. Users log in by name and password
(--users), or a proxy says who it is (--header). It speaks TLS with --tls-cert and --tls-key, and HTTP without: a proxy
in front of it speaks TLS then, without which browsers send no cookie back, but to this machine itself. docs/WEB.md has
the set-up."""
THREADS = 144  # requests at once, of which logins take COMING at most
CONNECTIONS = 1_000
DESCRIPTORS = 4_096  # open files: enough for CONNECTIONS, each of which TLS hands on to another


def _door(desk: config.Desk) -> str:
    """Where the server of the vault takes lines, or will: `DeskError` where nothing says where."""
    there = door.door_of(desk)
    if there is not None:
        return there.where
    name = desk.file.name.removesuffix(".vault")
    if conf.is_configured(name):
        return str(conf.lines_of(name))
    raise DeskError(f"{desk.file}: no server takes lines of it: start it, or say by --door where it does")


def _site(words: argparse.Namespace) -> Any:
    """What the pages have in common. `DeskError` where a library, the users or the catalogues aren't there."""
    from vaultdesk.web.copies import Copies
    from vaultdesk.web.passwords import Users
    from vaultdesk.web.texts import languages
    from vaultdesk.web.visit import Site

    if bool(words.users) == bool(words.header):
        raise UsageError("who may come? give --users FILE, or --header NAME where a proxy knows it")
    desk = config.desk(words.name, None, words.door)
    users = Users(Path(words.users)) if words.users else None
    trusted = frozenset(words.trust or ["127.0.0.1"])
    served = replace(desk, asker=None, door=_door(desk))
    name = desk.file.name.removesuffix(".vault")
    return Site(name, served, Copies(desk.file), languages(), users, words.header or "", trusted)


def _server(words: argparse.Namespace, pages: Any, **more: Any) -> Any:
    """The server, which listens by now. `DeskError` where it can't."""
    from vaultdesk.web.libraries import library
    from vaultdesk.web.visit import MOST

    logging.getLogger("waitress").setLevel(logging.ERROR)  # each request has a line of its own
    how = {"threads": THREADS, "connection_limit": CONNECTIONS, "max_request_body_size": MOST, "ident": None}
    how |= {"clear_untrusted_proxy_headers": False, "channel_timeout": 60, "expose_tracebacks": False}
    # `select`, which it has else, takes no descriptor above 1,023.
    how |= {"asyncore_use_poll": True, "host": words.address, "port": words.port, **more}
    try:
        return library("waitress.server").create_server(pages, **how)
    except OSError as error:
        raise _not_there(words, error) from error


def _not_there(words: argparse.Namespace, error: OSError) -> DeskError:
    """Says that nothing can listen where the words say."""
    return DeskError(f"{words.address}:{words.port}: {error.strerror or error}")


def _front(words: argparse.Namespace) -> Any:
    """What speaks TLS before the pages, and listens by now; nothing without a certificate. `DeskError` where it can't
    listen, or has no certificate and key."""
    if bool(words.tls_cert) != bool(words.tls_key):
        raise UsageError("a certificate has a key: give --tls-cert and --tls-key, or neither")
    if not words.tls_cert:
        return None
    from vaultdesk.web.tls import Front, context_of

    context = context_of(Path(words.tls_cert), Path(words.tls_key))
    now, most = resource.getrlimit(resource.RLIMIT_NOFILE)
    resource.setrlimit(resource.RLIMIT_NOFILE, (max(now, min(DESCRIPTORS, most)), most))
    family = socket.AF_INET6 if ":" in words.address else socket.AF_INET
    try:
        return Front(context, socket.create_server((words.address, words.port), family=family, backlog=CONNECTIONS))
    except OSError as error:
        raise _not_there(words, error) from error


class _Stopped(Exception):
    """A signal ends the server."""


def _stop(number: int, _: FrameType | None) -> None:
    raise _Stopped(signal.Signals(number).name)


@contextmanager
def _serving(words: argparse.Namespace, site: Any) -> Iterator[tuple[str, Any]]:
    """Where the pages are, and their server, which has ended after that."""
    from vaultdesk.web.app import made, prepare

    front, app = _front(words), made(site)
    with ExitStack() as ends:
        ends.callback(site.copies.close)
        ends.callback(site.sessions.end_all)
        prepare(app, site)
        if front is None:
            server = _server(words, app)
            ends.callback(server.close)
            yield f"http://{words.address}:{server.effective_port}", server
            return
        ends.callback(front.close)
        server = _server(words, front.before(app), host="127.0.0.1", port=0, url_scheme="https")
        ends.callback(server.close)
        front.begin(int(server.effective_port))
        yield f"https://{words.address}:{front.listener.getsockname()[1]}", server


def web(words: argparse.Namespace) -> int:
    """Serves the pages."""
    site = _site(words)
    with suppress(_Stopped), _serving(words, site) as (where, server):
        for it in (signal.SIGTERM, signal.SIGINT):
            signal.signal(it, _stop)
        say(f"pages of {site.desk.file} at {where}")
        print_done(words.json, vault=str(site.desk.file), serves=where)
        sys.stdout.flush()
        server.run()
    return 0


def add(commands: argparse._SubParsersAction[argparse.ArgumentParser], common: argparse.ArgumentParser) -> None:
    """Adds the subcommand to the desk's words."""
    example = "Example: vaultdesk web records --port 8090 --users /etc/vaultctl/records.users"
    what = "serve the desk as pages for a browser"
    it = commands.add_parser("web", parents=[common], help=what, description=ABOUT, epilog=example)
    it.add_argument("name", metavar="NAME", help="the vault's name, or its file")
    it.add_argument("--port", type=whole(0, 65_535), required=True, metavar="N", help="the port at which it listens")
    it.add_argument("--address", metavar="A", default="127.0.0.1", help="and the address (127.0.0.1)")
    it.add_argument("--users", metavar="FILE", help="who may log in, as vaultdesk users add --argon2 makes it")
    more = "the header in which a trusted proxy names the user, who doesn't log in here"
    it.add_argument("--header", metavar="NAME", help=more)
    more = "the address of a proxy: what it says of user and client counts (127.0.0.1); may be given again"
    it.add_argument("--trust", metavar="A", action="append", help=more)
    it.add_argument("--tls-cert", metavar="FILE", help="a certificate, in PEM, for TLS without a proxy")
    it.add_argument("--tls-key", metavar="FILE", help="and its key, in PEM and without a password")
    it.add_argument("--door", metavar="WHERE", help="where the vault's server takes lines (default: found)")
    it.set_defaults(do=web)
