"""The words of `vaultdesk s3`: serving, and the access keys."""

from __future__ import annotations

import argparse
import ctypes
import signal
import sys
import threading
from collections.abc import Sequence
from contextlib import suppress
from pathlib import Path

from vaultdesk import config, reading
from vaultdesk.asking import add_yes, confirm
from vaultdesk.engine import Engine
from vaultdesk.errors import DeskError, EngineError, UsageError
from vaultdesk.output import print_done, print_json, print_table, say
from vaultdesk.s3 import keys, settings
from vaultdesk.s3.again import Unanswered
from vaultdesk.s3.asked import Vault
from vaultdesk.s3.door import OwnEngine
from vaultdesk.s3.etags import Etags
from vaultdesk.s3.faults import Fault
from vaultdesk.s3.gateway import Gateway
from vaultdesk.s3.keys import Keys
from vaultdesk.s3.server import Server
from vaultdesk.s3.settings import Settings
from vaultdesk.s3.unguarded import Unguarded

LARGE_PIECES, PIECE = -3, 131_072  # glibc's M_MMAP_THRESHOLD, and the bytes from which on a piece is a large one
LAST_ANSWERS = 10  # seconds for requests that are under way as it ends
ABOUT = """A gateway for clients of Amazon S3: boto3, aws, s3cmd, rclone and others as they come. It translates their
requests for one vault and decides nothing: each refusal is the engine's. It is tried and not proved."""
SERVE = """Serves a vault to clients of S3, until it is stopped by SIGTERM or SIGINT. Where a server takes lines for the
vault, it asks that one. Where none does, it has the vault to itself meanwhile: no server and no other command runs on
it. docs/S3.md says what each setting means, what works and what is refused."""
KEY = """Lists the access keys, adds one, or removes one. A client signs with an access key and its secret, and asks as
the caller whose key it is. The secret is printed as the key is added, and never again. A gateway that runs takes the
change over with the next request."""


def _unlocked(engine: Engine) -> list[str]:
    """The buckets without a default retention; none where a server has the vault and its file can't be read here.

    `EngineError` where the file can't be read, and no server has the vault."""
    try:
        rows = reading.rows(engine.tables, "SELECT name FROM buckets WHERE mode = 0 ORDER BY name")
    except EngineError as error:
        if not engine.is_served:
            raise
        say(f"vaultdesk s3: it isn't known which buckets have no default retention: {error}")
        return []
    return [str(name) for (name,) in rows]


def _say_unlocked(buckets: Sequence[str]) -> None:
    """Says which buckets take in what nothing guards."""
    for bucket in buckets:
        why = "what a client puts there without lock headers, as rclone, s3cmd and aws s3 do, isn't locked"
        say(f"vaultdesk s3: bucket {bucket} has no default retention: {why}")


def _give_back() -> None:
    """Has each large piece of memory go back to the machine as it is free. Otherwise every thread keeps what the
    largest of its bodies took."""
    with suppress(OSError, AttributeError, MemoryError):  # another C library has its own way
        ctypes.CDLL(None).mallopt(LARGE_PIECES, PIECE)


def serve(words: argparse.Namespace) -> int:
    """Serves a vault to clients of S3."""
    _give_back()
    given = settings.read(Path(words.settings))
    there = Keys(given.keys)
    desk = config.Desk(config.program(), config.settings().file_of(given.vault), None, given.door)
    engine = Engine(desk)
    unlocked = _unlocked(engine)
    door = OwnEngine(engine, given.admin)
    etags = Etags(given.etags)
    if not engine.is_served:  # which has the file from now on
        _shorten(etags, door)
    buckets = door.open()
    vault = Vault(door, etags, given, Unanswered(given.unanswered), Unguarded(unlocked))
    with _listening(given, Gateway(vault, there), words.quiet) as server:
        _stop_at_signals(server)  # before it is said that it serves
        if engine.is_served:
            threading.Thread(target=_shorten, args=(etags, door), daemon=True).start()
        _say_unlocked(unlocked)
        scheme = "https" if given.certificate else "http"
        where = f"{scheme}://{given.address}:{server.server_address[1]}"
        say(f"serving {desk.file} to clients of S3 at {where}")
        print_done(words.json, vault=str(desk.file), serves=where, buckets=buckets)
        sys.stdout.flush()
        server.serve_forever()
        server.wait_idle(LAST_ANSWERS)
    door.close()
    etags.close()
    return 0


def _shorten(etags: Etags, door: OwnEngine) -> None:
    """Drops what is noted of versions that are held no more."""
    try:
        etags.drop(list(door.removed()))
    except (Fault, EngineError) as error:
        say(f"vaultdesk s3: the file of ETags isn't shortened: {error}")


def _listening(given: Settings, gateway: Gateway, is_quiet: bool) -> Server:
    try:
        return Server(given, gateway, is_quiet)
    except OSError as error:
        raise DeskError(f"{given.address}:{given.port}: {error.strerror or error}") from error


def _stop_at_signals(server: Server) -> None:
    """Has a signal end what the server serves, also one that comes before it has begun."""

    def stop(*_: object) -> None:
        threading.Thread(target=server.shutdown).start()

    for it in (signal.SIGTERM, signal.SIGINT):
        signal.signal(it, stop)


# ---- access keys


def _add(words: argparse.Namespace, path: Path, there: dict[str, keys.Key]) -> None:
    """Adds a key of the caller that is named, and prints its secret."""
    if not words.name:
        raise UsageError("whose key? vaultdesk s3 key add CALLER")
    name, made = keys.new(words.name)
    keys.write(path, {**there, name: made})
    if words.json:
        print_json({"caller": made.caller, "access_key": name, "secret": made.secret})
    else:
        print(f"access key  {name}\nsecret      {made.secret}")
        say(f"The secret of {made.caller} is shown this once: give it to the client, and keep it nowhere else.")


def _remove(words: argparse.Namespace, path: Path, there: dict[str, keys.Key]) -> None:
    """Removes a key: who signs with it is let in no more."""
    found = there.pop(words.name, None)
    if found is None:
        raise DeskError(f"{words.name or 'no key'} isn't in {path}: vaultdesk s3 key list has the keys")
    named = {"caller": found.caller, "access_key": words.name}
    if words.dry_run:
        if not words.json:
            print(f"the key {words.name} of {found.caller} would be removed")
        print_done(words.json, **named, done="would be removed")
        return
    confirm(words, f"the key {words.name} of {found.caller} is good no more")
    keys.write(path, there)
    print_done(words.json, **named, done="removed")


def key(words: argparse.Namespace) -> int:
    """Lists, adds or removes access keys."""
    path = settings.read(Path(words.settings)).keys
    there = keys.read(path) if path.exists() else {}
    if words.action == "list":
        rows = [{"access key": name, "caller": it.caller} for name, it in sorted(there.items())]
        print_table(rows, ("access key", "caller"), words.json)
    elif words.action == "add":
        _add(words, path, there)
    else:
        _remove(words, path, there)
    return 0


def add(commands: argparse._SubParsersAction[argparse.ArgumentParser], common: argparse.ArgumentParser) -> None:
    """Adds the subcommands to the desk's words."""
    made = commands.add_parser("s3", help="a gateway for clients of Amazon S3: serve, key", description=ABOUT)
    kinds = made.add_subparsers(dest="kind", required=True, metavar="KIND")
    text = f"the gateway's settings (TOML); left out: {settings.PLACE}"

    example = "Example: vaultdesk s3 serve --settings /etc/vaultctl/s3.toml"
    what = "serve a vault to clients of S3"
    it = kinds.add_parser("serve", parents=[common], help=what, description=SERVE, epilog=example)
    it.add_argument("--settings", metavar="FILE", default=settings.PLACE, help=text)
    it.add_argument("--quiet", action="store_true", help="write no line for each request to standard error")
    it.set_defaults(do=serve)

    example = "Examples: vaultdesk s3 key add ann; vaultdesk s3 key list"
    what = "list, add or remove access keys"
    it = kinds.add_parser("key", parents=[common], help=what, description=KEY, epilog=example)
    it.add_argument("action", metavar="ACTION", choices=("list", "add", "remove"), help="what is done")
    it.add_argument("name", metavar="NAME", nargs="?", help="the caller whose key is added, or the key that is removed")
    it.add_argument("--settings", metavar="FILE", default=settings.PLACE, help=text)
    add_yes(it)
    it.set_defaults(do=key)
