"""The desk's words, and its exit status: 0 done, 1 refused or a fault, 2 the words aren't understood."""

from __future__ import annotations

import argparse
import contextlib
import importlib
import sys
from collections.abc import Sequence
from typing import TYPE_CHECKING

from vaultdesk import __version__
from vaultdesk.commands import FAMILIES, MACHINE
from vaultdesk.errors import DeskError, EngineError, Refused, UsageError
from vaultdesk.output import say, shown
from vaultdesk.spelling import Parser, first_word, parsed

if TYPE_CHECKING:
    from vaultdesk.engine import Engine

SHOWN = 8  # names of buckets in one sentence
ABOUT = """The office's desk: documents, deliveries, locks, rules, evidence, the year's end and the office itself, in
words and without JSON. vaultdesk help COMMAND has the words of each. Status: 0 done; 1 refused or a fault; 2 the
words aren't understood."""


def common_words() -> argparse.ArgumentParser:
    """The options that every subcommand has."""
    it = argparse.ArgumentParser(add_help=False)
    it.add_argument("--vault", metavar="V", help="the vault's file, or its name in the settings (or $VAULT)")
    it.add_argument("--as", dest="caller", metavar="CALLER", help="who asks (or $VAULT_CALLER)")
    it.add_argument("--at", metavar="DATE", help="the moment of the command (default: this machine's clock)")
    door = "where a server takes lines: a socket's path, or a port of 127.0.0.1 (or $VAULT_DOOR; default: found)"
    it.add_argument("--door", metavar="WHERE", help=door)
    it.add_argument("--json", action="store_true", help="print JSON")
    return it


def words(only: str | None = None) -> Parser:
    """All words of the desk; or of one subcommand, beside the names of the others."""
    it = Parser(prog="vaultdesk", description=ABOUT)
    it.add_argument("--version", action="version", version=f"vaultdesk {__version__}")
    commands = it.add_subparsers(dest="command", required=True, metavar="COMMAND")
    plain = argparse.ArgumentParser(add_help=False)
    plain.add_argument("--json", action="store_true", help="print JSON")
    for families, common in ((FAMILIES, common_words()), (MACHINE, plain)):
        for name, about in families.items():
            if only is None or only in about:
                importlib.import_module(f"vaultdesk.{name}").add(commands, common)
                continue
            for command, what in about.items():
                commands.add_parser(command, help=what, add_help=False)
    return it


def buckets_there(engine: Engine, error: Refused) -> str:
    """What is said of the buckets that are there, where one isn't; empty where they can't be read at once."""
    if error.code != "NoSuchBucket" or engine.is_served:
        return ""
    from vaultdesk import reading

    try:
        there = [str(it) for (it,) in reading.rows(engine.tables, "SELECT name FROM buckets ORDER BY name")]
    except DeskError:
        return ""
    more = f" and {len(there) - SHOWN} more" if len(there) > SHOWN else ""
    return f"; there are {', '.join(there[:SHOWN])}{more}" if there else "; there is none yet"


def carried_out(asked: argparse.Namespace) -> int:
    """The status of what the words ask for: `do` needs no engine, `run` does."""
    if "do" in asked:
        return int(asked.do(asked))
    from vaultdesk import moments  # what follows isn't imported for --help
    from vaultdesk.config import desk
    from vaultdesk.engine import Engine

    at = moments.read(asked.at) if asked.at else None
    with Engine(desk(asked.vault, asked.caller, asked.door), at) as engine:
        try:
            asked.run(engine, asked)
        except Refused as error:
            raise DeskError(f"{error}{buckets_there(engine, error)}") from error
        except KeyboardInterrupt as error:
            with contextlib.suppress(EngineError):  # that it can't write an answer which nobody waits for any more
                engine.close()
            raise DeskError(f"interrupted: {engine.changed}") from error
    return 0


def main(given: Sequence[str] | None = None) -> int:
    """Carries out what the words ask for, and returns the exit status."""
    typed = sys.argv[1:] if given is None else given
    asked = parsed(words(only=first_word(typed)), typed)
    try:
        return carried_out(asked)
    except DeskError as error:
        say(f"vaultdesk {asked.command}: {error}")
        return error.status
    except UnicodeEncodeError as error:
        # Words that aren't UTF-8 can be the path of a file, and nothing that a vault has.
        text = shown(error.object[max(0, error.start - 40):error.end])
        say(f"vaultdesk {asked.command}: {text}: that isn't UTF-8, which keys and names are")
        return UsageError.status
    except KeyboardInterrupt:
        say(f"vaultdesk {asked.command}: interrupted: look how far it came before you give it again")
        return DeskError.status
    except BrokenPipeError:
        # Whoever reads the output has enough of it.
        sys.stderr.close()
        return 1
