"""The end of a server, by its door for lines."""

from __future__ import annotations

import argparse

from vaultdesk.door import LinesDoor
from vaultdesk.engine import Engine
from vaultdesk.errors import DeskError
from vaultdesk.output import print_done
from vaultdesk.refusals import refused

ABOUT = """Ends the server of a vault in good order: what is under way is answered, the log is copied into the file, and
the file is closed. It takes a caller with the right admin. A server that systemd started is started again by it:
systemctl stop ends that one for good, and in the same way. At a port of 127.0.0.1 it isn't waited for the process."""


def end(door: LinesDoor, caller: str) -> None:
    """Has the server end, and waits for that. `Refused` where the caller may not; `EngineError` as of the door's `end`.
    """
    reply = door.end(caller).reply
    if "error" in reply:
        raise refused(reply["error"], {"as": caller, "do": "close"})


def close(engine: Engine, words: argparse.Namespace) -> None:
    """Ends the server of the vault."""
    door = engine.door
    if door is None:
        raise DeskError("no server of the vault takes lines: there is none to be ended so")
    end(door, engine.desk.caller)
    print_done(words.json, door=door.where, done="ended")


def add(commands: argparse._SubParsersAction[argparse.ArgumentParser], common: argparse.ArgumentParser) -> None:
    """Adds the subcommand to the desk's words."""
    example = "Example: vaultdesk close --vault records --as registrar"
    what = "end the server of a vault in good order"
    it = commands.add_parser("close", parents=[common], help=what, description=ABOUT, epilog=example)
    it.set_defaults(run=close)
