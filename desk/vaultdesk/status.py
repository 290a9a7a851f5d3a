"""How a vault that is served is, and its server, by the server's door for lines."""

from __future__ import annotations

import argparse
from collections.abc import Mapping
from pathlib import Path
from typing import Any

from vaultdesk import conf, wiped
from vaultdesk.engine import Engine
from vaultdesk.errors import DeskError, UsageError
from vaultdesk.health import Health, moved
from vaultdesk.output import print_json

ABOUT = """Says how a vault is that a server has: since when it is served and by which version, how many entries were
ever admitted, when the last change was, how often its file failed since then, when the bytes of what was removed were
wiped from it last, and whether its files are where the server opened them. It takes a caller with the right admin.
Where the file failed or isn't there the status is 1, and a line says what to do."""
# What is said of each, in this order.
NAMED = (("since", "served since"), ("version", "version"), ("entries", "entries"), ("last", "last change"),
         ("failures", "failures"), ("wiped", "last wiped"))  # fmt: skip
UNKNOWN = {"since": "unknown, as the clock showed no moment", "wiped": "isn't noted"}


def asked(engine: Engine, do: str, **members: Any) -> Mapping[str, Any]:
    """What the server of the vault answers to a line that isn't a command. `Refused` where it refuses that, `DeskError`
    where no server takes lines, or one of an earlier version does."""
    if engine.at is not None:
        raise UsageError(f"--at {engine.at}: a server says how things are now: leave --at out")
    door = engine.door
    if door is None:
        raise DeskError("no server of the vault takes lines: systemctl start vault-serve@NAME starts one")
    return door.ask(engine.desk.caller, do, **members)


def state(engine: Engine) -> Mapping[str, Any]:
    """What the server of the vault says of itself. The faults are those of `asked`."""
    return asked(engine, "status")


def unit_of(file: Path) -> str:
    """The unit that serves a vault, where it has a configuration; else empty."""
    name = file.name.removesuffix(".vault")
    is_ours = conf.is_configured(name) and file.absolute() == conf.vaults_folder().absolute() / f"{name}.vault"
    return f"vault-serve@{name}.service" if is_ours else ""


def status(engine: Engine, words: argparse.Namespace) -> None:
    """Prints what the server of the vault says of itself. `DeskError` where the vault's file failed, or was moved."""
    found = state(engine)
    assert engine.door
    file = engine.desk.vault
    away = moved(file, engine.door.process()) if file else ()
    found = {**found, "wiped": (wiped.of(file).last if file else "") or None}
    if words.json:
        print_json({**found, "moved": [str(it) for it in away]})
    else:
        for name, label in NAMED:
            value = UNKNOWN.get(name, "unknown") if found[name] is None else found[name]
            print(f"{label:12}  {value}")
    fault = Health(away, found["failures"]).fault(unit_of(file) if file else "")
    if fault:
        raise DeskError(fault)


def add(commands: argparse._SubParsersAction[argparse.ArgumentParser], common: argparse.ArgumentParser) -> None:
    """Adds the subcommand to the desk's words."""
    example = "Example: vaultdesk status --vault records --as registrar"
    what = "say how a vault that is served is, and its server"
    it = commands.add_parser("status", parents=[common], help=what, description=ABOUT, epilog=example)
    it.set_defaults(run=status)
