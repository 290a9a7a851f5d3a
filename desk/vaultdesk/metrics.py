"""Numbers of a vault for programs that watch machines, in the text form of Prometheus: metrics."""

from __future__ import annotations

import argparse
import time
from collections.abc import Iterator
from pathlib import Path
from typing import NamedTuple

from vaultdesk import conf, config, copies, last_done, moments, reading, server, snapshot
from vaultdesk.errors import DeskError
from vaultdesk.office import BUCKETS
from vaultdesk.output import print_json, say
from vaultdesk.units import Served

ABOUT = """Prints numbers of vaults in the text form that Prometheus reads, as from a file of its node exporter
(textfile collector): what departments hold, what buckets hold, legal holds that are on, removals by cause, the moments
of the last change and of the newest copy, and the files' bytes. Of a vault with units also whether it serves, as check
says it, how often its file failed, and the moments of the last night, audit of the whole vault, copy and seal: how long
ago each was is the time less the moment. The first come from the tables, and while a server has the vault, from a copy
for the moment: so each call takes as long as copying it. Where they can't be read, the status is 1, and the others are
printed all the same."""
CAUSES = ("request", "bypass", "rule")
HOLDS = """
SELECT count(*) FROM entries AS e JOIN settings AS s ON s.id = e.id
WHERE e.removed IS NULL AND s.hold AND s.n = (SELECT max(n) FROM settings AS a WHERE a.id = e.id)
"""


class Number(NamedTuple):
    """A number, with its name, what it says, and its labels."""

    name: str
    about: str
    labels: dict[str, str]
    value: int

    def text(self) -> str:
        """As Prometheus reads it."""
        labels = ",".join(f'{name}="{_escaped(value)}"' for name, value in self.labels.items())
        return f"{self.name}{{{labels}}} {self.value}"


def _escaped(text: str) -> str:
    return text.replace("\\", "\\\\").replace('"', '\\"').replace("\n", "\\n")


def _of_tables(file: Path, vault: str) -> Iterator[Number]:
    """What the tables of a vault say, or while a program has it, those of a copy."""
    with snapshot.readable(file) as tables:
        yield from _of_readable(tables, vault)


def _of_readable(tables: Path, vault: str) -> Iterator[Number]:
    own = {"vault": vault}
    [(last,)] = reading.rows(tables, "SELECT last FROM meta")
    yield Number("vault_last_change_seconds", "moment of the last change, since 1970", own, last)
    statement = "SELECT name, admitted, held, removed FROM departments ORDER BY name"
    for name, *sums in reading.rows(tables, statement):
        for what, value in zip(("admitted", "held", "removed"), sums, strict=True):
            yield Number(f"vault_{what}_bytes", f"bytes {what} by department", {**own, "department": name}, value)
    for name, department, documents, *_ in reading.rows(tables, BUCKETS):
        labels = {**own, "department": department, "bucket": name}
        yield Number("vault_documents", "versions held, without delete markers", labels, documents)
    [(holds,)] = reading.rows(tables, HOLDS)
    yield Number("vault_legal_holds", "held versions whose legal hold is on", own, holds)
    statement = "SELECT cause, count(*) FROM entries WHERE removed IS NOT NULL AND NOT marker GROUP BY cause"
    removed = {int(cause): int(count) for cause, count in reading.rows(tables, statement)}
    for number, cause in enumerate(CAUSES):
        labels = {**own, "cause": cause}
        yield Number("vault_removed_total", "versions removed for good, by cause", labels, removed.get(number, 0))


def _of_files(file: Path, vault: str) -> Iterator[Number]:
    for kind, path in (("file", file), ("log", snapshot.log_of(file))):
        size = path.stat().st_size if path.exists() else 0
        yield Number(f"vault_{kind}_bytes", f"bytes of the vault's {kind}", {"vault": vault}, size)


def _of_units(name: str) -> Iterator[Number]:
    """Of a vault with a configuration: whether it serves, what its night did when, and its copies."""
    served, own = Served(name), {"vault": name}
    found = server.seen(served)
    yield Number("vault_serves", "1 where the server answers, and its file is in order", own, int(not found.fault))
    if found.health.failures is not None:
        about = "how often the vault's file failed since the server was started"
        yield Number("vault_failures", about, own, found.health.failures)
    away = len(found.health.moved)
    yield Number("vault_moved_files", "files that aren't where the server opened them", own, away)
    for part, moment in last_done.read(served.file).items():
        yield Number(f"vault_last_{part}_seconds", last_done.PARTS[part], own, moment)
    folder = served.conf.backup()
    there = [it for it in copies.found_in(folder, name) if it.suffix == ".vault"] if folder.exists() else []
    yield Number("vault_copies", "copies that are sound by their names", own, len(there))
    if there:
        made = moments.seconds_of(copies.made_at(there[0]))
        yield Number("vault_newest_copy_seconds", "moment of the newest copy, since 1970", own, made)


def numbers_of(vault: str, faults: list[str]) -> list[Number]:
    """The numbers of a vault, by its name or its file; why some can't be had is put to the faults."""
    file = config.settings().file_of(vault)
    name = file.name.removesuffix(".vault")
    found = [Number("vault_looked_at_seconds", "moment of these numbers", {"vault": name}, int(time.time()))]
    parts = [_of_tables(file, name), _of_files(file, name)]
    parts += [_of_units(vault)] if conf.is_configured(vault) else []
    for part in parts:
        try:
            found += part
        except DeskError as error:
            faults.append(str(error))
    return found


def metrics(words: argparse.Namespace) -> int:
    """Prints the numbers of vaults."""
    vaults = words.vaults or conf.names()
    if not vaults:
        raise DeskError(f"no vault is named, and none has a configuration in {conf.folder()}")
    faults: list[str] = []
    found = [it for vault in vaults for it in numbers_of(vault, faults)]
    if words.json:
        print_json([{"name": it.name, **it.labels, "value": it.value} for it in found])
    else:
        _print(found)
    for it in faults:
        say(f"vaultdesk metrics: {it}")
    return 1 if faults else 0


def _print(found: list[Number]) -> None:
    """As Prometheus reads them: those of one name stand together."""
    for name in dict.fromkeys(it.name for it in found):
        those = [it for it in found if it.name == name]
        kind = "counter" if name.endswith("_total") else "gauge"
        print(f"# HELP {name} {those[0].about}", f"# TYPE {name} {kind}", *(it.text() for it in those), sep="\n")


def add(commands: argparse._SubParsersAction[argparse.ArgumentParser], common: argparse.ArgumentParser) -> None:
    """Adds the subcommand to the desk's words."""
    example = "Example: vaultdesk metrics records > /var/lib/prometheus/node-exporter/vaults.prom"
    what = "numbers of vaults for programs that watch machines"
    it = commands.add_parser("metrics", parents=[common], help=what, description=ABOUT, epilog=example)
    text = "a vault's file, or its name (default: all vaults that have a configuration)"
    it.add_argument("vaults", nargs="*", metavar="VAULT", help=text)
    it.set_defaults(do=metrics)
