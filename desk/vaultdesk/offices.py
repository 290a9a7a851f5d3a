"""Several vaults: one port of nginx for all of them, and their registers, reports and copies brought together."""

from __future__ import annotations

import argparse
import csv
import io
import subprocess
import sys
from collections import Counter
from collections.abc import Sequence
from pathlib import Path
from typing import Any

from vaultdesk import backup, conf, config, moments, reading, snapshot
from vaultdesk.config import Desk
from vaultdesk.engine import Engine
from vaultdesk.errors import DeskError, EngineError
from vaultdesk.output import print_json, print_table, say
from vaultdesk.spelling import whole
from vaultdesk.units import Served

Row = dict[str, Any]
ABOUT = """Several vaults on one machine: nginx gives each request at one port to the vault that has its bucket, and
what each has is brought together, also while a server has a vault."""
SUMS = ("admitted", "received", "held", "removed", "handed", "byte_days")
LISTED = ("vault", "port", "state", "file", "copy")
MAP = """\
# Several vaults behind one port, made by `vaultdesk offices map`. A vault's port follows the name of its unit,
# vault-serve@NAME. Put this and the server of nginx-vaults.conf into /etc/nginx/conf.d.

{upstreams}

# Buckets that no vault has: nginx answers for them, once it knows who asks.
upstream nowhere {{ server 127.0.0.1:{nowhere}; }}
server {{
    listen 127.0.0.1:{nowhere};
    default_type application/json;
    return 404 '{{"code":"NoSuchBucket","n":4}}';
}}

# Which vault has which bucket. What a client sent is matched as it came: the vault itself decodes it, and takes what is
# before the second slash for the bucket.
map $request_uri $vault {{
    default nowhere;
{lines}
}}
"""


def name_of(file: Path) -> str:
    """A vault's name: that of its file without `.vault`."""
    return file.name.removesuffix(".vault")


def register_of(file: Path) -> list[Row]:
    """The rows of a vault's register, each with the vault's name in front."""
    with snapshot.readable(file) as tables:
        done = subprocess.run([config.program(), "register", tables], capture_output=True, check=False)
    if done.returncode != 0:
        raise EngineError(f"{file}: no register: {done.stderr.decode('utf-8', 'replace').strip()}")
    rows = csv.DictReader(io.StringIO(done.stdout.decode("utf-8"), newline=""))
    return [{"vault": name_of(file), **row} for row in rows]


def reports_of(file: Path, caller: str, at: str) -> list[Row]:
    """The reports of all departments of a vault."""
    with Engine(Desk(config.program(), file, caller), at) as engine:
        found = reading.rows(engine.tables, "SELECT name FROM departments ORDER BY name")
        names = [str(it) for (it,) in found]
        reports = [engine.ask("report", dept=it) for it in names]
    return [
        {"vault": name_of(file), "department": it["dept"], "at": it["at"], **{sum_: it[sum_] for sum_ in SUMS}}
        for it in reports
    ]


def _files(words: argparse.Namespace) -> list[Path]:
    given = config.settings()
    return [given.file_of(it) for it in words.files]


def _print_csv(rows: Sequence[Row], columns: Sequence[str], as_json: bool) -> None:
    if as_json:
        print_json(list(rows))
        return
    writer = csv.DictWriter(sys.stdout, columns, lineterminator="\n")
    writer.writeheader()
    writer.writerows(rows)


def registers(words: argparse.Namespace) -> int:
    """Prints the registers of several vaults as one, by the moment of removal.

    Removals of one second are in the order of the files. Where one can't be read nothing is printed."""
    rows = [row for file in _files(words) for row in register_of(file)]
    rows.sort(key=lambda it: str(it["removed"]))  # moments are 20 bytes each, so they sort as texts
    columns = (
        "vault", "version", "bucket", "key", "kind", "size", "sha256", "admitted", "admitted_by", "removed", "cause",
        "cause_by", "days",
    )  # fmt: skip
    _print_csv(rows, columns, words.json)
    return 0


def reports(words: argparse.Namespace) -> int:
    """Prints the reports of all departments of several vaults, all of one moment. Nothing where one can't be read."""
    at = moments.read(words.at)
    rows: list[Row] = []
    for file in _files(words):
        try:
            rows += reports_of(file, words.caller, at)
        except DeskError as error:
            raise DeskError(f"{file}: {error}") from error
    _print_csv(rows, ("vault", "department", "at", *SUMS), words.json)
    return 0


def copies(words: argparse.Namespace) -> int:
    """Makes a copy of each vault in a folder of its name. Where one can't be made, the others are made all the same."""
    rows, is_whole = [], True
    for file in _files(words):
        try:
            copy = backup.made(file, Path(words.folder) / name_of(file), config.program())
            rows.append({"vault": name_of(file), "copy": str(copy)})
        except DeskError as error:
            say(f"vaultdesk offices: {error}")
            is_whole = False
    if words.json:
        print_json(rows)
    else:
        for it in rows:
            print(it["copy"])
    return 0 if is_whole else 1


# ---- the vaults of this machine


def newest_copy(served: Served) -> Path | None:
    """The newest of the night's copies, if there is one."""
    copies_there = sorted(served.conf.backup().glob(f"{served.name}-*Z.vault"))
    return copies_there[-1] if copies_there else None


def offices_list(words: argparse.Namespace) -> int:
    """Prints the vaults that have a configuration, whether each is served, and the newest of its copies."""
    rows = []
    for name in conf.names():
        it = Served(name)
        row: Row = {"vault": name, "port": it.conf.port(), "state": it.state(), "file": str(it.file)}
        rows.append({**row, "copy": str(newest_copy(it) or "none")})
    print_table(rows, LISTED, words.json)
    return 0


def _buckets(served: Served) -> list[str]:
    """The buckets of a vault: as its file has them, or where it is served, as the newest copy has them."""
    statement = "SELECT name FROM buckets ORDER BY name"
    try:
        with snapshot.readable(served.file) as tables:
            found = reading.rows(tables, statement)
    except DeskError as error:
        copy = newest_copy(served)
        if copy is None:
            raise DeskError(f"{error} There is no copy of it to read in its place") from error
        remedy = "name them by --bucket"
        say(f"{served.file} can't be read: its buckets are those of {copy}, which lacks newer ones: {remedy}")
        found = reading.rows(copy, statement)
    return [str(it) for (it,) in found]


def _more(words: argparse.Namespace, names: Sequence[str]) -> dict[str, list[str]]:
    """The buckets that are named among the words, by vault."""
    found: dict[str, list[str]] = {it: [] for it in names}
    for word in words.bucket:
        vault, _, bucket = word.partition(":")
        if vault not in found or not conf.BUCKET.fullmatch(bucket):
            raise DeskError(f"--bucket {word}: that isn't VAULT:BUCKET, or that vault isn't among {', '.join(names)}")
        found[vault].append(bucket)
    return found


def map_of(vaults: Sequence[Served], more: dict[str, list[str]], nowhere: int) -> str:
    """What nginx has to know. `DeskError` where two vaults have one port or one bucket."""
    ports = {it.name: it.conf.port() for it in vaults}
    buckets = {it.name: sorted({*_buckets(it), *more[it.name]}) for it in vaults}
    for number, count in Counter([*ports.values(), nowhere]).items():
        if count > 1:
            remedy = "give each vault a PORT of its own, and --nowhere another one"
            raise DeskError(f"the port {number} is given twice: {remedy}")
    for bucket, count in Counter(it for names in buckets.values() for it in names).items():
        if count > 1:
            cause = "a request names no vault, so the name of a bucket is for one of them alone"
            raise DeskError(f"two vaults have a bucket {bucket}: {cause}")
    return MAP.format(
        upstreams="\n".join(f"upstream {name} {{ server 127.0.0.1:{port}; }}" for name, port in ports.items()),
        lines="\n".join(f"    ~^/({'|'.join(found)})(?:[/?]|$) {name};" for name, found in buckets.items() if found),
        nowhere=nowhere,
    )


def offices_map(words: argparse.Namespace) -> int:
    """Prints what nginx needs to give each request to the vault that has its bucket."""
    names = words.names or conf.names()
    if not names:
        raise DeskError(f"no vault has a configuration in {conf.folder()}")
    vaults = [Served(it) for it in names]
    text = map_of(vaults, _more(words, names), words.nowhere)
    if words.json:
        print_json({"ports": {it.name: it.conf.port() for it in vaults}, "map": text})
    else:
        print(text, end="")
    return 0


def _add_gathering(
    kinds: argparse._SubParsersAction[argparse.ArgumentParser], common: argparse.ArgumentParser
) -> None:
    example = "Example: vaultdesk offices registers records.vault court.vault > registers.csv"
    what = "one register of all removals, as CSV, by their moments"
    it = kinds.add_parser("registers", parents=[common], help=what, epilog=example)
    it.add_argument("files", nargs="+", metavar="FILE")
    it.set_defaults(do=registers)

    example = "Example: vaultdesk offices reports --at 2026-01-01 records.vault court.vault > reports.csv"
    it = kinds.add_parser("reports", parents=[common], help="the reports of all departments, as CSV", epilog=example)
    it.add_argument("files", nargs="+", metavar="FILE")
    it.add_argument("--at", required=True, metavar="DATE", help="the moment of all, not before any vault's last change")
    text = "who asks, with the right admin in each vault (registrar)"
    it.add_argument("--as", dest="caller", default="registrar", metavar="CALLER", help=text)
    it.set_defaults(do=reports)

    example = "Example: vaultdesk offices backup /srv/copies records.vault court.vault"
    it = kinds.add_parser("backup", parents=[common], help="a copy of each, audited", epilog=example)
    it.add_argument("folder", metavar="FOLDER", help="each vault has a folder of its name in it")
    it.add_argument("files", nargs="+", metavar="FILE")
    it.set_defaults(do=copies)


def add(commands: argparse._SubParsersAction[argparse.ArgumentParser], common: argparse.ArgumentParser) -> None:
    """Adds the subcommands to the desk's words."""
    what = "several vaults: list, map, registers, reports, backup"
    made = commands.add_parser("offices", help=what, description=ABOUT)
    kinds = made.add_subparsers(dest="kind", required=True, metavar="KIND")
    what = "the vaults of this machine, with their ports, states and newest copies"
    it = kinds.add_parser("list", parents=[common], help=what, epilog="Example: vaultdesk offices list")
    it.set_defaults(do=offices_list)

    example = "Example: vaultdesk offices map > /etc/nginx/conf.d/vaults.conf"
    what = "what nginx needs to serve several vaults at one port, each by its buckets"
    it = kinds.add_parser("map", parents=[common], help=what, epilog=example)
    it.add_argument("names", nargs="*", metavar="NAME", help="default: all vaults that have a configuration")
    text = "a bucket that is newer than its vault's copy; may be given again"
    it.add_argument("--bucket", action="append", default=[], metavar="VAULT:BUCKET", help=text)
    text = "a port of 127.0.0.1 at which nginx answers for buckets that no vault has (8089)"
    it.add_argument("--nowhere", type=whole(1, 65_535), default=8089, metavar="PORT", help=text)
    it.set_defaults(do=offices_map)
    _add_gathering(kinds, common)
