"""What the units of a vault ask of the desk as a server starts, stops or fails."""

from __future__ import annotations

import argparse
import contextlib
import functools
import grp
import os
import re
import stat
import subprocess
import time
from collections.abc import Callable, Iterator
from pathlib import Path

from vaultdesk import conf
from vaultdesk.closing import end
from vaultdesk.errors import DeskError
from vaultdesk.output import print_done
from vaultdesk.units import Busy, Served, systemctl

PROCESSES = Path("/proc")
PORTS, SOCKETS = Path("/proc/net/tcp"), Path("/proc/net/unix")
LAST_WAIT = 120.0  # seconds for the reply of a server that ends, and as many for its end: less than TimeoutStopSec
QUIET = 3_600  # seconds in which the same failure isn't reported again
LISTENS, ACCEPTS = "0A", "00010000"  # how the kernel prints that a port, and a Unix socket, takes connections


def _sockets(process: Path) -> set[str]:
    """The inodes of a process's sockets."""
    found = set()
    for it in (process / "fd").iterdir():
        try:
            socket = re.fullmatch(r"socket:\[(\d+)\]", os.readlink(it))
        except OSError:
            continue
        if socket:
            found.add(socket[1])
    return found


def _listens(process: Path, port: int) -> bool:
    """Whether a socket of that process listens at a port of 127.0.0.1."""
    rows = [it.split() for it in PORTS.read_text(encoding="ascii").splitlines()[1:]]
    there = {row[9] for row in rows if row[1] == f"0100007F:{port:04X}" and row[3] == LISTENS}
    return bool(there & _sockets(process))


def _takes_lines(process: Path, place: str) -> bool:
    """Whether a socket of that process listens at a path."""
    lines = SOCKETS.read_text(encoding="utf-8", errors="replace").splitlines()[1:]
    rows = [it.split(maxsplit=7) for it in lines]
    there = {row[6] for row in rows if row[7:] == [place] and row[3] == ACCEPTS}
    return bool(there & _sockets(process))


def _door_of(process: Path) -> str:
    """Where that server was told to take lines; empty where it wasn't."""
    words = os.fsdecode((process / "cmdline").read_bytes()).split("\0")
    return words[words.index("--lines") + 1] if "--lines" in words[:-1] else ""


@contextlib.contextmanager
def _held(name: Path | str, flags: int, folder: int | None = None) -> Iterator[int]:
    """A descriptor by which a file or folder can be given to somebody: of itself, where a link is in its place too."""
    found = os.open(name, os.O_PATH | os.O_NOFOLLOW | flags, dir_fd=folder)
    try:
        yield found
    finally:
        os.close(found)


def _let_in(place: Path, group: str) -> None:
    """Has the door of a server open for the members of a group, where one is named: else for those of its folder's.

    The folder is the server's user's, who may lay there what he likes, and it is root who asks: so all goes by
    descriptors. `DeskError` where there is no such group, or what is there isn't a socket of that user's."""
    try:
        number = grp.getgrnam(group).gr_gid if group else -1
    except KeyError as error:
        raise DeskError(f"LINES_GROUP={group}: this machine has no such group") from error
    with _held(place.parent, os.O_DIRECTORY) as folder, _held(place.name, 0, folder) as door:
        found = os.fstat(door)
        if not stat.S_ISSOCK(found.st_mode) or found.st_uid != os.fstat(folder).st_uid:
            raise DeskError(f"{place} isn't the server's socket: somebody put another thing there; nothing was changed")
        for it, mode in ((folder, 0o750), (door, 0o660)):
            os.chown(f"/proc/self/fd/{it}", -1, number)
            os.chmod(f"/proc/self/fd/{it}", mode)


def started(words: argparse.Namespace) -> int:
    """Waits until the server that systemd has just started listens; where it takes lines, lets in who may come.

    Its audit of the file may take a while before that.

    systemd allows some starts within some minutes. Only those are to count that it made itself after a failure: so
    where a start by hand has come to its end, the count begins anew."""
    served = Served(words.name)
    process = PROCESSES / os.environ["MAINPID"]
    try:
        while not _listens(process, served.conf.port()):
            time.sleep(0.2)
        if _door_of(process) == served.door().where:
            while not _takes_lines(process, served.door().where):
                time.sleep(0.2)
            conf.make_run_folder()
            _let_in(Path(served.door().where), served.conf.lines_group())
    except FileNotFoundError as error:
        raise DeskError("the server ended before it listened") from error
    except OSError as error:
        raise DeskError(f"{error.filename}: {error.strerror}") from error
    if systemctl("show", "-P", "NRestarts", served.unit)[1] == "0":
        systemctl("reset-failed", served.unit)
    served.forget_alarm("vault-serve")
    return 0


def stop(words: argparse.Namespace) -> int:
    """Has a server end by its door for lines, if it has one: what is under way is answered, and the log is copied in.

    Where it isn't done so, systemd kills the server, and nothing that was answered is lost."""
    served = Served(words.name)
    door = served.door(LAST_WAIT)
    if door.is_there():
        end(door, served.conf.admin())
    return 0


def stopped(words: argparse.Namespace) -> int:
    """Copies the log of a vault into its file after its server was killed.

    Where a stop kills the server, its newest changes are in the log alone. An audit that finds the vault sound
    copies them into the file as it closes it. Where another job has stopped the server, that job opens the vault
    itself; and where the server ended by itself, the next start does."""
    if (os.environ.get("SERVICE_RESULT"), os.environ.get("EXIT_CODE")) != ("success", "killed"):
        return 0
    served = Served(words.name)
    try:
        with served.locked(patience=0):
            verdict = served.verdict(served.file)
    except Busy:
        return 0
    if not words.json:
        print(verdict)
    return 0 if verdict == "sound" else 1


def _told(unit: str) -> bytes:
    """What systemd says of a unit: its state, and the end of its journal, which has what earlier tries said too."""
    told = b""
    for words in (
        ["systemctl", "status", "--no-pager", "--full", "--lines", "0", f"{unit}.service"],
        ["journalctl", "--no-pager", "--lines", "40", "--unit", f"{unit}.service"],
    ):
        told += subprocess.run(words, stdout=subprocess.PIPE, stderr=subprocess.STDOUT, check=False).stdout
    return told


def failed(words: argparse.Namespace) -> int:
    """Reports that a unit of a vault failed, by the command ALARM, unless that was reported within the last hour."""
    name = words.name.partition("@")[2]
    if not conf.path_of(name).exists():
        return 0
    alarm = conf.read(name).alarm()
    mark = conf.run_folder() / f"alarm.{words.name}"
    if not alarm or (mark.exists() and time.time() - mark.stat().st_mtime < QUIET):
        return 0
    environment = {**os.environ, "UNIT": words.name, "VAULT": name}
    done = subprocess.run(["sh", "-c", alarm], input=_told(words.name), env=environment, check=False)
    if done.returncode != 0:
        raise DeskError(f"the command ALARM ended with status {done.returncode}")
    conf.make_run_folder()
    mark.touch()
    return 0


KINDS = {
    "started": (started, "wait until the server that was started listens"),
    "stop": (stop, "have a server end by its door for lines, and wait for it"),
    "stopped": (stopped, "copy the log of a vault whose server was killed into its file"),
    "failed": (failed, "report that a unit failed, by the command ALARM of its vault"),
}


def _done(do: Callable[[argparse.Namespace], int], words: argparse.Namespace) -> int:
    """Does what a unit asks for, and where JSON is asked for, prints what came of it."""
    status = do(words)
    print_done(words.json, asked=words.kind, name=words.name, status=status)
    return status


def add(commands: argparse._SubParsersAction[argparse.ArgumentParser], common: argparse.ArgumentParser) -> None:
    """Adds the subcommands to the desk's words."""
    what = "what the units of a vault ask for: started, stop, stopped, failed"
    about = "Done by the units of a vault as its server starts, stops or fails, and by nobody else."
    made = commands.add_parser("unit", help=what, description=about)
    kinds = made.add_subparsers(dest="kind", required=True, metavar="KIND")
    for kind, (do, text) in KINDS.items():
        named = "vault-run@records" if kind == "failed" else "records"
        example = f"Example: vaultdesk unit {kind} {named}"
        it = kinds.add_parser(kind, parents=[common], help=text, epilog=example)
        it.add_argument("name", metavar="UNIT" if kind == "failed" else "NAME", help="given by systemd")
        it.set_defaults(do=functools.partial(_done, do))
