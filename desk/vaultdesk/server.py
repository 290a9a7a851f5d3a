"""Around a vault's server: a command while it is stopped, and whether it serves."""

from __future__ import annotations

import argparse
import http.client
import secrets
from dataclasses import dataclass

from vaultdesk.errors import DeskError, UsageError
from vaultdesk.health import Health, health_of
from vaultdesk.output import print_json, say
from vaultdesk.units import Busy, Served, Standstill, systemctl

PATIENCE = 30  # seconds for the server's answer
FAILED = "its file failed (500)"
OFFLINE = """Stops the server of a vault, runs a command as the vaults' owner, in their folder, and starts the server
again, also where the command fails. Standard input, output and error are the caller's, and the status is
the command's; where the server doesn't start again, the status is never 0. A server that didn't run isn't started.
While another job works on the vault, this one waits. With --json, standard output has the command, its status and
what became of the server, and what the command prints goes to standard error."""
CHECK = """The status is 0 where the server answers, where it is about to start, where it should not run, and where
another job has stopped it for its work. It is 1, with a line that says why and what to do, in all other cases: no
answer; nobody is served; a server that is enabled and doesn't run; one whose files aren't where it opened them; one
whose file failed since it was started, which its door for lines says to the caller ADMIN. A server that answers 500 is
started anew first, unless its files are away: what is only in a log that was removed would be gone."""


# ---- a command while it is stopped


def offline(words: argparse.Namespace) -> int:
    """Stops the server, runs a command as the vaults' owner, and starts the server again."""
    if not words.given:
        raise UsageError("which command? vaultdesk offline NAME COMMAND..")
    if words.given[0].startswith("-"):
        raise UsageError(f"{words.given[0]}: options go before NAME, and what is after NAME is the command")
    served, seen = Served(words.name), Standstill()
    status = None
    with served.alone():
        try:
            with served.standing_still(seen=seen):
                status = _carried_out(served, words)
        finally:
            if words.json and status is not None:
                found = {"vault": served.name, "command": words.given, "status": status}
                print_json({**found, "unit": served.unit, "stopped": seen.stopped, "started": seen.started})
    return status


def _carried_out(served: Served, words: argparse.Namespace) -> int:
    """The status of a command that is done by the vaults' owner, as a shell has it: for a signal 128 and its number."""
    with served.owner().start(words.given, served.folder, **({"stdout": 2} if words.json else {})) as child:
        try:
            status = child.wait()
        except BaseException:
            child.terminate()
            raise
    return status if status >= 0 else 128 - status


# ---- whether it serves


@dataclass(frozen=True)
class Answer:
    """What the server answers: a status, 0 where there is no answer, and a body."""

    status: int
    body: str

    def fault(self, port: int) -> str:
        """What is wrong with a server that answers so; empty where it serves."""
        if self.status == 200 or (self.status == 403 and '"AccessDenied"' in self.body):
            return ""
        if self.status == 0:
            return f"no answer at port {port}"
        if self.status == 500:
            return FAILED
        if self.status == 503 and "ClockBack" in self.body:
            cause = "nobody is served (503 ClockBack): the machine's clock is before the vault's last change"
            return f"{cause}. Set the clock right; where that change is dated ahead, it serves again after its moment"
        if self.status == 503 and "ClockOutOfRange" in self.body:
            return "nobody is served (503 ClockOutOfRange): the machine's clock shows no moment that a vault can keep"
        if self.status == 503 and "Memory" in self.body:
            return "nobody is served (503 Memory): the machine has no memory left for the server"
        return f"what answers at port {port} isn't its server (status {self.status})"


def asked(port: int) -> Answer:
    """The answer to a request that looks into the vault.

    `/` alone names no bucket, and is refused before that: so a bucket is named, and a caller whose name is drawn anew
    each time, so that nobody has it. A sound server refuses that one (403)."""
    connection = http.client.HTTPConnection("127.0.0.1", port, timeout=PATIENCE)
    try:
        connection.request("GET", "/vault-check?versions", headers={"x-vault-caller": f"check-{secrets.token_hex(16)}"})
        reply = connection.getresponse()
        return Answer(reply.status, reply.read(65_536).decode("utf-8", "replace"))
    except (OSError, http.client.HTTPException):
        return Answer(0, "")
    finally:
        connection.close()


@dataclass(frozen=True)
class Seen:
    """What is seen of a vault's server: what is wrong with it, empty where nothing is, and how its files are."""

    fault: str = ""
    health: Health = Health()


def seen(served: Served) -> Seen:
    """How a server is that runs: what it answers, whether its files are in their place, whether one failed."""
    answer, port = asked(served.conf.port()), served.conf.port()
    health = health_of(served.file, served.door(PATIENCE), served.conf.admin(), served.process())
    fault = health.fault(served.unit) if health.moved else ""
    return Seen(fault or answer.fault(port) or health.fault(served.unit), health)


def _looked_at(served: Served) -> Seen:
    """The same of a server that may not run, after it was started anew where it answers that its file failed."""
    state = served.state()
    if state in ("activating", "deactivating", "reloading"):
        return Seen()
    if state != "active":
        why = f"its server is enabled and doesn't run: see systemctl status {served.unit}"
        return Seen(why if served.is_enabled() else "")
    found = seen(served)
    if found.fault != FAILED:
        return found
    say(f"vaultdesk check: vault {served.name}: its file failed: the server is started anew")
    systemctl("reset-failed", served.unit)
    if systemctl("restart", served.unit)[0] != 0:
        return Seen(f"its file failed, and its server doesn't start: see systemctl status {served.unit}")
    return seen(served)


def check(words: argparse.Namespace) -> int:
    """Asks a vault's server whether it serves. While another job works on the vault, nothing is asked."""
    served = Served(words.name)
    try:
        with served.locked(patience=0):
            found = _looked_at(served)
    except Busy:
        found = Seen()
    fault, health = found.fault, found.health
    if health.unknown:
        say(f"vaultdesk check: vault {served.name}: whether its file failed isn't known: {health.unknown}")
    if words.json:
        how = {"failures": health.failures, "moved": [str(it) for it in health.moved]}
        print_json({"vault": served.name, "serves": not fault, "fault": fault, **how})
    if fault:
        raise DeskError(f"vault {served.name}: {fault}")
    served.forget_alarm("vault-check")
    return 0


NAMED = "the vault /var/lib/vaultctl/NAME.vault, with /etc/vaultctl/NAME.conf"


def add(commands: argparse._SubParsersAction[argparse.ArgumentParser], common: argparse.ArgumentParser) -> None:
    """Adds the subcommands to the desk's words."""
    example = "Example: vaultdesk offline records vaultctl verify records.vault"
    what = "run a command on a vault that is served, while its server is stopped"
    it = commands.add_parser("offline", parents=[common], help=what, description=OFFLINE, epilog=example)
    it.add_argument("name", metavar="NAME", help=NAMED)
    text = "run by the vaults' owner, in their folder; its status is this one's"
    it.add_argument("given", nargs=argparse.REMAINDER, metavar="COMMAND", help=text)
    it.set_defaults(do=offline)

    what = "ask a vault's server whether it serves, and start it anew where its file failed"
    example = "Example: vaultdesk check records"
    it = commands.add_parser("check", parents=[common], help=what, description=CHECK, epilog=example)
    it.add_argument("name", metavar="NAME", help=NAMED)
    it.set_defaults(do=check)
