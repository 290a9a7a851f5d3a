"""What is due: a text for who looks after the records, printed, or as a mail."""

from __future__ import annotations

import argparse
import shutil
import subprocess
from collections.abc import Iterator, Sequence
from dataclasses import dataclass
from email.message import EmailMessage
from email.policy import SMTP

from vaultdesk import book, conf, config, copies, disposal, last_done, moments, reading, units
from vaultdesk.engine import Engine
from vaultdesk.errors import DeskError, UsageError
from vaultdesk.facts import HOLDS
from vaultdesk.output import print_json, say
from vaultdesk.spelling import whole

DAYS, OLD_HOLD, LEAST = 30, 365, 2  # days ahead, days of a hold that is old, copies that are to be there
LATE_NIGHT = 2  # days after which a night that wasn't done to its end is late
DAY = 86_400
UNITS = ("vault-serve", "vault-run", "vault-check")
SENDMAIL = "/usr/sbin/sendmail"
ABOUT = """Says what is due: retentions that end within 30 days (--days), documents whose retention has ended, legal
holds older than a year, plans of disposal that wait, and of a vault with units nights and looks that failed and copies
that are too few. It names numbers and no documents, so that it can go by mail. Nothing is printed where nothing is due.
With --mail it is a message for ADDRESS, as sendmail -t takes it; --send hands it to sendmail."""


@dataclass(frozen=True)
class Due:
    """Something that is due: what, how many, and which words show it."""

    what: str
    count: int
    how: str

    @property
    def line(self) -> str:
        """It as a line of the text."""
        return f"- {self.count:,} {self.what}" + (f": {self.how}" if self.how else "")


def _of_records(engine: Engine, now: str, days: int) -> Iterator[Due]:
    """What the tables say."""
    rows = reading.query(engine.tables, "held", at=now)
    last = moments.after_days(now, days)
    ending = sum(it["retention"] in ("GOVERNANCE", "COMPLIANCE") and it["until"] <= last for it in rows)
    yield Due(f"retentions end within {days} days", ending, f"vaultdesk held --ends-before {last[:10]}")
    for name in dict.fromkeys(it["department"] for it in rows):
        found = disposal.due(engine, name)
        how = f"vaultdesk disposal plan {name} --dry-run"
        yield Due(f"documents of {name} whose retention has ended", len(found), how)
    old = moments.after_days(now, -OLD_HOLD)
    holds = [it for it in reading.rows(engine.tables, HOLDS) if moments.of_seconds(it[0]) <= old]
    yield Due(f"legal holds are older than {OLD_HOLD} days", len(holds), "vaultdesk held --on-hold")


def _of_plans(engine: Engine) -> Iterator[Due]:
    """What of plans waits for somebody."""
    plans = [it for bucket in book.buckets(engine.tables) for it in disposal.plans_in(engine, bucket)]
    states = {"waits for an approval": "wait for an approval", "approved": "are approved and not carried out"}
    for state, what in states.items():
        names = [it.name for it in plans if it.state == state]
        yield Due(f"plans of disposal {what}", len(names), ", ".join(names))


def _of_machine(name: str, now: str) -> Iterator[Due]:
    """What the units of a vault, its nights and its copies say."""
    failed = [it for it in UNITS if units.systemctl("is-failed", f"{it}@{name}.service")[1] == "failed"]
    yield Due("units have failed", len(failed), ", ".join(f"systemctl status {it}@{name}" for it in failed))
    served = units.Served(name)
    night = last_done.read(served.file).get("night")
    late = night is None or moments.seconds_of(now) - night > LATE_NIGHT * DAY
    since = f"the last one ended at {moments.of_seconds(night)}" if night else "none was done to its end"
    yield Due(f"nights are missing, as {since}", int(late), f"systemctl status vault-run@{name}")
    least = min(LEAST, served.conf.keep() or LEAST)
    there = sum(not it.name.endswith(".damaged") for it in copies.found_in(served.conf.backup(), name))
    what = f"copies are too few: there are {there}, and {least} are to be there"
    yield Due(what, max(0, least - there), f"vaultdesk copies {name} --audit")


def _all(engine: Engine, vault: str, days: int) -> Iterator[Due]:
    now = engine.at or moments.now()
    yield from _of_records(engine, now, days)
    yield from _of_plans(engine)
    if conf.is_configured(vault):
        yield from _of_machine(vault, now)


def text_of(vault: str, now: str, found: Sequence[Due]) -> str:
    """The text; empty where nothing is due."""
    lines = [f"The vault {vault} at {now}:", "", *(it.line for it in found)]
    return "\n".join([*lines, ""]) if found else ""


def mail_of(address: str, vault: str, text: str) -> bytes:
    """The text as a message. `UsageError` where the address can be none."""
    it = EmailMessage(SMTP.clone(linesep="\n", cte_type="8bit", utf8=True))
    try:
        it["To"] = address
        it["Subject"] = f"{vault}: what is due"
    except ValueError as error:
        raise UsageError(f"--mail {address!r}: {error}") from error
    if "@" not in address or not it["To"].addresses:
        raise UsageError(f"--mail {address!r} is no address of mail, as registrar@example.org")
    it.set_content(text, cte="8bit")
    return it.as_bytes()


def _send(message: bytes) -> None:
    program = shutil.which("sendmail") or SENDMAIL
    try:
        done = subprocess.run([program, "-t", "-oi"], input=message, check=False)
    except OSError as error:
        raise DeskError(f"{program}: {error.strerror}: install a program that sends mail, as postfix") from error
    if done.returncode != 0:
        raise DeskError(f"{program} ended with status {done.returncode}: the mail wasn't sent")


def due(engine: Engine, words: argparse.Namespace) -> None:
    """Prints what is due, or sends it."""
    named = words.vault or config.named_vault() or ""
    vault = named if conf.is_configured(named) else engine.desk.file.name.removesuffix(".vault")
    address = words.mail or (conf.read(vault).due_mail() if words.send and conf.is_configured(vault) else "")
    if words.send and not address:
        raise UsageError(f"nobody is named who gets it: give --mail ADDRESS, or DUE_MAIL in {conf.folder()}/NAME.conf")
    found = [it for it in _all(engine, named, words.days) if it.count]
    if words.json:
        print_json([{"what": it.what, "count": it.count, "how": it.how} for it in found])
        return
    text = text_of(vault, engine.at or moments.now(), found)
    message = mail_of(address, vault, text) if address else text.encode()
    if not text:
        say("nothing is due")
    elif words.send:
        _send(message)
    else:
        print(message.decode(), end="")


def add(commands: argparse._SubParsersAction[argparse.ArgumentParser], common: argparse.ArgumentParser) -> None:
    """Adds the subcommand to the desk's words."""
    what = "what is due: ends, old holds, plans that wait, nights that failed, copies that are too few; also by mail"
    example = "Example: vaultdesk due --mail registrar@example.org --send"
    it = commands.add_parser("due", parents=[common], help=what, description=ABOUT, epilog=example)
    it.add_argument("--days", type=whole(1, 36_500), metavar="N", default=DAYS, help="how many days ahead (30)")
    it.add_argument("--mail", metavar="ADDRESS", help="print it as a message for that address")
    it.add_argument("--send", action="store_true", help="hand it to sendmail (to DUE_MAIL where no --mail is given)")
    it.set_defaults(run=due)
