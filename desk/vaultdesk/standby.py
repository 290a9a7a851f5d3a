"""A second machine: what begins with a server's journal, what sends it there, and what carries it out there."""

from __future__ import annotations

import argparse
import errno
import json
import os
import re
import shlex
import shutil
import subprocess
import sys
import threading
import time
from collections.abc import Sequence
from contextlib import ExitStack, suppress
from dataclasses import dataclass
from pathlib import Path
from types import TracebackType
from typing import IO, Any, BinaryIO

from vaultdesk import conf, config
from vaultdesk.backup import stamp
from vaultdesk.errors import DeskError
from vaultdesk.output import print_done, print_table, say
from vaultdesk.units import Served

BEGIN = """Makes a folder for the journal of a server that is about to start, with a copy of the vault's two files in
it, and has NAME.journals/now lead there. Nothing may have the vault open meanwhile. What began before the last time
is removed."""
FOLLOW = """Sends the copy with which the newest journal began to the machine that STANDBY in /etc/vaultctl/NAME.conf
names, by ssh, and then each line as it is appended; and so anew where a server began another journal. It ends, with
status 1, where the connection does, and at the first line that the other machine doesn't carry out: from there on its
copy would be another vault."""
TAKE = """Asked for by the other machine's follow: gets a copy of its vault, and carries out what its server changed
there, a line at a time, by vaultctl replay. NAME.standby/now leads to the newest copy that has all that an earlier one
had. It ends at the first line that isn't carried out."""
LAG = """Says how many changes the server's journal has, and how many of them the other machine has carried out. With
--most N the status is 1 where more than N are still to come, or nobody follows."""
COLUMNS = ("journal", "changes", "carried out", "to come")
BEGUN = re.compile(r"\d{8}T\d{6}Z(-\d+)?")  # the name of what began with a journal
PIECE = 65_536  # bytes that are read at once
PAUSE = 0.2  # seconds between two looks at a journal
PROBE = b"{}\n"  # a line that is refused: its reply says that the copy is open


# ---- folders, of which `now` leads to the newest


def _newest(folder: Path) -> Path | None:
    """What began last there; none where nothing did."""
    try:
        return folder / os.readlink(folder / "now")
    except FileNotFoundError:
        return None


def _made(folder: Path, name: str) -> Path:
    """A new folder of that name there, or with a number after it."""
    folder.mkdir(mode=0o700, exist_ok=True)
    for it in (name, *(f"{name}-{number}" for number in range(2, 10_000))):
        with suppress(FileExistsError):
            (folder / it).mkdir(mode=0o700)
            return folder / it
    raise DeskError(f"{folder} has too many of {name}")


def _lead_to(made: Path, *kept: Path | None) -> None:
    """Has `now` lead there, and removes all others but those that are kept."""
    link = made.parent / "now.new"
    link.unlink(missing_ok=True)
    link.symlink_to(made.name)
    link.replace(made.parent / "now")
    for it in made.parent.iterdir():
        if not it.is_symlink() and it not in (made, *kept):
            shutil.rmtree(it, onerror=_look_why)


def _look_why(_: object, path: str, error: tuple[type[BaseException], BaseException, TracebackType]) -> None:
    """Goes on where something is gone already, or was put there meanwhile: it goes as the next one begins."""
    if not isinstance(error[1], OSError) or error[1].errno not in (errno.ENOENT, errno.ENOTEMPTY):
        raise DeskError(f"{path}: {error[1]}") from error[1]


def _files(folder: Path, name: str) -> list[Path]:
    """The vault's file there, and its log if it has one."""
    return [it for it in (folder / f"{name}.vault", folder / f"{name}.vault-wal") if it.exists()]


def is_done(reply: bytes) -> bool:
    """Whether a reply says that a change was made, as it was in the vault: done, or stopped for want of ids."""
    try:
        found: dict[str, Any] = json.loads(reply)
    except ValueError:
        return False
    return "ok" in found or found.get("stopped", {}).get("fault") == "VaultFull"


# ---- where the vault is served


def _journals(served: Served) -> Path:
    return served.folder / f"{served.name}.journals"


def begin(words: argparse.Namespace) -> int:
    """Makes what begins with a server's journal: its folder, and a copy of the vault's files in it."""
    served = Served(words.name)
    os.umask(0o077)
    folder = _journals(served)
    before, made = _newest(folder), _made(folder, stamp())
    for it in _files(served.folder, served.name):
        if subprocess.run(["cp", "--reflink=auto", str(it), str(made)], check=False).returncode != 0:
            shutil.rmtree(made)
            raise DeskError(f"{it} can't be copied to {folder}")
    _lead_to(made, before)
    print_done(words.json, journal=str(made / "journal"))
    return 0


class Begun(Exception):
    """Another journal began before the copy with which this one began was sent, and that copy may be gone by now."""


class Following:
    """One connection to the other machine: what was sent there of a journal, and what came back."""

    def __init__(self, made: Path, there: subprocess.Popen[bytes]) -> None:
        assert there.stdin and there.stdout
        self.made, self.there, self.to = made, there, there.stdin
        self.answered, self.wrong = 0, ""
        self.reading = threading.Thread(target=self._read, args=(there.stdout,), daemon=True)
        self.reading.start()

    def _read(self, replies: IO[bytes]) -> None:
        """Counts the replies, up to the first that doesn't say that a change was made."""
        for reply in replies:
            if not is_done(reply):
                self.wrong = reply.decode("utf-8", "replace").strip()
                return
            self.answered += 1

    def send_copy(self, name: str, lines: int) -> None:
        """Sends the copy with which the journal began; so many lines are there by now."""
        with ExitStack() as opened:
            try:
                files = {it.name: opened.enter_context(it.open("rb")) for it in _files(self.made, name)}
            except FileNotFoundError as error:
                raise Begun from error
            if _newest(self.made.parent) != self.made:  # else all of its files are open
                raise Begun
            sizes = {it: os.fstat(file.fileno()).st_size for it, file in files.items()}
            self.to.write(json.dumps({"journal": self.made.name, "lines": lines, "files": sizes}).encode() + b"\n")
            for file in files.values():
                shutil.copyfileobj(file, self.to, PIECE)
            self.to.flush()

    def send_lines(self, journal: BinaryIO) -> None:
        """Sends what is appended until the connection ends, or another journal began and all of this was sent."""
        while not self.wrong and self.there.poll() is None:
            is_last = _newest(self.made.parent) != self.made
            if part := journal.read(PIECE):
                self.to.write(part)
                self.to.flush()
            elif is_last:
                return
            else:
                time.sleep(PAUSE)
            self._note()

    def _note(self) -> None:
        """Notes how many lines were carried out there, unless the journal went as two others began after it."""
        with suppress(FileNotFoundError):
            _note(self.made, self.answered)

    def end(self) -> None:
        """Waits for the last replies. `DeskError` where one of them doesn't say that a change was made."""
        with suppress(BrokenPipeError):
            self.to.close()
        self.reading.join()
        self._note()
        if self.wrong:
            self.there.kill()
            line = f"line {self.answered + 1} of {self.made / 'journal'}"
            raise DeskError(f"{line} isn't carried out there: {self.wrong}")
        if self.there.wait() != 0:
            raise DeskError(f"the connection ended after {self.answered} lines of {self.made / 'journal'}")


def _note(made: Path, answered: int) -> None:
    """Notes how many lines were carried out there."""
    noted = made / "answered"
    if not noted.exists() or noted.read_text(encoding="ascii") != f"{answered}\n":
        (made / "answered.new").write_text(f"{answered}\n", encoding="ascii")
        (made / "answered.new").replace(noted)


def _lines_in(journal: Path) -> int:
    """How many whole lines a file has; none where it isn't there."""
    try:
        with journal.open("rb") as file:
            return sum(part.count(b"\n") for part in iter(lambda: file.read(PIECE), b""))
    except FileNotFoundError:
        return 0


def _opened(journal: Path) -> BinaryIO:
    """The journal, once the server that is about to start has made it, or another one began."""
    while True:
        try:
            return journal.open("rb", buffering=0)
        except FileNotFoundError:
            if _newest(journal.parent.parent) != journal.parent:
                return open(os.devnull, "rb", buffering=0)
            time.sleep(PAUSE)


def _follow(made: Path, name: str, to: Sequence[str]) -> None:
    """Follows one journal to its end."""
    with subprocess.Popen(to, stdin=subprocess.PIPE, stdout=subprocess.PIPE) as there:
        following = Following(made, there)
        try:
            with suppress(BrokenPipeError):
                following.send_copy(name, _lines_in(made / "journal"))
                with _opened(made / "journal") as journal:
                    following.send_lines(journal)
            following.end()
        finally:
            there.kill()


def follow(words: argparse.Namespace) -> int:
    """Follows the journals of a vault's servers on another machine, one after another."""
    served = Served(words.name)
    other = served.conf.standby()
    if not other:
        raise DeskError(f"{served.conf.path}: STANDBY is missing: the machine that follows, as ssh has it")
    ssh = shlex.split(os.environ.get("VAULT_SSH", "ssh -o BatchMode=yes -o ServerAliveInterval=15"))
    os.umask(0o077)
    print_done(words.json, vault=served.name, standby=other)
    sys.stdout.flush()
    while True:
        made = _newest(_journals(served))
        if made is None:
            raise DeskError(f"{_journals(served)} has no journal: vaultdesk standby begin, before the server starts")
        say(f"vaultdesk standby follow: {made.name} goes to {other}")
        with suppress(Begun):
            _follow(made, served.name, [*ssh, other, f"vaultdesk standby take {served.name}"])


def lag(words: argparse.Namespace) -> int:
    """Says how far the other machine has come."""
    made = _newest(_journals(Served(words.name)))
    if made is None:
        raise DeskError(f"no journal of {words.name} began on this machine")
    changes, noted = _lines_in(made / "journal"), made / "answered"
    done = int(noted.read_text(encoding="ascii")) if noted.exists() else None
    row = {"journal": made.name, "changes": changes, "carried out": done, "to come": changes - (done or 0)}
    print_table([row], COLUMNS, words.json)
    return int(words.most is not None and (done is None or changes - done > words.most))


# ---- on the other machine


@dataclass(frozen=True)
class Sent:
    """What is about to come: the journal's name, how many lines it has by now, and the bytes of the copy's files."""

    journal: str
    lines: int
    files: dict[str, int]


def _read_head(line: bytes, name: str) -> Sent:
    """The line before a copy. `DeskError` where it is none."""
    try:
        found = json.loads(line)
        sent = Sent(str(found["journal"]), int(found["lines"]), {it: int(size) for it, size in found["files"].items()})
    except (ValueError, KeyError, TypeError, AttributeError) as error:
        raise DeskError("what comes in is no copy: this is asked for by vaultdesk standby follow") from error
    file = f"{name}.vault"
    if not BEGUN.fullmatch(sent.journal) or not {file} <= set(sent.files) <= {file, f"{file}-wal"}:
        raise DeskError("what comes in is no copy of this vault")
    return sent


def _receive(came: BinaryIO, path: Path, size: int) -> None:
    with path.open("xb") as file:
        while size:
            part = came.read(min(PIECE, size))
            if not part:
                raise DeskError("the copy didn't come whole")
            file.write(part)
            size -= len(part)


class Copy:
    """A copy over which a program carries out lines."""

    def __init__(self, file: Path) -> None:
        words = [config.program(), "replay", str(file)]
        self.program = subprocess.Popen(words, stdin=subprocess.PIPE, stdout=subprocess.PIPE, stderr=subprocess.PIPE)
        assert self.program.stdin and self.program.stdout
        self.to, self.replies = self.program.stdin, self.program.stdout

    def ask(self, line: bytes) -> bytes:
        """The reply to a line. `DeskError` where none comes."""
        with suppress(BrokenPipeError):
            self.to.write(line)
            self.to.flush()
            if reply := self.replies.readline():
                return reply
        _, said = self.program.communicate()
        raise DeskError(f"the copy takes no lines: {said.decode('utf-8', 'replace').strip()}")

    def close(self) -> None:
        self.program.communicate()


def _carry_out(came: BinaryIO, copy: Copy, made: Path, lines: int) -> None:
    """Carries out the lines that come in, each once the one before it was. After so many `now` leads to this copy."""
    done = 0
    while True:
        if done == lines:
            _lead_to(made)
        _note(made, done)
        line = came.readline()
        if not line.endswith(b"\n"):
            return
        reply = copy.ask(line)
        sys.stdout.buffer.write(reply)
        sys.stdout.buffer.flush()
        if not is_done(reply):
            raise DeskError(f"line {done + 1} isn't carried out: {reply.decode('utf-8', 'replace').strip()}")
        done += 1


def take(words: argparse.Namespace) -> int:
    """Gets a copy of another machine's vault, and carries out what its server changes there."""
    conf.path_of(words.name)  # else that is no vault's name
    os.umask(0o077)
    came = sys.stdin.buffer
    sent = _read_head(came.readline(), words.name)
    folder = conf.vaults_folder() / f"{words.name}.standby"
    made = _made(folder, sent.journal)
    for name, size in sent.files.items():
        _receive(came, made / name, size)
    copy = Copy(made / f"{words.name}.vault")
    try:
        copy.ask(PROBE)
        _carry_out(came, copy, made, sent.lines)
    finally:
        copy.close()
    return 0


NAMED = "the vault /var/lib/vaultctl/NAME.vault"
KINDS = {
    "begin": (begin, "make what begins with a server's journal", BEGIN),
    "follow": (follow, "send the journal's changes to another machine", FOLLOW),
    "take": (take, "carry out what another machine's server changes", TAKE),
    "lag": (lag, "say how far the other machine has come", LAG),
}


def add(commands: argparse._SubParsersAction[argparse.ArgumentParser], common: argparse.ArgumentParser) -> None:
    """Adds the subcommands to the desk's words."""
    what = "a second machine that follows a vault: begin, follow, take, lag"
    about = "What a machine and another one that follows its vault ask of the desk."
    made = commands.add_parser("standby", help=what, description=about)
    kinds = made.add_subparsers(dest="kind", required=True, metavar="KIND")
    for kind, (do, text, about) in KINDS.items():
        example = f"Example: vaultdesk standby {kind} records"
        it = kinds.add_parser(kind, parents=[common], help=text, description=about, epilog=example)
        it.add_argument("name", metavar="NAME", help=NAMED)
        if kind == "lag":
            it.add_argument("--most", type=int, metavar="N", help="fail where more changes are still to come")
        it.set_defaults(do=do)
