"""The owner of this machine's vaults, and work that is done as that user."""

from __future__ import annotations

import json
import os
import pwd
import signal
import stat
import subprocess
import sys
import traceback
from collections.abc import Callable, Iterator, Sequence
from contextlib import contextmanager
from dataclasses import dataclass
from pathlib import Path
from types import FrameType
from typing import Any

from vaultdesk.errors import DeskError
from vaultdesk.output import say

SIGNALS = (signal.SIGHUP, signal.SIGINT, signal.SIGTERM)


class Ended(DeskError):
    """A signal ended the subcommand."""


@contextmanager
def signals_raise() -> Iterator[None]:
    """Within it a signal that ends a program raises `Ended`, so that what was begun is brought to an end."""

    def ended(number: int, _: FrameType | None) -> None:
        raise Ended(f"ended by {signal.Signals(number).name}")

    before = {it: signal.signal(it, ended) for it in SIGNALS}
    try:
        yield
    finally:
        for it, handler in before.items():
            signal.signal(it, handler)


@contextmanager
def signals_wait() -> Iterator[None]:
    """Within it the same signals have no effect."""
    before = {it: signal.signal(it, signal.SIG_IGN) for it in SIGNALS}
    try:
        yield
    finally:
        for it, handler in before.items():
            signal.signal(it, handler)


@dataclass(frozen=True)
class Owner:
    """A user and a group."""

    uid: int
    gid: int

    def is_other(self) -> bool:
        """Whether root has to become that user."""
        return os.geteuid() == 0 and self.uid != 0

    def give(self, *paths: Path) -> None:
        """Gives files to that user. Only root can, and only root has to."""
        for it in paths if os.geteuid() == 0 else ():
            os.chown(it, self.uid, self.gid, follow_symlinks=False)

    def start(self, command: Sequence[str], folder: Path, **how: int) -> subprocess.Popen[bytes]:
        """Starts a program as that user in a folder. `DeskError` where it can't be started."""
        try:
            if not self.is_other():
                return subprocess.Popen(command, cwd=folder, **how)  # type: ignore[call-overload,no-any-return]
            return subprocess.Popen(  # type: ignore[call-overload,no-any-return]
                command, cwd=folder, user=self.uid, group=self.gid, extra_groups=[], env=self._environment(), **how
            )
        except OSError as error:
            raise DeskError(f"{command[0]}: {error.strerror}") from error

    def _environment(self) -> dict[str, str]:
        """This process's environment, with the user's own home."""
        try:
            found = pwd.getpwuid(self.uid)
        except KeyError:
            return dict(os.environ)
        return {**os.environ, "HOME": found.pw_dir, "USER": found.pw_name, "LOGNAME": found.pw_name}

    def says(self, command: Sequence[str], folder: Path) -> str:
        """What a program that this user starts prints on standard output; what it ends with doesn't matter."""
        with self.start(command, folder, stdout=subprocess.PIPE) as child:
            out, _ = child.communicate()
        return out.decode("utf-8", "replace").strip()

    def carry_out(self, work: Callable[[], int]) -> int:
        """The status of work that is done as that user: where it is another one, in a process of its own."""
        if not self.is_other():
            return work()
        sys.stdout.flush()
        sys.stderr.flush()
        child = os.fork()
        if child == 0:
            os._exit(self._worked(work))
        try:
            _, status = os.waitpid(child, 0)
        except BaseException:
            os.kill(child, signal.SIGTERM)
            os.waitpid(child, 0)
            raise
        return max(os.waitstatus_to_exitcode(status), 0) if os.WIFEXITED(status) else 1

    def do(self, work: Callable[[], Any]) -> Any:
        """What work comes to that is done as that user: a value that JSON can have. Its `DeskError` is raised here."""
        if not self.is_other():
            return work()
        reading, writing = os.pipe()

        def reported() -> int:
            try:
                found = {"value": work()}
            except DeskError as error:
                found = {"fault": str(error)}
            with open(writing, "w", encoding="utf-8") as file:
                json.dump(found, file)
            return 0

        with open(reading, encoding="utf-8") as file:
            try:
                status = self.carry_out(reported)
            finally:
                os.close(writing)
            text = file.read()
        if status != 0 or not text:
            raise DeskError("the work of the vaults' owner ended before its end")
        found = json.loads(text)
        if "fault" in found:
            raise DeskError(found["fault"])
        return found["value"]

    def _worked(self, work: Callable[[], int]) -> int:
        """The status of work, after this process has become the user for good."""
        status = 1
        try:
            os.setgroups([])
            os.setgid(self.gid)
            os.setuid(self.uid)
            status = work()
        except DeskError as error:
            say(f"vaultdesk: {error}")
            status = error.status
        except BaseException:
            traceback.print_exc()
        finally:
            sys.stdout.flush()
            sys.stderr.flush()
        return status


def is_roots(folder: Path) -> bool:
    """Whether nobody but root may lay a file or a link in a folder, or another folder in its place."""
    there, *above = (it.stat() for it in (folder.resolve(), *folder.resolve().parents))
    others = stat.S_IWGRP | stat.S_IWOTH
    is_kept = all(it.st_uid == 0 and (not it.st_mode & others or it.st_mode & stat.S_ISVTX) for it in above)
    return there.st_uid == 0 and not there.st_mode & others and is_kept


def owner_of(path: Path) -> Owner:
    """The owner of a file or folder. `DeskError` where it isn't there."""
    try:
        found = path.stat()
    except OSError as error:
        raise DeskError(f"{path}: {error.strerror}") from error
    return Owner(found.st_uid, found.st_gid)
