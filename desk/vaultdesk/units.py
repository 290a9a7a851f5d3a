"""A vault with units: its configuration, its server, and that one of the desk's jobs works on it at a time."""

from __future__ import annotations

import fcntl
import os
import subprocess
import sys
import time
from collections.abc import Iterator
from contextlib import contextmanager
from dataclasses import dataclass
from pathlib import Path

from vaultdesk import conf, config
from vaultdesk.door import LinesDoor
from vaultdesk.errors import DeskError
from vaultdesk.output import say
from vaultdesk.owner import Owner, owner_of, signals_raise, signals_wait

RUNNING = ("active", "activating", "reloading", "deactivating")
LONGEST_WAIT = 3_600  # seconds that a job waits for another one


@dataclass
class Standstill:
    """What became of a server for the sake of a job: whether it was stopped, and whether it was started."""

    stopped: bool = False
    started: bool = False


class Busy(DeskError):
    """Another job works on the vault."""


def systemctl(*words: str) -> tuple[int, str]:
    """The status of systemctl, and what it prints on standard output."""
    sys.stdout.flush()
    try:
        done = subprocess.run(["systemctl", *words], stdout=subprocess.PIPE, check=False)
    except OSError as error:
        raise DeskError(f"systemctl: {error.strerror}: this is for a machine with systemd") from error
    return done.returncode, done.stdout.decode("utf-8", "replace").strip()


class Served:
    """A vault of this machine that has a configuration, and so units."""

    def __init__(self, name: str) -> None:
        self.conf = conf.read(name)
        self.name = name
        self.folder = conf.vaults_folder()
        self.file = self.folder / f"{name}.vault"
        self.unit = f"vault-serve@{name}.service"

    def owner(self) -> Owner:
        """The vaults' owner: the owner of their folder."""
        return owner_of(self.folder)

    def state(self) -> str:
        """The state of the server's unit: active, activating, failed, inactive .."""
        return systemctl("is-active", self.unit)[1]

    def door(self, patience: float | None = None) -> LinesDoor:
        """The door at which the server takes lines, as its unit says."""
        return LinesDoor(str(conf.lines_of(self.name)), patience)

    def process(self) -> int | None:
        """The server's process, as systemd has it; none where none runs."""
        number = systemctl("show", "-P", "MainPID", self.unit)[1]
        return int(number) if number.isdecimal() and int(number) else None

    def is_enabled(self) -> bool:
        """Whether the server is to run."""
        return systemctl("is-enabled", self.unit)[1].startswith("enabled")

    @contextmanager
    def locked(self, patience: float) -> Iterator[None]:
        """Has the lock of the vault's jobs. `Busy` where another job has it for longer than that."""
        lock = conf.make_run_folder() / f"{self.name}.lock"
        with open(os.open(lock, os.O_WRONLY | os.O_CREAT, 0o600), "wb") as file:
            until = time.monotonic() + patience
            while True:
                try:
                    fcntl.flock(file, fcntl.LOCK_EX | fcntl.LOCK_NB)
                    break
                except BlockingIOError:
                    if time.monotonic() >= until:
                        raise Busy(f"another job works on the vault {self.name}") from None
                    time.sleep(0.1)
            yield

    @contextmanager
    def alone(self) -> Iterator[None]:
        """No other job works on the vault, and it is root who asks. What is made is its owner's alone."""
        if os.geteuid() != 0:
            raise DeskError("this is for root: it stops and starts a server")
        os.umask(0o077)
        with self.locked(LONGEST_WAIT):
            yield

    @contextmanager
    def standing_still(self, serves_anyway: bool = False, seen: Standstill | None = None) -> Iterator[None]:
        """The server is stopped, if it runs, and started again, however what is done meanwhile ends.

        With `serves_anyway` it is started in any case. `seen` gets what became of it. `DeskError` where it
        doesn't start."""
        if not serves_anyway and self.state() not in RUNNING:
            yield
            return
        seen = seen or Standstill()
        with signals_raise():
            try:
                if systemctl("stop", self.unit)[0] != 0:
                    raise DeskError(f"the server doesn't stop: see systemctl status {self.unit}")
                seen.stopped = True
                yield
            finally:
                seen.started = self._start()
            if not seen.started:
                raise DeskError("what was asked is done")

    def _start(self) -> bool:
        """Starts the server. Starts that systemd counted before don't hinder this one."""
        with signals_wait():
            systemctl("reset-failed", self.unit)
            if systemctl("start", self.unit)[0] == 0:
                return True
        say(f"the server of the vault {self.name} doesn't start: see systemctl status {self.unit}")
        return False

    def forget_alarm(self, unit: str) -> None:
        """Forgets that a failure of this unit was reported: the next one is reported at once."""
        (conf.run_folder() / f"alarm.{unit}@{self.name}").unlink(missing_ok=True)

    def verdict(self, file: Path) -> str:
        """What the engine's audit, by the vault's owner, says of a file: `sound`, or what is wrong."""
        return self.owner().says([config.program(), "verify", str(file)], self.folder) or "no audit"
