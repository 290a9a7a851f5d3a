"""A machine for tests: an office whose vault has a configuration, with scripts in the place of systemd's programs."""

from __future__ import annotations

import os
from pathlib import Path
from unittest import mock

from tests.office import OfficeTest

UNIT = "vault-serve@records.service"
STOPPED_AND_STARTED = [f"stop {UNIT}", f"reset-failed {UNIT}", f"start {UNIT}"]
# The server is active or enabled where a file says so; what else is asked is noted.
SYSTEMCTL = """\
#!/bin/sh
case $1 in
is-active) cat "$MACHINE/state" ;;
is-enabled) if [ -e "$MACHINE/enabled" ]; then echo enabled; else echo disabled; fi ;;
show) echo 0 ;;
status) echo "the state of $6" ;;
*)
    echo "$*" >> "$MACHINE/asked"
    [ ! -e "$MACHINE/broken" ] || [ "$1" != start ] || exit 1
    case $1 in
    stop) echo inactive > "$MACHINE/state" ;;
    start | restart) echo active > "$MACHINE/state" ;;
    esac
    ;;
esac
"""
TIMEDATECTL = '#!/bin/sh\ncat "$MACHINE/synchronized"\n'
JOURNALCTL = '#!/bin/sh\necho "the journal of $5"\n'


class MachineTest(OfficeTest):
    """The office's vault is `records` of this machine; its server is what a script makes of it."""

    def setUp(self) -> None:
        super().setUp()
        self.machine = self.folder / "machine"
        self.copies = self.folder / "copies"
        programs = self.machine / "bin"
        programs.mkdir(parents=True)
        for name, text in (("systemctl", SYSTEMCTL), ("timedatectl", TIMEDATECTL), ("journalctl", JOURNALCTL)):
            (programs / name).write_text(text)
            (programs / name).chmod(0o755)
        self.set_state("inactive")
        (self.machine / "synchronized").write_text("yes\n")
        environment = {
            "MACHINE": str(self.machine),
            "PATH": f"{programs}:{os.environ['PATH']}",
            "VAULT_CONF": str(self.machine),
            "VAULT_FOLDER": str(self.folder),
            "VAULT_LOCKS": str(self.machine / "locks"),
        }
        self.enterContext(mock.patch.dict(os.environ, environment))
        self.configure()

    def configure(self, name: str = "records", **members: str) -> None:
        """Writes the configuration of a vault, with these members beside its folder of copies."""
        lines = [f"{it}='{value}'" for it, value in {"BACKUP": str(self.copies), "PORT": "8080", **members}.items()]
        (self.machine / f"{name}.conf").write_text("\n".join(lines) + "\n")

    def set_state(self, state: str) -> None:
        """The state of each server from now on."""
        (self.machine / "state").write_text(f"{state}\n")

    def asked(self) -> list[str]:
        """What systemctl was asked to do since this was called last."""
        noted = self.machine / "asked"
        lines = noted.read_text().splitlines() if noted.exists() else []
        noted.unlink(missing_ok=True)
        return lines

    def made(self) -> list[Path]:
        """The files in the folder of copies."""
        return sorted(self.copies.iterdir()) if self.copies.exists() else []
