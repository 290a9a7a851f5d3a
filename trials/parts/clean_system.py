"""A clean system in a folder, in which commands run: debootstrap makes it, or it is a copy of TRIALS_ROOT."""

import os
import pathlib
import shutil
import subprocess
import unittest

from trials.parts.program import check, ran_words
from trials.parts.servers import free_port

MIRROR = os.environ.get("MIRROR", "http://deb.debian.org/debian")


def said(*words, **how):
    """What a command prints that has to end well."""
    ran = ran_words(*words, stderr=subprocess.STDOUT, timeout=None, **how)
    check(ran.status == 0, f"{words}: {ran}")
    return ran.out


needs_system = unittest.skipUnless(
    os.geteuid() == 0 and (os.environ.get("TRIALS_ROOT") or shutil.which("debootstrap")),
    "this isn't root, or there is no debootstrap: nothing is installed",
)


class Root:
    """A clean system with these packages, or a copy of one that was made before."""

    def __init__(self, folder, included):
        self.folder, self.port = pathlib.Path(folder), free_port()
        self.folder.mkdir(mode=0o755)
        made = os.environ.get("TRIALS_ROOT")
        if made:
            said("cp", "-a", f"{made}/.", folder)
        else:
            said("debootstrap", "--variant=minbase", f"--include={included}", "bookworm", folder, MIRROR)
        (self.folder / "dev/null").exists() or said("mknod", "-m", "666", self.folder / "dev/null", "c", "1", "3")

    def run(self, script, status=0, **how):
        env = {"PATH": "/usr/local/bin:/usr/sbin:/usr/bin:/sbin:/bin", "HOME": "/root", "LANG": "C.UTF-8"}
        words = ["chroot", self.folder, "sh", "-euc", script]
        ran = ran_words(*words, stderr=subprocess.STDOUT, env=env, timeout=600, **how)
        check(ran.status == status, f"in the clean system {script!r} has status {ran.status}: {ran.out}")
        return ran.out

    def put(self, source, path):
        shutil.copy(source, self.folder / path.lstrip("/"))
