"""Pages: the commands that they show, and what these print.

In a block of a page that begins with ```console, a line `$ COMMAND` is carried out by sh, and the lines after
it, up to the next command, are what it prints on standard output and standard error. A line that is only `..`
is for any lines. The port 8080 is for one that is free. After a command that starts something with `&`, the
next one is given again for half a minute, until it prints what is shown. A command that begins by setting a variable
(`NAME=`) counts for all later commands of its page. Where curl or sqlite3 isn't there, commands that use it are passed
over, and the test that comes last is skipped, which names them.

Each page has a new folder of its own, in which `vault` is the program and `contrib` the folder of this repository;
`vaultctl`, `vaultdesk` and `vault-recheck` are found as if they were installed.

`printed_as_shown` also carries them out in a system in which the package is, or that it is installed in, with nothing
of this repository beside it: a block that begins with ```root has commands `# COMMAND`, which root carries out there,
and all others are those of a user who is nobody. Here such blocks are passed over.
"""

import contextlib
import os
import pathlib
import re
import shutil
import signal
import subprocess
import tempfile
import time

from trials.parts.program import CONTRIB, DESK, NOBODY, PROGRAM, TOP, Case, a_test_each, check
from trials.parts.servers import free_port

# The pages whose commands are tried here; others need vaults beside them, or a system in which the package is.
PAGES = """
    README.md contrib/README.md docs/MANUAL.md docs/AUDITOR.md docs/COURT.md docs/ENGINEER.md docs/formats/PROGRAM.md
    docs/OFFICES.md docs/ARCHIVES.md docs/PRIVACY.md docs/RECORDS.md
""".split()
PROMPTS = {"```console": "$ ", "```root": "# "}
PORT = "8080"
# What a machine may lack.
OTHERS = re.compile(r"(?:^|[|;] *)(curl|sqlite3) ")
SETS = re.compile(r"[A-Za-z_]\w*=")
# How long a command may take, and how long one after a command in the background is given again, in seconds.
LIMIT, PATIENCE = 300, 30


def commands(page):
    """The commands of a page, each with its line, whether it is root's, and with what it is to print."""
    prompt, command = None, None
    for number, line in enumerate(page.split("\n"), 1):
        if line.startswith("```"):
            prompt, command = PROMPTS.get(line), None
        elif prompt and line.startswith(prompt):
            command = {"line": number, "words": line[2:], "prints": [], "is_root": prompt == "# "}
            yield command
        elif prompt and command is None:
            check(False, f"line {number}: a block begins with no command")
        elif prompt and is_continued(command):
            command["words"] += "\n" + line
        elif prompt:
            command["prints"].append(line)


def is_continued(command):
    """Whether the next line belongs to the command: after a backslash, or in a text that `<<END` begins."""
    words = command["words"]
    if "<<END" in words:
        return not words.endswith("\nEND")
    return words.endswith("\\")


def pattern(lines):
    """What lines may be printed."""
    return "".join("(?:.*\n)*?" if it == ".." else re.escape(it + "\n") for it in lines)


class Here:
    """A folder of this system, with the program and what stands beside it."""

    def __init__(self, folder):
        self.folder = folder / "page"
        self.folder.mkdir()
        self.path = folder / "bin"
        self.path.mkdir()
        (self.path / "vaultctl").symlink_to(PROGRAM)
        (self.folder / "vault").symlink_to(PROGRAM)
        (self.folder / "contrib").symlink_to(CONTRIB)

    def runs(self, command):
        """Whether a command is carried out here."""
        return not command["is_root"] and all(map(shutil.which, OTHERS.findall(command["words"])))

    def how(self, command, words):
        path = f"{self.path}:{DESK.parent}:{CONTRIB}:{os.environ['PATH']}"
        return ["sh", "-c", words], {"cwd": self.folder, "env": {**os.environ, "PATH": path, "XDG_CACHE_HOME": str(self.path)}}


class Installed:
    """A folder of a system in which the package is installed."""

    def __init__(self, folder, root):
        self.folder = folder
        self.root = root
        folder.chmod(0o755)
        os.chown(folder, NOBODY, NOBODY)

    def runs(self, command):
        return True

    def how(self, command, words):
        words = f"cd /{self.folder.relative_to(self.root)} || exit\n{words}"
        who = [] if command["is_root"] else ["runuser", "-u", "nobody", "--"]
        env = {"PATH": "/usr/local/bin:/usr/sbin:/usr/bin:/sbin:/bin", "HOME": "/tmp", "LANG": "C.UTF-8"}
        return ["chroot", self.root, *who, "sh", "-c", words], {"env": env}


@contextlib.contextmanager
def groups():
    """Process groups, of which nothing is left running at the end."""
    begun = []
    try:
        yield begun
    finally:
        for it in begun:
            with contextlib.suppress(ProcessLookupError):
                os.killpg(it, signal.SIGTERM)


def printed(place, command, port, begun):
    words, how = place.how(command, re.sub(rf"\b{PORT}\b", port, command["words"]))
    shell = subprocess.Popen(words, stdout=subprocess.PIPE, stderr=subprocess.STDOUT, start_new_session=True, **how)
    begun.append(shell.pid)
    return re.sub(rf"\b{port}\b", PORT, shell.communicate(timeout=LIMIT)[0].decode())


def try_commands(page, place, begun):
    """Fails unless the commands of a page print what it shows; how many there are."""
    port, is_after, count, variables = str(free_port()), False, 0, ""
    for it in list(commands(page.read_text(encoding="utf-8"))):
        if not place.runs(it):
            continue
        it["words"] = variables + it["words"]
        if SETS.match(it["words"], len(variables)):
            variables = it["words"] + "\n"
        until = time.monotonic() + (PATIENCE if is_after else 0)
        given = printed(place, it, port, begun)
        while not re.fullmatch(pattern(it["prints"]), given):
            check(time.monotonic() < until, f"{page}:{it['line']}: wanted {it['prints']}, got {given.splitlines()}")
            time.sleep(0.1)
            given = printed(place, it, port, begun)
        is_after = bool(re.search(r" &(?: |$)", it["words"]))
        count += 1
    return count


def printed_as_shown(page, root=None, beside=None):
    """Carries out the commands of a page, in the system of that folder if there is one, with copies of those files
    beside them, and fails where one prints something else; how many there are."""
    with tempfile.TemporaryDirectory(prefix="page-", dir=root and root / "tmp") as name, groups() as begun:
        place = Installed(pathlib.Path(name), root) if root else Here(pathlib.Path(name))
        if beside:
            shutil.copytree(beside, place.folder, dirs_exist_ok=True)
        count = try_commands(TOP / page, place, begun)
    check(count, f"{page} shows no command")
    return count


@a_test_each(PAGES)
class Pages(Case):
    def look_at(self, page):
        printed_as_shown(page)

    def test_zz_nothing_is_missing(self):
        missing = [it for it in ("curl", "sqlite3") if not shutil.which(it)]
        if missing:
            self.skipTest(f"there is no {' and no '.join(missing)}: commands that use it aren't tried")
