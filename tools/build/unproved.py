"""A program as `rt try` builds it: of the sources as they stand, unproved, with checks of each access to memory."""

import contextlib
import os
import pathlib
import subprocess
import time


def running(folder):
    """The words of the first run of a program that was built in this folder, if there is one now."""
    for it in pathlib.Path("/proc").glob("[0-9]*/cmdline"):
        with contextlib.suppress(OSError):
            words = it.read_bytes().decode(errors="replace").split("\0")[:-1]
            for at, word in enumerate(words):
                if word.startswith(f"{folder}/") and word.endswith("/program"):
                    return words[:at], word
    return None


def built(options, crate, folder, given=os.devnull, pause=0.02):
    """What `rt try` builds of a crate in its folder: the words in front of a program and its bytes, taken from a run
    that the tool has begun, with the file `given` as its standard input; or none, and what the tool says. It looks for
    such a run every `pause` seconds."""
    said = pathlib.Path(folder) / "said"
    with open(said, "w") as out, open(given) as script:
        how = {"stdin": script, "stdout": out, "stderr": out, "env": {**os.environ, "TMPDIR": str(folder)}}
        tool = subprocess.Popen(["rt", "try", *options], cwd=crate, **how)
        try:
            while tool.poll() is None:
                found = running(folder)
                if found:
                    with contextlib.suppress(FileNotFoundError):
                        return (found[0], pathlib.Path(found[1]).read_bytes()), ""
                time.sleep(pause)
        finally:
            tool.terminate()
            tool.wait()
    return None, said.read_text()
