"""A program as the gate builds it, proved, which is handed in."""

import contextlib
import os
import pathlib
import subprocess
from collections.abc import Iterator

HERE = pathlib.Path(__file__).resolve().parent


class Loaded:
    """A proved program with a library loaded into it that answers some of its calls. `refused_allocation` refuses an
    allocation, `failed_reading` fails a reading of the monotonic clock, `shown_clock` sets what the machine's clock shows,
    and `small_buffers` gives connections small send buffers.

    The program isn't altered. The library is compiled with `CC` or `cc` into the folder."""

    def __init__(self, program: str | pathlib.Path, folder: str | pathlib.Path, what: str = "refused_allocation") -> None:
        self.program = pathlib.Path(program).resolve()
        self.what, self.library = what, pathlib.Path(folder) / f"{what}.so"
        compiler = os.environ.get("CC", "cc")
        words = [compiler, "-O2", "-shared", "-fPIC", "-o", str(self.library), str(HERE / f"{what}.c")]
        subprocess.run(words, check=True)

    def front(self, number: int) -> list[str]:
        """The words in front of the program that load the library with its number: that of the call that fails (0 for no
        call), or the seconds that the clock shows."""
        return ["/usr/bin/env", f"LD_PRELOAD={self.library}", f"{self.what.upper()}={number}"]

    @contextlib.contextmanager
    def refusing(self, number: int) -> Iterator[list[str]]:
        """The words that run it with that allocation refused; with a number that no run comes to none is."""
        yield [*self.front(number), str(self.program)]
