"""Mutants that are given to the prover, in a copy of the sources, at most one of a function at a time."""

import pathlib
import re
import tempfile
from concurrent.futures import ThreadPoolExecutor

from checked_copies import OWN_FAULT, PROVED, checked, copy_sources, judged, why_unread
from numbered_bodies import Body

# The head of an impl: its trait, if it is of one, its type, and the type's arguments.
IMPL = re.compile(r"impl(?:<.*?>)? (?:(?:\w+::)*(\w+)(?:<.*>)? for )?(\w+)(?:<(.*)> \{)?")
# A fact has the name of its condition. This is what the prover says of a proof that uses the name of another condition.
RENAMED = re.compile(
    r"(?:\./)?(proofs/\S+?\.antt):\d+:\d+: error: .* has no (?:field|type) `([\w-]+)` \(nearest: \.?([\w-]+)\)"
)
# The files of proofs that use a name which isn't there.
NAMED = re.compile(r"proofs/\S*(?=.*has no)")


def name_in(body: Body, text: str) -> str:
    """The name by which a check knows a body's function: its path in the crate; of a method only its type, as that may
    be of another module."""
    above = text.split("\n")[: body.line]
    lines = [it for it in above if IMPL.match(it) or it == "}"]
    method = IMPL.match(lines[-1]) if lines else None
    if method:
        # A type is named with its arguments where these aren't its parameters alone.
        within = re.findall(r"(?<!')\b\w+", method[3] or "") if "<" in (method[3] or "") else []
        return f"{'+'.join([method[2], *within])}{method[1] or ''}::{body.name}"
    module = pathlib.Path(body.path).with_suffix("").parts[3:]
    return "::".join([body.crate, *(it for it in module if it not in ("lib", "main")), body.name])


class Files:
    """Files that have other texts for a while."""

    def __init__(self) -> None:
        self.whole: dict[pathlib.Path, str] = {}

    def write(self, file: pathlib.Path, text: str) -> None:
        self.whole.setdefault(file, file.read_text(encoding="utf-8"))
        file.write_text(text, encoding="utf-8")

    def __enter__(self) -> "Files":
        return self

    def __exit__(self, *_: object) -> None:
        for file, text in self.whole.items():
            file.write_text(text, encoding="utf-8")


def with_names(folder: pathlib.Path, said: str) -> dict[pathlib.Path, str]:
    """The proofs that use the old name of a fact, with the new one in its place."""
    found: dict[pathlib.Path, str] = {}
    for path, old, new in set(RENAMED.findall(said)):
        text = found.get(folder / path) or (folder / path).read_text(encoding="utf-8")
        found[folder / path] = re.sub(rf"(?<![\w-]){re.escape(old)}(?![\w-])", new, text)
    return found


class Prover:
    """A copy of the sources, in which bodies are put."""

    def __init__(self, room: pathlib.Path) -> None:
        self.room = room

    def name_of(self, body: Body) -> str:
        return name_in(body, (self.room / body.path).read_text(encoding="utf-8"))

    def check(self, bodies: list[Body]) -> tuple[int, str]:
        """The status of a check of these bodies' functions, of one crate, as they stand, and what it says."""
        only = (word for name in sorted({self.name_of(it) for it in bodies}) for word in ("--only", name))
        return checked(self.room / "crates" / bodies[0].crate, "--jobs", "1", *only)

    def check_with(self, bodies: list[Body]) -> tuple[int, str]:
        """The same with the bodies put in. A proof that uses the name of a fact of the right body gets the name that
        the wrong one has."""
        folder = self.room / "crates" / bodies[0].crate
        with Files() as files:
            for it in bodies:
                lines = (self.room / it.path).read_text(encoding="utf-8").split("\n")
                lines[it.line - 1] = it.text
                files.write(self.room / it.path, "\n".join(lines))
            for _ in range(4):
                status, said = self.check(bodies)
                renamed = with_names(folder, said)
                for file, text in renamed.items():
                    files.write(file, text)
                if not renamed:
                    break
        return status, said

    def round_of(self, bodies: list[Body]) -> dict[Body, str]:
        """What the prover says of these bodies, of functions of one crate, as far as it judges each by its function."""
        _, said = self.check_with(bodies)
        if why_unread(said):
            return {}
        refused, named = OWN_FAULT.findall(said), " ".join(NAMED.findall(said))
        found = {}
        for it in bodies:
            name = self.name_of(it)
            if f"/{it.name}/" not in named and any(f"::{other}".endswith(f"::{name}") for other in refused):
                found[it] = f"refused at {name}"
            elif re.search(rf"(?m)^fn (?:\S+::)?{re.escape(name)}: proved", said):
                found[it] = PROVED
        return found

    def prove(self, bodies: list[Body]) -> None:
        """Gives the prover each body of a crate, whose functions have to be proved as they are, and prints what comes
        of it."""
        if self.check(bodies)[0]:
            print(f"{bodies[0].crate}: the functions aren't proved as they are", flush=True)
            return
        left = bodies
        while left:
            together = list({(it.path, it.name): it for it in reversed(left)}.values())[::-1]
            found = self.round_of(together) if len(together) > 1 else {}
            for it in together:
                print(f"{it}: {found.get(it) or judged(*self.check_with([it]))[1]}", flush=True)
            left = [it for it in left if it not in together]


def prove_each(bodies: list[Body], jobs: int) -> None:
    """Gives the prover each body, some crates at once, and prints what comes of it."""
    crates = sorted({it.crate for it in bodies})
    with tempfile.TemporaryDirectory(prefix="bodies-to-prove-") as name:
        prover = Prover(pathlib.Path(name))
        copy_sources(prover.room)
        with ThreadPoolExecutor(jobs) as pool:
            list(pool.map(lambda crate: prover.prove([it for it in bodies if it.crate == crate]), crates))
