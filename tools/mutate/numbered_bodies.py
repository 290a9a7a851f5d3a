"""The sources with mutants, of which a program chooses one by its number."""

import pathlib
import re
import shutil
from typing import Iterator, NamedTuple

TOP = pathlib.Path(__file__).resolve().parents[2]
# Crates that are for tests alone.
OF_TESTS = re.compile(r"vault_(tests|failing|transcript)")
# A crate whose one function answers whether a body is chosen. `tools/mutate/chosen_body.c` takes its place.
CHOSEN = "vault_chosen"
SOURCE = """//! Which body is chosen.
#![tactic(auto)]

/// 1 if the body of that number is chosen.
pub fn chosen(number: u32) -> u32 {
    number / number.max(1)
}
"""


class Body(NamedTuple):
    """A body: its number, where it is put, what differs in it, and the text of its line. Bodies of one key are left out
    together, where they don't compile."""

    number: int
    crate: str
    path: str
    line: int
    name: str
    what: str
    text: str
    key: str

    def __str__(self) -> str:
        return f"{self.crate}: {self.name} ({pathlib.Path(self.path).name}:{self.line}) {self.what}"


class Function(NamedTuple):
    """A function with a body: its name, its head up to its answer, that one's type, and three lines: where it begins,
    at whose end its body begins, and where it ends."""

    name: str
    head: str
    answer: str
    begin: int
    line: int
    end: int


def crates_below(crate: str) -> set[str]:
    """The crates of the repository that a crate stands on, and that crate; not those that are for tests alone."""
    graph: dict[str, list[str]] = {}
    for line in (TOP / "crates.txt").read_text().split("\n"):
        name, colon, below = line.partition(":")
        if colon and not name.startswith("#"):
            graph[name.strip()] = below.split()
    found: set[str] = set()
    left = [crate]
    while left:
        it = left.pop()
        if it in graph and it not in found:
            found.add(it)
            left += graph[it]
    return {it for it in found if not OF_TESTS.match(it)}


def after_parameters(signature: str) -> int:
    """Where the parameters of a signature end."""
    depth = 0
    for at in range(signature.index("(", signature.index("fn ")), len(signature)):
        depth += {"(": 1, ")": -1}.get(signature[at], 0)
        if depth == 0:
            return at + 1
    return len(signature)


def functions(text: str) -> Iterator[Function]:
    """The functions with a body."""
    lines = text.split("\n")
    for begin, line in enumerate(lines):
        head = re.match(r"^(\s*)(?:pub(?:\([a-z]+\))? )?fn (\w+)", line)
        if not head:
            continue
        end = begin
        whole = [head[1] + it for it in ("{", "{}")]
        while end < len(lines) and lines[end] not in whole and not lines[end].endswith((" {", ";", " {}")):
            end += 1
        if end < len(lines) and lines[end].endswith("{"):
            signature = " ".join(it.strip() for it in lines[begin : end + 1] if not it.strip().startswith("//"))
            signature = re.split(r" (?:ensures|requires|where|ghost|decreases|measure)\b", signature)[0]
            signature = signature.removesuffix("{").strip()
            at = after_parameters(signature)
            answer = signature[at:].strip().removeprefix("->").strip()
            yield Function(head[2], signature[:at], answer, begin, end, lines.index(head[1] + "}", end))


def without_tests(text: str) -> str:
    """The text up to its tests, if it has some."""
    return text.split("\n#[cfg(test)]\nmod tests {")[0]


def each_function(folder: pathlib.Path, crates: set[str]) -> Iterator[tuple[str, str, Function, list[str]]]:
    """The functions in a copy of the crates: the crate of each, its file, itself, and the file's lines. These may be
    changed; they are written once the functions of the next file are asked for."""
    for crate in sorted(crates):
        for path in sorted((folder / "crates" / crate / "src").rglob("*.rt")):
            text = path.read_text()
            lines = text.split("\n")
            for it in functions(without_tests(text)):
                yield crate, str(path.relative_to(folder)), it, lines
            path.write_text("\n".join(lines))


def make_copy(folder: pathlib.Path, crates: set[str]) -> None:
    """The sources, with the crate that chooses below each that is tried."""
    shutil.copytree(TOP / "crates", folder / "crates", ignore=shutil.ignore_patterns("out", "must-fail"))
    (folder / "HANDLES").write_text((TOP / "HANDLES").read_text())
    lines = [
        f"{it} {CHOSEN}" if it.partition(":")[0] in crates else it
        for it in (TOP / "crates.txt").read_text().split("\n")
    ]
    (folder / "crates.txt").write_text(f"{CHOSEN}:\n" + "\n".join(lines))
    source = folder / "crates" / CHOSEN / "src"
    source.mkdir(parents=True)
    (source / "lib.rt").write_text(SOURCE)
