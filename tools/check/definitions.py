"""The definitions that clauses stand on: those of this repository that one has to read to believe them.

The promises of a page are the clauses that it links to. From the names in a clause the way goes by the `use` lines of
its file to the definitions, from these to the ones that they name, and so on; a type of the code is read in src/, with
what it stands for. What the kit defines isn't counted. Of a reader that laws describe the laws are followed, and its
definition isn't.
"""

import collections
import dataclasses
import functools
import re

import source_names as names

TOP = names.TOP
LINK = re.compile(r"\[([^\[\]]*`[^\[\]]*)\]\(\.\./(crates/[^)#\s]+)#L\d+\)")
USE = re.compile(r"use Rattle\.(\w+)\.(specs(?:\.\w+)*)(?:\.\{([^}]*)\}| as (\w+))?;?\s*$")
PASSED_ON = re.compile(r"pub use Rattle\.(\w+)\.(specs\.\S+)")
WORD = re.compile(r"[A-Za-z_][\w']*(?:\.[A-Za-z_][\w']*)*")
KINDS = "abbrev|unfoldable|opaque|record|data|pub record|pub data"
DECLARED = re.compile(rf"^ {{0,2}}(?:{KINDS}) (?:pub )?(◌\S+◌|[^\s:(){{}}=]+) |^([^\s:(){{}}=]+) :(?: |$)")
TYPE = re.compile(r"^pub (?:struct|enum|trait) (\w+)")
GHOST = re.compile(r"\s*(?:pub )?ghost (?!use)")
COMMENTS = ("-- ", "///", "//!", "#[")
# The readers that laws among the promises describe, each with these laws: which texts it takes, and as what. Where
# values of a text are at fault, its definition alone says which refusal comes, and of several which one first.
READERS = {
    ("vault_base_time/specs/Moment.antt", "moment_of"): "Moment::read",
    ("vault_lines_read/specs/ReadLine.antt", "line_of"):
        "commands_are_spelled other_shapes_are_malformed empty_lines_are_skipped",
    ("vault_lines_read/specs/Stamped.antt", "stamped_line_of"):
        "stamped_commands_are_spelled other_timeless_shapes_are_malformed empty_timeless_lines_are_skipped",
    ("vault_http_request/specs/Command.antt", "command_of"): "bodies_are_spelled other_bodies_are_malformed",
}
# The first line of a function's body, or the last one of a function without a body; a comment is neither.
ENDED = re.compile(r"\s*\{|(?!\s*//).*;$")


class Source:
    """A file: its pieces by name, each the numbers of its lines, and what its `use` lines bring in.

    Of a .antt file the pieces are its definitions, of a .rt file its types and traits.
    """

    def __init__(self, path):
        self.lines = path.read_text(encoding="utf-8").splitlines()
        self.uses, self.aliases = {}, {}
        for line in self.lines:
            self.read_use(line)
        self.pieces = dict(types_in(self.lines) if path.suffix == ".rt" else definitions_in(self.lines))

    def read_use(self, line):
        use = USE.search(line)
        if not use:
            return
        crate, module, brought, alias = use.groups()
        if alias:
            self.aliases[alias] = (crate, module)
        for it in (brought or "").split(","):
            name, _, renamed = it.strip().partition(" as ")
            self.uses[renamed or name] = (crate, module, name)

    def text_of(self, piece):
        """What a piece says outside comments."""
        lines = [self.lines[it] for it in self.pieces[piece]]
        return "\n".join(it for it in lines if not it.lstrip().startswith(("--", "//")))

    def named_in(self, text):
        """The definitions that a text names: (crate, module, name), or (None, None, name) for one of this file."""
        found = set()
        for word in WORD.findall(text):
            first, *rest = word.split(".")
            if first in self.aliases and rest:
                found.add((*self.aliases[first], rest[0]))
            for part in (first, *rest):
                if part in self.uses:
                    found.add(self.uses[part])
                elif part in self.pieces:
                    found.add((None, None, part))
        for operator in (it for it in {*self.uses, *self.pieces} if "◌" in it):
            if operator.strip("◌") in text or (operator == "◌>>=◌" and "←" in text):
                found.add(self.uses.get(operator, (None, None, operator)))
        return found


@functools.cache
def source(path):
    return Source(path)


def definitions_in(lines):
    """The definitions of a .antt file: from the comment above each to the one above the next."""
    heads = [(at, DECLARED.match(line)) for at, line in enumerate(lines)]
    starts = [(with_comment(lines, at), head.group(1) or head.group(2)) for at, head in heads if head]
    ends = [start for start, _ in starts[1:]] + [len(lines)]
    for (start, name), end in zip(starts, ends):
        yield name, [it for it in range(start, end) if lines[it].strip()]


def types_in(lines):
    """The types and traits of a .rt file; of a trait with its clauses, and of a type with what it stands for."""
    for at, line in enumerate(lines):
        head = TYPE.match(line)
        if head:
            own = range(with_comment(lines, at), end_of_item(lines, at))
            yield head.group(1), [it for it in own if lines[it].strip()] + ghosts_of(lines, head.group(1))


def ghosts_of(lines, name):
    """The lines of the type's `impl` blocks that define what it stands for in contracts."""
    impls = [at for at, line in enumerate(lines) if re.match(rf"impl\b.* for {name}\b", line)]
    return [it for at in impls for it in range(at, end_of_item(lines, at)) if GHOST.match(lines[it])]


def with_comment(lines, at):
    """Where the comment above a line begins; the first line of a file is the file's own."""
    while at > 1 and lines[at - 1].lstrip().startswith(COMMENTS):
        at -= 1
    return at


def end_of_item(lines, at):
    """The line after an item that begins there: one that ends on that line, or at a brace at the margin."""
    if lines[at].rstrip().endswith((";", "}")):
        return at + 1
    return next((it + 1 for it in range(at + 1, len(lines)) if lines[it].startswith("}")), len(lines))


@functools.cache
def homes(crate, module):
    """The files that a module may be: its own, that of a crate which is passed on, or the code of a type."""
    folder = TOP / "crates" / crate
    parts = module.split(".")[1:]
    if not folder.exists() or not parts:
        return []
    if parts[0] == "declared":
        return sorted(it for it in folder.glob("src/**/*.rt") if it.stem in parts)
    file = folder / "specs" / ("/".join(parts) + ".antt")
    if file.exists():
        return [file]
    passed = PASSED_ON.findall((folder / "specs" / "Lib.antt").read_text(encoding="utf-8"))
    return [home for of, it in passed if it.split(".")[-1] == parts[-1] for home in homes(of, it)]


def pieces_of(crate, module, name):
    """The pieces that a name of a module is: of a type's cases the type."""
    parts = module.split(".")
    wanted = {name, *(parts[-2:] if "declared" in parts else [])}
    return {(file, it) for file in homes(crate, module) for it in wanted if it in source(file).pieces}


@dataclasses.dataclass(frozen=True)
class Promise:
    """What a link of a page promises, or a part of it: a clause, or a definition or type that is linked by its name."""

    path: str
    name: str
    clause: str
    text: str


def clauses_of(function, named):
    """The texts of a function's conditions, and of its clauses: those named, or all of them; each with its name."""
    lines = source(TOP / function.path).lines
    ends = (it for it in range(function.line, len(lines)) if ENDED.match(lines[it]))
    end = next(ends, len(lines) - 1) + 1
    starts = [it for it in range(function.line, end) if re.match(r"\s*(ensures|requires)\b", lines[it])]
    for start, stop in zip(starts, [*starts[1:], end]):
        kind, name = re.match(r"\s*(ensures|requires) (\w*)", lines[start]).groups()
        if kind == "requires" or not named or name in named:
            yield name if kind == "ensures" else "", "\n".join(lines[start:stop])


def promises_of(page):
    """The promises of a page, in the order of its links."""
    for said, path in LINK.findall(page.read_text(encoding="utf-8")):
        first, *named = re.findall(r"`([^`]+)`", said)
        owner, _, name = first.rpartition("::")
        for function in names.functions():
            if function.path == path and function.name == name and function.owner == owner:
                for clause, text in clauses_of(function, named):
                    # A condition is part of each clause that is linked.
                    yield from (Promise(path, first, it, text) for it in ([clause] if clause else named or [""]))
        yield from (Promise(path, first, it, first) for it in named or [""])


def pieces_from(waiting, known=frozenset()):
    """The pieces that names lead to, and those that these name: file to names. Known readers aren't gone through."""
    there = collections.defaultdict(set)
    while waiting:
        file, (crate, module, name) = waiting.pop()
        for home, piece in {(file, name)} if crate is None else pieces_of(crate, module, name):
            if piece not in there[home] and (home, piece) not in known:
                there[home].add(piece)
                waiting += [(home, it) for it in source(home).named_in(source(home).text_of(piece))]
    return {file: pieces for file, pieces in there.items() if pieces}


def readers():
    """The readers that laws describe: each as the file that it is in, and its name."""
    return {(TOP / "crates" / file, name) for file, name in READERS}


@functools.cache
def reached(page, is_asked=None):
    """The pieces of definitions that promises of a page reach, but for those of readers that laws describe.

    All of its promises, or those that are asked for.
    """
    asked = [it for it in promises_of(page) if is_asked is None or is_asked(it)]
    named = [(TOP / it.path, name) for it in asked for name in source(TOP / it.path).named_in(it.text)]
    return pieces_from(named, readers())


@functools.cache
def known_by_laws(page):
    """The pieces that only those readers reach: they say which refusal comes first."""
    there = pieces_from([(file, (None, None, name)) for file, name in readers()])
    found = {file: pieces - reached(page).get(file, set()) for file, pieces in there.items()}
    return {file: pieces for file, pieces in found.items() if pieces}


def laws_left_out(page):
    """The laws of readers that a page doesn't link to."""
    linked = {re.findall(r"`([^`]+)`", said)[0] for said, _ in LINK.findall(page.read_text(encoding="utf-8"))}
    return sorted(law for laws in READERS.values() for law in laws.split() if law not in linked)
