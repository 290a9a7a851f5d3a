"""The names of the sources: crates, files, functions with their clauses, types, definitions, and where each stands."""

import dataclasses
import functools
import pathlib
import re

TOP = pathlib.Path(__file__).resolve().parents[2]

FUNCTION = re.compile(r"^(\s*)(?:pub(?:\([a-z]+\))? )?(?:const |unsafe )*fn (\w+)")
CLAUSE = re.compile(r"^\s*(?:ensures|requires)\s+(\w+)\s*\{")
IMPL = re.compile(r"^impl(?:<[^{]*?>)? (?:([A-Z]\w*)(?:<.*?>)? for )?&?(?:mut )?([A-Za-z]\w*)")
ITEM = re.compile(r"^\s*(?:pub(?:\([a-z]+\))? )?(struct|enum|trait|type|const|static|mod|union) (\w+)")
GHOST = re.compile(r"^\s*(?:pub )?ghost (?:type )?(\w+)\s*[:={]")
FIELD = re.compile(r"^\s+(?:pub(?:\([a-z]+\))? )?(\w+): ")
VARIANT = re.compile(r"^    ([A-Z]\w*)\s*(?:[({,=]|$)")
DEFINITION = re.compile(r"^\s*(?:(?:abbrev|unfoldable|opaque) )?pub (?:record |data )?(\w+)(?: |$)")
WORD = re.compile(r"[A-Za-z_]\w*")
TEXT = re.compile(r'"((?:[^"\\]|\\.)*)"')
USE = re.compile(r"^\s*(?:pub )?(?:ghost )?use [^;\n]*(?:\{[^}]*\})?", re.M)


@dataclasses.dataclass
class Function:
    """A function, its type or trait if it is a method, and the lines of its named clauses."""

    crate: str
    path: str
    line: int
    owner: str
    of_trait: str
    name: str
    clauses: dict


def listed():
    """The crates of crates.txt, each with the crates that it stands on."""
    found = {}
    for line in (TOP / "crates.txt").read_text(encoding="utf-8").splitlines():
        line = line.split("#")[0]
        if ":" in line:
            name, _, below = line.partition(":")
            found[name.split()[0]] = below.split()
    return found


@functools.cache
def files(pattern):
    """The paths of the repository's files of that form, without what was built."""
    return sorted(it for it in TOP.glob(pattern) if not {"out", "__pycache__"} & set(it.relative_to(TOP).parts))


def functions_of(path):
    """The functions of a .rt file."""
    crate, name = path.relative_to(TOP).parts[1], str(path.relative_to(TOP))
    owner = trait = ""
    found = []
    for at, line in enumerate(path.read_text(encoding="utf-8").splitlines(), 1):
        head = IMPL.match(line) if line.startswith("impl") else None
        block = re.match(r"^(?:pub )?trait (\w+)", line)
        function = FUNCTION.match(line)
        clause = CLAUSE.match(line)
        if head:
            trait, owner = head.group(1) or "", head.group(2)
        elif block:
            trait, owner = "", block.group(1)
        elif function:
            inside = bool(function.group(1))
            found.append(Function(crate, name, at, owner * inside, trait * inside, function.group(2), {}))
        elif clause and found:
            found[-1].clauses.setdefault(clause.group(1), at)
    return found


@functools.cache
def functions():
    """All functions of the crates."""
    return [it for path in files("crates/*/src/**/*.rt") for it in functions_of(path)]


@functools.cache
def places():
    """Where each type, module, field, variant, ghost item and definition stands: name to paths and lines."""
    found = {}
    for path in files("crates/*/src/**/*.rt") + files("crates/*/specs/**/*.antt"):
        name = str(path.relative_to(TOP))
        forms = [DEFINITION] if path.suffix == ".antt" else [ITEM, GHOST, FIELD, VARIANT]
        for at, line in enumerate(path.read_text(encoding="utf-8").splitlines(), 1):
            for form in forms:
                hit = form.match(line)
                if hit:
                    found.setdefault(hit.group(hit.lastindex), []).append((name, at))
    for it in functions():
        found.setdefault(it.name, []).append((it.path, it.line))
        for clause, at in it.clauses.items():
            found.setdefault(clause, []).append((it.path, at))
    return found


def without_comments(path):
    """What a source file says outside its comments."""
    text = path.read_text(encoding="utf-8", errors="replace")
    mark = {".rt": r"//.*", ".antt": r"--.*"}.get(path.suffix)
    return re.sub(mark, "", text) if mark else text


def words_in(path):
    """The words that a file has outside comments."""
    return WORD.findall(without_comments(path))


@functools.cache
def known():
    """Every name: what the sources define or bring in, the words of their texts, and those of tools and examples."""
    found = set(places()) | set(listed()).union(*listed().values())
    for path in files("crates/*/src/**/*.rt") + files("crates/*/specs/**/*.antt"):
        text = without_comments(path)
        found.add(path.stem)
        found.update(word for said in TEXT.findall(text) for word in WORD.findall(said))
        found.update(word for line in USE.findall(text) for word in WORD.findall(line))
    others = ["crates.txt", "vault", "tools/*/*", "trials/**/*", "bench/*", ".ci/*", "examples/**/*.*"]
    paths = [it for kind in others for it in files(kind) if it.is_file()]
    # The wrong names that this tool plants are no names.
    return found.union(*(words_in(it) for it in paths if it.name != "check-claims"))
