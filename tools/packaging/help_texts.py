"""The help texts of the program, as examples/help.txt has them, by their parts."""

import collections
import pathlib
import re

TOP = pathlib.Path(__file__).resolve().parents[2]

# A subcommand: its name, what it does, the words of its usage, its arguments and options as (words, text), the
# paragraphs below, the lines of its example, and what each exit status says.
Command = collections.namedtuple("Command", "name about usage arguments options notes examples statuses")


def texts():
    """The lines of each help text, by the subcommand; those that are asked for by `help` are the same."""
    found, name = {}, None
    for line in (TOP / "examples" / "help.txt").read_text().splitlines():
        if line.startswith("$ "):
            name = line.split()[1]
            found[name] = []
        elif line.startswith("!"):
            found[name].append(line[2:])
    return {name: lines for name, lines in found.items() if not name.startswith("-") and name != "help"}


def blocks(lines):
    """The paragraphs of a text, as lists of lines."""
    paragraphs = [[]]
    for line in lines:
        if line:
            paragraphs[-1].append(line)
        elif paragraphs[-1]:
            paragraphs.append([])
    return [it for it in paragraphs if it]


def items(lines):
    """The items of a list: their words, and the text that stands beside and below them."""
    found = []
    for line in lines:
        begun = re.fullmatch(r" {2,6}((?:-h, )?\S.*?)(?: {2,}(\S.*))?", line) if not line.startswith(" " * 8) else None
        if begun:
            found.append([begun[1], begun[2] or ""])
        else:
            found[-1][1] += " " + line.strip()
    return [(words, text.strip()) for words, text in found]


def command_of(name, lines):
    about, *rest = blocks(lines)
    parts = {"Arguments:": [], "Options:": [], "Example:": []}
    usage, notes, statuses = [], [], []
    for block in rest:
        if block[0].startswith("Usage: "):
            usage = " ".join(block).removeprefix("Usage: vaultctl ").split()[1:]
        elif block[0] in parts:
            parts[block[0]] = block[1:]
        elif block[0].startswith("Status: "):
            statuses = re.split(r"; (?=[12] )", " ".join(block).removeprefix("Status: "))
        elif not block[0].startswith("More: "):
            notes.append(" ".join(block))
    options = [it for it in items(parts["Options:"]) if it[0] != "-h, --help"]
    examples = [it.strip() for it in parts["Example:"]]
    arguments = items(parts["Arguments:"])
    return Command(name, " ".join(about), usage, arguments, options, notes, examples, [it.split(" ", 1) for it in statuses])


def commands():
    """All subcommands, in the order of the program's own list."""
    return [command_of(name, lines) for name, lines in texts().items()]
