"""Bodies of which one line is turned or left out: the sources with all of them, each under a number.

A condition is turned round, a comparison in it takes or leaves its limit, and `&&` and `||` are exchanged; a statement
is left out; a 1 isn't added or taken away; and another refusal is named."""

import pathlib
import re
from typing import NamedTuple

from numbered_bodies import CHOSEN, Body, each_function

CONDITION = re.compile(r"^(\s*(?:\} else )?if |\s*while )(.+) \{$")
COMPARISON = re.compile(r" (<=|>=|<|>) ")
TURNED = {"<": "<=", "<=": "<", ">": ">=", ">=": ">", " && ": " || ", " || ": " && "}
STATEMENT = re.compile(r"^(\s*)([a-z_*][\w.\[\]*&]*(?:::\w+)*(?:\(|\s*[-+*/]?=\s|\.).*;)$")
NO_STATEMENT = re.compile(r"^\s*(let|return|use|drop|ghost|const|static|break|continue|fn|pub|mod|type|unsafe)\b")
ONE = re.compile(r"(?<=[\w)\]] )([+-]) 1\b(?![_\d.])")
REFUSAL = re.compile(r"\bRefusal::([A-Z]\w+)\b(?!\s*\()")
PATTERN = re.compile(r"matches!|\blet\b|\|")


class Other(NamedTuple):
    """What differs in a body, and the text of its line."""

    what: str
    line: str


class Turn(NamedTuple):
    """A line that has bodies: its text with all of them, and each of them, in the order of their numbers."""

    text: str
    bodies: list[Other]


def chosen(number: int) -> str:
    return f"{CHOSEN}::chosen({number}) == 1"


def either(number: int, one: str, other: str) -> str:
    """The first where that body is chosen, and else the other."""
    return f"(if {chosen(number)} {{ {one} }} else {{ {other} }})"


def is_closed(text: str) -> bool:
    """Whether each bracket is closed in it."""
    depth = 0
    for it in text:
        depth += {"(": 1, "[": 1, "{": 1, ")": -1, "]": -1, "}": -1}.get(it, 0)
        if depth < 0:
            return False
    return depth == 0


def turned_condition(front: str, condition: str, number: int) -> Turn | None:
    """A line with a condition, if that is a plain one."""
    if re.search(r"\blet\b|\{|[^|]\|[^|]", condition) or not is_closed(condition):
        return None
    plain, bodies = re.split(r"( && | \|\| )", condition), []
    text = condition
    if all(map(is_closed, plain[::2])):
        parts = plain[:]
        for at in range(0, len(plain), 2):
            found = COMPARISON.findall(plain[at])
            if len(found) == 1 and "::<" not in plain[at]:
                other = COMPARISON.sub(lambda it: f" {TURNED[it[1]]} ", plain[at])
                whole = "".join([*plain[:at], other, *plain[at + 1 :]])
                bodies.append(Other(f"{other} for {plain[at]}", f"{front}{whole} {{"))
                parts[at] = either(number + len(bodies) - 1, other, plain[at])
        text = "".join(parts)
        if len(set(plain[1::2])) == 1:
            other = "".join(TURNED.get(it, it) for it in plain)
            bodies.append(Other(f"{other} for {condition}", f"{front}{other} {{"))
            text = either(number + len(bodies) - 1, other, text)
    bodies.append(Other(f"the contrary of {condition}", f"{front}!({condition}) {{"))
    return Turn(f"{front}{either(number + len(bodies) - 1, f'!({condition})', text)} {{", bodies)


def turned(line: str, number: int) -> Turn | None:
    """A line with bodies, the first of which has that number; none where nothing of it can be turned."""
    condition = CONDITION.match(line)
    if condition:
        return turned_condition(condition[1], condition[2], number)
    statement = STATEMENT.match(line)
    if statement and is_closed(statement[2]) and not NO_STATEMENT.match(line):
        text = f"{statement[1]}if {CHOSEN}::chosen({number}) != 1 {{ {statement[2]} }}"
        return Turn(text, [Other(f"without {statement[2]}", "")])
    if '"' in line or "//" in line:
        return None
    one, refusal = ONE.search(line), REFUSAL.search(line)
    if one:
        begin, end = line[: one.start()] + one[1], line[one.end() :]
        return Turn(f"{begin} {either(number, '0', '1')}{end}", [Other(f"{one[1]} 0 in {line.strip()}", f"{begin} 0{end}")])
    if refusal and "=>" not in line[refusal.end():] and not PATTERN.search(line):
        other = "Refusal::Memory" if refusal[1] == "Device" else "Refusal::Device"
        begin, end = line[: refusal.start()], line[refusal.end() :]
        text = f"{begin}{either(number, other, refusal[0])}{end}"
        return Turn(text, [Other(f"{other} in {line.strip()}", f"{begin}{other}{end}")])
    return None


def put_turns(folder: pathlib.Path, crates: set[str], left_out: set[str]) -> list[Body]:
    """Writes the bodies into a copy of the crates; returns them, by number from 1."""
    bodies: list[Body] = []
    for crate, where, it, lines in each_function(folder, crates):
        for at in range(it.line + 1, it.end):
            key, number = f"{where}:{at}:", len(bodies) + 1
            turn = None if key in left_out else turned(lines[at], number)
            if turn:
                lines[at] = turn.text
                numbered = enumerate(turn.bodies, number)
                bodies += [Body(one, crate, where, at + 1, it.name, *other, key) for one, other in numbered]
    return bodies
