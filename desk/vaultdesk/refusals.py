"""The engine's refusals in words, each with what to do (`remedies.py`).

Where the engine runs as a script it also says in words what is wrong with a line: which of its members isn't allowed,
and what it would have to be. A server's reply has no words: there the members are looked at here.
"""

from __future__ import annotations

import re
from collections.abc import Iterator, Mapping
from typing import Any

from vaultdesk.errors import Refused
from vaultdesk.remedies import (
    AT, BELOW_MARKER, COMMANDS, DENIALS, FORMS, OPTIONS, OPTIONS_OF, RIGHT, WORDS,
)  # fmt: skip

Members = Mapping[str, Any]
LONGEST = 80  # characters of a value that are shown
OF_VALUES = ("InvalidArgument", "InvalidBucketName")  # refusals of a value by its form, or by what the vault has
# What the engine says of a line: the value of a member isn't one, with an example.
NOT_ALLOWED = re.compile(r'(?:rule \d+: )?"(\w+)" has to be [^"]*, as .*')
EXAMPLE = re.compile(r'as "\w+":"?([^"]*)"?')
MEMBER = re.compile(r'"(\w+)"')


class _Values(dict[str, Any]):
    """What words are filled with; a member that the line hasn't is a value that isn't known."""

    def __missing__(self, name: str) -> str:
        return "?"


def _members(line: Members) -> Iterator[tuple[str, Any]]:
    """Each member of a line and its value, also those within its last rule: those before it are in the vault."""
    for name, value in line.items():
        if name == "rules":
            yield from _members(value[-1] if value else {})
        elif isinstance(value, dict):
            yield from _members(value)
        else:
            yield name, value


def _is_of_form(name: str, value: Any) -> bool:
    form = FORMS[name][0]
    return value in form if isinstance(form, range) else bool(form.fullmatch(str(value)))


def _wrong_member(line: Members, said: str) -> str | None:
    """The member whose value isn't of its form: the one that the engine names, or else the first one by the forms."""
    named = NOT_ALLOWED.fullmatch(said)
    if named and named[1] in FORMS:
        return named[1]
    return next((name for name, value in _members(line) if name in FORMS and not _is_of_form(name, value)), None)


def _quoted(value: Any) -> str:
    """A value in quotes, of a long one its beginning."""
    return repr(value[:LONGEST] + "..") if isinstance(value, str) and len(value) > LONGEST else repr(value)


def _of_value(line: Members, said: str) -> str | None:
    """What is wrong with the value of a member; none where each is of its form."""
    name = _wrong_member(line, said)
    if name is None:
        return None
    option = OPTIONS_OF.get((str(line.get("do")), name), OPTIONS[name])
    return f"{option} {_quoted(dict(_members(line)).get(name))}: {FORMS[name][1]}"


def _of_engine(said: str) -> str:
    """The engine's words on a line, in which its members are the options that give them; empty where it said none."""
    return MEMBER.sub(lambda it: OPTIONS.get(it[1], it[1]), EXAMPLE.sub(r"as \1", said))


def words_of(error: Members, line: Members, said: str = "", is_dated: bool = False) -> str:
    """What a refusal means, of the member `error` of a reply to a line, which has its moment as `at`.

    `said` is what the engine says of the line, and `is_dated` whether the moment was given by who asked."""
    code, reason = str(error.get("code")), str(error.get("reason", ""))
    if error.get("marker"):
        return BELOW_MARKER
    if reason.startswith("right:"):
        return RIGHT.format(right=reason.removeprefix("right:"))
    value = _of_value(line, said) if code in OF_VALUES else None
    if value:
        return value
    words = AT.get(code) if is_dated else None
    words = words or DENIALS.get(reason) or COMMANDS.get((str(line.get("do")), code))
    if words is None and code == "InvalidArgument" and said:
        return _of_engine(said)
    return (words or WORDS.get(code) or "see the manual").format_map(_Values(line))


def meaning(refusal: Refused) -> str:
    """What a refusal means, without its name."""
    return str(refusal).partition(": ")[2]


def refused(error: Members, line: Members | None = None, said: str = "", is_dated: bool = False) -> Refused:
    """The refusal of a reply as an exception, which says its name and what it means."""
    code, reason = str(error.get("code")), str(error.get("reason", ""))
    name = f"{code} {reason}".rstrip()
    text = f"{name}: {words_of(error, line or {}, said, is_dated)}"
    return Refused(code, int(error.get("n", 0)), reason, text, bool(error.get("marker")))
