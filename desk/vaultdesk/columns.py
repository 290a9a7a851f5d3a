"""What the columns of an inventory are: by names that the desk knows, by those of the settings, and by --columns.

A column that nothing of this knows is never passed over without a word: it may be the one with the key or the end.
"""

from __future__ import annotations

import argparse
import shlex
import sys
import unicodedata
from collections.abc import Iterable, Mapping, Sequence

from vaultdesk import beside, config
from vaultdesk.asking import asked
from vaultdesk.errors import DeskError, UsageError
from vaultdesk.output import is_heard, say

IGNORED = "ignore"
OF_ROWS = ("file", "key", "class", "date", "mode", "until", "hold", "sha256", "title", "sender", "reference", "event")
OF_CLASSES = ("class", "years", "mode")
# A column's name as offices write it, in small letters, and what it is.
NAMES = {
    "file": "file",
    "filename": "file",
    "file name": "file",
    "datei": "file",
    "dateiname": "file",
    "scan": "file",
    "key": "key",
    "schlüssel": "key",
    "signatur": "key",
    "aktenzeichen": "key",
    "class": "class",
    "klasse": "class",
    "aufbewahrungsklasse": "class",
    "date": "date",
    "datum": "date",
    "mode": "mode",
    "modus": "mode",
    "until": "until",
    "bis": "until",
    "hold": "hold",
    "sperre": "hold",
    "years": "years",
    "jahre": "years",
    "sha256": "sha256",
    "title": "title",
    "titel": "title",
    "betreff": "title",
    "sender": "sender",
    "absender": "sender",
    "file reference": "reference",
    "dossier": "reference",
    "akte": "reference",
    "event": "event",
    "ereignis": "event",
    # What the list of an export has beside.
    "version": IGNORED,
    "size": IGNORED,
    "admitted": IGNORED,
    "retention_mode": IGNORED,
    "retention_until": IGNORED,
    "legal_hold": IGNORED,
    "kept": IGNORED,
    "authority": IGNORED,
}
ALL = ""  # of --ignore-columns: all that aren't known
# Names that lists of documents have for other things.
TAKEN = (
    "row", "end", "note", "bucket", "by", "state", "kind", "removed", "cause", "fields", "plan",
)  # fmt: skip
PAGE = f"{beside.page('INVENTORY')} has the names that are known"
Meanings = Mapping[str, str]


def folded(name: str) -> str:
    """A column's name by which it is looked for: without blanks round it, in small letters, composed."""
    return " ".join(unicodedata.normalize("NFC", name).split()).casefold()


def fields() -> tuple[str, ...]:
    """The facts of documents that only this office has, as the settings name them. `UsageError` where one has a name
    that is another column's."""
    found = config.settings().office.fields
    for it in found:
        if folded(it) in (*NAMES, *OF_ROWS, *TAKEN, IGNORED):
            raise UsageError(f"settings: [office] fields: {it!r} is the name of a column that is known already")
    return found


def of_rows() -> tuple[str, ...]:
    """What the columns of an inventory can be."""
    return (*OF_ROWS, *fields())


def _meant(text: str) -> str:
    """What a column of rows is, by a word of either language for it; empty where it is no such word."""
    own = {folded(it): it for it in (*of_rows(), IGNORED)}
    what = own.get(folded(text), NAMES.get(folded(text), ""))
    return what if what in own.values() else ""


def _parts(given: Iterable[str]) -> list[str]:
    """What stands between commas; a name that has one is in double quotes. `UsageError` where one isn't closed."""
    found = list[str]()
    for text in given:
        parts = shlex.shlex(text, posix=True)
        parts.whitespace, parts.whitespace_split, parts.commenters, parts.quotes, parts.escape = ",", True, "", '"', ""
        try:
            found += [it.strip() for it in parts if it.strip()]
        except ValueError as error:
            raise UsageError(f"--columns {text}: a quote isn't closed") from error
    return found


def given_by(words: argparse.Namespace) -> dict[str, str]:
    """What --columns and --ignore-columns say: the names of columns, each with what it is.

    `UsageError` where one isn't understood."""
    found = {}
    for it in _parts(words.columns or []):
        meaning, sign, name = it.partition("=")
        what = _meant(meaning)
        if not what or not name.strip():
            raise UsageError(f"--columns {it}: write WHAT=COLUMN, where WHAT is one of {', '.join(of_rows())}")
        found[name.strip()] = what
    return found | {it: IGNORED for it in _parts(words.ignore_columns or [])}


def meanings_of(given: Mapping[str, str]) -> Meanings:
    """What each name means: as it was given, else as the settings keep it, else as the desk knows it.

    `UsageError` where the settings have what no column is."""
    kept, known = config.settings().columns or {}, of_rows()
    for name, what in kept.items():
        if what not in (*known, IGNORED):
            raise UsageError(f"settings: [columns]: {name!r} is {', '.join(known)} or {IGNORED}, and not {what!r}")
    own = {it: it for it in fields()}
    return NAMES | {folded(name): what for names in (own, kept, given) for name, what in names.items()}


def look_given(given: Iterable[str], heads: Sequence[str], place: str) -> None:
    """`UsageError` where a column that was named isn't there."""
    there = {folded(it) for it in heads}
    for name in given:
        if folded(name) not in there:
            raise UsageError(f"{place} has no column {name!r}: it has {', '.join(map(repr, heads))}")


def _ask(name: str) -> str:
    """What a column is, by who is at the terminal."""
    answer = asked(f"column {name!r}: is it {', '.join(of_rows())}, or {IGNORED}? ")
    what = _meant(answer)
    if not what:
        raise DeskError(f"{answer!r} is none of these: nothing was changed")
    return what


def asked_for(words: argparse.Namespace, unknown: Sequence[str], place: str) -> dict[str, str]:
    """What the columns are that nothing knows: passed over by --ignore-columns, else as who is at the terminal says.

    `UsageError` where nobody can be asked."""
    if not unknown:
        return {}
    names = ", ".join(map(repr, unknown))
    if words.ignore_columns is not None and ALL in words.ignore_columns:
        say(f"{place}: columns that aren't used: {names}")
        return {}
    if words.yes or is_heard() or not sys.stdin.isatty():
        how = f"say what each is by --columns (as --columns 'key={unknown[0]}'), or give --ignore-columns"
        raise UsageError(f"{place}: these columns aren't known: {names}: {how}; {PAGE}")
    say(f"{place}: these columns aren't known: {names}; {PAGE}")
    found = {it: _ask(it) for it in unknown}
    say(f"by words: --columns '{','.join(f'{what}={name}' for name, what in found.items())}'")
    return found


def keep(given: Mapping[str, str]) -> None:
    """Keeps in the settings what was said of columns, and says where."""
    said = config.keep_columns(given) if given else ""
    if said:
        say(said)
