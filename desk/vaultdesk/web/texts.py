"""The pages' own words, in the languages that there are, with the dates and numbers of each. What the desk and the
engine say stays as they say it."""

from __future__ import annotations

import datetime as dt
import functools
import gettext
import io
from pathlib import Path
from typing import Any

from vaultdesk.errors import DeskError
from vaultdesk.web.libraries import library

PLACE = Path(__file__).parent / "locale"
ENGLISH = "en"
KEPT = 4_096  # moments, and numbers, that are kept as they are written
NAMES = {"en": "English", "de": "Deutsch"}

dates, numbers = library("babel.dates"), library("babel.numbers")
pofile, mofile = library("babel.messages.pofile"), library("babel.messages.mofile")


def _translations(language: str) -> gettext.NullTranslations:
    """The catalogue of a language. `DeskError` where it can't be read."""
    if language == ENGLISH:
        return gettext.NullTranslations()
    path = PLACE / f"{language}.po"
    try:
        with path.open("rb") as file:
            catalogue = pofile.read_po(file, locale=language)
    except (OSError, ValueError) as error:
        raise DeskError(f"{path}: {error}") from error
    made = io.BytesIO()
    mofile.write_mo(made, catalogue)
    made.seek(0)
    return gettext.GNUTranslations(made)


def _read(text: str) -> dt.datetime:
    return dt.datetime.fromisoformat(text.replace("Z", "+00:00"))


class Language:
    """One language: its words, and how it writes moments and numbers."""

    def __init__(self, name: str) -> None:
        self.name = name
        self.moment = functools.lru_cache(KEPT)(self._moment)
        self.number = functools.lru_cache(KEPT)(self._number)
        self._words = _translations(name)
        self._locale = "en_GB" if name == ENGLISH else name

    def text(self, text: str) -> str:
        """A text in this language."""
        return self._words.gettext(text)

    def texts(self, one: str, many: str, count: int) -> str:
        """One of two texts, by a number."""
        return self._words.ngettext(one, many, count)

    def _moment(self, text: str) -> str:
        """A moment in the engine's form as people write it, in UTC; what is none stays as it is."""
        try:
            return f"{dates.format_datetime(_read(text), 'medium', locale=self._locale)} UTC"
        except ValueError:
            return text

    def _number(self, value: int) -> str:
        """A whole number."""
        return str(numbers.format_decimal(value, locale=self._locale))

    def size(self, count: int) -> str:
        """A number of bytes."""
        for unit, bytes_of_it in (("GB", 10**9), ("MB", 10**6), ("kB", 10**3)):
            if count >= bytes_of_it:
                return f"{numbers.format_decimal(round(count / bytes_of_it, 1), locale=self._locale)} {unit}"
        return self.texts("%(number)s byte", "%(number)s bytes", count) % {"number": self.number(count)}


@functools.cache
def languages() -> dict[str, Language]:
    """All languages by their names. `DeskError` where a catalogue can't be read."""
    return {name: Language(name) for name in NAMES}


def chosen(there: dict[str, Language], wanted: str | None, accepted: Any) -> Language:
    """The language that was chosen, or else the one that the browser wants most."""
    best = wanted if wanted in there else accepted.best_match(list(there), ENGLISH)
    return there[best or ENGLISH]
