"""The form of keys by the settings, `[keys] pattern`: keys stay for ever, so names of persons don't belong there.

As the limits of retentions, it binds what the desk puts, and nobody who asks the engine by another way.
"""

from __future__ import annotations

import re

from vaultdesk import config
from vaultdesk.errors import UsageError
from vaultdesk.output import shown


def form() -> re.Pattern[str] | None:
    """The form that keys have; none where the settings have none. `UsageError` where it is no pattern."""
    text = config.settings().keys
    if text is None:
        return None
    try:
        return re.compile(text)
    except re.error as error:
        raise UsageError(f"settings: [keys] pattern {text!r} is no regular expression: {error}: mend it") from error


def why_not(key: str, wanted: re.Pattern[str] | None) -> str:
    """Why a key isn't one, by its form as a whole; empty where it is."""
    if wanted is None or wanted.fullmatch(key):
        return ""
    why = f"the key {shown(key)!r} isn't of the form {wanted.pattern} that the settings have for keys"
    return f"{why}: keys stay for ever, so give one without names of persons"


def look(key: str) -> None:
    """`UsageError` where a key isn't of the form."""
    why = why_not(key, form())
    if why:
        raise UsageError(f"{why}: nothing was put")
