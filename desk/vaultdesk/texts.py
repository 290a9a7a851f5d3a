"""Texts as people look for them."""

from __future__ import annotations

import unicodedata


def folded(text: str) -> str:
    """A text by which small and large letters, and letters written in two Unicode forms, are one."""
    return unicodedata.normalize("NFC", unicodedata.normalize("NFC", text).casefold())
