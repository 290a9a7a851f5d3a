"""Libraries that the pages need beside Python's own, as Debian has them. To the type checker each is any value, as none
of them has to be there for the rest of the desk."""

from __future__ import annotations

import importlib
from typing import Any

from vaultdesk.errors import DeskError

PACKAGES = {
    "flask": "python3-flask", "waitress": "python3-waitress", "argon2": "python3-argon2", "babel": "python3-babel",
}  # fmt: skip
OF_FLASK = ("jinja2", "werkzeug")  # which come with it


def library(name: str) -> Any:
    """The module of that name. `DeskError` where it isn't installed."""
    try:
        return importlib.import_module(name)
    except ImportError as error:
        all_of_them = " ".join(PACKAGES.values())
        top = name.partition(".")[0]
        why = f"{PACKAGES['flask' if top in OF_FLASK else top]} isn't installed"
        raise DeskError(f"{why}: the pages need apt install {all_of_them}") from error
