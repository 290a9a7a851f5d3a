"""Where the desk finds what it shares with auditors, their queries and vault-recheck's code, and where pages are."""

from __future__ import annotations

from pathlib import Path

HERE = Path(__file__).resolve()
PLACES = (
    HERE.parents[2] / "contrib",  # of the sources
    HERE.parents[1],  # of the package, which puts them beside the desk
    Path("/usr/share/vaultctl"),  # of the package, where the desk is elsewhere
)


def place_of(name: str) -> Path:
    """The folder of that name: the first that is there."""
    return next((place / name for place in PLACES if (place / name).is_dir()), PLACES[-1] / name)


def page(name: str) -> Path:
    """Where a page of the documentation is, such as `MANUAL` or `formats/PROGRAM`: in the sources, or as the package
    has it."""
    source = HERE.parents[2] / "docs" / f"{name}.md"
    return source if source.is_file() else Path("/usr/share/doc/vaultctl/html") / f"{name.replace('/', '-')}.html"
