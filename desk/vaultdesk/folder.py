"""The folder of a delivery: its files, and how an inventory may name them."""

from __future__ import annotations

import functools
import os
import re
import unicodedata
from collections.abc import Iterable, Mapping, Sequence
from dataclasses import dataclass
from pathlib import Path

from vaultdesk.errors import of_file

# Files that systems and programs lay into folders by themselves, in small letters.
OF_SYSTEMS = re.compile(r"\.ds_store|thumbs\.db|desktop\.ini|~\$.*|\._.*|\.~lock\..*#", re.DOTALL)
FULL = re.compile(r"[A-Za-z]:[\\/]|\\\\")  # how a full path begins on Windows


def is_of_system(file: str) -> bool:
    """Whether a file's name is one that a system gives to its own."""
    return OF_SYSTEMS.fullmatch(file.rpartition("/")[2].lower()) is not None


@dataclass(frozen=True)
class Folder:
    """A folder and the paths of all files below it; `names` has them by themselves and by their composed form."""

    path: Path
    files: Sequence[str]
    names: Mapping[str, str]

    def name_of(self, file: str) -> str | None:
        """The path of the file that is named so, letter by letter or in another Unicode form; none where none is."""
        return self.names.get(file) or self.names.get(_composed(file))

    def why_not_there(self, file: str) -> str:
        """Says that no file is named so, and which one may be meant."""
        if "\\" in file:
            return "no such file in the folder: the inventory has a path of Windows: write that below the folder"
        alike = self._folded.get(_composed(file.strip()).casefold())
        return f"no such file in the folder: it has {alike!r}" if alike else "no such file in the folder"

    @functools.cached_property
    def _folded(self) -> dict[str, str]:
        """The paths by their small letters."""
        return {_composed(it).casefold(): it for it in self.files}

    def below(self, given: Iterable[str]) -> dict[str, str]:
        """The paths of Windows among these, each with the path from the folder on.

        What full ones have in front of that is the same for all: the fewest parts without which a file is there."""
        paths = {it: re.split(r"[\\/]", it) for it in given if "\\" in it and it not in self.names}
        full = [it for name, it in paths.items() if FULL.match(name)]
        depth = self._depth(full)
        found = {name: it[depth:] if FULL.match(name) else it for name, it in paths.items()}
        return {name: "/".join(it) for name, it in found.items() if depth or not FULL.match(name)}

    def _depth(self, paths: Sequence[Sequence[str]]) -> int:
        """How many parts of these full paths are the folder's; 0 where that can't be known."""
        for depth in range(1, min(map(len, paths), default=1)):
            if len({tuple(part.casefold() for part in it[:depth]) for it in paths}) > 1:
                return 0
            if any(self.name_of("/".join(it[depth:])) for it in paths):
                return depth
        return 0


def _composed(text: str) -> str:
    return unicodedata.normalize("NFC", text)


def read(path: Path) -> Folder:
    """A folder with all files below it; no link to a folder is followed. `DeskError` where one can't be read."""

    def fail(error: OSError) -> None:
        raise of_file(error.filename, error) from error

    found = []
    for place, _, names in os.walk(path, onerror=fail):
        found += [str((Path(place) / it).relative_to(path)) for it in names]
    return Folder(path, sorted(found), {_composed(it): it for it in found} | {it: it for it in found})
