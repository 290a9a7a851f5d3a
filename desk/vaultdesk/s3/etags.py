"""The MD5 of each version's content, which clients take ETags for.

The vault keeps SHA-256. A version's content never changes, so its MD5 is noted in a file as the content goes through: a
line `ID ADMITTED MD5` for each. It may be lost: then contents are read again as they are asked for. The moment of its
admission tells a version from one that had its number before an older copy of the vault was put back.
"""

from __future__ import annotations

import os
import re
import threading
from collections.abc import Iterable
from contextlib import suppress
from pathlib import Path
from typing import TextIO

from vaultdesk.errors import DeskError
from vaultdesk.output import say
from vaultdesk.replacing import write_anew

LINE = re.compile(r"(\d{1,10}) (\d{4}-\d\d-\d\dT\d\d:\d\d:\d\dZ) ([0-9a-f]{32})\n")


class Etags:
    """What is noted of versions: in a file, or in memory alone where none is named."""

    def __init__(self, path: Path | None) -> None:
        self.path = path
        self.turn = threading.Lock()
        self.known: dict[int, tuple[str, str]] = {}
        self.file: TextIO | None = None
        self.lines = 0  # of the file, also those that count no more
        if path:
            try:
                self._read(path)
            except OSError as error:
                raise DeskError(f"{path}: {error.strerror}") from error

    def _read(self, path: Path) -> None:
        """Reads what is noted, and goes on after it; what isn't a line is read past."""
        line = "\n"
        if path.exists():
            with path.open(encoding="ascii", errors="replace") as file:
                for line in file:
                    self.lines += 1
                    found = LINE.fullmatch(line)
                    if found:
                        self.known[int(found[1])] = found[2], found[3]
        self.file = self._appended(path)
        if not line.endswith("\n"):
            self.file.write("\n")

    @staticmethod
    def _appended(path: Path) -> TextIO:
        """The file, to be written on; nobody else may read what contents are like."""
        file = open(os.open(path, os.O_WRONLY | os.O_APPEND | os.O_CREAT, 0o600), "a", encoding="ascii")
        with suppress(PermissionError):  # it is another user's, who lets this one write
            os.fchmod(file.fileno(), 0o600)
        return file

    def drop(self, gone: Iterable[int]) -> None:
        """Forgets versions that are held no more, and shortens the file to what is known. One that can't be written
        anew stays as it is."""
        with self.turn:
            for it in gone:
                self.known.pop(it, None)
            if not self.path or not self.file or self.lines == len(self.known):
                return
            try:
                write_anew(self.path, (f"{it} {at} {md5}\n" for it, (at, md5) in self.known.items()), lambda _: None)
                self.file.close()
                self.file, self.lines = self._appended(self.path), len(self.known)
            except (DeskError, OSError) as error:
                say(f"vaultdesk s3: {error}: the file of ETags isn't shortened")

    def find(self, version: int, admitted: str) -> str | None:
        """The MD5 of the version that was admitted then, if it is noted."""
        there, md5 = self.known.get(version, ("", ""))
        return md5 if there == admitted else None

    def note(self, version: int, admitted: str, md5: str) -> str:
        """Notes the MD5 of a version's content, and returns it. A file that can't be written is given up."""
        with self.turn:
            if self.known.get(version) == (admitted, md5):
                return md5
            self.known[version] = admitted, md5
            if self.file:
                try:
                    self.file.write(f"{version} {admitted} {md5}\n")
                    self.file.flush()
                    self.lines += 1
                except OSError as error:
                    say(f"vaultdesk s3: {self.path}: {error.strerror}: no more ETags are noted there")
                    self.file = None
        return md5

    def close(self) -> None:
        """Closes the file."""
        with self.turn:
            if self.file:
                self.file.close()


def listed(version: int, md5: str | None) -> str:
    """The ETag of a version in a list: where the MD5 isn't noted, one whose form tells clients not to compare it."""
    return f'"{md5}"' if md5 else f'"{version:032x}-1"'
