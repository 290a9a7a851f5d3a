"""Files that are written anew as a whole."""

from __future__ import annotations

import os
import tempfile
from collections.abc import Callable, Iterable
from pathlib import Path

from vaultdesk.errors import DeskError


def write_anew(path: Path, text: Iterable[str], place: Callable[[Path], None]) -> None:
    """Writes the text to a new file of mode 0600 beside `path`, has `place` set its mode and owner, and puts it in the
    place of `path`: a reader finds the old file or the new one, also after the power failed. `DeskError` where it can't
    be written."""
    try:
        descriptor, name = tempfile.mkstemp(dir=path.parent, prefix=f".{path.name}-")
        new = Path(name)
        try:
            with open(descriptor, "w", encoding="utf-8") as file:
                file.writelines(text)
                file.flush()
                os.fsync(file.fileno())
            place(new)
            new.replace(path)
        except BaseException:
            new.unlink(missing_ok=True)
            raise
    except OSError as error:
        raise DeskError(f"{path}: {error.strerror}") from error
