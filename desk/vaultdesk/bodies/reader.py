"""A body that is read: its last bytes come only if all of it agrees with what the ledger has."""

from __future__ import annotations

import contextlib
import hashlib
import io
import os
import secrets
from collections.abc import Callable
from pathlib import Path

from vaultdesk import disk
from vaultdesk.bodies import files
from vaultdesk.bodies.body import PIECE, Altered, Body
from vaultdesk.errors import of_file


class Reader(io.RawIOBase):
    """Reads a body, and hashes what is read. `Altered` where the bytes are too few, too many or others: before the last
    of them are handed out, and at each read after that."""

    def __init__(self, body: Body, read: Callable[[int], bytes], close: Callable[[], None]) -> None:
        super().__init__()
        self.body = body
        self.is_whole = False  # all of it was read, and agrees
        self._read = read
        self._close = close
        self._hash = hashlib.sha256()
        self._count = 0
        self._why = ""
        if not body.size:  # nobody has to read an empty one to its end
            try:
                self._end()
            except BaseException:
                self.close()
                raise

    def readable(self) -> bool:
        """It is."""
        return True

    def readinto(self, buffer: memoryview, /) -> int:  # type: ignore[override]
        """The next bytes; none at the end, which is there only if all that was read is the body."""
        if self._why:
            raise Altered(self._why)
        most = min(len(buffer), self.body.size - self._count)
        if not most:
            return 0
        piece = self._read(most)
        if not piece:
            self._fail(f"it ends after {self._count:,} of {self.body.size:,} bytes")
        self._hash.update(piece)
        self._count += len(piece)
        if self._count == self.body.size:
            self._end()
        buffer[:len(piece)] = piece
        return len(piece)

    def _end(self) -> None:
        if self._read(1):
            self._fail(f"it has more than {self.body.size:,} bytes")
        if self._hash.hexdigest() != self.body.digest:
            self._fail("its bytes have another SHA-256")
        self.is_whole = True

    def _fail(self, why: str) -> None:
        self._why = f"body {self.body.digest}: {why}"
        raise Altered(self._why)

    def look(self) -> None:
        """Reads it to its end. `Altered` where it isn't the body."""
        buffer = memoryview(bytearray(PIECE))
        while self.readinto(buffer):
            pass

    def close(self) -> None:
        """Closes it; what was read until then counts only where `is_whole` says so."""
        if not self.closed:
            super().close()
            self._close()


def copy(reader: Reader, path: Path) -> None:
    """Writes a body to a new file of mode 0600 in the folder of `path`, which takes that name, on the disk, only once
    all of it agrees. `Altered` where it doesn't, `DeskError` where it can't be written: then `path` is as it was."""
    new = path.with_name(f".vaultdesk-{secrets.token_hex(8)}")
    try:
        try:
            descriptor = os.open(new, os.O_WRONLY | os.O_CREAT | os.O_EXCL | os.O_NOFOLLOW, 0o600)
            try:
                while piece := reader.read(PIECE):
                    files.write(descriptor, piece)
                os.fsync(descriptor)
            finally:
                os.close(descriptor)
            os.rename(new, path)
        except BaseException:
            with contextlib.suppress(OSError):
                os.unlink(new)
            raise
        disk.sync(path.absolute().parent)
    except OSError as error:
        raise of_file(path, error) from error
