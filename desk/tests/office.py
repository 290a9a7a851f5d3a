"""An office for tests: a vault in a folder of its own, with callers, and the desk as one calls it."""

from __future__ import annotations

import contextlib
import io
import json
import os
import subprocess
import tempfile
import unittest
from collections.abc import Iterator, Mapping, Sequence
from dataclasses import dataclass
from pathlib import Path
from typing import Any
from unittest import mock

from vaultdesk.cli import main

PROGRAM = os.environ.get("VAULTCTL", "vaultctl")
START = "2024-01-15T09:00:00Z"
# A file system in memory, if there is one: a sync takes no time there.
MEMORY = "/dev/shm" if os.access("/dev/shm", os.W_OK) else None
ALL_RIGHTS = (
    "config", "put", "retain", "hold", "get", "list", "delete", "delete-version", "run", "report", "bypass",
)


@dataclass(frozen=True)
class Done:
    """What a call of the desk came to."""

    status: int
    out: str
    err: str


class OfficeTest(unittest.TestCase):
    """A vault with the department `records`, its caller `ann` with all rights of a department, and a bucket `docs`."""

    office: dict[str, bytes] = {}  # the files of that vault, which is made once for all tests

    def setUp(self) -> None:
        # Some subcommands keep what they make from others, which lasts as long as the process does.
        self.addCleanup(os.umask, os.umask(0o022))
        self.folder = Path(self.enterContext(tempfile.TemporaryDirectory(dir=MEMORY)))
        self.file = self.folder / "records.vault"
        self.make()
        environment = {"VAULT": str(self.file), "VAULT_CALLER": "ann", "VAULTCTL": PROGRAM, "VAULTDESK_SETTINGS": ""}
        self.enterContext(mock.patch.dict(os.environ, environment))

    def make(self) -> None:
        """Makes the vault, or a copy of it."""
        if self.office:
            for name, content in self.office.items():
                with open(os.open(f"{self.file}{name}", os.O_WRONLY | os.O_CREAT, 0o600), "wb") as file:
                    file.write(content)
            return
        subprocess.run([PROGRAM, "init", str(self.file)], check=True)
        self.lines(
            {"do": "add-dept", "as": "registrar", "dept": "records"},
            {"do": "add-caller", "as": "registrar", "caller": "ann", "dept": "records", "rights": list(ALL_RIGHTS)},
            {"do": "add-bucket", "as": "registrar", "bucket": "docs", "dept": "records"},
        )
        self.office.update({it: Path(f"{self.file}{it}").read_bytes() for it in ("", "-wal")})

    def lines(self, *lines: Mapping[str, Any], at: str = START) -> list[Any]:
        """The engine's replies to these lines, by `ann` where a line doesn't say who asks. None of them is refused."""
        script = "".join(json.dumps({"at": at, "as": "ann", **it}) + "\n" for it in lines)
        done = subprocess.run(
            [PROGRAM, "replay", str(self.file)], input=script, check=True, capture_output=True, encoding="utf-8"
        )
        replies = [json.loads(it) for it in done.stdout.split("\n")[:-1]]
        for line, reply in zip(lines, replies, strict=True):
            self.assertIn("ok", reply, line)
        return replies

    def desk(self, *words: str, at: str | None = "2024-01-15T10:00:00Z") -> Done:
        """A call of the desk with these words."""
        out, err = io.TextIOWrapper(io.BytesIO(), encoding="utf-8"), io.StringIO()
        given: Sequence[str] = [*words, "--at", at] if at else words
        with contextlib.redirect_stdout(out), contextlib.redirect_stderr(err):
            try:
                status = main(given)
            except SystemExit as ended:
                status = int(ended.code or 0)
        out.flush()
        assert isinstance(out.buffer, io.BytesIO)
        return Done(status, out.buffer.getvalue().decode("utf-8", "surrogateescape"), err.getvalue())

    def done(self, *words: str, at: str | None = "2024-01-15T10:00:00Z") -> str:
        """What the desk prints, where it ends with status 0 and says no more than that nothing guards a version."""
        done = self.desk(*words, at=at)
        said = [it for it in done.err.splitlines() if not it.startswith("nothing guards version ")]
        self.assertEqual((done.status, said), (0, []), words)
        return done.out

    @contextlib.contextmanager
    def without(self, name: str) -> Iterator[None]:
        """Without that variable of the environment."""
        kept = os.environ.pop(name)
        try:
            yield
        finally:
            os.environ[name] = kept

    def written(self, name: str, content: bytes) -> str:
        """The path of a new file of that content."""
        path = self.folder / name
        path.write_bytes(content)
        return str(path)
