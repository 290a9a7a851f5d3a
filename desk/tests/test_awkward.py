"""Documents under keys that are awkward to quote: what is put is what is read, listed and locked."""

from __future__ import annotations

import io
import json
import os
from pathlib import Path
from unittest import mock

from tests.office import OfficeTest
from vaultdesk.documents import MOST

LATER = "2024-01-15T11:00:00Z"
KEYS = [
    "plain", "a b", "  two  blanks ", 'say "yes"', "back\\slash", "\\\\\"\\\"", "Zürich/日本/é",
    "it's; rm -rf $HOME `x` $(x)", "<b>&amp;</b>", '},{"admitted":"', "-dash", "--hold", "%s%n", "\u0085 next line",
    "u" * 1024,
]  # fmt: skip
EVERY_BYTE = bytes(range(256)) * 5
CONTENTS = [b"", b"hello\n", b"no end", EVERY_BYTE, b"\0", b"\n\n\n", b"%d\\n"]


class Awkward(OfficeTest):
    def put(self, key: str, content: bytes, *words: str) -> int:
        """The number of a new version of that key."""
        path = self.written("in put", content)
        return int(self.done("put", *words, "--at", LATER, "--", "docs", key, path, at=None))

    def got(self, key: str, *words: str) -> bytes:
        """What is read of a key."""
        out = self.folder / "out put"
        self.done("get", *words, "--force", "--at", LATER, "--", "docs", key, str(out), at=None)
        return out.read_bytes()

    def test_what_is_put_is_what_is_read(self) -> None:
        for number, key in enumerate(KEYS):
            content = CONTENTS[number % len(CONTENTS)]
            self.assertEqual(self.put(key, content), number + 1, key)
            self.assertEqual(self.got(key), content, key)
        self.assertEqual(self.put("plain", EVERY_BYTE), len(KEYS) + 1)
        self.assertEqual((self.got("plain"), self.got("plain", "--version", "1")), (EVERY_BYTE, CONTENTS[0]))

    def test_standard_input_and_output(self) -> None:
        given = io.TextIOWrapper(io.BytesIO(EVERY_BYTE))
        with mock.patch("sys.stdin", given):
            self.done("put", "docs", "plain", "-")
        told = self.done("get", "docs", "plain")
        self.assertEqual(told.encode("utf-8", "surrogateescape"), EVERY_BYTE)

    def test_the_largest_is_taken_and_one_byte_more_is_not(self) -> None:
        content = os.urandom(MOST)
        self.put("large", content)
        self.assertEqual(self.got("large"), content)
        done = self.desk("put", "docs", "larger", self.written("larger", content + b"x"), at=LATER)
        self.assertEqual((done.status, done.out), (1, ""))
        self.assertIn("cut it into parts", done.err)
        none = self.folder / "none"
        done = self.desk("get", "docs", "larger", str(none), at=LATER)
        self.assertEqual((done.status, none.exists()), (1, False))
        self.assertIn("NoSuchKey", done.err)

    def test_a_listing_has_all_keys_as_they_are(self) -> None:
        for key in KEYS:
            self.put(key, b"x")
        self.put("plain", b"newer")
        told = json.loads(self.done("ls", "docs", "--json", at=LATER))
        self.assertEqual([it["key"] for it in told], sorted([*KEYS, "plain"], key=str.encode))
        plain = [(it["version"], it["size"], it["kind"]) for it in told if it["key"] == "plain"]
        self.assertEqual(plain, [(len(KEYS) + 1, 5, "current"), (1, 1, "older")])
        many = [f'm"/{it:04}' for it in range(2_001)]
        self.lines(*({"do": "put", "bucket": "docs", "key": it, "text": "x"} for it in many), at=LATER)
        told = json.loads(self.done("ls", "docs", 'm"/', "--json", at=LATER))
        self.assertEqual([it["key"] for it in told], many)
        self.assertEqual(self.done("ls", "docs", "zzz", at=LATER), "")

    def test_locks_are_set_as_they_are_asked_for(self) -> None:
        def head(key: str) -> tuple[str, object]:
            [reply] = self.lines({"do": "head", "bucket": "docs", "key": key}, at=LATER)
            return reply["ok"]["hold"], reply["ok"]["retention"]

        number = self.put(KEYS[3], b"x")
        self.done("hold", "docs", KEYS[3], at=LATER)
        self.assertEqual(head(KEYS[3]), ("ON", None))
        self.done("release", "docs", KEYS[3], "--version", str(number), at=LATER)
        self.assertEqual(head(KEYS[3]), ("OFF", None))
        until = "2030-01-01T00:00:00Z"
        self.put("kept", b"x", "--hold", "--until", until)
        self.assertEqual(head("kept"), ("ON", {"mode": "GOVERNANCE", "until": until}))
        self.put("kept", b"x", "--mode", "COMPLIANCE", "--until", until)
        self.assertEqual(head("kept"), ("OFF", {"mode": "COMPLIANCE", "until": until}))

    def test_what_is_refused_is_told_with_its_name(self) -> None:
        self.put("plain", b"x")
        path = self.written("in put", b"x")
        for status, told, *words in (
            (1, "unknown-caller", "get", "docs", "plain", "--as", "eve"),
            (1, "unknown-caller", "ls", "docs", "--as", "e'v\"e"),
            (1, "ClockBack", "put", "docs", "plain", path, "--at", "2024-01-15T08:59:59Z"),
            (1, "InvalidArgument", "put", "docs", "line\nline", path),
            (1, "InvalidArgument", "hold", "docs", "tab\t"),
            (1, "NoSuchBucket", "hold", "dogs", "plain"),
            (1, "NoSuchVersion", "get", "docs", "plain", "--version", "999999"),
            (1, "there is no such file", "ls", "docs", "--vault", str(Path(self.folder) / "none.vault")),
            (1, "absent", "put", "docs", "plain", "absent"),
            (2, "usage: vaultdesk put", "put", "docs", "k"),
            (2, "usage: vaultdesk get", "get", "docs"),
            (2, "usage: vaultdesk ls", "ls"),
            (2, "--version", "get", "docs", "plain", "--version", "x"),
            (2, "--until", "put", "docs", "k", path, "--until"),
            (2, "--hold", "ls", "docs", "--hold"),
            (2, "nobody asks", "ls", "docs", "--as", ""),
        ):
            with mock.patch.dict(os.environ, {"VAULT_CALLER": ""}):
                who = () if "--as" in words else ("--as", "ann")
                when = () if "--at" in words else ("--at", LATER)
                done = self.desk(*map(str, words), *who, *when, at=None)
            self.assertEqual(done.status, status, (words, done))
            self.assertIn(told, done.out + done.err, words)
