"""The users whom nginx lets in."""

from __future__ import annotations

import io
import json
import subprocess
from pathlib import Path
from unittest import mock

from tests.office import Done, OfficeTest


class Users(OfficeTest):
    def setUp(self) -> None:
        super().setUp()
        self.users = self.folder / "vault.users"

    def given(self, password: str, *words: str) -> Done:
        """A call with a password on standard input."""
        with mock.patch("sys.stdin", io.StringIO(f"{password}\n")):
            return self.desk("users", *words, at=None)

    def digest(self, name: str) -> str:
        return dict(it.split(":", 1) for it in self.users.read_text().splitlines())[name]

    def lets_in(self, name: str, password: str) -> bool:
        """Whether the digest of that user is one of this password."""
        digest = self.digest(name)
        _, kind, salt, _ = digest.split("$")
        words = ["openssl", "passwd", f"-{kind}", "-salt", salt, "-stdin"]
        made = subprocess.run(words, input=password, capture_output=True, text=True, check=True).stdout.strip()
        return made == digest

    def test_one_who_is_added_is_let_in_by_that_password_alone(self) -> None:
        self.assertEqual(self.given("a long one", "add", str(self.users), "ann").status, 0)
        self.assertTrue(self.lets_in("ann", "a long one"))
        self.assertFalse(self.lets_in("ann", "another one"))
        self.assertEqual(self.users.stat().st_mode & 0o777, 0o640)

    def test_the_others_stay_as_they_are(self) -> None:
        self.users.write_text("# of the office\nbob:$apr1$x$y\n")
        self.users.chmod(0o600)
        self.given("a long one", "add", str(self.users), "ann")
        self.assertEqual((self.digest("bob"), self.users.stat().st_mode & 0o777), ("$apr1$x$y", 0o600))
        before = self.digest("ann")
        self.assertEqual(self.given("another one", "password", str(self.users), "ann").status, 0)
        self.assertNotEqual(self.digest("ann"), before)
        self.assertTrue(self.lets_in("ann", "another one"))

    def test_what_is_refused_changes_nothing(self) -> None:
        self.given("a long one", "add", str(self.users), "ann")
        before = self.users.read_text()
        for status, said, password, *words in (
            (1, "is in", "a long one", "add", str(self.users), "ann"),
            (2, "can be no caller's name", "a long one", "add", str(self.users), "Ann@office"),
            (1, "at least 8", "short", "add", str(self.users), "bob"),
            (1, "isn't in", "a long one", "password", str(self.users), "bob"),
            (1, "no open caller", "a long one", "add", str(self.users), "bob", "--vault", str(self.file)),
        ):
            done = self.given(str(password), *map(str, words))
            self.assertEqual((done.status, self.users.read_text()), (status, before), words)
            self.assertIn(said, done.err)

    def test_who_is_removed_is_let_in_no_more(self) -> None:
        self.given("a long one", "add", str(self.users), "ann")
        remove = ("users", "remove", str(self.users), "ann")
        self.done(*remove, "--dry-run", at=None)
        self.assertEqual(self.desk(*remove, at=None).status, 2)
        self.assertIn("ann", self.users.read_text())
        self.done(*remove, "--yes", at=None)
        self.assertEqual(self.users.read_text(), "")

    def test_json_says_what_was_done(self) -> None:
        file, told = str(self.users), []
        for words in (("add", file, "ann"), ("password", file, "ann")):
            told.append(json.loads(self.given("a long one", *words, "--json").out))
        for more in ("--dry-run", "--yes"):
            told.append(json.loads(self.done("users", "remove", file, "ann", more, "--json", at=None)))
        did = ("added", "password", "would be removed", "removed")
        self.assertEqual(told, [{"file": file, "user": "ann", "done": it} for it in did])

    def test_users_and_callers_beside_each_other(self) -> None:
        self.users.write_text("ann:x\nbob:y\n")
        told = json.loads(self.done("users", "list", str(self.users), "--vault", str(self.file), "--json", at=None))
        found = {it["user"]: (it["lets in"], it["caller"]) for it in told}
        self.assertEqual(found, {"ann": ("yes", "open"), "bob": ("yes", "none"), "registrar": ("no", "open")})

    def test_a_line_that_is_none_is_named(self) -> None:
        self.users.write_text("ann:x\nbob\n")
        done = self.desk("users", "list", str(self.users), at=None)
        self.assertEqual(done.status, 1)
        self.assertIn("line 2", done.err)

    def test_a_file_that_can_not_be_written_stays(self) -> None:
        done = self.given("a long one", "add", str(Path(self.folder) / "no" / "folder"), "ann")
        self.assertEqual(done.status, 1)
