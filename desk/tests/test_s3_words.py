"""The gateway's settings and access keys."""

from __future__ import annotations

import json
import unittest.mock
from pathlib import Path

from tests.office import OfficeTest
from vaultdesk.s3 import keys, settings


class Keys(OfficeTest):
    def setUp(self) -> None:
        super().setUp()
        self.keys = self.folder / "keys.toml"
        self.settings = self.written("s3.toml", f'vault = "{self.file}"\nkeys = "{self.keys}"\n'.encode())

    def key(self, *words: str) -> str:
        return self.done("s3", "key", *words, "--settings", self.settings, at=None)

    def test_one_is_added_listed_and_removed(self) -> None:
        done = self.desk("s3", "key", "add", "ann", "--settings", self.settings, at=None)
        self.assertEqual(done.status, 0)
        name, secret = (it.split()[-1] for it in done.out.splitlines())
        self.assertIn("this once", done.err)
        self.assertEqual(self.keys.stat().st_mode & 0o777, 0o600)
        self.assertEqual(keys.read(self.keys), {name: keys.Key("ann", secret)})
        self.assertGreaterEqual(len(secret), 40)
        listed = self.key("list", "--json")
        self.assertEqual(json.loads(listed), [{"access key": name, "caller": "ann"}])
        self.assertNotIn(secret, listed)
        other = json.loads(self.key("add", "bea", "--json"))
        self.assertNotEqual(other["secret"], secret)
        self.assertEqual(self.key("remove", name, "--dry-run"), f"the key {name} of ann would be removed\n")
        self.assertEqual(len(keys.read(self.keys)), 2)
        self.key("remove", name, "--yes")
        self.assertEqual(list(keys.read(self.keys)), [other["access_key"]])

    def test_words_that_are_wrong(self) -> None:
        for words, status, said in (
            (("add",), 2, "whose key"), (("add", "Ann Miller"), 2, "no caller's name"),
            (("remove", "VK", "--yes"), 1, "isn't in"), (("remove",), 1, "isn't in"),
        ):  # fmt: skip
            done = self.desk("s3", "key", *words, "--settings", self.settings, at=None)
            self.assertEqual(done.status, status)
            self.assertIn(said, done.err)
        self.assertFalse(self.keys.exists())

    def test_a_file_that_others_may_read_is_refused(self) -> None:
        self.key("add", "ann", "--json")
        self.keys.chmod(0o640)
        for words in (("key", "list"), ("key", "add", "bea"), ("serve",)):
            done = self.desk("s3", *words, "--settings", self.settings, at=None)
            self.assertEqual(done.status, 1)
            self.assertIn("chmod 600", done.err)

    def test_a_file_that_isnt_one(self) -> None:
        for text in ("[VK1]\n", '[VKTESTKEYOFANNANN234]\ncaller = "ann"\n', "nonsense", 'a = "b"',
                     '[VKTESTKEYOFANNANN234]\ncaller = "Ann"\nsecret = "x"\n'):
            self.keys.write_text(text)
            self.keys.chmod(0o600)
            self.assertEqual(self.desk("s3", "key", "list", "--settings", self.settings, at=None).status, 1, text)

    def test_a_secret_that_can_be_guessed_is_refused(self) -> None:
        for secret in ("", "changeme", "x" * 15):
            self.keys.write_text(f'[VKTESTKEYOFANNANN234]\ncaller = "ann"\nsecret = "{secret}"\n')
            self.keys.chmod(0o600)
            for words in (("key", "list"), ("key", "add", "bea"), ("serve",)):
                done = self.desk("s3", *words, "--settings", self.settings, at=None)
                self.assertEqual((done.status, done.out), (1, ""))
                self.assertIn("VKTESTKEYOFANNANN234 has less than 16 characters", done.err)
        self.keys.write_text(self.keys.read_text().replace("x" * 15, "x" * 16))
        self.assertIn("ann", self.key("list"))

    def test_a_disk_that_is_full_leaves_the_old_keys(self) -> None:
        self.key("add", "ann", "--json")
        before = self.keys.read_bytes()
        with unittest.mock.patch("os.chown", side_effect=OSError(28, "No space left on device")):
            self.assertEqual(self.desk("s3", "key", "add", "bea", "--settings", self.settings, at=None).status, 1)
        self.assertEqual(self.keys.read_bytes(), before)
        self.assertEqual([it.name for it in self.folder.iterdir() if it.name.startswith(".keys")], [])


class Settings(OfficeTest):
    def refused(self, text: str, said: str) -> None:
        path = self.written("s3.toml", text.encode())
        done = self.desk("s3", "serve", "--settings", path, at=None)
        self.assertEqual((done.status, done.out), (2, ""))
        self.assertIn(said, done.err)

    def test_what_isnt_understood(self) -> None:
        both = 'vault = "v"\nkeys = "k"\n'
        for text, said in (
            ("", "vault is missing"), ('vault = "v"', "keys is missing"), (both + "prot = 1", "isn't a setting"),
            (both + 'port = "9000"', "another kind"), (both + "port = 70000", "65,535"), (both + "port = true", "kind"),
            (both + "dropped_metadata = [1]", "a list of names"), (both + 'certificate = "c"', "go together"),
            ("nonsense", "settings"),
        ):  # fmt: skip
            with self.subTest(text):
                self.refused(text, said)
        self.assertEqual(self.desk("s3", "serve", "--settings", str(Path("/nowhere/s3.toml")), at=None).status, 2)

    def test_what_is_left_out_is_the_careful_choice(self) -> None:
        given = settings.read(Path(self.written("s3.toml", b'vault = "v"\nkeys = "k"\n')))
        self.assertEqual((given.address, given.presigned, given.dropped_metadata), ("127.0.0.1", False, frozenset()))

    def test_a_vault_that_isnt_there(self) -> None:
        path = self.folder / "keys.toml"
        path.write_text("")
        path.chmod(0o600)
        given = self.written("s3.toml", f'vault = "{self.folder}/none"\nkeys = "{path}"\n'.encode())
        done = self.desk("s3", "serve", "--settings", given, at=None)
        self.assertEqual(done.status, 1)
        self.assertIn("no such file", done.err)
