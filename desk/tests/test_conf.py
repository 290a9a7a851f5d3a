"""The configuration of a vault with units."""

from __future__ import annotations

import contextlib
import io
from pathlib import Path
from unittest import mock

from tests.machine import MachineTest
from vaultdesk import conf
from vaultdesk.config import Settings
from vaultdesk.errors import DeskError


class Conf(MachineTest):
    def test_a_value_is_what_a_shell_would_read(self) -> None:
        for text, value in (
            ("8080", "8080"), ("", ""), ("30   # copies", "30"), ('"drafts cases:court"', "drafts cases:court"),
            ("'mail -s \"$UNIT\" root'", 'mail -s "$UNIT" root'), ('"it\'s"', "it's"), ("a'b c'd", "ab cd"),
        ):  # fmt: skip
            self.assertEqual(conf.value_of(text), value, text)

    def test_what_a_shell_would_change_is_refused(self) -> None:
        for text in ("drafts cases", '"$HOME"', "$HOME", '"`id`"', "a\\ b", "'open", '"it\'s $HOME and \'s"'):
            with self.assertRaises(ValueError, msg=text):
                conf.value_of(text)

    def test_a_name_has_its_file_where_the_folder_may_not_be_searched(self) -> None:
        (self.machine / "records.conf").write_text("PORT=8080\n")
        configured = conf.is_configured("records")
        self.assertTrue(configured)
        with (
            mock.patch.object(conf, "is_configured", return_value=configured),
            mock.patch.object(Path, "exists", side_effect=PermissionError),
        ):
            self.assertEqual(Settings().file_of("records"), conf.vaults_folder() / "records.vault")

    def test_a_line_that_is_wrong_is_named(self) -> None:
        path = self.machine / "records.conf"
        path.write_text("# a comment\n\nPORT=8080\nKEEP = 3\n")
        with self.assertRaisesRegex(DeskError, "line 4: a line is NAME=VALUE"):
            conf.read("records")
        path.write_text("PORT=8080\nKEPP=3\n")
        with contextlib.redirect_stderr(io.StringIO()) as told:
            conf.read("records")
        self.assertIn("line 2: KEPP isn't asked for", told.getvalue())

    def test_values_out_of_their_range_are_refused(self) -> None:
        wrong = (("PORT", "0"), ("PORT", "65536"), ("PORT", "http"), ("KEEP", "0"), ("KEEP", "-1"), ("MAX_JUMP", "x"))
        for name, value in wrong:
            self.configure(**{name: value})
            found = conf.read("records")
            asked = {"PORT": found.port, "KEEP": found.keep, "MAX_JUMP": found.max_jump}[name]
            with self.assertRaisesRegex(DeskError, f"{name}={value}", msg=f"{name}={value}"):
                asked()

    def test_buckets_have_callers(self) -> None:
        self.configure(BUCKETS="drafts cases:night-court")
        self.assertEqual(conf.read("records").buckets(), [("drafts", "night"), ("cases", "night-court")])
        self.configure(BUCKETS="drafts", NIGHT="owl")
        self.assertEqual(conf.read("records").buckets(), [("drafts", "owl")])
        for wrong in ("*", "drafts:", ":night", "a:b:c", "Drafts", "drafts:Night", "x"):
            self.configure(BUCKETS=wrong)
            with self.assertRaisesRegex(DeskError, "BUCKETS has", msg=wrong):
                conf.read("records").buckets()

    def test_a_name_is_no_path(self) -> None:
        for name in ("../records", "", "a/b", "-x", ".."):
            with self.assertRaisesRegex(DeskError, "is no vault's name", msg=name):
                conf.read(name)
        with self.assertRaisesRegex(DeskError, "no vault has the name recrods"):
            conf.read("recrods")
