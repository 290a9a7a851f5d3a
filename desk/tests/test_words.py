"""Every subcommand, by its row: its words, help with an example, man page, completions, JSON, and statuses."""

from __future__ import annotations

import argparse
import io
import json
import os
import shlex
import shutil
import signal
import subprocess
import sys
import tempfile
import unittest
from collections.abc import Iterator
from pathlib import Path
from typing import Any, NamedTuple
from unittest import mock

from tests.machine import MachineTest
from tests.office import PROGRAM
from tests.served import ServedTest, free_port
from vaultdesk import __version__
from vaultdesk.cli import words

TOP = Path(__file__).resolve().parents[2]
Command = tuple[str, argparse.ArgumentParser]
SERVED = "by a test of its own"
TWO = SERVED  # it takes two callers


class Row(NamedTuple):
    """What is asked of a subcommand after its own words: once so that it is done, once so that it is refused."""

    done: str
    refused: str


NO_VAULT = "--vault {folder}/none.vault"
TRIED = "docs --until 2024-01-20"
# Each subcommand, in an order in which each finds what it needs.
ROWS = {
    "put": Row("docs new {folder}/one.txt", "nowhere k {folder}/one.txt"),
    "get": Row("docs a", "docs none"),
    "info": Row("docs a", "docs none"),
    "ls": Row("docs", "nowhere"),
    "export": Row("docs {folder}/out --names", "nowhere {folder}/out"),
    "find": Row("a", "--same-as {folder}/none"),
    "held": Row("", NO_VAULT),
    "history": Row("1", "99"),
    "hold": Row("docs a --case M", "docs none"),
    "release": Row("docs a --case M", "docs none"),
    "cases": Row("", "nothing"),
    "retain": Row("docs a --until 2025-01-01", "docs none --until 2025-01-01"),
    "rm": Row("docs b", "nowhere b"),
    "delete": Row("docs b --version 2 --yes", "docs a --version 99 --yes"),
    "default": Row("docs --days 1", "nowhere"),
    "rules add": Row("docs --id old --days 30", "nowhere --id old --days 30"),
    "rules list": Row("docs", "nowhere"),
    "rules try": Row(TRIED, "nowhere --until 2024-01-20"),
    "expire": Row("records --yes", "court --yes"),
    "rules remove": Row("docs old", "docs none"),
    "deliver": Row(*(f"{{folder}}/{it} --bucket docs --batch b1 --yes" for it in ("scans", "none"))),
    "certificates": Row("{folder}/certificates", "{folder}/one.txt"),
    "certificate": Row("3", "1"),
    "register": Row("", NO_VAULT),
    "report": Row("records", "court"),
    "charges": Row(*(f"--since 2024-01-15 --before 2024-01-15T09:30:00Z {it}" for it in ("", NO_VAULT))),
    "verify": Row("", NO_VAULT),
    "lawful": Row("", NO_VAULT),
    "seal": Row("--append", NO_VAULT),
    "check-seals": Row("", "{folder}/none.seals"),
    "compare": Row("{copy} {file}", "{folder}/none.vault {file}"),
    "answer": Row("1", "99"),
    "departments": Row("--add court --as registrar", "--add records --as registrar"),
    "buckets": Row(*(f"--add {it} --department records --as registrar" for it in ("files", "docs"))),
    "callers": Row(*(f"--add {it} --department records --rights get --as registrar" for it in ("bob", "ann"))),
    "facts": Row("docs a --set title=T", "docs none"),
    "schedule set": Row("{folder}/classes.csv", "{folder}/one.txt"),
    "schedule show": Row("", NO_VAULT),
    "schedule diff": Row("", "{folder}/one.txt"),
    "event": Row(*(f'"case 17 closed" --on 2024-01-10 --yes {it}' for it in ("", "--as registrar"))),
    "disposal plan": Row("records --dry-run", "court --dry-run"),
    "disposal list": Row("", "none"),
    "disposal approve": Row(TWO, "none --yes"),
    "disposal carry-out": Row(TWO, "none --yes"),
    "disposal reject": Row(TWO, "none --reason x"),
    "approve": Row(TWO, "none --yes"),
    "carry-out": Row(TWO, "none --yes"),
    "due": Row("", NO_VAULT),
    "people add": Row('ann "Anna Berg"', 'zed "Zed"'),
    "people list": Row("", NO_VAULT),
    "trail": Row("docs {folder}/one.txt", "docs {folder}/none"),
    "where": Row("1", "99"),
    "status": Row(SERVED, ""),
    "close": Row(SERVED, ""),
    "page": Row("{file}", "{folder}/none.vault"),
    "backup": Row("{file} {folder}/copies", "{folder}/none.vault {folder}/copies"),
    "copies": Row("{file} {folder}/copies --audit --version 1", "{file} {folder}/copies --least 9"),
    "night": Row("records --clock-is-right", "recrods"),
    "offline": Row("records true", "recrods true"),
    "wipe": Row("{file} --yes", "{folder}/none.vault --yes"),
    "restore": Row("records {copy}", "records {folder}/none"),
    "check": Row("records", "recrods"),
    "health": Row(SERVED, "recrods"),
    "metrics": Row("{file}", "{folder}/none.vault"),
    "offices list": Row("", ""),
    "offices map": Row("", ""),
    "offices registers": Row("{file}", "{folder}/none.vault"),
    "offices reports": Row(*(f"--at 2124-02-01 {it}" for it in ("{file}", "{folder}/none.vault"))),
    "offices backup": Row("{folder}/all {file}", "{folder}/all {folder}/none.vault"),
    "users add": Row("{users} bob", "{users} ann"),
    "users list": Row("{users}", "{folder}/none"),
    "users password": Row("{users} ann", "{users} nobody"),
    "users remove": Row("{users} ann --yes", "{users} nobody --yes"),
    "s3 serve": Row(SERVED, "--settings {folder}/none.toml"),
    "s3 key": Row("list --settings {s3}", "remove none --yes --settings {s3}"),
    "web": Row(SERVED, "{file} --port 0 --users {folder}/none"),
    "standby begin": Row("records", "recrods"),
    "standby lag": Row("records", "recrods"),
    "standby follow": Row(SERVED, "recrods"),
    "standby take": Row(SERVED, "re/cords"),
    "unit started": Row(SERVED, "records"),
    "unit stop": Row("records", "recrods"),
    "unit stopped": Row("records", "recrods"),
    "unit failed": Row("vault-run@records", "vault-run@broken"),
}
# What changes much, or can't be undone.
TRIED_FIRST = (
    "hold", "release", "retain", "rm", "delete", "deliver", "expire", "buckets", "callers", "night", "backup",
    "wipe", "restore", "users remove", "s3 key",
)  # fmt: skip


def leaves(parser: argparse.ArgumentParser, name: str) -> Iterator[Command]:
    """Each subcommand that has none below it, by all of its words after `vaultdesk`."""
    for action in parser._actions:
        if isinstance(action, argparse._SubParsersAction):
            for word, below in action.choices.items():
                inner = list(leaves(below, f"{name}{word} "))
                yield from inner or [(f"{name}{word}", below)]


SUBCOMMANDS = dict(leaves(words(), ""))


def options_of(parser: argparse.ArgumentParser) -> set[str]:
    """The long names of a subcommand's options."""
    return {it.option_strings[-1] for it in parser._actions if it.option_strings}


class Every(MachineTest):
    def setUp(self) -> None:
        super().setUp()
        for key in "abc":
            self.lines({"do": "put", "bucket": "docs", "key": key, "text": key})
        self.lines({"do": "delete-version", "bucket": "docs", "key": "c", "id": 3})
        self.lines({"do": "add-bucket", "as": "registrar", "bucket": "office", "dept": "records"})
        self.written("one.txt", b"one")
        self.written("classes.csv", b"class,years,mode\nletter,6,GOVERNANCE\n")
        (self.folder / "scans").mkdir()
        self.written("scans/two.txt", b"two")
        self.names = {"folder": str(self.folder), "file": str(self.file), "users": f"{self.folder}/vault.users"}
        self.names |= {"s3": f"{self.folder}/s3.toml", "copy": f"{self.folder}/copy.vault"}
        for it in ("", "-wal"):
            shutil.copy(f"{self.file}{it}", f"{self.folder}/copy.vault{it}")
        self.written("vault.users", b"ann:$6$x$y\n")
        for name, vault in (("s3.toml", self.file), ("none.toml", self.folder / "none.vault")):
            self.written(name, f'vault = "{vault}"\nkeys = "{self.folder}/keys.toml"\n'.encode())
        # As of a server that was killed, and of one that has ended already.
        unit = {"SERVICE_RESULT": "success", "EXIT_CODE": "killed", "MAINPID": "999999999"}
        self.enterContext(mock.patch.dict(os.environ, unit))

    def asked_of(self, name: str, given: str) -> tuple[int, str, str]:
        """The status of a subcommand that is asked to print JSON, and what it prints."""
        with mock.patch("sys.stdin", io.StringIO("a long password\n")):
            # A server says how things are now.
            is_of_past = SUBCOMMANDS[name].get_default("run") is not None and name != "status"
            at = "2024-01-15T10:00:00Z" if is_of_past else None
            done = self.desk(*name.split(), "--json", *shlex.split(given.format(**self.names)), at=at)
        return done.status, done.out, done.err

    def test_each_prints_one_json_value_where_it_is_done(self) -> None:
        for name, row in ROWS.items():
            if row.done != SERVED:
                with self.subTest(name):
                    status, out, err = self.asked_of(name, row.done)
                    self.assertEqual(status, 0, err)
                    json.loads(out)

    def test_each_has_status_1_where_it_is_refused_and_says_why(self) -> None:
        self.configure("broken", PORT="none", ALARM="exit 3")
        for name, row in ROWS.items():
            with self.subTest(name):
                status, out, err = self.asked_of(name, row.refused)
                self.assertEqual(status, 1, err)
                self.assertRegex(err, f"(?m)^vaultdesk {name.split()[0]}: .")
                if out:
                    json.loads(out)

    def test_each_has_status_2_where_its_words_arent_understood(self) -> None:
        for name in SUBCOMMANDS:
            with self.subTest(name):
                done = self.desk(*name.split(), "--no-such-word", at=None)
                self.assertEqual((done.status, done.out), (2, ""))
                self.assertIn("usage: vaultdesk", done.err)

    def test_each_has_help_with_an_example(self) -> None:
        for name, parser in SUBCOMMANDS.items():
            with self.subTest(name):
                done = self.desk(*name.split(), "--help", at=None)
                self.assertEqual((done.status, done.err), (0, ""))
                self.assertRegex(done.out, rf"Examples?: vaultdesk {name}\b")
                self.assertIn("--json", options_of(parser))


class Alone(unittest.TestCase):
    def test_each_has_a_row(self) -> None:
        self.assertEqual(sorted(ROWS), sorted(SUBCOMMANDS))

    def test_each_understands_its_examples(self) -> None:
        for name, parser in SUBCOMMANDS.items():
            _, _, examples = (parser.epilog or "").partition(": ")
            for example in examples.split("; "):
                self.assertTrue(example.startswith(f"vaultdesk {name}"), example)
                # What is printed may go to a file.
                asked = words().parse_args(shlex.split(example.partition(" > ")[0])[1:])
                self.assertTrue(callable(asked.do if "do" in asked else asked.run), example)

    def test_what_asks_about_a_vault_has_the_common_options(self) -> None:
        asking = {name: it for name, it in SUBCOMMANDS.items() if it.get_default("run")}
        self.assertGreater(len(asking), 30)
        for name, parser in asking.items():
            self.assertLessEqual({"--vault", "--as", "--at", "--door"}, options_of(parser), name)

    def test_what_changes_much_may_be_tried(self) -> None:
        for name in TRIED_FIRST:
            self.assertIn("--dry-run", options_of(SUBCOMMANDS[name]), name)

    def test_the_version_is_the_packages(self) -> None:
        version = (TOP / "packaging" / "VERSION").read_text(encoding="utf-8").strip()
        self.assertEqual(__version__, version)


class ServedAlone(ServedTest):
    def test_close(self) -> None:
        server = self.serve()
        done = json.loads(self.done("close", "--as", "registrar", "--json", at=None))
        self.assertEqual((done, server.wait(60)), ({"door": str(self.where), "done": "ended"}, 0))

    def test_unit_started(self) -> None:
        server = self.serve()
        self.configure(PORT=str(self.port))
        with mock.patch.dict(os.environ, {"MAINPID": str(server.pid)}):
            done = json.loads(self.done("unit", "started", "records", "--json", at=None))
        self.assertEqual(done, {"asked": "started", "name": "records", "status": 0})

    def test_s3_serve(self) -> None:
        port = free_port()
        text = f'vault = "{self.file}"\nkeys = "{self.folder}/keys.toml"\nport = {port}\n'
        given = ["s3", "serve", "--json", "--settings", self.written("s3.toml", text.encode())]
        self.written("keys.toml", b"")
        (self.folder / "keys.toml").chmod(0o600)
        how: dict[str, Any] = {"stdout": subprocess.PIPE, "stderr": subprocess.DEVNULL, "encoding": "utf-8"}
        command = [sys.executable, "-B", "-m", "vaultdesk", *given]
        with subprocess.Popen(command, cwd=TOP / "desk", env={**os.environ, "VAULTCTL": PROGRAM}, **how) as served:
            assert served.stdout
            text = ""
            while not text.endswith("}\n"):
                line = served.stdout.readline()
                self.assertTrue(line, text)
                text += line
            served.send_signal(signal.SIGTERM)
            self.assertEqual((served.wait(60), served.stdout.read()), (0, ""))
        wanted = {"vault": str(self.file), "serves": f"http://127.0.0.1:{port}", "buckets": ["docs"]}
        self.assertEqual(json.loads(text), wanted)


class Pages(unittest.TestCase):
    def setUp(self) -> None:
        self.out = Path(self.enterContext(tempfile.TemporaryDirectory()))

    def made_by(self, tool: str) -> None:
        words: list[str | Path] = [sys.executable, "-B", TOP / "tools" / "packaging" / tool, self.out]
        subprocess.run(words, check=True, stdout=subprocess.DEVNULL)

    def test_each_has_a_man_page_with_all_of_its_words(self) -> None:
        self.made_by("man-pages")
        whole = (self.out / "man1" / "vaultdesk.1").read_text(encoding="utf-8").replace("\\-", "-")
        for name, parser in SUBCOMMANDS.items():
            with self.subTest(name):
                first = name.split()[0]
                page = (self.out / "man1" / f"vaultdesk-{first}.1").read_text(encoding="utf-8").replace("\\-", "-")
                self.assertIn(f"vaultdesk-{first} 1", whole)
                self.assertIn(f"vaultdesk {name}", page)
                for it in options_of(parser) - {"--help"}:
                    self.assertIn(f"Fl {it[1:]}", page.replace("Fl --", "Fl -"), it)

    @unittest.skipUnless(shutil.which("bash"), "there is no bash")
    def test_each_is_completed_with_all_of_its_options(self) -> None:
        self.made_by("completions")
        lines = [f"source {self.out}/vaultdesk.bash"]
        for name in SUBCOMMANDS:
            given = name.split()
            lines.append(f"COMP_WORDS=(vaultdesk {name} --) COMP_CWORD={len(given) + 1}; _vaultdesk")
            lines.append('echo "${COMPREPLY[*]}"')
            lines.append(f"COMP_WORDS=(vaultdesk {name}) COMP_CWORD={len(given)}; _vaultdesk")
            lines.append('echo "${COMPREPLY[*]}"')
        done = subprocess.run(["bash", "-c", "\n".join(lines)], capture_output=True, text=True, check=True)
        printed = done.stdout.splitlines()
        self.assertEqual(len(printed), 2 * len(SUBCOMMANDS))
        for (name, parser), options, last in zip(SUBCOMMANDS.items(), printed[::2], printed[1::2], strict=True):
            with self.subTest(name):
                self.assertEqual(set(options.split()), options_of(parser) | {"--help"})
                self.assertIn(name.split()[-1], last.split())
