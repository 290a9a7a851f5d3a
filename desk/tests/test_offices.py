"""Several vaults: the map for nginx, registers, reports and copies."""

from __future__ import annotations

import contextlib
import csv
import io
import json
import re
import sqlite3
import subprocess
from contextlib import closing
from pathlib import Path
from unittest import mock

from tests.machine import MachineTest
from tests.office import PROGRAM
from vaultdesk import reading
from vaultdesk.errors import EngineError

LATER = "2024-02-01T00:00:00Z"


class Offices(MachineTest):
    def setUp(self) -> None:
        super().setUp()
        self.court = self.folder / "court.vault"
        subprocess.run([PROGRAM, "init", str(self.court)], check=True)
        self.configure("court", PORT="8081")
        self.lines({"do": "put", "bucket": "docs", "key": "a", "text": "hello"})
        self.lines({"do": "delete-version", "bucket": "docs", "key": "a", "id": 1}, at="2024-01-17T10:00:00Z")
        records, self.file = self.file, self.court
        rights = ["put", "delete-version"]
        self.lines(
            {"do": "add-dept", "as": "registrar", "dept": "court"},
            {"do": "add-caller", "as": "registrar", "caller": "cid", "dept": "court", "rights": rights},
            {"do": "add-bucket", "as": "registrar", "bucket": "cases", "dept": "court"},
            {"do": "put", "as": "cid", "bucket": "cases", "key": "4711", "text": "a statement"},
        )
        removal = {"do": "delete-version", "as": "cid", "bucket": "cases", "key": "4711", "id": 1}
        self.lines(removal, at="2024-01-16T10:00:00Z")
        self.file = records

    def test_the_map_gives_each_bucket_to_its_vault(self) -> None:
        told = self.done("offices", "map", "--bucket", "court:maps", at=None)
        self.assertIn("upstream court { server 127.0.0.1:8081; }", told)
        patterns = re.findall(r"^    ~(\S+) (\w+);$", told, re.M)
        for path, vault in (
            ("/docs/a", "records"), ("/docs?versions", "records"), ("/docs", "records"), ("/cases/docs", "court"),
            ("/maps/x", "court"), ("/docsx/a", None), ("/", None), ("/doc", None), ("/%64ocs/a", None),
        ):  # fmt: skip
            found = [name for pattern, name in patterns if re.match(pattern, path)]
            self.assertEqual(found, [vault] if vault else [], path)

    def test_one_port_or_one_bucket_for_two_is_refused(self) -> None:
        done = self.desk("offices", "map", "--bucket", "court:docs", at=None)
        self.assertEqual((done.status, done.out), (1, ""))
        self.assertIn("two vaults have a bucket docs", done.err)
        self.assertIn("given twice", self.desk("offices", "map", "--nowhere", "8081", at=None).err)
        self.configure("court", PORT="8080")
        self.assertIn("the port 8080 is given twice", self.desk("offices", "map", at=None).err)
        self.assertIn("isn't VAULT:BUCKET", self.desk("offices", "map", "--bucket", "docs", at=None).err)

    def test_of_a_vault_that_is_served_the_buckets_are_those_of_now(self) -> None:
        with closing(sqlite3.connect(self.file, isolation_level=None)) as base:
            base.execute("PRAGMA locking_mode=EXCLUSIVE")
            base.execute("BEGIN EXCLUSIVE")
            self.assertIn("~^/(docs)", self.done("offices", "map", at=None))

    def test_where_a_file_cant_be_read_its_newest_copy_is(self) -> None:
        def readable(file: Path, *_: object) -> contextlib.AbstractContextManager[Path]:
            if file == self.file:
                raise EngineError("it can't be read")
            return contextlib.nullcontext(file)

        with mock.patch("vaultdesk.snapshot.readable", readable):
            self.assertEqual(self.desk("offices", "map", at=None).status, 1)
        self.done("backup", "records", at=None)
        with mock.patch("vaultdesk.snapshot.readable", readable):
            done = self.desk("offices", "map", at=None)
        self.assertEqual(done.status, 0)
        self.assertIn("~^/(docs)", done.out)
        self.assertIn("name them by --bucket", done.err)

    def test_the_vaults_of_this_machine(self) -> None:
        self.set_state("active")
        told = {it["vault"]: it for it in json.loads(self.done("offices", "list", "--json", at=None))}
        self.assertEqual([told[it]["port"] for it in ("court", "records")], [8081, 8080])
        self.assertEqual(told["court"]["state"], "active")

    def test_registers_are_one_by_the_moments(self) -> None:
        told = self.done("offices", "registers", str(self.file), str(self.court), at=None)
        rows = list(csv.DictReader(io.StringIO(told)))
        found = [(it["vault"], it["key"], it["removed"]) for it in rows]
        wanted = [("court", "4711", "2024-01-16T10:00:00Z"), ("records", "a", "2024-01-17T10:00:00Z")]
        self.assertEqual(found, wanted)

    def test_reports_of_all(self) -> None:
        words = ("offices", "reports", str(self.file), str(self.court), "--json")
        told = json.loads(self.done(*words, at=LATER))
        found = [(it["vault"], it["department"], it["at"], it["admitted"], it["byte_days"]) for it in told]
        self.assertEqual(found, [("records", "records", LATER, 5, 10), ("court", "court", LATER, 11, 11)])
        self.assertEqual(self.desk(*words, at="2024-01-16").status, 1)

    def test_one_that_can_not_be_read_leaves_nothing_out(self) -> None:
        none = self.written("none.vault", b"no vault")
        for words in (("registers",), ("reports", "--at", LATER)):
            done = self.desk("offices", *words, str(self.file), none, at=None)
            self.assertEqual((done.status, done.out), (1, ""), words)
            self.assertIn("none.vault", done.err)

    def test_each_has_a_copy_also_where_one_has_none(self) -> None:
        none = self.written("none.vault", b"no vault")
        words = ("offices", "backup", str(self.copies), none, str(self.file), str(self.court), "--json")
        done = self.desk(*words, at=None)
        self.assertEqual(done.status, 1)
        told = json.loads(done.out)
        self.assertEqual([it["vault"] for it in told], ["records", "court"])
        for it, bucket in zip(told, ("docs", "cases"), strict=True):
            found = subprocess.run([PROGRAM, "verify", it["copy"]], capture_output=True, text=True, check=True)
            self.assertEqual(found.stdout, "sound\n")
            with closing(sqlite3.connect(it["copy"])) as base:
                self.assertEqual(base.execute("SELECT name FROM buckets").fetchall(), [(bucket,)])
        self.assertTrue(reading.rows(self.file, "SELECT 1"))
