"""Readers: other programs that read what the vault's program writes.

A vault in a file gets two versions, of which one is removed. Python's `sqlite3` opens the file, finds it sound and
reads its rows; Python's `csv` reads the register and the events; and `hashlib` makes the digest of a seal, and seals
the certificate anew, and those that stand in `examples/certificates.txt`, which the program prints too. The vault is
sound afterwards.
"""

import contextlib
import csv
import hashlib
import re
import sqlite3

from trials.parts.program import EXAMPLES, Case

SCRIPT = """\
{"at":"2024-01-15T09:00:00Z","as":"registrar","do":"add-dept","dept":"records"}
{"at":"2024-01-15T09:00:00Z","as":"registrar","do":"add-caller","caller":"ann","dept":"records","rights":["put","delete-version","report"]}
{"at":"2024-01-15T09:00:00Z","as":"registrar","do":"add-bucket","bucket":"docs","dept":"records"}
{"at":"2024-01-15T10:30:00Z","as":"ann","do":"put","bucket":"docs","key":"2024/a, \\"b\\"","text":"hello"}
{"at":"2024-01-15T10:31:00Z","as":"ann","do":"put","bucket":"docs","key":"2024/c","text":"deed"}
{"at":"2024-01-16T00:00:00Z","as":"ann","do":"delete-version","bucket":"docs","key":"2024/a, \\"b\\"","id":1}
"""
TABLES = "buckets callers contents departments entries heads intake meta rules settings tenures".split()


class Readers(Case):
    def setUp(self):
        super().setUp()
        self.assertEqual(self.ran("init", "records.vault"), (0, "", ""))
        replies = self.printed("replay", "records.vault", given=SCRIPT).splitlines()
        self.assertEqual([it for it in replies if not it.startswith('{"ok":')], [])

    def tearDown(self):
        self.is_sound("records.vault")

    def read(self, *words):
        """The rows that a command prints, as `csv` reads them."""
        return list(csv.DictReader(self.printed(*words).splitlines()))

    def test_file(self):
        """The file as stock SQLite has it, for reading alone."""
        file = self.folder / "records.vault"
        head = file.read_bytes()[:100]
        self.assertTrue(head[:16] == b"SQLite format 3\0" and head[20] == 0, "the pages end in something of their own")
        with contextlib.closing(sqlite3.connect(f"file:{file}?mode=ro", uri=True)) as base:
            for statement, wanted in (
                ("PRAGMA integrity_check", [("ok",)]),
                ("PRAGMA foreign_key_check", []),
                ("SELECT name FROM sqlite_master WHERE type = 'table' ORDER BY name", [(it,) for it in TABLES]),
                ("SELECT id, key, removed IS NULL FROM entries ORDER BY id", [(1, '2024/a, "b"', 0), (2, "2024/c", 1)]),
                ("SELECT id, bytes FROM contents ORDER BY id", [(2, b"deed")]),
                ("SELECT id, n, dept FROM tenures ORDER BY id", [(1, 0, "records"), (2, 0, "records")]),
            ):
                self.assertEqual(base.execute(statement).fetchall(), wanted, statement)

    def test_register(self):
        register = self.read("register", "records.vault")
        wanted = [('2024/a, "b"', hashlib.sha256(b"hello").hexdigest(), "ann")]
        self.assertEqual([(it["key"], it["sha256"], it["cause_by"]) for it in register], wanted)

    def test_events(self):
        """What happened before each moment has the digest of its seal, and all of it the rows that `csv` reads."""
        rows = self.read("events", "records.vault")
        first, second = '2024/a, "b"', "2024/c"
        wanted = [
            ("1", "admitted", "2024-01-15T10:30:00Z", "ann", first),
            ("1", "locked", "2024-01-15T10:30:00Z", "ann", first),
            ("1", "removed", "2024-01-16T00:00:00Z", "ann", first),
            ("2", "admitted", "2024-01-15T10:31:00Z", "ann", second),
            ("2", "locked", "2024-01-15T10:31:00Z", "ann", second),
        ]
        self.assertEqual([(it["version"], it["event"], it["moment"], it["by"], it["key"]) for it in rows], wanted)
        for moment in ("2024-01-15T10:31:00Z", "2024-01-16T00:00:00Z"):
            text = self.printed("events", "records.vault", "--before", moment)
            before = [it for it in wanted if it[2] < moment]
            digest = hashlib.sha256(text.encode()).hexdigest()
            admitted = sum(it[1] == "admitted" for it in before)
            seal = f"before: {moment}\nentries: {admitted}\nevents: {len(before)}\nsha256: {digest}\n"
            self.assertEqual(self.printed("seal", "records.vault", "--before", moment), seal)
        self.assertEqual(self.printed("lawful", "records.vault"), "lawful\n")

    def look_at_seal(self, certificate):
        """The last line is the digest of what is above it."""
        above, seal = certificate.rstrip("\n").rsplit("\n", 1)
        self.assertEqual(seal, f"seal: {hashlib.sha256(f'{above}{chr(10)}'.encode()).hexdigest()}")

    def test_certificate(self):
        """The seal of a certificate, and of each in the transcript."""
        asked = ("records.vault", "docs", "1", "--as", "ann", "--at", "2024-01-17T00:00:00Z")
        self.look_at_seal(self.printed("certificate", *asked))
        text = (EXAMPLES / "certificates.txt").read_text()
        found = re.findall(r"^> CERTIFICATE(?:.*\n> )*?seal: .*$", text, re.MULTILINE)
        self.assertEqual((len(found), text.count("seal: ")), (2, 2))
        for it in found:
            self.look_at_seal(re.sub(r"^> ", "", it, flags=re.MULTILINE))
