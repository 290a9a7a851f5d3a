"""Bags of BagIt: exported ones by the rules of RFC 8493 and by other programs, those that come in, and receipts."""

from __future__ import annotations

import contextlib
import csv
import hashlib
import importlib
import importlib.util
import json
import shutil
import subprocess
import unittest
from collections.abc import Callable, Iterator
from pathlib import Path
from unittest import mock

from tests.office import Done, OfficeTest

KEYS = {"2024/1.pdf": b"one", "100%25 due": b"\x00two", "Deed.txt": b"three", "deed.TXT": b"four", "2024": b"five"}
# Names of several scripts, two of them the same to some systems, with what shells obey; empty files; many of them.
NAMES = (
    "\u00e4/\u00f6 \u00fc.txt", "\u00e4.txt", "a\u0308.txt", "\u65e5\u672c/\u8a9e", "\U0001f600.pdf", " first", "-n",
    "a\\b", "'\"$(x)*",
)  # fmt: skip
MANY = {it: "" if it in NAMES[::2] else it for it in NAMES} | {f"many/{it:03}.txt": str(it) for it in range(300)}
SETTINGS = b'[office]\nname = "County Archive"\n'


def digest(content: bytes, kind: str = "sha256") -> str:
    return hashlib.new(kind, content).hexdigest()


def replaced(name: str, text: str) -> Callable[[Path], None]:
    """What puts that text into a file of a bag."""

    def damage(bag: Path) -> None:
        (bag / name).write_text(text)

    return damage


def removed(name: str) -> Callable[[Path], None]:
    """What removes a file of a bag."""

    def damage(bag: Path) -> None:
        (bag / name).unlink()

    return damage


def listed(line: str) -> Callable[[Path], None]:
    """What adds a line to the manifest of a bag."""

    def damage(bag: Path) -> None:
        with (bag / "manifest-sha256.txt").open("a") as file:
            file.write(f"{line}\n")

    return damage


def linked(bag: Path) -> None:
    """Has a link in the place of a document."""
    (bag / "data/1.txt").unlink()
    (bag / "data/1.txt").symlink_to("../metadata/documents.csv")


def counted_wrong(bag: Path) -> None:
    """Has another sum in the bag's own words, and no digest of these."""
    (bag / "tagmanifest-sha256.txt").unlink()
    (bag / "bag-info.txt").write_text("Payload-Oxum: 7.2\n")


def declared(version: str, encoding: str) -> str:
    return f"BagIt-Version: {version}\nTag-File-Character-Encoding: {encoding}\n"


# Damages of a bag with two documents, by what is said of them.
DAMAGES = {
    r"data/1\.txt: its content has another digest \(sha256\)": replaced("data/1.txt", "eno"),
    r"data/1\.txt: it is missing": removed("data/1.txt"),
    r"data/new: it isn't in the manifest of sha256": replaced("data/new", "x"),
    r"data/1\.txt: it is no file": linked,
    r"bag-info\.txt: its content has another digest": replaced("bag-info.txt", "x: y\n"),
    r"bag-info\.txt has Payload-Oxum 7\.2, and there are 6\.2": counted_wrong,
    r"metadata/documents\.csv: it is missing": removed("metadata/documents.csv"),
    r"no manifest whose digests are known": removed("manifest-sha256.txt"),
    r"manifest-sha256\.txt, line 3: it is no digest": listed("nonsense"),
    r"line 3: data/1\.txt comes twice": listed(f"{digest(b'one')}  data/1.txt"),
    r"\.\./records\.vault: it is missing": listed(f"{digest(b'one')}  ../records.vault"),
    r"bagit\.txt: it isn't below data/": listed(f"{digest(b'one')}  bagit.txt"),
    r"is no bag: it has no bagit\.txt": removed("bagit.txt"),
    r"it declares no bag of BagIt 1\.0 or earlier": replaced("bagit.txt", declared("2.0", "UTF-8")),
    r"manifest-sha256\.txt: it isn't a text in nothing-8": replaced("bagit.txt", declared("1.0", "nothing-8")),
}


class BagTest(OfficeTest):
    def setUp(self) -> None:
        super().setUp()
        self.bag = self.folder / "bag"
        self.lines({"do": "add-bucket", "as": "registrar", "bucket": "again", "dept": "records"})

    def put_all(self) -> None:
        """Puts the documents, one of them with a retention, and an older version of another."""
        put = {"do": "put", "bucket": "docs"}
        lock = {"mode": "COMPLIANCE", "until": "2031-01-01T00:00:00Z", "hold": "ON"}
        self.lines({**put, "key": "2024/1.pdf", "text": "older"})
        for key, it in KEYS.items():
            self.lines({**put, "key": key, "hex": it.hex(), **(lock if key == "2024" else {})})

    def exported(self, *words: str) -> dict[str, bytes]:
        """The files of a bag that the desk makes, by their paths."""
        self.put_all()
        self.done("export", "docs", str(self.bag), "--bagit", *words)
        return {str(it.relative_to(self.bag)): it.read_bytes() for it in self.bag.rglob("*") if it.is_file()}

    def listed(self) -> dict[str, dict[str, str]]:
        """The rows of the bag's list, by their keys."""
        with (self.bag / "metadata" / "documents.csv").open(encoding="utf-8", newline="") as file:
            return {it["key"]: it for it in csv.DictReader(file)}

    def deliver(self, *words: str, batch: str = "b1") -> Done:
        """A delivery of the bag."""
        return self.desk("deliver", str(self.bag), "--bag", "--bucket", "again", "--batch", batch, "--yes", *words)

    @contextlib.contextmanager
    def settings(self, text: bytes) -> Iterator[None]:
        """With a file of settings that has that text."""
        with mock.patch.dict("os.environ", {"VAULTDESK_SETTINGS": self.written("settings.toml", text)}):
            yield

    def there(self, bucket: str) -> dict[str, str]:
        """The digests of a bucket's current versions, by their keys."""
        keys = [it["key"] for it in json.loads(self.done("ls", bucket, "--json")) if it["kind"] == "current"]
        return {it: json.loads(self.done("info", bucket, it, "--json"))["sha256"] for it in keys}


class Exported(BagTest):
    def test_it_has_what_the_standard_wants(self) -> None:
        files = self.exported()
        self.assertEqual(files["bagit.txt"], b"BagIt-Version: 1.0\nTag-File-Character-Encoding: UTF-8\n")
        payload = {name: it for name, it in files.items() if name.startswith("data/")}
        self.assertEqual(sorted(payload.values()), sorted(KEYS.values()))
        lines = files["manifest-sha256.txt"].decode().splitlines()
        self.assertEqual(lines, [f"{digest(payload[name])}  {name}" for name in sorted(payload)])
        tags = {it for it in files if not it.startswith("data/")} - {"tagmanifest-sha256.txt"}
        lines = files["tagmanifest-sha256.txt"].decode().splitlines()
        self.assertEqual(lines, [f"{digest(files[it])}  {it}" for it in sorted(tags)])
        octets = sum(map(len, KEYS.values()))
        info = dict(it.split(": ", 1) for it in files["bag-info.txt"].decode().splitlines())
        self.assertEqual((info["Payload-Oxum"], info["Bagging-Date"]), (f"{octets}.{len(KEYS)}", "2024-01-15"))
        self.assertEqual(info["External-Identifier"], "records/docs/2024-01-15T10:00:00Z")
        self.assertNotIn("Source-Organization", info)

    def test_its_list_has_keys_and_locks(self) -> None:
        self.exported()
        rows = self.listed()
        lock = [rows["2024"][it] for it in ("retention_mode", "retention_until", "legal_hold")]
        self.assertEqual(lock, ["COMPLIANCE", "2031-01-01T00:00:00Z", "ON"])
        found = {key: (self.bag / "data" / it["file"]).read_bytes() for key, it in rows.items()}
        self.assertEqual(found, KEYS)

    def test_names_are_those_that_every_program_reads(self) -> None:
        self.exported("--names")
        names = {key: it["file"] for key, it in self.listed().items()}
        # A percent sign is written otherwise by some, capitals are small letters to others; `2024` is a folder here.
        wanted = {"2024": "2024", "2024/1.pdf": "2.pdf", "100%25 due": "3", "Deed.txt": "Deed.txt", "deed.TXT": "5.TXT"}
        self.assertEqual(names, wanted)

    @unittest.skipUnless(shutil.which("sha256sum"), "there is no sha256sum")
    def test_another_program_finds_its_digests_right(self) -> None:
        self.exported("--names", "--all-versions")
        for name in ("manifest-sha256.txt", "tagmanifest-sha256.txt"):
            words = ["sha256sum", "--check", "--strict", name]
            done = subprocess.run(words, cwd=self.bag, capture_output=True, text=True, check=False)
            self.assertEqual((done.returncode, done.stdout.count(": OK")), (0, 6 if name[0] == "m" else 4))

    @unittest.skipUnless(importlib.util.find_spec("bagit"), "there is no bagit, which Debian 12 has no package of")
    def test_bagit_finds_it_valid(self) -> None:
        self.lines(*({"do": "put", "bucket": "docs", "key": key, "text": it} for key, it in MANY.items()))
        self.exported("--names", "--all-versions", "--premis")
        importlib.import_module("bagit").Bag(str(self.bag)).validate()

    def test_the_office_names_itself(self) -> None:
        with self.settings(SETTINGS):
            self.assertIn(b"Source-Organization: County Archive\n", self.exported()["bag-info.txt"])

    def test_a_bag_is_a_new_folder_with_a_document(self) -> None:
        done = self.desk("export", "docs", str(self.bag), "--bagit")
        self.assertEqual((done.status, self.bag.exists()), (1, False))
        self.assertIn("docs holds no such document: a bag has at least one", done.err)
        self.exported()
        self.assertIn("has files already", self.desk("export", "docs", str(self.bag), "--bagit").err)
        for word in ("--force", "--into-existing"):
            done = self.desk("export", "docs", str(self.bag), "--bagit", word)
            self.assertEqual(done.status, 2)

    def test_it_is_no_bag_before_its_end(self) -> None:
        self.put_all()
        broken = mock.patch("vaultdesk.exporting._csv", side_effect=ZeroDivisionError)
        with self.assertRaises(ZeroDivisionError), broken:
            self.desk("export", "docs", str(self.bag), "--bagit")
        self.assertTrue((self.bag / "data").is_dir())
        done = self.deliver()
        self.assertIn("is no bag: it has no bagit.txt", done.err)


class Delivered(BagTest):
    def packed(self, kinds: tuple[str, ...] = ("sha256",), **files: bytes) -> None:
        """Makes a bag as another program may, of these files below data/, named with `_` for `/`."""
        (self.bag / "data" / "sub").mkdir(parents=True)
        for name, content in files.items():
            (self.bag / "data" / name.replace("_", "/")).write_bytes(content)
        for kind in kinds:
            lines = [f"{digest(it, kind)} *data/{name.replace('_', '/')}" for name, it in files.items()]
            (self.bag / f"manifest-{kind}.txt").write_text("\r\n".join(lines))
        (self.bag / "bagit.txt").write_text("BagIt-Version: 0.97\r\nTag-File-Character-Encoding: UTF-8\r\n")
        (self.bag / "bag-info.txt").write_text("External-Identifier:\n  series 7\nContact-Name: N\n")

    def test_an_exported_one_has_its_keys_again(self) -> None:
        self.exported("--names")
        self.assertEqual(self.deliver().status, 0)
        self.assertEqual(self.there("again"), {key: digest(it) for key, it in KEYS.items()})
        self.assertIsNone(json.loads(self.done("info", "again", "2024", "--json"))["mode"])

    def test_its_locks_are_taken_over_where_that_is_asked(self) -> None:
        self.exported()
        over = "mode=retention_mode,until=retention_until,hold=legal_hold"
        listed = ("--inventory", str(self.bag / "metadata" / "documents.csv"), "--columns", over)
        with self.settings(b""):
            self.assertEqual(self.deliver(*listed).status, 0)
        found = json.loads(self.done("info", "again", "2024", "--json"))
        self.assertEqual((found["mode"], found["until"], found["hold"]), ("COMPLIANCE", "2031-01-01T00:00:00Z", "ON"))

    def test_anothers_comes_under_its_paths(self) -> None:
        self.packed(("sha512",), a=b"one", sub_b=b"two")
        self.assertEqual(self.deliver().status, 0)
        self.assertEqual(self.there("again"), {"a": digest(b"one"), "sub/b": digest(b"two")})

    def test_an_inventory_beside_it_counts(self) -> None:
        self.packed(a=b"one", sub_b=b"two")
        listed = self.written("list.csv", b"file,key\na,x/1\nsub/b,x/2\n")
        self.assertEqual(self.deliver("--inventory", listed).status, 0)
        self.assertEqual(set(self.there("again")), {"x/1", "x/2"})

    def test_percent_signs_are_read_as_both_kinds_of_programs_write_them(self) -> None:
        for number, (name, written) in enumerate((("100%", "100%25"), ("100%", "100%"), ("100%25", "100%25"))):
            self.packed(a=b"%d" % number)
            (self.bag / "data" / "a").rename(self.bag / "data" / name)
            (self.bag / "manifest-sha256.txt").write_text(f"{digest(b'%d' % number)}  data/{written}\n")
            self.assertEqual(self.deliver(batch=f"b{number}").status, 0, written)
            shutil.rmtree(self.bag)

    def test_weak_digests_are_said(self) -> None:
        self.packed(("md5",), a=b"one")
        done = self.deliver()
        self.assertEqual(done.status, 0)
        self.assertIn("it has digests by md5 alone, which somebody can make fit", done.err)

    def test_names_of_all_scripts_empty_files_and_many_come_in_again(self) -> None:
        self.lines(*({"do": "put", "bucket": "docs", "key": key, "text": it} for key, it in MANY.items()))
        self.done("export", "docs", str(self.bag), "--bagit", "--names")
        rows = self.listed()
        self.assertEqual({key: (self.bag / "data" / it["file"]).read_text() for key, it in rows.items()}, MANY)
        # A key that every file system keeps apart from the others is the name of its file.
        self.assertEqual(sorted(key for key, it in rows.items() if it["file"] != key), ["\u00e4.txt"])
        if shutil.which("sha256sum"):
            words = ["sha256sum", "--check", "--strict", "--quiet", "manifest-sha256.txt", "tagmanifest-sha256.txt"]
            done = subprocess.run(words, cwd=self.bag, capture_output=True, text=True, check=False)
            self.assertEqual((done.returncode, done.stdout), (0, ""))
        self.assertEqual(self.deliver().status, 0)
        self.bag = self.folder / "again"
        self.done("export", "again", str(self.bag), "--bagit")
        digests = {key: it["sha256"] for key, it in self.listed().items()}
        self.assertEqual(digests, {key: digest(it.encode()) for key, it in MANY.items()})

    def test_faults_of_names_of_all_scripts_are_named(self) -> None:
        self.lines(*({"do": "put", "bucket": "docs", "key": key, "text": MANY[key]} for key in NAMES))
        self.done("export", "docs", str(self.bag), "--bagit", "--names")
        empty, full = NAMES[0], NAMES[3]
        damages = {
            f"data/{empty}: its content has another digest": replaced(f"data/{empty}", "x"),
            f"data/{full}: its content has another digest": replaced(f"data/{full}", ""),
            f"data/{full}: it is missing": removed(f"data/{full}"),
            "data/\u00e9: it isn't in the manifest": replaced("data/\u00e9", ""),
        }
        whole = self.folder / "whole"
        self.bag.rename(whole)
        for wanted, damage in damages.items():
            with self.subTest(wanted):
                shutil.copytree(whole, self.bag)
                damage(self.bag)
                done = self.deliver()
                self.assertEqual((done.status, self.there("again")), (1, {}), done.err)
                self.assertIn(wanted, done.err)
                shutil.rmtree(self.bag)

    def test_a_look_changes_nothing(self) -> None:
        self.exported()
        done = self.deliver("--dry-run")
        self.assertIn("5 of 5 rows would be taken in", done.err)
        self.assertEqual((done.status, self.there("again")), (0, {}))

    def test_what_isnt_whole_is_named_and_nothing_comes_in(self) -> None:
        self.lines(*({"do": "put", "bucket": "docs", "key": f"{it}.txt", "text": it} for it in ("one", "two")))
        self.done("export", "docs", str(self.bag), "--bagit")
        whole = self.folder / "whole"
        self.bag.rename(whole)
        for wanted, damage in DAMAGES.items():
            with self.subTest(wanted):
                shutil.copytree(whole, self.bag)
                damage(self.bag)
                done = self.deliver()
                self.assertEqual((done.status, self.there("again")), (1, {}), done.err)
                self.assertRegex(done.err, wanted)
                shutil.rmtree(self.bag)


class Receipts(BagTest):
    def test_a_transfer_ends_with_a_receipt_in_the_vault(self) -> None:
        self.exported()
        receipt = str(self.folder / "receipt.csv")
        with self.settings(SETTINGS):
            done = self.deliver("--receipt", receipt)
        self.assertIn(f"the receipt for 5 documents is {receipt}", done.err)
        with open(receipt, encoding="utf-8", newline="") as file:
            rows = list(csv.DictReader(file))
        self.assertEqual({it["key"]: it["sha256"] for it in rows}, {key: digest(it) for key, it in KEYS.items()})
        [of_all] = {tuple(it[name] for name in ("bucket", "batch", "received_by", "office", "bag")) for it in rows}
        self.assertEqual(of_all, ("again", "b1", "ann", "County Archive", "records/docs/2024-01-15T10:00:00Z"))
        there = {it["version"]: it["key"] for it in json.loads(self.done("ls", "again", "--json"))}
        self.assertEqual({int(it["version"]): it["key"] for it in rows}, there)
        self.done("put", "docs", "receipts/2024-1", receipt, "--receipt-for", str(self.bag))
        self.assertIn("receipts/2024-1", self.done("ls", "docs"))

    def test_a_receipt_without_a_document_isnt_put(self) -> None:
        self.exported()
        some = "\n".join(digest(it).upper() for it in list(KEYS.values())[1:])
        done = self.desk("put", "docs", "r", self.written("r.txt", some.encode()), "--receipt-for", str(self.bag))
        self.assertEqual(done.status, 1)
        self.assertRegex(done.err, r"hasn't the SHA-256 of 1 of 5 documents of .*bag: data/2.pdf: nothing was put")
        whole = some + "\n" + digest(KEYS["2024/1.pdf"])
        self.done("put", "docs", "r", self.written("r.txt", whole.encode()), "--receipt-for", str(self.bag))

    def test_what_was_refused_isnt_in_the_receipt(self) -> None:
        self.exported()
        listed = self.written("list.csv", b"file,key\n3,right\nnone,wrong\n")
        receipt = self.folder / "receipt.csv"
        self.deliver("--inventory", listed, "--leave-out", "--receipt", str(receipt))
        self.assertEqual([it.split(",")[1] for it in receipt.read_text().splitlines()], ["key", "right"])
        done = self.deliver("--receipt", str(receipt))
        self.assertEqual((done.status, receipt.read_text().count("\n")), (2, 2))
        self.assertIn("receipt.csv is there already: give --force", done.err)
