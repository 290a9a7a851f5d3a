"""Versions over the gateway: put, read, copied, deleted; and each upload that can't be kept as it is asked for."""

from __future__ import annotations

import contextlib
import hashlib
import io
import os
import tempfile
import unittest
from pathlib import Path
from unittest import mock

from tests.s3_office import ANN, BEA, CID, GatewayTest, quoted, request
from vaultdesk.refusals import refused
from vaultdesk.s3 import etags, faults, unguarded

LOCK = {"x-amz-object-lock-mode": "GOVERNANCE", "x-amz-object-lock-retain-until-date": "2034-01-01T00:00:00Z"}
HELLO = hashlib.md5(b"hello").hexdigest()
KEYS = (
    "a", "2024/a b", "a+b", "100%", "%2F", "?", "#", ";=:@&$,!*'()", '"quoted"', " blanks ", "a//b", "../up", "./x",
    "ü", "u\u0308", "日本", "\U0001f4dc", "\u0085\u2028", "<&>", "~-._", "\\back", "a" * 1_024,
)  # fmt: skip
# Uploads that are refused, each by a header, with the code.
REFUSED = (
    ({"if-none-match": "*"}, "InvalidRequest"),
    ({"if-match": '"x"'}, "InvalidRequest"),
    ({"x-amz-tagging": "a=b"}, "InvalidRequest"),
    ({"x-amz-website-redirect-location": "/b"}, "InvalidRequest"),
    ({"x-amz-server-side-encryption": "AES256"}, "InvalidEncryptionAlgorithmError"),
    ({"x-amz-server-side-encryption-customer-algorithm": "AES256"}, "InvalidEncryptionAlgorithmError"),
    ({"x-amz-acl": "public-read"}, "AccessControlListNotSupported"),
    ({"x-amz-grant-read": "uri=x"}, "AccessControlListNotSupported"),
    ({"x-amz-meta-author": "ann"}, "InvalidRequest"),
    ({"x-amz-meta-mtime": "1"}, "InvalidRequest"),
    ({"content-encoding": "gzip"}, "InvalidRequest"),
    ({"content-disposition": "attachment"}, "InvalidRequest"),
    ({"content-language": "de"}, "InvalidRequest"),
    ({"x-amz-write-offset-bytes": "0"}, "InvalidRequest"),
    ({"x-amz-anything-new": "1"}, "InvalidRequest"),
    ({"x-amz-bypass-governance-retention": "true"}, "InvalidRequest"),
    ({"x-amz-expected-bucket-owner": "123456789012"}, "AccessDenied"),
    ({"x-amz-object-lock-mode": "COMPLIANCE"}, "InvalidRequest"),
    ({"x-amz-object-lock-retain-until-date": "2034-01-01T00:00:00Z"}, "InvalidRequest"),
    ({"x-amz-object-lock-legal-hold": "MAYBE"}, "InvalidArgument"),
)


class Put(GatewayTest):
    DROPPED = frozenset({"mtime"})

    def test_a_version_comes_back_as_it_went(self) -> None:
        put = self.done("PUT", "/docs/2024/a", b"hello")
        self.assertEqual((put.headers["x-amz-version-id"], put.headers["etag"]), ("1", f'"{HELLO}"'))
        got = self.done("GET", "/docs/2024/a")
        self.assertEqual(got.body, b"hello")
        wanted = {
            "etag": f'"{HELLO}"', "content-length": "5", "content-type": "application/octet-stream",
            "last-modified": "Mon, 15 Jan 2024 10:00:00 GMT", "x-amz-version-id": "1",
            "x-amz-object-lock-legal-hold": "OFF", "accept-ranges": "bytes",
        }  # fmt: skip
        self.assertEqual({it: got.headers.get(it) for it in wanted}, wanted)
        head = self.done("HEAD", "/docs/2024/a")
        self.assertEqual({it: head.headers.get(it) for it in wanted}, wanted)
        checked = self.done("GET", "/docs/2024/a", headers={"x-amz-checksum-mode": "ENABLED"})
        self.assertEqual(checked.headers["x-amz-checksum-sha256"], "LPJNul+wow4m6DsqxbninhsWHlwfp0JecwQzYpOLmCQ=")

    def test_odd_keys(self) -> None:
        for number, key in enumerate(KEYS, start=1):
            with self.subTest(key):
                self.done("PUT", f"/docs/{quoted(key)}", key.encode())
                self.assertEqual(self.done("GET", f"/docs/{quoted(key)}").body, key.encode())
                there = self.door.ask("ann", "head", bucket="docs", key=key).value
                self.assertEqual(there["version_id"], number)
        listed = self.done("GET", "/docs?list-type=2")
        self.assertEqual(listed.all("Key"), sorted(KEYS, key=str.encode))

    def test_a_plus_in_a_path_is_a_plus(self) -> None:
        self.done("PUT", "/docs/a+b", b"hello")
        self.assertEqual([it["key"] for it in self.entries()], ["a+b"])

    def test_keys_that_nothing_could_list(self) -> None:
        for key, code in (("\ufffe", "InvalidArgument"), ("\uffff", "InvalidArgument"), ("a\n", "InvalidArgument"),
                          ("\x7f", "InvalidArgument"), ("a" * 1_025, "KeyTooLongError")):
            self.refused(code, 400, self.ask("PUT", f"/docs/{quoted(key)}", b"hello"))
        self.refused("InvalidURI", 400, self.ask("PUT", "/docs/%FF", b"hello"))
        self.refused("InvalidBucketName", 400, self.ask("PUT", "//docs/a", b"hello"))
        self.refused("InvalidBucketName", 400, self.ask("GET", "//docs"))
        self.assertEqual(self.entries(), [])

    def test_a_control_character_in_a_key_is_named(self) -> None:
        for key, name in (("a\n", "U+000A"), ("\t", "U+0009"), ("a\0b", "U+0000"), ("\x7f", "U+007F")):
            for method in ("PUT", "GET", "DELETE"):
                reply = self.ask(method, f"/docs/{quoted(key)}")
                self.refused("InvalidArgument", 400, reply)
                self.assertIn(name.encode(), reply.body)
        self.done("PUT", "/docs/a", b"hello")
        reply = self.ask("PUT", "/docs/b", b"", {"x-amz-copy-source": "/docs/a%0A"})
        self.assertIn(b"U+000A", reply.body)
        many = b"<Delete><Object><Key>a&#10;</Key></Object><Object><Key>b</Key></Object></Delete>"
        done = self.done("POST", "/docs?delete", many)
        self.assertEqual((done.all("Code"), done.all("DeleteMarkerVersionId")), (["InvalidArgument"], ["2"]))
        self.assertIn("U+000A", done.all("Message")[0])

    def test_a_mode_and_an_end_go_together(self) -> None:
        for headers, _ in (it for it in REFUSED if it[1] == "InvalidRequest" and "x-amz-object-lock-" in str(it[0])):
            waits = {**headers, "expect": "100-continue"}
            with self.connected() as connection:
                connection.sendall(request("PUT", "/docs/a", b"hello", waits).removesuffix(b"hello"))
                self.assertIn(b"go together", connection.recv(65_536))
        self.assertEqual(self.entries(), [])

    def test_what_cant_be_kept_is_refused(self) -> None:
        self.done("PUT", "/docs/source", b"hello")
        for headers, code in REFUSED:
            if "x-amz-meta-mtime" in headers:
                continue
            status = 403 if code == "AccessDenied" else 400
            with self.subTest(headers):
                self.refused(code, status, self.ask("PUT", "/docs/a", b"hello", headers))
                copied = {**headers, "x-amz-copy-source": "/docs/source"}
                self.refused(code, status, self.ask("PUT", "/docs/a", b"", copied))
        self.assertEqual([it["key"] for it in self.entries()], ["source"])

    def test_what_is_dropped(self) -> None:
        dropped = {
            "content-type": "application/pdf", "cache-control": "no-cache", "x-amz-storage-class": "GLACIER",
            "x-amz-meta-mtime": "1", "x-amz-acl": "bucket-owner-full-control", "x-amz-tagging": "",
        }  # fmt: skip
        self.done("PUT", "/docs/a", b"hello", dropped)
        self.assertEqual(self.done("GET", "/docs/a").headers["content-type"], "application/octet-stream")

    def test_other_calls_are_refused(self) -> None:
        for method, target in (
            ("PUT", "/docs/a?tagging"), ("PUT", "/docs/a?acl"), ("GET", "/docs/a?attributes"), ("DELETE", "/docs"),
            ("PUT", "/docs?versioning"), ("PUT", "/docs?policy"), ("POST", "/docs/a?select&select-type=2"),
            ("POST", "/docs/a?restore"), ("POST", "/docs"), ("GET", "/docs/a?uploadId=x"),
            ("PUT", "/docs/a?unknown"), ("DELETE", "/docs/a?unknown"),
        ):  # fmt: skip
            with self.subTest(target):
                self.refused("NotImplemented", 501, self.ask(method, target))
        for target in ("/docs/a?versionId=1&versionId=2", "/docs/a?retention&legal-hold", "/docs/a?versionId=null"):
            self.refused("InvalidArgument", 400, self.ask("GET", target))
        self.assertEqual(self.entries(), [])


class NothingIsDropped(GatewayTest):
    def test_metadata_that_isnt_configured_is_refused(self) -> None:
        self.refused("InvalidRequest", 400, self.ask("PUT", "/docs/a", b"hello", {"x-amz-meta-mtime": "1"}))
        self.assertEqual(self.entries(), [])


class Get(GatewayTest):
    def setUp(self) -> None:
        super().setUp()
        self.done("PUT", "/docs/a", b"0123456789")
        self.etag = f'"{hashlib.md5(b"0123456789").hexdigest()}"'

    def test_ranges(self) -> None:
        for text, wanted in (
            ("bytes=0-0", b"0"), ("bytes=2-4", b"234"), ("bytes=7-", b"789"), ("bytes=-3", b"789"),
            ("bytes=8-99", b"89"), ("bytes=-99", b"0123456789"),
        ):  # fmt: skip
            got = self.done("GET", "/docs/a", headers={"range": text})
            self.assertEqual((got.status, got.body), (206, wanted), text)
            head = self.done("HEAD", "/docs/a", headers={"range": text})
            self.assertEqual((head.status, head.headers["content-length"]), (206, str(len(wanted))))
            self.assertEqual(head.headers["content-range"], got.headers["content-range"])
        middle = self.done("GET", "/docs/a", headers={"range": "bytes=2-4"})
        self.assertEqual(middle.headers["content-range"], "bytes 2-4/10")
        self.assertEqual(self.done("GET", "/docs/a", headers={"range": "Bytes= 2-4"}).body, b"234")
        for text in ("bytes=10-", "bytes=-0"):
            outside = self.ask("GET", "/docs/a", headers={"range": text})
            self.refused("InvalidRange", 416, outside)
            self.assertEqual(outside.headers["content-range"], "bytes */10")
            self.assertEqual(self.ask("HEAD", "/docs/a", headers={"range": text}).status, 416)
        self.done("PUT", "/docs/empty", b"")
        for text in ("bytes=0-", "bytes=-1"):
            self.refused("InvalidRange", 416, self.ask("GET", "/docs/empty", headers={"range": text}))
        for text in ("bytes=4-2", "bytes=0-1,3-4", "lines=0-1", "bytes=-", f"bytes={'0' * 5_000}-"):
            self.assertEqual(self.done("GET", "/docs/a", headers={"range": text}).status, 200, text)

    def test_a_range_of_the_version_that_is_meant(self) -> None:
        since, before = "Mon, 15 Jan 2024 10:00:00 GMT", "Mon, 15 Jan 2024 09:59:59 GMT"
        for text, status in (
            (self.etag, 206), (since, 206), ('"other"', 200), (f"W/{self.etag}", 200), ("*", 200), (before, 200),
            (since.replace("10:00", "11:00"), 200), ("nonsense", 200), (f'"other", {self.etag}', 200),
        ):  # fmt: skip
            for method in ("GET", "HEAD"):
                got = self.done(method, "/docs/a", headers={"range": "bytes=0-0", "if-range": text})
                length = "1" if status == 206 else "10"
                self.assertEqual((got.status, got.headers["content-length"]), (status, length), text)

    def test_each_version_is_of_one_part(self) -> None:
        checked = {"x-amz-checksum-mode": "ENABLED"}
        for method in ("GET", "HEAD"):
            got = self.done(method, "/docs/a?partNumber=1", headers=checked)
            self.assertEqual((got.status, got.headers["content-range"]), (206, "bytes 0-9/10"))
            self.assertEqual(got.headers["x-amz-checksum-sha256"], "hNiYd/DUBB77a/kaFvAkjy/Vc+avBcGflr7bn4gveII=")
            self.assertNotIn("x-amz-mp-parts-count", got.headers)
        self.assertEqual(self.done("GET", "/docs/a?partNumber=1&versionId=1").body, b"0123456789")
        self.done("PUT", "/docs/empty", b"")
        self.assertEqual(self.done("GET", "/docs/empty?partNumber=1").status, 200)
        for target, code, status in (
            ("2", "InvalidPartNumber", 416), ("0", "InvalidArgument", 400), ("10001", "InvalidArgument", 400),
            ("-1", "InvalidArgument", 400), ("", "InvalidArgument", 400),
        ):  # fmt: skip
            self.refused(code, status, self.ask("GET", f"/docs/a?partNumber={target}"))
        both = self.ask("GET", "/docs/a?partNumber=1", headers={"range": "bytes=0-1"})
        self.refused("InvalidRequest", 400, both)
        self.refused("NoSuchKey", 404, self.ask("GET", "/docs/none?partNumber=1"))
        first = self.done("GET", "/docs/a", headers={**checked, "range": "bytes=0-8"})
        self.assertNotIn("x-amz-checksum-sha256", first.headers)

    def test_conditions(self) -> None:
        before, since = "Mon, 15 Jan 2024 09:59:59 GMT", "Mon, 15 Jan 2024 10:00:00 GMT"
        for headers, status in (
            ({"if-match": self.etag}, 200), ({"if-match": '"other"'}, 412), ({"if-match": "*"}, 200),
            ({"if-none-match": self.etag}, 304), ({"if-none-match": f'"x", {self.etag}'}, 304),
            ({"if-none-match": '"other"'}, 200), ({"if-modified-since": since}, 304),
            ({"if-modified-since": before}, 200), ({"if-unmodified-since": before}, 412),
            ({"if-unmodified-since": since}, 200), ({"if-modified-since": "yesterday"}, 200),
            ({"if-match": self.etag, "if-unmodified-since": before}, 200),
            ({"if-none-match": '"other"', "if-modified-since": since}, 200),
        ):  # fmt: skip
            for method in ("GET", "HEAD"):
                self.assertEqual(self.ask(method, "/docs/a", headers=headers).status, status, headers)

    def test_a_date_of_a_condition_has_its_zone(self) -> None:
        for name, date, status in (
            ("if-unmodified-since", "Mon, 15 Jan 2024 10:59:59 +0100", 412),
            ("if-unmodified-since", "Mon, 15 Jan 2024 11:00:00 +0100", 200),
            ("if-modified-since", "Mon, 15 Jan 2024 05:00:00 -0500", 304),
            ("if-modified-since", "Mon, 15 Jan 2024 10:00:00 -0000", 304),
            ("if-modified-since", "Mon, 15 Jan 2024 09:59:59 -0000", 200),
        ):
            self.assertEqual(self.ask("GET", "/docs/a", headers={name: date}).status, status, date)

    def test_versions_and_markers(self) -> None:
        self.done("PUT", "/docs/a", b"newer")
        self.assertEqual(self.done("GET", "/docs/a?versionId=1").body, b"0123456789")
        self.done("DELETE", "/docs/a")
        gone = self.ask("GET", "/docs/a")
        self.refused("NoSuchKey", 404, gone)
        self.assertEqual(gone.headers["x-amz-delete-marker"], "true")
        marker = self.ask("GET", "/docs/a?versionId=3")
        self.refused("MethodNotAllowed", 405, marker)
        self.assertEqual((marker.headers["allow"], marker.headers["x-amz-delete-marker"]), ("DELETE", "true"))
        never = self.ask("GET", "/docs/never")
        self.refused("NoSuchKey", 404, never)
        self.assertNotIn("x-amz-delete-marker", never.headers)
        self.refused("NoSuchVersion", 404, self.ask("GET", "/docs/a?versionId=99"))

    def test_headers_of_a_download(self) -> None:
        got = self.done("GET", "/docs/a?response-content-disposition=attachment%3B%20filename%3Da.pdf")
        self.assertEqual(got.headers["content-disposition"], "attachment; filename=a.pdf")
        self.refused("InvalidArgument", 400, self.ask("GET", "/docs/a?response-content-type=a%0D%0Ax%3A%20y"))

    def test_several_requests_over_one_connection(self) -> None:
        three = request("GET", "/docs/a") + request("PUT", "/docs/b", b"b") + request("GET", "/docs/b")
        self.assertEqual([it.status for it in self.send(three)], [200, 200, 200])


class Copy(GatewayTest):
    def setUp(self) -> None:
        super().setUp()
        self.done("PUT", "/docs/a%20%2B%3F", b"hello", {"x-amz-object-lock-legal-hold": "ON"})

    def copied(self, source: str, target: str = "/docs/b", **headers: str) -> object:
        given = {"x-amz-copy-source": source, **{it.replace("_", "-"): value for it, value in headers.items()}}
        return self.ask("PUT", target, b"", given)

    def test_a_copy_has_the_locks_that_are_asked_for(self) -> None:
        given = {"x-amz-copy-source": "/docs/a%20%2B%3F", "x-amz-object-lock-mode": "GOVERNANCE",
                 "x-amz-object-lock-retain-until-date": "2030-01-01T00:00:00Z"}
        done = self.done("PUT", "/docs/b", b"", given)
        self.assertEqual((done.all("ETag"), done.headers["x-amz-version-id"]), ([f'"{HELLO}"'], "2"))
        self.assertEqual(done.headers["x-amz-copy-source-version-id"], "1")
        told = self.door.ask("ann", "get", bucket="docs", key="b").value
        self.assertEqual((bytes.fromhex(told["hex"]), told["hold"]), (b"hello", "OFF"))
        self.assertEqual(told["retention"], {"mode": "GOVERNANCE", "until": "2030-01-01T00:00:00Z"})

    def test_a_source_is_read_letter_by_letter(self) -> None:
        keys = ("x+y", "x y", "%41", "A", "u\u0308", "\u00fc", "a//b", "a/b", "?versionId=1")
        for key in keys:
            self.done("PUT", f"/docs/{quoted(key)}", f"the content of {key}".encode())
        for key in keys:
            for source in (f"/docs/{quoted(key)}", f"docs/{quoted(key).replace('%2B', '+')}"):
                self.done("PUT", "/docs/copy", b"", {"x-amz-copy-source": source})
                self.assertEqual(self.done("GET", "/docs/copy").body.decode(), f"the content of {key}", source)

    def test_onto_itself(self) -> None:
        source = {"x-amz-copy-source": "docs/a%20%2B%3F", "x-amz-metadata-directive": "REPLACE"}
        self.refused("InvalidRequest", 400, self.ask("PUT", "/docs/a%20%2B%3F", b"", source))
        self.assertEqual(len(self.entries()), 1)
        # An older version is brought back by its number.
        self.done("PUT", "/docs/a%20%2B%3F", b"newer")
        self.done("PUT", "/docs/a%20%2B%3F", b"", {"x-amz-copy-source": "docs/a%20%2B%3F?versionId=1"})
        self.assertEqual(self.done("GET", "/docs/a%20%2B%3F").body, b"hello")

    def test_conditions_and_sources(self) -> None:
        for condition, value in (("if-match", '"other"'), ("if-none-match", f'"{HELLO}"'),
                                 ("if-unmodified-since", "Mon, 15 Jan 2024 09:00:00 GMT"),
                                 ("if-modified-since", "Mon, 15 Jan 2024 10:00:00 GMT")):
            given = {"x-amz-copy-source": "/docs/a%20%2B%3F", f"x-amz-copy-source-{condition}": value}
            self.refused("PreconditionFailed", 412, self.ask("PUT", "/docs/b", b"", given))
        for source, code, status in (("/docs/none", "NoSuchKey", 404), ("/cases/a", "AccessDenied", 403),
                                     ("/docs", "InvalidArgument", 400), ("/docs/a?x=1", "InvalidArgument", 400)):
            self.refused(code, status, self.ask("PUT", "/docs/b", b"", {"x-amz-copy-source": source}))
        self.assertEqual(len(self.entries()), 1)


class Delete(GatewayTest):
    def test_a_marker_and_a_version(self) -> None:
        self.done("PUT", "/docs/a", b"hello")
        marked = self.done("DELETE", "/docs/a")
        wanted = ("true", "2")
        self.assertEqual((marked.headers["x-amz-delete-marker"], marked.headers["x-amz-version-id"]), wanted)
        lifted = self.done("DELETE", "/docs/a?versionId=2")
        self.assertEqual((lifted.headers["x-amz-delete-marker"], lifted.headers["x-amz-version-id"]), wanted)
        self.assertEqual(self.done("GET", "/docs/a").body, b"hello")
        removed = self.done("DELETE", "/docs/a?versionId=1")
        self.assertEqual((removed.status, removed.headers.get("x-amz-delete-marker")), (204, None))
        self.assertEqual(self.entries(), [])
        self.refused("NoSuchVersion", 404, self.ask("DELETE", "/docs/a?versionId=1"))

    def test_a_condition_is_refused(self) -> None:
        self.done("PUT", "/docs/a", b"hello")
        self.refused("InvalidRequest", 400, self.ask("DELETE", "/docs/a", headers={"if-match": "*"}))
        self.refused("InvalidRequest", 400, self.ask("DELETE", "/docs/a", headers={"x-amz-mfa": "x 1"}))
        self.assertEqual(len(self.entries()), 1)

    def test_many(self) -> None:
        for key in ("a", "b", "%3C%26%3E"):
            self.done("PUT", f"/docs/{key}", b"hello")
        self.done("PUT", "/docs/held", b"hello", {"x-amz-object-lock-legal-hold": "ON"})
        asked = (
            b'<Delete xmlns="http://s3.amazonaws.com/doc/2006-03-01/"><Object><Key>a</Key></Object><Object><Key>b</Key>'
            b"<VersionId>2</VersionId></Object><Object><Key>held</Key><VersionId>4</VersionId></Object><Object><Key>"
            b"&lt;&amp;&gt;</Key></Object><Object><Key>x</Key><VersionId>null</VersionId></Object></Delete>"
        )
        done = self.done("POST", "/docs?delete", asked)
        self.assertEqual(done.all("Key"), ["a", "b", "held", "<&>", "x"])
        self.assertEqual(done.all("Code"), ["AccessDenied", "InvalidArgument"])
        self.assertEqual(done.all("DeleteMarkerVersionId"), ["5", "6"])
        loud = self.done("POST", "/docs?delete", asked.replace(b"</Delete>", b"<Quiet>false</Quiet></Delete>"))
        self.assertEqual(loud.all("Key"), ["a", "b", "held", "<&>", "x"])
        quiet = self.done("POST", "/docs?delete", asked.replace(b"</Delete>", b"<Quiet>true</Quiet></Delete>"))
        self.assertEqual(quiet.all("Key"), ["b", "held", "x"])
        self.assertEqual(self.done("GET", "/docs/held").body, b"hello")

    def test_what_isnt_the_document(self) -> None:
        before = self.entries()
        many = b"<Delete>" + b"<Object><Key>a</Key></Object>" * 1_001 + b"</Delete>"
        conditional = b"<Delete><Object><Key>b</Key></Object><Object><Key>a</Key><ETag>x</ETag></Object></Delete>"
        entity = b'<!DOCTYPE a [<!ENTITY e "a">]><Delete><Object><Key>&e;</Key></Object></Delete>'
        deep = b"<Delete>" + b"<a>" * 20 + b"</a>" * 20 + b"</Delete>"
        nameless, twofold, unsure = (
            b"<Delete><Object><Key>b</Key></Object>" + it + b"</Delete>"
            for it in (b"<Object><VersionId>1</VersionId></Object>", b"<Object><Key>a</Key><Key>c</Key></Object>",
                       b"<Quiet>true</Quiet><Quiet>true</Quiet>")
        )  # fmt: skip
        for body, code in ((many, "MalformedXML"), (b"<Delete/>", "MalformedXML"), (b"", "MalformedXML"),
                           (b"{}", "MalformedXML"), (entity, "MalformedXML"), (deep, "MalformedXML"),
                           (b"<Other/>", "MalformedXML"), (conditional, "NotImplemented"),
                           (nameless, "MalformedXML"), (twofold, "MalformedXML"), (unsure, "MalformedXML")):
            self.assertEqual(self.ask("POST", "/docs?delete", body).code, code, body[:60])
        self.assertEqual(self.entries(), before)


class Guards(GatewayTest):
    """The log says where nothing guards what comes in."""

    UNGUARDED = ()

    def said(self, target: str, headers: dict[str, str] | None = None, who: str = ANN) -> str:
        """What the gateway says as that is put."""
        with contextlib.redirect_stderr(io.StringIO()) as log:
            self.done("PUT", target, b"hello", headers, who)
        return log.getvalue()

    def test_once_of_a_bucket(self) -> None:
        for headers in ({"x-amz-object-lock-legal-hold": "ON"}, LOCK):
            self.assertEqual(self.said("/docs/a", headers), "")
        said = self.said("/docs/a", {"x-amz-object-lock-legal-hold": "OFF"})
        self.assertIn("bucket docs: nothing guards what comes in, as version 3", said)
        self.assertEqual(self.said("/docs/b"), "")
        self.assertIn("bucket cases: nothing guards", self.said("/cases/b", who=CID))

    def test_what_a_default_guards_is_looked_at_again_later(self) -> None:
        self.door.ask("ann", "set-default", bucket="docs", mode="GOVERNANCE", days=3)
        self.assertEqual(self.said("/docs/a"), "")
        self.door.ask("ann", "set-default", bucket="docs")
        with mock.patch.object(self.door, "ask", side_effect=self.door.ask) as asked:
            self.assertEqual(self.said("/docs/a"), "")
            self.assertEqual([it.args[1] for it in asked.call_args_list], ["intake"])
        self.vault.unguarded.later["docs"] -= unguarded.AGAIN
        self.assertIn("nothing guards what comes in, as version 3", self.said("/docs/a"))

    def test_what_was_said_at_the_start_isnt_said_again(self) -> None:
        noted = unguarded.Unguarded(["docs"])
        self.assertEqual((noted.is_due("docs"), noted.is_due("cases"), noted.is_due("cases")), (False, True, False))

    def test_who_may_not_look_puts_all_the_same(self) -> None:
        self.lines({"do": "add-caller", "as": "registrar", "caller": "dan", "dept": "records", "rights": ["put"]})
        self.keys.write_text(self.keys.read_text().replace('caller = "bea"', 'caller = "dan"'))
        self.assertEqual(self.said("/docs/a", who=BEA), "")


class Noted(unittest.TestCase):
    """ETags that are noted in a file, and what S3's clients are answered to the engine's refusals."""

    AT = "2024-01-15T10:00:00Z"

    def setUp(self) -> None:
        self.path = Path(self.enterContext(tempfile.TemporaryDirectory())) / "etags"
        self.addCleanup(os.umask, os.umask(0o022))

    def test_the_file_is_its_owners_alone(self) -> None:
        etags.Etags(self.path).close()
        self.assertEqual(self.path.stat().st_mode & 0o777, 0o600)
        self.path.chmod(0o644)
        noted = etags.Etags(self.path)
        noted.note(1, self.AT, HELLO)
        self.assertEqual(self.path.stat().st_mode & 0o777, 0o600)
        noted.drop([1])
        noted.close()
        self.assertEqual((self.path.stat().st_mode & 0o777, self.path.read_text()), (0o600, ""))

    def test_the_file_is_shortened_to_what_is_held(self) -> None:
        self.path.write_text("".join(f"{it} {self.AT} {HELLO}\n" for it in (1, 2, 3, 3)) + "nonsense")
        noted = etags.Etags(self.path)
        noted.drop([2, 99])
        noted.note(4, self.AT, HELLO)
        noted.close()
        lines = [f"{it} {self.AT} {HELLO}" for it in (1, 3, 4)]
        self.assertEqual(self.path.read_text().splitlines(), lines)
        again = etags.Etags(self.path)
        before = self.path.stat().st_ino
        again.drop([2])
        self.assertEqual((sorted(again.known), self.path.stat().st_ino), ([1, 3, 4], before))
        again.close()

    def test_a_file_that_cant_be_written_anew_stays(self) -> None:
        noted = etags.Etags(self.path)
        for it in (1, 2):
            noted.note(it, self.AT, HELLO)
        before = self.path.read_text()
        for broken in ("pathlib.Path.replace", "os.fsync"):
            failing = mock.patch(broken, side_effect=OSError(28, "No space left on device"))
            with failing, contextlib.redirect_stderr(io.StringIO()) as log:
                noted.drop([1])
            self.assertIn("No space left on device", log.getvalue())
            self.assertEqual([it.name for it in self.path.parent.iterdir()], ["etags"])
            self.assertEqual(self.path.read_text(), before)
        noted.note(3, self.AT, HELLO)
        self.assertTrue(self.path.read_text().startswith(before))
        noted.close()

    def test_what_is_written_is_on_the_disk_before_it_counts(self) -> None:
        done: list[str] = []
        noted = etags.Etags(self.path)
        noted.note(1, self.AT, HELLO)
        with mock.patch("os.fsync", side_effect=lambda _: done.append(self.path.read_text())):
            noted.drop([1])
        self.assertEqual(len(done), 1)
        self.assertNotEqual(done[0], "")
        noted.close()

    def test_what_comes_after_a_line_that_was_cut_is_a_line(self) -> None:
        self.path.write_text(f"1 {self.AT} {HELLO}\n2 {self.AT} {HELLO[:9]}")
        noted = etags.Etags(self.path)
        noted.note(3, self.AT, HELLO)
        noted.close()
        again = etags.Etags(self.path)
        self.assertEqual([again.find(it, self.AT) for it in (1, 2, 3)], [HELLO, None, HELLO])
        self.assertIsNone(again.find(1, "2024-01-15T10:00:01Z"))
        again.close()

    def test_a_refusal_is_tried_again_only_where_that_may_help(self) -> None:
        for code, named, status in (
            ("AccessDenied", "AccessDenied", 403), ("NoSuchVersion", "NoSuchVersion", 404),
            ("RetentionOutOfRange", "InvalidArgument", 400), ("IntakeConflict", "InvalidRequest", 400),
            ("MalformedBody", "MalformedXML", 400), ("QuotaExceeded", "QuotaExceeded", 403),
            ("ClockBack", "SlowDown", 503), ("Memory", "SlowDown", 503), ("Device", "InternalError", 500),
        ):  # fmt: skip
            fault = faults.of_refusal(refused({"code": code, "n": 1}))
            self.assertEqual((fault.code, fault.status), (named, status), code)


class Etags(GatewayTest):
    def tag(self, listed: bool = True) -> str:
        if listed:
            return self.done("GET", "/docs?list-type=2").all("ETag")[0]
        return self.done("HEAD", "/docs/a").headers["etag"]

    def test_they_may_be_lost(self) -> None:
        self.done("PUT", "/docs/a", b"hello")
        self.assertEqual((self.tag(), self.tag(False)), (f'"{HELLO}"', f'"{HELLO}"'))
        self.stop()
        self.start()
        self.assertEqual(self.tag(), f'"{HELLO}"')
        self.stop()
        assert self.etags
        self.etags.unlink()
        self.start()
        self.assertRegex(self.tag(), '^"[0-9a-f]{32}-1"$')
        self.assertEqual((self.tag(False), self.tag()), (f'"{HELLO}"', f'"{HELLO}"'))

    def test_a_line_that_is_cut_or_of_another_vault_is_read_past(self) -> None:
        self.done("PUT", "/docs/a", b"hello")
        self.stop()
        assert self.etags
        wrong = "0" * 32
        self.etags.write_text(f"1 2023-01-01T00:00:00Z {wrong}\n1 2024-01-15T10:00:00Z 00")
        self.start()
        self.assertNotEqual(self.tag(), f'"{wrong}"')
        self.assertEqual(self.tag(False), f'"{HELLO}"')

    def test_without_a_file(self) -> None:
        self.stop()
        self.etags = None
        self.start()
        self.done("PUT", "/docs/a", b"hello")
        self.assertEqual(self.tag(), f'"{HELLO}"')
