"""Lists over the gateway: buckets, keys, versions, pages and common prefixes."""

from __future__ import annotations

import random
import urllib.parse
from collections.abc import Iterable

from tests.s3_office import BEA, CID, GatewayTest, Reply


def target(**parameters: str | int) -> str:
    """The target of a list."""
    pairs = {it.replace("_", "-"): str(value) for it, value in parameters.items()}
    return "/docs?" + urllib.parse.urlencode(pairs, quote_via=urllib.parse.quote)


class Buckets(GatewayTest):
    def test_each_department_has_its_own(self) -> None:
        self.assertEqual(self.done("GET", "/").all("Name"), ["docs"])
        self.assertEqual(self.done("GET", "/", who=CID).all("Name"), ["cases"])

    def test_what_is_asked_of_a_bucket(self) -> None:
        self.assertEqual(self.done("HEAD", "/docs").headers["x-amz-bucket-region"], "us-east-1")
        self.assertEqual(self.ask("HEAD", "/nothing").status, 404)
        self.assertEqual(self.ask("HEAD", "/cases").status, 403)
        self.assertEqual(self.done("GET", "/docs?versioning").all("Status"), ["Enabled"])
        uploads = self.done("GET", "/docs?uploads&prefix=a&max-uploads=7")
        self.assertEqual((uploads.all("Bucket"), uploads.all("IsTruncated")), (["docs"], ["false"]))
        self.assertNotIn(b"<Upload>", uploads.body)
        self.assertIn(b"<LocationConstraint", self.done("GET", "/docs?location").body)
        for name, code in (("policy", "NoSuchBucketPolicy"), ("tagging", "NoSuchTagSet"),
                           ("encryption", "ServerSideEncryptionConfigurationNotFoundError")):
            self.refused(code, 404, self.ask("GET", f"/docs?{name}"))
        for name in ("location", "versioning", "policy", "tagging", "uploads"):
            self.refused("NoSuchBucket", 404, self.ask("GET", f"/nothing?{name}"))
            self.refused("AccessDenied", 403, self.ask("GET", f"/cases?{name}"))

    def test_a_caller_who_is_closed_has_no_list(self) -> None:
        self.stop()
        self.lines({"do": "close-caller", "as": "registrar", "caller": "cid"})
        self.start()
        for target in ("/", "/cases", "/cases?location"):
            self.refused("AccessDenied", 403, self.ask("GET", target, who=CID))
        self.refused("AccessDenied", 403, self.ask("PUT", "/cases", who=CID))

    def test_none_is_made(self) -> None:
        self.refused("BucketAlreadyOwnedByYou", 409, self.ask("PUT", "/docs"))
        self.refused("InvalidRequest", 400, self.ask("PUT", "/another"))
        self.refused("InvalidRequest", 400, self.ask("PUT", "/cases"))


class Lists(GatewayTest):
    def put(self, keys: Iterable[str], **more: str) -> None:
        self.stop()
        self.lines(*({"do": "put", "bucket": "docs", "key": it, "text": it, **more} for it in keys))
        self.start()

    def pages(self, name: str, **parameters: str | int) -> tuple[list[str], list[str], int]:
        """All keys and common prefixes of a list, and of how many pages it is."""
        keys, prefixes, count = [], [], 0
        more: dict[str, str] = {}
        while True:
            got = self.done("GET", target(**parameters, **more))
            keys += got.all("Key")
            prefixes += [urllib.parse.unquote(it) for part in self.commons(got) for it in part]
            count += 1
            if got.all("IsTruncated") == ["false"]:
                return keys, prefixes, count
            if name == "marker":
                more = {"marker": got.all("NextMarker")[0]}
            else:
                more = {"continuation_token": got.all("NextContinuationToken")[0]}

    def commons(self, got: Reply) -> list[list[str]]:
        return [Reply(200, {}, it.encode()).all("Prefix") for it in got.all("CommonPrefixes")]

    def test_2500_keys_in_pages(self) -> None:
        keys = [f"{it % 7}/{it:05}" for it in range(2_500)]
        self.put(keys)
        self.assertEqual(self.pages("token", list_type=2), (sorted(keys), [], 3))
        self.assertEqual(self.pages("marker")[0], sorted(keys))
        self.assertEqual(self.pages("token", list_type=2, max_keys=999)[::2], (sorted(keys), 3))
        found = self.pages("token", list_type=2, prefix="3/", max_keys=7)
        self.assertEqual(found[0], sorted(it for it in keys if it.startswith("3/")))
        prefixes = [f"{it}/" for it in range(7)]
        for most in (1, 2, 1_000):
            self.assertEqual(self.pages("token", list_type=2, delimiter="/", max_keys=most)[:2], ([], prefixes))
            self.assertEqual(self.pages("marker", delimiter="/", max_keys=most)[:2], ([], prefixes))
        self.assertEqual(self.pages("token", list_type=2, delimiter="/", max_keys=7), ([], prefixes, 1))

    def test_a_common_prefix_is_skipped_by_one_question(self) -> None:
        self.put([f"{0 if it < 2_400 else it % 3}/{it:05}" for it in range(2_500)])
        asked: list[str] = []
        ask = self.door.engine.ask

        def noted(do: str, *more: str, **members: object) -> dict[str, object]:
            asked.append(do)
            return ask(do, *more, **members)

        setattr(self.door.engine, "ask", noted)
        self.assertEqual(len(self.commons(self.done("GET", target(list_type=2, delimiter="/")))), 3)
        self.assertLessEqual(len(asked), 2)

    def test_lists_are_those_of_a_plain_search(self) -> None:
        chance = random.Random(7)
        letters = ["a", "b", "/", "//", "ü", "\U0001f4dc", "%", "+", " ", "&"]
        keys = sorted({"".join(chance.choices(letters, k=chance.randint(1, 4))) for _ in range(120)}, key=str.encode)
        self.put(keys)
        gone = set(keys[::5])
        self.stop()
        self.lines(*({"do": "delete", "bucket": "docs", "key": it} for it in gone))
        self.lines(*({"do": "put", "bucket": "docs", "key": it, "text": "newer"} for it in keys[::3]))
        self.start()
        current = [it for it in keys if it not in gone or it in keys[::3]]
        for _ in range(60):
            prefix = chance.choice(["", "", "a", "a/", "/", "ü", "b%"])
            delimiter = chance.choice(["", "/", "/", "b", "//"])
            start = chance.choice(["", "", "a", "b/", *keys[:3]])
            found = self.pages("token", list_type=2, prefix=prefix, delimiter=delimiter, start_after=start,
                               max_keys=chance.choice([1, 3, 7, 1_000]))
            with self.subTest(prefix=prefix, delimiter=delimiter, start=start):
                self.assertEqual(found[:2], plain(current, prefix, delimiter, start))

    def test_versions_in_pages(self) -> None:
        self.put(["a", "b/1", "a", "b/2", "a", "c"])
        self.done("DELETE", "/docs/a")
        whole = self.done("GET", "/docs?versions")
        self.assertEqual(whole.all("VersionId"), ["7", "5", "3", "1", "2", "4", "6"])
        self.assertEqual(whole.all("IsLatest"), ["true", "false", "false", "false", "true", "true", "true"])
        self.assertEqual(whole.body.count(b"<DeleteMarker>"), 1)
        found: list[str] = []
        more = ""
        for _ in range(7):
            got = self.done("GET", f"/docs?versions&max-keys=1{more}")
            found += got.all("VersionId")
            if got.all("IsTruncated") == ["false"]:
                break
            key, version = got.all("NextKeyMarker")[0].replace("/", "%2F"), got.all("NextVersionIdMarker")[0]
            more = f"&key-marker={key}&version-id-marker={version}"
        self.assertEqual(found, whole.all("VersionId"))
        self.assertEqual(self.done("GET", "/docs?versions&key-marker=a").all("VersionId"), ["2", "4", "6"])
        grouped = self.done("GET", "/docs?versions&delimiter=%2F&max-keys=5")
        self.assertEqual((self.commons(grouped), grouped.all("NextKeyMarker")), ([["b/"]], ["b/"]))
        rest = self.done("GET", "/docs?versions&delimiter=%2F&key-marker=b%2F")
        self.assertEqual((rest.all("VersionId"), self.commons(rest)), (["6"], []))

    def test_versions_of_one_key_over_pages(self) -> None:
        self.put(["a"] * 1_100)
        got = self.done("GET", "/docs?versions")
        self.assertEqual((len(got.all("VersionId")), got.all("IsTruncated")), (1_000, ["true"]))
        self.assertEqual(got.all("NextVersionIdMarker"), ["101"])
        rest = self.done("GET", "/docs?versions&key-marker=a&version-id-marker=101")
        self.assertEqual(rest.all("VersionId"), [str(it) for it in range(100, 0, -1)])
        self.assertEqual(self.done("GET", "/docs?list-type=2").all("Size"), ["1"])

    def test_values_that_arent_any(self) -> None:
        for query in ("list-type=1", "list-type=2&max-keys=x", "list-type=2&max-keys=-1", "encoding-type=xml",
                      "list-type=2&continuation-token=%21", "versions&version-id-marker=1", "prefix=%0A"):
            self.refused("InvalidArgument", 400, self.ask("GET", f"/docs?{query}"))
        self.assertEqual(self.done("GET", "/docs?list-type=2&max-keys=0").all("IsTruncated"), ["false"])
        self.assertEqual(self.done("GET", "/docs?list-type=2&max-keys=5000").all("MaxKeys"), ["1000"])
        self.refused("NoSuchBucket", 404, self.ask("GET", "/nothing?list-type=2&max-keys=0"))
        self.refused("AccessDenied", 403, self.ask("GET", "/cases?list-type=2", who=BEA))

    def test_what_is_encoded_is_a_path(self) -> None:
        self.put(["a b/c+d%", "a b/u\u0308"])
        got = self.done("GET", "/docs?list-type=2&encoding-type=url&prefix=a%20b%2F&delimiter=%2B")
        wanted = (["a%20b/u%CC%88"], ["a%20b/", "a%20b/c%2B"], ["%2B"])
        self.assertEqual((got.all("Key"), got.all("Prefix"), got.all("Delimiter")), wanted)

    def test_a_key_that_xml_cant_carry(self) -> None:
        self.put(["a\uffffb"])
        self.refused("InvalidArgument", 400, self.ask("GET", "/docs?list-type=2"))
        self.assertEqual(self.done("GET", "/docs?list-type=2&encoding-type=url").all("Key"), ["a%EF%BF%BFb"])


def plain(keys: list[str], prefix: str, delimiter: str, start: str) -> tuple[list[str], list[str]]:
    """The keys and the common prefixes of a list, by looking at each key."""
    found: list[str] = []
    prefixes: list[str] = []
    for key in keys:
        if not key.startswith(prefix) or key.encode() <= start.encode():
            continue
        rest = key[len(prefix):]
        if delimiter and delimiter in rest:
            common = prefix + rest[: rest.index(delimiter) + len(delimiter)]
            if common not in prefixes and common != start:
                prefixes.append(common)
        else:
            found.append(key)
    return found, prefixes
