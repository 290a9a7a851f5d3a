"""What each client of S3 is tried with in its own words, before a server of the vault: for the trials of s3.py."""

import json
import pathlib
import re
from typing import Any, Callable, Iterator

from trials.parts.program import PROGRAM, check
from trials.s3_clients.calls import every_call
from trials.s3_clients.gateway import Between, Door, Gateway, sent
from trials.s3_clients.tools import TOOLS, Aws, Rclone, S3cmd, Tool, names_of, some_files

ODD = ["a b", "a+b", "100%", "%2F", "?", "#", ";=:@&$,!*'()", '"quoted"', " blanks ", "a//b", "ü", "u\u0308", "日本",
       "\U0001f4dc", "<&>", "\\back", "..", "a" * 1_020]
MANY = 2_500
TOO_LARGE = 1_048_577
SKEW = 960  # seconds by which a client's clock is off, which are more than are allowed
LOCK = ("--object-lock-mode", "{mode}", "--object-lock-retain-until-date", "2040-01-01T00:00:00Z")
DROPPED = ["mtime", "s3cmd-attrs"]


def made(folder: pathlib.Path, ahead: int = 0, **settings: Any) -> Gateway:
    """A gateway before a server, which drops the metadata that s3cmd and rclone always send."""
    found = Gateway(PROGRAM, folder, ahead, **{"dropped_metadata": DROPPED, **settings})
    found.served = True
    return found


# ---- keys, pages, and many at once


def odd_keys(kind: type[Tool], folder: pathlib.Path) -> None:
    """Each odd key comes back as it went, and its content."""
    with made(folder) as gateway:
        tool = kind(gateway)
        named = {it: kind.ALTERED.get(it, it) for it in ODD}
        for number, key in enumerate(it for it in ODD if named[it] is not None):
            (folder / "in").write_text(f"content {number}")
            tool.put("in", f"k/{key}")
            tool.get(f"k/{key}", f"out{number}")
            check((folder / f"out{number}").read_text() == f"content {number}", f"another content of {key!r}")
        wanted = sorted(f"k/{it}" for it in named.values() if it is not None)
        check(sorted(tool.keys("docs")) == wanted, f"it lists {sorted(tool.keys('docs'))}")
        gateway.stop()
        check(sorted(names_of(gateway.versions())) == wanted, gateway.versions())


def pages(kind: type[Tool], folder: pathlib.Path) -> None:
    """A list of 2,500 keys, some of which have a marker on top or an older version."""
    gateway = made(folder)
    keys = [f"{it % 7}/{it:05}" for it in range(MANY)]
    puts = [{"as": "ann", "do": "put", "bucket": "scans", "key": it, "text": it} for it in [*keys, *keys[::50]]]
    gone = [{"as": "ann", "do": "delete", "bucket": "scans", "key": it} for it in keys[::100]]
    check(all("ok" in it for it in gateway.lines(*puts, *gone)), "the bucket isn't filled")
    with gateway:
        found = kind(gateway).keys("scans")
        wanted = set(keys) - set(keys[::100])
        check(len(found) == len(wanted) and set(found) == wanted, f"{len(found)} of {len(wanted)} keys")


def buckets(kind: type[Tool], folder: pathlib.Path) -> None:
    """A bucket that is made while the gateway serves is in the next list."""
    with made(folder) as gateway:
        tool = kind(gateway)
        check(tool.buckets() == ["docs", "scans"], f"other buckets: {tool.buckets()}")
        gateway.office("buckets", "--add", "maps", "--department", "records", "--as", "registrar")
        (folder / "in").write_text("content")
        tool.put("in", "a", "maps")
        check(tool.buckets() == ["docs", "maps", "scans"], f"a list without the new one, or with others: {tool.buckets()}")


def at_once(kind: type[Tool], folder: pathlib.Path) -> None:
    """A hundred puts at once, each of which is one version with its content."""
    with made(folder) as gateway:
        contents = some_files(folder / "tree", 100)
        kind(gateway).put_all("tree", "docs", kind.AT_ONCE)
        gateway.stop()
        found = gateway.versions()
        check(names_of(found) == sorted(contents), names_of(found))
        check(all(it["size"] == len(contents[it["key"]]) for it in found), "another size")


def calls(kind: type[Tool], folder: pathlib.Path) -> None:
    """Every call that it has words for."""
    with made(folder) as gateway:
        every_call(kind(gateway), gateway, folder)


# ---- who isn't let in, and what comes late or again


def refusals(kind: type[Tool], folder: pathlib.Path) -> None:
    """A wrong secret, a removed key, a content that is too large: the put is refused, and leaves no version."""
    with made(folder) as gateway:
        (folder / "in").write_text("content")
        (folder / "large").write_bytes(b"x" * TOO_LARGE)
        said = kind(gateway, secret="another-secret").put("in", "a", status=None)
        check(re.search(kind.SAYS or "SignatureDoesNotMatch", said), f"a wrong secret: {said}")
        check("EntityTooLarge" in kind(gateway).put("large", "a", status=None), "what is too large is put")
        tool = kind(gateway)
        gateway.desk("key", "remove", tool.access_key, "--yes")
        said = tool.put("in", "a", status=None)
        check(re.search(kind.SAYS or "InvalidAccessKeyId", said), f"a removed key: {said}")
        gateway.stop()
        check(gateway.versions() == [], gateway.versions())


def late(kind: type[Tool], folder: pathlib.Path) -> None:
    """A client whose clock is off by sixteen minutes, either way, puts nothing."""
    for ahead in (SKEW, -SKEW):
        there = folder / str(ahead)
        there.mkdir()
        with made(there, ahead) as gateway:
            (there / "in").write_text("content")
            said = kind(gateway).put("in", "a", status=None)
            check(re.search(kind.SAYS or "RequestTimeTooSkewed", said), f"{ahead} seconds: {said}")
            gateway.stop()
            check(gateway.versions() == [], gateway.versions())


def replayed(kind: type[Tool], folder: pathlib.Path) -> None:
    """What a client sent, sent once more by whoever listened: no version comes of it, also after another put."""
    with made(folder) as gateway:
        between = Between(gateway, 0)
        (folder / "in").write_text("content")
        (folder / "other").write_text("another content")
        kind(gateway, port=between.port).put("in", "a")
        (whole,) = [it for it in between.requests if it.startswith(b"PUT ")]
        check(b" 200 " in sent(gateway, whole).partition(b"\r\n")[0], "it isn't answered as the first time")
        kind(gateway).put("other", "a")
        sent(gateway, whole)
        renamed = re.sub(rb"(?i)(amz-sdk-invocation-id: ).{8}", rb"\g<1>00000000", whole)
        without = re.sub(rb"(?i)amz-sdk-invocation-id: [^\r]*\r\n", b"", whole)
        if renamed != whole:
            check(all(b"AccessDenied" in sent(gateway, it) for it in (renamed, without)), "another id is taken")
        gateway.stop()
        found = gateway.versions()
        check([(it["size"], it["current"]) for it in found] == [(15, True), (7, False)], found)


# ---- answers that are lost


def cut(kind: type[Tool], folder: pathlib.Path) -> None:
    """The client's connection breaks before the gateway answers, twice: its put is sent again, and is one version."""
    with made(folder) as gateway:
        between = Between(gateway, 2)
        (folder / "in").write_text("content")
        kind(gateway, port=between.port).put("in", "a")
        check(between.cuts == 0, "nothing was cut off")
        kind(gateway).put("in", "a", "scans")
        gateway.stop()
        check(len(gateway.versions()) == 1, gateway.versions())
        check(len(gateway.versions("scans")) == 1, gateway.versions("scans"))


def cut_after(kind: type[Tool], folder: pathlib.Path) -> None:
    """An answer is lost that has left the gateway: a client that sends an id has one version all the same, and one that
    signs anew another for each time that it sends."""
    with made(folder) as gateway:
        between = Between(gateway, 2, is_before=False)
        (folder / "in").write_text("content")
        kind(gateway, port=between.port).put("in", "a")
        signed = {re.findall(rb"Signature=(\w+)", it)[0] for it in between.requests if it.startswith(b"PUT ")}
        has_id = b"amz-sdk-invocation-id" in between.requests[-1].lower()
        gateway.stop()
        wanted = 1 if has_id else len(signed)
        check(len(gateway.versions()) == wanted, f"{wanted} are wanted: {gateway.versions()}")


def killed(kind: type[Tool], folder: pathlib.Path) -> None:
    """The gateway is killed once the server has made the put, and started anew: the put is sent again, and is one version."""
    gateway = made(folder, door=str(folder / "between.lines"))
    door = Door(folder)
    kills: list[bytes] = []

    def kill(line: bytes) -> bool:
        if kills or b'"intake"' not in line:
            return True
        kills.append(line)
        gateway.kill()
        gateway.start()
        return False

    door.before_reply = kill
    with gateway:
        (folder / "in").write_text("content")
        kind(gateway, port=Between(gateway, 0).port).put("in", "a")
        check(len(kills) == 1, "the gateway wasn't killed")
        gateway.stop()
        check(len(gateway.versions()) == 1, gateway.versions())


# ---- locks


def aws_locks(kind: type[Tool], folder: pathlib.Path) -> None:
    """Locks, refused deletes and a bypass, by `aws s3api`."""
    with made(folder) as gateway:
        (folder / "in").write_text("content")
        ann, bea = kind(gateway), kind(gateway, "bea")
        assert isinstance(ann, Aws) and isinstance(bea, Aws)

        def api(tool: Aws, call: str, *words: str, status: int | None = 0, key: str = "deed") -> Any:
            said = tool.aws("s3api", call, "--bucket", "docs", "--key", key, *words, "--output", "json", status=status)
            return said if status != 0 else json.loads(said or "{}")

        lock = [it.format(mode="COMPLIANCE") for it in LOCK]
        version = api(ann, "put-object", "--body", "in", *lock, "--object-lock-legal-hold-status", "ON")["VersionId"]
        one = ("--version-id", version)
        for tool, call, *words in (
            (ann, "delete-object"), (bea, "put-object-legal-hold", "--legal-hold", "Status=OFF"),
            (ann, "put-object-retention", "--retention", "Mode=COMPLIANCE,RetainUntilDate=2039-01-01T00:00:00Z"),
        ):
            check("AccessDenied" in api(tool, call, *one, *words, status=None), f"{call} isn't refused")
        api(ann, "put-object-legal-hold", *one, "--legal-hold", "Status=OFF")
        check(api(ann, "get-object-legal-hold", *one)["LegalHold"]["Status"] == "OFF", "the hold is on")
        check("AccessDenied" in api(ann, "delete-object", *one, "--bypass-governance-retention", status=None), "it is deleted")
        lock = [it.format(mode="GOVERNANCE") for it in LOCK]
        one = ("--version-id", api(ann, "put-object", "--body", "in", *lock, key="draft")["VersionId"])
        check("AccessDenied" in api(ann, "delete-object", *one, key="draft", status=None), "a draft is deleted")
        bypass = ("--bypass-governance-retention",)
        check("AccessDenied" in api(bea, "delete-object", *one, *bypass, key="draft", status=None), "bea may bypass")
        api(ann, "delete-object", *one, *bypass, key="draft")
        aws_settings(ann)
        aws_refusals(ann)
        gateway.stop()
        check([(it["key"], it["version_id"]) for it in gateway.versions()] == [("deed", int(version))], gateway.versions())
        check(gateway.locks("scans")["a"]["retention"]["mode"] == "COMPLIANCE", gateway.locks("scans"))


def aws_settings(ann: Aws) -> None:
    """A default retention, and rules of a lifecycle."""
    rule = '{"ObjectLockEnabled":"Enabled","Rule":{"DefaultRetention":{"Mode":"COMPLIANCE","Days":3}}}'
    there = ("--bucket", "scans")
    ann.aws("s3api", "put-object-lock-configuration", *there, "--object-lock-configuration", rule)
    check('"Days": 3' in ann.aws("s3api", "get-object-lock-configuration", *there, "--output", "json"), "another default")
    ann.put("in", "a", "scans")
    rules = '{"Rules":[{"ID":"r","Status":"Enabled","Filter":{"Prefix":"2024/"},"Expiration":{"Days":30}}]}'
    ann.aws("s3api", "put-bucket-lifecycle-configuration", *there, "--lifecycle-configuration", rules)
    told = json.loads(ann.aws("s3api", "get-bucket-lifecycle-configuration", *there, "--output", "json"))
    check(told["Rules"] == json.loads(rules)["Rules"], told)
    ann.aws("s3api", "delete-bucket-lifecycle", *there)


def aws_refusals(ann: Aws) -> None:
    """Uploads that can't be kept as they are asked for."""
    for code, *words in (
        ("InvalidRequest", "--metadata", "a=b"), ("InvalidRequest", "--tagging", "a=b"),
        ("InvalidRequest", "--content-encoding", "gzip"), ("AccessControlListNotSupported", "--acl", "public-read"),
        ("InvalidEncryptionAlgorithmError", "--server-side-encryption", "AES256"),
    ):
        said = ann.aws("s3api", "put-object", "--bucket", "docs", "--key", "refused", "--body", "in", *words, status=None)
        check(code in said, f"{words}: {said}")


def s3cmd_locks(kind: type[Tool], folder: pathlib.Path) -> None:
    """Locks by headers, markers on locked versions, and uploads that are refused, by s3cmd."""
    with made(folder) as gateway:
        (folder / "in").write_text("content")
        ann = kind(gateway)
        assert isinstance(ann, S3cmd)
        lock = ("x-amz-object-lock-mode:COMPLIANCE", "x-amz-object-lock-retain-until-date:2040-01-01T00:00:00Z",
                "x-amz-object-lock-legal-hold:ON")
        put = ("put", "--no-preserve", "in", "s3://docs/deed")
        ann.s3cmd(*put, *(f"--add-header={it}" for it in lock))
        ann.s3cmd("del", "s3://docs/deed")
        # It takes InvalidArgument for a server without signatures of version 4, and asks once more by version 2.
        for code, *words in (
            ("InvalidRequest", f"--add-header={lock[0]}"), ("InvalidRequest", "--add-header=x-amz-tagging:a=b"),
            ("InvalidRequest", "--add-header=x-amz-meta-a:b"), ("AccessControlListNotSupported", "--acl-public"),
            ("InvalidEncryptionAlgorithmError", "--server-side-encryption"), ("InvalidRequest", "--add-header=if-none-match:*"),
        ):
            said = ann.s3cmd("put", "--no-preserve", "in", "s3://docs/refused", *words, status=None)
            check(code in said, f"{words}: {said}")
        check(" 400 InvalidArgument" in (folder / "log").read_text(), "the gateway doesn't say why")
        gateway.stop()
        found = [(it["key"], it["version_id"], it["delete_marker"]) for it in gateway.versions()]
        check(found == [("deed", 2, True), ("deed", 1, False)], found)
        (told,) = gateway.lines({"as": "ann", "do": "head", "bucket": "docs", "key": "deed", "id": 1})
        check((told["ok"]["retention"]["mode"], told["ok"]["hold"]) == ("COMPLIANCE", "ON"), told)


def rclone_locks(kind: type[Tool], folder: pathlib.Path) -> None:
    """A default retention under COMPLIANCE, and what rclone has for old versions: none of them goes."""
    gateway = made(folder)
    gateway.lines({"as": "ann", "do": "set-default", "bucket": "docs", "mode": "COMPLIANCE", "days": 30})
    with gateway:
        ann = kind(gateway)
        assert isinstance(ann, Rclone)
        for it in ("first", "the second"):
            (folder / "in").write_text(it)
            ann.put("in", "a")
        ann.rclone("deletefile", "v:docs/a")
        check("AccessDenied" in ann.rclone("delete", "--s3-versions", "v:docs", status=None), "old versions are deleted")
        check("AccessDenied" in ann.rclone("backend", "cleanup-hidden", "v:docs", status=None), "hidden ones are deleted")
        gateway.stop()
        found = gateway.versions()
        check([it["size"] for it in found if not it["delete_marker"]] == [10, 5], found)


CASES: dict[str, Callable[[type[Tool], pathlib.Path], None]] = {
    "calls": calls, "odd keys": odd_keys, "pages": pages, "buckets": buckets, "at once": at_once, "refusals": refusals, "late": late,
    "replayed": replayed, "cut": cut, "cut after": cut_after, "killed": killed,
}
LOCKS = {"aws": aws_locks, "aws2": aws_locks, "s3cmd": s3cmd_locks, "rclone": rclone_locks}


def named() -> Iterator[tuple[str, str, Callable[[type[Tool], pathlib.Path], None]]]:
    """The name of each trial, the client's, and what is done."""
    for tool in TOOLS:
        for name, case in CASES.items():
            yield f"{tool} {name}", tool, case
    for tool, case in LOCKS.items():
        yield f"{tool} locks", tool, case
