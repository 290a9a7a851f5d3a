"""S3: the clients that are on this machine work on a vault through its gateway (`vaultdesk s3 serve`).

They are boto3, boto3 whose answers are lost, boto3 through nginx, aws, s3cmd and rclone. boto3 is the one of the Python
that runs this, and aws is each that is on the path or in /usr/bin; `trials/setup` installs Debian's. Each client
has a vault and a gateway of its own; in `Served` a server has the vault meanwhile, and the gateway asks that server's
door for lines. `Each` has every client do the same there, in its own words: odd keys, pages, many at once, what is
refused, late, sent again or cut off (s3_clients/each.py). Afterwards the vault is sound, and no refusal has left a version. The
requests that these clients sent once, byte for byte, are in `desk/tests`, which need none of them and no network.
"""

import datetime as dt
import importlib.util
import json
import os
import pathlib
import shutil
import subprocess
import time
import unittest
import unittest.mock
from concurrent.futures import ThreadPoolExecutor

from trials.s3_clients import each as in_words
from trials.parts.program import PROGRAM, TOP, Case, a_test_each, check, needs
from trials.s3_clients.each import MANY, ODD, TOO_LARGE
from trials.s3_clients.gateway import Between, Door, Gateway, made_tree, sent
from trials.s3_clients.tools import TOOLS, missing
from trials.parts.servers import free_port

TAKES_LONG = True
END = dt.datetime(2040, 1, 1, tzinfo=dt.timezone.utc)
WRONG, AT_ONCE = 2_000, 8  # signatures of the flood, and how many come at a time


# ---- boto3


def client(gateway, who="ann", version="s3v4", **more):
    import boto3
    from botocore.config import Config

    key = gateway.keys[who]
    config = Config(signature_version=version, s3={"addressing_style": "path"}, max_pool_connections=100, **more)
    return boto3.client(
        "s3", endpoint_url=f"{gateway.scheme}://localhost:{gateway.port}", region_name="us-east-1", config=config,
        aws_access_key_id=key["access_key"], aws_secret_access_key=key["secret"],
        verify=str(gateway.folder / "cert.pem") if gateway.scheme == "https" else None,
    )


def refused(code, call, **given):
    """The call is refused with that code."""
    from botocore.exceptions import ClientError

    try:
        call(**given)
    except ClientError as error:
        check(error.response["Error"]["Code"] == code, f"{call.__name__}: {error}, and not {code}")
        return
    check(False, f"{call.__name__} isn't refused: {code} is wanted")


def boto3_locks(gateway):
    ann, bea = client(gateway), client(gateway, "bea")
    place = {"Bucket": "docs", "Key": "deed"}
    put = ann.put_object(**place, Body=b"a deed", ObjectLockMode="COMPLIANCE", ObjectLockRetainUntilDate=END,
                         ObjectLockLegalHoldStatus="ON")
    version = {**place, "VersionId": put["VersionId"]}
    check(ann.get_object(**place)["Body"].read() == b"a deed", "the deed came back otherwise")
    refused("AccessDenied", ann.delete_object, **version)
    refused("AccessDenied", bea.put_object_legal_hold, **version, LegalHold={"Status": "OFF"})
    ann.put_object_legal_hold(**version, LegalHold={"Status": "OFF"})
    refused("AccessDenied", ann.delete_object, **version, BypassGovernanceRetention=True)
    earlier = {"Mode": "COMPLIANCE", "RetainUntilDate": END - dt.timedelta(days=1)}
    refused("AccessDenied", ann.put_object_retention, **version, Retention=earlier, BypassGovernanceRetention=True)
    later = {"Mode": "COMPLIANCE", "RetainUntilDate": END + dt.timedelta(days=1)}
    ann.put_object_retention(**version, Retention=later)
    check(ann.get_object_retention(**version)["Retention"] == later, "the retention isn't the one that was set")

    place = {"Bucket": "docs", "Key": "draft"}
    version = {**place, "VersionId": ann.put_object(**place, Body=b"d", ObjectLockMode="GOVERNANCE",
                                                    ObjectLockRetainUntilDate=END)["VersionId"]}
    refused("AccessDenied", ann.delete_object, **version)
    refused("AccessDenied", bea.delete_object, **version, BypassGovernanceRetention=True)
    ann.delete_object(**version, BypassGovernanceRetention=True)
    refused("404", ann.head_object, **version)

    rule = {"DefaultRetention": {"Mode": "GOVERNANCE", "Days": 30}}
    ann.put_object_lock_configuration(Bucket="scans", ObjectLockConfiguration={"ObjectLockEnabled": "Enabled", "Rule": rule})
    check(ann.get_object_lock_configuration(Bucket="scans")["ObjectLockConfiguration"]["Rule"] == rule, "another default")
    ann.put_object(Bucket="scans", Key="a", Body=b"a")
    check(ann.head_object(Bucket="scans", Key="a")["ObjectLockMode"] == "GOVERNANCE", "the default doesn't count")
    rules = [{"ID": "r", "Status": "Enabled", "Filter": {"Prefix": "2024/"}, "Expiration": {"Days": 30},
              "NoncurrentVersionExpiration": {"NoncurrentDays": 7, "NewerNoncurrentVersions": 2}}]
    ann.put_bucket_lifecycle_configuration(Bucket="docs", LifecycleConfiguration={"Rules": rules})
    check(ann.get_bucket_lifecycle_configuration(Bucket="docs")["Rules"] == rules, "other rules")
    ann.delete_bucket_lifecycle(Bucket="docs")
    refused("NoSuchLifecycleConfiguration", ann.get_bucket_lifecycle_configuration, Bucket="docs")


def boto3_refusals(gateway):
    ann = client(gateway)
    place = {"Bucket": "docs", "Key": "refused"}
    for code, more in (
        ("InvalidRequest", {"Metadata": {"a": "b"}}), ("InvalidRequest", {"Tagging": "a=b"}),
        ("InvalidRequest", {"IfNoneMatch": "*"}), ("InvalidRequest", {"WebsiteRedirectLocation": "/a"}),
        ("AccessControlListNotSupported", {"ACL": "public-read"}), ("InvalidRequest", {"ContentEncoding": "gzip"}),
        ("InvalidEncryptionAlgorithmError", {"ServerSideEncryption": "AES256"}),
        ("EntityTooLarge", {"Body": b"x" * TOO_LARGE}),
    ):
        refused(code, ann.put_object, **{**place, "Body": b"x", **more})
    refused("EntityTooLarge", ann.create_multipart_upload, **place)
    refused("SignatureDoesNotMatch", client_of(gateway, "another").put_object, **place, Body=b"x")
    refused("InvalidRequest", client(gateway, version="s3").put_object, **place, Body=b"x")
    for call, more in ((ann.delete_bucket, {}), (ann.put_bucket_versioning, {"VersioningConfiguration": {"Status": "Suspended"}})):
        refused("NotImplemented", call, Bucket="docs", **more)
    refused("BucketAlreadyOwnedByYou", ann.create_bucket, Bucket="docs")
    refused("404", ann.head_object, **place)


def client_of(gateway, secret):
    """A client whose secret isn't the right one."""
    key = gateway.keys["ann"]
    gateway.keys["other"] = {**key, "secret": secret}
    return client(gateway, "other")


def boto3_objects(gateway):
    ann = client(gateway)
    check([it["Name"] for it in ann.list_buckets()["Buckets"]] == ["docs", "scans"], "other buckets")
    for key in ODD:
        ann.put_object(Bucket="docs", Key=f"odd/{key}"[:1_024], Body=key.encode())
        check(ann.get_object(Bucket="docs", Key=f"odd/{key}"[:1_024])["Body"].read() == key.encode(), f"key {key!r}")
    keys = [it["Key"] for it in ann.list_objects_v2(Bucket="docs", Prefix="odd/")["Contents"]]
    check(keys == sorted((f"odd/{it}"[:1_024] for it in ODD), key=str.encode), f"other keys: {keys}")
    ann.copy_object(Bucket="docs", Key="copy", CopySource={"Bucket": "docs", "Key": "odd/a+b"})
    check(ann.get_object(Bucket="docs", Key="copy", Range="bytes=1-1")["Body"].read() == b"+", "a range of a copy")
    refused("InvalidRequest", ann.copy_object, Bucket="docs", Key="copy", CopySource={"Bucket": "docs", "Key": "copy"})
    tag = ann.head_object(Bucket="docs", Key="copy")["ETag"]
    refused("304", ann.get_object, Bucket="docs", Key="copy", IfNoneMatch=tag)
    gone = ann.delete_objects(Bucket="docs", Delete={"Objects": [{"Key": "copy"}, {"Key": "none", "VersionId": "999"}]})
    check((len(gone["Deleted"]), gone["Errors"][0]["Code"]) == (1, "NoSuchVersion"), gone)
    url = ann.generate_presigned_url("get_object", Params={"Bucket": "docs", "Key": "odd/a b"})
    refused_url(url) if gateway.scheme == "http" else None


def refused_url(url):
    """A URL that nobody takes here."""
    import urllib.error
    import urllib.request

    try:
        urllib.request.build_opener(urllib.request.ProxyHandler({})).open(url)
    except urllib.error.HTTPError as error:
        check(error.code == 403, f"a presigned URL: {error}")
        return
    check(False, "a presigned URL is taken")


def boto3_many(gateway):
    """2,500 puts, a hundred at once, and their lists; the bucket has a key `a` before."""
    ann = client(gateway, retries={"max_attempts": 1})
    keys = [f"{it % 7}/{it:05}" for it in range(MANY)]
    with ThreadPoolExecutor(100) as pool:
        list(pool.map(lambda it: ann.put_object(Bucket="scans", Key=it, Body=it.encode()), keys))

    def listed(name, **more):
        pages = list(ann.get_paginator(name).paginate(Bucket="scans", **more))
        return pages, [it["Key"] for page in pages for it in page.get("Contents", page.get("Versions", []))]

    pages, found = listed("list_objects_v2")
    check((len(pages), found) == (3, sorted([*keys, "a"])), f"{len(pages)} pages of {len(found)} keys")
    check(listed("list_objects", Prefix="3/", PaginationConfig={"PageSize": 7})[1] == [it for it in sorted(keys) if it[0] == "3"],
          "other keys of a prefix")
    check(len(listed("list_object_versions")[1]) == 2_501, "other versions")
    prefixes = [it["Prefix"] for page in listed("list_objects_v2", Delimiter="/")[0] for it in page["CommonPrefixes"]]
    check(prefixes == [f"{it}/" for it in range(7)], prefixes)


def try_boto3(program, folder):
    """boto3 over HTTP and over TLS."""
    made_certificate(folder)
    for name, settings in (("plain", {}), ("tls", {"certificate": str(folder / "cert.pem"),
                                                   "certificate_key": str(folder / "key.pem")})):
        there = folder / name
        there.mkdir()
        shutil.copy(folder / "cert.pem", there)
        with Gateway(program, there, **settings) as gateway:
            boto3_locks(gateway)
            boto3_refusals(gateway)
            boto3_objects(gateway)
            if name == "plain":
                boto3_many(gateway)
            gateway.stop()
            check(not [it for it in gateway.versions() if it["key"] == "refused"], "a refused put left a version")


# ---- answers that are lost


def try_again(program, folder):
    """An answer that is lost, and a gateway that is killed meanwhile: boto3 sends its put again, and one version stands."""
    for name in ("cut", "killed"):
        there = folder / name
        there.mkdir()
        with Gateway(program, there) as gateway:
            def anew(gateway=gateway):
                gateway.kill()
                gateway.start()

            between = Between(gateway, 3, is_before=False, meanwhile=anew if name == "killed" else None)
            port, gateway.port = gateway.port, between.port
            sender = client(gateway)
            gateway.port = port
            done = sender.put_object(Bucket="docs", Key="deed", Body=b"a deed", ObjectLockMode="COMPLIANCE",
                                     ObjectLockRetainUntilDate=END)
            check((done["VersionId"], done["ResponseMetadata"]["RetryAttempts"]) == ("1", 3), f"{name}: {done}")
            gateway.stop()
            check(len(gateway.versions()) == 1, f"{name}: {gateway.versions()}")


# ---- nginx before the gateway

NGINX = """\
daemon off; pid {folder}/pid; error_log {folder}/error.log;
events {{}}
http {{
    access_log off;
    client_body_temp_path {folder}/b; proxy_temp_path {folder}/p; fastcgi_temp_path {folder}/f;
    uwsgi_temp_path {folder}/u; scgi_temp_path {folder}/s;
    server {{
        listen 127.0.0.1:{port} ssl; ssl_certificate {folder}/cert.pem; ssl_certificate_key {folder}/key.pem;
{block}
    }}
}}
"""


def made_certificate(folder):
    """A certificate of localhost, which no browser knows."""
    subprocess.run(
        ["openssl", "req", "-x509", "-newkey", "rsa:2048", "-nodes", "-days", "2", "-subj", "/CN=localhost", "-addext",
         "subjectAltName=DNS:localhost", "-keyout", folder / "key.pem", "-out", folder / "cert.pem"],
        check=True, capture_output=True,
    )


def try_nginx(program, folder):
    """boto3 over TLS through nginx, with the lines that the page has for it."""
    made_certificate(folder)
    page = (TOP / "docs" / "S3.md").read_text()
    block = page[page.index("location / {"):].partition("```")[0]
    with Gateway(program, folder) as gateway:
        port = free_port()
        block = block.replace("127.0.0.1:9000", f"127.0.0.1:{gateway.port}")
        (folder / "nginx.conf").write_text(NGINX.format(folder=folder, port=port, block=block))
        folder.chmod(0o755)
        nginx = subprocess.Popen(["nginx", "-c", folder / "nginx.conf"])
        try:
            behind, gateway.port, gateway.scheme = gateway.port, port, "https"
            boto3_locks(gateway)
            boto3_refusals(gateway)
            boto3_objects(gateway)
            gateway.port = behind
        finally:
            nginx.terminate()
            nginx.wait()


# ---- aws


def try_aws(program, folder):
    """Each aws: lists, syncs, moves, and a lock."""
    found = {os.path.realpath(it): it for it in (shutil.which("aws"), "/usr/bin/aws") if it and os.path.exists(it)}
    for number, aws in enumerate(found.values()):
        there = folder / str(number)
        there.mkdir()
        with Gateway(program, there) as gateway:
            key = gateway.keys["ann"]
            env = {"AWS_ACCESS_KEY_ID": key["access_key"], "AWS_SECRET_ACCESS_KEY": key["secret"],
                   "AWS_DEFAULT_REGION": "us-east-1", "PATH": os.environ["PATH"]}
            made_tree(there)

            def run(*words, status=0):
                return gateway.run(aws, "--endpoint-url", f"http://127.0.0.1:{gateway.port}", *words, status=status, **env)

            check("docs" in run("s3", "ls"), "no buckets")
            check(run("s3", "sync", "tree", "s3://docs/tree").count("upload:") == 5, "other files are synced")
            check("upload:" not in run("s3", "sync", "tree", "s3://docs/tree"), "a second sync uploads again")
            run("s3", "sync", "s3://docs/tree", "back")
            same = subprocess.run(["diff", "-r", there / "tree", there / "back"]).returncode
            check(same == 0, "what came back is otherwise")
            run("s3", "mv", "s3://docs/tree/one.txt", "s3://docs/moved")
            run("s3", "rm", "s3://docs/moved")
            lock = ("--object-lock-mode", "COMPLIANCE", "--object-lock-retain-until-date", "2040-01-01T00:00:00Z")
            put = json.loads(run("s3api", "put-object", "--bucket", "docs", "--key", "deed", "--body", "tree/one.txt", *lock,
                                 "--output", "json"))
            gone = ("s3api", "delete-object", "--bucket", "docs", "--key", "deed", "--version-id", put["VersionId"])
            check("AccessDenied" in run(*gone, status=254 if is_second(aws) else 255), "a deed is deleted")
            (there / "large").write_bytes(b"x" * TOO_LARGE)
            check("EntityTooLarge" in run("s3", "cp", "large", "s3://docs/large", status=1), "what is too large is put")
            gateway.stop()
            keys = [it["key"] for it in gateway.versions() if it["current"] and not it["delete_marker"]]
            check(keys == ["deed", "tree/big.bin", "tree/empty", "tree/sub folder/two ü+.txt", "tree/three.gz"], keys)


def is_second(aws):
    """Whether it is version 2, which has another status for what a server refuses."""
    said = subprocess.run([aws, "--version"], capture_output=True, text=True)
    return "aws-cli/2" in said.stdout + said.stderr


# ---- s3cmd and rclone


def try_s3cmd(program, folder):
    """s3cmd: syncs, moves, rules."""
    with Gateway(program, folder, dropped_metadata=["s3cmd-attrs"]) as gateway:
        key, host = gateway.keys["ann"], f"127.0.0.1:{gateway.port}"
        (folder / "s3cfg").write_text(
            f"[default]\naccess_key = {key['access_key']}\nsecret_key = {key['secret']}\nhost_base = {host}\n"
            f"host_bucket = {host}\nuse_https = False\nsignature_v2 = False\n"
        )
        made_tree(folder)

        def run(*words, status=0):
            return gateway.run("s3cmd", "-c", "s3cfg", *words, status=status, PATH=os.environ["PATH"])

        check("s3://docs" in run("ls"), "no buckets")
        check(run("sync", "tree/", "s3://docs/tree/").count("upload:") == 5, "other files are synced")
        check("upload:" not in run("sync", "tree/", "s3://docs/tree/"), "a second sync uploads again")
        run("get", "s3://docs/tree/sub folder/two ü+.txt", "two")
        check((folder / "two").read_text() == "two\n", "what came back is otherwise")
        check("MD5 sum" in run("info", "s3://docs/tree/one.txt"), "no MD5")
        run("mv", "s3://docs/tree/one.txt", "s3://docs/moved")
        run("del", "s3://docs/moved")
        run("expire", "s3://docs", "--expiry-days=30", "--expiry-prefix=x/")
        check("<Days>30</Days>" in run("getlifecycle", "s3://docs"), "no rules")
        run("dellifecycle", "s3://docs")
        (folder / "large").write_bytes(b"x" * TOO_LARGE)
        check("EntityTooLarge" in run("put", "large", "s3://docs/large", status=11), "what is too large is put")
        gateway.stop()
        keys = [it["key"] for it in gateway.versions() if it["current"] and not it["delete_marker"]]
        check(keys == ["tree/big.bin", "tree/empty", "tree/sub folder/two ü+.txt", "tree/three.gz"], keys)


def try_rclone(program, folder):
    """rclone: syncs by checksums; its plain sync, which would set times, changes nothing and says so."""
    with Gateway(program, folder, dropped_metadata=["mtime"]) as gateway:
        key = gateway.keys["ann"]
        (folder / "rclone.conf").write_text(
            f"[v]\ntype = s3\nprovider = Other\naccess_key_id = {key['access_key']}\nsecret_access_key = {key['secret']}\n"
            f"endpoint = http://127.0.0.1:{gateway.port}\nregion = us-east-1\nno_check_bucket = true\n"
        )
        tree = made_tree(folder)
        gateway.stop()
        gateway.lines({"as": "ann", "do": "set-default", "bucket": "docs", "mode": "GOVERNANCE", "days": 30})
        gateway.start()

        def run(*words, status=0):
            return gateway.run("rclone", "--config", "rclone.conf", *words, status=status, PATH=os.environ["PATH"])

        check("docs" in run("lsd", "v:"), "no buckets")
        checked = ("sync", "--checksum", "--no-update-modtime", "-v", "tree", "v:docs/tree")
        check("Copied (new)" in run(*checked), "nothing is synced")
        check("There was nothing to transfer" in run(*checked), "a second sync transfers again")
        check("0 differences found" in run("check", "tree", "v:docs/tree"), "rclone finds differences")
        check("could not be checked" not in run("check", "tree", "v:docs/tree"), "rclone can't compare")
        later = time.time() + 60
        os.utime(tree / "one.txt", (later, later))
        run("sync", "tree", "v:docs/tree", status=1)
        run("moveto", "v:docs/tree/one.txt", "v:docs/moved")
        check(run("cat", "v:docs/moved") == "one\n", "what was moved is otherwise")
        (folder / "large").write_bytes(b"x" * TOO_LARGE)
        check("EntityTooLarge" in run("copyto", "large", "v:docs/large", status=1), "what is too large is put")
        gateway.stop()
        found = gateway.versions()
        check([it["key"] for it in found if not it["delete_marker"]]
              == ["moved", "tree/big.bin", "tree/empty", "tree/one.txt", "tree/sub folder/two ü+.txt", "tree/three.gz"], found)
        lines = [{"as": "ann", "do": "head", "bucket": "docs", "key": it["key"], "id": it["version_id"]}
                 for it in found if not it["delete_marker"]]
        check(all(it["ok"]["retention"] for it in gateway.lines(*lines)), "a version of rclone's isn't locked")


needs_boto3 = unittest.skipUnless(importlib.util.find_spec("boto3"), "there is no boto3")


class S3(Case):
    # Whether a server has each vault.
    is_served = False

    def setUp(self):
        super().setUp()
        self.enterContext(unittest.mock.patch.object(Gateway, "served", self.is_served))

    @needs_boto3
    @needs("openssl")
    def test_boto3(self):
        try_boto3(PROGRAM, self.folder)

    @needs_boto3
    def test_again(self):
        try_again(PROGRAM, self.folder)

    @needs_boto3
    @needs("openssl", "nginx")
    def test_nginx(self):
        try_nginx(PROGRAM, self.folder)

    @needs("aws")
    def test_aws(self):
        try_aws(PROGRAM, self.folder)

    @needs("s3cmd")
    def test_s3cmd(self):
        try_s3cmd(PROGRAM, self.folder)

    @needs("rclone")
    def test_rclone(self):
        try_rclone(PROGRAM, self.folder)


class Served(S3):
    is_served = True


NAMED = {name: (tool, case) for name, tool, case in in_words.named()}


@a_test_each(NAMED)
class Each(Case):
    """Each client before a server of the vault."""

    def look_at(self, name):
        tool, case = NAMED[name]
        if missing(tool):
            self.skipTest(missing(tool))
        case(TOOLS[tool], self.folder)


def spent(process):
    """The processor time of a process so far, in ticks of a hundredth of a second."""
    fields = pathlib.Path(f"/proc/{process.pid}/stat").read_text().rpartition(")")[2].split()
    return int(fields[11]) + int(fields[12])


class Flood(Case):
    """Whoever has no right signature gets no further than the gateway, and costs the server nothing."""

    def test_wrong_signatures(self):
        gateway, door = in_words.made(self.folder, door=str(self.folder / "between.lines")), Door(self.folder)
        with gateway:
            deadline = time.monotonic() + 60
            while not any(b'"register"' in it for it in door.lines):  # which is the last that it asks as it begins
                check(time.monotonic() < deadline, "the server isn't asked what was removed")
                time.sleep(0.1)
            door.lines.clear()
            put = b"PUT /docs/a HTTP/1.1\r\nHost: a\r\nContent-Length: 7\r\nConnection: close\r\n%s\r\ncontent"
            date = time.strftime("%Y%m%dT%H%M%SZ", time.gmtime()).encode()
            scope = b"%s/%s/us-east-1/s3/aws4_request" % (gateway.keys["ann"]["access_key"].encode(), date[:8])
            who = b"Authorization: AWS4-HMAC-SHA256 Credential=%s, SignedHeaders=host;x-amz-date, Signature=%064x\r\n"
            before = spent(gateway.server)

            def ask(number):
                heads = b"x-amz-content-sha256: UNSIGNED-PAYLOAD\r\nx-amz-date: %s\r\n%s" % (date, who % (scope, number))
                check(b"SignatureDoesNotMatch" in sent(gateway, put % heads), f"number {number} is let in")

            with ThreadPoolExecutor(AT_ONCE) as pool:
                list(pool.map(ask, range(WRONG)))
            check(b"AccessDenied" in sent(gateway, put % b""), "who doesn't sign is let in")
            check(door.lines == [], f"the server got {len(door.lines)} lines")
            ticks = spent(gateway.server) - before
            check(ticks <= 1, f"the server took {ticks} ticks")
            gateway.stop()
            check(gateway.versions() == [], gateway.versions())
