"""Clients of S3 as they come, each asked in its own words for what all of them can do: for the trials of s3.py."""

import importlib.util
import os
import pathlib
import shutil
from concurrent.futures import ThreadPoolExecutor
from typing import Any, Iterable

from trials.parts.program import check
from trials.s3_clients.gateway import Gateway

REGION = "us-east-1"


class Tool:
    """A client, which asks a gateway, or what stands before it at another port, as one of its callers."""

    # Keys that it can't name, and what it makes of them, if it names any.
    ALTERED: dict[str, str | None] = {}
    # How it says that its request is refused, where it doesn't give the code.
    SAYS = ""
    # Puts that it makes at once.
    AT_ONCE = 100

    def __init__(self, gateway: Gateway, who: str = "ann", secret: str | None = None, port: int | None = None) -> None:
        self.gateway, self.folder = gateway, gateway.folder
        self.access_key = gateway.keys[who]["access_key"]
        self.secret = secret or gateway.keys[who]["secret"]
        self.port = port or gateway.port
        self.env = {"PATH": os.environ["PATH"], "AWS_ACCESS_KEY_ID": self.access_key, "AWS_SECRET_ACCESS_KEY": self.secret,
                    "AWS_DEFAULT_REGION": REGION}
        self.set_up()

    def set_up(self) -> None:
        """Writes what it is set to."""

    def run(self, *words: object, status: int | None = 0) -> str:
        return self.gateway.run(*words, status=status, **self.env)

    def put(self, file: str, key: str, bucket: str = "docs", status: int | None = 0) -> str:
        """Puts a file of the folder, and returns what it says."""
        raise NotImplementedError

    def get(self, key: str, file: str, bucket: str = "docs") -> None:
        """Gets a content into a file of the folder."""
        raise NotImplementedError

    def keys(self, bucket: str) -> list[str]:
        """All keys of a bucket, as it lists them."""
        raise NotImplementedError

    def buckets(self) -> list[str]:
        """The names of all buckets, as it lists them."""
        raise NotImplementedError

    def put_all(self, tree: str, bucket: str, at_once: int) -> None:
        """Puts all files of a folder, that many at once, if it can."""
        raise NotImplementedError

    def put_each(self, tree: str, bucket: str, at_once: int) -> None:
        """Puts all files of a folder by a run of its own for each, that many at once."""
        names = sorted(it.name for it in (self.folder / tree).iterdir())
        with ThreadPoolExecutor(at_once) as pool:
            list(pool.map(lambda it: self.put(f"{tree}/{it}", it, bucket), names))


class Boto3(Tool):
    """boto3, of the Python that runs this."""

    def set_up(self) -> None:
        import boto3
        from botocore.config import Config

        config = Config(signature_version="s3v4", s3={"addressing_style": "path"}, max_pool_connections=100)
        self.client = boto3.client(
            "s3", endpoint_url=f"http://127.0.0.1:{self.port}", region_name=REGION, config=config,
            aws_access_key_id=self.access_key, aws_secret_access_key=self.secret,
        )

    def put(self, file: str, key: str, bucket: str = "docs", status: int | None = 0) -> str:
        from botocore.exceptions import ClientError

        try:
            done = self.client.put_object(Bucket=bucket, Key=key, Body=(self.folder / file).read_bytes())
        except ClientError as error:
            check(status != 0, error)
            return str(error)
        check(status == 0, f"{key} is put: {done}")
        return str(done)

    def get(self, key: str, file: str, bucket: str = "docs") -> None:
        (self.folder / file).write_bytes(self.client.get_object(Bucket=bucket, Key=key)["Body"].read())

    def keys(self, bucket: str) -> list[str]:
        pages = self.client.get_paginator("list_objects_v2").paginate(Bucket=bucket)
        return [it["Key"] for page in pages for it in page.get("Contents", [])]

    def buckets(self) -> list[str]:
        return [it["Name"] for it in self.client.list_buckets()["Buckets"]]

    def put_all(self, tree: str, bucket: str, at_once: int) -> None:
        self.put_each(tree, bucket, at_once)


class Aws(Tool):
    """aws, the one of the path."""

    program = "aws"

    def set_up(self) -> None:
        (self.folder / "config").write_text(
            f"[default]\nregion = {REGION}\ns3 =\n    addressing_style = path\n    max_concurrent_requests = 100\n"
        )
        self.env |= {"AWS_CONFIG_FILE": str(self.folder / "config"), "AWS_EC2_METADATA_DISABLED": "true"}

    def aws(self, *words: object, status: int | None = 0) -> str:
        return self.run(self.program, "--endpoint-url", f"http://127.0.0.1:{self.port}", *words, status=status)

    def put(self, file: str, key: str, bucket: str = "docs", status: int | None = 0) -> str:
        return self.aws("s3api", "put-object", "--bucket", bucket, f"--key={key}", "--body", file, status=status)

    def get(self, key: str, file: str, bucket: str = "docs") -> None:
        self.aws("s3api", "get-object", "--bucket", bucket, f"--key={key}", file)

    def keys(self, bucket: str) -> list[str]:
        said = self.aws("s3api", "list-objects-v2", "--bucket", bucket, "--query", "Contents[].[Key]", "--output", "text")
        return said.splitlines()

    def buckets(self) -> list[str]:
        return self.aws("s3api", "list-buckets", "--query", "Buckets[].[Name]", "--output", "text").splitlines()

    def put_all(self, tree: str, bucket: str, at_once: int) -> None:
        self.aws("s3", "sync", tree, f"s3://{bucket}")


class Aws2(Aws):
    """aws of version 2, as Debian has it."""

    program = "/usr/bin/aws"


class S3cmd(Tool):
    """s3cmd, which puts one file after another: many at once are as many runs."""

    AT_ONCE = 25

    def set_up(self) -> None:
        self.settings = f"s3cfg-{self.access_key}-{self.port}"
        host = f"127.0.0.1:{self.port}"
        (self.folder / self.settings).write_text(
            f"[default]\naccess_key = {self.access_key}\nsecret_key = {self.secret}\nhost_base = {host}\n"
            f"host_bucket = {host}\nuse_https = False\nsignature_v2 = False\n"
        )

    def s3cmd(self, *words: object, status: int | None = 0) -> str:
        return self.run("s3cmd", "-c", self.settings, *words, status=status)

    def put(self, file: str, key: str, bucket: str = "docs", status: int | None = 0) -> str:
        return self.s3cmd("put", "--no-preserve", file, f"s3://{bucket}/{key}", status=status)

    def get(self, key: str, file: str, bucket: str = "docs") -> None:
        self.s3cmd("get", "--force", f"s3://{bucket}/{key}", file)

    def keys(self, bucket: str) -> list[str]:
        said = self.s3cmd("ls", "--recursive", f"s3://{bucket}")
        return [it.partition(f"s3://{bucket}/")[2] for it in said.splitlines()]

    def buckets(self) -> list[str]:
        return [it.partition("s3://")[2] for it in self.s3cmd("ls").splitlines()]

    def put_all(self, tree: str, bucket: str, at_once: int) -> None:
        self.put_each(tree, bucket, at_once)


class Rclone(Tool):
    """rclone, whose puts have no lock but a bucket's default."""

    # It cleans paths.
    ALTERED = {"a//b": "a/b", "..": None}
    # It asks by HEAD first, whose answer has no body.
    SAYS = "403 Forbidden|Forbidden: Forbidden|status code: 403"

    def set_up(self) -> None:
        self.settings = f"rclone-{self.access_key}-{self.port}.conf"
        (self.folder / self.settings).write_text(
            f"[v]\ntype = s3\nprovider = Other\naccess_key_id = {self.access_key}\nsecret_access_key = {self.secret}\n"
            f"endpoint = http://127.0.0.1:{self.port}\nregion = {REGION}\nno_check_bucket = true\n"
        )
        self.env = {"PATH": os.environ["PATH"]}

    def rclone(self, *words: object, status: int | None = 0) -> str:
        return self.run("rclone", "--config", self.settings, *words, status=status)

    def put(self, file: str, key: str, bucket: str = "docs", status: int | None = 0) -> str:
        return self.rclone("copyto", file, f"v:{bucket}/{key}", status=status)

    def get(self, key: str, file: str, bucket: str = "docs") -> None:
        self.rclone("copyto", f"v:{bucket}/{key}", file)

    def keys(self, bucket: str) -> list[str]:
        return self.rclone("lsf", "--files-only", "-R", f"v:{bucket}").splitlines()

    def buckets(self) -> list[str]:
        return [it.removesuffix("/") for it in self.rclone("lsf", "v:").splitlines()]

    def put_all(self, tree: str, bucket: str, at_once: int) -> None:
        self.rclone("copy", "--transfers", at_once, "--checkers", at_once, tree, f"v:{bucket}")


TOOLS: dict[str, type[Tool]] = {"boto3": Boto3, "aws": Aws, "aws2": Aws2, "s3cmd": S3cmd, "rclone": Rclone}


def missing(name: str) -> str:
    """Why a tool can't be tried here; nothing where it can."""
    if name == "boto3":
        return "" if importlib.util.find_spec("boto3") else "there is no boto3"
    program = getattr(TOOLS[name], "program", name)
    found = shutil.which(program)
    if not found:
        return f"there is no {program}"
    first = shutil.which("aws")
    is_same = name == "aws2" and first and pathlib.Path(first).resolve() == pathlib.Path(found).resolve()
    return "there is no second aws" if is_same else ""


def some_files(folder: pathlib.Path, count: int) -> dict[str, bytes]:
    """Files of a folder, each with a content of its own."""
    folder.mkdir()
    contents = {f"{it:03}": f"content {it}\n".encode() * (it + 1) for it in range(count)}
    for name, content in contents.items():
        (folder / name).write_bytes(content)
    return contents


def names_of(rows: Iterable[dict[str, Any]]) -> list[str]:
    return [it["key"] for it in rows]
