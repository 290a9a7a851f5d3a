"""The gateway's settings, a file (TOML)::

    vault = "/var/lib/vaultctl/records.vault"   # or its name in the desk's settings
    keys = "/var/lib/vaultctl/records.keys.toml"  # the access keys, which vaultdesk s3 key makes
    door = "/run/vaultctl/records/lines"        # where its server takes lines; left out, it is found
    admin = "registrar"                         # a caller with the right admin, who asks which buckets there are
    etags = "/var/lib/vaultctl/records.etags"   # MD5s of contents; may be lost
    unanswered = "/var/lib/vaultctl/records.unanswered"  # a folder where puts are noted until they are answered
    port = 9000
    address = "127.0.0.1"
    region = "us-east-1"
    presigned = false                           # whether presigned URLs are taken
    dropped_metadata = []                       # names of x-amz-meta- that are dropped, as mtime and s3cmd-attrs
    certificate = "/etc/vaultctl/s3.pem"        # for TLS, with its key
    certificate_key = "/etc/vaultctl/s3.key"

All but `vault` and `keys` may be left out.
"""

from __future__ import annotations

import tomllib
from collections.abc import Mapping
from dataclasses import dataclass
from pathlib import Path
from typing import Any

from vaultdesk.errors import UsageError

PLACE = "/etc/vaultctl/s3.toml"
KINDS: Mapping[str, type] = {
    "vault": str, "keys": str, "door": str, "admin": str, "etags": str, "unanswered": str, "port": int,
    "address": str, "region": str, "presigned": bool, "dropped_metadata": list, "certificate": str,
    "certificate_key": str,
}  # fmt: skip


@dataclass(frozen=True)
class Settings:
    """What stands in the file."""

    vault: str
    keys: Path
    etags: Path | None = None
    port: int = 9_000
    address: str = "127.0.0.1"
    region: str = "us-east-1"
    presigned: bool = False
    dropped_metadata: frozenset[str] = frozenset()
    certificate: Path | None = None
    certificate_key: Path | None = None
    door: str | None = None
    admin: str = "registrar"
    unanswered: Path | None = None


def _look_at(path: Path, found: Mapping[str, Any]) -> None:
    """`UsageError` where a name is unknown or missing, or a value is of another kind."""
    for name, value in found.items():
        if name not in KINDS:
            raise UsageError(f"{path}: {name} isn't a setting: is it misspelt? There are {', '.join(KINDS)}")
        if type(value) is not KINDS[name]:
            raise UsageError(f"{path}: {name} has to be a value of another kind")
    missing = [it for it in ("vault", "keys") if it not in found]
    if missing:
        raise UsageError(f"{path}: {missing[0]} is missing")
    if not 0 <= found.get("port", 0) <= 65_535:
        raise UsageError(f"{path}: port is a number from 1 to 65,535")
    if not all(isinstance(it, str) for it in found.get("dropped_metadata", [])):
        raise UsageError(f"{path}: dropped_metadata is a list of names")
    if ("certificate" in found) != ("certificate_key" in found):
        raise UsageError(f"{path}: certificate and certificate_key go together")


def read(path: Path) -> Settings:
    """The settings of a file. `UsageError` where it can't be read, or says what isn't understood."""
    try:
        found = tomllib.loads(path.read_text(encoding="utf-8"))
    except (OSError, UnicodeDecodeError, tomllib.TOMLDecodeError) as error:
        raise UsageError(f"settings {path}: {error}") from error
    _look_at(path, found)
    values: dict[str, Any] = dict(found)
    for name in ("keys", "etags", "unanswered", "certificate", "certificate_key"):
        values[name] = Path(found[name]) if found.get(name) else None
    dropped = (it.lower().removeprefix("x-amz-meta-") for it in found.get("dropped_metadata", []))
    values["dropped_metadata"] = frozenset(dropped)
    return Settings(**values)
