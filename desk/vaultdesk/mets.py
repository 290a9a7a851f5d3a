"""The parts of a bag in METS 1.12: its files with their digests, how they belong together, and where PREMIS is."""

from __future__ import annotations

import hashlib
import urllib.parse
import xml.etree.ElementTree as ET
from collections.abc import Mapping, Sequence
from itertools import groupby
from typing import Any

from vaultdesk import bags, premis
from vaultdesk.output import shown

FILE = "mets.xml"
SPACE = "http://www.loc.gov/METS/"
LINK = "http://www.w3.org/1999/xlink"
LIFE, LIST = "digiprov-premis", "dmd-documents"  # the elements that name other files
Rows = Sequence[Mapping[str, Any]]

for _prefix, _space in {"mets": SPACE, "xlink": LINK}.items():
    ET.register_namespace(_prefix, _space)


def _add(parent: ET.Element, name: str, **attributes: str) -> ET.Element:
    """A new element of METS at the end of another one."""
    given = {it: shown(value) for it, value in attributes.items()}
    return ET.SubElement(parent, f"{{{SPACE}}}{name}", given)


def _locate(it: ET.Element, path: str) -> None:
    """Has an element name a file by its path in the bag."""
    it.set("LOCTYPE", "URL")
    it.set(f"{{{LINK}}}type", "simple")
    it.set(f"{{{LINK}}}href", urllib.parse.quote(path))


def _sums(size: int, digest: str) -> dict[str, str]:
    return {"SIZE": str(size), "CHECKSUM": digest, "CHECKSUMTYPE": "SHA-256"}


def _refer(parent: ET.Element, path: str, content: bytes, kind: Mapping[str, str]) -> None:
    """A file beside the documents that says something of them."""
    sums = _sums(len(content), hashlib.sha256(content).hexdigest())
    _locate(_add(parent, "mdRef", **kind, **sums), path)


def _head(root: ET.Element, info: Mapping[str, str], now: str) -> None:
    """When the bag was made, and by whom."""
    head = _add(root, "metsHdr", CREATEDATE=now)
    makers = [
        (info.get("Source-Organization"), {"TYPE": "ORGANIZATION"}),
        (info["Internal-Sender-Identifier"], {"TYPE": "OTHER", "OTHERTYPE": "caller of the vault"}),
        (info["Bag-Software-Agent"], {"TYPE": "OTHER", "OTHERTYPE": "SOFTWARE"}),
    ]
    for name, kind in makers:
        if name:
            _add(_add(head, "agent", ROLE="CREATOR", **kind), "name").text = shown(name)


def _files(root: ET.Element, vault: str, rows: Rows) -> None:
    """The documents' files."""
    group = _add(_add(root, "fileSec"), "fileGrp", USE="original")
    for row in rows:
        named = {"ID": f"file-{row['version']}", "OWNERID": premis.identifier_of(vault, row["version"])}
        it = _add(group, "file", **named, ADMID=LIFE, **_sums(row["size"], row["sha256"]))
        _locate(_add(it, "FLocat"), f"{bags.PAYLOAD}/{row['file']}")


def _structure(root: ET.Element, bucket: str, rows: Rows) -> None:
    """The bucket, its keys, and the versions of each."""
    top = _add(_add(root, "structMap", TYPE="logical"), "div", TYPE="bucket", LABEL=bucket, DMDID=LIST)
    for key, versions in groupby(rows, lambda it: str(it["key"])):
        document = _add(top, "div", TYPE="document", LABEL=key)
        for it in versions:
            version = _add(document, "div", TYPE="version", ORDERLABEL=str(it["version"]))
            _add(version, "fptr", FILEID=f"file-{it['version']}")


def content(info: Mapping[str, str], now: str, place: tuple[str, str], rows: Rows, files: tuple[bytes, bytes]) -> bytes:
    """The text of `mets.xml` of a bag that says that of itself, made now, of a vault and its bucket, with these rows of
    its list; the files are the list and PREMIS."""
    (vault, bucket), (listed, life) = place, files
    named = {"OBJID": info["External-Identifier"], "LABEL": info["External-Description"]}
    root = ET.Element(f"{{{SPACE}}}mets", {name: shown(it) for name, it in named.items()})
    _head(root, info, now)
    _refer(_add(root, "dmdSec", ID=LIST), bags.LIST, listed, {"MDTYPE": "OTHER", "OTHERMDTYPE": "CSV"})
    history = _add(_add(root, "amdSec", ID="amd"), "digiprovMD", ID=LIFE)
    _refer(history, premis.FILE, life, {"MDTYPE": "PREMIS", "MDTYPEVERSION": premis.VERSION})
    _files(root, vault, rows)
    _structure(root, bucket, rows)
    return premis.written(root)
