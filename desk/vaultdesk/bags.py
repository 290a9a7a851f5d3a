"""Bags of BagIt 1.0 (RFC 8493): folders of documents with the digests of all of them, as archives exchange these."""

from __future__ import annotations

import hashlib
import re
from collections.abc import Callable, Collection, Mapping
from dataclasses import dataclass
from pathlib import Path
from typing import BinaryIO

from vaultdesk import folder
from vaultdesk.errors import DeskError, of_file
from vaultdesk.output import counted_off, say, shown

DECLARED = "BagIt-Version: 1.0\nTag-File-Character-Encoding: UTF-8\n"
DECLARATION = re.compile(r"BagIt-Version: (\d+)\.(\d+)\s+Tag-File-Character-Encoding: (\S+)\s*")
INFO, PAYLOAD = "bag-info.txt", "data"
LIST = "metadata/documents.csv"  # what the keys of the files are, in a bag that the desk made
MANIFEST = re.compile(r"(tag)?manifest-(md5|sha1|sha224|sha256|sha384|sha512)\.txt")
OTHER_MANIFEST = re.compile(r"manifest-[^/]*\.txt")
LINE = re.compile(r"([0-9A-Fa-f]+)[ \t]+\*?(.+)")
WEAK = ("md5", "sha1")
UNPLAIN = re.compile(r"[%\r\n]")
CODE = re.compile("%(25|0[AD])", re.IGNORECASE)
LINE_END = re.compile(r"\r\n|\r|\n")
PIECE = 1_048_576  # bytes that are read at once
MOST_NAMED = 10  # faults that are named


# ---- a bag that is written


class Writer:
    """A bag that is written; `opened` makes a file below its folder.

    Its declaration comes last: where the writing breaks off, the folder is no bag."""

    def __init__(self, opened: Callable[[str], BinaryIO]) -> None:
        self._opened = opened
        self._payload, self._tags = dict[str, str](), dict[str, str]()
        self._octets = 0

    def payload(self, name: str, content: bytes) -> None:
        """Writes a document to the file of that name below the payload's folder."""
        self._write(self._payload, f"{PAYLOAD}/{name}", content)
        self._octets += len(content)

    def tag(self, name: str, content: bytes) -> None:
        """Writes a file that says something of the documents."""
        self._write(self._tags, name, content)

    def _write(self, manifest: dict[str, str], name: str, content: bytes) -> None:
        with self._opened(name) as file:
            file.write(content)
        manifest[name] = hashlib.sha256(content).hexdigest()

    def end(self, info: Mapping[str, str]) -> str:
        """Writes what makes the folder a bag, with that in its `bag-info.txt`, and returns the manifest's digest."""
        members = {**info, "Payload-Oxum": f"{self._octets}.{len(self._payload)}"}
        self.tag(INFO, "".join(f"{name}: {' '.join(it.split())}\n" for name, it in members.items()).encode())
        self.tag("manifest-sha256.txt", _manifest(self._payload))
        tags = {**self._tags, "bagit.txt": hashlib.sha256(DECLARED.encode()).hexdigest()}
        for name, content in (("tagmanifest-sha256.txt", _manifest(tags)), ("bagit.txt", DECLARED.encode())):
            with self._opened(name) as file:
                file.write(content)
        return self._tags["manifest-sha256.txt"]


def is_encoded(name: str) -> bool:
    """Whether a manifest has another text for that name of a file, which some programs don't read."""
    return UNPLAIN.search(name) is not None


def _manifest(digests: Mapping[str, str]) -> bytes:
    """A manifest of these files, each with its digest."""
    return "".join(f"{digests[it]}  {_encoded(it)}\n" for it in sorted(digests)).encode()


def _encoded(name: str) -> str:
    return UNPLAIN.sub(lambda it: f"%{ord(it[0]):02X}", name)


def _decoded(name: str) -> str:
    return CODE.sub(lambda it: chr(int(it[1], 16)), name)


# ---- a bag that is looked at


@dataclass(frozen=True)
class Bag:
    """A bag that is whole: the paths of its documents below `payload`, each with its SHA-256, and what it says of
    itself."""

    path: Path
    digests: Mapping[str, str]
    info: Mapping[str, str]

    @property
    def payload(self) -> Path:
        """The folder of its documents."""
        return self.path / PAYLOAD

    @property
    def name(self) -> str:
        """What its maker calls it, or else its folder's name."""
        return self.info.get("external-identifier") or self.path.name

    @property
    def list(self) -> Path | None:
        """What the keys of its documents are, where the bag says that."""
        there = self.path / LIST
        return there if there.is_file() else None


class _Look:
    """A look at the files of a bag, and what is wrong with them."""

    def __init__(self, path: Path) -> None:
        self.path = path
        self.version, self.encoding = _declared(path)
        self.given = folder.read(path)
        self.there = frozenset(self.given.files)
        self.wrong = list[str]()

    def manifests(self, tags: bool) -> dict[str, dict[str, str]]:
        """The manifests of the documents, or of what is said of them, by their kinds of digest."""
        found = {}
        for name in self.given.files:
            kind = MANIFEST.fullmatch(name)
            if kind and bool(kind[1]) == tags:
                found[kind[2]] = self._manifest(name)
            elif not tags and not kind and OTHER_MANIFEST.fullmatch(name):
                say(f"{self.path / name} isn't looked at: its kind of digest isn't known here")
        return found

    def _manifest(self, name: str) -> dict[str, str]:
        """The digests of a manifest, by the paths of files as they are in the folder."""
        found = dict[str, str]()
        for number, line in enumerate(LINE_END.split(_text(self.path / name, self.encoding)), start=1):
            parts = LINE.fullmatch(line)
            if parts is None:
                self.wrong += [f"{name}, line {number}: it is no digest and path"] if line.strip() else []
                continue
            path = self._named(parts[2].removeprefix("./"))
            self.wrong += [f"{name}, line {number}: {shown(path)} comes twice"] if path in found else []
            found[path] = parts[1].lower()
        return found

    def _named(self, written: str) -> str:
        """The path of the file that a manifest names; some programs write a percent sign as it is."""
        name = _decoded(written)
        return self.given.name_of(name) or self.given.name_of(written) or name

    def compare(self, manifests: Mapping[str, Mapping[str, str]]) -> dict[str, str]:
        """Compares the files of these manifests with their digests, and returns the SHA-256 of each that is there."""
        found = {}
        names = sorted({it for manifest in manifests.values() for it in manifest})
        for name in counted_off(names, "files of the bag were looked at"):
            path = self.path / name
            if name not in self.there or path.is_symlink() or not path.is_file():
                self.wrong.append(f"{shown(name)}: it is {'no file' if name in self.there else 'missing'}")
                continue
            digests = _digests(path, {"sha256", *manifests})
            others = [kind for kind, it in manifests.items() if it.get(name, digests[kind]) != digests[kind]]
            self.wrong += [f"{shown(name)}: its content has another digest ({', '.join(others)})"] if others else []
            found[name] = digests["sha256"]
        return found

    def payload(self) -> dict[str, str]:
        """Compares the documents, and returns the SHA-256 of each, by its path below the payload's folder."""
        manifests = self.manifests(tags=False)
        if not manifests:
            self.wrong.append("it has no manifest whose digests are known, as manifest-sha256.txt")
        elif set(manifests) <= set(WEAK):
            say(f"{self.path}: it has digests by {' and '.join(manifests)} alone, which somebody can make fit")
        found = self.compare(manifests)
        below = dict.fromkeys(it for it in self.given.files if it.startswith(f"{PAYLOAD}/"))
        for it in below:
            lacking = [kind for kind, names in manifests.items() if it not in names]
            if lacking and (self.version >= (1, 0) or len(lacking) == len(manifests)):
                self.wrong.append(f"{shown(it)}: it isn't in the manifest of {' and '.join(lacking)}")
        self.wrong += [f"{shown(it)}: it isn't below {PAYLOAD}/" for it in found if it not in below]
        return {it.removeprefix(f"{PAYLOAD}/"): found[it] for it in below if it in found}

    def info(self, files: Mapping[str, str]) -> dict[str, str]:
        """What the bag says of itself, where its sums are those of these files."""
        found = info_of(_text(self.path / INFO, self.encoding)) if INFO in self.there else {}
        octets = sum((self.path / PAYLOAD / it).stat().st_size for it in files)
        wanted, there = found.get("payload-oxum"), f"{octets}.{len(files)}"
        if wanted not in (None, there):
            self.wrong.append(f"{INFO} has Payload-Oxum {wanted}, and there are {there}: bytes, and files")
        return found


def _text(path: Path, encoding: str) -> str:
    """The text of a tag file. `DeskError` where it can't be read."""
    try:
        return path.read_text(encoding=encoding).removeprefix("\ufeff")
    except OSError as error:
        raise of_file(path, error) from error
    except (UnicodeError, LookupError) as error:
        raise DeskError(f"{path}: it isn't a text in {encoding}: have the bag made anew") from error


def _digests(path: Path, kinds: Collection[str]) -> dict[str, str]:
    """The digests of a file. `DeskError` where it can't be read."""
    found = {it: hashlib.new(it) for it in kinds}
    try:
        with path.open("rb") as file:
            while piece := file.read(PIECE):
                for it in found.values():
                    it.update(piece)
    except OSError as error:
        raise of_file(path, error) from error
    return {kind: it.hexdigest() for kind, it in found.items()}


def _declared(path: Path) -> tuple[tuple[int, int], str]:
    """The version of BagIt, and the encoding of the bag's tag files. `DeskError` where the folder is no bag, or one of
    a later version."""
    file = path / "bagit.txt"
    if not file.is_file():
        raise DeskError(f"{path} is no bag: it has no bagit.txt: give the folder that has one")
    found = DECLARATION.fullmatch(_text(file, "utf-8"))
    version = (int(found[1]), int(found[2])) if found else (0, 0)
    if found is None or version > (1, 0):
        raise DeskError(f"{file}: it declares no bag of BagIt 1.0 or earlier: have the bag made anew")
    return version, found[3]


def info_of(text: str) -> dict[str, str]:
    """The members of a `bag-info.txt`, by their names in small letters; of one that comes twice the first."""
    found = dict[str, str]()
    for line in LINE_END.split(re.sub(r"(\r\n|\r|\n)[ \t]+", " ", text)):
        name, colon, value = line.partition(":")
        if colon:
            found.setdefault(name.strip().lower(), value.strip())
    return found


def look(path: Path) -> Bag:
    """A bag whose files are those of its manifests, byte for byte.

    `DeskError` where the folder is no bag, and where a file of it is missing, in no manifest, or another one."""
    at = _Look(path)
    digests = at.payload()
    info = at.info(digests)
    at.compare(at.manifests(tags=True))
    if at.wrong:
        more = len(at.wrong) - MOST_NAMED
        named = "; ".join(at.wrong[:MOST_NAMED]) + (f"; and {more:,} more" if more > 0 else "")
        raise DeskError(f"{path} isn't the bag that was packed: {named}: nothing was changed: have it sent anew")
    return Bag(path, digests, info)


def digests_of(path: Path) -> dict[str, str]:
    """The SHA-256 of each document by the bag's manifest; the documents themselves aren't read.

    `DeskError` where the folder is no bag, or has no such manifest."""
    found = _Look(path).manifests(tags=False).get("sha256")
    if found is None:
        raise DeskError(f"{path} has no manifest-sha256.txt: give a bag of vaultdesk export --bagit")
    return found
