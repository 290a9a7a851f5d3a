"""What happened to exported documents, in PREMIS 3.0: objects, their events, and the agents of these."""

from __future__ import annotations

import xml.etree.ElementTree as ET
from collections.abc import Collection, Iterable, Iterator, Sequence
from dataclasses import dataclass

from vaultdesk.events import Event
from vaultdesk.history import words_of
from vaultdesk.output import shown
from vaultdesk.people import People, with_name

FILE = "premis.xml"
VERSION = "3.0"
SPACE = "http://www.loc.gov/premis/v3"
INSTANCE = "http://www.w3.org/2001/XMLSchema-instance"
TYPES = {"admitted": "ingestion", "locked": "policy assignment", "moved": "transfer", "removed": "deletion"}
UNKNOWN = "unknown"  # the name of a format that nobody has identified

for _prefix, _space in {"premis": SPACE, "xsi": INSTANCE}.items():
    ET.register_namespace(_prefix, _space)


@dataclass(frozen=True)
class Document:
    """A version, and all that happened to it; with its file in the bag, or without one where it was removed."""

    life: Sequence[Event]
    file: str = ""

    @property
    def number(self) -> int:
        """The version's number, which the vault gives once."""
        return self.life[0].version


Agent = tuple[str, str]  # the kind of an identifier, and its value below the vault's name


def written(root: ET.Element) -> bytes:
    """An element as the text of a file."""
    ET.indent(root)
    text: bytes = ET.tostring(root, encoding="UTF-8", xml_declaration=True)
    return text + b"\n"


def identifier_of(vault: str, number: int) -> str:
    """How a version is named in all exports of a vault of that name."""
    return f"{vault}/{number}"


def _add(parent: ET.Element, name: str, text: str = "") -> ET.Element:
    """A new element of PREMIS at the end of another one."""
    it = ET.SubElement(parent, f"{{{SPACE}}}{name}")
    it.text = shown(text) or None
    return it


def _identify(parent: ET.Element, name: str, kind: str, value: str) -> None:
    """An identifier, whose two parts are named after it."""
    it = _add(parent, name)
    _add(it, f"{name}Type", f"vault {kind}")
    _add(it, f"{name}Value", value)


def _numbered(life: Sequence[Event]) -> Iterator[tuple[str, Event]]:
    """The events of a version, each with its name among them, which later ones don't change."""
    locks = 0
    for it in life:
        locks += it.event == "locked"
        number = {"locked": f"/{locks}", "moved": f"/{it.move}"}.get(it.event, "")
        yield f"{it.event}{number}", it


def _agent(it: Event) -> Agent | None:
    """Who did it; nobody of a move, of which the vault doesn't say."""
    if it.event == "removed" and it.cause == "rule":
        return "rule", f"{it.bucket}/{it.by}"
    return ("caller", it.by) if it.by else None


class _Record:
    """A record of the documents of one vault."""

    def __init__(self, vault: str, people: People) -> None:
        self.vault, self.people = vault, people
        self.root = ET.Element(f"{{{SPACE}}}premis", version=VERSION)

    def object(self, document: Document) -> None:
        """The version as a file, with the names of its events."""
        first = document.life[0]
        it = _add(self.root, "object")
        it.set(f"{{{INSTANCE}}}type", "premis:file")
        _identify(it, "objectIdentifier", "version", identifier_of(self.vault, document.number))
        what = _add(it, "objectCharacteristics")
        _add(what, "compositionLevel", "0")
        fixity = _add(what, "fixity")
        _add(fixity, "messageDigestAlgorithm", "SHA-256")
        _add(fixity, "messageDigest", first.sha256)
        _add(what, "size", str(first.size))
        _add(_add(_add(what, "format"), "formatDesignation"), "formatName", UNKNOWN)
        _add(it, "originalName", first.key)
        if document.file:
            place = _add(_add(it, "storage"), "contentLocation")
            _add(place, "contentLocationType", "path in the bag")
            _add(place, "contentLocationValue", document.file)
        for name, _ in _numbered(document.life):
            _identify(it, "linkingEventIdentifier", "event", self._event_name(document, name))

    def events(self, document: Document) -> None:
        """All that happened to the version."""
        said = words_of(document.life)
        for (name, event), what in zip(_numbered(document.life), said, strict=True):
            it = _add(self.root, "event")
            _identify(it, "eventIdentifier", "event", self._event_name(document, name))
            _add(it, "eventType", TYPES[event.event])
            _add(it, "eventDateTime", event.moment)
            agent = _agent(event)
            named = event.who if agent and agent[0] == "rule" else with_name(self.people, event.by, event.moment)
            by = f"; by {named}" if agent else ""
            _add(_add(it, "eventDetailInformation"), "eventDetail", f"{what}{by}")
            if agent:
                _identify(it, "linkingAgentIdentifier", agent[0], f"{self.vault}/{agent[1]}")
            _identify(it, "linkingObjectIdentifier", "version", identifier_of(self.vault, document.number))

    def _event_name(self, document: Document, name: str) -> str:
        return f"{identifier_of(self.vault, document.number)}/{name}"

    def agent(self, agent: Agent) -> None:
        """A caller, with the persons who were it; or a rule."""
        kind, name = agent
        it = _add(self.root, "agent")
        _identify(it, "agentIdentifier", kind, f"{self.vault}/{name}")
        persons = [person for person in self.people if kind == "caller" and person.caller == name]
        for called in dict.fromkeys(person.name for person in persons) or [name.rpartition("/")[2]]:
            _add(it, "agentName", called)
        if persons or kind == "rule":
            _add(it, "agentType", "person" if persons else "software")
        for person in persons:
            _add(it, "agentNote", f"{person.name} {person.span}")


def content(vault: str, documents: Iterable[Document], people: People) -> bytes:
    """The text of `premis.xml`: objects, then events, then agents, as the standard orders them."""
    found = sorted(documents, key=lambda it: it.number)
    record = _Record(vault, people)
    for it in found:
        record.object(it)
    for it in found:
        record.events(it)
    for agent in sorted({agent for it in found for event in it.life if (agent := _agent(event))}):
        record.agent(agent)
    return written(record.root)


def removed(lives: Iterable[Sequence[Event]], bucket: str, keys: Collection[str]) -> Iterator[Document]:
    """The versions of these keys of a bucket that were removed."""
    for it in lives:
        if it[-1].event == "removed" and it[0].kind == "version" and it[0].bucket == bucket and it[0].key in keys:
            yield Document(it)
