"""The XML that clients send and get."""

from __future__ import annotations

import re
import xml.parsers.expat
from collections.abc import Iterable, Iterator
from dataclasses import dataclass, field
from xml.sax.saxutils import escape

from vaultdesk.s3.faults import Fault

NAMESPACE = "http://s3.amazonaws.com/doc/2006-03-01/"
DEEPEST = 16  # elements within one another
MOST = 3_200  # elements and attributes of a document
TAG = re.compile(rb"<[^>]{4096}")  # one that no call needs
# What no XML 1.0 can carry, of that which a key may have.
UNWRITABLE = re.compile("[\ufffe\uffff]")


@dataclass
class Element:
    """An element that was read: its name without a namespace, its text, and what is in it."""

    name: str
    texts: list[str] = field(default_factory=list)
    children: list[Element] = field(default_factory=list)

    @property
    def text(self) -> str:
        """Its text, of which a parser finds one part after another."""
        return "".join(self.texts)

    def find(self, name: str) -> Element | None:
        """The element of that name in it, if there is one. `Fault` where there are several."""
        found = self.all(name)
        if len(found) > 1:
            raise malformed(f"{name} stands more than once")
        return found[0] if found else None

    def all(self, name: str) -> list[Element]:
        """The elements of that name in it."""
        return [it for it in self.children if it.name == name]

    def value(self, name: str) -> str | None:
        """The text of the element of that name in it, if there is one. `Fault` where it has elements in it."""
        found = self.find(name)
        if found is not None and found.children:
            raise malformed(f"{name} has a text, and no elements")
        return None if found is None else found.text

    def only(self, *names: str) -> None:
        """`Fault` where it has an element of another name: nothing that is asked for is left out in silence."""
        others = [it.name for it in self.children if it.name not in names]
        if others:
            raise Fault("NotImplemented", f"{self.name} has {others[0]}: the vault has no such thing")


def malformed(why: str) -> Fault:
    """A document that isn't what the call takes."""
    return Fault("MalformedXML", why)


class _Reading:
    """Builds elements as a parser finds them, and no more than there may be."""

    def __init__(self, most: int) -> None:
        self.open: list[Element] = [Element("")]
        self.most = self.left = most

    def begin(self, name: str, attributes: dict[str, str]) -> None:
        """An element begins."""
        self.left -= 1 + len(attributes)
        if self.left < 0:
            raise malformed(f"the document has more than {self.most:,} elements and attributes")
        if len(self.open) > DEEPEST:
            raise malformed("the document is nested too deeply")
        found = Element(name.rpartition(" ")[2])
        self.open[-1].children.append(found)
        self.open.append(found)

    def end(self, _: str) -> None:
        """The innermost element ends."""
        self.open.pop()

    def text(self, data: str) -> None:
        """Text of the innermost element."""
        self.open[-1].texts.append(data)

    def doctype(self, *_: object) -> None:
        """A document type, which could define entities."""
        raise malformed("a document type isn't taken")


def read(document: bytes, name: str, most: int = MOST) -> Element:
    """The document's one element, which is in UTF-8.

    `Fault` where it is no XML, has a document type, is of another name, or has more than `most` elements."""
    if b"\0" in document:
        raise malformed("the body is no XML in UTF-8")
    if TAG.search(document):
        raise malformed("the document has a tag that is too long")
    reading = _Reading(most)
    parser = xml.parsers.expat.ParserCreate("UTF-8", " ", intern=None)
    parser.buffer_text = True
    parser.StartElementHandler, parser.EndElementHandler = reading.begin, reading.end
    parser.CharacterDataHandler, parser.StartDoctypeDeclHandler = reading.text, reading.doctype
    try:
        parser.Parse(document, True)
    except (xml.parsers.expat.ExpatError, ValueError) as error:
        raise malformed(f"the body is no XML: {error}") from error
    found = reading.open[0].children[0]
    if found.name != name:
        raise malformed(f"the body is no {name}")
    return found


# ---- writing

Content = str | int | bool | Iterable["Node"]
Node = tuple[str, Content]


def _written(nodes: Iterable[Node]) -> Iterator[str]:
    for name, content in nodes:
        yield f"<{name}>"
        if isinstance(content, bool):
            yield "true" if content else "false"
        elif isinstance(content, int):
            yield str(content)
        elif isinstance(content, str):
            if UNWRITABLE.search(content):
                raise Fault("InvalidArgument", "a key can't be written in XML: ask with encoding-type=url")
            yield escape(content)
        else:
            yield from _written(content)
        yield f"</{name}>"


def write(name: str, content: Content) -> bytes:
    """A document of one element in the namespace of S3. `Fault` where XML can't carry a text."""
    body = "".join(_written([(name, content)])).removeprefix(f"<{name}>")
    return f'<?xml version="1.0" encoding="UTF-8"?>\n<{name} xmlns="{NAMESPACE}">{body}'.encode()
