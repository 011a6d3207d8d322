"""The XML of SLX parts as a bounded tree. Entities and document types are refused."""

from dataclasses import dataclass, field
from typing import Any

from .findings import Refusal

MOST_ELEMENTS = 1_000_000
MOST_DEPTH = 200
NEEDED = "to read SLX the Python package defusedxml is needed (Debian: apt install python3-defusedxml)"


class MissingLibrary(Exception):
    """The library that reads XML isn't there."""


@dataclass
class Element:
    """An element with its attributes, the text directly behind its start, and the elements in it."""

    tag: str
    attributes: dict[str, str] = field(default_factory=dict)
    text: str = ""
    inside: "list[Element]" = field(default_factory=list)

    def all(self, tag: str) -> "list[Element]":
        """The elements directly in it that have this tag."""
        return [it for it in self.inside if it.tag == tag]

    def first(self, tag: str) -> "Element | None":
        """The first element directly in it that has this tag."""
        return next(iter(self.all(tag)), None)

    def properties(self) -> dict[str, str]:
        """The texts of the `P` elements in it by their names; the first of a name counts."""
        found: dict[str, str] = {}
        for it in self.all("P"):
            found.setdefault(it.attributes.get("Name", ""), it.text)
        return found


class Builder:
    """What a parser of XML tells, as a tree. Texts are held byte by byte, as everywhere in this package."""

    def __init__(self, part: str) -> None:
        self.part, self.count = part, 0
        self.open: list[Element] = [Element("")]

    def start(self, tag: str, attributes: dict[str, str]) -> None:
        """An element begins."""
        self.count += 1
        if self.count > MOST_ELEMENTS or len(self.open) > MOST_DEPTH:
            raise Refusal(self.part, f"more than {MOST_ELEMENTS} elements, or more than {MOST_DEPTH} in one another")
        element = Element(tag, {bytewise(key): bytewise(value) for key, value in attributes.items()})
        self.open[-1].inside.append(element)
        self.open.append(element)

    def data(self, text: str) -> None:
        """Text, in pieces."""
        if not self.open[-1].inside:
            self.open[-1].text += bytewise(text)

    def end(self, _tag: str) -> None:
        """An element ends."""
        self.open.pop()

    def close(self) -> Element:
        """The element that holds the outermost one."""
        return self.open[0]


def bytewise(text: str) -> str:
    """A text as one character for each of its bytes."""
    return text.encode("utf-8", "surrogatepass").decode("latin-1")


def read_xml(part: str, data: bytes) -> Element:
    """The outermost element of a part; raises a Refusal where it isn't lawful XML, and MissingLibrary."""
    try:
        import defusedxml.ElementTree as safe  # type: ignore[import]
        from defusedxml.common import DefusedXmlException  # type: ignore[import]
    except ImportError:
        raise MissingLibrary(NEEDED) from None
    parser: Any = safe.XMLParser(target=Builder(part), forbid_dtd=True)
    try:
        parser.feed(data)
        tree: Element = parser.close()
    except DefusedXmlException:
        raise Refusal(part, "the XML has a document type or entities of its own, which no SLX file has") from None
    except (safe.ParseError, ValueError, LookupError) as fault:
        raise Refusal(part, f"this is no lawful XML ({str(fault)[:80]})") from None
    if not tree.inside:
        raise Refusal(part, "this is no lawful XML (empty)")
    return tree.inside[0]
