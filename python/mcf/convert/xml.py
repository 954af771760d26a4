"""XML as it is read here: no entities of its own, nothing from elsewhere, names without namespaces, and the line of each element."""

from __future__ import annotations

from collections.abc import Mapping
from xml.etree import ElementTree

from defusedxml.common import DefusedXmlException
from defusedxml.ElementTree import DefusedXMLParser

from .model import Spot, refused

BLANKS = " \t\r\n"


class Entry(ElementTree.Element):
    """An element that knows the line of its start tag."""

    line: int


def root_of(path: str, data: bytes) -> Entry:
    """The root of an XML text; a text that declares or names entities of its own, or of other files, is refused."""

    def entry(tag: str, attributes: Mapping[str, str]) -> Entry:
        found = Entry(tag, dict(attributes))
        found.line = parser.parser.CurrentLineNumber
        return found

    parser = DefusedXMLParser(target=ElementTree.TreeBuilder(element_factory=entry))
    try:
        parser.feed(data)
        root: Entry = parser.close()
        return root
    except ElementTree.ParseError as fault:
        raise refused(Spot(path, fault.position[0]), f"no XML: {str(fault).rpartition(': ')[0] or fault}") from None
    except DefusedXmlException:
        raise refused(Spot(path, parser.parser.CurrentLineNumber), "entities of its own are not read") from None
    except (ValueError, LookupError) as fault:
        raise refused(Spot(path, parser.parser.CurrentLineNumber), f"no XML that is read here: {fault}") from None


def local(element: Entry) -> str:
    """The name of an element without its namespace."""
    return element.tag.rpartition("}")[2]


def children(element: Entry | None, name: str) -> list[Entry]:
    """The children of that name, in any namespace."""
    return [] if element is None else [child for child in elements(element) if local(child) == name]


def elements(element: Entry) -> list[Entry]:
    """All children."""
    return [child for child in element if isinstance(child, Entry)]


def child(path: str, element: Entry | None, name: str) -> Entry | None:
    """The child of that name, or none; a second one is refused."""
    found = children(element, name)
    if len(found) > 1:
        raise refused(where(path, found[1]), f"a second <{name}>")
    return found[0] if found else None


def words(element: Entry | None) -> str:
    """The text of an element, without blanks round it; nothing where there is no element."""
    return "" if element is None else "".join(element.itertext()).strip(BLANKS)


def where(path: str, element: Entry) -> Spot:
    """The place of an element, for people."""
    return Spot(path, element.line)


def attribute(path: str, element: Entry, name: str) -> str:
    """An attribute that has to be there."""
    value = element.get(name)
    if value is None:
        raise refused(where(path, element), f"<{local(element)}> has no {name}")
    return value
