"""SNDlib's XML: networks, and the files of its dynamic demand matrices."""

from __future__ import annotations

from fractions import Fraction

from ..units import unit_of
from .files import stem
from .model import Demand, Link, Matrix, Node, Notes, Source, refused
from .native import require_longest
from .numbers import number
from .words import told
from .xml import Entry, attribute, child, children, elements, local, root_of, where, words

KNOWN_LINK = {"source", "target", "preInstalledModule", "routingCost", "setupCost", "additionalModules"}
KNOWN_DEMAND = {"source", "target", "routingUnit", "demandValue", "maxPathLength"}


def read(path: str, data: bytes, notes: Notes) -> Source:
    """A network with its demands, or the demands of one time alone."""
    root = root_of(path, data)
    structure, demands = child(path, root, "networkStructure"), child(path, root, "demands")
    source = Source(path, "xml")
    source.meta = {local(entry): words(entry) for meta in children(root, "meta") for entry in elements(meta) if words(entry)}
    unit = unit_of(source.meta.get("unit", ""))
    source.bits = Fraction(unit.bits) if unit and not unit.is_of_bytes else None
    source.nodes = [_node(path, e) for e in _entries(path, structure, "nodes", "node")]
    names = {node.key for node in source.nodes}
    source.links = [_link(path, e, names, notes) for e in _entries(path, structure, "links", "link")]
    if demands is not None:
        found = [_demand(path, e, names, notes) for e in _entries(path, root, "demands", "demand")]
        source.matrices = [Matrix(stem(path), found)]
    _others(path, root, {"meta", "networkStructure", "demands"}, notes)
    if structure is not None:
        _others(path, structure, {"nodes", "links"}, notes)
    return source


def _entries(path: str, parent: Entry | None, section: str, name: str) -> list[Entry]:
    """The entries of a section, no two of the same id."""
    found = children(child(path, parent, section), name)
    ids: set[str] = set()
    for entry in found:
        if entry.get("id") in ids:
            raise refused(where(path, entry), f"{name} {told(entry.get('id', ''))} stands twice")
        ids |= {entry.get("id", "")} - {""}
    return found


def _node(path: str, element: Entry) -> Node:
    name = attribute(path, element, "id")
    place = child(path, element, "coordinates")
    if place is None:
        return Node(name, name)
    x, y = (words(child(path, place, axis)) for axis in "xy")
    if not x or not y:
        raise refused(where(path, place), "coordinates without x or y")
    return Node(name, name, (x, y))


def _ends(path: str, element: Entry, nodes: set[str]) -> tuple[str, str]:
    """Both ends of an entry, which are nodes where the file has some."""
    ends = words(child(path, element, "source")), words(child(path, element, "target"))
    if not all(ends):
        raise refused(where(path, element), f"<{local(element)}> has no source or no target")
    unknown = next((end for end in ends if end not in nodes), None)
    if nodes and unknown is not None:
        raise refused(where(path, element), f"{told(unknown)} is no node")
    return ends


def _others(path: str, element: Entry, known: set[str], notes: Notes) -> None:
    """Says which parts of an entry are not read."""
    for other in sorted({local(e) for e in elements(element)} - known):
        notes.say("dropped", f"{path}: {other} of {local(element)}" + (f" {told(element.get('id', ''))}" if element.get("id") else ""))


def _link(path: str, element: Entry, nodes: set[str], notes: Notes) -> Link:
    name = attribute(path, element, "id")
    _others(path, element, KNOWN_LINK, notes)
    installed = child(path, element, "preInstalledModule")
    capacity, cost = _module(path, installed) if installed is not None else (Fraction(0), "0")
    costs = (cost, words(child(path, element, "routingCost")) or "0", words(child(path, element, "setupCost")) or "0")
    modules = tuple(_module(path, e) for e in children(child(path, element, "additionalModules"), "addModule"))
    return Link(name, *_ends(path, element, nodes), capacity, costs, modules)


def _module(path: str, element: Entry) -> tuple[Fraction, str]:
    """The capacity and the cost of a module."""
    capacity = child(path, element, "capacity")
    if capacity is None:
        raise refused(where(path, element), "a module without a capacity")
    return _number(path, capacity), words(child(path, element, "cost")) or "0"


def _number(path: str, element: Entry) -> Fraction:
    return number(words(element), where(path, element).of(local(element)))


def _demand(path: str, element: Entry, nodes: set[str], notes: Notes) -> Demand:
    ends = _ends(path, element, nodes)
    name = element.get("id") or "_".join(ends)
    _others(path, element, KNOWN_DEMAND, notes)
    value, unit = child(path, element, "demandValue"), child(path, element, "routingUnit")
    if value is None:
        raise refused(where(path, element), f"demand {told(name)} has no demandValue")
    longest = words(child(path, element, "maxPathLength")) or "UNLIMITED"
    require_longest(longest, where(path, element).of("maxPathLength"))
    size = _number(path, unit) if unit is not None else Fraction(1)
    return Demand(name, *ends, _number(path, value), size, longest, element.line)
