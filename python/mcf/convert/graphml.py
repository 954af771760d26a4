"""GraphML: the Internet Topology Zoo's, that of other tools, and our own."""

from __future__ import annotations

import re
from collections import Counter
from dataclasses import dataclass, field
from fractions import Fraction
from xml.etree import ElementTree

from ..units import unit_of
from .model import Link, Network, Node, Notes, Refused, Source, Spot, refused
from .numbers import Form, Unit, plain, rate
from .words import told
from .xml import Entry, attribute, child, children, elements, local, root_of, where, words

SPACE = "http://graphml.graphdrawing.org/xmlns"
PLACES = (("Longitude", "Latitude"), ("longitude", "latitude"), ("lon", "lat"), ("x", "y"))
CAPACITIES = ("capacity", "Capacity", "bandwidth", "LinkSpeedRaw", "LinkSpeed")
COSTS = ("capacity_cost", "routing_cost", "setup_cost")
MODES = {"true": "directed", "false": "undirected"}
NO_XML = re.compile(r"[^\t\n\r\x20-\ud7ff\ue000-\ufffd\U00010000-\U0010ffff]")


def read(path: str, data: bytes, notes: Notes, form: Form) -> Source:
    """The first graph of a file: its nodes and edges; an edge without a capacity gets the missing one."""
    root = root_of(path, data)
    keys = _keys(path, children(root, "key"))
    graphs = children(root, "graph")
    if not graphs:
        raise refused(Spot(path, root.line), "GraphML without a graph")
    for other in graphs[1:]:
        notes.say("dropped", f"{path}: graph {told(other.get('id', ''))}, since a file's first one is read")
    return _Reader(path, keys, notes, form).source(graphs[0])


@dataclass(frozen=True)
class _Key:
    """An attribute that a file declares: for which elements, and what those have that do not say it."""

    id: str
    name: str
    domain: str
    default: str | None


def _keys(path: str, found: list[Entry]) -> dict[str, _Key]:
    """What a file declares, by its ids; no two of one id, or of one name for the same elements."""
    keys: dict[str, _Key] = {}
    names: set[tuple[str, str]] = set()
    for element in found:
        key = _key(path, element)
        if key.id in keys or (key.name, key.domain) in names:
            raise refused(where(path, element), f"a second key of {told(key.name)}")
        keys[key.id] = key
        names.add((key.name, key.domain))
    return keys


def _key(path: str, element: Entry) -> _Key:
    name, default = attribute(path, element, "id"), child(path, element, "default")
    return _Key(name, element.get("attr.name", name), element.get("for", "all"), None if default is None else words(default))


@dataclass
class _Reader:
    """Reads the nodes and edges of one graph."""

    path: str
    keys: dict[str, _Key]
    notes: Notes
    form: Form
    capacity: str = ""
    unit: Unit = Unit()
    taken: set[str] = field(default_factory=set)
    unread: Counter[str] = field(default_factory=Counter)

    def source(self, graph: Entry) -> Source:
        """What the graph has, and what of it is dropped."""
        edges = [(element, self._data(element)) for element in children(graph, "edge")]
        mode = self._mode(graph, [element for element, _ in edges])
        self._choose_capacity([data for _, data in edges])
        nodes = self._nodes(children(graph, "node"))
        names = {node.key for node in nodes}
        links = [self._edge(element, data, names) for element, data in edges]
        for name in sorted(self.unread):
            self.notes.say("dropped", f"{self.path}: attribute {name} of {self.unread[name]} entries")
        for other, count in sorted(Counter(local(e) for e in elements(graph)).items()):
            if other not in ("node", "edge"):
                many = f"{count} attributes" if other == "data" else other
                self.notes.say("dropped", f"{self.path}: {many} of the graph")
        return Source(self.path, "graphml", nodes, links, bits=self.unit.bits, links_mode=mode)

    def _mode(self, graph: Entry, edges: list[Entry]) -> str:
        """How all edges are meant: as each of them says, or else the graph."""
        every = graph.get("edgedefault")
        if every not in MODES.values() and not (every is None and edges and all(e.get("directed") for e in edges)):
            raise refused(where(self.path, graph), f"edgedefault is directed or undirected, and not {told(every or '')}")
        first: str | None = None
        for edge in edges:
            mode = MODES.get(edge.get("directed", ""), None if edge.get("directed") else every)
            if mode is None:
                raise refused(where(self.path, edge), f"directed is true or false, and not {told(edge.get('directed', ''))}")
            if first not in (None, mode):
                raise refused(where(self.path, edge), "edges of both kinds, directed and undirected, in one graph")
            first = mode
        return first or every or "undirected"

    def _choose_capacity(self, edges: list[dict[str, str]]) -> None:
        """The attribute that was asked for, or else the first known one that some edge has; the Zoo's raw speeds are in bit per second."""
        there = {name for data in edges for name in data}
        known = next((name for name in CAPACITIES if name in there), "")
        self.capacity = self.form.capacity or known
        if self.form.capacity and self.form.capacity not in there:
            which = f"{told(self.form.capacity)}; they have {', '.join(sorted(there)) or 'none'}"
            raise Refused(f"{self.path}: no edge has an attribute {which}").at(self.path)
        self.unit = Unit(Fraction(1), True, self.form.unit.bytes) if self.capacity == "LinkSpeedRaw" else self.form.unit
        self.taken = {self.capacity, *(("LinkSpeedUnits",) if self.capacity == "LinkSpeed" else ())}

    def _data(self, element: Entry) -> dict[str, str]:
        """What an element has by the names of attributes: what it says, or else the defaults."""
        kind = local(element)
        known = [key for key in self.keys.values() if key.default is not None and key.domain in ("all", kind)]
        data = {key.name: key.default or "" for key in known}
        said: dict[str, str] = {}
        for entry in children(element, "data"):
            key = attribute(self.path, entry, "key")
            name, word = self.keys[key].name if key in self.keys else key, words(entry)
            if said.setdefault(name, word) != word:
                raise refused(where(self.path, entry), f"a second {told(name)} of the same {kind}")
        return data | said

    def _count(self, element: Entry, data: dict[str, str], known: set[str]) -> None:
        """Counts what is not read of an element."""
        self.unread.update(data.keys() - known)
        other = next((e for e in elements(element) if local(e) == "graph"), None)
        if other is not None:
            raise refused(where(self.path, other), f"a graph within a {local(element)} is not read")
        self.unread.update(f"<{local(e)}>" for e in elements(element) if local(e) != "data")

    def _nodes(self, found: list[Entry]) -> list[Node]:
        """All nodes, each once."""
        nodes: dict[str, Node] = {}
        for element in found:
            node = self._node(element)
            if node.key in nodes:
                raise refused(where(self.path, element), f"node {told(node.key)} stands twice")
            nodes[node.key] = node
        return list(nodes.values())

    def _node(self, element: Entry) -> Node:
        key, data = attribute(self.path, element, "id"), self._data(element)
        pair = next((p for p in PLACES if data.get(p[0]) and data.get(p[1])), None)
        self._count(element, data, {"label", *(pair or ())})
        place = (data[pair[0]], data[pair[1]]) if pair else None
        return Node(key, data.get("label") or key, place)

    def _edge(self, element: Entry, data: dict[str, str], names: set[str]) -> Link:
        ends = attribute(self.path, element, "source"), attribute(self.path, element, "target")
        unknown = next((end for end in ends if end not in names), None)
        if unknown is not None:
            raise refused(where(self.path, element), f"{told(unknown)} is no node")
        self._count(element, data, {"id", "modules", *COSTS, *self.taken})
        costs = (data.get(COSTS[0]) or "0", data.get(COSTS[1]) or "0", data.get(COSTS[2]) or "0")
        return Link(data.get("id", ""), *ends, self._capacity(element, data), costs, self._modules(element, data))

    def _modules(self, element: Entry, data: dict[str, str]) -> tuple[tuple[Fraction, str], ...]:
        parts = data.get("modules", "").split()
        if len(parts) % 2:
            raise refused(where(self.path, element), "modules are pairs of a capacity and a cost")
        return tuple((rate(a, where(self.path, element), self.unit), b) for a, b in zip(parts[::2], parts[1::2]))

    def _capacity(self, element: Entry, data: dict[str, str]) -> Fraction | None:
        """The capacity of an edge; the missing one where it has none."""
        what = where(self.path, element).of(f"edge from {element.get('source')} to {element.get('target')}")
        word = self._speed(data, what)
        if word:
            return rate(word, what, self.unit)
        if data.get("modules"):
            return Fraction(0)
        if not self.form.missing:
            return None
        self.notes.say("added", f"{what}: no capacity, which becomes {self.form.missing}")
        return rate(self.form.missing, what, self.unit)

    def _speed(self, data: dict[str, str], what: str) -> str:
        """The word of the capacity; the Zoo's speeds have their unit beside them."""
        word = data.get(self.capacity, "")
        unit = data.get("LinkSpeedUnits", "") if self.capacity == "LinkSpeed" and word else ""
        if unit and unit_of(unit) is None:
            raise refused(what, f"LinkSpeedUnits is {told(unit)}, which is no unit that is known")
        return word + unit


def text(network: Network, notes: Notes) -> str:
    """A graph with the nodes' places and the links' capacities; demands have no place in it."""
    for matrix in network.matrices:
        notes.say("dropped", f"{len(matrix.demands)} demands, which GraphML has no place for (a .demands.csv has)")
    if network.links_mode == "bidirected":
        notes.say("dropped", "that links have their whole capacity each way: GraphML has no word for it, and undirected comes next")
    root = ElementTree.Element("graphml", {"xmlns": SPACE})
    places = "double" if all(map(_is_number, (w for node in network.nodes for w in node.place or ()))) else "string"
    for name, kind, target in _KEYS:
        declared = {"id": name, "for": target, "attr.name": name, "attr.type": kind or places}
        ElementTree.SubElement(root, "key", declared)
    graph = ElementTree.SubElement(root, "graph", {"edgedefault": "directed" if network.one_way else "undirected"})
    for node in network.nodes:
        _written(graph, "node", {"id": node.key}, _node_data(node, notes))
    for at, link in enumerate(network.links):
        _written(graph, "edge", {"id": f"e{at}", "source": link.source, "target": link.target}, _link_data(link))
    ElementTree.indent(root)
    return ElementTree.tostring(root, encoding="unicode") + "\n"


def _is_number(word: str) -> bool:
    """Whether a word is a number of a place."""
    return re.fullmatch(r"[+-]?(?:[0-9]+\.?[0-9]*|\.[0-9]+)(?:[eE][+-]?[0-9]+)?", word) is not None


_KEYS = (
    ("label", "string", "node"), ("Longitude", "", "node"), ("Latitude", "", "node"),
    ("id", "string", "edge"), ("capacity", "double", "edge"), ("capacity_cost", "string", "edge"),
    ("routing_cost", "string", "edge"), ("setup_cost", "string", "edge"), ("modules", "string", "edge"),
)  # fmt: skip


def _written(graph: ElementTree.Element, name: str, attributes: dict[str, str], data: dict[str, str]) -> None:
    """An entry with its data."""
    entry = ElementTree.SubElement(graph, name, attributes)
    for key, value in data.items():
        ElementTree.SubElement(entry, "data", {"key": key}).text = value
    wrong = next((word for word in (*attributes.values(), *data.values()) if NO_XML.search(word)), None)
    if wrong is not None:
        raise Refused(f"the name {told(wrong)} has bytes that XML cannot have")


def _node_data(node: Node, notes: Notes) -> dict[str, str]:
    data = {"label": node.name}
    if node.place and len(node.place) == 2:
        data |= {"Longitude": node.place[0], "Latitude": node.place[1]}
    elif node.place:
        notes.say("dropped", f"the place of node {node.name}, which has {len(node.place)} words")
    return data


def _link_data(link: Link) -> dict[str, str]:
    data = {"id": link.name, "capacity": plain(link.capacity or Fraction(0))}
    data |= dict(zip(COSTS, link.costs))
    if link.modules:
        data["modules"] = " ".join(f"{plain(capacity)} {cost}" for capacity, cost in link.modules)
    return data
