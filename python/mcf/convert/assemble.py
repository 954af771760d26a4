"""From what the files have to one network under its words."""

from __future__ import annotations

from collections import Counter
from collections.abc import Iterable, Sequence
from dataclasses import dataclass, field, replace

from .files import stem
from .model import Demand, Link, Matrix, Network, Node, Notes, Refused, Source, Spot, refused
from .words import Words, told, word_of


@dataclass
class Ends:
    """Finds the node that a demand names: by its key, its name, or its word, where these agree on one node."""

    by_number: list[str]
    known: dict[str, set[str]]
    notes: Notes
    guessed: set[str] = field(default_factory=set)

    def word(self, name: str, number: bool, what: str) -> str:
        """The node's word, or why there is none."""
        if number:
            if int(name) >= len(self.by_number):
                raise refused(what, f"{told(name)} is no number of a node, of which there are {len(self.by_number)}")
            return self.by_number[int(name)]
        found = self.known.get(name) or self._by_word(name)
        if len(found) != 1:
            several = f", but the name of several: {', '.join(sorted(found)[:3])}" if found else ""
            raise refused(what, f"{told(name)} is no node{several}")
        return next(iter(found))

    def _by_word(self, name: str) -> set[str]:
        """The node whose word the name becomes, which is said."""
        word = word_of(name)
        found = self.known.get(word, set())
        if len(found) == 1 and name not in self.guessed:
            self.guessed.add(name)
            self.notes.say("read", f"{told(name)} as node {word}")
        return found


def _ends_of(nodes: list[Node], words: dict[str, str], notes: Notes) -> Ends:
    """All nodes by what may stand for them."""
    known: dict[str, set[str]] = {}
    for node in nodes:
        for name in (node.key, node.name, words[node.key]):
            known.setdefault(name, set()).add(words[node.key])
    return Ends([words[node.key] for node in nodes], known, notes)


def together(sources: list[Source], base: list[Source], notes: Notes, many: bool) -> Network:
    """One network of all files; of the base files nodes and links alone. Many asks for all matrices."""
    structure = _structure([*base, *sources])
    nodes, links, words = _named(structure, notes)
    ends = _ends_of(structure.nodes, words, notes) if structure.nodes else None
    matrices = [(source, matrix) for source in sources for matrix in source.matrices]
    if not many:
        matrices = _one(matrices, notes)
    names, unlisted = Words("matrix", notes), {} if ends else _unlisted(matrices, notes)
    done = []
    for source, matrix in matrices:
        name = names.word(matrix.name, stem(source.path)) if many else ""
        done.append(Matrix(name, _demands(source, matrix, ends or unlisted, notes)))
    return Network(nodes, links, done, dict(structure.meta), structure.bits, structure.links_mode)


def _structure(sources: list[Source]) -> Source:
    """The nodes and links of all files: links from one file, and the places of nodes from any."""
    linked = [source for source in sources if source.links]
    first = linked[0] if linked else next((source for source in sources if source.nodes), Source("", "none"))
    for other in linked[1:]:
        if _ends_and_sizes(other) != _ends_and_sizes(first):
            raise Refused(f"{first.path} and {other.path} have different links: one network is due")
    places = _places(source for source in sources if source is not first)
    nodes = [replace(n, place=places.get(n.name)) if n.place is None else n for n in first.nodes]
    if first.kind in ("links", "none", "nodes"):
        listed = {n.key: n for s in sources if s.kind == "nodes" for n in s.nodes}
        nodes = list({**listed, **{n.key: n for n in nodes}}.values())
    return replace(first, nodes=nodes)


def _places(sources: Iterable[Source]) -> dict[str, tuple[str, ...]]:
    """The places of nodes by their names; two files agree on a place that both have."""
    places: dict[str, tuple[str, ...]] = {}
    for source, node in [(source, node) for source in sources for node in source.nodes if node.place]:
        place = node.place or ()
        if places.setdefault(node.name, place) != place:
            raise Refused(f"{source.path}: node {told(node.name)} has another place than in the file before").at(source.path)
    return places


def _ends_and_sizes(source: Source) -> tuple[object, ...]:
    """What makes the links of two files the same."""
    rows = [(link.name, link.source, link.target, link.capacity, link.modules) for link in source.links]
    return source.links_mode, rows


def _named(source: Source, notes: Notes) -> tuple[list[Node], list[Link], dict[str, str]]:
    """Nodes and links under their words, and the word of each key."""
    double, times = Counter(node.key for node in source.nodes).most_common(1)[0] if source.nodes else ("", 0)
    if times > 1:
        raise Refused(f"{source.path}: node {told(double)} stands twice").at(source.path)
    node_words, link_words = Words("node", notes, source.native), Words("link", notes, source.native, _given(source.links))
    words = {node.key: node_words.word(node.name, node.key) for node in source.nodes}
    nodes = [replace(n, name=words[n.key], key=words[n.key], place=_place(n, notes)) for n in source.nodes]
    links = [_link(source, link, words, link_words) for link in source.links]
    return nodes, links, words


def _given(rows: Sequence[Link] | Sequence[Demand]) -> set[str]:
    """The words of the names that rows have, which are not made for others; nothing where all have names."""
    named = [row.name for row in rows if row.name]
    return {word_of(name) for name in named} if len(named) < len(rows) else set()


def _place(node: Node, notes: Notes) -> tuple[str, ...] | None:
    """The words of a place."""
    if node.place is None:
        return None
    place = tuple(word_of(word) or "0" for word in node.place)
    if place != node.place:
        notes.say("renamed", f"place of node {told(node.name)} is {' '.join(place)}")
    return place


def _link(source: Source, link: Link, words: dict[str, str], link_words: Words) -> Link:
    """A link under its word, between the words of its ends."""
    for end in (link.source, link.target):
        if end not in words:
            raise Refused(f"{source.path}: link {told(link.name)} has the end {told(end)}, which is no node").at(source.path)
    name = link_words.word(link.name, f"{words[link.source]}-{words[link.target]}")
    costs = tuple(_cost(cost, name, link_words.notes) for cost in link.costs)
    modules = tuple((capacity, _cost(cost, name, link_words.notes)) for capacity, cost in link.modules)
    return replace(link, name=name, source=words[link.source], target=words[link.target], costs=costs, modules=modules)


def _cost(cost: str, link: str, notes: Notes) -> str:
    """A cost as a word."""
    word = word_of(cost) or "0"
    if word != cost:
        notes.say("renamed", f"cost {told(cost)} of link {link} is {word}")
    return word


def _one(matrices: list[tuple[Source, Matrix]], notes: Notes) -> list[tuple[Source, Matrix]]:
    """The one matrix of a network: that of a file of demands goes before a network's own."""
    alone = [(s, m) for s, m in matrices if not s.links]
    if len(alone) > 1 or (not alone and len(matrices) > 1):
        names = ", ".join(m.name or s.path for s, m in (alone or matrices)[:3])
        raise Refused(f"{len(alone or matrices)} matrices ({names}, ..): a network has one; a list (TO.list) has many")
    for source, matrix in matrices:
        if alone and source.links:
            notes.say("dropped", f"{source.path}: its own {len(matrix.demands)} demands, since {alone[0][0].path} has others")
    return alone or matrices


def _demands(source: Source, matrix: Matrix, ends: Ends | dict[str, str], notes: Notes) -> list[Demand]:
    """The demands of a matrix under their words; where no file has nodes, these have words by what demands name."""
    words = Words("demand", notes, source.native, _given(matrix.demands))
    done = []
    for demand in matrix.demands:
        what = f"demand {told(demand.name)}" if demand.name else "a demand"
        what = Spot(source.path, demand.line, what) if demand.line else f"{source.path}: {what}"
        pair = demand.source, demand.target
        found = [ends[end] if isinstance(ends, dict) else ends.word(end, source.by_number, what) for end in pair]
        name = words.word(demand.name, "-".join(found))
        done.append(replace(demand, name=name, source=found[0], target=found[1]))
    return done


def _unlisted(matrices: list[tuple[Source, Matrix]], notes: Notes) -> dict[str, str]:
    """The words of nodes that demands alone name."""
    by_number = next((source.path for source, _ in matrices if source.by_number), None)
    if by_number is not None:
        raise Refused(f"{by_number} has nodes by their numbers: give the graph too, as by --net GRAPH")
    words = Words("node", notes, all(source.native for source, _ in matrices))
    ends = dict.fromkeys(end for _, matrix in matrices for d in matrix.demands for end in (d.source, d.target))
    return {name: words.word(name) for name in ends}
