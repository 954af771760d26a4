"""The changes of a study: failures of links, nodes and pairs, groups that fail together, and tables of capacities."""

from __future__ import annotations

from collections.abc import Callable, Iterable, Iterator, Mapping
from dataclasses import dataclass
from functools import cached_property
from itertools import combinations

from ..convert import files, tables
from ..convert.model import Notes, Refused, elsewhere
from ..convert.numbers import Unit, is_fine, plain, rate
from ..errors import TextError
from ..given import name_of
from ..limits import MAX_DECIMALS, MAX_UNITS
from ..network import Link, Network
from .scenarios import INTACT, Change

FAILURES = ("links", "nodes", "pairs")
Rows = list[tuple[int, dict[str, str]]]


@dataclass(frozen=True)
class Fibres:
    """Which links fail together with each link: itself, and with fibres also its arc back."""

    network: Network
    together: bool = False

    def require(self, mode: str) -> None:
        """Refuses fibres where both ways of a link are one link anyway."""
        if self.together and mode != "directed":
            raise TextError(f"--fibres is for links that are directed, and these are {mode}: both ways of a link fail with it")

    def of(self, link: Link) -> tuple[str, ...]:
        """The ids of what fails with a link, its own first; TextError where several links could be its arc back."""
        if not self.together or link.source == link.target:
            return (link.id,)
        there, back = self._between[link.source, link.target], self._between.get((link.target, link.source), [])
        if not back:
            return (link.id,)
        if len(there) > 1 or len(back) > 1:
            names = f"{len(there)} links from {name_of(link.source)} to {name_of(link.target)} and {len(back)} back"
            raise TextError(f"link {name_of(link.id)}: {names}, so which two are a fibre is not known: name them in a table of --groups")
        return (link.id, back[0])

    @cached_property
    def _between(self) -> dict[tuple[str, str], list[str]]:
        """The links from each node to each other one."""
        found: dict[tuple[str, str], list[str]] = {}
        for link in self.network.links:
            found.setdefault((link.source, link.target), []).append(link.id)
        return found

    @cached_property
    def _by_id(self) -> dict[str, tuple[int, Link]]:
        """The links with their places in the file."""
        return {link.id: (at, link) for at, link in enumerate(self.network.links)}

    def units(self) -> list[tuple[str, ...]]:
        """All links, each with what fails with it, and each once."""
        return [unit for unit in map(self.of, self.network.links) if unit[0] == min(unit, key=lambda link: self._by_id[link][0])]

    def all_of(self, links: Iterable[str]) -> tuple[str, ...]:
        """Some links with all that fail with them, each once."""
        return tuple(dict.fromkeys(other for link in links for other in self.of(self._by_id[link][1])))


def failures(network: Network, kinds: Iterable[str], fibres: Fibres) -> Iterator[Change]:
    """The failures of these kinds: of each link, of each node, of each two links."""
    made: dict[str, Callable[[], Iterator[Change]]] = {
        "links": lambda: (failed(fibres.network, "link", "+".join(unit), unit) for unit in fibres.units()),
        "nodes": lambda: (failed(network, "node", node.id, (), (node.id,)) for node in network.nodes),
        "pairs": lambda: (failed(network, "pair", "+".join((*one, *other)), (*one, *other))
                          for one, other in combinations(fibres.units(), 2)),
    }
    for kind in kinds:
        yield from made[kind]()


def failed(network: Network, kind: str, name: str, links: Iterable[str], nodes: Iterable[str] = ()) -> Change:
    """A failure of links and nodes; with a node its links are closed."""
    lost = tuple(nodes)
    own = tuple(link.id for link in network.links if link.source in lost or link.target in lost) if lost else ()
    return Change(kind, name, tuple(dict.fromkeys((*links, *own))), lost)


def groups(network: Network, rows: Mapping[str, tuple[list[str], list[str]]], fibres: Fibres) -> list[Change]:
    """The failures of groups: the links and the nodes of each, by its name."""
    return [failed(network, "group", name, fibres.all_of(links), nodes) for name, (links, nodes) in rows.items()]


def read_groups(path: str, network: Network) -> dict[str, tuple[list[str], list[str]]]:
    """The groups of a table with the columns group, and link, node or both; TextError, with the line, for an unknown name."""
    known = {"link": {link.id for link in network.links}, "node": {node.id for node in network.nodes}}
    found: dict[str, tuple[list[str], list[str]]] = {}
    for line, row in _rows(path, ("group",), ("link", "node")):
        members = [(kind, row[kind]) for kind in ("link", "node") if row.get(kind)]
        if not row["group"] or not members:
            raise TextError(f"{path} line {line}: a group and a link or a node are due")
        links, nodes = found.setdefault(row["group"], ([], []))
        for kind, member in members:
            _require_known(path, line, kind, member, known[kind])
            (links if kind == "link" else nodes).append(member)
    return found


def read_changes(path: str, network: Network, unit: Unit, fibres: Fibres) -> list[Change]:
    """The changes of a table with the columns scenario, link and capacity; TextError, with the line, for what cannot be."""
    known = {link.id for link in network.links}
    found: dict[str, dict[str, str]] = {}
    for line, row in _rows(path, ("scenario", "link", "capacity"), ()):
        if not row["scenario"]:
            raise TextError(f"{path} line {line}: a scenario is due")
        _require_known(path, line, "link", row["link"], known)
        capacity = _capacity(row["capacity"], f"{path} line {line}", unit)
        own = found.setdefault(row["scenario"], {})
        for link in fibres.all_of([row["link"]]):
            if own.setdefault(link, capacity) != capacity:
                raise TextError(f"{path} line {line}: scenario {name_of(row['scenario'])} gives link {name_of(link)} two capacities")
    return [capacities("change", name, own) for name, own in found.items()]


def capacities(kind: str, name: str, given: Mapping[str, str]) -> Change:
    """A change of capacities, of which those of 0 are links that are closed."""
    closed = tuple(link for link, capacity in given.items() if capacity == "0")
    return Change(kind, name, closed, (), tuple((link, capacity) for link, capacity in given.items() if capacity != "0"))


def _capacity(word: str, what: str, unit: Unit) -> str:
    """The shortest decimal of a capacity."""
    try:
        value = rate(word, f"{what}: capacity", unit)
    except Refused as why:
        raise TextError(elsewhere(str(why))).at(why.file, why.line) from None
    if not is_fine(value):
        raise TextError(f"{what}: capacity {plain(value)} has more than {MAX_DECIMALS} decimals")
    if value > MAX_UNITS:
        raise TextError(f"{what}: capacity {plain(value)} is more than {MAX_UNITS}")
    return plain(value)


def _require_known(path: str, line: int, kind: str, name: str, known: set[str]) -> None:
    """TextError where the network has no such link or node."""
    if name not in known:
        raise TextError(f"{path} line {line}: the network has no {kind} {name_of(name)!r}")


def _rows(path: str, due: tuple[str, ...], other: tuple[str, ...]) -> Rows:
    """The rows of a table by the names of its columns, in the letters of network texts."""
    notes = Notes(quiet=True)
    data = files.without_mark(path, files.contents(path), notes)
    rows = tables.lines_of(files.label(path), files.text_of(path, data, notes), notes)
    head = [word.lower() for word in rows[0][1]] if rows else []
    lost = [name for name in due if name not in head] or ([" or ".join(other)] if other and not set(other) & set(head) else [])
    unknown = [name for name in head if name not in (*due, *other)]
    if lost or unknown or len(set(head)) < len(head):
        what = f"{files.label(path)} line 1: the columns are {', '.join(due)}{' and ' if other else ''}{' or '.join(other)}"
        raise TextError(f"{what}, and not {', '.join(head) or 'none'}")
    if len(rows) == 1:
        raise TextError(f"{files.label(path)}: has no rows behind its head")
    return [(line, dict(zip(head, map(_letters, words)))) for line, words in rows[1:]]


def _letters(cell: str) -> str:
    """A cell as a word of a network text, one character for each byte."""
    return cell.encode("utf-8", "surrogateescape").decode("latin-1")


def all_changes(network: Network, kinds: Iterable[str], more: Iterable[Change], fibres: Fibres, intact: bool) -> list[Change]:
    """All changes of a study; the network as it is where there are none, or where it is asked for too."""
    found = [*failures(network, kinds, fibres), *more]
    return [INTACT, *found] if intact or not found else found
