"""Scenarios: what each asks, the key of that, and the text of its network."""

from __future__ import annotations

import hashlib
import json
import zlib
from collections.abc import Iterable, Iterator, Mapping, Sequence
from dataclasses import dataclass, field, replace
from functools import cached_property
from itertools import product

from ..network import Demand, Network, write_network

RULES = ("ecmp", "hops", "capacity", "cost", "k-paths")
SPLITS = ("ecmp", "k-paths")
"""The rules of which a routing may fall short, since it has whole shares, or too little time."""

ROUTINGS = ("best", "exact", *RULES)
_OPTIONS = {"best": ("gap", "phases", "step"), "exact": ("gap", "seconds"), "ecmp": ("lengths", "cost"), "cost": ("cost",),
            "k-paths": ("lengths", "cost", "paths", "seconds")}
KEY_DIGITS = 24
MOST_PATHS = 1000
DEMANDS = "DEMANDS (\n"


@dataclass(frozen=True, slots=True)
class Change:
    """What is other in a scenario than in the network: links that are closed, nodes that are lost with their demands, capacities.

    `kind` and `name` are what people call it; they are no part of what it asks.
    """

    kind: str = "intact"
    name: str = ""
    links: tuple[str, ...] = ()
    nodes: tuple[str, ...] = ()
    capacities: tuple[tuple[str, str], ...] = ()

    @property
    def title(self) -> str:
        """What it is called."""
        return f"{self.kind} {self.name}" if self.name else self.kind

    @property
    def asked(self) -> dict[str, object]:
        """What it asks, whichever name and order it was given in."""
        return {"links": sorted(self.links), "nodes": sorted(self.nodes), "capacities": sorted(self.capacities)}


INTACT = Change()


@dataclass(frozen=True, slots=True)
class Matrix:
    """Demands by the name of their matrix, and the hash of their text; `time` is its time stamp, where it has one."""

    name: str
    digest: str
    time: str = ""


@dataclass(frozen=True)
class Asked:
    """How scenarios are routed: how links and modules are read, and the options of the solves."""

    links: str = "undirected"
    modules: str = "largest"
    gap: str | None = None
    phases: str | None = None
    step: str | None = None
    lengths: str = "hops"
    cost: str = "routing"
    paths: int = 4
    seconds: float = 300.0

    def of(self, routing: str) -> dict[str, str]:
        """The options that a routing knows; one that is not given is not among them."""
        known = _OPTIONS.get(routing, ())
        given = {name: str(value) for name in known if (value := getattr(self, name)) is not None}
        return {"links": self.links, "modules": self.modules, **given}

    def unused(self, routings: Iterable[str]) -> list[tuple[str, str]]:
        """The options that are given, each with a routing that does not know it."""
        default = Asked()
        names = ("gap", "phases", "step", "lengths", "cost", "paths", "seconds")
        given = [name for name in names if getattr(self, name) != getattr(default, name)]
        some = list(routings)
        found = [(name, routing) for name in given for routing in some if name not in _OPTIONS.get(routing, ())]
        by_others = [routing for routing in some if "cost" in given and "lengths" in _OPTIONS.get(routing, ()) and self.lengths != "cost"]
        return found + [("cost", f"{routing} by {self.lengths}") for routing in by_others]

    @cached_property
    def solve_words(self) -> tuple[str, ...]:
        """The words of `mcf solve`: one worker, so that an answer doesn't depend on where it is made."""
        return self.words("best", "--workers", "1")

    def words(self, routing: str, *front: str) -> tuple[str, ...]:
        """The words of the options of a routing, behind those in front."""
        return (*front, *(word for name, value in self.of(routing).items() for word in (f"--{name}", value)))


@dataclass(frozen=True, slots=True)
class Scenario:
    """A matrix under a change, routed in a way; growth is no part of it, since bounds are divided by that."""

    key: str
    matrix: Matrix
    change: Change
    routing: str


@dataclass(frozen=True)
class Ground:
    """The network without demands: its text, and the hash of that."""

    text: str

    @classmethod
    def of(cls, network: Network) -> Ground:
        """That of a network."""
        return cls(write_network(replace(network, demands=())))

    @cached_property
    def digest(self) -> str:
        """The hash of the text."""
        return digest_of(self.text)

    @cached_property
    def packed(self) -> bytes:
        """The text for a task."""
        return packed(self.text)


@dataclass(frozen=True)
class Plan:
    """All scenarios of a study, in their order; `growths` are as they were given."""

    ground: Ground
    matrices: Sequence[Matrix]
    changes: Sequence[Change]
    routings: Sequence[str]
    asked: Asked
    growths: Sequence[str] = ("1",)
    notes: tuple[str, ...] = field(default=(), compare=False)

    def __len__(self) -> int:
        """How many scenarios there are."""
        return len(self.matrices) * len(self.changes) * len(self.routings)

    def __iter__(self) -> Iterator[Scenario]:
        """The scenarios: all changes of the first matrix come first."""
        fronts = [(change, routing, self._front(change, routing)) for change, routing in product(self.changes, self.routings)]
        for matrix, (change, routing, front) in product(self.matrices, fronts):
            yield Scenario(key_of(front, matrix.digest), matrix, change, routing)

    def once(self) -> Plan:
        """The plan without what asks the same as another matrix or change of it."""
        matrices = {matrix.digest: matrix for matrix in reversed(self.matrices)}
        changes = {json.dumps(change.asked): change for change in reversed(self.changes)}
        return replace(self, matrices=list(matrices.values())[::-1], changes=list(changes.values())[::-1])

    def _front(self, change: Change, routing: str) -> str:
        """What a scenario asks, but for its matrix."""
        asked: dict[str, object] = {"network": self.ground.digest, **change.asked, "routing": routing, "options": self.asked.of(routing)}
        return json.dumps(asked, sort_keys=True)


def packed(text: str) -> bytes:
    """A text as it goes over a wire."""
    return zlib.compress(text.encode("latin-1"), 1)


def unpacked(data: bytes) -> str:
    """The text that was packed."""
    return zlib.decompress(data).decode("latin-1")


def digest_of(text: str) -> str:
    """The hash of a text."""
    return hashlib.sha256(text.encode("latin-1")).hexdigest()


def key_of(front: str, matrix: str) -> str:
    """The key of a scenario: a hash of all that it asks."""
    return hashlib.sha256(f"{front} {matrix}".encode("latin-1", "backslashreplace")).hexdigest()[:KEY_DIGITS]


def demand_rows(demands: Iterable[Demand]) -> str:
    """The rows of demands as they stand in a canonical text."""
    return "".join(f"  {row.id} ( {row.source} {row.target} ) {row.unit} {row.value} {row.longest}\n" for row in demands)


def demands_of(rows: str) -> tuple[Demand, ...]:
    """The demands of such rows; a byte of a name may be a character that Python takes for a blank, or for the end of a line."""
    found = []
    for line in rows.split("\n")[:-1]:
        name, _, source, target, _, unit, value, longest = line.removeprefix("  ").split(" ")
        found.append(Demand(name, source, target, unit, value, longest))
    return tuple(found)


@dataclass(frozen=True)
class Changed:
    """The network of a scenario as a text, and the demands that were left out of it, which are those of lost nodes."""

    network: Network
    left_out: tuple[str, ...]

    @cached_property
    def text(self) -> str:
        """The canonical text."""
        return write_network(self.network)

    def without(self, demands: Iterable[str]) -> Network:
        """The network without some of its demands."""
        gone = set(demands)
        return replace(self.network, demands=tuple(row for row in self.network.demands if row.id not in gone))


def changed(network: Network, change: Change) -> Changed:
    """The network after a change; a link of another capacity, and one that is closed, has no modules."""
    capacities: Mapping[str, str] = {**dict(change.capacities), **dict.fromkeys(change.links, "0")}
    lost = set(change.nodes)
    links = tuple(replace(link, capacity=capacities[link.id], modules=()) if link.id in capacities else link for link in network.links)
    kept = tuple(row for row in network.demands if row.source not in lost and row.target not in lost)
    gone = tuple(row.id for row in network.demands if row.source in lost or row.target in lost) if lost else ()
    return Changed(replace(network, links=links, demands=kept), gone)
