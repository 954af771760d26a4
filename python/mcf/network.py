"""The rows of a network: nodes, links and demands with every field of the canonical text, which `mcf print` writes.

Texts are read as latin-1, so each byte is one character, any bytes may stand in a name, and writing gives the same bytes.
"""

from __future__ import annotations

from dataclasses import dataclass
from fractions import Fraction
from typing import Callable, Iterable, TypeVar

from .errors import TextError
from .numbers import fraction_of
from .tokens import NATIVE

HEADER = "?SNDlib native format; type: network; version: 1.0"
MODULES = ("largest", "none", "sum")

_Row = TypeVar("_Row")


@dataclass(frozen=True, slots=True)
class Node:
    """A node; `place` are the words behind its id, mostly longitude and latitude, or None where it has no parentheses."""

    id: str
    place: tuple[str, ...] | None = None

    @property
    def position(self) -> tuple[float, float] | None:
        """Longitude and latitude as numbers, or None where the place is not two numbers."""
        try:
            x, y = self.place or ()
            return float(x), float(y)
        except ValueError:
            return None


@dataclass(frozen=True, slots=True)
class Module:
    """A capacity that may be installed on a link, and its cost; both as the words that were read."""

    capacity: str
    cost: str


@dataclass(frozen=True, slots=True)
class Link:
    """A link; its numbers are the words that were read, and costs need not be numbers."""

    id: str
    source: str
    target: str
    capacity: str
    capacity_cost: str = "0"
    routing_cost: str = "0"
    setup_cost: str = "0"
    modules: tuple[Module, ...] = ()

    def installed(self, modules: str) -> Fraction:
        """The capacity with modules `largest`, `none` or `sum`, in the file's own unit."""
        sizes = [fraction_of(module.capacity) for module in self.modules]
        added = {"none": Fraction(0), "largest": max(sizes, default=Fraction(0)), "sum": sum(sizes, Fraction(0))}
        if modules not in added:
            raise TextError(f"modules are largest, none or sum, and not {modules!r}")
        return fraction_of(self.capacity) + added[modules]


@dataclass(frozen=True, slots=True)
class Demand:
    """A demand; its numbers are the words that were read, and `longest` is `UNLIMITED` or a number of hops."""

    id: str
    source: str
    target: str
    unit: str = "1"
    value: str = "0"
    longest: str = "UNLIMITED"

    @property
    def amount(self) -> Fraction:
        """Routing unit times demand value, in the file's own unit."""
        return fraction_of(self.value) if self.unit == "1" else fraction_of(self.unit) * fraction_of(self.value)

    @property
    def hops(self) -> int | None:
        """The longest path as a whole number, rounded down; None where it is `UNLIMITED`."""
        return None if self.longest == "UNLIMITED" else int(fraction_of(self.longest))


@dataclass(frozen=True, slots=True)
class Network:
    """All rows of a network file, in their order."""

    nodes: tuple[Node, ...]
    links: tuple[Link, ...]
    demands: tuple[Demand, ...]


def read_network(text: str) -> Network:
    """The network of a canonical text; `Program.network` in `mcf.program` reads any network file by `mcf print`."""
    lines = text.split("\n")
    if not lines[0].startswith(NATIVE.decode()) or lines[-1] != "":
        raise TextError("no canonical network text: write it by mcf print")
    nodes, at = _section(lines, 1, "NODES", _node)
    links, at = _section(lines, at, "LINKS", _link)
    demands, at = _section(lines, at, "DEMANDS", _demand)
    if at != len(lines) - 1:
        raise TextError(f"line {at + 1}: nothing is expected behind the demands")
    return Network(nodes, links, demands)


def write_network(network: Network) -> str:
    """The canonical text, the same bytes as those of `mcf print`."""
    lines = [HEADER, "NODES ("]
    lines += [f"  {node.id}" + ("" if node.place is None else f" {_group(node.place)}") for node in network.nodes]
    lines += [")", "LINKS ("]
    for link in network.links:
        costs = f"{link.capacity} {link.capacity_cost} {link.routing_cost} {link.setup_cost}"
        modules = _group(word for module in link.modules for word in (module.capacity, module.cost))
        lines.append(f"  {link.id} ( {link.source} {link.target} ) {costs} {modules}")
    lines += [")", "DEMANDS ("]
    for demand in network.demands:
        lines.append(f"  {demand.id} ( {demand.source} {demand.target} ) {demand.unit} {demand.value} {demand.longest}")
    return "\n".join(lines) + "\n)\n"


def _group(words: Iterable[str]) -> str:
    """Words in parentheses, as `( 1 2 )` or `( )`."""
    return " ".join(["(", *words, ")"])


def _section(lines: list[str], at: int, name: str, row: Callable[[list[str]], _Row]) -> tuple[tuple[_Row, ...], int]:
    """The rows of the section that begins at a line, and the number of the line behind it."""
    if at >= len(lines) or lines[at] != f"{name} (":
        raise TextError(f"line {at + 1}: {name} ( is expected")
    rows: list[_Row] = []
    for number in range(at + 1, len(lines)):
        if lines[number] == ")":
            return tuple(rows), number + 1
        words = lines[number].split(" ")
        try:
            if words[:2] != ["", ""]:
                raise ValueError("no two spaces in front")
            rows.append(row(words[2:]))
        except (ValueError, IndexError) as error:
            raise TextError(f"line {number + 1}: no row of {name} in canonical form") from error
    raise TextError(f"{name} is not closed")


def _node(words: list[str]) -> Node:
    """The node of a row's words."""
    if len(words) == 1:
        return Node(words[0])
    if words[1] != "(" or words[-1] != ")":
        raise ValueError("no place")
    return Node(words[0], tuple(words[2:-1]))


def _link(words: list[str]) -> Link:
    """The link of a row's words."""
    name, opened, source, target, closed, capacity, capacity_cost, routing_cost, setup_cost, group = words[:10]
    rest = words[10:-1]
    if (opened, closed, group, words[-1]) != ("(", ")", "(", ")") or len(rest) % 2:
        raise ValueError("no link")
    modules = tuple(Module(rest[i], rest[i + 1]) for i in range(0, len(rest), 2))
    return Link(name, source, target, capacity, capacity_cost, routing_cost, setup_cost, modules)


def _demand(words: list[str]) -> Demand:
    """The demand of a row's words."""
    name, opened, source, target, closed, unit, value, longest = words
    if (opened, closed) != ("(", ")"):
        raise ValueError("no demand")
    return Demand(name, source, target, unit, value, longest)
