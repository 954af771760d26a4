"""A network in whole units: cells of links by link mode, and commodities, as docs/judge/formats.md has them."""

from __future__ import annotations

from dataclasses import dataclass
from fractions import Fraction
from functools import cached_property

from .errors import TextError
from .network import Network

LINK_MODES = ("undirected", "directed", "bidirected")
_SIGNS = {"undirected": "=", "directed": "+", "bidirected": "+-"}


@dataclass(frozen=True, slots=True)
class Cell:
    """A link, or one way of it, with its capacity in units; ends are numbers of nodes.

    `sign` is `=` for both ways with one capacity, `+` from source to target, `-` from target to source.
    """

    link: int
    sign: str
    tail: int
    head: int
    capacity: int

    @property
    def both(self) -> bool:
        """Whether the cell is used in both ways, which share its capacity."""
        return self.sign == "="


@dataclass(frozen=True, slots=True)
class Commodity:
    """A demand of a positive amount, in units, between two nodes; ends are numbers of nodes."""

    demand: int
    source: int
    target: int
    amount: int


@dataclass(frozen=True, slots=True)
class Counts:
    """The seven numbers of a certificate's line 5."""

    nodes: int
    cells: int
    commodities: int
    decimals: int
    skipped: int
    left: int
    hops: int


@dataclass(frozen=True)
class ScaledNetwork:
    """A network under a link mode and modules; one unit is 10 to the power of minus `decimals` of the file's own."""

    network: Network
    links: str
    modules: str
    decimals: int
    cells: tuple[Cell, ...]
    commodities: tuple[Commodity, ...]

    @cached_property
    def node_of(self) -> dict[str, int]:
        """The number of each node by its id."""
        return {node.id: number for number, node in enumerate(self.network.nodes)}

    @cached_property
    def commodity_of(self) -> dict[str, int]:
        """The number of each commodity by the id of its demand."""
        return {self.network.demands[commodity.demand].id: number for number, commodity in enumerate(self.commodities)}

    @cached_property
    def _words(self) -> tuple[tuple[str, ...], tuple[str, ...]]:
        """The names of all cells in form 1, and in form 2."""
        ids = [self.network.links[cell.link].id for cell in self.cells]
        return tuple(ids), tuple(cell.sign + name for cell, name in zip(self.cells, ids))

    @cached_property
    def _numbers(self) -> tuple[dict[str, int], dict[str, int]]:
        """The number of each cell by its name in form 1, and in form 2."""
        old, new = ({word: number for number, word in enumerate(words)} for words in self._words)
        return old, new

    @cached_property
    def limits(self) -> tuple[int | None, ...]:
        """The limit of hops of each commodity, as `mcf hops` keeps it; None where there is none."""
        whole = (self.network.demands[commodity.demand].hops for commodity in self.commodities)
        return tuple(hops if hops is not None and hops < len(self.network.nodes) - 1 else None for hops in whole)

    def words(self, form: int) -> tuple[str, ...]:
        """The names of the cells in a certificate of form 1 or 2."""
        return self._words[self._form(form)]

    def cell_of(self, form: int) -> dict[str, int]:
        """The number of each cell by its name in a certificate of form 1 or 2."""
        return self._numbers[self._form(form)]

    def _form(self, form: int) -> int:
        """The place of a form; form 1 has no bidirected links."""
        if form not in (1, 2) or (form == 1 and self.links == "bidirected"):
            raise TextError(f"there is no form {form} with links {self.links}")
        return form - 1

    def demand_id(self, commodity: int) -> str:
        """The id of a commodity's demand."""
        return self.network.demands[self.commodities[commodity].demand].id

    def counts(self, skipped: int) -> Counts:
        """Line 5; how many sections were skipped is known from a certificate of `mcf solve` alone."""
        demands = self.network.demands
        left = len(demands) - len(self.commodities)
        hops = sum(demand.longest != "UNLIMITED" for demand in demands)
        return Counts(len(self.network.nodes), len(self.cells), len(self.commodities), self.decimals, skipped, left, hops)

    def in_file_unit(self, units: int | Fraction) -> Fraction:
        """A number of units in the file's own unit."""
        return Fraction(units, 10**self.decimals)


def scale(network: Network, links: str = "undirected", modules: str = "largest") -> ScaledNetwork:
    """The network in whole units, of the greatest unit from 1 to a millionth that serves for all."""
    if links not in LINK_MODES:
        raise TextError(f"links are undirected, directed or bidirected, and not {links!r}")
    capacities = [link.installed(modules) for link in network.links]
    amounts = [demand.amount for demand in network.demands]
    kept = [i for i, demand in enumerate(network.demands) if amounts[i] > 0 and demand.source != demand.target]
    decimals = _decimals(capacities + [amounts[i] for i in kept])
    node_of = {node.id: number for number, node in enumerate(network.nodes)}
    cells = []
    for number, (link, capacity) in enumerate(zip(network.links, capacities)):
        ends = node_of[link.source], node_of[link.target]
        for sign in _SIGNS[links]:
            tail, head = ends if sign != "-" else ends[::-1]
            cells.append(Cell(number, sign, tail, head, int(capacity * 10**decimals)))
    commodities = []
    for i in kept:
        demand = network.demands[i]
        commodities.append(Commodity(i, node_of[demand.source], node_of[demand.target], int(amounts[i] * 10**decimals)))
    return ScaledNetwork(network, links, modules, decimals, tuple(cells), tuple(commodities))


def _decimals(numbers: list[Fraction]) -> int:
    """The least number of decimals, 0 to 6, that all numbers have."""
    for decimals in range(7):
        if all((number * 10**decimals).denominator == 1 for number in numbers):
            return decimals
    raise TextError("a capacity or amount is no whole number of millionths")
