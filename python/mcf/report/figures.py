"""The figures of one certificate or routing on its network: what every page, picture and table is made of."""

from __future__ import annotations

from collections import deque
from dataclasses import dataclass, replace
from fractions import Fraction
from functools import cached_property

from mcf import ScaledNetwork, TextError, cells_of_path, excess, loads, lower, shares_of_bound, upper, volume
from mcf.certificate import Certificate, HopCertificate, Routing, TotalCertificate


@dataclass(frozen=True)
class LinkFigures:
    """A link, or one way of it. Loads are in the file's unit: where all demands are carried once, and at the lower fraction.

    In a certificate of a total, which carries one demand more and another less, both are the load as the total is carried.
    """

    cell: int
    link: str
    way: str
    source: str
    target: str
    capacity: Fraction
    load: Fraction
    load_at_lower: Fraction
    share: Fraction | None

    @property
    def utilisation(self) -> Fraction | None:
        """The load of all demands over the capacity; none for a link without capacity."""
        return self.load / self.capacity if self.capacity else None

    @property
    def utilisation_at_lower(self) -> Fraction | None:
        """The same at the lower fraction, which is 1 at most."""
        return self.load_at_lower / self.capacity if self.capacity else None

    @property
    def headroom(self) -> Fraction:
        """The capacity that is left where all demands are carried; negative where it is not enough."""
        return self.capacity - self.load


@dataclass(frozen=True)
class PathFigures:
    """A path of a demand: its part of the demand, and its links in order."""

    part: Fraction
    links: tuple[str, ...]


@dataclass(frozen=True)
class DemandFigures:
    """A demand with its paths, the greatest part first."""

    demand: str
    source: str
    target: str
    amount: Fraction
    paths: tuple[PathFigures, ...]
    fewest: int | None
    limit: int | None = None

    @property
    def carried(self) -> Fraction:
        """The part of it that the paths carry, all where all demands are carried once."""
        return sum((path.part for path in self.paths), Fraction(0))

    @property
    def has_no_way(self) -> bool:
        """Whether no walk over links with capacity leads there, within the limit where it has one."""
        return self.fewest is None or (self.limit is not None and self.fewest > self.limit)

    @property
    def mean_links(self) -> Fraction:
        """How many links its traffic goes over, on average."""
        links = sum((path.part * len(path.links) for path in self.paths), Fraction(0))
        return links / self.carried if self.carried else Fraction(0)

    @property
    def most_links(self) -> int:
        """The links of its longest path."""
        return max((len(path.links) for path in self.paths), default=0)


@dataclass(frozen=True)
class Figures:
    """What a certificate or routing says of a network."""

    scaled: ScaledNetwork
    text: Routing
    known: Fraction | None = None

    def beside(self, other: Figures) -> Figures:
        """The same, where a routing takes over the bound of a certificate of the same network."""
        mine, its = self.scaled, other.scaled
        same = (mine.cells, mine.commodities, mine.decimals) == (its.cells, its.commodities, its.decimals)
        bounds_all = type(other.text) is Certificate
        return replace(self, known=other.upper) if same and bounds_all and not self.is_certificate else self

    @property
    def is_certificate(self) -> bool:
        """Whether there is a bound."""
        return isinstance(self.text, Certificate)

    @property
    def is_total(self) -> bool:
        """Whether the bounds are totals, and no fractions of every demand."""
        return isinstance(self.text, TotalCertificate)

    @property
    def keeps_limits(self) -> bool:
        """Whether all paths are within the hop limits, and the bound is one of such routings alone."""
        return isinstance(self.text, HopCertificate)

    @cached_property
    def lower(self) -> Fraction:
        """The fraction of every demand that the paths carry, or the total in the file's unit; 0 where there are none."""
        carried = lower(self.text) if self.text.paths and self.text.scale_load else Fraction(0)
        return self.scaled.in_file_unit(carried) if self.is_total else carried

    @cached_property
    def upper(self) -> Fraction | None:
        """What no routing exceeds, where it is known."""
        if not isinstance(self.text, Certificate):
            return self.known
        most = upper(self.scaled, self.text)
        return self.scaled.in_file_unit(most) if self.is_total else most

    @cached_property
    def links(self) -> tuple[LinkFigures, ...]:
        """The figures of all links, or of both ways of each, in the order of the file."""
        weights = loads(self.scaled, self.text)
        return tuple(self._link(number, weights[number], self._shares) for number in range(len(weights)))

    @cached_property
    def _shares(self) -> list[Fraction] | None:
        """The share of each cell in what is above in the bound, to which a total's demands add what they have above their distances."""
        if not isinstance(self.text, Certificate):
            return None
        shares = shares_of_bound(self.scaled, self.text)
        if not isinstance(self.text, TotalCertificate):
            return shares
        links = volume(self.scaled, self.text)
        whole = links + excess(self.scaled, self.text)
        return [share * links / whole if whole else Fraction(0) for share in shares]

    def _link(self, number: int, weight: int, shares: list[Fraction] | None) -> LinkFigures:
        """The figures of a cell."""
        cell, scaled = self.scaled.cells[number], self.scaled
        nodes, file_unit = scaled.network.nodes, scaled.in_file_unit
        full = weight * self._factor
        share = shares[number] if shares else None
        link = scaled.network.links[cell.link].id
        ends = nodes[cell.tail].id, nodes[cell.head].id
        at_lower = full if self.is_total else full * self.lower
        return LinkFigures(number, link, cell.sign, *ends, file_unit(cell.capacity), file_unit(full), file_unit(at_lower), share)

    @cached_property
    def _factor(self) -> Fraction:
        """What weights are multiplied by: where all demands are carried once, or as a total is carried."""
        above, below = (self.text.scale_capacity, self.text.scale_load) if self.is_total else (1, self.text.phases)
        return Fraction(above, below) if below else Fraction(0)

    @cached_property
    def most_utilised(self) -> LinkFigures | None:
        """The link of the maximum link utilisation, the first of equal ones."""
        used = [row for row in self.by_utilisation if row.utilisation]
        return used[0] if used else None

    @cached_property
    def bottleneck(self) -> tuple[LinkFigures, ...]:
        """The links with a share of the bound, the greatest first."""
        return tuple(sorted((row for row in self.links if row.share), key=lambda row: -(row.share or 0)))

    @cached_property
    def by_utilisation(self) -> tuple[LinkFigures, ...]:
        """All links, the most utilised first and those without capacity last."""
        return tuple(sorted(self.links, key=lambda row: (row.utilisation is None, -(row.utilisation or 0))))

    @cached_property
    def demands(self) -> tuple[DemandFigures, ...]:
        """The figures of all demands of an amount, the greatest amount first."""
        parts: list[list[PathFigures]] = [[] for _ in self.scaled.commodities]
        for path in self.text.paths:
            number = self._commodity(path.demand)
            part = path.weight * self._factor / self.scaled.commodities[number].amount
            parts[number].append(PathFigures(part, tuple(self._names(cells_of_path(self.scaled, self.text.form, path)))))
        rows = [self._demand(number, parts[number]) for number in range(len(parts))]
        return tuple(sorted(rows, key=lambda row: -row.amount))

    def _commodity(self, demand: str) -> int:
        """The number of a demand's commodity."""
        number = self.scaled.commodity_of.get(demand)
        if number is None:
            raise TextError(f"the network has no demand {demand} of an amount")
        return number

    def _names(self, cells: list[int]) -> list[str]:
        """The links of cells."""
        return [self.scaled.network.links[self.scaled.cells[cell].link].id for cell in cells]

    def _demand(self, number: int, paths: list[PathFigures]) -> DemandFigures:
        """The figures of a commodity."""
        commodity, scaled = self.scaled.commodities[number], self.scaled
        nodes = scaled.network.nodes
        ends = nodes[commodity.source].id, nodes[commodity.target].id
        fewest = self._hops[commodity.source][commodity.target]
        ordered = tuple(sorted(paths, key=lambda path: (-path.part, len(path.links), path.links)))
        limit = scaled.limits[number] if self.keeps_limits else None
        return DemandFigures(scaled.demand_id(number), *ends, scaled.in_file_unit(commodity.amount), ordered, fewest, limit)

    @cached_property
    def _hops(self) -> dict[int, list[int | None]]:
        """The fewest links with capacity from each source of a demand to every node."""
        after: list[list[int]] = [[] for _ in self.scaled.network.nodes]
        for cell in self.scaled.cells:
            if cell.capacity:
                after[cell.tail].append(cell.head)
                if cell.both:
                    after[cell.head].append(cell.tail)
        return {source: _fewest(after, source) for source in sorted({c.source for c in self.scaled.commodities})}

    @cached_property
    def without_way(self) -> tuple[DemandFigures, ...]:
        """The demands that have no way over links with capacity, or none within their limit."""
        return tuple(row for row in self.demands if row.has_no_way)

    @property
    def total(self) -> Fraction:
        """The sum of all amounts, in the file's unit."""
        return self.scaled.in_file_unit(sum(commodity.amount for commodity in self.scaled.commodities))


def _fewest(after: list[list[int]], source: int) -> list[int | None]:
    """The fewest steps from a node to every node, by breadth."""
    steps: list[int | None] = [None] * len(after)
    steps[source] = 0
    queue = deque([source])
    while queue:
        node = queue.popleft()
        for other in after[node]:
            if steps[other] is None:
                steps[other] = (steps[node] or 0) + 1
                queue.append(other)
    return steps
