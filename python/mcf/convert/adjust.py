"""Units, growth, merging and rounding; and whether what is written is within the program's limits."""

from __future__ import annotations

from collections.abc import Callable
from dataclasses import dataclass, field, replace
from fractions import Fraction

from ..limits import MAX_DECIMALS, MAX_LINKS, MAX_MATRICES, MAX_TOTAL, MAX_UNITS, WIDE
from .model import Demand, Link, Matrix, Network, Notes, Refused, Source, refused
from .numbers import brief, is_fine, plain, rounded


@dataclass(frozen=True)
class Changes:
    """What is asked of the numbers."""

    scale: Fraction = Fraction(1)
    merge: bool = False
    merge_both: bool = False
    decimals: int | None = None


def in_unit(source: Source, bits: Fraction) -> Source:
    """What a file has, in units of so many bits per second."""
    if source.bits is None:
        unit = f" (META has {source.meta['unit']}, which is none that is known)" if source.meta.get("unit") else ""
        raise Refused(f"{source.path} does not say its unit{unit}: --from-unit says in which its numbers are").at(source.path)
    factor = source.bits / bits
    if factor == 1:
        return source
    links = [_link_with(link, lambda value: value * factor) for link in source.links]
    return replace(source, links=links, matrices=_grown(source.matrices, factor), bits=bits)


def _grown(matrices: list[Matrix], factor: Fraction) -> list[Matrix]:
    """The matrices with all amounts times a factor."""
    return [Matrix(m.name, [_demand_of(d, d.amount * factor) for d in m.demands]) for m in matrices]


def adjusted(network: Network, changes: Changes, notes: Notes) -> Network:
    """The network with its demands grown and merged, and its numbers rounded, in this order."""
    links, matrices = network.links, network.matrices
    if changes.scale != 1:
        matrices = _grown(matrices, changes.scale)
    if changes.merge or changes.merge_both:
        matrices = [Matrix(m.name, merged(m.demands, changes.merge_both, notes)) for m in matrices]
    if changes.decimals is not None:
        rounding = _Rounding(changes.decimals)
        links = [rounding.link(link) for link in links]
        matrices = [Matrix(m.name, [rounding.demand(d, m.name) for d in m.demands]) for m in matrices]
        rounding.tell(notes)
    return replace(network, links=links, matrices=matrices)


def _link_with(link: Link, change: Callable[[Fraction], Fraction]) -> Link:
    capacity = None if link.capacity is None else change(link.capacity)
    return replace(link, capacity=capacity, modules=tuple((change(size), cost) for size, cost in link.modules))


def _demand_of(demand: Demand, amount: Fraction) -> Demand:
    return replace(demand, unit=Fraction(1), value=amount)


def merged(demands: list[Demand], both: bool, notes: Notes) -> list[Demand]:
    """One demand where several have the same ends: the first, with the sum of their amounts."""
    groups: dict[tuple[str, str, str], list[Demand]] = {}
    for demand in demands:
        ends = sorted((demand.source, demand.target)) if both else [demand.source, demand.target]
        groups.setdefault((ends[0], ends[1], demand.longest), []).append(demand)
    for first, *others in groups.values():
        for other in others:
            back = ", back," if other.source != first.source else ""
            notes.say("merged", f"demand {other.name} of {brief(other.amount)}{back} into {first.name}")
    return [_demand_of(g[0], sum((d.amount for d in g), Fraction(0))) if len(g) > 1 else g[0] for g in groups.values()]


@dataclass
class _Rounding:
    """Numbers rounded to so many decimals; which they were, and which demands became nothing."""

    decimals: int
    changed: list[str] = field(default_factory=list)
    nothing: list[str] = field(default_factory=list)

    def link(self, link: Link) -> Link:
        """A link with its capacities rounded."""
        return _link_with(link, lambda value: self._value(value, f"link {link.name}"))

    def demand(self, demand: Demand, matrix: str) -> Demand:
        """A demand with its amount rounded."""
        what = f"matrix {matrix}: demand {demand.name}" if matrix else f"demand {demand.name}"
        new = self._value(demand.amount, what)
        if new == demand.amount and is_fine(demand.unit) and is_fine(demand.value):
            return demand
        if new == 0 != demand.amount:
            self.nothing.append(what)
        return _demand_of(demand, new)

    def _value(self, value: Fraction, what: str) -> Fraction:
        new = rounded(value, self.decimals)
        if new != value:
            self.changed.append(f"{what}: {brief(value)} to {plain(new)}")
        return new

    def tell(self, notes: Notes) -> None:
        """One line: the number that was rounded, or how many were and which is the first; and the demands that are left out by it."""
        if not self.changed:
            return
        many = len(self.changed)
        text = self.changed[0] if many == 1 else f"{many} numbers to {self.decimals} decimals, the first of {self.changed[0]}"
        left = ", which leaves it out" if many == 1 else f"; rounded to 0 and so left out: {_listed(self.nothing)}"
        notes.say("rounded", text + (left if self.nothing else ""))


def _listed(names: list[str]) -> str:
    """The first three names of a list, and how many others there are."""
    rest = len(names) - 3
    return ", ".join(names[:3]) + (f" and {rest} more" if rest > 0 else "")


def require_fit(network: Network, linked: bool, limited: bool) -> None:
    """Refuses what the program would refuse for its size or its numbers, and says which option helps."""
    _require_counts(network, linked, limited)
    for link in network.links if linked else []:
        if link.capacity is None:
            others = sum(1 for other in network.links if other.capacity is None) - 1
            which, whom = (f", and {others} others have none", "them") if others else ("", "it")
            raise Refused(f"link {link.name} has no capacity{which}: --capacity-default X gives {whom} X")
        for value in (link.capacity, *(size for size, _ in link.modules)):
            _require_number(value, f"link {link.name}")
    for matrix in network.matrices:
        _require_demands(matrix, network.links if linked else [])


def _require_counts(network: Network, linked: bool, limited: bool) -> None:
    counts = [(len(network.nodes), WIDE.nodes, "nodes"), (len(network.links), MAX_LINKS, "links")]
    counts.append((sum(len(m.demands) for m in network.matrices), WIDE.demands, "demands (--merge may help)"))
    counts.append((len(network.matrices), MAX_MATRICES, "matrices"))
    over = next(((n, most, what) for n, most, what in counts if n > most), None)
    if over and limited:
        raise Refused("{0} {2}: at most {1} are taken".format(*over))
    if linked and not network.links:
        raise Refused("no file has links")


def _require_number(value: Fraction, what: str) -> None:
    if not is_fine(value):
        raise refused(what, f"{brief(value)} has more than {MAX_DECIMALS} decimals (--round N rounds it)")
    if value > MAX_UNITS:
        raise refused(what, f"{brief(value)} is more than {MAX_UNITS} (--unit Mbit or Gbit makes it smaller)")


def _require_demands(matrix: Matrix, links: list[Link]) -> None:
    """That the amounts are numbers that the program takes, each and together."""
    where = f"matrix {matrix.name}: " if matrix.name else ""
    for demand in matrix.demands:
        for value in (demand.unit, demand.value, demand.amount):
            _require_number(value, f"{where}demand {demand.name}")
    amounts = [d.amount for d in matrix.demands if d.source != d.target]
    decimals = _decimals([*amounts, *(link.capacity for link in links if link.capacity is not None)])
    if sum(amounts) * 10**decimals > MAX_TOTAL or max(amounts, default=0) * 10**decimals > MAX_UNITS:
        total = brief(sum(amounts, Fraction(0)))
        raise Refused(f"{where}amounts of {total} together with {decimals} decimals are too great (--unit or --round N)")


def _decimals(values: list[Fraction]) -> int:
    """The least number of decimals that serves for all."""
    return next(d for d in range(MAX_DECIMALS + 1) if d == MAX_DECIMALS or all(is_fine(v, d) for v in values))
