"""Changes of single links and demands that the words of the command line ask for."""

from __future__ import annotations

from collections.abc import Iterator
from dataclasses import dataclass, replace
from fractions import Fraction

from ..limits import MAX_DECIMALS
from .model import Demand, Link, Matrix, Network, Notes, Refused
from .numbers import Unit, is_fine, number, plain, rate
from .words import told

CAPACITY, TIMES_CAPACITY, CLOSE, TIMES_DEMAND = "--capacity-of", "--times-capacity", "--close", "--times-demand"


@dataclass(frozen=True)
class Edit:
    """A change of a link or demand: the option, the name, and the number that stands behind it."""

    option: str
    name: str
    word: str = ""

    def __str__(self) -> str:
        return f"{self.option} {told(self.name)}"


def edited(network: Network, edits: list[Edit], fibres: bool, notes: Notes) -> Network:
    """The network with all changes made; each link and each demand is changed at most once."""
    links = _links(network, [edit for edit in edits if edit.option != TIMES_DEMAND], fibres, notes)
    return replace(network, links=links, matrices=_matrices(network, [e for e in edits if e.option == TIMES_DEMAND], notes))


def _links(network: Network, edits: list[Edit], fibres: bool, notes: Notes) -> list[Link]:
    """The links, those that are named changed, and with fibres also the one that goes the other way."""
    if fibres and network.links_mode not in (None, "directed"):
        raise Refused(f"--fibres is for links that are directed, and these are {network.links_mode}")
    places = {link.name: at for at, link in enumerate(network.links)}
    done: dict[int, Edit] = {}
    for edit in edits:
        if edit.name not in places:
            raise Refused(f"{edit}: there is no such link")
        for at in _arcs(network.links, places[edit.name], fibres, edit):
            _require_alone(done.get(at), edit, network.links[at].name)
            done[at] = edit
    return [_link(link, done[at], network.bits, notes) if at in done else link for at, link in enumerate(network.links)]


def _arcs(links: list[Link], at: int, fibres: bool, edit: Edit) -> Iterator[int]:
    """The link, and with fibres its arc back, which has to be the only one, as the link has to be the only one there."""
    yield at
    if not fibres:
        return
    ends = links[at].source, links[at].target
    there = [i for i, link in enumerate(links) if (link.source, link.target) == ends]
    back = [i for i, link in enumerate(links) if (link.target, link.source) == ends and i != at]
    if len(there) != 1 or len(back) != 1:
        counts = f"{len(there)} links from {ends[0]} to {ends[1]} and {len(back)} back"
        raise Refused(f"{edit}: {counts}, so which two are a fibre is not known: name each, without --fibres")
    yield back[0]


def _require_alone(before: Edit | None, edit: Edit, link: str) -> None:
    """Refuses a second change of a link, unless both say the same and saying it twice changes nothing."""
    same = before is not None and (before.option, before.word) == (edit.option, edit.word) and edit.option != TIMES_CAPACITY
    if before is not None and not same:
        raise Refused(f"{before} and {edit} both change link {told(link)}")


def _link(link: Link, edit: Edit, bits: Fraction | None, notes: Notes) -> Link:
    """The link after its change."""
    if edit.option == TIMES_CAPACITY:
        return _times(link, _factor(edit), edit, notes)
    capacity = Fraction(0) if edit.option == CLOSE else rate(edit.word, str(edit), Unit(bits, True))
    if not is_fine(capacity):
        raise Refused(f"{edit}: {plain(capacity)} has more than {MAX_DECIMALS} decimals")
    what = "closed, " if edit.option == CLOSE else ""
    notes.say("changed", f"link {link.name}: {what}capacity {_capacity(link)} to {plain(capacity)}{_gone(link)}")
    return replace(link, capacity=capacity, modules=())


def _times(link: Link, factor: Fraction, edit: Edit, notes: Notes) -> Link:
    """The link with its capacity and those of its modules times a factor."""
    if link.capacity is None:
        raise Refused(f"{edit}: the link has no capacity")
    modules = tuple((size * factor, cost) for size, cost in link.modules)
    more = f", and those of {len(modules)} modules" if modules else ""
    notes.say("changed", f"link {link.name}: capacity {_capacity(link)} to {plain(link.capacity * factor)}{more}")
    return replace(link, capacity=link.capacity * factor, modules=modules)


def _capacity(link: Link) -> str:
    """The capacity that a link had."""
    return "none" if link.capacity is None else plain(link.capacity)


def _gone(link: Link) -> str:
    """What goes with a capacity that is given anew."""
    return f", without its {len(link.modules)} modules" if link.modules else ""


def _factor(edit: Edit) -> Fraction:
    """The factor of a change."""
    factor = number(edit.word, str(edit))
    if not is_fine(factor):
        raise Refused(f"{edit}: {edit.word} has more than {MAX_DECIMALS} decimals")
    return factor


def _matrices(network: Network, edits: list[Edit], notes: Notes) -> list[Matrix]:
    """The matrices, the demands that are named with their values times a factor, in each matrix that has them."""
    factors: dict[str, Fraction] = {}
    there = {demand.name for matrix in network.matrices for demand in matrix.demands}
    for edit in edits:
        if edit.name not in there:
            raise Refused(f"{edit}: there is no such demand")
        if edit.name in factors:
            raise Refused(f"{edit} is given twice")
        factors[edit.name] = _factor(edit)
    if not factors:
        return network.matrices
    return [Matrix(m.name, [_demand(m, d, factors[d.name], notes) if d.name in factors else d for d in m.demands])
            for m in network.matrices]  # fmt: skip


def _demand(matrix: Matrix, demand: Demand, factor: Fraction, notes: Notes) -> Demand:
    where = f"matrix {matrix.name}: " if matrix.name else ""
    notes.say("changed", f"{where}demand {demand.name}: {plain(demand.amount)} to {plain(demand.amount * factor)}")
    return replace(demand, value=demand.value * factor)
