"""Made-up demands for networks that come without any: those of the gravity model."""

from __future__ import annotations

from dataclasses import replace
from fractions import Fraction
from itertools import combinations, permutations

from ..limits import MAX_DECIMALS, WIDE
from .model import Demand, Matrix, Network, Notes, Refused
from .numbers import plain, rounded
from .words import Words


def with_gravity(network: Network, total: Fraction, notes: Notes) -> Network:
    """The network with demands between all nodes, in proportion to the capacities at both ends, and of that total.

    Where both ways between two nodes share a capacity there is one demand for both, else one in each way. Amounts are rounded to millionths.
    """
    if any(matrix.demands for matrix in network.matrices):
        raise Refused("--gravity makes demands up where no file has any, and some file has")
    weights = {node.name: Fraction(0) for node in network.nodes}
    for link in network.links:
        size = (link.capacity or Fraction(0)) + max((size for size, _ in link.modules), default=Fraction(0))
        for end in {link.source, link.target}:
            weights[end] += size
    ends = [name for name, weight in weights.items() if weight]
    shared = network.links_mode in (None, "undirected")
    pairs = list(combinations(ends, 2) if shared else permutations(ends, 2))
    if len(pairs) > WIDE.demands:
        raise Refused(f"--gravity makes {len(pairs):,} demands between {len(ends):,} nodes: at most {WIDE.demands:,} are taken")
    if not pairs:
        raise Refused("--gravity makes demands up between nodes whose links have capacities, and there are no two")
    whole = sum((weights[a] * weights[b] for a, b in pairs), Fraction(0))
    words = Words("demand", notes)
    amounts = [rounded(total * weights[a] * weights[b] / whole, MAX_DECIMALS) for a, b in pairs]
    demands = [Demand(words.word("", f"{a}-{b}"), a, b, amount) for (a, b), amount in zip(pairs, amounts)]
    notes.say("made up", f"{len(demands)} demands of {plain(sum(amounts, Fraction(0)))} in all, by capacities at both ends")
    return replace(network, matrices=[Matrix("gravity", demands)])
