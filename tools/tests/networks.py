"""Networks for tests: drawn ones with everything odd in them, and an arc program of scipy's HiGHS to compare with."""

from __future__ import annotations

import random
from fractions import Fraction

from arc_program import arc_program, by_highs
from mcf import Demand, Link, Module, Node, ScaledNetwork
from mcf.network import Network

_CAPACITIES = (["1", "2", "3", "10"], ["0", "5", "7.5", ".25"], ["8796093", "1", "3"], ["0.000001", "1", "12.5"], ["155", "622", "2480"])
_AMOUNTS = (["1", "2", "5"], ["0.5", "1.25", "3"], ["0", "1", "1000"], ["0.000004", "2"], ["7", "11", "13"])


def odd_network(seed: int) -> Network:
    """A small network with loops, parallel links, capacity 0, opposite and equal demands, decimals, and nodes without a way."""
    draw = random.Random(seed)
    count = draw.randrange(2, 12)
    names = [f"N{i}" for i in range(count)]
    capacities, amounts = draw.choice(_CAPACITIES), draw.choice(_AMOUNTS)
    joined = [(names[i], names[(i + 1) % count]) for i in range(count - draw.choice((0, 0, 0, 1)))]
    more = [(draw.choice(names), draw.choice(names)) for _ in range(draw.randrange(2 * count))]
    if draw.random() < 0.5:
        more += [(target, source) for source, target in joined + more]
    links = []
    for number, (source, target) in enumerate(joined + more):
        modules = tuple(Module(draw.choice(capacities), "1") for _ in range(draw.randrange(3)))
        links.append(Link(f"L{number}", source, target, draw.choice(capacities), modules=modules))
    demands = []
    for number in range(draw.randrange(1, 4 * count)):
        ends = draw.choice(names), draw.choice(names)
        demands.append(Demand(f"D{number}", *ends, draw.choice(("1", "1", "0.5", "2")), draw.choice(amounts)))
    demands.append(Demand("D", names[0], names[1], "1", "1"))
    return Network(tuple(map(Node, names)), tuple(links), tuple(demands))


def arc_optimum(scaled: ScaledNetwork) -> float:
    """The greatest fraction by the program over arcs, solved by HiGHS."""
    fraction, _ = by_highs(arc_program(scaled), "highs", 600.0)
    assert fraction is not None
    return fraction


def near(value: Fraction, other: float) -> bool:
    """Whether a fraction is a number of the linear program's accuracy."""
    return abs(float(value) - other) <= 1e-6 * max(1.0, abs(other))
