"""Small networks that hypothesis draws, and the greatest fraction of each by a program that shares nothing with the tools."""

from __future__ import annotations

from dataclasses import replace
from fractions import Fraction

import numpy as np
from hypothesis import strategies as st
from scipy.optimize import linprog

from mcf import Demand, Link, Node, ScaledNetwork, scale
from mcf.network import Network

CAPACITIES = ("2", "3", "5", "1", "7", "4", "0.5", "6", "1", "2", "3", "0")
AMOUNTS = ("1", "2", "0.5", "3")


@st.composite
def small_networks(draw: st.DrawFn) -> Network:
    """Three to five nodes in a row or a ring, with further links that may be parallel, and one to four demands."""
    names = [f"N{number}" for number in range(draw(st.integers(3, 5)))]
    ends = list(zip(names, [*names[1:], names[0]]))[draw(st.sampled_from((0, 0, 0, 1))):]
    ends += draw(st.lists(st.tuples(st.sampled_from(names), st.sampled_from(names)), max_size=3))
    ends = [pair for pair in ends if pair[0] != pair[1]]
    links = [Link(f"L{number}", *pair, draw(st.sampled_from(CAPACITIES))) for number, pair in enumerate(ends)]
    pairs = st.tuples(st.sampled_from(names), st.sampled_from(names)).filter(lambda pair: pair[0] != pair[1])
    wanted = draw(st.lists(pairs, min_size=1, max_size=4))
    demands = [Demand(f"D{number}", *pair, "1", draw(st.sampled_from(AMOUNTS))) for number, pair in enumerate(wanted)]
    return Network(tuple(map(Node, names)), tuple(links), tuple(demands))


def with_capacity(network: Network, at: int, factor: int) -> Network:
    """The network with one link's capacity times a factor."""
    link = replace(network.links[at], capacity=f"{float(network.links[at].capacity) * factor:g}")
    return replace(network, links=(*network.links[:at], link, *network.links[at + 1:]))


def greatest(network: Network, links: str = "undirected") -> float:
    """The greatest fraction of every demand, by HiGHS over a flow on each way for each demand."""
    return greatest_of(scale(network, links))


def greatest_of(scaled: ScaledNetwork) -> float:
    """The same for a network in units."""
    ways = [(cell.tail, cell.head, number) for number, cell in enumerate(scaled.cells)]
    ways += [(cell.head, cell.tail, number) for number, cell in enumerate(scaled.cells) if cell.both]
    nodes, count, demands = len(scaled.network.nodes), len(ways), scaled.commodities
    balance = np.zeros((len(demands) * nodes, len(demands) * count + 1))
    room = np.zeros((len(scaled.cells), len(demands) * count + 1))
    for number, demand in enumerate(demands):
        for way, (tail, head, cell) in enumerate(ways):
            column = number * count + way
            balance[number * nodes + tail, column] += 1
            balance[number * nodes + head, column] -= 1
            room[cell, column] += 1
        balance[number * nodes + demand.source, -1] = -demand.amount
        balance[number * nodes + demand.target, -1] = demand.amount
    cost = np.zeros(balance.shape[1])
    cost[-1] = -1
    answer = linprog(cost, room if len(room) else None, [cell.capacity for cell in scaled.cells] or None, balance,
                     np.zeros(len(balance)), method="highs")
    assert answer.status == 0, answer.message
    return float(answer.x[-1])


def near(value: Fraction, other: float) -> bool:
    """Whether a fraction is that of the linear program, up to its accuracy."""
    return abs(float(value) - other) <= 1e-6 * max(1.0, abs(other))
