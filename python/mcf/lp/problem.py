"""The flow problem behind a network: pairs of nodes in place of demands, arcs in place of cells, and shortest paths."""

from __future__ import annotations

from dataclasses import dataclass
from typing import Sequence

import numpy as np
from scipy.sparse import csr_matrix
from scipy.sparse.csgraph import dijkstra

from mcf import ScaledNetwork

from .arrays import Array

Walk = tuple[int, ...]

UNLIMITED = -1
"""The limit of a pair that has none."""


@dataclass(frozen=True)
class Pairs:
    """All demands between two nodes with one limit of cells as one; where links are undirected, also those of the opposite way.

    `of_commodity` is each commodity's pair, and `turned` says whether it goes from the pair's target to its source.
    """

    source: Array
    target: Array
    limit: Array
    amount: Array
    of_commodity: Array
    turned: Array


def pairs_of(scaled: ScaledNetwork, limits: Sequence[int | None] | None = None) -> Pairs:
    """The pairs of a network, in the order of their first commodity; `limits` are those of the commodities, none where not given."""
    number: dict[tuple[int, int, int], int] = {}
    amounts: list[int] = []
    of_commodity, turned = [], []
    merge = scaled.links == "undirected"
    for commodity, limit in zip(scaled.commodities, limits or [None] * len(scaled.commodities)):
        most = UNLIMITED if limit is None else limit
        there, back = (commodity.source, commodity.target, most), (commodity.target, commodity.source, most)
        turn = merge and there not in number and back in number
        pair = number.setdefault(back if turn else there, len(amounts))
        if pair == len(amounts):
            amounts.append(0)
        amounts[pair] += commodity.amount
        of_commodity.append(pair)
        turned.append(turn)
    table = np.array(list(number), np.int64).reshape(-1, 3)
    source, target, most_cells = table.T
    return Pairs(source, target, most_cells, np.array(amounts, np.int64), np.array(of_commodity), np.array(turned))


class Arcs:
    """The ways over cells with capacity, and shortest paths over them; `table` has the tail, head and cell of each."""

    def __init__(self, scaled: ScaledNetwork) -> None:
        """Arcs of a network; a cell that is used both ways has two."""
        ways = [(cell.tail, cell.head, number) for number, cell in enumerate(scaled.cells) if cell.capacity]
        ways += [(cell.head, cell.tail, number) for number, cell in enumerate(scaled.cells) if cell.capacity and cell.both]
        ways = sorted(way for way in ways if way[0] != way[1])
        table = np.array(ways, np.int64).reshape(-1, 3)
        self.nodes = len(scaled.network.nodes)
        self.table = table
        self._cell = table[:, 2]
        ends = table[:, 0] * self.nodes + table[:, 1]
        self._ends, self._first = np.unique(ends, return_index=True)
        self._of_arc = np.searchsorted(self._ends, ends)
        columns = self._ends % self.nodes
        rows = np.searchsorted(self._ends // self.nodes, np.arange(self.nodes + 1))
        self._graph = csr_matrix((np.ones(len(columns)), columns, rows), (self.nodes, self.nodes))
        self._best = np.zeros(len(self._ends), np.int64)

    def distances(self, lengths: Array, sources: Array) -> tuple[Array, Array]:
        """Distances from sources to all nodes, and the node before each on a shortest path; exact for whole lengths of few bits.

        Of parallel cells the shortest one is used, the first of equal ones.
        """
        if not len(self._ends):
            shape = len(sources), self.nodes
            found = np.full(shape, np.inf)
            found[np.arange(len(sources)), sources] = 0
            return found, np.full(shape, -9999, np.int32)
        values = np.asarray(lengths, np.float64)[self._cell]
        order = np.lexsort((np.arange(len(values)), values, self._of_arc))
        self._best = order[np.searchsorted(self._of_arc[order], np.arange(len(self._ends)))]
        self._graph.data = values[self._best]
        distances, before = dijkstra(self._graph, indices=sources, return_predecessors=True)
        return distances, before

    def walk(self, before: Array, source: int, target: int) -> Walk:
        """The cells of the path that a row of predecessors has, for the lengths of the last call of `distances`."""
        cells = []
        node = target
        while node != source:
            previous = int(before[node])
            arc = int(np.searchsorted(self._ends, previous * self.nodes + node))
            cells.append(int(self._cell[self._best[arc]]))
            node = previous
        return tuple(reversed(cells))
