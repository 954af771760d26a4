"""The calls of the kernel by numpy and scipy alone, for systems without a compiler: slower, and the start moves roots in groups."""

from __future__ import annotations

import numpy as np
from scipy.sparse import csr_matrix
from scipy.sparse.csgraph import dijkstra

from mcf.lp.arrays import Array

from .network import Graph

FAR = 1 << 62
_GROUPS = 16
_STEPS = 40
_AT_ONCE = 1000


class Plain:
    """What `Kernel` does, without it."""

    def passes(self, graph: Graph, room: Array, sources: Array, wanted: Array, passes: int, steep: float, growth: float
               ) -> tuple[Array, Array, Array]:
        """Trees of each pass and source, which part of each source's flow is on each, and the flow of each source in each cell."""
        before = np.full((passes, len(sources), graph.nodes), -1, np.int16)
        parts, flows = np.zeros((passes, len(sources))), np.zeros((len(sources), graph.cells))
        for number in range(passes):
            for group in np.array_split(np.arange(len(sources)), min(_GROUPS, len(sources))):
                full = flows.sum(0) * room
                top = float(full.max()) or 1.0
                price = (np.exp(steep * (full / top - 1)) + 1e-9) * room
                before[number, group], _ = self.trees(graph, price, sources[group], wanted[group])
                trees = self.loads(graph, before[number, group], group, wanted, np.arange(graph.cells), graph.cells)
                step = (trees - flows[group]).sum(0) * room / top
                part = _part_to_move(full / top, step, steep) if number else 1.0
                flows[group] += part * (trees - flows[group])
                parts[:number, group] *= 1 - part
                parts[number, group] = part
            steep *= growth
        return before, parts, flows

    def trees(self, graph: Graph, price: Array, sources: Array, wanted: Array) -> tuple[Array, Array]:
        """The shortest tree of each source, and what its targets cost."""
        lookup, matrix = _shortest_arcs(graph, price)
        before, cost = np.empty((len(sources), graph.nodes), np.int16), np.empty(len(sources))
        for at in range(0, len(sources), _AT_ONCE):
            some = slice(at, at + _AT_ONCE)
            far, previous = dijkstra(matrix, indices=sources[some], return_predecessors=True)
            arcs = _arcs_before(lookup, previous)
            cost[some] = np.where(wanted[some] > 0, wanted[some] * far, 0).sum(1)
            carried, _ = _carried(graph, arcs, wanted[some])
            before[some] = np.where(carried > 0, arcs, -1)
        return before, cost

    def distances(self, graph: Graph, length: Array, sources: Array) -> Array:
        """Distances from each source to all nodes, in whole numbers: those of floating point, as far as these are exact, then repaired."""
        lookup, matrix = _shortest_arcs(graph, length.astype(np.float64))
        _, previous = dijkstra(matrix, indices=sources, return_predecessors=True)
        arcs = _arcs_before(lookup, previous)
        of_arc = np.append(length[graph.cell], 0)
        far = _sums_to_root(graph, arcs, of_arc[arcs])
        far[(arcs < 0) & (np.arange(graph.nodes) != sources[:, None])] = FAR
        order = np.argsort(graph.head, kind="stable")
        heads, first = np.unique(graph.head[order], return_index=True)
        while len(heads):
            over = far[:, graph.tail[order]] + length[graph.cell[order]]
            shorter = np.minimum(np.minimum.reduceat(over, first, axis=1), far[:, heads])
            if np.array_equal(shorter, far[:, heads]):
                break
            far[:, heads] = shorter
        return far

    def loads(self, graph: Graph, before: Array, of_source: Array, wanted: Array, row: Array, rows: int) -> Array:
        """The loads of trees in the cells that have a row."""
        _, loads = _carried(graph, before, wanted[of_source])
        found = np.zeros((len(before), rows))
        found[:, row[row >= 0]] = loads[:, row >= 0]
        return found


def _shortest_arcs(graph: Graph, price: Array) -> tuple[Array, csr_matrix]:
    """The cheapest arc between each two nodes, and a matrix of what these cost."""
    order = np.lexsort((-price[graph.cell], graph.head, graph.tail))
    lookup = np.full((graph.nodes, graph.nodes), -1, np.int32)
    lookup[graph.tail[order], graph.head[order]] = order
    best = np.flatnonzero(lookup[graph.tail, graph.head] == np.arange(graph.arcs))
    # (scipy takes an arc of cost 0 for none, unless it is stored)
    return lookup, csr_matrix((price[graph.cell[best]], (graph.tail[best], graph.head[best])), (graph.nodes, graph.nodes))


def _arcs_before(lookup: Array, previous: Array) -> Array:
    """The arc to each node by the node before it, -1 where there is none."""
    return np.where(previous >= 0, lookup[np.maximum(previous, 0), np.arange(previous.shape[1])], -1)


def parents(graph: Graph, before: Array) -> Array:
    """The node before each in some trees; its own number where there is none."""
    tails: Array = np.append(graph.tail, -1).astype(np.int64)[before]
    return np.where(tails >= 0, tails, np.arange(before.shape[1]))


def _sums_to_root(graph: Graph, before: Array, values: Array) -> Array:
    """The sum of values of nodes up to the root of each tree, that of the root excluded, by doubling steps."""
    above = parents(graph, before)
    found = np.where(before >= 0, values, 0)
    while True:
        further = np.take_along_axis(above, above, 1)
        found = found + np.take_along_axis(found, above, 1)
        if np.array_equal(further, above):
            return found
        above = further


def sums_to_root(graph: Graph, before: Array, of_arc: Array) -> Array:
    """The sum of the values of the arcs from the root to each node of some trees."""
    return _sums_to_root(graph, before, np.append(of_arc, of_arc.dtype.type(0))[before])


def depths(graph: Graph, before: Array) -> Array:
    """How many arcs each node of some trees is below the root."""
    return sums_to_root(graph, before, np.ones(graph.arcs, np.int32))


def _carried(graph: Graph, before: Array, wanted: Array) -> tuple[Array, Array]:
    """What goes to each node of trees and beyond, and the loads of all cells of each tree; numbers are of the kind that is wanted."""
    carried = wanted.copy()
    loads = np.zeros((len(before), graph.cells), wanted.dtype)
    trees, nodes = np.nonzero(before >= 0)
    deep = depths(graph, before)[trees, nodes]
    order = np.argsort(-deep, kind="stable")
    trees, nodes = trees[order], nodes[order]
    levels = np.flatnonzero(np.diff(deep[order])) + 1
    for first, end in zip([0, *levels], [*levels, len(order)]):
        tree, node = trees[first:end], nodes[first:end]
        arc = before[tree, node]
        np.add.at(carried, (tree, graph.tail[arc]), carried[tree, node])
        loads[tree, graph.cell[arc]] = carried[tree, node]
    return carried, loads


def whole_loads(graph: Graph, before: Array, weights: Array) -> Array:
    """The loads of all cells where trees carry whole weights to their nodes, exactly: no sum is above 2^62."""
    total = np.zeros(graph.cells, np.int64)
    for at in range(0, len(before), _AT_ONCE):
        total += _carried(graph, before[at:at + _AT_ONCE], weights[at:at + _AT_ONCE])[1].sum(0)
    return total


def _part_to_move(full: Array, step: Array, steep: float) -> float:
    """How much goes over, so that the sum of exponentials is least."""
    if _slope(full + step, step, steep) <= 0:
        return 1.0
    low, high = 0.0, 1.0
    for _ in range(_STEPS):
        part = (low + high) / 2
        low, high = (part, high) if _slope(full + part * step, step, steep) <= 0 else (low, part)
    return (low + high) / 2


def _slope(full: Array, step: Array, steep: float) -> float:
    """The slope of the sum of exponentials along a step, up to a factor."""
    power = steep * full
    return float(step @ np.exp(power - power.max()))
