"""From trees to weighted paths of commodities, in whole numbers, with their loads."""

from __future__ import annotations

from dataclasses import dataclass
from fractions import Fraction

import numpy as np

from mcf.lp.arrays import Array
from mcf.lp.rounding import fullest as fullest_of

from .plain import sums_to_root, whole_loads
from .pool import Trees
from .problem import Problem

PHASES = 65536
_BITS = 30
_SOME = 1000


@dataclass(frozen=True)
class Shares:
    """Each path of each pair once: the row of its root and its other end, a tree that has it, and which part of the pair is on it. Those
    of one pair stand side by side."""

    root: Array
    end: Array
    tree: Array
    part: Array


@dataclass(frozen=True)
class PathRows:
    """Rows of paths by commodity: the tree along which each goes, and its weight; the phases, and the fullest cell's capacity and load."""

    commodity: Array
    tree: Array
    weight: Array
    phases: int
    capacity: int
    load: int

    @property
    def lower(self) -> Fraction:
        """The fraction that is carried."""
        return Fraction(self.phases * self.capacity, self.load)


def shares_of(problem: Problem, trees: Trees) -> Shares:
    """The paths of trees; those of one root that have the same links are one path."""
    graph = problem.network.graph
    keys = np.random.default_rng(2).integers(1, 1 << 63, graph.arcs, np.uint64)
    first = np.append(trees.first(), len(trees.root))
    found: list[tuple[Array, ...]] = []
    for begun in range(0, len(first) - 1, _SOME):
        roots = range(begun, min(begun + _SOME, len(first) - 1))
        some = slice(first[roots[0]], first[roots[-1] + 1])
        sums = sums_to_root(graph, trees.before[some], keys)
        for root in roots:
            mine = slice(first[root], first[root + 1])
            found.append(_of_root(problem, trees, root, mine, sums[mine.start - some.start:mine.stop - some.start]))
    return Shares(*(np.concatenate(arrays) for arrays in zip(*found)))


def _of_root(problem: Problem, trees: Trees, root: int, some: slice, sums: Array) -> tuple[Array, ...]:
    """The paths of one root's trees, by their ends; `sums` tell paths apart."""
    ends = np.flatnonzero(problem.wanted[root] > 0)
    keys = sums[:, ends]
    order = np.argsort(keys, axis=0, kind="stable")
    keys = np.take_along_axis(keys, order, 0).T
    new = np.ones(keys.shape, bool)
    new[:, 1:] = keys[:, 1:] != keys[:, :-1]
    begun = np.flatnonzero(new)
    part = np.add.reduceat(trees.part[some][order].T.ravel(), begun)
    tree = order.T.ravel()[begun] + some.start
    return np.full(len(begun), root, np.int32), np.repeat(ends, new.sum(1)).astype(np.int32), tree.astype(np.int32), part


def rows_of(problem: Problem, trees: Trees, shares: Shares) -> PathRows:
    """The rows of all commodities, weights rounded to the nearest units; a commodity's heaviest path takes what the others leave."""
    nodes = problem.network.graph.nodes
    pair = shares.root.astype(np.int64) * nodes + shares.end
    first = np.flatnonzero(np.diff(pair, prepend=-1))
    place = np.zeros(len(problem.roots) * nodes, np.int64)
    place[pair[first]] = np.arange(len(first))
    count = np.diff(np.append(first, len(pair)))
    of = place[problem.root.astype(np.int64) * nodes + problem.end]
    commodity = np.repeat(np.arange(len(of)), count[of])
    begun = np.concatenate([[0], np.cumsum(count[of])])
    share = np.arange(begun[-1]) - np.repeat(begun[:-1], count[of]) + np.repeat(first[of], count[of])
    weight = weights_of(problem.network.amount * PHASES, commodity, begun[:-1], shares.part[share])
    kept = np.flatnonzero(weight)
    commodity, tree, weight = commodity[kept].astype(np.int32), shares.tree[share[kept]], weight[kept]
    return PathRows(commodity, tree, weight, PHASES, *fullest(problem, trees, commodity, tree, weight))


def weights_of(whole: Array, owner: Array, begun: Array, part: Array) -> Array:
    """Whole weights in the ratio of parts, which sum to a whole number for each owner: up to 2^60, of parts of 2^-30."""
    share = np.floor(part * (1 << _BITS)).astype(np.int64)
    mine, mask = whole[owner], np.int64((1 << _BITS) - 1)
    low = (mine & mask) * share
    weight = (mine >> _BITS) * share + (low >> _BITS)
    nearest = weight + ((low >> (_BITS - 1)) & 1)
    order = np.lexsort((-part, owner))
    main = order[begun]
    tried: Array
    for tried in (nearest, weight):
        tried[main] = 0
        tried[main] = whole - np.add.reduceat(tried, begun)
        if (tried[main] >= 0).all():
            return tried
    raise AssertionError("rounded down, weights are never more than the whole")


def fullest(problem: Problem, trees: Trees, commodity: Array, tree: Array, weight: Array) -> tuple[int, int]:
    """Capacity and load of the fullest cell, the first of equal ones."""
    carried = np.zeros(trees.before.shape, np.int64)
    np.add.at(carried, (tree, problem.end[commodity]), weight)
    loads = whole_loads(problem.network.graph, trees.before, carried)
    return fullest_of(loads.tolist(), problem.network.capacity.tolist())
