"""The trees that the master problem knows."""

from __future__ import annotations

from dataclasses import dataclass
from typing import Protocol

import numpy as np
from scipy.sparse import csr_matrix, vstack

from mcf.lp.arrays import Array

from .network import Graph
from .problem import Problem

_SOME = 1000


class Search(Protocol):
    """What `Kernel` and `Plain` do."""

    def passes(self, graph: Graph, room: Array, sources: Array, wanted: Array, passes: int, steep: float, growth: float
               ) -> tuple[Array, Array, Array]:
        """Trees of each pass and source, which part of each source's flow is on each, and the flow of each source in each cell."""

    def trees(self, graph: Graph, price: Array, sources: Array, wanted: Array) -> tuple[Array, Array]:
        """The shortest tree of each source, and what its targets cost."""

    def distances(self, graph: Graph, length: Array, sources: Array) -> Array:
        """Distances from each source to all nodes, in whole numbers."""

    def loads(self, graph: Graph, before: Array, of_source: Array, wanted: Array, row: Array, rows: int) -> Array:
        """The loads of trees in the cells that have a row."""


@dataclass(frozen=True)
class Trees:
    """Trees, those of one root side by side: the arc to each node, the row of the root, the part of its flow that is on the tree, and
    how full the tree makes each cell where all of it is, in a unit of its own."""

    before: Array
    root: Array
    part: Array
    fullness: csr_matrix

    def first(self) -> Array:
        """The first tree of each root; each has one."""
        return np.flatnonzero(np.diff(self.root, prepend=-1))

    def some(self, which: Array) -> Trees:
        """Some of the trees."""
        before, root = (np.ascontiguousarray(array[which]) for array in (self.before, self.root))
        return Trees(before, root, self.part[which], self.fullness[which])

    def with_parts(self, part: Array) -> Trees:
        """The same trees with other parts, which are made such that those of a root sum to 1."""
        part = np.maximum(part, 0)
        sums = np.add.reduceat(part, self.first())
        return Trees(self.before, self.root, part / sums[self.root], self.fullness)

    def full(self) -> Array:
        """How full all trees together make each cell."""
        found: Array = self.fullness.T @ self.part
        return found


def trees_of(problem: Problem, search: Search, before: Array, root: Array, part: Array, unit: float) -> Trees:
    """Trees in the order of roots, each once; `unit` is the fullness that counts as 1."""
    keys = np.random.default_rng(1).integers(1, 1 << 63, before.shape[1], np.uint64)
    spread = np.concatenate([before[at:at + _SOME].astype(np.uint64) @ keys for at in range(0, len(before), _SOME)])
    _, kept, of = np.unique(np.stack([root.astype(np.uint64), spread], 1), axis=0, return_index=True, return_inverse=True)
    before, root = np.ascontiguousarray(before[kept]), np.ascontiguousarray(root[kept], np.int32)
    graph, rows = problem.network.graph, np.arange(problem.network.graph.cells, dtype=np.int32)
    blocks = []
    for at in range(0, len(before), _SOME):
        some = slice(at, at + _SOME)
        loads = search.loads(graph, before[some], root[some], problem.wanted, rows, len(rows))
        blocks.append(csr_matrix(loads * (problem.per_unit / unit)))
    return Trees(before, root, np.bincount(of, part, len(kept)), vstack(blocks).tocsr())


def joined(one: Trees, other: Trees) -> Trees:
    """The trees of both, in the order of roots."""
    root = np.concatenate([one.root, other.root])
    order = np.argsort(root, kind="stable")
    return Trees(np.concatenate([one.before, other.before])[order], root[order], np.concatenate([one.part, other.part])[order],
                 vstack([one.fullness, other.fullness]).tocsr()[order])
