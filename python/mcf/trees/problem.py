"""What trees carry: from each root to the other ends of its pairs."""

from __future__ import annotations

from dataclasses import dataclass

import numpy as np

from mcf.lp.arrays import Array

from .network import Large


@dataclass(frozen=True)
class Problem:
    """The pairs of a network by roots: `wanted` has a row for each root, with what its trees carry to each node; `per_unit` is one over
    the capacity of each cell, 0 where it has none. Each commodity has the row of its root, and its other end; `turned` says whether it
    goes to the root."""

    network: Large
    roots: Array
    wanted: Array
    per_unit: Array
    root: Array
    end: Array
    turned: Array

    @property
    def pairs(self) -> int:
        """How many pairs there are."""
        return int((self.wanted > 0).sum())


def problem_of(network: Large) -> Problem:
    """The roots of a network; where links are undirected, a pair's both ways are one, rooted at the end that has less to carry."""
    nodes = network.graph.nodes
    table = np.bincount(network.source.astype(np.int64) * nodes + network.target, network.amount, nodes * nodes).reshape(nodes, nodes)
    turned = np.zeros(len(network.source), bool)
    if network.links == "undirected":
        both = table + table.T
        total = both.sum(1)
        rank = np.empty(nodes, np.int64)
        rank[np.lexsort((np.arange(nodes), total))] = np.arange(nodes)
        table = np.where(rank[:, None] < rank[None, :], both, 0)
        turned = rank[network.source] > rank[network.target]
    roots = np.flatnonzero(table.any(1)).astype(np.int32)
    row = np.zeros(nodes, np.int32)
    row[roots] = np.arange(len(roots))
    root, end = np.where(turned, network.target, network.source), np.where(turned, network.source, network.target)
    per_unit = np.where(network.capacity > 0, 1 / np.maximum(network.capacity, 1), 0.0)
    return Problem(network, roots, np.ascontiguousarray(table[roots]), per_unit, row[root], end.astype(np.int32), turned)
