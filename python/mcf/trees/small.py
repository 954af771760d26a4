"""Whole weights where there are few paths, with what the program over paths does for its own: the best number of phases, and repairs."""

from __future__ import annotations

from fractions import Fraction

import numpy as np
from scipy.sparse import csc_matrix

from mcf.lp.build import take
from mcf.lp.problem import Walk
from mcf.lp.rounding import Rounding

from .pool import Trees
from .problem import Problem
from .rows import PathRows, Shares

FEW = 100_000
"""Up to how many paths this is done."""


def repaired_rows(problem: Problem, trees: Trees, shares: Shares, aim: Fraction, enough: Fraction, deadline: float) -> PathRows:
    """The rows that carry most, of those that are tried until enough is carried or the deadline comes."""
    nodes = problem.network.graph.nodes
    keys, pair = np.unique(shares.root.astype(np.int64) * nodes + shares.end, return_inverse=True)
    of = np.searchsorted(keys, problem.root.astype(np.int64) * nodes + problem.end)
    amounts = [0] * len(keys)
    for number, amount in zip(of.tolist(), problem.network.amount.tolist()):
        amounts[number] += amount
    flows = shares.part * np.array(amounts, np.float64)[pair]
    rounding = Rounding(_cells_by_walks(problem, trees, shares), pair, amounts, problem.network.capacity.tolist(), flows)
    whole = rounding.best(aim, enough, deadline)
    left: list[list[tuple[Walk, int]]] = [[] for _ in keys]
    for number, tree, weight in zip(pair.tolist(), shares.tree.tolist(), whole.weights):
        if weight:
            left[number].append(((tree,), weight))
    rows = [(commodity, tree, weight) for commodity, (number, amount) in enumerate(zip(of.tolist(), problem.network.amount.tolist()))
            for (tree,), weight in sorted(take(left[number], whole.units * amount))]
    table = np.array(rows, np.int64)
    return PathRows(table[:, 0].astype(np.int32), table[:, 1].astype(np.int32), table[:, 2], whole.phases, whole.capacity, whole.load)


def _cells_by_walks(problem: Problem, trees: Trees, shares: Shares) -> csc_matrix:
    """Which cells each path has."""
    graph = problem.network.graph
    node, found = shares.end.astype(np.int64), []
    at = np.arange(len(node))
    while len(at):
        arc = trees.before[shares.tree[at], node[at]]
        at, arc = at[arc >= 0], arc[arc >= 0]
        found.append((at, graph.cell[arc]))
        node[at] = graph.tail[arc]
    walk, cell = (np.concatenate(arrays) for arrays in zip(*found))
    return csc_matrix((np.ones(len(walk)), (cell, walk)), (graph.cells, len(shares.end)))
