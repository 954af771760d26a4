"""The best convex combination of trees: a start, and rounds of the master problem and of new trees; then as few trees as carry it."""

from __future__ import annotations

import time
from collections.abc import Callable
from dataclasses import dataclass
from enum import Enum

import numpy as np

from mcf.lp.arrays import Array

from .master import Columns, Master, Point
from .pool import Search, Trees, joined, trees_of
from .problem import Problem

PASSES = 14
STEEP = 4.0
GROWTH = 1.4
ROUNDS = 60
_STEEPS = 6
_FLOOR = 1e-4
_NEAR = 0.95
_NEAREST = 1e-8


class Stop(Enum):
    """Why the search for trees stopped."""

    GAP = "the gap is reached"
    TREES = "no further tree is worth adding to the linear program, and its flows in whole numbers carry no more"
    ROUNDS = "the linear program had as many rounds as it may have"
    SECONDS = "the seconds were over"


@dataclass
class Optimum:
    """Trees with their parts, the greatest fullness and a bound on it, both as parts of that of the start; prices that give the bound;
    how many trees were columns at most."""

    trees: Trees
    full: float
    bound: float
    price: Array
    rounds: int
    stop: Stop
    columns: int

    @property
    def gap(self) -> float:
        """By what part the fullness is above the bound."""
        return self.full / self.bound - 1 if self.bound > 0 else np.inf


class TreeProgram:
    """The linear program over trees of a problem."""

    def __init__(self, problem: Problem, search: Search) -> None:
        """Makes the start."""
        self._problem, self._search = problem, search
        graph = problem.network.graph
        before, parts, flows = search.passes(graph, problem.per_unit, problem.roots, problem.wanted, PASSES, STEEP, GROWTH)
        full = flows.sum(0) * problem.per_unit
        self._unit = float(full.max())
        root = np.repeat(np.arange(len(problem.roots), dtype=np.int32), PASSES)
        trees = trees_of(problem, search, before.transpose(1, 0, 2).reshape(-1, graph.nodes), root, parts.T.ravel(), self._unit)
        self._share, price, bound = self._priced(full / self._unit)
        self.best = Optimum(trees.with_parts(trees.part), 1.0, bound, price, 0, Stop.ROUNDS, len(trees.part))

    def _priced(self, full: Array) -> tuple[Array, Array, float]:
        """Shares of links in exponential prices by their fullness, these prices, and their bound: as steep as bounds best."""
        problem, best = self._problem, (np.zeros(0), np.zeros(0), -np.inf)
        for halved in range(_STEEPS):
            share = np.exp(STEEP * GROWTH ** (PASSES - 1) / 2**halved * (full - 1)) * (problem.per_unit > 0)
            share /= share.sum()
            price = share * problem.per_unit
            _, cost = self._search.trees(problem.network.graph, price, problem.roots, problem.wanted)
            if float(cost.sum()) / self._unit > best[2]:
                best = share, price, float(cost.sum()) / self._unit
        return best

    def optimise(self, gap: float, deadline: float, told: Callable[[Optimum], None]) -> Optimum:
        """The optimum, as far as the gap that is wanted or the deadline; what is known is told after each round."""
        trees, share, near = self.best.trees, self._share, min(self.best.gap, 0.1)
        while self.best.stop is Stop.ROUNDS and self.best.rounds < ROUNDS and self.best.gap > gap:
            trees, point = self._solved(trees, share, near, deadline)
            added = self._judged(trees, point)
            share = point.price / point.price.sum()
            told(self.best)
            if time.monotonic() >= deadline:
                self.best.stop = Stop.SECONDS
            elif added is not None:
                trees = joined(trees, added)
            elif near <= _NEAREST:
                self.best.stop = Stop.TREES
            # (where no tree is better, the combination has to be)
            near = max(min(self.best.gap, near if added is not None else 0.01 * near), _NEAREST)
        if self.best.gap <= gap:
            self.best.stop = Stop.GAP
        return self.best

    def _solved(self, trees: Trees, share: Array, near: float, deadline: float) -> tuple[Trees, Point]:
        """The master problem of some trees, from shares of prices that are about right."""
        columns = Columns(trees.fullness, trees.first())
        part = np.where(trees.part > 0, np.maximum(trees.part, _FLOOR if not self.best.rounds else 0), _FLOOR)
        part /= columns.sums(part)[columns.source]
        full = columns.full(part)
        top = float(full.max()) * 1.0005
        room = top - full
        links = np.flatnonzero((full > _NEAR * top) | (share > 1e-4))
        mean = max(near, 1e-6) / (len(part) + len(links))
        price = np.zeros(len(full))
        price[links] = np.maximum(share[links], mean / room[links])
        cost = trees.fullness @ price
        worth = np.minimum.reduceat(cost, columns.first)
        reduced = np.maximum(cost - worth[columns.source], mean / part)
        master = Master(columns, Point(part, reduced, room, price, worth, top), links)
        point = master.solve(max(1e-10, min(1e-3, near * 1e-2)), deadline)
        return trees.with_parts(point.part), point

    def _judged(self, trees: Trees, point: Point) -> Trees | None:
        """Keeps what is best of a point, and gives the trees that are better than those known; None where there are none."""
        problem = self._problem
        share = np.maximum(point.price, 0) / point.price.sum()
        price = share * problem.per_unit
        before, cost = self._search.trees(problem.network.graph, price, problem.roots, problem.wanted)
        self._keep(trees, float(trees.full().max()), float(cost.sum()) / self._unit, price)
        known = np.minimum.reduceat(trees.fullness @ share, trees.first())
        better = np.flatnonzero(cost / self._unit < known * (1 - 1e-12))
        if not len(better):
            return None
        return trees_of(problem, self._search, before[better], better.astype(np.int32), np.zeros(len(better)), self._unit)

    def _keep(self, trees: Trees, full: float, bound: float, price: Array) -> None:
        """Counts a round, and keeps trees that fill less, and prices that bound better."""
        best = self.best
        self.best = Optimum(trees if full < best.full else best.trees, min(full, best.full), max(bound, best.bound),
                            price if bound > best.bound else best.price, best.rounds + 1, Stop.ROUNDS, len(trees.part))


def thinned(trees: Trees, most: float, seed: int, deadline: float) -> Trees:
    """A combination of few of the trees that fills no cell more than is allowed, which has to be above what these trees fill: one of least
    cost, where costs are drawn by chance."""
    columns = Columns(trees.fullness, trees.first())
    cost = np.random.default_rng(seed).random(len(trees.part))
    part = np.maximum(trees.part, 1e-9)
    part /= columns.sums(part)[columns.source]
    full = columns.full(part)
    if float(full.max()) >= most:
        return trees
    top = (2 * max(float(full.max()), most * (1 - 1e-6)) + most) / 3
    room = top - full
    links = np.flatnonzero(full > _NEAR * top)
    price = np.zeros(len(full))
    price[links] = 1e-2 / room[links]
    paid = cost + trees.fullness @ price
    worth = np.minimum.reduceat(paid, columns.first)
    reduced = np.maximum(paid - worth[columns.source], 1e-2)
    master = Master(columns, Point(part, reduced, room, price, worth, top), links, cost)
    found = fewest(trees.with_parts(master.solve(1e-6, deadline).part), most)
    return found if float(found.full().max()) <= most else fewest(trees, most)


def fewest(trees: Trees, most: float) -> Trees:
    """The trees without those of the least parts, as many as can be left out within what is allowed."""
    for least in (1e-2, 3e-3, 1e-3, 3e-4, 1e-4, 3e-5, 1e-5, 3e-6, 1e-6, 1e-7, 1e-8):
        greatest = np.maximum.reduceat(trees.part, trees.first())
        few = trees.some(np.flatnonzero(trees.part >= np.minimum(least, greatest[trees.root])))
        few = few.with_parts(few.part)
        if float(few.full().max()) <= most:
            return few
    return trees
