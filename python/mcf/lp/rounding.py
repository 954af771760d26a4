"""Flows in whole numbers: how many phases, whole weights of all paths, and single units moved off the fullest cell."""

from __future__ import annotations

import time
from dataclasses import dataclass
from fractions import Fraction
from typing import Iterator, TypeVar

import numpy as np
from scipy.sparse import csc_matrix, csr_matrix

from .arrays import Array

MOST_PHASES = 65536
STEPS = 20_000
"""The most moves of a repair."""

_TRIED = 8
_WORK = 60_000_000
_NEAR = 1e-3
_ZERO = 1e-9


@dataclass
class Whole:
    """Whole weights of all paths for a number of phases; times capacity over load they fit into the network."""

    phases: int
    weights: list[int]
    capacity: int
    load: int

    @property
    def carried(self) -> int:
        """What is carried where the weights are; times the scale it is the fraction, or the total."""
        return self.phases

    @property
    def units(self) -> int:
        """The most weight for a unit of an amount."""
        return self.phases

    @property
    def lower(self) -> Fraction:
        """The fraction that is carried, or the total."""
        return Fraction(self.carried * self.capacity, self.load)


AnyWhole = TypeVar("AnyWhole", bound=Whole)


def best_of(tried: Iterator[AnyWhole], enough: Fraction, deadline: float) -> AnyWhole:
    """Of weights that are tried one after the other, the first that carry most; no more are tried once enough is carried, or behind the
    deadline."""
    best = next(tried)
    while best.lower < enough and time.monotonic() < deadline:
        found = next(tried, None)
        if found is None:
            break
        best = found if found.lower > best.lower else best
    return best


class Rounding:
    """Rounds flows of paths whose pairs' sums are whole amounts."""

    def __init__(self, matrix: csc_matrix, pair: Array, amounts: list[int], capacities: list[int], flows: Array) -> None:
        """`matrix` says which cells each path has, each once; all flows of a pair sum to its amount."""
        self._matrix = matrix.tocsc()
        self._rows: csr_matrix = matrix.tocsr()
        self._whole = self._rows.astype(np.int64)
        self._pair, self._amounts, self._capacities, self._flows = pair, amounts, capacities, flows
        self._capacity = np.array(capacities, np.float64)
        order = np.lexsort((np.arange(len(pair)), -flows, pair))
        first = np.searchsorted(pair[order], np.arange(len(amounts)))
        self._main = order[first]
        amount = np.array(amounts, np.float64)
        rest = np.ones(len(pair), bool)
        rest[self._main] = False
        self._split = np.flatnonzero(rest & (flows > _ZERO * amount[pair]))
        self._columns_of_pair = np.split(order, first[1:])

    def best(self, aim: Fraction, enough: Fraction, deadline: float) -> Whole:
        """The weights that carry most, of those that were tried until enough is carried or the deadline comes; none pass the aim."""
        tried = (self._repaired(phases, self._rounded(phases), aim, deadline) for phases in self._likely_phases(aim))
        return best_of(tried, enough, deadline)

    def _likely_phases(self, aim: Fraction) -> list[int]:
        """Numbers of phases from 32,768 on by what rounding costs, the cheapest first; multiples of the aim's parts in front."""
        count = len(self._split)
        if not count:
            return [MOST_PHASES]
        effect, cells = self._effect()
        loads = (self._rows @ self._flows)[cells] / self._capacity[cells]
        slack = loads - float(1 / aim)
        flows = self._flows[self._split]
        step = max(1, MOST_PHASES // 2 * count // _WORK)
        phases = np.arange(MOST_PHASES, MOST_PHASES // 2, -step)
        cost = np.empty(len(phases))
        chunk = max(1, 2_000_000 // max(count, len(cells)))
        for at in range(0, len(phases), chunk):
            some = phases[at:at + chunk, None]
            error = np.rint(some * flows) - some * flows
            over = slack + (effect @ error.T).T / (self._capacity[cells] * some)
            cost[at:at + chunk] = over.max(axis=1, initial=-np.inf)
        chosen = phases[np.lexsort((-phases, np.maximum(cost, _ZERO * 1e-3)))[:_TRIED]].tolist()
        exact = [aim.denominator, aim.numerator]
        multiples = [MOST_PHASES // part * part for part in exact if part <= MOST_PHASES]
        return list(dict.fromkeys(chosen[:1] + multiples + chosen[1:]))

    def _effect(self) -> tuple[csr_matrix, Array]:
        """What a unit more on each split path, and less on its pair's main path, does to the cells that are nearly full."""
        loads = self._rows @ self._flows
        has = self._capacity > 0
        ratio = np.zeros(len(loads))
        ratio[has] = loads[has] / self._capacity[has]
        change = (self._matrix[:, self._split] - self._matrix[:, self._main[self._pair[self._split]]]).tocsr()
        touched = np.diff(change.indptr) > 0
        cells = np.flatnonzero(has & touched & (ratio > ratio.max() * (1 - _NEAR)))
        return change[cells], cells

    def _rounded(self, phases: int) -> list[int]:
        """Weights to the nearest unit; each pair's main path takes what the others leave."""
        weights = [0] * len(self._pair)
        left = [phases * amount for amount in self._amounts]
        for column in self._split:
            pair = self._pair[column]
            weight = min(round(Fraction(float(self._flows[column])) * phases), left[pair])
            weights[column] = weight
            left[pair] -= weight
        for pair, column in enumerate(self._main):
            weights[column] = left[pair]
        return weights

    def _repaired(self, phases: int, weights: list[int], aim: Fraction, deadline: float) -> Whole:
        """Weights with single units moved off the fullest cell, as long as that helps."""
        loads = self._loads(weights)
        full = Fullness(phases, loads, self._capacities, aim)
        for _ in range(STEPS):
            cell = full.fullest()
            if full.ratio[cell] <= 0 or time.monotonic() >= deadline:
                break
            move = self._move(cell, weights, full)
            if move is None:
                break
            source, target = move
            weights[source] -= 1
            weights[target] += 1
            for column, unit in ((source, -1), (target, 1)):
                for at in self._cells(column):
                    loads[at] += unit
                    full.change(at, unit)
        capacity, load = fullest(loads, self._capacities)
        return Whole(phases, weights, capacity, load)

    def _cells(self, column: int) -> Array:
        """The cells of a path."""
        cells: Array = self._matrix.indices[self._matrix.indptr[column]:self._matrix.indptr[column + 1]]
        return cells

    def _move(self, cell: int, weights: list[int], full: Fullness) -> tuple[int, int] | None:
        """The two paths of a pair between which a unit moves off a cell, so that what fills up is least full, and less than the cell."""
        best, least = None, full.ratio[cell]
        for source in self._rows.indices[self._rows.indptr[cell]:self._rows.indptr[cell + 1]]:
            columns = self._columns_of_pair[self._pair[source]]
            if len(columns) < 2 or not weights[source]:
                continue
            left = set(self._cells(source).tolist())
            for target in columns:
                more = [at for at in self._cells(target).tolist() if at not in left]
                if target == source or cell in self._cells(target):
                    continue
                height = max((full.after(at) for at in more), default=-np.inf)
                if height < least:
                    best, least = (int(source), int(target)), height
        return best

    def _loads(self, weights: list[int]) -> list[int]:
        """The load of each cell, exactly: no path has a cell twice, so no load is over phases times all amounts, at most 2^62."""
        loads: list[int] = (self._whole @ np.array(weights, np.int64)).tolist()
        return loads


class Fullness:
    """By how much the load of each cell is above what the aim allows, over the capacity."""

    def __init__(self, phases: int, loads: list[int], capacities: list[int], aim: Fraction) -> None:
        """Loads for so many phases."""
        self._capacity = np.array(capacities, np.float64)
        self.ratio = np.full(len(loads), -np.inf)
        for cell, (load, capacity) in enumerate(zip(loads, capacities)):
            if capacity:
                over = load * aim.numerator - phases * capacity * aim.denominator
                self.ratio[cell] = over / (aim.numerator * capacity)

    def fullest(self) -> int:
        """The fullest cell, the first of equal ones."""
        return int(np.argmax(self.ratio))

    def after(self, cell: int) -> float:
        """The fullness of a cell with a unit more."""
        return float(self.ratio[cell] + 1 / self._capacity[cell])

    def change(self, cell: int, units: int) -> None:
        """Adds units to a cell's load."""
        self.ratio[cell] += units / self._capacity[cell]


def fullest(loads: list[int], capacities: list[int]) -> tuple[int, int]:
    """Capacity and load of the fullest cell, the first of equal ones; all loads times capacity over load fit."""
    best = (1, 0)
    for load, capacity in zip(loads, capacities):
        if load * best[0] > best[1] * capacity:
            best = (capacity, load)
    return best
