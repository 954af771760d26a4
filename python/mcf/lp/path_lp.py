"""A linear program over paths, with new columns from shortest paths under its prices; and that of the greatest fraction.

There, flows are sought that carry every pair's whole amount with the least congestion: the greatest load over capacity, which is 1
over the fraction of all amounts that fits. Each pair has one key path, which takes what its other paths leave; so a pair has a column
for each other path, and a row only where it has two or more of these. A cell has a row where it can be filled at all.
"""

from __future__ import annotations

import time
from abc import ABC, abstractmethod
from ctypes import CDLL
from dataclasses import dataclass
from enum import Enum
from typing import Callable

import numpy as np
from scipy.sparse import csc_matrix, hstack, vstack

from .arrays import Array
from .clp import AT_LOWER, AT_UPPER, BASIC, Model
from .pool import INDEX, Pool, add_shortest
from .problem import Pairs
from .search import Search

ROUNDS = 500
TOLERANCE = 1e-9
ENOUGH = 1e-11
NOISE = 1e-13


class Stop(Enum):
    """Why the linear program stopped."""

    COLUMNS = "no further path is worth adding"
    ROUNDS = "as many rounds as are allowed"
    SECONDS = "the seconds are over"


@dataclass
class Optimum:
    """Flows of the pool's paths and what they carry, with the best prices of cells so far and the bound that these give.

    What is carried is one fraction of every amount, or a total. `last_prices` are those of the flows. It is proved where the linear
    program has its optimum, up to its tolerances.
    """

    flows: Array
    carried: float
    prices: Array
    last_prices: Array
    bound: float
    rounds: int
    stop: Stop = Stop.ROUNDS

    @property
    def proved(self) -> bool:
        """Whether there is no better one, up to tolerances."""
        return self.stop is Stop.COLUMNS

    @property
    def gap(self) -> float:
        """By what part the bound is above what is carried."""
        return self.bound / self.carried - 1 if self.carried else np.inf


class PathProgram(ABC):
    """The linear program as it stands between rounds: its paths, and the basis."""

    def __init__(self, library: CDLL, pairs: Pairs, search: Search, capacities: Array, pool: Pool) -> None:
        """The program of a pool."""
        self._library, self._pairs, self._search, self._pool = library, pairs, search, pool
        self._capacity = capacities
        self._amount = pairs.amount.astype(np.float64)
        self._unit = float(np.median(self._amount))
        self._cell_status = np.full(len(capacities), BASIC, np.uint8)
        self._pair_status = np.full(len(self._amount), BASIC, np.uint8)
        self._status = np.zeros(0, np.uint8)
        self._rest_status = np.zeros(0, np.uint8)
        self._fresh_status = AT_LOWER
        self._active = np.zeros(len(capacities), bool)

    @abstractmethod
    def _solve(self, matrix: csc_matrix, best: Optimum | None, deadline: float) -> tuple[Array, Array, bool]:
        """Flows and prices of the paths known so far, and whether they are the best of these."""

    @abstractmethod
    def _carried(self, matrix: csc_matrix, flows: Array) -> float:
        """What flows carry."""

    @abstractmethod
    def _bound(self, prices: Array, distance: Array) -> float:
        """The bound of prices with the least price of a path of each pair."""

    def _limit_of_price(self, shortest: Array) -> Array:
        """Below which price a path of each pair is worth to be added, by the least price of those that it has."""
        return shortest

    def optimise(self, deadline: float, told: Callable[[Optimum], None], grow: bool = True) -> Optimum:
        """The optimum, or what is known at the deadline (of `time.monotonic`); tells what is known after each round.

        Without `grow` it is the optimum over the paths of the pool alone; the bound is still that over all allowed paths.
        """
        best: Optimum | None = None
        for number in range(1, ROUNDS + 1):
            matrix = self._pool.cells_by_walks(len(self._capacity))
            flows, prices, done = self._solve(matrix, best, deadline)
            distance = self._search.distances(prices)
            found = Optimum(flows, self._carried(matrix, flows), prices, prices, self._bound(prices, distance), number)
            if best is not None and best.bound <= found.bound:
                found.bound, found.prices = best.bound, best.prices
            if best is not None and not done and best.carried > found.carried:
                found.flows, found.carried = np.append(best.flows, np.zeros(len(flows) - len(best.flows))), best.carried
            if done and (found.gap <= ENOUGH or not (grow and self._price(matrix, prices, distance))):
                found.stop = Stop.COLUMNS
            elif time.monotonic() >= deadline:
                found.stop = Stop.SECONDS
            best = found
            told(best)
            if found.stop is not Stop.ROUNDS or not grow:
                break
        assert best is not None
        return best

    def _price(self, matrix: csc_matrix, prices: Array, distance: Array) -> int:
        """Adds a shortest path for each pair all of whose paths cost more; says how many are new."""
        shortest = np.full(len(self._amount), np.inf)
        np.minimum.at(shortest, np.array(self._pool.pair, INDEX), matrix.T @ prices)
        limit = self._limit_of_price(shortest)
        longer = np.flatnonzero(distance < limit * (1 - TOLERANCE) - NOISE * prices.max(initial=0))
        return add_shortest(self._pool, self._search, longer)

    def _grow_active(self, matrix: csc_matrix, pair: Array, least: float) -> None:
        """Adds the cells that the paths can fill to that part, were every pair to use them with its whole amount."""
        counts = np.diff(matrix.indptr)
        cross = csc_matrix((matrix.data, (matrix.indices, np.repeat(pair, counts))), (len(self._capacity), len(self._amount)))
        cross.sum_duplicates()
        most = (cross > 0) @ self._amount
        self._active |= (self._capacity > 0) & (most > self._capacity * least)

    def _pair_rows(self, pair: Array, shared: Array) -> csc_matrix:
        """The rows of some pairs: which of the columns are theirs."""
        row = np.full(len(self._amount), -1, INDEX)
        row[shared] = np.arange(len(shared))
        inside = np.flatnonzero(row[pair] >= 0)
        return csc_matrix((np.ones(len(inside)), (row[pair[inside]], inside)), (len(shared), len(pair) + len(self._rest_status)))

    def _simplex(self, program: csc_matrix, cost: Array, upper: Array, room: Array, columns: Array,
                 cells: Array, shared: Array, deadline: float, dual: bool = False) -> tuple[Array, Array, bool]:
        """Values of columns, prices of cells, and whether they are the best; begins with the basis that stands, and keeps the new one.

        Columns of the program are those of some paths and then of the rest; rows are those of some cells, and of some pairs. Dual
        simplex serves where the prices of the basis are those of an optimum, as where rows alone came.
        """
        with Model(self._library) as model:
            model.load(program, cost, upper, room)
            model.set_tolerances(TOLERANCE, TOLERANCE)
            fresh = np.full(len(self._pool.walks) - len(self._status), self._fresh_status, np.uint8)
            self._status = np.concatenate([self._status, fresh])
            model.set_status(np.append(self._status[columns], self._rest_status),
                             np.concatenate([self._cell_status[cells], self._pair_status[shared]]))
            done = (model.dual if dual else model.primal)(deadline - time.monotonic())
            values, row_prices = model.solution(), model.row_prices()
            of_columns, of_rows = model.status_arrays()
        self._status[columns], self._rest_status = of_columns[:len(columns)], of_columns[len(columns):]
        self._cell_status[cells], self._pair_status[shared] = of_rows[:len(cells)], of_rows[len(cells):]
        prices = np.zeros(len(self._capacity))
        prices[cells] = np.maximum(-row_prices[:len(cells)], 0)
        return values, prices, done


class FractionProgram(PathProgram):
    """The program of the greatest fraction of every amount; the pool has a path of each pair."""

    def __init__(self, library: CDLL, pairs: Pairs, search: Search, capacities: Array, pool: Pool) -> None:
        """The program of a pool, with the congestion as its one further column."""
        super().__init__(library, pairs, search, capacities, pool)
        self._rest_status = np.full(1, BASIC, np.uint8)

    def _solve(self, matrix: csc_matrix, best: Optimum | None, deadline: float) -> tuple[Array, Array, bool]:
        """Flows and prices of the paths known so far, and whether they are the best of these."""
        pair = np.array(self._pool.pair, INDEX)
        key = self._pool.key
        other = np.ones(len(pair), bool)
        other[key] = False
        others = np.flatnonzero(other)
        base = matrix[:, key] @ self._amount
        least = (1 - 1e-6) / best.bound if best is not None and np.isfinite(best.bound) else 0.0
        self._grow_active(matrix, pair, least)
        cells = np.flatnonzero(self._active)
        program = (matrix[:, others] - matrix[:, key[pair[others]]]).tocsr()[cells]
        shared = np.flatnonzero(np.bincount(pair[others], minlength=len(key)) > 1)
        full = base[cells] / self._capacity[cells]
        if best is None:
            # (to begin with all is on the key paths, and the fullest cell is tight)
            self._cell_status[cells[np.argmax(full)]] = AT_UPPER
        guess = float(full.max()) if best is None else 1 / best.carried
        columns = vstack([hstack([program, csc_matrix(-self._capacity[cells][:, None] * guess / self._unit)]),
                          self._pair_rows(pair[others], shared)]).tocsc()
        columns.eliminate_zeros()
        values, prices, done = self._simplex(
            columns, np.append(np.zeros(len(others)), 1.0), np.append(self._amount[pair[others]] / self._unit, np.inf),
            np.concatenate([-base[cells], self._amount[shared]]) / self._unit, others, cells, shared, deadline)
        return self._flows(pair, others, values[:-1] * self._unit), prices, done

    def _flows(self, pair: Array, others: Array, values: Array) -> Array:
        """The flows of all paths, the key paths' too, none below 0 and with the right sums."""
        flows = np.zeros(len(pair))
        flows[others] = np.clip(values, 0, self._amount[pair[others]])
        sums = np.bincount(pair[others], flows[others], minlength=len(self._amount))
        over = np.maximum(sums / self._amount, 1)
        flows[others] /= over[pair[others]]
        flows[self._pool.key] = np.maximum(self._amount - sums / over, 0)
        return flows

    def _carried(self, matrix: csc_matrix, flows: Array) -> float:
        """The fraction: 1 over the congestion."""
        used = self._capacity > 0
        return float(1 / ((matrix @ flows)[used] / self._capacity[used]).max())

    def _bound(self, prices: Array, distance: Array) -> float:
        """Volume over weighted distance."""
        weighted = float(self._amount @ distance)
        return float(self._capacity @ prices) / weighted if weighted > 0 else np.inf
