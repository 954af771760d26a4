"""The linear program of the greatest total: flows of paths, of each pair at most its amount, which carry most in all.

Each path has a column, with the amount of its pair as bound. A cell has a row where it can be filled at all. A pair has one where it
has several paths; if there are very many such pairs, only once its paths together would carry more than its amount, which few do. A
path is worth to be added where the prices of its cells are together below 1, what a unit carried is worth, and below those of the
pair's other paths.
"""

from __future__ import annotations

from ctypes import CDLL

import numpy as np
from scipy.sparse import csc_matrix, vstack

from .arrays import Array
from .clp import AT_LOWER, AT_UPPER
from .path_lp import TOLERANCE, Optimum, PathProgram
from .pool import INDEX, Pool
from .problem import Pairs
from .search import Search

NOISE_OF_LOADS = 1e-6
FEW = 4000
"""Up to how many pairs with several paths all of these have rows."""


class TotalProgram(PathProgram):
    """The program of the greatest total; pairs without a path in the pool are not carried."""

    def __init__(self, library: CDLL, pairs: Pairs, search: Search, capacities: Array, pool: Pool) -> None:
        """The program of a pool; no pair has a row yet."""
        super().__init__(library, pairs, search, capacities, pool)
        self._full = np.zeros(len(self._amount), bool)

    def _solve(self, matrix: csc_matrix, best: Optimum | None, deadline: float) -> tuple[Array, Array, bool]:
        """Flows and prices of the paths known so far, and whether they are the best of these."""
        pair = np.array(self._pool.pair, INDEX)
        self._grow_active(matrix, pair, 1.0)
        cells = np.flatnonzero(self._active)
        several = np.bincount(pair, minlength=len(self._amount)) > 1
        if several.sum() <= FEW:
            self._full |= several
        # (to begin with all is carried, which is too much and worth most; later the flows so far fit)
        self._fresh_status = AT_UPPER if best is None else AT_LOWER
        values, prices, done = self._with_rows(matrix, pair, cells, deadline, best is None)
        while done and self._grow_full(pair, values):
            values, prices, done = self._with_rows(matrix, pair, cells, deadline, True)
        flows = np.clip(values * self._unit, 0, self._amount[pair])
        sums = np.bincount(pair, flows, minlength=len(self._amount))
        return flows / np.maximum(sums / self._amount, 1)[pair], prices, done

    def _with_rows(self, matrix: csc_matrix, pair: Array, cells: Array, deadline: float,
                   dual: bool) -> tuple[Array, Array, bool]:
        """Values, prices and whether they are the best, with rows of some cells and of the pairs that have one."""
        full = np.flatnonzero(self._full)
        program = vstack([matrix.tocsr()[cells], self._pair_rows(pair, full)]).tocsc()
        room = np.concatenate([self._capacity[cells], self._amount[full]]) / self._unit
        return self._simplex(program, np.full(len(pair), -1.0), self._amount[pair] / self._unit, room, np.arange(len(pair)), cells,
                             full, deadline, dual)

    def _grow_full(self, pair: Array, values: Array) -> bool:
        """Gives a row to each pair whose paths carry too much; says whether there is one."""
        sums = np.bincount(pair, values, minlength=len(self._amount)) * self._unit
        over = (sums > self._amount * (1 + TOLERANCE)) & ~self._full
        self._full |= over
        return bool(over.any())

    def _carried(self, matrix: csc_matrix, flows: Array) -> float:
        """The sum of all flows; less by the fullest cell's part where it is overfull by more than noise, as before an optimum."""
        used = self._capacity > 0
        full = float(((matrix @ flows)[used] / self._capacity[used]).max(initial=0.0))
        return float(flows.sum()) / (full if full > 1 + NOISE_OF_LOADS else 1.0)

    def _bound(self, prices: Array, distance: Array) -> float:
        """Volume and excess over the threshold 1."""
        return float(self._capacity @ prices + self._amount @ np.maximum(1 - distance, 0))

    def _limit_of_price(self, shortest: Array) -> Array:
        """The least price, but no more than a unit is worth."""
        return np.minimum(shortest, 1.0)
