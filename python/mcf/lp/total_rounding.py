"""Flows of a total in whole numbers: none is too great for a pair or a cell, and then as much as still fits is added.

Less may be carried of any demand, so what noise has put too much on a pair or cell is taken off, in place of scaling all down.
"""

from __future__ import annotations

from dataclasses import dataclass
from fractions import Fraction
from math import gcd
from typing import Iterator

import numpy as np
from scipy.sparse import csc_matrix

from .arrays import Array
from .near import DENOMINATORS, near_fractions
from .rounding import Whole, best_of

MOST = 2**62
"""The greatest weight, and load of the scale."""

_FINEST = 2**30
_NOISE = 1e-7


@dataclass
class WholeTotal(Whole):
    """Whole weights of all paths, so many for each unit as the load of the scale says; its capacity is 1."""

    @property
    def carried(self) -> int:
        """The sum of all weights."""
        return sum(self.weights)

    @property
    def units(self) -> int:
        """The most weight for a unit of an amount."""
        return self.load


class TotalRounding:
    """Rounds flows of paths that are at most the amounts of their pairs and the capacities of their cells, but for noise."""

    def __init__(self, matrix: csc_matrix, pair: Array, amounts: list[int], capacities: list[int], flows: Array) -> None:
        """`matrix` says which cells each path has, each once."""
        self._pair, self._amounts, self._capacities, self._flows = pair.tolist(), amounts, capacities, flows
        places = np.split(matrix.indices, matrix.indptr[1:-1]) if len(pair) else []
        self._cells = [sorted(cells.tolist()) for cells in places]
        self._order = np.lexsort((np.arange(len(flows)), -flows)).tolist()
        self._at: list[list[int]] = [[] for _ in capacities]
        for column in self._order:
            for cell in self._cells[column]:
                self._at[cell].append(column)

    def best(self, aim: Fraction, enough: Fraction, deadline: float) -> WholeTotal:
        """The weights that carry most, of those that were tried until enough is carried or the deadline comes; any aim serves."""
        tried = (self._whole(flows, units) for flows, units in self._likely_flows())
        return best_of(tried, enough, deadline)

    def _whole(self, flows: list[Fraction], units: int) -> WholeTotal:
        """Weights of these flows, in parts as great as they can be."""
        weights = self._weights(flows, units)
        common = gcd(units, *weights)
        return WholeTotal(1, [weight // common for weight in weights], 1, units // common)

    def _likely_flows(self) -> Iterator[tuple[list[Fraction], int]]:
        """Flows, and into how many parts a unit is split: by small denominators where these serve, and by a great power of two."""
        most = MOST // sum(self._amounts)
        parts = []
        for limit in DENOMINATORS:
            found = near_fractions(self._flows, limit, _NOISE, most)
            if found is not None and found[1] not in parts:
                parts.append(found[1])
                yield found
        yield [Fraction(float(flow)) for flow in self._flows], min(_FINEST, most)

    def _weights(self, flows: list[Fraction], units: int) -> list[int]:
        """Weights that fit: to the nearest unit, then less where there is too much, then more where there is room."""
        weights = [round(flow * units) for flow in flows]
        left = [units * amount for amount in self._amounts]
        for column in self._order:
            weights[column] = min(weights[column], left[self._pair[column]])
            left[self._pair[column]] -= weights[column]
        room = [units * capacity for capacity in self._capacities]
        for column, weight in enumerate(weights):
            for cell in self._cells[column]:
                room[cell] -= weight
        for cell, columns in enumerate(self._at):
            for column in columns if room[cell] < 0 else ():
                self._change(column, -min(weights[column], max(0, -room[cell])), weights, left, room)
        for column in self._order:
            more = min([left[self._pair[column]], *(room[cell] for cell in self._cells[column])])
            self._change(column, more, weights, left, room)
        return weights

    def _change(self, column: int, more: int, weights: list[int], left: list[int], room: list[int]) -> None:
        """Adds to a weight, and takes it from what its pair and its cells have left."""
        if more:
            weights[column] += more
            left[self._pair[column]] -= more
            for cell in self._cells[column]:
                room[cell] -= more
