"""Lengths in whole numbers from prices, and the exact bound that they give."""

from __future__ import annotations

from dataclasses import dataclass
from fractions import Fraction
from typing import Callable

import numpy as np

from .arrays import Array
from .near import DENOMINATORS, near_fractions

LARGEST = 2**43
"""The greatest length of a cell with capacity: distances over 511 of them are exact in floating point."""

_NOISE = 1e-8


@dataclass(frozen=True)
class Bound:
    """Lengths of all cells, 0 where a cell has no capacity, with what stands above and below in the bound.

    That is the volume and the weighted distance; or, of a total, the volume with the excess, and the threshold.
    """

    lengths: Array
    above: int
    below: int

    @property
    def value(self) -> Fraction:
        """The bound."""
        return Fraction(self.above, self.below)


class Bounds:
    """Makes bounds of prices; `distances` gives the least length of a path of each pair, exactly, for whole lengths of cells."""

    def __init__(self, amounts: list[int], capacities: list[int], distances: Callable[[Array], Array]) -> None:
        """Nothing is tried yet."""
        self._amounts, self._capacities, self._distances = amounts, capacities, distances
        self._has = np.array([capacity > 0 for capacity in capacities])
        self.best: Bound | None = None

    def offer(self, prices: Array) -> Bound | None:
        """The best bound so far, these prices' included: small whole numbers first, and then 43 bits."""
        tried: list[Array] = []
        for lengths in _candidates(np.where(self._has, prices, 0.0)):
            if not any(np.array_equal(lengths, other) for other in tried):
                tried.append(lengths)
                self._try(lengths)
        return self.best

    def _try(self, lengths: Array) -> None:
        """Keeps the bound of whole lengths where it is the best."""
        volume = sum(self._capacities[cell] * int(lengths[cell]) for cell in np.flatnonzero(lengths))
        above, below = self._parts(volume, self._distances(lengths))
        if below and (self.best is None or above * self.best.below < self.best.above * below):
            self.best = Bound(lengths, above, below)

    def _parts(self, volume: int, distances: Array) -> tuple[int, int]:
        """What stands above and below in the bound; 0 below where there is none."""
        return volume, sum(amount * int(distance) for amount, distance in zip(self._amounts, distances))


class TotalBounds(Bounds):
    """The same for bounds of a total, each with the threshold that is best for its lengths. A pair without a way is not carried."""

    def offer(self, prices: Array) -> Bound | None:
        """The best bound so far; first that of no lengths, which is the sum of all amounts with a way."""
        if self.best is None:
            self._try(np.zeros(len(self._capacities), np.int64))
        return super().offer(prices)

    def _parts(self, volume: int, distances: Array) -> tuple[int, int]:
        """Volume with excess, and the threshold: the first distance up to which amounts times distance outweigh the volume."""
        rows = sorted((int(distance), amount) for distance, amount in zip(distances, self._amounts) if np.isfinite(distance))
        threshold, weighted = 1, 0
        for distance, amount in rows:
            threshold = max(distance, 1)
            weighted += distance * amount
            if weighted >= volume:
                break
        return volume + sum(amount * max(0, threshold - distance) for distance, amount in rows), threshold


def _candidates(prices: Array) -> list[Array]:
    """Whole lengths in the ratio of prices: exactly so where small denominators serve, and rounded to 43 bits."""
    top = prices.max(initial=0.0)
    if not top > 0:
        return []
    ratios = prices / top
    found = [near_fractions(ratios, limit, _NOISE, LARGEST) for limit in DENOMINATORS]
    whole = [np.array([int(value * common) for value in near], np.int64) for near, common in filter(None, found)]
    return whole + [np.rint(ratios * LARGEST).astype(np.int64)]
