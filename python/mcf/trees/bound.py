"""Lengths in whole numbers from prices, and the exact bound that they give."""

from __future__ import annotations

from dataclasses import dataclass
from fractions import Fraction

import numpy as np

from mcf.lp.arrays import Array
from mcf.lp.near import DENOMINATORS, near_fractions

from .network import Large
from .pool import Search

LARGEST = 2**46
"""The greatest length of a cell with capacity."""

FAR = 2**62
_NOISE = 1e-8
_PIECE = 21


@dataclass(frozen=True)
class WholeBound:
    """Lengths of all cells, 0 where one has no capacity; the rows of potentials of all sources of commodities; and the bound."""

    lengths: Array
    sources: Array
    potentials: Array
    above: int
    below: int

    @property
    def value(self) -> Fraction:
        """The bound."""
        return Fraction(self.above, self.below)


def whole_bound(network: Large, search: Search, price: Array) -> WholeBound | None:
    """The best bound of lengths in the ratio of prices: small whole numbers where these serve, and 46 bits; None where none is one."""
    best: WholeBound | None = None
    for lengths in _candidates(price):
        found = bound_of(network, search, lengths)
        if found is not None and (best is None or found.value < best.value):
            best = found
    return best


def bound_of(network: Large, search: Search, lengths: Array) -> WholeBound | None:
    """The bound of whole lengths, with the distances as potentials; None where nothing has a distance."""
    sources, row = np.unique(network.source, return_inverse=True)
    far = search.distances(network.graph, lengths, sources.astype(np.int32))
    volume = sum(int(capacity) * int(length) for capacity, length in zip(network.capacity, lengths))
    weighted = whole_product(network.amount, far[row, network.target])
    return WholeBound(lengths, sources, far, volume, weighted) if weighted else None


def whole_product(one: Array, other: Array) -> int:
    """The sum of products of whole numbers below 2^63, exactly, for up to 2^20 of them: in pieces whose products fit 64 bits."""
    mask = (1 << _PIECE) - 1
    pieces = [[(values >> shift) & mask for shift in range(0, 63, _PIECE)] for values in (one, other)]
    return sum(int(a @ b) << (_PIECE * (i + j)) for i, a in enumerate(pieces[0]) for j, b in enumerate(pieces[1]))


def _candidates(price: Array) -> list[Array]:
    """Whole lengths: exactly in the ratio of prices where small denominators serve, and rounded."""
    top = price.max(initial=0.0)
    if not top > 0:
        return []
    ratios = price / top
    found = [near_fractions(ratios, limit, _NOISE, LARGEST) for limit in DENOMINATORS]
    whole = [np.array([int(value * common) for value in near], np.int64) for near, common in filter(None, found)]
    rounded = np.rint(ratios * LARGEST).astype(np.int64)
    return [whole[0], rounded] if whole else [rounded]
