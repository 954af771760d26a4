"""The paths that a linear program knows: those of a start, and shortest ones that are added."""

from __future__ import annotations

from typing import Iterable

import numpy as np
from scipy.sparse import csc_matrix

from mcf import TextError

from .arrays import Array
from .problem import Walk
from .search import Search

INDEX = np.int64


class Pool:
    """The paths of all pairs, each once, in the order in which they came; `key` has the first of each pair, -1 where there is none."""

    def __init__(self, pairs: int) -> None:
        """No paths yet."""
        self.walks: list[Walk] = []
        self.pair: list[int] = []
        self.key = np.full(pairs, -1, INDEX)
        self._known: set[tuple[int, Walk]] = set()

    def add(self, pair: int, walk: Walk) -> bool:
        """Adds a path, the first one of a pair as its key path; says whether it is new."""
        if (pair, walk) in self._known:
            return False
        self._known.add((pair, walk))
        if self.key[pair] < 0:
            self.key[pair] = len(self.walks)
        self.walks.append(walk)
        self.pair.append(pair)
        return True

    def cells_by_walks(self, cells: int) -> csc_matrix:
        """Which cells each path has, each once."""
        counts = np.fromiter(map(len, self.walks), INDEX, len(self.walks))
        starts = np.concatenate([[0], np.cumsum(counts)])
        numbers = np.fromiter((cell for walk in self.walks for cell in walk), INDEX, starts[-1])
        return csc_matrix((np.ones(len(numbers)), numbers, starts), (cells, len(self.walks)))


def add_shortest(pool: Pool, search: Search, which: Iterable[int]) -> int:
    """Adds a shortest path of some pairs, for the lengths that were searched last; says how many are new."""
    return sum(pool.add(int(pair), search.walk(int(pair))) for pair in which)


def complete(pool: Pool, search: Search, lengths: Array, each: bool = True) -> None:
    """Adds a shortest path for each pair that has none and has a way; with `each`, TextError where one has no way at all."""
    missing = np.flatnonzero(pool.key < 0)
    if not len(missing):
        return
    has = np.isfinite(search.distances(lengths)[missing])
    if each and not has.all():
        raise TextError("a demand has no way over links with capacity")
    add_shortest(pool, search, missing[has])
