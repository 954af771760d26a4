"""Which paths a pair may take, and shortest ones among these: all paths, or those within limits of cells."""

from __future__ import annotations

from typing import Protocol

import numpy as np

from .arrays import Array
from .problem import UNLIMITED, Arcs, Pairs, Walk


class Search(Protocol):
    """Shortest paths of pairs among those that are allowed."""

    def distances(self, lengths: Array) -> Array:
        """The length of a shortest path of each pair, infinite where it has none; exact for whole lengths of few bits."""

    def walk(self, pair: int) -> Walk:
        """The cells of such a path, each once, for the lengths of the last call of `distances`."""


class AllPaths:
    """All paths of a network are allowed."""

    def __init__(self, pairs: Pairs, arcs: Arcs) -> None:
        """Nothing is searched yet."""
        self._pairs, self._arcs = pairs, arcs
        self._sources, self._row = np.unique(pairs.source, return_inverse=True)

    def distances(self, lengths: Array) -> Array:
        """The distance of each pair."""
        found, self._before = self._arcs.distances(lengths, self._sources)
        of_pairs: Array = found[self._row, self._pairs.target]
        return of_pairs

    def walk(self, pair: int) -> Walk:
        """A shortest path of a pair."""
        return self._arcs.walk(self._before[self._row[pair]], int(self._pairs.source[pair]), int(self._pairs.target[pair]))


class Layers:
    """For each of some sources the least lengths of walks of at most so many cells to all nodes: one layer for each number of cells."""

    def __init__(self, arcs: Arcs, sources: Array, most: int) -> None:
        """Layers of these sources, up to so many cells."""
        self.sources, self._most, self._nodes = sources, most, arcs.nodes
        self._arcs = arcs.table[np.lexsort((arcs.table[:, 2], arcs.table[:, 0], arcs.table[:, 1]))]
        self._heads, self._first = np.unique(self._arcs[:, 1], return_index=True)
        self._layers: list[Array] = []
        self._lengths = np.zeros(0)

    def fill(self, lengths: Array) -> None:
        """Makes the layers of some lengths; there are fewer than were asked for where further ones would be as the last."""
        self._lengths = np.asarray(lengths, np.float64)[self._arcs[:, 2]]
        layer = np.full((self._nodes, len(self.sources)), np.inf)
        layer[self.sources, np.arange(len(self.sources))] = 0
        self._layers = [layer]
        while len(self._layers) <= self._most and len(self._heads):
            over = np.minimum.reduceat(layer[self._arcs[:, 0]] + self._lengths[:, None], self._first, axis=0)
            layer = layer.copy()
            layer[self._heads] = np.minimum(layer[self._heads], over)
            if np.array_equal(layer, self._layers[-1]):
                break
            self._layers.append(layer)

    @property
    def last(self) -> int:
        """The number of the last layer; all further ones are as this."""
        return len(self._layers) - 1

    def at(self, cells: int) -> Array:
        """The layer of walks of at most so many cells: a row for each node, a column for each source."""
        return self._layers[min(cells, self.last)]

    def walk(self, row: int, target: int, cells: int) -> Walk:
        """A shortest walk of at most so many cells from the source of a column, of the fewest cells; so it meets each node once."""
        found: list[int] = []
        node, left = target, min(cells, self.last)
        while True:
            length = self._layers[left][node, row]
            while left and self._layers[left - 1][node, row] == length:
                left -= 1
            if not left:
                return tuple(reversed(found))
            place = int(np.searchsorted(self._heads, node))
            end = self._first[place + 1] if place + 1 < len(self._first) else len(self._arcs)
            into = np.arange(self._first[place], end)
            over = self._layers[left - 1][self._arcs[into, 0], row] + self._lengths[into]
            arc = self._arcs[into[int(np.argmax(over == length))]]
            found.append(int(arc[2]))
            node, left = int(arc[0]), left - 1


class WithinLimits:
    """Paths of at most as many cells as the limit of their pair, if it has one."""

    def __init__(self, pairs: Pairs, arcs: Arcs) -> None:
        """Nothing is searched yet."""
        self._pairs = pairs
        self._limited = pairs.limit != UNLIMITED
        self._free = AllPaths(pairs, arcs)
        sources, self._row = np.unique(pairs.source, return_inverse=True)
        used = np.unique(self._row[self._limited])
        self._column = np.searchsorted(used, self._row)
        self._layers = Layers(arcs, sources[used], int(pairs.limit.max(initial=0)))

    def distances(self, lengths: Array) -> Array:
        """The distance of each pair within its limit."""
        limit, target = self._pairs.limit, self._pairs.target
        found = np.zeros(len(limit)) if self._limited.all() else self._free.distances(lengths)
        if self._limited.any():
            self._layers.fill(lengths)
        for most in np.unique(limit[self._limited]):
            which = np.flatnonzero(limit == most)
            found[which] = self._layers.at(int(most))[target[which], self._column[which]]
        return found

    def walk(self, pair: int) -> Walk:
        """A shortest path of a pair within its limit."""
        if not self._limited[pair]:
            return self._free.walk(pair)
        return self._layers.walk(int(self._column[pair]), int(self._pairs.target[pair]), int(self._pairs.limit[pair]))
