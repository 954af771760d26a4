"""Shortest paths to a target, equal-cost multipath, and the k shortest paths; all lengths are positive whole numbers."""

from __future__ import annotations

from collections.abc import Sequence
from dataclasses import dataclass
from fractions import Fraction
from heapq import heappop, heappush

from mcf import ScaledNetwork

Walk = tuple[int, ...]


@dataclass(frozen=True, slots=True)
class Arc:
    """A way over a cell."""

    cell: int
    to: int
    length: int


class Ways:
    """The ways over cells with capacity."""

    def __init__(self, scaled: ScaledNetwork, lengths: Sequence[int]) -> None:
        """Ways of a network under lengths of its cells."""
        nodes = len(scaled.network.nodes)
        self._length = lengths
        self.out: list[list[Arc]] = [[] for _ in range(nodes)]
        self._into: list[list[Arc]] = [[] for _ in range(nodes)]
        for number, (cell, length) in enumerate(zip(scaled.cells, lengths)):
            if cell.capacity and cell.tail != cell.head:
                for tail, head in ((cell.tail, cell.head), (cell.head, cell.tail))[:1 + cell.both]:
                    self.out[tail].append(Arc(number, head, length))
                    self._into[head].append(Arc(number, tail, length))

    def distances_to(self, target: int) -> list[int | None]:
        """The distance of each node to a target, None where there is no way."""
        found: list[int | None] = [None] * len(self.out)
        queue = [(0, target)]
        while queue:
            far, node = heappop(queue)
            if found[node] is not None:
                continue
            found[node] = far
            for arc in self._into[node]:
                if found[arc.to] is None:
                    heappush(queue, (far + arc.length, arc.to))
        return found

    def next_arcs(self, node: int, distances: Sequence[int | None]) -> list[Arc]:
        """The arcs that begin a shortest path from a node to the target of the distances."""
        here = distances[node]
        return [arc for arc in self.out[node] if (left := distances[arc.to]) is not None and arc.length + left == here]

    def shortest(self, source: int, target: int, distances: Sequence[int | None]) -> Walk:
        """A shortest path: at each node the first of the cells that begin one."""
        cells, node = [], source
        while node != target:
            arc = self.next_arcs(node, distances)[0]
            cells.append(arc.cell)
            node = arc.to
        return tuple(cells)

    def equal_cost(self, source: int, target: int, distances: Sequence[int | None]) -> list[tuple[Walk, Fraction]]:
        """Paths with shares such that each node sends equal shares over all cells that begin a shortest path from it."""
        share = {source: Fraction(1)}
        flow: dict[tuple[int, int], Fraction] = {}
        for node in self._nearer(source, distances):
            arcs = self.next_arcs(node, distances) if node != target else []
            for arc in arcs:
                part = share[node] / len(arcs)
                flow[node, arc.cell] = part
                share[arc.to] = share.get(arc.to, Fraction(0)) + part
        return self._paths_of(flow, source, target, distances)

    def _nearer(self, source: int, distances: Sequence[int | None]) -> list[int]:
        """The nodes on shortest paths from a source, the farthest from the target first."""
        seen, stack = {source}, [source]
        while stack:
            for arc in self.next_arcs(stack.pop(), distances):
                if arc.to not in seen:
                    seen.add(arc.to)
                    stack.append(arc.to)
        return sorted(seen, key=lambda node: (-(distances[node] or 0), node))

    def _paths_of(self, flow: dict[tuple[int, int], Fraction], source: int, target: int,
                  distances: Sequence[int | None]) -> list[tuple[Walk, Fraction]]:
        """A flow as paths: again and again the one over the fullest cells, until nothing is left; each empties a cell."""
        found: list[tuple[Walk, Fraction]] = []
        while any(flow.get((source, arc.cell)) for arc in self.next_arcs(source, distances)):
            cells: list[tuple[int, int]] = []
            node = source
            while node != target:
                arc = max(self.next_arcs(node, distances), key=lambda arc: flow[node, arc.cell])
                cells.append((node, arc.cell))
                node = arc.to
            part = min(flow[step] for step in cells)
            for step in cells:
                flow[step] -= part
            found.append((tuple(cell for _, cell in cells), part))
        return found

    def k_shortest(self, source: int, target: int, distances: Sequence[int | None], count: int) -> list[Walk]:
        """Up to so many shortest paths that meet no node twice, the shortest first; fewer only where there are no more.

        Yen's algorithm: from each path that is found, at each of its nodes from the one on where it left an earlier path, the
        shortest way on that begins with none of the cells that known paths take from there.
        """
        taken: dict[Walk, set[int]] = {}
        queue: list[_Found] = []
        self._deviate((), (source,), target, distances, taken, queue)
        found: list[Walk] = []
        while queue and len(found) < count:
            path = heappop(queue)
            found.append(path.cells)
            for at in range(path.left, len(path.cells)):
                taken.setdefault(path.cells[:at], set()).add(path.cells[at])
                if len(found) < count:
                    self._deviate(path.cells[:at], path.nodes[: at + 1], target, distances, taken, queue)
        return found

    def _deviate(self, cells: Walk, nodes: tuple[int, ...], target: int, distances: Sequence[int | None],
                 taken: dict[Walk, set[int]], queue: list[_Found]) -> None:
        """Adds the shortest path that begins with these cells, and then with none of those that are taken there."""
        rest = self._way_on(nodes, target, distances, taken.get(cells, set()))
        if rest:
            whole = cells + tuple(arc.cell for arc in rest)
            length = sum(self._length[cell] for cell in whole)
            heappush(queue, _Found(length, len(whole), whole, nodes + tuple(arc.to for arc in rest), len(cells)))

    def _way_on(self, nodes: tuple[int, ...], target: int, distances: Sequence[int | None], banned: set[int]) -> list[Arc]:
        """A shortest way from the last of these nodes to a target over none of the others, nor first over a cell that is banned; empty
        where there is none. Distances in the whole network say how far each node is at least, so few others are looked at."""
        start = nodes[-1]
        before: dict[int, tuple[int, Arc] | None] = {}
        closed = set(nodes[:-1])
        queue: list[tuple[int, int, int, int, tuple[int, Arc] | None]] = [(0, 0, 0, start, None)]
        pushed = 0
        while queue and target not in before:
            _, gone, _, node, step = heappop(queue)
            if node in closed or node in before:
                continue
            before[node] = step
            for arc in self.out[node]:
                left = distances[arc.to]
                if left is not None and arc.to not in closed and arc.to not in before and (node != start or arc.cell not in banned):
                    pushed += 1
                    # (gone is kept negative: of ways of the same length the one that is nearer the target comes first)
                    heappush(queue, (arc.length - gone + left, gone - arc.length, pushed, arc.to, (node, arc)))
        return _steps(before, target)


@dataclass(frozen=True, order=True, slots=True)
class _Found:
    """A path, by its length, then by its number of cells; `left` is at which of its nodes it left an earlier one."""

    length: int
    hops: int
    cells: Walk
    nodes: tuple[int, ...]
    left: int


def _steps(before: dict[int, tuple[int, Arc] | None], target: int) -> list[Arc]:
    """The arcs to a target, by the step before each node; none where it was not reached."""
    arcs: list[Arc] = []
    step = before.get(target)
    while step is not None:
        arcs.append(step[1])
        step = before[step[0]]
    return arcs[::-1]
