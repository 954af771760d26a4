"""The master problem: the best convex combination of some trees of each source, by a primal-dual interior point of its own.

Columns are trees, of each of which the fullness is known that it gives to links where a source's whole flow is on it. The combination
is sought whose greatest fullness is least; or, with costs of columns, one of least cost whose fullness is nowhere above what is given.
Rows of sources are eliminated from each Newton step, and what is left is a dense system over links, which Cholesky's method solves.
Links that are far from full have no part in it: they hold a step back before it makes one of them too full, and take part from then on.
"""

from __future__ import annotations

import time
from dataclasses import dataclass

import numpy as np
from scipy.linalg import cho_factor, cho_solve
from scipy.sparse import csr_matrix

from mcf.lp.arrays import Array

ITERATIONS = 400
_SHORT = 0.9995
_SOME = 4096
_NEARLY = 0.9


@dataclass
class Columns:
    """Trees by source: `first[s]` is the first of source s, all of one source side by side; `fullness` has a row for each tree."""

    fullness: csr_matrix
    first: Array

    def __post_init__(self) -> None:
        """The source of each column, and columns by links."""
        count = np.diff(np.append(self.first, self.fullness.shape[0]))
        self.source = np.repeat(np.arange(len(self.first)), count)
        self.by_link = self.fullness.T.tocsr()

    def sums(self, values: Array) -> Array:
        """The sum of some values of columns for each source."""
        found: Array = np.add.reduceat(values, self.first, axis=0)
        return found

    def full(self, part: Array) -> Array:
        """The fullness of all links where such parts are on the trees."""
        found: Array = self.by_link @ part
        return found


@dataclass
class Point:
    """A point between primal and dual: parts of columns with reduced costs, rooms of all links with their prices, 0 where a link has
    no part in it; prices of sources, and the greatest fullness."""

    part: Array
    reduced: Array
    room: Array
    price: Array
    worth: Array
    top: float


@dataclass
class _Missing:
    """What is missing in the rows of links and sources, in the reduced costs, and in the sum of prices."""

    links: Array
    sources: Array
    columns: Array
    top: float


class Master:
    """The problem of some columns from a point; with `cost` the greatest fullness stays, and what columns cost is made least."""

    def __init__(self, columns: Columns, point: Point, links: Array, cost: Array | None = None) -> None:
        """The problem with some links that take part."""
        self.columns, self.point = columns, point
        self.fixed = cost is not None
        self.cost = np.zeros(len(columns.source)) if cost is None else cost
        self.links = links
        self.dense = columns.by_link[links].toarray().T.copy()
        self.steps = 0

    def solve(self, gap: float, deadline: float) -> Point:
        """Newton steps until primal and dual are as near, as a part of the objective, or no step is worth it, or the deadline comes."""
        while self.steps < ITERATIONS and not self.is_near(gap) and time.monotonic() < deadline:
            self.steps += 1
            if self._step() < 1e-8:
                break
        return self.point

    @property
    def mean(self) -> float:
        """The mean product of parts with reduced costs, and of rooms with prices."""
        point, links = self.point, self.links
        return float(point.part @ point.reduced + point.room[links] @ point.price[links]) / (len(point.part) + len(links))

    def is_near(self, gap: float) -> bool:
        """Whether the point is as near to the optimum as is wanted; what is missing is weighed as what it costs."""
        point, missing = self.point, self._missing()
        size = abs(float(self.cost @ point.part)) if self.fixed else abs(point.top)
        off = np.abs(missing.links) @ point.price[self.links] + np.abs(missing.sources) @ np.abs(point.worth)
        off += np.abs(missing.columns) @ point.part + (0.0 if self.fixed else abs(missing.top * point.top))
        return bool(self.mean * (len(point.part) + len(self.links)) + off <= gap * size)

    def _missing(self) -> _Missing:
        """What is missing at the point."""
        point, columns = self.point, self.columns
        links = point.top - point.room[self.links] - point.part @ self.dense
        reduced = point.worth[columns.source] + point.reduced - self.cost - self.dense @ point.price[self.links]
        return _Missing(links, 1 - columns.sums(point.part), reduced, 1 - float(point.price.sum()))

    def _step(self) -> float:
        """A predicting and a correcting step; how long it was."""
        point, links = self.point, self.links
        solver, missing, mean = _System(self), self._missing(), self.mean
        room, price = point.room[links], point.price[links]
        predicted = solver.direction(missing, -point.part * point.reduced, -room * price)
        primal, dual = _longest(point, predicted, 1.0, links)
        after = ((point.part + primal * predicted.part) @ (point.reduced + dual * predicted.reduced)
                 + (room + primal * predicted.room[links]) @ (price + dual * predicted.price[links])) / (len(point.part) + len(links))
        centre = (after / mean) ** 3 * mean
        chosen = solver.direction(missing, centre - point.part * point.reduced - predicted.part * predicted.reduced,
                                  centre - room * price - predicted.room[links] * predicted.price[links])
        primal, dual = _longest(point, chosen, _SHORT, links)
        held = self._held_back(chosen, primal)
        if len(held):
            self._join(held, mean)
            return 1.0
        self._go(chosen, primal, dual)
        return max(primal, dual)

    def _held_back(self, step: Point, primal: float) -> Array:
        """The links without a part in the problem that a step would make too full, or nearly."""
        point = self.point
        change = step.top - self.columns.full(step.part)
        step.room = np.where(point.price > 0, step.room, change)
        after = point.room + primal * change
        apart = point.price == 0
        nearly = (after < (1 - _NEARLY) * point.room) & (point.room < 0.5 * point.top)
        held = bool((apart & (nearly | (after <= 0))).any())
        # (all that lose half of their room join at once, since each time the step is sought anew)
        return np.flatnonzero(apart & (after < 0.5 * point.room) & held)

    def _join(self, links: Array, mean: float) -> None:
        """Lets some more links take part."""
        self.point.price[links] = mean / self.point.room[links]
        self.dense = np.concatenate([self.dense, self.columns.by_link[links].toarray().T], axis=1)
        self.links = np.concatenate([self.links, links])

    def _go(self, step: Point, primal: float, dual: float) -> None:
        """Goes a step."""
        point = self.point
        point.part += primal * step.part
        point.room += primal * step.room
        point.top += primal * step.top
        point.reduced += dual * step.reduced
        point.price += dual * step.price
        point.worth += dual * step.worth


class _System:
    """The Newton system at a point, with its factor."""

    def __init__(self, master: Master) -> None:
        """Forms and factors the system over links."""
        self.master = master
        columns, point, dense = master.columns, master.point, master.dense
        self.ratio = point.part / point.reduced
        self.of_source = columns.sums(self.ratio)
        self.middle = columns.sums(self.ratio[:, None] * dense) / self.of_source[:, None]
        matrix = np.zeros((len(master.links), len(master.links)))
        root = np.sqrt(self.ratio)
        for at in range(0, len(root), _SOME):
            some = slice(at, at + _SOME)
            spread = (dense[some] - self.middle[columns.source[some]]) * root[some, None]
            matrix += spread.T @ spread
        matrix[np.diag_indices(len(matrix))] += point.room[master.links] / point.price[master.links]
        self.factor = _factored(matrix)
        if not master.fixed:
            self.of_top = cho_solve(self.factor, np.ones(len(matrix)))

    def direction(self, missing: _Missing, of_parts: Array, of_rooms: Array) -> Point:
        """The Newton direction for what is missing, and for what the products of pairs are to change by."""
        master, point, columns, links = self.master, self.master.point, self.master.columns, self.master.links
        moved = of_parts / point.reduced + self.ratio * missing.columns
        rest = (missing.sources - columns.sums(moved)) / self.of_source
        right = (moved + self.ratio * rest[columns.source]) @ master.dense + of_rooms / point.price[links] - missing.links
        price = cho_solve(self.factor, right)
        top = 0.0
        if not master.fixed:
            top = float((price.sum() - missing.top) / self.of_top.sum())
            price = price - top * self.of_top
        worth = rest + self.middle @ price
        reduced = master.dense @ price - worth[columns.source] - missing.columns
        part = (of_parts - point.part * reduced) / point.reduced
        rooms, prices = np.zeros(len(point.room)), np.zeros(len(point.room))
        rooms[links] = (of_rooms - point.room[links] * price) / point.price[links]
        prices[links] = price
        return Point(part, reduced, rooms, prices, worth, top)


def _factored(matrix: Array) -> tuple[Array, bool]:
    """Cholesky's factor of a matrix, with more on its diagonal where it needs that."""
    more = 0.0
    scale = matrix.diagonal().mean()
    while True:
        try:
            found: tuple[Array, bool] = cho_factor(matrix + more * np.eye(len(matrix)) if more else matrix, lower=True)
            return found
        except np.linalg.LinAlgError:
            more = max(10 * more, 1e-14 * scale)


def _longest(point: Point, step: Point, share: float, links: Array) -> tuple[float, float]:
    """How far primal and dual may go, as a share of the way to the border, at most all of a step."""
    primal = min(_to_border(point.part, step.part), _to_border(point.room[links], step.room[links]))
    dual = min(_to_border(point.reduced, step.reduced), _to_border(point.price[links], step.price[links]))
    return min(1.0, share * primal), min(1.0, share * dual)


def _to_border(values: Array, steps: Array) -> float:
    """The greatest multiple of steps that leaves all values at 0 or above."""
    falling = steps < 0
    return float((values[falling] / -steps[falling]).min(initial=np.inf))
