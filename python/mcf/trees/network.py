"""A network in whole units as arrays: arcs, cells, and the demands of each pair of nodes."""

from __future__ import annotations

from dataclasses import dataclass
from fractions import Fraction

import numpy as np

from mcf import limits
from mcf.lp.arrays import Array
from mcf.numbers import fraction_of
from mcf.scaled import Counts

from .reading import Odd, Rows, rows_of
from .words import Words, millionths_of, numbers_of, products, repeated

SIGNS = {"undirected": b"=", "directed": b"+", "bidirected": b"+-"}


@dataclass(frozen=True)
class Graph:
    """Ways over cells with capacity: the arcs of one tail side by side, `first[v]` to `first[v + 1]` those that leave node v."""

    nodes: int
    cells: int
    first: Array
    head: Array
    tail: Array
    cell: Array

    @property
    def arcs(self) -> int:
        """How many arcs there are."""
        return len(self.head)


@dataclass(frozen=True)
class Large:
    """A network in whole units; `words` are the names of cells in form 2, and `capacity` their capacities.

    Commodities have their source, target and amount, and the id of their demand by the place of its word.
    """

    links: str
    modules: str
    counts: Counts
    nodes: list[bytes]
    words: list[bytes]
    capacity: Array
    graph: Graph
    source: Array
    target: Array
    amount: Array
    ids: Words


def network_of(data: bytes, links: str, modules: str) -> Large:
    """The network of a text; Odd where the program has to say what is wrong with it."""
    rows = rows_of(data)
    try:
        return _scaled(rows, links, modules)
    except ValueError:
        raise Odd from None


def _scaled(rows: Rows, links: str, modules: str) -> Large:
    """Rows in whole units."""
    names = Words(rows.nodes.text, rows.nodes.first, rows.nodes.end)
    nodes = [names.word(at) for at in range(len(names))]
    node_of = {name: number for number, name in enumerate(nodes)}
    if len(node_of) < len(nodes) or len({row[0] for row in rows.links}) < len(rows.links) or not nodes or repeated(rows.demand):
        raise Odd
    if any(row[1] not in node_of or row[2] not in node_of for row in rows.links):
        raise Odd
    source, target = numbers_of(rows.source, names), numbers_of(rows.target, names)
    if (source < 0).any() or (target < 0).any():
        raise Odd
    amount = products(rows.unit, millionths_of(rows.value))
    kept = np.flatnonzero((amount > 0) & (source != target))
    capacities = np.array([_installed(row[3], row[4:], modules) for row in rows.links], np.uint64)
    decimals = _decimals(capacities, amount[kept])
    unit = np.uint64(10 ** (6 - decimals))
    hops = int((rows.longest.end - rows.longest.first != len(b"UNLIMITED")).sum()) + _numbers_of_nine(rows.longest)
    cells = len(rows.links) * len(SIGNS[links])
    counts = Counts(len(nodes), cells, len(kept), decimals, rows.skipped, len(amount) - len(kept), hops)
    ends = np.array([[node_of[row[1]], node_of[row[2]]] for row in rows.links], np.int64).reshape(-1, 2)
    units = _within(capacities // unit), _within(amount[kept] // unit)
    if int(units[1].sum()) > limits.MAX_TOTAL:
        raise Odd
    words = [bytes([sign]) + row[0] for row in rows.links for sign in SIGNS[links]]
    capacity = np.repeat(units[0], len(SIGNS[links]))
    return Large(links, modules, counts, nodes, words, capacity, graph_of(len(nodes), ends, links, capacity), source[kept], target[kept],
                 units[1], rows.demand.some(kept))


def _numbers_of_nine(longest: Words) -> int:
    """How many longest paths of nine bytes are numbers and not UNLIMITED."""
    nine = longest.end - longest.first == len(b"UNLIMITED")
    return int((longest.text[longest.first[nine]] != ord("U")).sum())


def _installed(capacity: bytes, sizes: list[bytes], modules: str) -> int:
    """A link's capacity with its modules, in millionths."""
    some = [fraction_of(size.decode("latin-1")) for size in sizes]
    more = {"none": Fraction(0), "largest": max(some, default=Fraction(0)), "sum": sum(some, Fraction(0))}[modules]
    whole = (fraction_of(capacity.decode("latin-1")) + more) * 10**6
    if whole.denominator != 1 or whole >= 1 << 64:
        raise Odd
    return int(whole)


def _decimals(*numbers: Array) -> int:
    """The least number of decimals that all numbers have, which are in millionths."""
    for decimals in range(6):
        if all(not (some % np.uint64(10 ** (6 - decimals))).any() for some in numbers):
            return decimals
    return 6


def _within(units: Array) -> Array:
    """Numbers of units that are no greater than they may be."""
    if len(units) and int(units.max()) > limits.MAX_UNITS:
        raise Odd
    found: Array = units.astype(np.int64)
    return found


def graph_of(nodes: int, ends: Array, links: str, capacity: Array) -> Graph:
    """The arcs over cells with capacity, by tail, head and cell."""
    tail, head = ends[:, 0], ends[:, 1]
    if links == "directed":
        cell = np.arange(len(ends))
    else:
        tail, head = np.stack([tail, head], 1).ravel(), np.stack([head, tail], 1).ravel()
        cell = np.repeat(np.arange(len(ends)), 2) if links == "undirected" else np.arange(2 * len(ends))
    used = np.flatnonzero((capacity[cell] > 0) & (tail != head))
    order = used[np.lexsort((cell[used], head[used], tail[used]))]
    first = np.searchsorted(tail[order], np.arange(nodes + 1))
    tail, head, cell, first = (np.ascontiguousarray(array, np.int32) for array in (tail[order], head[order], cell[order], first))
    return Graph(nodes, len(capacity), first, head, tail, cell)
