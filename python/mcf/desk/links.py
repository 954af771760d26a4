"""What is told of links under the capacities as they are now: load, utilisation and share of the bound, by the active certificate."""

from __future__ import annotations

from collections.abc import Mapping
from dataclasses import dataclass
from fractions import Fraction
from functools import cached_property

from ..report.drawing import class_of
from ..report.shown import amount, name, percent
from ..scaled import ScaledNetwork
from .weights import Weights

SORTS = {"share": "share of the bound", "utilisation": "utilisation", "name": "name", "file": "order of the file"}


@dataclass(frozen=True)
class LinkRow:
    """A link, or one way of it: numbers in the file's unit, where all demands are carried once."""

    link: int
    name: str
    ends: str
    capacity: Fraction
    load: Fraction
    share: Fraction
    changed: bool

    @property
    def utilisation(self) -> Fraction | None:
        """Load over capacity; None of a link without capacity."""
        return self.load / self.capacity if self.capacity else None

    @property
    def colour(self) -> str:
        """The class of its colour on the map."""
        return class_of(self.utilisation)

    @property
    def used(self) -> str:
        """The utilisation in words."""
        return "no capacity" if self.utilisation is None else f"utilisation {percent(self.utilisation)}"

    @property
    def label(self) -> str:
        """What the link's button on the map is called."""
        edited = ", edited" if self.changed else ""
        return f"{self.name}: {self.ends}, capacity {amount(self.capacity)}{edited}, {self.used}, share of the bound {percent(self.share)}"


class Links:
    """The rows of all links for the weights of a certificate, with some capacities changed."""

    def __init__(self, scaled: ScaledNetwork, installed: tuple[Fraction, ...], weights: Weights, changed: Mapping[int, Fraction]) -> None:
        """The network as it was read, its capacities, and those that are changed."""
        self._scaled, self._installed, self._weights, self._changed = scaled, installed, weights, changed

    def capacity(self, link: int) -> Fraction:
        """The capacity of a link now."""
        return self._changed.get(link, self._installed[link])

    @cached_property
    def _volume(self) -> Fraction:
        """Capacity times length, over all cells."""
        return sum((self._part(cell) for cell in range(len(self._scaled.cells)) if self._weights.lengths[cell]), Fraction(0))

    def _part(self, cell: int) -> Fraction:
        """Capacity times length of a cell."""
        return self.capacity(self._scaled.cells[cell].link) * self._weights.lengths[cell]

    def share(self, cell: int) -> Fraction:
        """The share of a cell in the bound."""
        return self._part(cell) / self._volume if self._volume else Fraction(0)

    @cached_property
    def most(self) -> Fraction:
        """The greatest share of a cell."""
        return max((self.share(cell) for cell in range(len(self._scaled.cells)) if self._weights.lengths[cell]), default=Fraction(0))

    def cell(self, number: int) -> LinkRow:
        """The row of a cell."""
        cell, network = self._scaled.cells[number], self._scaled.network
        nodes, link = network.nodes, network.links[cell.link]
        ends = f"{name(nodes[cell.tail].id)} {'–' if cell.both else '→'} {name(nodes[cell.head].id)}"
        return LinkRow(cell.link, name(link.id), ends, self.capacity(cell.link), self._scaled.in_file_unit(self._weights.loads[number]),
                       self.share(number), cell.link in self._changed and self._changed[cell.link] != self._installed[cell.link])

    @cached_property
    def _cells_of(self) -> list[list[int]]:
        """The cells of each link."""
        cells: list[list[int]] = [[] for _ in self._scaled.network.links]
        for number, cell in enumerate(self._scaled.cells):
            cells[cell.link].append(number)
        return cells

    def cells_of(self, link: int) -> list[int]:
        """The cells of a link."""
        return self._cells_of[link]

    def link(self, link: int) -> LinkRow:
        """The row of a link: of two ways the load of the fuller one, and the share of both."""
        first, *others = (self.cell(number) for number in self._cells_of[link])
        if not others:
            return first
        back = others[0]
        return LinkRow(link, first.name, first.ends.replace("→", "↔"), first.capacity, max(first.load, back.load), first.share + back.share,
                       first.changed)

    def rows(self, sort: str, wanted: str) -> list[LinkRow]:
        """The rows of all links whose names or ends have a text, in an order."""
        low = wanted.casefold()
        rows = [row for link in range(len(self._scaled.network.links)) if low in f"{(row := self.link(link)).name} {row.ends}".casefold()]
        if sort == "share":
            rows.sort(key=lambda row: (-row.share, -(row.utilisation or 0)))
        elif sort == "utilisation":
            rows.sort(key=lambda row: (row.utilisation is None, -(row.utilisation or 0)))
        elif sort == "name":
            rows.sort(key=lambda row: row.name.casefold())
        return rows
