"""The map with links as buttons: coloured by utilisation, or by what the failure of each link takes away."""

from __future__ import annotations

from collections.abc import Mapping
from dataclasses import dataclass
from fractions import Fraction

from ..certificate import Routing
from ..ranges import Range, least_loss
from ..report.drawing import CLOSED, Drawing, Line, drawn
from ..report.figures import Figures, LinkFigures
from ..report.layout import Layout
from ..scaled import ScaledNetwork
from ..survey.page import FAILURE_COLOURS, STEPS
from .bounds import spread
from .links import Links

FEW = 300
"""So many links at most are reached by the tabulator key on the map; of more networks the list of links is for the keyboard."""


@dataclass(frozen=True)
class Button(Line):
    """A link's line on the map, as a button."""

    link: int
    cell: int


@dataclass(frozen=True)
class Ground:
    """Where nodes and lines are."""

    scaled: ScaledNetwork
    places: Layout

    @property
    def thin(self) -> float:
        """The width of a link without a share."""
        crowd = len(self.scaled.cells)
        return 2.5 if crowd <= 200 else 1.5 if crowd <= 1000 else 0.8

    def width(self, part: Fraction) -> float:
        """The width for a part from 0 to 1 of the greatest."""
        return round(self.thin + 11 * min(1.0, float(part)), 2)

    def _drawn(self, button: dict[int, Button]) -> Drawing:
        """The drawing with these buttons by their cells."""
        empty = Figures(self.scaled, Routing(2, self.scaled.links, self.scaled.modules, 0, 0, 1))

        def line(row: LinkFigures, path: str) -> Line:
            """The button of a cell, with its path."""
            known = button[row.cell]
            return Button(path, known.at_full, known.at_lower, known.width, known.title, known.link, known.cell)

        return drawn(empty, self.places, line)

    def used(self, links: Links) -> Drawing:
        """The map by utilisation and share of the bound."""
        return self._drawn(dict(enumerate(self.buttons(links))))

    def buttons(self, links: Links) -> list[Button]:
        """The buttons of all cells, without their paths."""
        most = links.most
        return [self.button(links, cell, most) for cell in range(len(self.scaled.cells))]

    def button(self, links: Links, cell: int, most: Fraction) -> Button:
        """The button of a cell, without its path."""
        row = links.cell(cell)
        kind = f"f{row.colour}" + (" edited" if row.changed else "")
        return Button("", kind, "", self.width(row.share / most if most else Fraction(0)), row.label, row.link, cell)

    def failures(self, links: Links, found: Mapping[int, Range], base: Range) -> Drawing:
        """The map by what the failure of each link takes away at least."""
        return self._drawn({cell: self._failure(links, cell, found, base) for cell in range(len(self.scaled.cells))})

    def _failure(self, links: Links, cell: int, found: Mapping[int, Range], base: Range) -> Button:
        """The button of a cell."""
        row = links.cell(cell)
        of = found[row.link]
        loss = least_loss(of, base)
        key = CLOSED if not row.capacity else str(sum(loss > step for step in STEPS))
        return Button("", f"x{key}", "", self.width(loss), f"{row.name} closed ({row.ends}): {spread(of)}", row.link, cell)


FAILURE_LEGEND = tuple((f"x{key}", colour, words) for key, colour, words in FAILURE_COLOURS)
