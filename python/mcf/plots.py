"""The map of a certificate or routing as a figure of matplotlib: links coloured by utilisation, as thick as their share of the bound."""

from __future__ import annotations

import io
from collections import defaultdict
from collections.abc import Sequence
from fractions import Fraction
from typing import TYPE_CHECKING, Any

from .given import name_of
from .needs import needed
from .scaled import Cell, ScaledNetwork

with needed():
    from matplotlib.axes import Axes
    from matplotlib.figure import Figure
    from matplotlib.lines import Line2D
    from matplotlib.patches import FancyArrowPatch
    from matplotlib.patheffects import withStroke

    from .report.drawing import CLOSED, MOST_LABELS, class_of
    from .report.layout import WIDTH, layout
    from .report.page import LEGEND

if TYPE_CHECKING:
    from .answers import Answer

_THIN, _THICK = 1.2, 7.0
_INCHES = 9.0


class Map(Figure):  # type: ignore[misc]
    """A figure that a notebook shows by itself, whichever backend it has."""

    def _repr_png_(self) -> bytes:
        """The picture."""
        out = io.BytesIO()
        self.savefig(out, format="png", bbox_inches="tight")
        return out.getvalue()


def figure_of(answer: Answer, ax: Any = None, at_lower: bool = False) -> Figure:
    """The map of an answer, in the axes that are given or in a figure of its own."""
    scaled = answer.scaled
    places = layout(scaled)
    axes = Map(figsize=(_INCHES, _INCHES * places.height / WIDTH + 0.8), dpi=110).add_subplot() if ax is None else ax
    axes.set_xlim(0, places.width)
    axes.set_ylim(places.height, 0)
    axes.set_aspect("equal")
    axes.set_axis_off()
    used = _draw_links(axes, answer, places.places, at_lower)
    _draw_nodes(axes, scaled, places.places)
    entries = [(colour, words) for key, colour, words in LEGEND if key in used]
    axes.legend([Line2D([], [], color=colour, linewidth=3) for colour, _ in entries], [words for _, words in entries], loc="upper center",
                bbox_to_anchor=(0.5, 0.0), ncol=4, frameon=False, fontsize="small")
    axes.set_title(_title(answer, at_lower), fontsize="medium")
    figure = axes.get_figure()
    assert isinstance(figure, Figure)
    return figure


def _title(answer: Answer, at_lower: bool) -> str:
    """What the map shows."""
    of = "of what is carried" if at_lower or answer.kind == "throughput" else "where each demand is carried once"
    bound = "" if answer.upper is None else "; thickness: share of the bound"
    return f"Colour: utilisation {of}{bound}"


def _draw_links(axes: Axes, answer: Answer, places: Sequence[tuple[float, float]], at_lower: bool) -> set[str]:
    """Draws all links, the thickest on top; the classes of colour that there are."""
    scaled, columns = answer.scaled, answer._links(at_lower)
    colour = {key: shade for key, shade, _ in LEGEND}
    shares: list[Fraction] = columns.get("share_of_bound") or [Fraction(0)] * len(scaled.cells)
    most = max(shares, default=Fraction(0)) or Fraction(1)
    bends, classes = _bends(scaled.cells), [class_of(value) for value in columns["utilisation"]]
    for at in sorted(range(len(scaled.cells)), key=lambda at: shares[at]):
        cell = scaled.cells[at]
        axes.add_patch(FancyArrowPatch(
            places[cell.tail], places[cell.head], arrowstyle="-" if cell.both else "-|>", mutation_scale=9, shrinkA=0, shrinkB=0,
            connectionstyle=f"arc3,rad={bends[at]:.3f}", color=colour[classes[at]], zorder=1,
            linewidth=_THIN + (_THICK - _THIN) * float(shares[at] / most), linestyle=":" if classes[at] == CLOSED else "-"))
    return set(classes)


def _bends(cells: Sequence[Cell]) -> list[float]:
    """How far each line bends, so that those between the same nodes lie side by side."""
    groups: dict[tuple[int, int], list[int]] = defaultdict(list)
    for at, cell in enumerate(cells):
        groups[min(cell.tail, cell.head), max(cell.tail, cell.head)].append(at)
    bends = [0.0] * len(cells)
    for at, group in ((at, group) for group in groups.values() for at in group):
        offset = (group.index(at) - (len(group) - 1) / 2) * min(0.16, 0.8 / len(group))
        bends[at] = offset if cells[at].tail <= cells[at].head else -offset
    return bends


def _draw_nodes(axes: Axes, scaled: ScaledNetwork, places: Sequence[tuple[float, float]]) -> None:
    """Draws all nodes, with their names where they are not too many."""
    nodes = scaled.network.nodes
    axes.scatter([x for x, _ in places], [y for _, y in places], s=28 if len(nodes) <= 100 else 9, color="white", edgecolors="#1b2733",
                 linewidths=1.1, zorder=2)
    for node, (x, y) in zip(nodes if len(nodes) <= MOST_LABELS else (), places):
        name = name_of(node.id).encode("utf-8", "replace").decode("utf-8")
        # ($ would begin a formula)
        axes.annotate((name if len(name) <= 22 else name[:21] + "…").replace("$", r"\$"), (x, y), xytext=(0, 5),
                      textcoords="offset points", ha="center", fontsize=7, zorder=3,
                      path_effects=[withStroke(linewidth=2, foreground="white")])
