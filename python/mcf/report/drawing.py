"""The map: links with a colour by utilisation and a thickness by share of the bound, nodes and labels."""

from __future__ import annotations

import math
from collections import defaultdict
from collections.abc import Callable
from dataclasses import dataclass, replace
from fractions import Fraction

from .figures import Figures, LinkFigures
from .layout import Layout
from .shown import amount, name, percent

CLASSES = (
    (Fraction(1, 4), "up to 25 %"),
    (Fraction(1, 2), "25 to 50 %"),
    (Fraction(3, 4), "50 to 75 %"),
    (Fraction(9, 10), "75 to 90 %"),
    (Fraction(1), "90 to 100 %"),
)
OVER = ((Fraction(2), "100 to 200 %"), (None, "more than 200 %"))
UNUSED, CLOSED = "n", "c"
MOST_LABELS = 70
LARGE = 1.8


@dataclass(frozen=True)
class Line:
    """A link's line: its path, both classes of colour, its width and what it says when pointed at."""

    path: str
    at_full: str
    at_lower: str
    width: float
    title: str


@dataclass(frozen=True)
class Dot:
    """A node with its label, where there is room for one; its place may be made up."""

    x: float
    y: float
    name: str
    label: str
    label_x: float
    label_y: float
    anchor: str
    made_up: bool = False


@dataclass(frozen=True)
class Drawing:
    """A map."""

    layout: Layout
    lines: tuple[Line, ...]
    dots: tuple[Dot, ...]
    radius: float


def class_of(utilisation: Fraction | None) -> str:
    """The class of colour of a utilisation."""
    if utilisation is None:
        return CLOSED
    if utilisation == 0:
        return UNUSED
    return str(next(at for at, (most, _) in enumerate((*CLASSES, *OVER)) if most is None or utilisation <= most))


def drawing(figures: Figures, places: Layout) -> Drawing:
    """The map of a certificate or routing: colours by utilisation, thickness by share of the bound."""
    crowd = len(figures.links)
    thin = 2.5 if crowd <= 200 else 1.5 if crowd <= 1000 else 0.8
    most = max((row.share or Fraction(0) for row in figures.links), default=Fraction(0))
    return drawn(figures, places, lambda row, path: _line(row, path, thin, most))


def drawn(figures: Figures, places: Layout, line: Callable[[LinkFigures, str], Line]) -> Drawing:
    """The map of all links, the thickest on top."""
    bends, cells, at = _bends(figures), figures.scaled.cells, places.places
    lines = [line(row, _path(at[cells[row.cell].tail], at[cells[row.cell].head], bends[row.cell])) for row in figures.links]
    radius = 7.0 if len(at) <= 100 else 4.0 if len(at) <= 300 else 3.0
    return Drawing(places, tuple(sorted(lines, key=lambda line: line.width)), _dots(figures, places, radius), radius)


def _bends(figures: Figures) -> list[float]:
    """How far each line bends to its right: those between the same nodes lie side by side, each way right of the other."""
    cells = figures.scaled.cells
    groups: dict[tuple[int, int], list[int]] = defaultdict(list)
    for number, cell in enumerate(cells):
        groups[min(cell.tail, cell.head), max(cell.tail, cell.head)].append(number)
    bends = [0.0] * len(cells)
    for group in groups.values():
        group.sort(key=lambda number: (cells[number].tail <= cells[number].head, number))
        for at, number in enumerate(group):
            offset = (at - (len(group) - 1) / 2) * min(44.0, 200.0 / len(group))
            bends[number] = offset if cells[number].tail <= cells[number].head else -offset
    return bends


def _line(row: LinkFigures, path: str, thin: float, most: Fraction) -> Line:
    """The line of a link."""
    share = float(row.share / most) if row.share and most else 0.0
    return Line(path, class_of(row.utilisation), class_of(row.utilisation_at_lower), round(thin + 11 * share, 2), _title(row))


def _path(a: tuple[float, float], b: tuple[float, float], bend: float) -> str:
    """A straight line, a bent one, or a loop."""
    if a == b:
        return f"M{a[0]} {a[1]}c-14 -{24 + abs(bend):.1f} 14 -{24 + abs(bend):.1f} 0 0"
    if bend == 0:
        return f"M{a[0]} {a[1]}L{b[0]} {b[1]}"
    length = math.hypot(b[0] - a[0], b[1] - a[1])
    middle = (a[0] + b[0]) / 2 - (b[1] - a[1]) / length * bend, (a[1] + b[1]) / 2 + (b[0] - a[0]) / length * bend
    return f"M{a[0]} {a[1]}Q{middle[0]:.1f} {middle[1]:.1f} {b[0]} {b[1]}"


def _title(row: LinkFigures) -> str:
    """What a link says when it is pointed at."""
    arrow = {"=": "–", "+": "→", "-": "→"}[row.way]
    used = "no capacity" if row.utilisation is None else f"utilisation {percent(row.utilisation)}"
    share = "" if row.share is None else f", share of the bound {percent(row.share)}"
    ends = f"{name(row.source)} {arrow} {name(row.target)}"
    return f"{name(row.link)}: {ends}, {amount(row.load)} of {amount(row.capacity)}, {used}{share}"


@dataclass
class _Room:
    """What labels have to keep off: boxes of nodes and labels, which they never cover, and points of lines."""

    width: float
    height: float
    boxes: list[tuple[float, float, float, float]]
    points: list[tuple[float, float]]

    def cost(self, box: tuple[float, float, float, float], left: float, right: float) -> int | None:
        """How many points of lines a box covers; none where it cannot stand, or is outside in large letters."""
        inside = 0 <= left and right <= self.width and 10 <= box[1] and box[3] + 10 <= self.height
        if not inside or any(_cover(box, other) for other in self.boxes):
            return None
        return sum(box[0] < x < box[2] and box[1] < y < box[3] for x, y in self.points)


def _dots(figures: Figures, places: Layout, radius: float) -> tuple[Dot, ...]:
    """All nodes; where they are many, only the ends of the bottleneck have labels."""
    nodes = figures.scaled.network.nodes
    wanted = set(range(len(nodes)))
    if len(nodes) > MOST_LABELS:
        rows = figures.bottleneck[:12] or figures.by_utilisation[:12]
        cells = [figures.scaled.cells[row.cell] for row in rows]
        wanted = {end for cell in cells for end in (cell.tail, cell.head)}
    boxes = [(x - radius, y - radius, x + radius, y + radius) for x, y in places.places]
    room = _Room(places.width, places.height, boxes, _points(figures, places))
    dots = (_dot(name(node.id), places, at, radius, room, at in wanted) for at, node in enumerate(nodes))
    return tuple(replace(dot, made_up=at in places.made_up) for at, dot in enumerate(dots))


def _points(figures: Figures, places: Layout) -> list[tuple[float, float]]:
    """Points along all lines, where these are few enough to be kept off."""
    cells = figures.scaled.cells if len(figures.links) <= 400 else ()
    points = []
    for cell in cells:
        a, b = places.places[cell.tail], places.places[cell.head]
        steps = max(1, round(math.dist(a, b) / 4))
        points += [(a[0] + (b[0] - a[0]) * at / steps, a[1] + (b[1] - a[1]) * at / steps) for at in range(steps + 1)]
    return points


def _dot(title: str, places: Layout, at: int, radius: float, room: _Room, wanted: bool) -> Dot:
    """A node; its label stands on the side where it covers least."""
    x, y = places.places[at]
    label = title if len(title) <= 22 else title[:21] + "…"
    width, height = 8.6 * len(label), 15.0
    sides = [(x, y - radius - 5, "middle", x - width / 2), (x, y + radius + 15, "middle", x - width / 2)]
    for rise in (5, -6, 16):
        sides += [(x + radius + 4, y + rise, "start", x + radius + 4), (x - radius - 4, y + rise, "end", x - radius - 4 - width)]
    boxes = [(left, label_y - height + 3, left + width, label_y + 3) for _, label_y, _, left in sides]
    costs = [
        (cost, side)
        for side, box in enumerate(boxes)
        if wanted and (cost := room.cost(box, *_large(box, sides[side][2]))) is not None
    ]
    if not costs:
        return Dot(x, y, title, "", x, y, "middle")
    best = min(costs)[1]
    room.boxes.append(boxes[best])
    label_x, label_y, anchor, _ = sides[best]
    return Dot(x, y, title, label, round(label_x, 1), round(label_y, 1), anchor)


def _large(box: tuple[float, float, float, float], anchor: str) -> tuple[float, float]:
    """From where to where a label goes in the large letters that narrow pages have."""
    more = (box[2] - box[0]) * (LARGE - 1)
    left = {"start": 0.0, "middle": more / 2, "end": more}[anchor]
    return box[0] - left, box[2] + more - left


def _cover(a: tuple[float, float, float, float], b: tuple[float, float, float, float]) -> bool:
    """Whether two boxes have a common point."""
    return a[0] < b[2] and b[0] < a[2] and a[1] < b[3] and b[1] < a[3]
