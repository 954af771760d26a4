"""Bands: both bounds of many cases as two lines and what lies between, drawn as paths of SVG."""

from __future__ import annotations

from collections.abc import Sequence
from dataclasses import dataclass
from fractions import Fraction
from math import ceil

from ..ranges import Range, span
from ..report.shown import percent

WIDTH, HEIGHT, LEFT, BOTTOM, TOP = 1000.0, 300.0, 74.0, 34.0, 12.0
# about how wide a character of a label is
CHARACTER = 8.0
MOST = 2000
"""How many places a band has at most; of more cases each of a few in a row is drawn as their range together."""


@dataclass(frozen=True)
class Mark:
    """A line across the picture, or a label below it."""

    at: float
    label: str


@dataclass(frozen=True)
class Band:
    """A picture: the area between both bounds, both lines, marks of percents, and labels of places; of rules the lower line alone."""

    area: str
    lower: str
    upper: str
    percents: tuple[Mark, ...]
    places: tuple[Mark, ...]
    whole: float | None
    together: int
    about: str
    width: float = WIDTH
    height: float = HEIGHT
    left: float = LEFT
    floor: float = HEIGHT - BOTTOM


def band(ranges: Sequence[Range], labels: Sequence[str], about: str, bounded: bool = True) -> Band:
    """The picture of ranges in their order, or of their lower ends; of the labels, which stand below, a few are written."""
    together = ceil(len(ranges) / MOST)
    drawn = [span(ranges[at:at + together]) for at in range(0, len(ranges), together)]
    most = span(drawn).upper or Fraction(1)
    step = _step(most)
    top = step * ceil(most / step)
    xs = [_x(at, len(drawn)) for at in range(len(drawn))]
    lower = [(x, _y(one.lower, top)) for x, one in zip(xs, drawn)]
    upper = [(x, _y(one.upper, top)) for x, one in zip(xs, drawn)]
    percents = tuple(Mark(_y(step * at, top), percent(step * at)) for at in range(int(top / step) + 1))
    area, line = (_path([*upper, *lower[::-1]]) + "Z", _path(upper)) if bounded else ("", "")
    return Band(area, _path(lower), line, percents, _places(labels), _y(Fraction(1), top) if top >= 1 else None, together, about)


def _step(most: Fraction) -> Fraction:
    """The step of marks: 1, 2 or 5 times a power of ten, so that there are few."""
    size = Fraction(1, 10**6)
    while True:
        for times in (1, 2, 5):
            if size * times * 6 >= most:
                return size * times
        size *= 10


def _x(at: int, count: int) -> float:
    """Where a place is across."""
    return round(LEFT + (WIDTH - LEFT - 10) * (at / (count - 1) if count > 1 else 0.5), 2)


def _y(value: Fraction, top: Fraction) -> float:
    """Where a value is up."""
    return round(TOP + (HEIGHT - BOTTOM - TOP) * float(1 - value / top), 2)


def _path(points: Sequence[tuple[float, float]]) -> str:
    """A line through points; one across the picture where there is one."""
    if len(points) == 1:
        points = [(LEFT, points[0][1]), (WIDTH - 10, points[0][1])]
    return "M" + "L".join(f"{x:g} {y:g}" for x, y in points)


def _places(labels: Sequence[str]) -> tuple[Mark, ...]:
    """The first label, the last one, and up to three between, as far as there is room for them."""
    short = [label if len(label) <= 20 else label[:9] + "…" + label[-10:] for label in labels]
    count, wide = len(short), CHARACTER * max(map(len, short))
    parts = max(1, min(4, int((WIDTH - LEFT) / (1.5 * wide + CHARACTER))))
    few = sorted({min(count - 1, count * part // parts) for part in range(parts + 1)})
    return tuple(Mark(_x(at, count), short[at]) for at in few)
