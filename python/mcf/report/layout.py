"""Where nodes stand in a picture: at the file's coordinates; where it has none, at places that are made up and said to be so."""

from __future__ import annotations

import math
from collections import defaultdict
from dataclasses import dataclass
from typing import Any

import networkx
import numpy

from mcf import ScaledNetwork

SEED = 1
WIDTH = 1000.0
MARGIN = 40.0
FAN = 0.025
ROUNDS = 200

Places = dict[int, tuple[float, float]]


@dataclass(frozen=True)
class Layout:
    """Places of all nodes in a box, y downwards; what they are in words; and which of them the file does not have."""

    places: tuple[tuple[float, float], ...]
    width: float
    height: float
    source: str
    made_up: frozenset[int] = frozenset()


def layout(scaled: ScaledNetwork) -> Layout:
    """The file's coordinates where it has them; nodes without any stand among their neighbours, and apart from all others."""
    nodes = scaled.network.nodes
    given = {number: place for number, node in enumerate(nodes) if (place := _finite(node.position)) is not None}
    if len(set(given.values())) < 2:
        found = f"a single place, of {len(given)} of {len(nodes)} nodes" if given else "no coordinates"
        source = f"a spring layout, since the file has {found}; all places are made up"
        return _boxed(_springs(_graph(scaled)), source, frozenset(range(len(nodes))))
    known, fanned = _fanned(_in_unit(_projected(given)))
    source = "the file's coordinates" + (f" ({fanned} nodes that have the place of another side by side)" if fanned else "")
    made_up = frozenset(range(len(nodes))) - frozenset(known)
    if not made_up:
        return _boxed(known, source)
    source += f", which has them of {len(given)} of {len(nodes)} nodes; the places of the others, drawn hollow, are made up"
    return _boxed(_between(_graph(scaled), known), source, made_up)


def _finite(place: tuple[float, float] | None) -> tuple[float, float] | None:
    """A place of two numbers that can be drawn."""
    return place if place and all(math.isfinite(part) and abs(part) < 1e12 for part in place) else None


def _projected(known: Places) -> Places:
    """Degrees as on a map, where all can be longitude and latitude: a degree of longitude is shorter far from the equator."""
    degrees = all(abs(x) <= 180 and abs(y) <= 90 for x, y in known.values())
    middle = sum(y for _, y in known.values()) / len(known)
    factor = max(0.2, math.cos(math.radians(middle))) if degrees else 1.0
    return {number: (x * factor, y) for number, (x, y) in known.items()}


def _in_unit(known: Places) -> Places:
    """The places with the greater extent from 0 to 1."""
    xs, ys = [x for x, _ in known.values()], [y for _, y in known.values()]
    extent = max(max(xs) - min(xs), max(ys) - min(ys))
    return {number: ((x - min(xs)) / extent, (y - min(ys)) / extent) for number, (x, y) in known.items()}


def _fanned(known: Places) -> tuple[Places, int]:
    """Nodes that have one place on a small circle round it; and how many these are."""
    groups: dict[tuple[float, float], list[int]] = defaultdict(list)
    for number, place in known.items():
        groups[place].append(number)
    moved = {
        number: (x + FAN * math.cos(2 * math.pi * at / len(group)), y + FAN * math.sin(2 * math.pi * at / len(group)))
        for (x, y), group in groups.items()
        if len(group) > 1
        for at, number in enumerate(group)
    }
    return {**known, **moved}, len(moved)


def _graph(scaled: ScaledNetwork) -> Any:
    """The nodes by their numbers, joined where there are links."""
    graph = networkx.Graph()
    graph.add_nodes_from(range(len(scaled.network.nodes)))
    graph.add_edges_from((cell.tail, cell.head) for cell in scaled.cells if cell.tail != cell.head)
    return graph


def _springs(graph: Any) -> Places:
    """A spring layout of all nodes."""
    found = networkx.spring_layout(graph, seed=SEED, iterations=100 if len(graph) < 200 else 50)
    return {number: (float(x), float(y)) for number, (x, y) in found.items()}


def _between(graph: Any, known: Places) -> Places:
    """A spring layout in which the known nodes keep their places, and no other node is on top of one or of another."""
    start = _among_neighbours(graph, known)
    reach = 0.6 / math.sqrt(len(graph))
    found = networkx.spring_layout(graph, k=reach, pos=start, fixed=list(known), iterations=50, seed=SEED)
    loose = [number for number in range(len(graph)) if number not in known]
    places = numpy.array([found[number] for number in range(len(graph))])
    places[loose] = places[loose].clip(-0.1, 1.1)
    return {number: (float(x), float(y)) for number, (x, y) in enumerate(_apart(places, loose, min(0.06, 0.8 * reach)))} | known


def _among_neighbours(graph: Any, known: Places) -> Places:
    """The known places, and of each other node the mean of its neighbours' places, near the middle where it has none."""
    loose = [number for number in graph if number not in known]
    middle = (sum(x for x, _ in known.values()) / len(known), sum(y for _, y in known.values()) / len(known))
    places = dict(known)
    for at, number in enumerate(loose):
        around = [known[other] for other in graph[number] if other in known] or [middle]
        turn = at * math.pi * (3 - math.sqrt(5))
        x, y = sum(x for x, _ in around) / len(around), sum(y for _, y in around) / len(around)
        places[number] = (x + FAN * math.cos(turn), y + FAN * math.sin(turn))
    return places


def _apart(places: Any, loose: list[int], least: float) -> Any:
    """The places, with those of loose nodes moved until they are as far from all others as told, as far as that can be."""
    rows = numpy.arange(len(loose))
    for _ in range(ROUNDS):
        steps = places[loose, None, :] - places[None, :, :]
        far = numpy.hypot(steps[..., 0], steps[..., 1])
        far[rows, loose] = numpy.inf
        lacks = numpy.clip(least - far, 0, None)
        if not lacks.any():
            break
        places[loose] += (steps / numpy.maximum(far, 1e-9)[..., None] * lacks[..., None]).sum(axis=1) * 0.6
    return places


def _boxed(places: Places, source: str, made_up: frozenset[int] = frozenset()) -> Layout:
    """The places in a box of fixed width and a height that is neither flat nor long."""
    xs, ys = [x for x, _ in places.values()], [y for _, y in places.values()]
    wide, high = max(xs) - min(xs) or 1.0, max(ys) - min(ys) or 1.0
    inner = WIDTH - 2 * MARGIN
    height = min(max(inner * high / wide, 0.45 * inner), 1.0 * inner)
    scale = min(inner / wide, height / high)
    left = MARGIN + (inner - wide * scale) / 2
    top = MARGIN + (height - high * scale) / 2
    ordered = [places[number] for number in range(len(places))]
    moved = tuple((round(left + (x - min(xs)) * scale, 1), round(top + (max(ys) - y) * scale, 1)) for x, y in ordered)
    return Layout(moved, WIDTH, round(height + 2 * MARGIN, 1), source, made_up)
