"""The fullest link of a routing that overfills one, and the greatest scale that fits."""

from __future__ import annotations

import os
from fractions import Fraction

from mcf import Cell, Program, ScaledNetwork, load_text, loads, read_network, read_routing, scale

from .words import shown

# larger files would take longer than a hint is worth
MOST_BYTES = 32 << 20
SECONDS = 10.0
_WAYS = {"+": " along its direction", "-": " against its direction"}


def fullest(program: str, net: str, routing: str) -> str | None:
    """Names the first link with the greatest load over capacity.

    None where a file is too large for that; TextError where one cannot be read.
    """
    if any(not os.path.isfile(file) or os.path.getsize(file) > MOST_BYTES for file in (net, routing)):
        return None
    text = read_routing(load_text(routing))
    network = read_network(Program(program).ask("print", "--", net, seconds=SECONDS))
    scaled = scale(network, text.links, text.modules)
    pairs = zip(scaled.cells, loads(scaled, text))
    filled = [(Fraction(cell.capacity, load), number, load) for number, (cell, load) in enumerate(pairs) if load]
    if not filled:
        return None
    fit, number, load = min(filled)
    name, capacity = _name(scaled, scaled.cells[number]), scaled.cells[number].capacity
    if not capacity:
        return f"link {name} has no capacity and paths go over it, so no scale above 0 fits"
    if not text.scale_load:
        return (f"the second number of the scale is 0; link {name} is the fullest, "
                f"and the greatest scale that fits is {capacity} {load}")
    carries = scaled.in_file_unit(load * Fraction(text.scale_capacity, text.scale_load))
    return (f"link {name} is the fullest, with {_decimal(carries)} on a capacity of {_decimal(scaled.in_file_unit(capacity))}; "
            f"the greatest scale that fits is {capacity} {load}, which carries {_decimal(text.phases * fit)} of each demand")


def _name(scaled: ScaledNetwork, cell: Cell) -> str:
    """The id of a cell's link, and which way of it the cell is where a link has two."""
    name = scaled.network.links[cell.link].id.encode("latin-1").decode("utf-8", "surrogateescape")
    return shown(name) + (_WAYS[cell.sign] if scaled.links == "bidirected" else "")


def _decimal(value: Fraction) -> str:
    """A fraction with at most six digits behind the point, cut off."""
    whole, part = divmod(value * 10**6 // 1, 10**6)
    return f"{whole}.{part:06d}".rstrip("0").rstrip(".")
