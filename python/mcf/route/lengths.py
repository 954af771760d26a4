"""Lengths of cells in whole numbers, so that equal ones are equal exactly."""

from __future__ import annotations

from collections.abc import Callable
from math import lcm

from mcf import Link, ScaledNetwork, TextError, fraction_of

METHODS = ("hops", "capacity", "cost", "ecmp", "k-paths")
LENGTHS = ("hops", "capacity", "cost")
COSTS = ("routing", "capacity", "setup")


def whole_lengths(scaled: ScaledNetwork, by: str, cost: str) -> list[int]:
    """The length of each cell: 1, one over its capacity, or a cost of its link; positive wherever the cell has capacity.

    Where a cost is 0, the number of links decides between ways of one cost.
    """
    if by == "hops":
        return [1] * len(scaled.cells)
    if by == "capacity":
        whole = lcm(*(cell.capacity for cell in scaled.cells if cell.capacity))
        return [whole // cell.capacity if cell.capacity else 0 for cell in scaled.cells]
    return _costs(scaled, cost)


def _costs(scaled: ScaledNetwork, cost: str) -> list[int]:
    """Costs of the file over one denominator."""
    links = scaled.network.links
    words: dict[str, Callable[[Link], str]] = {
        "routing": lambda link: link.routing_cost, "capacity": lambda link: link.capacity_cost, "setup": lambda link: link.setup_cost}
    try:
        costs = [fraction_of(words[cost](links[cell.link])) for cell in scaled.cells]
    except TextError as error:
        raise TextError(f"a {cost} cost of the file: {error}") from error
    whole = lcm(*(value.denominator for value in costs))
    lengths = [int(value * whole) for value in costs]
    if all(length for length, cell in zip(lengths, scaled.cells) if cell.capacity):
        return lengths
    return [length * len(scaled.network.nodes) + 1 for length in lengths]
