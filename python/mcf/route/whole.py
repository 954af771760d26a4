"""Splits of demands in whole units: how many phases make them exact, or else the nearest units."""

from __future__ import annotations

from collections.abc import Iterable, Sequence
from dataclasses import dataclass
from fractions import Fraction
from math import lcm

import numpy as np

MOST_PHASES = 65536


@dataclass(frozen=True)
class Phases:
    """A number of phases, and whether all parts times it are whole numbers."""

    number: int
    exact: bool


def phases_for(parts: Iterable[Fraction]) -> Phases:
    """The least number of phases that makes all parts whole; else the one under which the farthest part is nearest to a whole number."""
    rests = {part % 1 for part in parts}
    whole = 1
    for rest in rests:
        whole = lcm(whole, rest.denominator)
        if whole > MOST_PHASES:
            return Phases(_nearest(sorted(rests)), False)
    return Phases(whole, True)


def _nearest(rests: Sequence[Fraction]) -> int:
    """The number of phases, from half the most on, with the least deviation for its phases; the greater one of equal ones."""
    numbers = np.arange(MOST_PHASES, MOST_PHASES // 2, -1)
    worst = np.zeros(len(numbers))
    for rest in rests:
        if rest.denominator < 2**46:
            left = numbers * rest.numerator % rest.denominator
            near = np.minimum(left, rest.denominator - left) / rest.denominator
        else:
            near = np.full(len(numbers), 0.5)
        worst = np.maximum(worst, near)
    return int(numbers[np.argmin(worst / numbers)])


def in_units(parts: Sequence[Fraction], phases: int) -> list[int]:
    """Parts times phases as whole numbers with the same sum, which is whole: down, and the greatest rests up."""
    exact = [part * phases for part in parts]
    weights = [int(value) for value in exact]
    missing = int(sum(exact)) - sum(weights)
    for at in sorted(range(len(parts)), key=lambda at: (weights[at] - exact[at], at))[:missing]:
        weights[at] += 1
    return weights
