"""Fractions of small denominators behind numbers with noise."""

from __future__ import annotations

from fractions import Fraction
from math import lcm

import numpy as np

from .arrays import Array

DENOMINATORS = (1, 60, 1000, 10**6)
"""Which greatest denominators are tried, one after another."""


def near_fractions(values: Array, limit: int, noise: float, most: int) -> tuple[list[Fraction], int] | None:
    """Fractions near all values and their common denominator; None where one is not so near, or that is above `most`.

    Each has a denominator up to a limit, and differs by the noise at most, of values above 1 by so much of the value.
    """
    found, where = np.unique(values, return_inverse=True)
    near = [Fraction(float(value)).limit_denominator(limit) for value in found]
    if any(abs(float(fraction) - value) > noise * max(1.0, value) for fraction, value in zip(near, found)):
        return None
    denominator = 1
    for fraction in near:
        denominator = lcm(denominator, fraction.denominator)
        if denominator > most:
            return None
    return [near[place] for place in where], denominator
