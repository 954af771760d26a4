"""Values of words that several tools have."""

from __future__ import annotations

import argparse
import math
import re
from collections.abc import Callable

from .numbers import fraction_of


def seconds(word: str) -> float:
    """A time."""
    try:
        value = float(word)
    except ValueError:
        value = math.nan
    if not 0 < value < math.inf:
        raise argparse.ArgumentTypeError(f"{word!r} is no number of seconds above 0")
    return value


def millionths(word: str) -> int:
    """A gap, in millionths."""
    try:
        value = fraction_of(word) * 10**6
    except ValueError as why:
        raise argparse.ArgumentTypeError(str(why)) from None
    if value.denominator != 1 or value > 1000 * 10**6:
        raise argparse.ArgumentTypeError(f"{word} is no whole number of millionths up to 1000")
    return int(value)


def gap(word: str) -> str:
    """A gap, as the word that the program takes."""
    millionths(word)
    return word


def counted(most: int) -> Callable[[str], str]:
    """A whole number from 1 to the most, as the word that the program takes."""

    def number(word: str) -> str:
        """The word."""
        if not re.fullmatch("[0-9]{1,20}", word) or not 1 <= int(word) <= most:
            raise argparse.ArgumentTypeError(f"{word!r} is no whole number from 1 to {most}")
        return word

    return number
