"""Numbers of mcf's texts: exact fractions of words, and decimals of six digits."""

from __future__ import annotations

import re
from fractions import Fraction
from functools import lru_cache

from .errors import TextError

MILLION = 1_000_000

_NUMBER = re.compile(r"(?:[0-9]+\.?[0-9]*|\.[0-9]+)(?:[Ee][+-]?[0-9]{1,2})?")
_WHOLE = re.compile(r"0|[1-9][0-9]{0,38}")
_DECIMAL = re.compile(r"(0|[1-9][0-9]{0,38})\.([0-9]{6})")


@lru_cache(maxsize=65536)
def fraction_of(word: str) -> Fraction:
    """The exact value of a number of a network file, as `.5`, `1000.00` or `2e-3`."""
    if not _NUMBER.fullmatch(word):
        raise TextError(f"{word!r} is no number")
    try:
        return Fraction(word)
    except ValueError:
        raise TextError(f"{word[:40]!r}.. has more digits than are read") from None


def whole_of(word: str) -> int:
    """The value of a number of a certificate: `0`, or digits without a zero in front."""
    if not _WHOLE.fullmatch(word):
        raise TextError(f"{word!r} is no whole number")
    return int(word)


def millionths_of(word: str) -> int:
    """The value, in millionths, of a decimal of a certificate: a whole number, a point and six digits."""
    match = _DECIMAL.fullmatch(word)
    if match is None:
        raise TextError(f"{word!r} is no decimal with six digits")
    return int(match[1]) * MILLION + int(match[2])


def decimal_of(millionths: int) -> str:
    """The decimal with six digits of a number of millionths."""
    return f"{millionths // MILLION}.{millionths % MILLION:06d}"


def rounded_down(numerator: int, denominator: int) -> int:
    """A fraction in millionths, rounded down."""
    return numerator * MILLION // denominator


def rounded_up(numerator: int, denominator: int) -> int:
    """A fraction in millionths, rounded up."""
    return -(-numerator * MILLION // denominator)
