"""What callers give, made exact or refused: numbers of many types as fractions, and names as words of a network text.

A network text is bytes. The core holds its words as strings with one character for each byte; callers see them as UTF-8, in which a
byte that is none is one surrogate character, as in names of files.
"""

from __future__ import annotations

import math
import re
from collections.abc import Callable
from decimal import Decimal
from fractions import Fraction
from numbers import Rational, Real

from .limits import MAX_DECIMALS, MAX_UNITS, MAX_WORD_BYTES
from .numbers import MILLION, decimal_of, fraction_of

Number = int | float | str | Decimal | Fraction

_BRIEF = 80
_UNFIT = re.compile(r"[ \t\r\n()#]")


def number_of(value: object, what: str, most: int = MAX_UNITS) -> Fraction:
    """The exact value of a number that is at least 0 and has at most six decimals.

    A float counts as the shortest decimal that gives it, so 0.1 is one tenth. ValueError, which begins with `what`, where the value is
    no number, is not finite, negative, finer than a millionth, or more than `most`.
    """
    exact = _exact(value)
    if exact is None:
        raise ValueError(f"{what}: {brief(value, repr)} is no number")
    if exact < 0:
        raise ValueError(f"{what}: {brief(value)} is negative")
    if (exact * MILLION).denominator != 1:
        mend = ", or give all numbers in a smaller unit" if most == MAX_UNITS else ""
        raise ValueError(f"{what}: {brief(value)} has more than {MAX_DECIMALS} decimals; round it{mend}")
    if exact > most:
        mend = "; give all numbers in a greater unit" if most == MAX_UNITS else ""
        raise ValueError(f"{what}: {brief(value)} is more than {most}{mend}")
    return exact


def brief(value: object, spelled: Callable[[object], str] = str) -> str:
    """A value as a message has it: not more than a front of what is long."""
    try:
        text = spelled(value)
    except ValueError:
        # (Python spells no int of more than 4,300 digits)
        return "a number of thousands of digits"
    return text if len(text) <= _BRIEF else f"{text[:_BRIEF]}.."


def _exact(value: object) -> Fraction | None:
    """The value of a finite number of any type; None for anything else."""
    if isinstance(value, bool):
        return None
    if isinstance(value, Rational):
        return Fraction(int(value.numerator), int(value.denominator))
    if isinstance(value, Decimal):
        return Fraction(_near(value)) if value.is_finite() else None
    if isinstance(value, Real):
        return Fraction(str(value)) if math.isfinite(value) else None
    try:
        return fraction_of(value.strip()) if isinstance(value, str) else None
    except ValueError:
        # (as for more digits than Python reads)
        return None


def _near(value: Decimal) -> Decimal:
    """A finite Decimal; of an exponent that makes a fraction of endless digits, one that is refused for the same reason."""
    sign, digits, exponent = value.as_tuple()
    assert isinstance(exponent, int)
    return Decimal((sign, digits, max(-99 - len(digits), min(exponent, 99))))


def decimal_word(value: Fraction) -> str:
    """The shortest decimal of a number with at most six decimals."""
    word = decimal_of(int(value * MILLION))
    return word.rstrip("0").rstrip(".")


def word_of(name: object, what: str) -> str:
    """The word of a name, one character for each byte; ValueError, which begins with `what`, where no network text can hold the name."""
    name = spelled(name)
    if not name:
        raise ValueError(f"{what}: the name is empty")
    if _UNFIT.search(name):
        raise ValueError(f"{what}: the name {name!r} has a blank, a line end, a parenthesis or #, which a network text cannot hold; "
                         "rename it, as by name.replace(' ', '_')")
    try:
        data = name.encode("utf-8", "surrogateescape")
    except UnicodeEncodeError:
        raise ValueError(f"{what}: the name {name!r} has a character that UTF-8 has not") from None
    if len(data) > MAX_WORD_BYTES:
        raise ValueError(f"{what}: the name {name[:20]!r}.. has {len(data)} bytes, and a network text holds at most {MAX_WORD_BYTES}")
    return data.decode("latin-1")


def spelled(name: object) -> str:
    """The str of a name; of a float that is whole that of the int, since pandas makes floats of ints as soon as one is missing."""
    if isinstance(name, str):
        return name
    if isinstance(name, Real) and not isinstance(name, Rational) and (value := float(name)).is_integer():
        return str(int(value))
    return str(name)


def name_of(word: str) -> str:
    """The name that a word of the core spells."""
    return word if word.isascii() else word.encode("latin-1").decode("utf-8", "surrogateescape")
