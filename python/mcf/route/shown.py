"""How far a routing is below the best one, in words."""

from __future__ import annotations

from fractions import Fraction

from mcf import decimal_of, rounded_down, rounded_up

from ..ranges import Range, shortfall


def below_the_best(carried: Fraction, best: Range) -> str:
    """What the best carries, and by how much a routing that carries so much is below it."""
    found = shortfall(carried, best)
    least = decimal_of(rounded_down(best.lower.numerator, best.lower.denominator))
    if best.exact:
        this = f"{percent(found.upper)} below" if found.upper else "not below it"
        return f"the best carries {least} of every demand, so this is {this}"
    most = decimal_of(rounded_up(best.upper.numerator, best.upper.denominator))
    return f"the best carries {least} of every demand and no routing more than {most}, so this is at most {percent_up(found.upper)} below"


def percent(part: Fraction) -> str:
    """A known part in percent, to the nearest hundredth, or to two digits; never nothing or all where it is not that."""
    places = max(2, _places(part * 100, 2))
    nearest = (part * 100 * 10**places + Fraction(1, 2)).__floor__()
    if part < 1:
        nearest = min(nearest, 100 * 10**places - 1)
    return f"{_decimal(nearest, places)}%"


def percent_up(part: Fraction) -> str:
    """A part in percent, rounded up to a hundredth, or to two digits."""
    places = max(2, _places(part * 100, 2))
    return f"{_decimal((part * 100 * 10**places).__ceil__(), places)}%"


def few_digits_up(value: Fraction) -> str:
    """A number by its first three digits, rounded up."""
    places = _places(value, 3)
    return _decimal((value * 10**places).__ceil__(), places)


def _places(value: Fraction, digits: int) -> int:
    """How many decimals have so many digits of a number in them, behind its zeros."""
    places = 0
    while value and value * 10**places < 10 ** (digits - 1):
        places += 1
    return places


def _decimal(value: int, places: int) -> str:
    """A number of parts as a decimal."""
    return f"{value // 10**places}.{value % 10**places:0{places}d}" if places else str(value)
