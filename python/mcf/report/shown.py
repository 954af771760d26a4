"""Numbers and names as people read them."""

from __future__ import annotations

from fractions import Fraction


def name(word: str) -> str:
    """A name of a text, one character for each byte, as the characters that it was meant to have."""
    return word.encode("latin-1").decode("utf-8", "replace")


def _tenths(tenths: int) -> str:
    """A number of tenths, with commas between thousands."""
    return f"{tenths // 10:,}.{tenths % 10}"


def percent(value: Fraction) -> str:
    """The nearest tenth of a percent; with more digits where that would hide on which side of 100 % it lies."""
    return _at_whole(value) or _tenths((value * 1000 + Fraction(1, 2)).__floor__()) + " %"


def percent_down(value: Fraction) -> str:
    """A share in percent, rounded down to a tenth; what is not nothing is never shown as nothing."""
    return _small(value) or _tenths((value * 1000).__floor__()) + " %"


def percent_up(value: Fraction) -> str:
    """A share in percent, rounded up to a tenth; what is less than 100 % is never shown as 100 %."""
    return (_at_whole(value) if value < 1 else "") or _tenths((value * 1000).__ceil__()) + " %"


def _small(value: Fraction) -> str:
    """A share that is too small for a tenth of a percent, by its first two digits, rounded down."""
    if not 0 < value * 1000 < 1:
        return ""
    places = 3
    while value * 10 ** (places + 2) < 10:
        places += 1
    return f"0.{(value * 10 ** (places + 2)).__floor__():0{places}d} %"


def _at_whole(value: Fraction) -> str:
    """A share that is 100 % by its nearest tenth, or by the next one, and is not, with the digits that show it, rounded away from 1."""
    off = abs(value - 1)
    if not 0 < off * 1000 < 1:
        return ""
    places = 2
    while off * 10 ** (places + 2) < 1:
        places += 1
    above, below = (off * 10 ** (places + 2)).__ceil__(), (off * 10 ** (places + 2)).__floor__()
    digits = 100 * 10**places + above if value > 1 else 100 * 10**places - below
    return f"{digits // 10**places:,}.{digits % 10**places:0{places}d} %"


def joined(text: str) -> str:
    """A sentence whose percents keep with their numbers where lines are broken."""
    return text.replace(" %", "\u00a0%")


def amount(value: Fraction) -> str:
    """A load or a capacity with at most three decimals, or by its first two digits where it is less than a thousandth and not nothing."""
    places = _places(value)
    return _plain((value * 10**places + Fraction(1, 2)).__floor__(), places)


def amount_carried(value: Fraction) -> str:
    """What is carried, with as many decimals, rounded down."""
    places = _places(value)
    return _plain((value * 10**places).__floor__(), places)


def amount_down(value: Fraction) -> str:
    """An amount with at most six decimals, rounded down."""
    return _plain((value * 10**6).__floor__(), 6)


def amount_up(value: Fraction) -> str:
    """An amount with at most six decimals, rounded up."""
    return _plain((value * 10**6).__ceil__(), 6)


def _places(value: Fraction) -> int:
    """How many decimals a load or a capacity has at most."""
    places = 3
    while 0 < value * 1000 < 1 and value * 10 ** (places - 1) < 1:
        places += 1
    return places


def _plain(number: int, places: int) -> str:
    """A number of parts of so many decimals, with commas between thousands, and without zeros behind."""
    rest = f"{number % 10**places:0{places}d}".rstrip("0")
    return f"{number // 10**places:,}.{rest}" if rest else f"{number // 10**places:,}"


def decimal(value: Fraction, places: int = 6) -> str:
    """The nearest decimal with so many digits, for tables that programs read."""
    scaled = (abs(value) * 10**places + Fraction(1, 2)).__floor__()
    sign = "-" if value < 0 and scaled else ""
    return f"{sign}{scaled // 10**places}.{scaled % 10**places:0{places}d}"


def counted(number: int, one: str, many: str | None = None) -> str:
    """A number with its noun."""
    return f"{number:,} {one if number == 1 else many or one + 's'}"
