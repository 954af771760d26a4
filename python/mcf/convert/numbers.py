"""Exact numbers of words, their units, and how they are written."""

from __future__ import annotations

import re
from dataclasses import dataclass, field
from decimal import Decimal
from fractions import Fraction

from ..limits import MAX_DECIMALS, MAX_WORD_BYTES
from ..units import KNOWN, Rate, carrier_of, unit_of
from .model import Refused, refused
from .words import BLANKS, told

NUMBER = re.compile(r"\+?((?:[0-9]+\.?[0-9]*|\.[0-9]+)(?:[eE][+-]?[0-9]{1,2})?)")
WITH_UNIT = re.compile(NUMBER.pattern + r" *([A-Za-z][A-Za-z/]*)")
THOUSANDS = re.compile(r"[0-9]{1,3}(,[0-9]{3})+(\.[0-9]*)?")
POINTED_THOUSANDS = re.compile(r"[1-9][0-9]{0,2}(\.[0-9]{3})+(?![0-9])")
UNITS = {"bit": 1, "kbit": 10**3, "Mbit": 10**6, "Gbit": 10**9, "Tbit": 10**12}


def number(word: str, what: str, comma: bool = False) -> Fraction:
    """The number that a word spells, or why there is none."""
    text = _pointed(word.strip(BLANKS), what, comma)
    if len(text) > MAX_WORD_BYTES:
        raise refused(what, f"a number of {len(text)} characters: at most {MAX_WORD_BYTES} are read")
    fitting = NUMBER.fullmatch(text)
    if not fitting:
        raise refused(what, f"{told(word.strip(BLANKS))} is no number of at least 0{_hint(text)}")
    return Fraction(Decimal(fitting.group(1)))


def _pointed(text: str, what: str, comma: bool) -> str:
    """A number with a point where it has a comma, if commas are asked for; it has no point of its own then."""
    if not comma:
        return text
    if POINTED_THOUSANDS.match(text):
        raise refused(what, f"{told(text)} may be a number of thousands where a comma is the decimal mark: write it without the point")
    if "," in text and "." in text:
        raise refused(what, f"{told(text)} has a comma and a point")
    return text.replace(",", ".")


def _hint(text: str) -> str:
    """What helps where a comma stands in a number."""
    if THOUSANDS.fullmatch(text):
        return " (a comma between thousands is not read: leave it out)"
    return " (--decimal-comma reads 1,5 as 1.5)" if re.fullmatch(r"[0-9]+,[0-9]+", text) else ""


@dataclass(frozen=True)
class Unit:
    """The unit that numbers are held in, if known; whether plain numbers are told to be in it; whether bytes are read."""

    bits: Fraction | None = None
    told: bool = False
    bytes: bool = False


@dataclass(frozen=True)
class Form:
    """How the numbers of files that leave it open are to be read; `said` is the unit that the head says that is at `where`, if one does."""

    unit: Unit = Unit()
    columns: dict[str, str] = field(default_factory=dict)
    comma: bool = False
    capacity: str | None = None
    missing: str | None = None
    said: str = ""
    where: str = ""


def rate(word: str, what: str, unit: Unit, comma: bool = False) -> Fraction:
    """The number of a word that may end with a unit of its own, as 10G, or be a carrier, as OC-48."""
    text = _pointed(word.strip(BLANKS), what, comma)
    value, own = _parts(text, what)
    if own is None:
        value = number(word, what, comma)
        if unit.bits is not None and not unit.told:
            raise refused(what, f"{text} has no unit: --from-unit says in which plain numbers are")
        return value
    if own.is_of_bytes and not unit.bytes:
        raise refused(what, f"{told(text)} is of bytes: --bytes reads each of them as eight bits")
    if unit.bits is None:
        raise refused(what, f"{text} has a unit: --unit says in which all are written")
    return value * own.bits / unit.bits


def _parts(text: str, what: str) -> tuple[Fraction, Rate | None]:
    """The number and the unit of a word; no unit where it is no more than a number, or none."""
    carrier = carrier_of(text)
    if carrier is not None:
        return Fraction(1), carrier
    fitting = WITH_UNIT.fullmatch(text)
    if fitting is None:
        return Fraction(0), None
    own = unit_of(fitting.group(2))
    if own is None:
        raise refused(what, f"{told(text)} has an unknown unit: {KNOWN}")
    return number(fitting.group(1), what), own


def is_rate(word: str, comma: bool = False) -> bool:
    """Whether a word is a number, which may end with a unit of its own."""
    try:
        rate(word, "", Unit(Fraction(1), told=True, bytes=True), comma)
    except Refused:
        return False
    return True


def is_fine(value: Fraction, decimals: int = MAX_DECIMALS) -> bool:
    """Whether a number is a whole number of 10^-decimals."""
    whole: bool = (value * 10**decimals).denominator == 1
    return whole


def rounded(value: Fraction, decimals: int) -> Fraction:
    """The nearest number of so many decimals, the greater one of two."""
    return Fraction((value * 10**decimals + Fraction(1, 2)).__floor__(), 10**decimals)


def plain(value: Fraction) -> str:
    """The shortest decimal of a number that has one."""
    places = 0
    while not is_fine(value, places):
        places += 1
        if places > 120:
            return f"{value.numerator}/{value.denominator}"
    digits = str(value.numerator * 10**places // value.denominator).rjust(places + 1, "0")
    return digits if places == 0 else f"{digits[:-places]}.{digits[-places:]}"


def brief(value: Fraction) -> str:
    """A number for a line to read: as it is, or its first twelve decimals."""
    return plain(value) if is_fine(value, 12) else f"{plain(rounded(value, 12))}.."
