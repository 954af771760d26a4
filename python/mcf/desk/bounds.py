"""Both bounds as the program wrote them, and what may be said of them."""

from __future__ import annotations

import re
from dataclasses import dataclass
from fractions import Fraction

from ..errors import McfError
from ..ranges import Answer, Range, fits
from ..report.extremes import TONES, fraction_words
from ..report.shown import joined

_BOUNDS = re.compile(r"(?:(?:valid|sweep|show)\b.* )?lower (\d+/[1-9]\d*) (\S+) upper (\d+/[1-9]\d*) (\S+)")
VERDICTS = {Answer.YES: "All demands fit", Answer.NO: "Not all demands fit", Answer.OPEN: "Not decided whether all demands fit"}
SHORT = {Answer.YES: "yes", Answer.NO: "no", Answer.OPEN: "not decided"}


@dataclass(frozen=True)
class Bounds:
    """The bounds of a line: exact fractions and decimals, each byte as the program wrote it."""

    line: str
    lower: str
    lower_decimal: str
    upper: str
    upper_decimal: str

    @property
    def range(self) -> Range:
        """Both as a range."""
        return Range(Fraction(self.lower), Fraction(self.upper))

    @property
    def answer(self) -> Answer:
        """Whether all demands fit."""
        return fits(self.range)

    @property
    def verdict(self) -> str:
        """That in words."""
        return VERDICTS[self.answer]

    @property
    def tone(self) -> str:
        """The colour of that."""
        return TONES[self.answer]

    @property
    def sentence(self) -> str:
        """The range in percent."""
        return spread(self.range)


def bounds_of(line: str) -> Bounds:
    """The bounds of a line of check, whatif, sweep or sweepsolve."""
    match = _BOUNDS.fullmatch(line)
    if match is None:
        raise McfError(f"the program wrote {line[:200]!r}, which has no two bounds")
    return Bounds(line, *match.groups())


def spread(of: Range) -> str:
    """From where to where the fraction of every demand lies, in percent."""
    return joined(fraction_words(of))
