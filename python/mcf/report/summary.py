"""What the certificates of many matrices say, one beside the other."""

from __future__ import annotations

from collections.abc import Sequence
from dataclasses import dataclass
from fractions import Fraction

from mcf.errors import TextError
from mcf.ranges import Answer, Range, fits, worst

from .figures import Figures, LinkFigures
from .shown import counted, name, percent_down, percent_up


@dataclass(frozen=True)
class Summary:
    """A matrix with its certificate."""

    matrix: str
    figures: Figures
    said: str

    @property
    def range(self) -> Range:
        """Both bounds; the value is the best fraction of every demand."""
        if self.figures.upper is None or self.figures.is_total:
            raise TextError("batch writes certificates of fractions alone")
        return Range(self.figures.lower, self.figures.upper)

    @property
    def fits(self) -> str:
        """Whether all demands of the matrix fit."""
        return {Answer.YES: "yes", Answer.NO: "no", Answer.OPEN: "not decided"}[fits(self.range)]

    @property
    def fullest(self) -> LinkFigures | None:
        """The most utilised link, all demands carried once."""
        return self.figures.most_utilised

    @property
    def narrowest(self) -> LinkFigures | None:
        """The link with the greatest share of the bound."""
        return self.figures.bottleneck[0] if self.figures.bottleneck else None


def batch_sentence(rows: Sequence[Summary], without: Sequence[str]) -> str:
    """How many matrices fit, and which carries least."""
    missing = f" {counted(len(without), 'matrix', 'matrices')} of the list {'has' if len(without) == 1 else 'have'} no answer there." if without else ""
    if not rows:
        return f"No matrix has an answer.{missing}"
    found = [fits(row.range) for row in rows]
    yes, no, open_ones = (found.count(answer) for answer in (Answer.YES, Answer.NO, Answer.OPEN))
    front = f"All demands fit in {yes} of {counted(len(rows), 'matrix', 'matrices')}"
    front += f", not in {no}" if no else ""
    front += f", and in {open_ones} it is not decided" if open_ones else ""
    least = _least(rows)
    return f"{front}.{missing} Among the others: {least[0].lower()}{least[1:]}" if without else f"{front}. {least}"


def _least(rows: Sequence[Summary]) -> str:
    """The matrix whose demands are carried least, as far as the bounds tell them apart."""
    least = worst(rows)
    bounds = f"{_down(least.range.lower)} to {percent_up(least.range.upper)} of every demand"
    names = ", ".join(name(row.matrix) for row in least.cases[:5]) + (f" and {len(least.cases) - 5} more" if len(least.cases) > 5 else "")
    if least.alone:
        return f"The least is carried of {names}: {bounds}."
    if least.equal:
        return f"The least is carried alike of {names}: {bounds}."
    return f"Of which the least is carried is not decided among {names}: {bounds}."


def _down(value: Fraction) -> str:
    """A fraction in percent, rounded down."""
    return percent_down(value) if value else "0.0 %"
