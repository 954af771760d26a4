"""What two bounds allow to be said: the one place where bounds are compared.

The true value of a case lies in its range, ends included, and nothing more is known of it. Whatever is answered here holds for all
values that lie in the ranges; where it depends on which these are, the answer is that it is not decided.
"""

from __future__ import annotations

from collections.abc import Iterable, Sequence
from dataclasses import dataclass
from enum import Enum
from fractions import Fraction
from typing import Generic, Protocol, TypeVar

from .errors import TextError


@dataclass(frozen=True)
class Range:
    """A fraction that is carried, and one that no routing exceeds; the best possible lies between the two."""

    lower: Fraction
    upper: Fraction

    def __post_init__(self) -> None:
        """Bounds that contradict each other are nothing to speak of."""
        if not 0 <= self.lower <= self.upper:
            raise TextError(f"bounds that contradict each other: from {self.lower} to {self.upper}")

    @property
    def exact(self) -> bool:
        """Whether the value is known."""
        return self.lower == self.upper

    @property
    def is_nothing(self) -> bool:
        """Whether some demand has nothing carried of it, whatever the routing."""
        return not self.upper

    @property
    def shows_nothing(self) -> bool:
        """Whether no part of every demand is shown to be carried."""
        return not self.lower

    def within(self, gap: Fraction) -> bool:
        """Whether the upper end is at most that part above the lower one."""
        return self.upper <= self.lower * (1 + gap)

    def both(self, other: Range) -> Range:
        """The range of a value that lies in this one and in the other one."""
        return Range(max(self.lower, other.lower), min(self.upper, other.upper))

    def divided(self, growth: Fraction) -> Range:
        """The range where all demands are multiplied by a number: what is carried of each is divided by it."""
        return Range(self.lower / growth, self.upper / growth)


class Answer(Enum):
    """An answer that ranges give."""

    YES = "yes"
    NO = "no"
    OPEN = "open"


class Ranged(Protocol):
    """A case whose value lies in a range."""

    @property
    def range(self) -> Range:
        """The range."""


Case = TypeVar("Case", bound=Ranged)


@dataclass(frozen=True)
class Extreme(Generic[Case]):
    """The cases of which one has the least, or the greatest, value of all; each case that has it is among them.

    `range` is where that value lies, `cases` are in the order in which they were given, and `of` is the number of all cases.
    """

    cases: tuple[Case, ...]
    range: Range
    of: int

    @property
    def alone(self) -> bool:
        """Whether one case is shown to have that value, and no other one has it."""
        return len(self.cases) == 1

    @property
    def equal(self) -> bool:
        """Whether all of these cases are shown to have that value."""
        return self.sure == self.cases

    @property
    def sure(self) -> tuple[Case, ...]:
        """Those of them that are shown to have that value, though others may have it too."""
        return tuple(case for case in self.cases if case.range.exact) if self.range.exact else ()

    @property
    def is_open(self) -> bool:
        """Whether nothing is decided: there are several cases, each of all may be the one, and none is shown to be."""
        return 1 < len(self.cases) == self.of and not self.sure


def fits(of: Range) -> Answer:
    """Whether all demands fit, which they do where the value is at least 1."""
    return fits_by(of.lower, of.upper)


def fits_by(carried: Fraction, most: Fraction | None = None, whole: Fraction = Fraction(1)) -> Answer:
    """Whether all demands fit, by what paths carry of each and what no routing exceeds, which is not known of a routing alone.

    whole: what is carried where all fit: 1, or of a total the sum of all demands.
    """
    if carried >= whole:
        return Answer.YES
    return Answer.NO if most is not None and most < whole else Answer.OPEN


def are_equal(pairs: Iterable[tuple[Fraction | None, Fraction | None]]) -> bool:
    """Whether the two numbers of each pair are one, as where a bound was computed twice."""
    return all(one == other for one, other in pairs)


def spare(carried: Fraction) -> Fraction | None:
    """By what part paths carry more than all demands; None where they do not carry all."""
    return carried - 1 if fits_by(carried) is Answer.YES else None


def worst(cases: Sequence[Case]) -> Extreme[Case]:
    """The case whose upper end is below every other one's lower end, or else all those that may have the least value."""
    upper = min(case.range.upper for case in cases)
    some = tuple(case for case in cases if case.range.lower <= upper)
    return Extreme(some, Range(min(case.range.lower for case in some), upper), len(cases))


def best(cases: Sequence[Case]) -> Extreme[Case]:
    """The case whose lower end is above every other one's upper end, or else all those that may have the greatest value."""
    lower = max(case.range.lower for case in cases)
    some = tuple(case for case in cases if case.range.upper >= lower)
    return Extreme(some, Range(lower, max(case.range.upper for case in some)), len(cases))


def gains(new: Range, base: Range) -> Answer:
    """Whether the new value is greater than that of the base."""
    return Answer.YES if new.lower > base.upper else Answer.NO if new.upper <= base.lower else Answer.OPEN


def most_gain(new: Range, base: Range) -> Fraction | None:
    """By what part of the base's value the new one is above it at most; None where no part bounds it."""
    return max(Fraction(0), new.upper / base.lower - 1) if base.lower else None


def least_gain(new: Range, base: Range) -> Fraction:
    """By what part of the base's value the new one is above it at least; 1 where the base's value is 0 and the new one greater."""
    if not base.upper:
        return Fraction(new.lower > 0)
    return max(Fraction(0), new.lower / base.upper - 1)


def least_loss(new: Range, base: Range) -> Fraction:
    """By what part of the base's value the new one is below it at least."""
    return max(Fraction(0), 1 - new.upper / base.lower) if base.lower else Fraction(0)


def shortfall(carried: Fraction, best_of_all: Range) -> Range:
    """By what part of the best possible fraction one that is carried is below it."""
    least, most = max(carried, best_of_all.lower), best_of_all.upper
    if carried > most:
        raise TextError(f"bounds that contradict each other: {carried} is carried, and no routing carries more than {most}")
    return Range(1 - carried / least, 1 - carried / most) if least else Range(Fraction(0), Fraction(most > 0))


def span(ranges: Iterable[Range]) -> Range:
    """The least range that has all of these in it."""
    some = list(ranges)
    return Range(min(one.lower for one in some), max(one.upper for one in some))


def in_order(cases: Iterable[Case], greatest_first: bool = False) -> tuple[Case, ...]:
    """The cases by their lower ends and then by their upper ones; equal ones stay in their order."""
    return tuple(sorted(cases, key=lambda case: (case.range.lower, case.range.upper), reverse=greatest_first))


def status(ranges: Iterable[Range]) -> int:
    """The status of a tool: 0 if all demands fit in each range, and 1 if they do not in some, or it is not decided."""
    return int(any(fits(one) is not Answer.YES for one in ranges))
