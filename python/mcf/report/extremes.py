"""Ranges and the worst of many cases, in words."""

from __future__ import annotations

from collections.abc import Callable, Sequence

from ..ranges import Answer, Case, Extreme, Range
from .shown import counted, percent_down, percent_up

TONES = {Answer.YES: "good", Answer.NO: "bad", Answer.OPEN: "open"}
"""The colour of an answer on pages."""

FEW = 3
"""How many of many names are named."""


def fraction_words(bounds: Range) -> str:
    """From where to where the fraction lies, in percent."""
    if bounds.is_nothing:
        return "some demand has no way at all"
    if bounds.shows_nothing:
        return f"at most {percent_up(bounds.upper)} of every demand"
    return f"{percent_down(bounds.lower)} to {percent_up(bounds.upper)} of every demand"


def few(names: Sequence[str]) -> str:
    """Names, the first few of many."""
    if len(names) > FEW + 1:
        names = [*names[:FEW], counted(len(names) - FEW, "other")]
    return f"{', '.join(names[:-1])} and {names[-1]}" if len(names) > 1 else names[0]


def worst_words(found: Extreme[Case], titles: Callable[[Sequence[Case]], str], of: str = "", many: str = "") -> str:
    """Which case is the worst, and what it leaves; `of` and `many` stand in front of the title of one case and of several."""
    left = fraction_words(found.range)
    if found.alone:
        return f"The worst is {of}{titles(found.cases)}: {left}"
    if found.equal:
        return f"The worst are {many}{titles(found.cases)}, which are equally bad: {left}"
    if found.sure:
        return f"None is worse than {of}{titles(found.sure)}, and whether others are as bad is not decided: {left}"
    if found.is_open:
        return f"Which is the worst is not decided: it leaves {left}"
    return f"The worst is one of {len(found.cases)}, and not decided between them, which are {many}{titles(found.cases)}: {left}"
