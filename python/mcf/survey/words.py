"""Surveys in sentences and tables."""

from __future__ import annotations

from collections.abc import Sequence
from fractions import Fraction

from mcf import Link, TextError, decimal_of, fraction_of, rounded_down, rounded_up

from ..limits import MAX_UNITS
from ..names import cell_of
from ..ranges import Answer, Extreme, Range, best, fits, gains, most_gain, worst
from ..report.extremes import few, fraction_words, worst_words
from ..report.shown import counted, decimal, name, percent_up
from ..report.tables import table
from .cases import Case, Survey

COLUMNS = ("change", "link", "source", "target", "capacity", "lower", "upper", "kept_lower", "kept_upper", "fits")


def grown(base: Range, growths: list[Fraction]) -> list[tuple[Fraction, Range]]:
    """The bounds where all demands are multiplied by a number, the greatest number first."""
    return [(growth, base.divided(growth)) for growth in sorted(growths, reverse=True)]


def sentence(survey: Survey) -> str:
    """What the survey found."""
    if not survey.cases and not survey.left:
        return "The network has no links."
    if not survey.cases:
        return left_sentence(survey)
    front = f"With all demands times {_plain(survey.settings.growth)}: " if survey.settings.growth != 1 else ""
    front += "of the links that can be doubled, " if survey.left else ""
    found = front + (_failures(survey) if survey.kind == "failure" else _doublings(survey))
    return f"{found} {left_sentence(survey)}" if survey.left else found


def left_sentence(survey: Survey) -> str:
    """Which links are not doubled."""
    unit = _plain(Fraction(1, 10**survey.figures.scaled.decimals))
    are = "is" if len(survey.left) == 1 else "are"
    return f"{_few(survey.left)} {are} not doubled: a capacity is at most {MAX_UNITS} units of {unit}."


def _failures(survey: Survey) -> str:
    """Of failures: how many leave no room for all demands, and which is the worst."""
    every = counted(len(survey.cases), "single failure")
    lost, left = (sum(fits(case.range) is answer for case in survey.cases) for answer in (Answer.NO, Answer.OPEN))
    front = f"all demands fit after each of {every}"
    if lost:
        front = f"not all demands fit after {lost} of {every}" + (f", and after {left} it is not decided" if left else "")
    elif left:
        front = f"it is not decided whether all demands fit after {left} of {every}"
    return f"{front}. {_worst(survey)}; without failures {_it_is(survey.base)}."


def _it_is(bounds: Range) -> str:
    """From where to where the fraction lies, as a sentence."""
    return f"{'' if bounds.is_nothing else 'it is '}{fraction_words(bounds)}"


def _worst(survey: Survey) -> str:
    """Which failure is the worst, and what it leaves."""
    return worst_words(worst(survey.cases), _titles, "that of ", "those of ")


def _doublings(survey: Survey) -> str:
    """Of doublings: whether one gains anything, and which link is worth most."""
    base = survey.base
    answers = {gains(case.range, base) for case in survey.cases}
    if answers == {Answer.NO}:
        return f"doubling any one link gains nothing: {_it_is(base)} with it and without."
    found = best(survey.cases)
    with_it, without = fraction_words(found.range), fraction_words(base)
    if Answer.YES in answers:
        return f"{_best(found)}: {with_it} with it, and {without} without."
    most = most_gain(found.range, base)
    limit = "" if most is None else f", and none gains more than {percent_up(most)}"
    return f"it is not decided whether doubling any one link gains anything{limit}: {with_it} with the best, and {without} without."


def _best(found: Extreme[Case]) -> str:
    """Which link is most worth doubling."""
    if found.alone:
        return f"the link most worth doubling is {_titles(found.cases)}"
    if found.equal:
        return f"the links most worth doubling, one of them alone, are {_titles(found.cases)}, which are worth the same"
    if found.sure:
        return f"no link is more worth doubling than {_titles(found.sure)}, and whether others are worth as much is not decided"
    if found.is_open:
        return "some link is worth doubling, and which one most is not decided"
    return f"the link most worth doubling is one of {len(found.cases)}, and not decided between them, which are {_titles(found.cases)}"


def _titles(cases: Sequence[Case]) -> str:
    """The links of cases, the first few of many."""
    return _few([case.link for case in cases])


def _few(links: Sequence[Link]) -> str:
    """Links with their ends, the first few of many."""
    return few([f"{name(link.id)} ({name(link.source)} – {name(link.target)})" for link in links])


def growth_of(word: str) -> Fraction:
    """The number that a user wrote for all demands to be multiplied by; TextError where it is none above 0."""
    value = fraction_of(word.strip())
    if not value:
        raise TextError("demands times 0 are none: give a number above 0")
    return value


def grown_sentence(growth: Fraction, bounds: Range) -> str:
    """What becomes of the fraction where demands grow."""
    words = {Answer.YES: "all of them fit", Answer.NO: "they do not all fit", Answer.OPEN: "it is not decided whether they fit"}
    return f"With all demands times {_plain(growth)} {words[fits(bounds)]}: {fraction_words(bounds)}."


def _plain(value: Fraction) -> str:
    """A growth, exactly: it was given as a decimal."""
    places = next(places for places in range(10**4) if (value * 10**places).denominator == 1)
    text = str(int(value * 10**places)).rjust(places + 1, "0")
    return f"{text[:-places]}.{text[-places:]}" if places else text


def survey_table(surveys: list[Survey], growths: list[tuple[Fraction, Range]]) -> str:
    """A row for each case, in their order; growth of demands has rows of its own."""
    rows = [
        [f"grow {_plain(growth)}", "", "", "", "", *_both(bounds), *_both(bounds), fits(bounds).value] for growth, bounds in growths
    ]
    for one in surveys:
        for case in one.cases:
            words = [case.kind, *map(cell_of, (case.link.id, case.link.source, case.link.target)), decimal(case.capacity)]
            rows.append([*words, *_both(case.routed), *_both(case.kept), fits(case.range).value])
    return table(COLUMNS, rows)


def _both(bounds: Range) -> tuple[str, str]:
    """Both ends with six decimals, the lower one rounded down and the upper one up."""
    low, high = bounds.lower, bounds.upper
    return decimal_of(rounded_down(low.numerator, low.denominator)), decimal_of(rounded_up(high.numerator, high.denominator))
