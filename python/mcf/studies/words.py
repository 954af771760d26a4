"""What a study found, in sentences."""

from __future__ import annotations

from collections.abc import Sequence

from ..ranges import Answer, Extreme
from ..report.extremes import few, fraction_words, worst_words
from ..report.shown import counted, name, percent_down
from .answers import Case, Part
from .scenarios import Plan, Scenario


def sentences(plan: Plan, parts: Sequence[Part]) -> list[str]:
    """A sentence for each routing and growth."""
    return [_front(plan, part) + _found(part) for part in parts]


def _front(plan: Plan, part: Part) -> str:
    """The front of a sentence, where it says of which routing and growth it is."""
    text = where(plan, part)
    return f"{text[0].upper()}{text[1:]}: " if text else ""


def where(plan: Plan, part: Part) -> str:
    """Of which routing and growth something is, where there are several, or the one is not as it is."""
    words = []
    if len(plan.routings) > 1:
        words.append(f"routing {part.routing}")
    if len(plan.growths) > 1 or part.growth != "1":
        words.append(f"all demands times {part.growth}")
    return ", ".join(words)


def _found(part: Part) -> str:
    """How many scenarios leave no room for all demands, and which is the worst."""
    if part.least:
        return _shown(part)
    worst = f". {_worst(part.worst, part)}" if part.worst and part.of > 1 else ""
    alone = f": {fraction_words(part.worst.range)}" if part.worst and part.of == 1 else ""
    return f"{_fitting(_front_of(part), part, alone)}{worst}."


def _front_of(part: Part) -> str:
    """In how many scenarios all demands fit."""
    every = counted(part.of, "scenario")
    no, left = part.counts[Answer.NO], part.counts[Answer.OPEN]
    if no:
        return f"not all demands fit in {no:,} of {every}" + (f", and in {left:,} it is not decided" if left else "")
    if left:
        return f"it is not decided whether all demands fit in {left:,} of {every}"
    if part.known < part.of:
        return f"all demands fit in {part.known:,} of {every}" if part.known else f"nothing is known of {every}"
    return f"all demands fit in {'each of ' if part.of > 1 else ''}{every}"


def _more(part: Part) -> list[str]:
    """What else there is among the scenarios: demands without a way, refusals, and those that have no answer."""
    found = []
    if part.cut:
        found.append(f"{part.cut:,} leave{'s' if part.cut == 1 else ''} some demand without a way")
    if part.refused:
        found.append(f"{part.refused:,} {'was' if part.refused == 1 else 'were'} refused")
    if part.failed:
        found.append(f"{part.failed:,} {'has' if part.failed == 1 else 'have'} no answer, and the same command tries again")
    if part.noted:
        found.append(f"{part.noted:,} {'has' if part.noted == 1 else 'have'} a note in the table")
    if part.lost_rest:
        found.append(f"of {part.lost_rest:,} the demands that have a way have no answer, and the same command tries again")
    return found


def _fitting(front: str, part: Part, alone: str = "") -> str:
    """In how many scenarios all demands fit, what else there is, what the only one leaves, and where demands are left out."""
    text = "; ".join([front, *_more(part)])
    lost = f". In {part.left_out:,} the demands of lost nodes are left out" if part.left_out else ""
    return f"{text[0].upper()}{text[1:]}{alone}{lost}"


def _worst(found: Extreme[Case], part: Part) -> str:
    """Which scenario is the worst; where some have no answer, which of those that have one."""
    if part.known == part.of:
        return worst_words(found, _titles)
    if part.known == 1:
        return f"The one that has an answer is {_titles(found.cases)}: {fraction_words(found.range)}"
    said = worst_words(found, _titles)
    return f"Of the {part.known:,} that have an answer {said[0].lower()}{said[1:]}"


def _shown(part: Part) -> str:
    """Of a routing by a rule: in how many scenarios it is shown to carry all demands, and the least that it is shown to carry."""
    assert part.least is not None
    yes = part.counts[Answer.YES]
    front = f"It is shown to carry all demands in {'all' if yes == part.of > 1 else f'{yes:,}'} of {counted(part.of, 'scenario')}"
    least = part.least.range.lower
    carried = f"{percent_down(least)} of every demand" if least else "nothing of some demand"
    where = few([title(case.case.scenario) for case in part.least.cases])
    which = "The" if part.known == part.of else f"Of the {part.known:,} that {'has' if part.known == 1 else 'have'} an answer the"
    return f"{_fitting(front, part)}. {which} least that it is shown to carry is {carried}: {where}."


def _titles(cases: Sequence[Case]) -> str:
    """The scenarios of cases, the first few of many."""
    return few([title(case.scenario) for case in cases])


def title(scenario: Scenario) -> str:
    """A scenario in words."""
    change = scenario.change
    what = {"intact": "the network as it is", "change": "change"}.get(change.kind, change.kind)
    text = f"{what} {name(change.name)}" if change.name else what
    return f"{text} with matrix {name(scenario.matrix.name)}" if scenario.matrix.name else text
