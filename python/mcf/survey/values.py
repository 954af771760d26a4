"""What a survey found, as values for JSON."""

from __future__ import annotations

from collections.abc import Sequence
from fractions import Fraction

from ..given import name_of
from ..ranges import Range, best, fits, gains, worst
from .cases import Case, Survey
from .words import grown_sentence, sentence


def survey_values(survey: Survey) -> dict[str, object]:
    """A survey: its cases in their order, and those of which one is the worst, or the best."""
    extreme = worst if survey.kind == "failure" else best
    found = extreme(survey.cases) if survey.cases else None
    return {
        "kind": survey.kind, "solver": survey.settings.solver, "growth": survey.settings.growth, "base": survey.base,
        "sentence": sentence(survey),
        "extreme": found and {"links": _links(found.cases), "sure": _links(found.sure), "alone": found.alone, "bounds": found.range},
        "cases": [_case(case, survey.base) for case in survey.cases], "left": [name_of(link.id) for link in survey.left]}


def _links(cases: Sequence[Case]) -> list[str]:
    """The names of the links of cases."""
    return [name_of(case.link.id) for case in cases]


def _case(case: Case, base: Range) -> dict[str, object]:
    """A change of a link: what is known of it where all is routed anew, and with the certificate's own paths and bound."""
    return {"link": name_of(case.link.id), "source": name_of(case.link.source), "target": name_of(case.link.target),
            "capacity": case.capacity, "bounds": case.range, "kept": case.kept, "fits": fits(case.range),
            "gains": gains(case.range, base) if case.kind == "double" else None}


def growth_values(growth: Fraction, bounds: Range) -> dict[str, object]:
    """What becomes of the fraction where all demands grow."""
    return {"growth": growth, "bounds": bounds, "fits": fits(bounds), "sentence": grown_sentence(growth, bounds)}
