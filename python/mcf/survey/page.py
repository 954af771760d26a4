"""The page of a survey."""

from __future__ import annotations

from dataclasses import dataclass
from fractions import Fraction

from mcf import Link, ScaledNetwork

from ..ranges import Answer, Range, fits, least_gain, least_loss
from ..report import shown
from ..report.drawing import CLOSED, Drawing, Line, drawn
from ..report.layout import layout
from ..report.page import about, render
from . import words as survey_words
from .cases import Case, Survey

HEADINGS = {"failure": "Single failures, by what is carried after each", "double": "Links doubled, by what is carried with each"}
STEPS = (Fraction(1, 100), Fraction(1, 10), Fraction(1, 4), Fraction(1, 2))
FAILURE_COLOURS = (
    ("0", "#92c5de", "nothing, or up to 1 %"),
    ("1", "#e6c34a", "1 %"),
    ("2", "#f4a05c", "10 %"),
    ("3", "#d6604d", "25 %"),
    ("4", "#8e0f24", "50 %"),
    (CLOSED, "#9aa5b1", "without capacity"),
)
DOUBLE_COLOURS = (
    ("0", "#c2cad2", "nothing, or up to 1 %"),
    ("1", "#a6dba0", "1 %"),
    ("2", "#5aae61", "10 %"),
    ("3", "#1b7837", "25 %"),
    ("4", "#00441b", "50 %"),
    (CLOSED, "#9aa5b1", "without capacity"),
)


@dataclass(frozen=True)
class Part:
    """What a page says of one survey."""

    survey: Survey

    @property
    def heading(self) -> str:
        """The heading."""
        return HEADINGS[self.survey.kind]

    @property
    def sentence(self) -> str:
        """What was found."""
        text = survey_words.sentence(self.survey)
        return shown.joined(text[0].upper() + text[1:])

    @property
    def tone(self) -> str:
        """The colour of the sentence."""
        if self.survey.kind == "double":
            return ""
        found = {fits(case.range) for case in self.survey.cases}
        return "bad" if Answer.NO in found else "open" if Answer.OPEN in found else "good"

    @property
    def colours(self) -> tuple[tuple[str, str, str], ...]:
        """The legend."""
        return FAILURE_COLOURS if self.survey.kind == "failure" else DOUBLE_COLOURS

    @property
    def legend(self) -> str:
        """What colours mean."""
        return "The fraction of every demand " + ("falls at least by" if self.survey.kind == "failure" else "rises at least by")

    def drawing(self) -> Drawing:
        """The map: each link as thick as its change matters."""
        figures = self.survey.figures
        by_link = {case.link.id: case for case in self.survey.cases}
        links = figures.scaled.network.links
        return drawn(
            figures,
            layout(figures.scaled),
            lambda row, path: self._line(links[figures.scaled.cells[row.cell].link], by_link, path),
        )

    def _line(self, link: Link, by_link: dict[str, Case], path: str) -> Line:
        """The line of a link; one that is not doubled is as thin as one that gains nothing."""
        case = by_link.get(link.id)
        if case is None:
            return Line(path, "0", "0", 1.0, f"{shown.name(link.id)} is not doubled")
        change = self.change(case)
        key = CLOSED if case.capacity == 0 else str(sum(change > step for step in STEPS))
        thin = 2.5 if len(self.survey.cases) <= 200 else 1.0
        width = round(thin + 11 * min(1.0, float(change)), 2)
        what = {"failure": "closed", "double": "doubled"}[case.kind]
        title = f"{shown.name(case.link.id)} {what}: {spread(case.routed)}"
        return Line(path, key, key, width, title)

    def change(self, case: Case) -> Fraction:
        """By what part of it the fraction changes at least, where 0 is not shown to change."""
        change = least_loss if self.survey.kind == "failure" else least_gain
        return change(case.range, self.survey.base)


def spread(bounds: Range) -> str:
    """Both ends in percent."""
    low = shown.percent_down(bounds.lower) if bounds.lower else "0.0 %"
    return f"{low} to {shown.percent_up(bounds.upper)}"


def survey_page(title: str, scaled: ScaledNetwork, surveys: list[Survey], growths: list[tuple[Fraction, Range]]) -> str:
    """The page of surveys on one network."""
    grown = [shown.joined(survey_words.grown_sentence(growth, bounds)) for growth, bounds in growths]
    words = {Answer.YES: "yes", Answer.NO: "no", Answer.OPEN: "not decided"}
    values = {"surveyed": [Part(one) for one in surveys], "grown": grown, "about": about(scaled), "spread": spread}
    return render("survey.html", title=title, fits=lambda bounds: words[fits(bounds)], **values)
