"""The page of a study: what was found, bands over time and in order, the map of the worst scenario, and a table."""

from __future__ import annotations

import zlib
from dataclasses import dataclass, replace
from fractions import Fraction

from ..certificate import read_any
from ..network import read_network
from ..ranges import Answer, Range, fits, in_order, worst
from ..report import shown
from ..report.drawing import Drawing, drawing
from ..report.figures import Figures
from ..report.layout import layout
from ..report.page import about, render
from ..scaled import scale
from .answers import WORDS, Carried, Case, Part, cases
from .bands import Band, band
from .run import network_of
from .scenarios import RULES, Plan
from .store import Store
from .words import sentences, title, where
from .work import Job, Task, answered

ROWS = 200
"""How many rows the table has; that of --csv has all."""


@dataclass(frozen=True)
class Section:
    """What the page says of one routing and growth; `cut` scenarios, which leave some demand without a way, are not in `over_time`."""

    part: Part
    sentence: str
    over_time: Band | None
    in_order: Band | None
    rows: tuple[Case, ...]
    cut: int = 0

    @property
    def tone(self) -> str:
        """The colour of the sentence."""
        counts = self.part.counts
        known = self.part.known == self.part.of
        return "bad" if counts[Answer.NO] else "open" if counts[Answer.OPEN] or not known else "good"

    @property
    def more(self) -> int:
        """How many rows are not shown."""
        return max(0, self.part.known - len(self.rows))


@dataclass(frozen=True)
class Map:
    """The map of the worst scenario, or of one that may be it."""

    heading: str
    drawing: Drawing
    judged: str


def study_page(heading: str | None, name: str, plan: Plan, store: Store, parts: list[Part], program: str) -> str:
    """The page."""
    said = sentences(plan, parts)
    sections = [_section(plan, store, part, shown.joined(sentence)) for part, sentence in zip(parts, said)]
    network = replace(read_network(plan.ground.text), demands=())
    values = {"sections": sections, "map": _map(plan, store, parts, program), "about": about(scale(network, plan.asked.links, plan.asked.modules), demands=False).rstrip("."),
              "spread": _spread, "scenario": title, "words": lambda case: WORDS[fits(case.range)],
              "matrices": len(plan.matrices), "changes": len(plan.changes), "timed": all(matrix.time for matrix in plan.matrices)}
    return render("study.html", title=heading or name, **values)


def _section(plan: Plan, store: Store, part: Part, sentence: str) -> Section:
    """What is said of one routing and growth."""
    own = [case for case in cases(plan, store) if case.scenario.routing == part.routing and case.growth == Fraction(part.growth)]
    known = [case for case in own if case.has_range]
    if not known:
        return Section(part, sentence, None, None, ())
    ordered = in_order(known)
    ranges = [_drawn(case) for case in ordered]
    labels, about_it = [str(at + 1) for at in range(len(ranges))], "Scenarios in the order of what they carry"
    picture = band(ranges, labels, about_it, part.routing not in RULES) if len(known) > 1 else None
    whole = _without_cut(known)
    return Section(part, sentence, _over_time(plan, part, whole), picture, ordered[:ROWS], len(known) - len(whole))


def _drawn(case: Case) -> Range:
    """The range that is drawn: of a rule what it is shown to carry."""
    return Carried(case).range if case.scenario.routing in RULES else case.range


def _without_cut(known: list[Case]) -> list[Case]:
    """The cases in which each demand has a way; all of them where some matrix has none such."""
    whole = [case for case in known if case.row is None or not case.row.cut]
    matrices = [{case.scenario.matrix.name for case in some} for some in (whole, known)]
    return whole if matrices[0] == matrices[1] else known


def _over_time(plan: Plan, part: Part, known: list[Case]) -> Band | None:
    """The least of each matrix, in the order of matrices."""
    if len(plan.matrices) < 2:
        return None
    of_matrix: dict[str, list[Case]] = {}
    for case in known:
        of_matrix.setdefault(case.scenario.matrix.name, []).append(case)
    worsts = [worst([_Drawn(_drawn(case)) for case in some]).range for some in of_matrix.values()]
    return band(worsts, [shown.name(name) for name in of_matrix], "The least of each matrix", part.routing not in RULES)


@dataclass(frozen=True)
class _Drawn:
    """A case by the range that is drawn."""

    range: Range


def _map(plan: Plan, store: Store, parts: list[Part], program: str) -> Map | None:
    """The map of the worst scenario, or of one of those that may be it, of the first routing that has one."""
    part = next((part for part in parts if part.worst), None) or next((part for part in parts if part.least), None)
    case = part.worst.cases[0] if part and part.worst else part.least.cases[0].case if part and part.least else None
    if part is None or case is None or case.row is None:
        return None
    text, judged = _certificate(plan, store, case, program)
    if text is None:
        return None
    changed = network_of(store, plan.ground.digest, case.scenario.matrix.digest, case.scenario.change)
    certificate = read_any(text)
    figures = Figures(scale(changed.network, certificate.links, certificate.modules), certificate)
    return Map(f"{_of_all(plan, part)}: {title(case.scenario)}", drawing(figures, layout(figures.scaled)), judged)


def _of_all(plan: Plan, part: Part) -> str:
    """What a scenario that is drawn is among those of its routing and growth."""
    those = "of those" if part.known == part.of else "of those that have an answer"
    if part.worst is None:
        which = "The scenario of which the least is shown to be carried"
        which += "" if part.known == part.of else ", of those that have an answer"
    elif part.worst.alone:
        which = "The worst scenario" if part.known == part.of else f"The worst {those}"
    else:
        which = f"One {those} that may be the worst"
    place = where(plan, part)
    return f"{which} ({place})" if place else which


def _certificate(plan: Plan, store: Store, case: Case, program: str) -> tuple[str | None, str]:
    """The certificate of a case, with the line of its judge: the one that was kept, else one that is made now as it was then."""
    scenario = case.scenario
    found = store.rows([scenario.key], certificates=True)[scenario.key].row.found
    if found.certificate is None:
        job = Job(scenario.key, scenario.matrix.digest, scenario.change, scenario.routing, keep=True)
        matrices = {job.matrix: zlib.compress(store.text(job.matrix).encode("latin-1"), 1)}
        task = Task(plan.ground.digest, plan.ground.packed, matrices, (job,), plan.asked, program)
        found = answered(task)[0].found
    data = found.certificate
    return (zlib.decompress(data).decode("latin-1") if data is not None else None), found.line


def _spread(case: Case) -> str:
    """Both ends in percent; of a rule what it is shown to carry."""
    low = shown.percent_down(case.range.lower) if case.range.lower else "0.0 %"
    return f"{low} or more" if case.scenario.routing in RULES and not case.found.upper else f"{low} to {shown.percent_up(case.range.upper)}"
