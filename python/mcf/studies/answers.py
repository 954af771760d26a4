"""What a study found: its rows with their growths, as tables, sentences and a status, all by `mcf.ranges`."""

from __future__ import annotations

import csv
import io
from collections.abc import Iterable, Iterator
from dataclasses import dataclass, replace
from fractions import Fraction
from functools import cached_property
from itertools import islice

from ..given import name_of
from ..names import cell_of
from ..numbers import decimal_of, fraction_of, rounded_down, rounded_up
from ..ranges import Answer, Extreme, Range, fits, status, worst
from .run import parts
from .scenarios import RULES, SPLITS, Plan, Scenario
from .store import Store
from .work import FAILED, FEASIBLE, NOTHING, REFUSED, Found, Row

COLUMNS = ("matrix", "time", "kind", "change", "links", "nodes", "growth", "routing", "lower", "upper", "lower_decimal", "upper_decimal",
           "verdict", "fits", "note", "without_way", "left_out", "rest_lower", "rest_upper", "rest_fits", "refusal", "seconds", "place",
           "version", "key")
NOT_KEPT = "an earlier version, which kept no notes, made this routing"
WORDS = {Answer.YES: "yes", Answer.NO: "no", Answer.OPEN: "undecided"}


@dataclass(frozen=True)
class Case:
    """A scenario at a growth, with its row."""

    scenario: Scenario
    growth: Fraction
    row: Row | None

    @property
    def found(self) -> Found:
        """What is known of all its demands."""
        return self.row.found if self.row else Found(FAILED, "it was not done")

    @cached_property
    def range(self) -> Range:
        """What is known of the fraction; of a routing by a rule, which bounds nothing from above, all up to 1 may be."""
        return range_of(self.found, self.growth)

    @property
    def has_range(self) -> bool:
        """Whether anything is known."""
        return bool(self.found.lower)

    @property
    def rest(self) -> Found | None:
        """What is known of the demands that have a way, where some have none and that was asked for."""
        return self.row.rest if self.row else None

    @property
    def fits(self) -> str:
        """Whether all demands fit."""
        return WORDS[fits(self.range)] if self.has_range else WORDS[Answer.OPEN]

    @property
    def note(self) -> str | None:
        """How its routing by a rule, or that of its rest, falls short of the rule; that this is not known where no note was kept."""
        noted = self.rest or self.found
        return NOT_KEPT if noted.note is None and noted.verdict == FEASIBLE and self.scenario.routing in SPLITS else noted.note or None


@dataclass(frozen=True)
class Carried:
    """A case of a routing by a rule, by what its certificate shows that it carries: that it can carry no more is not shown."""

    case: Case

    @property
    def range(self) -> Range:
        """What it is shown to carry."""
        return Range(self.case.range.lower, self.case.range.lower)


def range_of(found: Found, growth: Fraction) -> Range:
    """The range of what was found, where demands are multiplied by a number."""
    lower = Fraction(found.lower) / growth
    return Range(lower, Fraction(found.upper) / growth if found.upper else max(lower, Fraction(1)))


def cases(plan: Plan, store: Store) -> Iterator[Case]:
    """All cases of a study in their order: scenario by scenario, each with all growths."""
    growths = [fraction_of(word) for word in plan.growths]
    for part in parts(plan):
        rows = store.rows([scenario.key for scenario in part])
        for scenario in part:
            kept = rows.get(scenario.key)
            for growth in growths:
                yield Case(scenario, growth, kept.row if kept else None)


def record(case: Case) -> dict[str, object]:
    """The values of a case by the names of the columns, bounds as fractions; what is not known is None."""
    scenario, found, row, rest = case.scenario, case.found, case.row, case.rest
    lower, upper = _bounds(found, case.growth)
    rest_lower, rest_upper = _bounds(rest, case.growth) if rest else (None, None)
    refusal = found.line if found.verdict in (REFUSED, FAILED) else rest.line if rest and rest.verdict in (REFUSED, FAILED) else None
    change = scenario.change
    return {
        "matrix": name_of(scenario.matrix.name), "time": scenario.matrix.time or None, "kind": change.kind, "change": name_of(change.name),
        "links": _names(change.links), "nodes": _names(change.nodes), "growth": case.growth, "routing": scenario.routing,
        "lower": lower, "upper": upper, "lower_decimal": _down(lower), "upper_decimal": _up(upper), "verdict": found.verdict,
        "fits": case.fits, "note": case.note, "without_way": _names(row.cut if row else ()), "left_out": _names(row.left_out if row else ()),
        "rest_lower": rest_lower, "rest_upper": rest_upper, "rest_fits": _rest_fits(rest, case.growth), "refusal": refusal,
        "seconds": round(row.seconds, 4) if row else None, "place": row.place if row else None, "version": row.version if row else None,
        "key": scenario.key}


def _rest_fits(rest: Found | None, growth: Fraction) -> str | None:
    """Whether the demands that have a way fit."""
    if rest is None:
        return None
    return WORDS[fits(range_of(rest, growth))] if rest.lower else NOTHING if rest.verdict == NOTHING else WORDS[Answer.OPEN]


def _bounds(found: Found, growth: Fraction) -> tuple[Fraction | None, Fraction | None]:
    """Both bounds, where they are known."""
    lower = Fraction(found.lower) / growth if found.lower else None
    return lower, Fraction(found.upper) / growth if found.upper else None


def _down(value: Fraction | None) -> str | None:
    """A lower bound with six decimals, rounded down."""
    return None if value is None else decimal_of(rounded_down(value.numerator, value.denominator))


def _up(value: Fraction | None) -> str | None:
    """An upper bound with six decimals, rounded up."""
    return None if value is None else decimal_of(rounded_up(value.numerator, value.denominator))


def _names(words: Iterable[str]) -> str:
    """Names in a cell; none of them has a blank."""
    return " ".join(map(name_of, words))


def table(all_cases: Iterable[Case]) -> Iterator[str]:
    """The lines of the table as CSV, exact bounds as fractions."""
    yield _line(COLUMNS)
    for case in all_cases:
        values = record(case)
        yield _line(_cell(values[name]) for name in COLUMNS)


def _cell(value: object) -> str:
    """A value in a cell."""
    return "" if value is None else cell_of(value) if isinstance(value, str) else str(value)


def _line(words: Iterable[str]) -> str:
    """A line of CSV."""
    out = io.StringIO()
    csv.writer(out, lineterminator="\n").writerow(words)
    return out.getvalue().encode("utf-8", "surrogateescape").decode("utf-8", "replace")


@dataclass(frozen=True)
class Part:
    """What was found for one routing and one growth: counts, and the worst of the cases of which something is known, or all that may be it.

    left_out: how many have demands of lost nodes, which are left out. lost_rest: of how many that was asked for of the demands that have
    a way there is no answer. noted: how many have a note.
    """

    routing: str
    growth: str
    of: int
    counts: dict[Answer, int]
    cut: int
    refused: int
    failed: int
    worst: Extreme[Case] | None
    least: Extreme[Carried] | None = None
    left_out: int = 0
    lost_rest: int = 0
    noted: int = 0

    @property
    def known(self) -> int:
        """Of how many cases something is known."""
        return sum(self.counts.values())


def summaries(plan: Plan, store: Store) -> list[Part]:
    """What was found, routing by routing and growth by growth; no more than a part of the cases is held at a time."""
    found = {(routing, growth): _Sum(routing, growth) for routing in plan.routings for growth in plan.growths}
    by_value = {(routing, fraction_of(growth)): sums for (routing, growth), sums in found.items()}
    source = cases(plan, store)
    while part := list(islice(source, 1000)):
        for key, sums in by_value.items():
            sums.take([case for case in part if (case.scenario.routing, case.growth) == key])
    return [sums.part() for sums in found.values()]


class _Sum:
    """Counts of cases, and those that may be the worst of all that were taken."""

    def __init__(self, routing: str, growth: str) -> None:
        """Nothing was taken yet."""
        self._routing, self._growth = routing, growth
        self._of = self._cut = self._refused = self._failed = self._left_out = self._lost_rest = self._noted = 0
        self._counts = dict.fromkeys(Answer, 0)
        self._worst: Extreme[Case] | None = None
        self._least: Extreme[Carried] | None = None

    def take(self, some: list[Case]) -> None:
        """Takes cases. What may be the worst of all may be the worst of its part, so no others have to be kept."""
        known = [case for case in some if case.has_range]
        for case in known:
            self._counts[fits(case.range)] += 1
            self._cut += bool(case.row and case.row.cut)
        self._of += len(some)
        self._refused += sum(case.found.verdict == REFUSED for case in some)
        self._failed += sum(case.found.verdict == FAILED for case in some)
        self._left_out += sum(bool(case.row and case.row.left_out) for case in some)
        self._lost_rest += sum(case.rest is not None and case.rest.verdict == FAILED for case in some)
        self._noted += sum(case.note is not None for case in some)
        if known and self._routing in RULES:
            self._least = worst([*(self._least.cases if self._least else ()), *map(Carried, known)])
        elif known:
            self._worst = worst([*(self._worst.cases if self._worst else ()), *known])

    def part(self) -> Part:
        """What was found."""
        known = sum(self._counts.values())
        found = replace(self._worst, of=known) if self._worst else None
        least = replace(self._least, of=known) if self._least else None
        return Part(self._routing, self._growth, self._of, self._counts, self._cut, self._refused, self._failed, found, least, self._left_out, self._lost_rest,
                    self._noted)


def status_of(found: Iterable[Part]) -> int:
    """The status: 0 if all demands fit in all cases; 1 if not, or it is not decided; 2 where one has no answer, or nothing is known."""
    some = list(found)
    if any(part.failed or part.lost_rest for part in some) or not any(part.known for part in some):
        return 2
    if any(part.refused for part in some):
        return 1
    ranges = [case.range for part in some if part.worst for case in part.worst.cases]
    return status(ranges + [case.case.range for part in some if part.least for case in part.least.cases])


def part_values(part: Part) -> dict[str, object]:
    """The values of a part for JSON."""
    found = part.worst
    least = {"keys": [case.case.scenario.key for case in part.least.cases], "lower": part.least.range.lower} if part.least else None
    extreme = {"keys": [case.scenario.key for case in found.cases], "sure": [case.scenario.key for case in found.sure],
               "alone": found.alone, "bounds": found.range} if found else None
    counts = {answer.value: part.counts[answer] for answer in Answer}
    return {"routing": part.routing, "growth": fraction_of(part.growth), "scenarios": part.of, "fits": counts, "without_way": part.cut,
            "refused": part.refused, "failed": part.failed, "worst": extreme, "least": least}


def case_values(case: Case) -> dict[str, object]:
    """The values of a case for JSON: names in lists, and bounds as fractions."""
    values, row, rest, change = record(case), case.row, case.rest, case.scenario.change
    lists = {"links": change.links, "nodes": change.nodes, "without_way": row.cut if row else (), "left_out": row.left_out if row else ()}
    plain = {name: values[name] for name in ("matrix", "time", "kind", "change", "growth", "routing", "lower", "upper", "verdict",
                                             "note", "rest_lower", "rest_upper", "refusal", "seconds", "place", "version", "key")}
    fitting = {"fits": fits(case.range) if case.has_range else Answer.OPEN,
               "rest_fits": fits(range_of(rest, case.growth)) if rest and rest.lower else None}
    judged = case.found.line if case.has_range else None
    return {**plain, **fitting, "judged": judged, **{name: list(map(name_of, words)) for name, words in lists.items()}}
