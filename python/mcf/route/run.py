"""A whole run: the paths of a method, whole weights, the judgement of `mcf check`, and how far below the best it is."""

from __future__ import annotations

import time
from collections.abc import Iterator
from dataclasses import dataclass
from fractions import Fraction

from tqdm import tqdm

from mcf import Path, Program, ScaledNetwork, TextError, loads, scale, write_routing
from mcf.certificate import Routing
from mcf.lp.rounding import fullest
from mcf.lp.run import Request, certify

from ..judged import Judged, judge
from ..ranges import Range
from .few_paths import split_over_few
from .lengths import whole_lengths
from .shortest import Walk, Ways
from .shown import below_the_best, few_digits_up
from .whole import in_units, phases_for

Shares = list[tuple[Walk, Fraction]]


@dataclass(frozen=True)
class Question:
    """What is asked for; `lengths` are those of `ecmp` and `k-paths`, `paths` is the k of the latter."""

    net: str
    by: str
    links: str
    modules: str
    lengths: str
    cost: str
    paths: int
    seconds: float
    beside_best: bool = True


@dataclass(frozen=True)
class Routed:
    """A routing with the line of `mcf check` on it, what else is to be said, and the bounds of the best one where they were asked for."""

    judged: Judged
    notes: list[str]
    best: Range | None = None

    @property
    def text(self) -> str:
        """The routing's text."""
        return self.judged.text

    @property
    def line(self) -> str:
        """The line of `mcf check`."""
        return self.judged.line


def route(program: Program, question: Question) -> Routed:
    """The routing of a network by a method."""
    deadline = time.monotonic() + question.seconds
    scaled = _scaled(program, question)
    notes: list[str] = []
    routing = ruled(scaled, program.form, question.by, question.lengths, question.cost, question.paths, deadline, notes)
    judged = judge(program, question.net, write_routing(routing), "check")
    best = _best(program, question, notes) if question.beside_best else None
    if best is not None:
        notes.append(below_the_best(judged.lower, best))
    return Routed(judged, notes, best)


def ruled(scaled: ScaledNetwork, form: int, by: str, lengths: str, cost: str, paths: int, deadline: float, notes: list[str],
          quiet: bool = False) -> Routing:
    """The routing of a network in units by a method; `lengths` and `paths` are as in a question."""
    ways = Ways(scaled, whole_lengths(scaled, lengths if by in ("ecmp", "k-paths") else by, cost))
    if by == "k-paths":
        phases, rows = split_over_few(scaled, ways, paths, deadline, notes, quiet)
    else:
        phases, rows = _whole(scaled, list(_shares(scaled, ways, by == "ecmp", quiet)), notes)
    return _routing(scaled, form, phases, rows)


def _scaled(program: Program, question: Question) -> ScaledNetwork:
    """The network in whole units."""
    scaled = scale(program.network(question.net), question.links, question.modules)
    if not scaled.commodities:
        raise TextError(f"{question.net} has no demand with an amount between two nodes")
    return scaled


def _shares(scaled: ScaledNetwork, ways: Ways, equal_cost: bool, quiet: bool = False) -> Iterator[Shares]:
    """The paths of each commodity with their shares of it."""
    distances: dict[int, list[int | None]] = {}
    for number, commodity in enumerate(tqdm(scaled.commodities, desc="paths", disable=quiet or None, leave=False)):
        if commodity.target not in distances:
            distances[commodity.target] = ways.distances_to(commodity.target)
        far = distances[commodity.target]
        if far[commodity.source] is None:
            raise TextError(f"demand {scaled.demand_id(number)} has no way over links with capacity")
        if equal_cost:
            yield ways.equal_cost(commodity.source, commodity.target, far)
        else:
            yield [(ways.shortest(commodity.source, commodity.target, far), Fraction(1))]


def _whole(scaled: ScaledNetwork, shares: list[Shares], notes: list[str]) -> tuple[int, list[list[tuple[Walk, int]]]]:
    """Phases and whole weights of all paths; notes how far they are from the shares where no number of phases meets these."""
    parts = [[commodity.amount * share for _, share in found] for commodity, found in zip(scaled.commodities, shares)]
    phases = phases_for(part for row in parts for part in row)
    rows, worst = [], Fraction(0)
    for commodity, found, row in zip(scaled.commodities, shares, parts):
        weights = in_units(row, phases.number)
        deviation = max(abs(weight - part * phases.number) for weight, part in zip(weights, row))
        worst = max(worst, deviation / (phases.number * commodity.amount))
        rows.append([(walk, weight) for (walk, _), weight in zip(found, weights) if weight])
    if not phases.exact:
        notes.append(f"no number of phases up to 65536 makes these splits exact; of {phases.number}, the farthest path is off by "
                     f"at most {few_digits_up(worst)} of its demand")
    return phases.number, rows


def _routing(scaled: ScaledNetwork, form: int, phases: int, rows: list[list[tuple[Walk, int]]]) -> Routing:
    """The routing text's content: paths by commodity and then by their cells, scaled until the fullest cell is full."""
    words = scaled.words(form)
    paths = [Path(scaled.demand_id(number), weight, tuple(words[cell] for cell in walk))
             for number, row in enumerate(rows) for walk, weight in sorted(row)]
    routing = Routing(form, scaled.links, scaled.modules, phases, 1, 1, paths)
    routing.scale_capacity, routing.scale_load = fullest(loads(scaled, routing), [cell.capacity for cell in scaled.cells])
    return routing


def _best(program: Program, question: Question, notes: list[str]) -> Range | None:
    """The bounds of a certificate of the best; where there is none, a note says why."""
    request = Request(question.net, question.links, question.modules, None, question.seconds, None)
    try:
        return certify(program, request).judged.range
    except TextError as error:
        notes.append(f"how far below the best it is, is not known: {error}")
        return None
