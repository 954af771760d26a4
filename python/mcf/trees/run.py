"""A whole run over trees: the network as arrays, the optimum, whole numbers, the text in pieces, and the judgement of `mcf check`."""

from __future__ import annotations

import time
from collections.abc import Iterable
from dataclasses import dataclass, replace
from fractions import Fraction
from pathlib import Path

import numpy as np
from tqdm import tqdm

from mcf import Program, TextError
from mcf.judged import judge_there
from mcf.lp.build import DEFAULT_GAP
from mcf.lp.run import Request, Result

from .bound import FAR, WholeBound, whole_bound
from .kernel import kernel
from .optimum import Optimum, Stop, TreeProgram, fewest, thinned
from .plain import Plain
from .pool import Search, Trees
from .problem import Problem
from .rows import PathRows, rows_of, shares_of
from .small import FEW, repaired_rows
from .text import certificate_text, cut_text

_SEED = 5
_MOST_PATHS = 3_000_000


@dataclass(frozen=True)
class TreeResult(Result):
    """A certificate in a file, with the line of its judge; how many trees were columns, and how many of them its paths are of."""

    file: Path
    columns: int = 0
    kept: int = 0
    rounds: int = 0

    @property
    def text(self) -> str:
        """The certificate's text."""
        return self.file.read_bytes().decode("latin-1")


@dataclass(frozen=True)
class _Found:
    """Trees with their exact bound, and why there is nothing better; and what failed, where something did."""

    trees: Trees
    bound: WholeBound
    best: Optimum
    trouble: str | None


def certify_by_trees(program: Program, request: Request, problem: Problem, room: Path, deadline: float) -> TreeResult:
    """The best certificate that is found in the time, written to a folder; TextError where there is none at all."""
    search = kernel() or Plain()
    network = problem.network
    wanted = DEFAULT_GAP if request.gap is None else request.gap
    sources = np.unique(network.source).astype(np.int32)
    reached = search.distances(network.graph, np.zeros(len(network.capacity), np.int64), sources) < FAR
    if not reached[np.searchsorted(sources, network.source), network.target].all():
        return _judged(program, request, room, cut_text(network, reached, sources, request.gap), "", None)
    with np.errstate(all="ignore"):
        found = _optimum(problem, search, wanted / 10**6, deadline)
    with tqdm(desc="whole numbers", disable=None, leave=False):
        rows = _whole(problem, found, wanted, deadline)
    text = certificate_text(problem, search, found.trees, rows, found.bound, request.gap)
    judged = _judged(program, request, room, text, _stopped(found.best.stop), found.trouble)
    return replace(judged, columns=found.best.columns, kept=len(found.trees.part), rounds=found.best.rounds)


def _optimum(problem: Problem, search: Search, gap: float, deadline: float) -> _Found:
    """Few trees that carry nearly the most, and the bound; a failure leaves what was known before it."""
    begun = time.monotonic()
    left = deadline - begun
    with tqdm(desc="start", disable=None, leave=False):
        program = TreeProgram(problem, search)
    trouble, few = None, None
    try:
        best = _solved(program, max(0.3 * gap, 1e-9), begun + 0.5 * left)
        few = _few(best, max(gap, 1e-7), begun + 0.75 * left, _MOST_PATHS * len(problem.roots) // problem.pairs)
    except (ArithmeticError, MemoryError, ValueError, np.linalg.LinAlgError) as error:
        best, trouble = program.best, f"the linear program failed: {error or type(error).__name__}"
    bound = whole_bound(problem.network, search, best.price)
    if bound is None:
        raise TextError("the prices of the linear program give no bound")
    return _Found(few or best.trees, bound, best, trouble)


def _few(best: Optimum, gap: float, deadline: float, count: int) -> Trees:
    """Few trees that carry nearly as much; where the gap is not reached, a tenth of what is missing may be lost. More than so many would
    make a text over every limit, so there more is lost."""
    most = max(best.bound * (1 + 0.8 * gap), best.full * (1 + max(0.4 * gap, 0.1 * min(best.gap, 0.1))))
    with tqdm(desc="fewer trees", disable=None, leave=False):
        found = thinned(best.trees, most, _SEED, deadline)
    for lost in (1e-5, 1e-4, 1e-3, 1e-2):
        if len(found.part) > count:
            found = fewest(best.trees, best.full * (1 + lost))
    return found


def _solved(program: TreeProgram, gap: float, deadline: float) -> Optimum:
    """The optimum; its rounds are told on a terminal."""
    with tqdm(desc="linear program over trees", unit=" rounds", disable=None, leave=False) as bar:
        def told(optimum: Optimum) -> None:
            """Shows a round."""
            bar.update()
            bar.set_postfix(gap=f"{optimum.gap:.2g}")
        return program.optimise(gap, deadline, told)


def _whole(problem: Problem, found: _Found, wanted: int, deadline: float) -> PathRows:
    """Whole weights; where there are few paths, and the gap is not reached, the best of several."""
    shares = shares_of(problem, found.trees)
    rows = rows_of(problem, found.trees, shares)
    enough = found.bound.value / (1 + Fraction(wanted, 10**6))
    if rows.lower >= enough or len(shares.part) > FEW:
        return rows
    until = time.monotonic() + 0.5 * max(deadline - time.monotonic(), 0.0)
    other = repaired_rows(problem, found.trees, shares, found.bound.value, enough, until)
    return other if other.lower > rows.lower else rows


def _stopped(stop: Stop) -> str:
    """Why the gap is no smaller."""
    return "the linear program reached it, and the rest is lost in whole numbers, or by few trees" if stop is Stop.GAP else str(stop.value)


def _judged(program: Program, request: Request, room: Path, text: Iterable[bytes], stopped: str, trouble: str | None) -> TreeResult:
    """Writes the text, once the command that judges its kind calls it valid."""
    file = room / "cert"
    with tqdm(desc="writing", disable=None, leave=False), open(file, "wb") as target:
        for piece in text:
            target.write(piece)
    with tqdm(desc="mcf check", disable=None, leave=False):
        said = judge_there(program, request.net, file, "check")
    return TreeResult(said, DEFAULT_GAP if request.gap is None else request.gap, trouble, stopped, file)
