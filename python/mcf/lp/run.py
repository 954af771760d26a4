"""A whole run: paths of a solve, the linear program, whole numbers, and the judgement of `mcf check`, or that of the kind."""

from __future__ import annotations

import time
from dataclasses import dataclass
from fractions import Fraction

import numpy as np
from tqdm import tqdm

from mcf import Program, ScaledNetwork, TextError, decimal_of, write_certificate
from mcf.certificate import Certificate, Routing

from ..judged import Judged, Said, judge
from .build import DEFAULT_GAP, certificate_of, gap_in, in_form, with_gap
from .clp import load_clp
from .kinds import SOLVE, Kind
from .path_lp import Optimum, PathProgram, Stop
from .pool import complete
from .prices import Bound, Bounds
from .problem import Arcs
from .start import Source, combined, first_certificate, given, lengths_of, longer_certificates, pool_of


@dataclass(frozen=True)
class Request:
    """What is asked for; `links` and `modules` are None where they were not given, `gap` is in millionths or None."""

    net: str
    links: str | None
    modules: str | None
    gap: int | None
    seconds: float
    start: str | None
    kind: Kind = SOLVE


@dataclass(frozen=True)
class Result:
    """A certificate with the line of its judge; why it is not the linear program's, where it is not; and why that stopped."""

    judged: Said
    wanted: int
    trouble: str | None
    stopped: str

    @property
    def text(self) -> str:
        """The certificate's text."""
        assert isinstance(self.judged, Judged)
        return self.judged.text

    @property
    def line(self) -> str:
        """The line of its judge."""
        return self.judged.line

    @property
    def closed(self) -> bool:
        """Whether the gap that was wanted is reached."""
        return self.judged.closed

    @property
    def left(self) -> str:
        """How far it came, and why it stopped there."""
        gap = gap_in(self.judged.range)
        found = "nothing is carried, so no gap can be told" if gap is None else f"a gap of {decimal_of(gap)} is left"
        return f"open: {found}, where {decimal_of(self.wanted)} was asked for; {self.trouble or self.stopped}"


@dataclass(frozen=True)
class Made:
    """A certificate of the linear program, and why that stopped."""

    certificate: Certificate
    stopped: str


@dataclass(frozen=True)
class Begun:
    """A network with a first certificate, and the text whose paths the linear program begins from."""

    source: Source
    scaled: ScaledNetwork
    first: Certificate
    paths: Routing
    elsewhere: bool


def certify(program: Program, request: Request) -> Result:
    """The best certificate that is found in the time; TextError where there is none at all."""
    deadline = time.monotonic() + request.seconds
    begun = _begin(program, request, deadline)
    if not Fraction(*begun.first.upper):
        return _judged(program, request, begun.first, None, "")
    try:
        made = _optimum(begun, request.gap, deadline)
        return _judged(program, request, combined([made.certificate, begun.first]), None, made.stopped)
    except Exception as error:  # whatever fails there, a certificate of the kind's own command is handed out, with the reason
        reason = str(error) or type(error).__name__
    trouble = f"this is a certificate of mcf {request.kind.command}, since the linear program gave none: {reason}"
    rest = longer_certificates(begun.source, len(begun.scaled.commodities), deadline)
    return _judged(program, request, combined([begun.first, *rest]), trouble, "")


def _begin(program: Program, request: Request, deadline: float) -> Begun:
    """The network and the start."""
    paths = given(program, request.net, request.start) if request.start else None
    source = Source(program, request.kind, request.net, *_options(request, paths))
    scaled = source.scaled()
    if not scaled.commodities:
        raise TextError(f"{request.net}: no demand of an amount between two nodes, so there is nothing to carry")
    with tqdm(desc=f"paths of {request.kind.command}", disable=None, leave=False):
        half = deadline - request.seconds / 2
        is_first = isinstance(paths, Certificate) and type(paths) is request.kind.certificate
        first = paths if isinstance(paths, Certificate) and is_first else first_certificate(source, len(scaled.commodities), half)
    if paths is None:
        return Begun(source, scaled, first, first, False)
    return Begun(source, scaled, in_form(scaled, first, program.form), paths, True)


def _options(request: Request, paths: Routing | None) -> tuple[str, str]:
    """Links and modules: those of the text that is begun from, which those that were asked for may not contradict."""
    wanted = request.links or "undirected", request.modules or "largest"
    if paths is None:
        return wanted
    for asked, found in ((request.links, paths.links), (request.modules, paths.modules)):
        if asked not in (None, found):
            raise TextError(f"{request.start} was made with links {paths.links} and modules {paths.modules}")
    return paths.links, paths.modules


def _optimum(begun: Begun, gap: int | None, deadline: float) -> Made:
    """The certificate of the linear program's answer."""
    library = load_clp()
    scaled, kind = begun.scaled, begun.source.kind
    pairs, arcs = kind.pairs(scaled), Arcs(scaled)
    search = kind.search(pairs, arcs)
    capacities = [cell.capacity for cell in scaled.cells]
    capacity = np.array(capacities, np.float64)
    pool = pool_of(scaled, pairs, begun.paths, begun.elsewhere)
    complete(pool, search, 1 / np.maximum(capacity, 0.5), kind.each)
    left = deadline - time.monotonic()
    optimum = _solved(kind.program(library, pairs, search, capacity, pool), time.monotonic() + left * 0.6)
    amounts = [int(amount) for amount in pairs.amount]
    bound = _bound(kind.bounds(amounts, capacities, search.distances), optimum, begun)
    used = len(optimum.flows)
    matrix = pool.cells_by_walks(len(capacities))[:, :used]
    with tqdm(desc="whole numbers", disable=None, leave=False):
        rounding = kind.rounding(matrix, np.array(pool.pair[:used]), amounts, capacities, optimum.flows)
        enough = bound.value if gap is None else bound.value / (1 + Fraction(gap, 10**6))
        until = time.monotonic() + left * 0.2
        whole = rounding.best(bound.value, enough, until)
    certificate = certificate_of(scaled, begun.first, pairs, arcs, pool, whole, bound)
    return Made(certificate, _stopped(optimum, time.monotonic() >= until))


def _stopped(optimum: Optimum, hurried: bool) -> str:
    """Why the gap is no smaller."""
    if optimum.stop is Stop.SECONDS:
        return f"the seconds were over in round {optimum.rounds} of the linear program"
    if optimum.stop is Stop.ROUNDS:
        return f"the linear program stopped after {optimum.rounds} rounds, as many as it may have"
    if hurried:
        return "the seconds were over while its flows were made whole numbers"
    return "no further path is worth adding to the linear program, and its flows in whole numbers carry no more"


def _solved(program: PathProgram, deadline: float) -> Optimum:
    """The linear program's answer; its rounds are told on a terminal."""
    with tqdm(desc="linear program", unit=" rounds", disable=None, leave=False) as bar:
        def told(optimum: Optimum) -> None:
            """Shows a round."""
            bar.update()
            bar.set_postfix(carried=f"{optimum.carried:.6f}", bound=f"{optimum.bound:.6f}")
        return program.optimise(deadline, told)


def _bound(bounds: Bounds, optimum: Optimum, begun: Begun) -> Bound:
    """The bound of the linear program's prices, or of the first certificate's lengths where these give none."""
    found = bounds.offer(optimum.prices) or bounds.offer(lengths_of(begun.scaled, begun.first))
    if found is None:
        raise TextError("neither the prices nor the lengths of the start give a bound")
    return found


def _judged(program: Program, request: Request, certificate: Certificate, trouble: str | None, stopped: str) -> Result:
    """The certificate's text, once the command that judges its kind calls it valid."""
    text = write_certificate(with_gap(certificate, request.gap))
    with tqdm(desc=f"mcf {request.kind.judge}", disable=None, leave=False):
        judged = judge(program, request.net, text, request.kind.judge)
    return Result(judged, DEFAULT_GAP if request.gap is None else request.gap, trouble, stopped)
