"""Exact scenarios: the linear program over paths, which begins from the paths that earlier scenarios of the network used.

As in tools/certify, whole numbers and whole prices make a certificate, which `mcf check` judges. What a worker keeps of a network are
the walks that carried something, by the nodes that they join; so only the first scenario asks `mcf solve` for paths, and most have few
rounds. Where the linear program fails, the certificate is that of `mcf solve`, which is closed only where it is as close as was asked for.
"""

from __future__ import annotations

import time
from collections import OrderedDict
from dataclasses import dataclass, field
from fractions import Fraction

import numpy as np

from ..asked import millionths
from ..certificate import Certificate, read_certificate, write_certificate
from ..errors import TextError
from ..lp.build import DEFAULT_GAP, certificate_of, with_gap
from ..lp.clp import load_clp
from ..lp.kinds import SOLVE
from ..lp.pool import Pool, complete
from ..lp.prices import Bound
from ..lp.problem import Arcs, Pairs, Walk
from ..lp.rounding import Whole
from ..lp.start import pool_of, start_phases, step_for
from ..network import Network
from ..scaled import ScaledNetwork
from .children import Program
from .scenarios import Asked
from .work import Found, judged, scaled_of, solved

MOST_WALKS = 8
"""How many walks of two nodes are kept: those that carried something last."""

_FORM = 2
_KEPT = 4


@dataclass
class Known:
    """The walks of a network that carried something, by the two nodes that they join; the last ones are the last that did."""

    walks: dict[tuple[int, int], OrderedDict[Walk, None]] = field(default_factory=dict)

    def pool(self, scaled: ScaledNetwork, pairs: Pairs) -> Pool:
        """The walks that a network has, those that carried something last as the first ones of their pair."""
        pool = Pool(len(pairs.amount))
        has = [cell.capacity > 0 for cell in scaled.cells]
        for pair, ends in enumerate(zip(pairs.source.tolist(), pairs.target.tolist())):
            for walk in reversed(self.walks.get(ends, {})):
                if all(has[cell] for cell in walk):
                    pool.add(pair, walk)
        return pool

    def keep(self, pairs: Pairs, pool: Pool, weights: list[int]) -> None:
        """Keeps the walks that carry something, the heaviest last."""
        used = sorted((weight, at) for at, weight in enumerate(weights) if weight)
        for _, at in used:
            pair = pool.pair[at]
            known = self.walks.setdefault((int(pairs.source[pair]), int(pairs.target[pair])), OrderedDict())
            known[pool.walks[at]] = None
            known.move_to_end(pool.walks[at])
            while len(known) > MOST_WALKS:
                known.popitem(last=False)


_known: OrderedDict[tuple[str, str, str], Known] = OrderedDict()


def exact(mcf: Program, network: Network, text: bytes, asked: Asked, ground: str, _: str) -> Found:
    """What is known of a network, to a millionth or to the gap that is asked for; refused as `mcf solve` does."""
    scaled = scaled_of(network, asked)
    if scaled is None:
        return solved(mcf, text, asked)
    known = _known_of((ground, asked.links, asked.modules))
    try:
        certificate = _optimum(mcf, scaled, text, asked, known)
    except Exception:  # whatever fails there, `mcf solve` has a certificate
        return _by_solve(mcf, text, asked)
    return judged(mcf, text, write_certificate(certificate).encode("latin-1"))


def _by_solve(mcf: Program, text: bytes, asked: Asked) -> Found:
    """What `mcf solve` finds, with the gap that is asked of exact scenarios in place of its own."""
    found = solved(mcf, text, asked)
    if found.certificate is None:
        return found
    certificate = with_gap(read_certificate(found.certificate.decode("latin-1")), _gap(asked))
    return judged(mcf, text, write_certificate(certificate).encode("latin-1"))


def _gap(asked: Asked) -> int:
    """The gap that is asked for, in millionths."""
    return DEFAULT_GAP if asked.gap is None else millionths(asked.gap)


def _known_of(key: tuple[str, str, str]) -> Known:
    """The walks of a network; those of the last few networks are kept."""
    found = _known.pop(key, None) or Known()
    _known[key] = found
    while len(_known) > _KEPT:
        _known.popitem(last=False)
    return found


def _optimum(mcf: Program, scaled: ScaledNetwork, text: bytes, asked: Asked, known: Known) -> Certificate:
    """The certificate of the linear program."""
    begun = time.monotonic()
    pairs, arcs = SOLVE.pairs(scaled), Arcs(scaled)
    search = SOLVE.search(pairs, arcs)
    capacities = [cell.capacity for cell in scaled.cells]
    capacity = np.array(capacities, np.float64)
    pool = known.pool(scaled, pairs) if known.walks else pool_of(scaled, pairs, _start(mcf, scaled, text, asked), False)
    complete(pool, search, 1 / np.maximum(capacity, 0.5))
    program = SOLVE.program(load_clp(), pairs, search, capacity, pool)
    optimum = program.optimise(begun + asked.seconds * 0.6, lambda _: None)
    amounts = [int(amount) for amount in pairs.amount]
    bound = SOLVE.bounds(amounts, capacities, search.distances).offer(optimum.prices)
    if bound is None:
        raise TextError("the prices give no bound")
    used = len(optimum.flows)
    gap = _gap(asked)
    rounding = SOLVE.rounding(pool.cells_by_walks(len(capacities))[:, :used], np.array(pool.pair[:used]), amounts, capacities, optimum.flows)
    whole = rounding.best(bound.value, bound.value / (1 + Fraction(gap, 10**6)), begun + asked.seconds * 0.9)
    known.keep(pairs, pool, whole.weights)
    return with_gap(_certificate(scaled, pairs, arcs, pool, whole, bound), gap)


def _start(mcf: Program, scaled: ScaledNetwork, text: bytes, asked: Asked) -> Certificate:
    """A certificate of few phases, whose paths the first scenario of a network begins from."""
    phases = start_phases(len(scaled.commodities))
    words = ("--workers", "1", "--links", asked.links, "--modules", asked.modules, "--gap", "0", "--phases", str(phases),
             "--step", str(step_for(phases)))
    return read_certificate(mcf.run("solve", words, text).data.decode("latin-1"))


def _certificate(scaled: ScaledNetwork, pairs: Pairs, arcs: Arcs, pool: Pool, whole: Whole, bound: Bound) -> Certificate:
    """The certificate of whole weights and lengths."""
    like = Certificate(_FORM, scaled.links, scaled.modules, 0, 0, 1, counts=scaled.counts(0))
    return certificate_of(scaled, like, pairs, arcs, pool, whole, bound)
