"""A certificate from whole weights and whole lengths: what all kinds have in common, and the rows of each."""

from __future__ import annotations

from dataclasses import replace
from fractions import Fraction

import numpy as np

from mcf import Layer, Length, Path, Potential, ScaledNetwork, rounded_down, rounded_up
from mcf.certificate import Certificate, HopCertificate, TotalCertificate

from ..ranges import Range, most_gain
from .arrays import Array
from .pool import Pool
from .prices import Bound
from .problem import Arcs, Pairs, Walk
from .rounding import Whole
from .search import Layers

FAR = 2**62
"""The length of a cell without capacity, and the potential of a node that is not reached."""

MOST_GAP = 1000 * 10**6
DEFAULT_GAP = 1
"""The gap that is asked for unless another one is, in millionths."""


def certificate_of(scaled: ScaledNetwork, like: Certificate, pairs: Pairs, arcs: Arcs, pool: Pool, whole: Whole,
                   bound: Bound) -> Certificate:
    """The certificate, of the kind, form and counts of another one for the same network."""
    words = scaled.words(like.form)
    lower, upper = (whole.carried * whole.capacity, whole.load), (bound.above, bound.below)
    lengths = [Length(words[number], int(bound.lengths[number]) if cell.capacity else FAR) for number, cell in enumerate(scaled.cells)]
    limited = isinstance(like, HopCertificate)
    free = [commodity.source for commodity, limit in zip(scaled.commodities, scaled.limits) if not limited or limit is None]
    certificate = replace(like, links=scaled.links, modules=scaled.modules, phases=whole.phases, scale_capacity=whole.capacity,
                          scale_load=whole.load, lower=lower, lower_millionths=rounded_down(*lower), upper=upper,
                          upper_millionths=rounded_up(*upper), paths=path_rows(scaled, like.form, pairs, pool, whole), lengths=lengths,
                          potentials=potential_rows(scaled, arcs, bound.lengths, free))
    if isinstance(certificate, HopCertificate):
        certificate.layers = layer_rows(scaled, arcs, bound.lengths)
    if isinstance(certificate, TotalCertificate):
        certificate.threshold = bound.below
    return with_gap(certificate, None)


def potential_rows(scaled: ScaledNetwork, arcs: Arcs, lengths: Array, sources: list[int]) -> list[Potential]:
    """The distances of all nodes from sources, in the order of nodes."""
    once = sorted(set(sources))
    if not once:
        return []
    distances, _ = arcs.distances(lengths, np.array(once))
    return [Potential(scaled.network.nodes[source].id, _whole(row)) for source, row in zip(once, distances)]


def layer_rows(scaled: ScaledNetwork, arcs: Arcs, lengths: Array) -> list[Layer]:
    """The layers of all sources of commodities with limits, each up to the greatest of these limits."""
    most: dict[int, int] = {}
    for commodity, limit in zip(scaled.commodities, scaled.limits):
        if limit is not None:
            most[commodity.source] = max(limit, most.get(commodity.source, 0))
    if not most:
        return []
    sources = sorted(most)
    layers = Layers(arcs, np.array(sources), max(most.values()))
    layers.fill(lengths)
    rows = []
    for column, source in enumerate(sources):
        # (further layers are the last one, once in memory)
        values = [_whole(layers.at(index)[:, column]) for index in range(min(most[source], layers.last) + 1)]
        rows += [Layer(scaled.network.nodes[source].id, index, values[min(index, layers.last)]) for index in range(most[source] + 1)]
    return rows


def _whole(distances: Array) -> tuple[int, ...]:
    """Distances as whole numbers, those that are infinite too."""
    return tuple(int(far) if far < np.inf else FAR for far in distances.tolist())


def path_rows(scaled: ScaledNetwork, form: int, pairs: Pairs, pool: Pool, whole: Whole) -> list[Path]:
    """The rows of all paths with a weight, by commodity and then by the numbers of their cells."""
    words = scaled.words(form)
    return [Path(scaled.demand_id(number), weight, tuple(words[cell] for cell in walk))
            for number, row in enumerate(shares_of_demands(scaled, pairs, pool, whole)) for walk, weight in sorted(row)]


def shares_of_demands(scaled: ScaledNetwork, pairs: Pairs, pool: Pool, whole: Whole) -> list[list[tuple[Walk, int]]]:
    """The weights of pairs' paths handed out to the commodities of each pair, in their order."""
    left: list[list[tuple[Walk, int]]] = [[] for _ in pairs.amount]
    for walk, pair, weight in zip(pool.walks, pool.pair, whole.weights):
        if weight:
            left[pair].append((walk, weight))
    rows = []
    for commodity, pair, turned in zip(scaled.commodities, pairs.of_commodity.tolist(), pairs.turned.tolist()):
        taken = take(left[pair], whole.units * commodity.amount)
        rows.append([(walk[::-1] if turned else walk, weight) for walk, weight in taken])
    return rows


def take(left: list[tuple[Walk, int]], wanted: int) -> list[tuple[Walk, int]]:
    """Takes a weight, or what there is, from the end of a list of paths with their weights."""
    taken = []
    while wanted and left:
        walk, weight = left.pop()
        part = min(weight, wanted)
        taken.append((walk, part))
        wanted -= part
        if weight > part:
            left.append((walk, weight - part))
    return taken


def gap_of(certificate: Certificate) -> int | None:
    """The true gap in millionths, rounded up; None where it is over every gap that can be asked for."""
    lower, upper = Fraction(*certificate.lower), Fraction(*certificate.upper)
    gap = gap_in(Range(min(lower, upper), upper))
    return gap if gap is None or gap <= MOST_GAP else None


def gap_in(found: Range) -> int | None:
    """By what part of the lower bound the upper one is above it, in millionths, rounded up; None where nothing is carried."""
    gap = most_gain(found, found)
    if gap is None:
        return 0 if found.exact else None
    return rounded_up(gap.numerator, gap.denominator)


def with_gap(certificate: Certificate, wanted: int | None) -> Certificate:
    """The certificate with the gap that is wanted, in millionths, and its verdict.

    Where that is None, a millionth is wanted, and a gap below it stands there as it is.
    """
    true = gap_of(certificate)
    certificate.gap = wanted if wanted is not None else DEFAULT_GAP if true is None else min(true, DEFAULT_GAP)
    certificate.verdict = "closed" if true is not None and true <= certificate.gap else "open"
    return certificate


def in_form(scaled: ScaledNetwork, certificate: Certificate, form: int) -> Certificate:
    """The certificate with its cells named as in another form."""
    if certificate.form == form:
        return certificate
    word = dict(zip(scaled.words(certificate.form), scaled.words(form)))
    paths = [Path(path.demand, path.weight, tuple(word[cell] for cell in path.cells)) for path in certificate.paths]
    lengths = [Length(word[row.cell], row.length) for row in certificate.lengths]
    return replace(certificate, form=form, paths=paths, lengths=lengths)
