"""Judges certificates with hop limits and of a total by the conditions of docs/judge/formats.md, in exact numbers, beside the program."""

from __future__ import annotations

from collections import Counter
from fractions import Fraction
from typing import Callable

from mcf import ScaledNetwork, TextError, cells_of_path, lengths, loads, lower, nodes_of_walk, rounded_down, rounded_up, upper
from mcf.certificate import Certificate, HopCertificate, TotalCertificate


def judged(scaled: ScaledNetwork, certificate: Certificate) -> str:
    """`valid` with the verdict, or the first condition that fails."""
    assert scaled.counts(certificate.counts.skipped) == certificate.counts
    for number, holds in enumerate((_c1, _c2, _c3, _c4, _c5, _c6, _c7, _c8, _c9, _c10), 1):
        if not holds(scaled, certificate):
            return f"C{number}"
    return f"valid {certificate.verdict}"


def _limits(scaled: ScaledNetwork, certificate: Certificate) -> list[int | None]:
    """The limits of all commodities, as far as the kind keeps them; by the words of the file alone."""
    words = [scaled.network.demands[commodity.demand].longest for commodity in scaled.commodities]
    whole = [None if word == "UNLIMITED" or not isinstance(certificate, HopCertificate) else int(Fraction(word)) for word in words]
    return [hops if hops is not None and hops < len(scaled.network.nodes) - 1 else None for hops in whole]


def _c1(scaled: ScaledNetwork, certificate: Certificate) -> bool:
    """Paths are walks of their demands, within their limits."""
    limits = _limits(scaled, certificate)
    for path in certificate.paths:
        number = scaled.commodity_of[path.demand]
        commodity, cells = scaled.commodities[number], cells_of_path(scaled, 2, path)
        try:
            ends = nodes_of_walk(scaled, commodity.source, cells)
        except TextError:
            return False
        limit = limits[number]
        if ends[-1] != commodity.target or (limit is not None and len(cells) > limit):
            return False
    return True


def _c2(scaled: ScaledNetwork, certificate: Certificate) -> bool:
    """Weights are those of phases, or at most those of the amount."""
    sums: Counter[str] = Counter()
    for path in certificate.paths:
        sums[path.demand] += path.weight
    rows = [(sums[scaled.demand_id(number)], commodity.amount) for number, commodity in enumerate(scaled.commodities)]
    if isinstance(certificate, TotalCertificate):
        return all(weight * certificate.scale_capacity <= certificate.scale_load * amount for weight, amount in rows)
    return all(weight == certificate.phases * amount for weight, amount in rows)


def _c3(scaled: ScaledNetwork, certificate: Certificate) -> bool:
    """Loads fit."""
    rows = zip(loads(scaled, certificate), scaled.cells)
    return all(load * certificate.scale_capacity <= certificate.scale_load * cell.capacity for load, cell in rows)


def _c4(scaled: ScaledNetwork, certificate: Certificate) -> bool:
    """The load of the scale is not 0."""
    return certificate.scale_load != 0


def _c5(scaled: ScaledNetwork, certificate: Certificate) -> bool:
    """Each cell has one length."""
    return sorted(row.cell for row in certificate.lengths) == sorted(scaled.words(2))


def _c6(scaled: ScaledNetwork, certificate: Certificate) -> bool:
    """The rows of potentials and layers are those of the sources."""
    names = [node.id for node in scaled.network.nodes]
    free, most = set(), {}
    for commodity, limit in zip(scaled.commodities, _limits(scaled, certificate)):
        name = names[commodity.source]
        if limit is None:
            free.add(name)
        else:
            most[name] = max(limit, most.get(name, 0))
    layers = [(row.node, row.index) for row in certificate.layers] if isinstance(certificate, HopCertificate) else []
    wanted = [(name, index) for name, limit in most.items() for index in range(limit + 1)]
    return sorted(row.node for row in certificate.potentials) == sorted(free) and sorted(layers) == sorted(wanted)


def _c7(scaled: ScaledNetwork, certificate: Certificate) -> bool:
    """No step raises a potential, or a layer above the one before, by more than the length."""
    steps = []
    for cell, length in zip(scaled.cells, lengths(scaled, certificate)):
        steps += [(cell.tail, cell.head, length)] + ([(cell.head, cell.tail, length)] if cell.both else [])
    below: Callable[[tuple[int, ...], tuple[int, ...]], bool] = lambda row, before: all(row[v] <= before[u] + far for u, v, far in steps)
    if not all(below(row.values, row.values) for row in certificate.potentials):
        return False
    layers = {(row.node, row.index): row.values for row in certificate.layers} if isinstance(certificate, HopCertificate) else {}
    pairs = [(row, layers[node, index - 1]) for (node, index), row in layers.items() if index]
    return all(below(row, before) and all(now <= then for now, then in zip(row, before)) for row, before in pairs)


def _c8(scaled: ScaledNetwork, certificate: Certificate) -> bool:
    """There is a bound."""
    return certificate.upper[1] != 0


def _c9(scaled: ScaledNetwork, certificate: Certificate) -> bool:
    """The fractions are those of the rows."""
    decimals = rounded_down(*certificate.lower), rounded_up(*certificate.upper)
    return (lower(certificate) == Fraction(*certificate.lower) and upper(scaled, certificate) == Fraction(*certificate.upper)
            and decimals == (certificate.lower_millionths, certificate.upper_millionths))


def _c10(scaled: ScaledNetwork, certificate: Certificate) -> bool:
    """The verdict is that of the gap."""
    within = upper(scaled, certificate) <= lower(certificate) * (1 + Fraction(certificate.gap, 10**6))
    return (certificate.verdict == "closed") == within
