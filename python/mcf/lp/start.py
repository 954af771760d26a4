"""Where the paths come from: certificates of `mcf solve`, `hops` or `throughput`, or a certificate or routing from elsewhere."""

from __future__ import annotations

import time
from dataclasses import dataclass, replace
from fractions import Fraction
from pathlib import Path as File

import numpy as np

from mcf import Program, ScaledNetwork, TextError, cells_of_path, judge_of, load_text, nodes_of_walk, read_any, scale
from mcf.certificate import Certificate, Routing

from ..limits import DEFAULT_PHASES, DEFAULT_STEP, MAX_STEP, MAX_WORK
from .arrays import Array
from .kinds import Kind
from .pool import Pool
from .problem import UNLIMITED, Pairs, Walk

_HEAVIEST = 2


@dataclass(frozen=True)
class Source:
    """The network file, the program, the kind of certificates, and the options with which links and modules are read."""

    program: Program
    kind: Kind
    net: str
    links: str
    modules: str

    def scaled(self) -> ScaledNetwork:
        """The network in whole units; TextError, with the line of the command, where there is none."""
        network = self.program.network(self.net)
        try:
            return scale(network, self.links, self.modules)
        except TextError:
            self.solve(1, DEFAULT_STEP, None)
            raise

    def solve(self, phases: int, step: int, seconds: float | None) -> Certificate:
        """A certificate of the command with one worker, so that one input gives one text."""
        words = (*self.kind.words, "--links", self.links, "--modules", self.modules, "--gap", "0", "--phases", str(phases),
                 "--step", str(step))
        return self.kind.read(self.program.solve(self.net, *words, seconds=seconds, command=self.kind.command))


def start_phases(commodities: int) -> int:
    """How many phases the start has: a few, and more in small networks, where they cost nothing."""
    return max(12, min(100, 150_000 // commodities))


def step_for(phases: int) -> int:
    """The step with which so few phases spread the paths well."""
    return min(MAX_STEP, DEFAULT_STEP * DEFAULT_PHASES // phases)


def first_certificate(source: Source, commodities: int, deadline: float) -> Certificate:
    """A certificate of few phases; of a single one where the time is too short for that."""
    phases = start_phases(commodities)
    try:
        return source.solve(phases, step_for(phases), max(deadline - time.monotonic(), 0.1))
    except TextError:
        if time.monotonic() < deadline:
            raise
        return source.solve(1, DEFAULT_STEP, None)


def longer_certificates(source: Source, commodities: int, deadline: float) -> list[Certificate]:
    """Certificates of two steps with all phases that are allowed, as far as the time goes."""
    phases = min(DEFAULT_PHASES, MAX_WORK // commodities)
    found = []
    for step in dict.fromkeys((step_for(phases), min(MAX_STEP, 4 * step_for(phases)))):
        seconds = deadline - time.monotonic()
        if seconds <= 0:
            break
        try:
            found.append(source.solve(phases, step, seconds))
        except TextError:
            if time.monotonic() < deadline:
                raise
    return found


def given(program: Program, net: str, file: str) -> Certificate | Routing:
    """A certificate of any kind or a routing from elsewhere, which the command that judges its kind has to accept."""
    command = "check"
    answer = program.check(net, file)
    if answer.line.startswith("refused cert K1 "):
        command = judge_of(load_text(File(file)))
        answer = program.check(net, file, command=command)
    if answer.status != 0:
        raise TextError(f"mcf {command} of {file}: {answer.line}")
    return read_any(load_text(File(file)))


def combined(certificates: list[Certificate]) -> Certificate:
    """The paths of the certificate that carries most, with the lengths of the one whose bound is least."""
    paths = max(certificates, key=lambda certificate: Fraction(*certificate.lower))
    bound = min(certificates, key=lambda certificate: Fraction(*certificate.upper))
    return replace(bound, form=paths.form, phases=paths.phases, scale_capacity=paths.scale_capacity, scale_load=paths.scale_load,
                   lower=paths.lower, lower_millionths=paths.lower_millionths, paths=paths.paths)


def simple(scaled: ScaledNetwork, start: int, cells: list[int]) -> list[int]:
    """A walk's cells without those of its round trips, so that it meets each node once."""
    kept: list[int] = []
    nodes = nodes_of_walk(scaled, start, cells)
    at = {start: 0}
    for cell, node in zip(cells, nodes[1:]):
        kept.append(cell)
        if node in at:
            del kept[at[node]:]
            at = {other: place for other, place in at.items() if place <= len(kept)}
        at[node] = len(kept)
    return kept


def pool_of(scaled: ScaledNetwork, pairs: Pairs, text: Routing, elsewhere: bool) -> Pool:
    """The heaviest allowed paths of each pair; those from elsewhere may be walks with round trips, which are left out."""
    weights: list[dict[Walk, int]] = [{} for _ in pairs.amount]
    number_of = scaled.commodity_of
    of_commodity, turned, limits = pairs.of_commodity.tolist(), pairs.turned.tolist(), pairs.limit.tolist()
    for path in text.paths:
        commodity = number_of[path.demand]
        cells = cells_of_path(scaled, text.form, path)
        if elsewhere:
            cells = simple(scaled, scaled.commodities[commodity].source, cells)
        walk = tuple(reversed(cells) if turned[commodity] else cells)
        pair = of_commodity[commodity]
        if limits[pair] == UNLIMITED or len(walk) <= limits[pair]:
            weights[pair][walk] = weights[pair].get(walk, 0) + path.weight
    pool = Pool(len(weights))
    for pair, found in enumerate(weights):
        for walk, _ in sorted(found.items(), key=lambda entry: (-entry[1], entry[0]))[:_HEAVIEST]:
            pool.add(pair, walk)
    return pool


def lengths_of(scaled: ScaledNetwork, certificate: Certificate) -> Array:
    """The lengths of a certificate as prices, 0 where a cell has no capacity."""
    number_of = scaled.cell_of(certificate.form)
    prices = np.zeros(len(scaled.cells))
    for row in certificate.lengths:
        number = number_of[row.cell]
        prices[number] = row.length if scaled.cells[number].capacity else 0
    return prices
