"""The best split over a few shortest paths of each pair: the linear program over just these paths."""

from __future__ import annotations

import time
from fractions import Fraction

import numpy as np
from scipy.sparse import csc_matrix
from tqdm import tqdm

from mcf import ScaledNetwork, TextError
from mcf.lp.arrays import Array
from mcf.lp.build import shares_of_demands
from mcf.lp.clp import load_clp
from mcf.lp.path_lp import FractionProgram, Stop
from mcf.lp.pool import Pool
from mcf.lp.prices import Bounds
from mcf.lp.problem import Arcs, Pairs, pairs_of
from mcf.lp.rounding import Rounding
from mcf.lp.search import AllPaths
from mcf.ranges import Range, least_loss

from .shortest import Walk, Ways
from .shown import few_digits_up


def split_over_few(scaled: ScaledNetwork, ways: Ways, count: int, deadline: float,
                   notes: list[str], quiet: bool = False) -> tuple[int, list[list[tuple[Walk, int]]]]:
    """Phases, and the whole weights of each commodity's paths, of the best split over so many shortest paths."""
    library = load_clp()
    pairs = pairs_of(scaled)
    pool = _pool(scaled, pairs, ways, count, notes, quiet)
    capacities = [cell.capacity for cell in scaled.cells]
    program = FractionProgram(library, pairs, AllPaths(pairs, Arcs(scaled)), np.array(capacities, np.float64), pool)
    optimum = program.optimise(deadline, lambda found: None, grow=False)
    if not optimum.proved:
        why = "the time was too short for" if optimum.stop is Stop.SECONDS else "the linear program did not come to"
        notes.append(f"{why} the best split over these paths")
    matrix = pool.cells_by_walks(len(capacities))
    amounts = [int(amount) for amount in pairs.amount]
    aim = _aim(amounts, capacities, matrix.T.tocsr(), np.array(pool.pair), optimum.last_prices, optimum.carried)
    rounding = Rounding(matrix, np.array(pool.pair), amounts, capacities, optimum.flows)
    whole = rounding.best(aim, aim, max(deadline, time.monotonic() + 1))
    lost = least_loss(Range(whole.lower, whole.lower), Range(aim, aim))
    if lost:
        notes.append(f"in whole units it is by at most {few_digits_up(lost)} of it below the best split over these paths, as the linear "
                     "program has it")
    return whole.phases, shares_of_demands(scaled, pairs, pool, whole)


def _pool(scaled: ScaledNetwork, pairs: Pairs, ways: Ways, count: int, notes: list[str], quiet: bool) -> Pool:
    """The shortest paths of each pair."""
    pool = Pool(len(pairs.amount))
    distances: dict[int, list[int | None]] = {}
    fewer = 0
    for pair in tqdm(range(len(pairs.amount)), desc="paths", disable=quiet or None, leave=False):
        source, target = int(pairs.source[pair]), int(pairs.target[pair])
        if target not in distances:
            distances[target] = ways.distances_to(target)
        walks = ways.k_shortest(source, target, distances[target], count)
        if not walks:
            names = (scaled.network.nodes[node].id for node in (source, target))
            raise TextError(f"there is no way over links with capacity from {' to '.join(names)}")
        fewer += len(walks) < count
        for walk in walks:
            pool.add(pair, walk)
    if fewer:
        notes.append(f"{fewer} of {len(pairs.amount)} pairs of nodes have fewer than {count} paths")
    return pool


def _aim(amounts: list[int], capacities: list[int], cells: csc_matrix, pair: Array, prices: Array, carried: float) -> Fraction:
    """What no split over these paths can pass: an exact bound of the prices, or the linear program's own number and a little more."""
    def shortest(lengths: Array) -> Array:
        """The least length of a path of each pair."""
        found = np.full(len(amounts), np.inf)
        np.minimum.at(found, pair, cells @ lengths.astype(np.float64))
        return found

    bound = Bounds(amounts, capacities, shortest).offer(prices)
    return bound.value if bound is not None else Fraction(carried) * Fraction(1_000_001, 1_000_000)
