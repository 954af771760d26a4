"""The linear program over arcs, one flow for each source: what is usually solved, here to compare with and to cross-check."""

from __future__ import annotations

import sys
import time
from dataclasses import dataclass
from pathlib import Path

import numpy as np
from scipy.optimize import linprog
from scipy.sparse import coo_matrix, csc_matrix, vstack

sys.path.insert(0, str(Path(__file__).resolve().parents[1] / "python"))

from mcf import ScaledNetwork  # noqa: E402
from mcf.lp.clp import Model, load_clp  # noqa: E402


@dataclass(frozen=True)
class ArcProgram:
    """Balance of each source's flow at each node, and capacities; the last column is the fraction, in units of the greatest amount."""

    balance: csc_matrix
    within: csc_matrix
    room: np.ndarray

    @property
    def cost(self) -> np.ndarray:
        """The fraction is to be great."""
        cost = np.zeros(self.balance.shape[1])
        cost[-1] = -1.0
        return cost


def arc_program(scaled: ScaledNetwork) -> ArcProgram:
    """The program of a network."""
    nodes = len(scaled.network.nodes)
    sources = sorted({commodity.source for commodity in scaled.commodities})
    place = {source: block for block, source in enumerate(sources)}
    top = float(max(commodity.amount for commodity in scaled.commodities))
    wanted = np.zeros((len(sources), nodes))
    for commodity in scaled.commodities:
        wanted[place[commodity.source], commodity.target] += commodity.amount / top
        wanted[place[commodity.source], commodity.source] -= commodity.amount / top
    used = [(number, cell) for number, cell in enumerate(scaled.cells) if cell.capacity and cell.tail != cell.head]
    arcs = np.array([(cell.tail, cell.head, number) for number, cell in used]
                    + [(cell.head, cell.tail, number) for number, cell in used if cell.both], np.int64).reshape(-1, 3)
    count, blocks = len(arcs), np.arange(len(sources))[:, None]
    columns = (blocks * count + np.arange(count)).ravel()
    into, out = (blocks * nodes + arcs[:, 1]).ravel(), (blocks * nodes + arcs[:, 0]).ravel()
    values = np.concatenate([np.ones(len(columns)), -np.ones(len(columns)), -wanted.ravel()])
    rows = np.concatenate([into, out, np.arange(wanted.size)])
    every = np.concatenate([columns, columns, np.full(wanted.size, len(columns))])
    balance = coo_matrix((values, (rows, every)), (len(sources) * nodes, len(columns) + 1)).tocsc()
    balance.eliminate_zeros()
    fill = np.ones(len(columns)), (np.tile(arcs[:, 2], len(sources)), columns)
    within = coo_matrix(fill, (len(scaled.cells), len(columns) + 1)).tocsc()
    return ArcProgram(balance, within, np.array([cell.capacity / top for cell in scaled.cells]))


def by_highs(program: ArcProgram, method: str, seconds: float) -> tuple[float | None, float]:
    """The fraction by scipy's HiGHS, None where the time is not enough, and the processor's time."""
    begun = time.process_time()
    found = linprog(program.cost, A_ub=program.within, b_ub=program.room, A_eq=program.balance, b_eq=np.zeros(program.balance.shape[0]),
                    method=method, options={"time_limit": seconds})
    return (-found.fun if found.status == 0 else None), time.process_time() - begun


def by_clp(program: ArcProgram, seconds: float) -> tuple[float | None, float]:
    """The fraction by CLP's own choice of a method, likewise."""
    begun = time.process_time()
    library = load_clp()
    matrix = vstack([program.balance, program.within]).tocsc()
    zeros = np.zeros(program.balance.shape[0])
    with Model(library) as model:
        model.load(matrix, program.cost, np.full(matrix.shape[1], np.inf), np.concatenate([zeros, program.room]),
                   np.concatenate([zeros, np.full(len(program.room), -np.inf)]))
        solved = model.solve_anew(seconds)
        return (-model.cost if solved else None), time.process_time() - begun
