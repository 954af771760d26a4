#!/usr/bin/python3 -B
"""The linear programs that are usually solved for large networks, each in a process of its own, which is ended at a limit of seconds
of a processor, so that a busy machine or a pause takes nothing from it.

Two forms: a flow of each source on each arc; and a flow of each pair on each of four short paths. Two solvers: the interior point method
of HiGHS, and CLP as it chooses itself.

As a program it measures some of them alone, each with its size, seconds of the processor and by the clock, and memory at most, as a
table in Markdown; a program that ended has its fraction.

usage: bench/linear_programs.py [--seconds N] [--only FORM/SOLVER,..] NETWORK..
  NETWORK is a file, or as bench/trees has them draw:SEED:NODES:LINKS:SHAPE:CAPACITIES; FORM arcs or paths; SOLVER HiGHS or CLP
"""

from __future__ import annotations

import argparse
import multiprocessing
import subprocess
import sys
import tempfile
import time
from collections.abc import Callable
from dataclasses import dataclass
from multiprocessing.connection import Connection
from pathlib import Path

ROOT = Path(__file__).resolve().parents[1]
sys.path[:0] = [str(ROOT / "python")]

import numpy as np  # noqa: E402
import numpy.typing as npt  # noqa: E402
import psutil  # noqa: E402
from scipy.optimize import linprog  # noqa: E402
from scipy.sparse import coo_matrix, csc_matrix, hstack, vstack  # noqa: E402

from mcf.lp.clp import Model, load_clp  # noqa: E402
from mcf.trees.kernel import kernel  # noqa: E402
from mcf.trees.network import network_of  # noqa: E402
from mcf.trees.plain import Plain  # noqa: E402
from mcf.trees.problem import Problem, problem_of  # noqa: E402

MEGABYTE = 1e6
# how often the memory of a program that runs is read, in seconds
LOOKS = 0.5
# the limit that a solver is told, in seconds by the clock: the process is ended long before
ENDLESS = 1e7


@dataclass(frozen=True)
class Linear:
    """Rows that may not be above, with their limits, and rows that are so, with what they are; the last column is the congestion."""

    fill: csc_matrix
    room: npt.NDArray[np.float64]
    each: csc_matrix
    right: npt.NDArray[np.float64]

    @property
    def size(self) -> str:
        """Rows, columns and entries."""
        rows, columns = self.fill.shape[0] + self.each.shape[0], self.fill.shape[1]
        return f"{rows:,} rows, {columns:,} columns, {self.fill.nnz + self.each.nnz:,} entries"


@dataclass(frozen=True)
class Measured:
    """What a program took: seconds of the processor and by the clock, megabytes at most; its size and fraction where it came to them."""

    seconds: float
    clock: float
    megabytes: float
    size: str | None
    fraction: float | None
    end: str

    @property
    def told(self) -> str:
        """The fraction, or why there is none, with what it took."""
        found = self.end if self.fraction is None else f"{self.fraction:.6f}"
        return f"{found}: {self.seconds:.0f} s of the processor, {self.clock:.0f} by the clock, {self.megabytes:,.0f} MB"


def network_file(word: str, room: Path) -> tuple[str, Path]:
    """The name and the file of a word: a file, or draw:SEED:NODES:LINKS:SHAPE:CAPACITIES, which is drawn."""
    if not word.startswith("draw:"):
        return Path(word).stem, Path(word)
    _, seed, nodes, links, shape, capacities = word.split(":")
    with open(room / "net", "wb") as file:
        words = [seed, nodes, links, "--shape", shape, "--capacities", capacities]
        subprocess.run([str(ROOT / "bench/draw"), *words], stdout=file, check=True)
    return f"{int(nodes):,}/{int(links):,}, {shape}, {capacities}, seed {seed}", room / "net"


def over_arcs(problem: Problem) -> Linear:
    """A flow of each source on each arc, and the congestion, which is to be least."""
    graph, wanted, count = problem.network.graph, problem.wanted, len(problem.roots)
    columns = np.arange(count)[:, None] * graph.arcs + np.arange(graph.arcs)
    rows = np.arange(count)[:, None] * graph.nodes
    balance = coo_matrix((np.concatenate([np.ones(columns.size), -np.ones(columns.size)]),
                          (np.concatenate([(rows + graph.head).ravel(), (rows + graph.tail).ravel()]), np.tile(columns.ravel(), 2))),
                         (count * graph.nodes, columns.size + 1)).tocsc()
    right = wanted / wanted.max()
    right[np.arange(count), problem.roots] -= right.sum(1)
    used = problem.per_unit > 0
    fill = coo_matrix((np.ones(columns.size), (np.tile(graph.cell, count), columns.ravel())), (graph.cells, columns.size)).tocsr()[used]
    within = hstack([fill, -(1 / problem.per_unit[used])[:, None] / wanted.max()]).tocsc()
    return Linear(within, np.zeros(used.sum()), balance, right.ravel())


def over_paths(problem: Problem) -> Linear:
    """The flow of each pair on four short paths: the shortest by one over the capacity, and three by lengths with factors by chance."""
    graph, wanted, search = problem.network.graph, problem.wanted, kernel() or Plain()
    root, end = np.nonzero(wanted)
    cells, owners = [], []
    draw = np.random.default_rng(1)
    for number in range(4):
        price = problem.per_unit * (1 if not number else draw.uniform(0.25, 4, graph.cells))
        before, _ = search.trees(graph, price, problem.roots, wanted)
        at, node = np.arange(len(root)), end.astype(np.int64)
        while len(at):
            arc = before[root[at], node[at]]
            at, arc = at[arc >= 0], arc[arc >= 0]
            cells.append(graph.cell[arc])
            owners.append(at + number * len(root))
            node[at] = graph.tail[arc]
    count = 4 * len(root)
    used = problem.per_unit > 0
    fill = coo_matrix((np.ones(sum(map(len, cells))), (np.concatenate(cells), np.concatenate(owners))), (graph.cells, count)).tocsr()[used]
    each = coo_matrix((np.ones(count), (np.tile(np.arange(len(root)), 4), np.arange(count))), (len(root), count))
    top = wanted.max()
    within_rows = hstack([fill, -(1 / problem.per_unit[used])[:, None] / top]).tocsc()
    return Linear(within_rows, np.zeros(used.sum()), hstack([each, csc_matrix((len(root), 1))]).tocsc(), wanted[root, end] / top)


def by_highs(linear: Linear) -> float | None:
    """The fraction by HiGHS; None where it finds no optimum."""
    cost = np.append(np.zeros(linear.fill.shape[1] - 1), 1.0)
    found = linprog(cost, linear.fill, linear.room, linear.each, linear.right, method="highs-ipm")
    return 1 / found.fun if found.status == 0 else None


def by_clp(linear: Linear) -> float | None:
    """The fraction by CLP, likewise."""
    cost = np.append(np.zeros(linear.fill.shape[1] - 1), 1.0)
    with Model(load_clp()) as model:
        model.load(vstack([linear.fill, linear.each]).tocsc(), cost, np.full(len(cost), np.inf), np.append(linear.room, linear.right),
                   np.append(np.full(len(linear.room), -np.inf), linear.right))
        return 1 / model.cost if model.solve_anew(ENDLESS) else None


FORMS: dict[str, Callable[[Problem], Linear]] = {"arcs": over_arcs, "paths": over_paths}
SOLVERS: dict[str, Callable[[Linear], float | None]] = {"HiGHS": by_highs, "CLP": by_clp}
ALL = tuple((form, solver) for form in FORMS for solver in SOLVERS)


def programs(file: Path, limit: float, which: tuple[tuple[str, str], ...] = ALL) -> list[tuple[str, str, Measured]]:
    """What the linear programs of a network take, one after the other."""
    problem = problem_of(network_of(file.read_bytes(), "undirected", "largest"))
    return [(form, solver, within(problem, form, solver, limit)) for form, solver in which]


def _solve(theirs: Connection, problem: Problem, form: str, solver: str) -> None:
    """Makes a program and solves it, and says its size and its fraction."""
    linear = FORMS[form](problem)
    theirs.send(linear.size)
    theirs.send(SOLVERS[solver](linear))


def within(problem: Problem, form: str, solver: str, limit: float) -> Measured:
    """What a program takes, in a process of its own that is ended at a limit of seconds of a processor; making the program is in them."""
    ours, theirs = multiprocessing.Pipe(duplex=False)
    process = multiprocessing.Process(target=_solve, args=(theirs, problem, form, solver))
    begun = time.monotonic()
    process.start()
    theirs.close()
    watched = psutil.Process(process.pid)
    size: str | None = None
    seconds = megabytes = 0.0
    try:
        while seconds < limit:
            clock = time.monotonic() - begun
            seconds, megabytes = sum(watched.cpu_times()[:2]), max(megabytes, watched.memory_info().rss / MEGABYTE)
            if not ours.poll(LOOKS):
                continue
            told = ours.recv()
            if size is None:
                size = told
            else:
                return Measured(seconds, clock, megabytes, size, told, "no optimum")
        return Measured(seconds, time.monotonic() - begun, megabytes, size, None, f"not done after {limit:.0f} s")
    except (EOFError, psutil.Error):
        return Measured(seconds, time.monotonic() - begun, megabytes, size, None, "ended without an answer")
    finally:
        process.kill()
        process.join()


def which_of(word: str) -> tuple[tuple[str, str], ...]:
    """The programs that a word names, FORM/SOLVER with commas between them."""
    chosen = tuple((form, solver) for form, _, solver in (one.partition("/") for one in word.split(",")))
    for one in chosen:
        if one not in ALL:
            raise argparse.ArgumentTypeError(f"{'/'.join(one)} is none of {', '.join(map('/'.join, ALL))}")
    return chosen


def main() -> None:
    """The table."""
    parser = argparse.ArgumentParser(description=__doc__, formatter_class=argparse.RawDescriptionHelpFormatter)
    parser.add_argument("networks", nargs="+", metavar="NETWORK", help="files, or draw:SEED:NODES:LINKS:SHAPE:CAPACITIES")
    parser.add_argument("--seconds", type=float, default=3600.0, help="the limit of each, of a processor (3600)")
    parser.add_argument("--only", type=which_of, default=ALL, metavar="FORM/SOLVER,..", help="these alone")
    given = parser.parse_args()
    print("| Network | Form | Solver | Size | Processor, s | Clock, s | MB | Fraction |")
    print("|---|---|---|---|---|---|---|---|")
    for word in given.networks:
        with tempfile.TemporaryDirectory() as room:
            name, file = network_file(word, Path(room))
            for one in given.only:
                [(form, solver, took)] = programs(file, given.seconds, (one,))
                found = took.end if took.fraction is None else f"{took.fraction:.6f}"
                print(f"| {name} | {form} | {solver} | {took.size or ''} | {took.seconds:.0f} | {took.clock:.0f} | {took.megabytes:,.0f} "
                      f"| {found} |", flush=True)


if __name__ == "__main__":
    main()
