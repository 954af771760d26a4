"""Which form a certificate is made in, by how many rows the linear programs have, and by which program it is judged."""

from __future__ import annotations

from dataclasses import dataclass

from mcf import Program, TextError
from mcf.limits import MAX_LINKS, NARROW, WIDE, WIDE_NAME
from mcf.output import contents
from mcf.program import find_wide_program

from .network import Large, network_of
from .problem import Problem, problem_of
from .reading import Odd

FORMS = ("trees", "paths")
FEWER = 16
"""By how many times fewer rows the program over trees has where it is taken."""


@dataclass(frozen=True)
class Chosen:
    """The program, and the problem where trees are the form; what is said of that."""

    program: Program
    problem: Problem | None = None
    said: str | None = None


def chosen(program: Program, net: str, links: str, modules: str, form: str | None, trees: bool) -> Chosen:
    """The form for a network, or the one that is asked for; `trees` says whether trees can be one. What is wrong with a text, the program
    over paths then tells."""
    try:
        # (`-` is no network's file for the program)
        data = b"" if net == "-" else contents(net)
        network = network_of(data, links, modules)
    except (Odd, TextError):
        return Chosen(program)
    judge = _judge(program, network, len(data))
    del data
    if not trees or form == "paths":
        return Chosen(judge)
    if not len(network.source):
        raise TextError(f"{net}: no demand of an amount between two nodes, so there is nothing to carry")
    problem = problem_of(network)
    rows = problem.pairs + len(network.capacity), len(problem.roots) + len(network.capacity)
    if form is None and rows[0] < FEWER * rows[1]:
        return Chosen(judge)
    return Chosen(judge, problem, f"by trees of sources: {rows[1]:,} rows, where paths of pairs have {rows[0]:,}")


def _judge(program: Program, network: Large, size: int) -> Program:
    """The program, or that with wide limits where the network is beyond the other's."""
    counts = network.counts
    demands = counts.commodities + counts.left
    fits = counts.nodes <= NARROW.nodes and demands <= NARROW.demands and size <= NARROW.net_bytes
    if fits and len(network.capacity) <= 2 * MAX_LINKS:
        return program
    wide = find_wide_program(program)
    if wide is None:
        raise TextError(f"{counts.nodes:,} nodes and {demands:,} demands are beyond the limits of {program.path}, {NARROW.nodes:,} and "
                        f"{NARROW.demands:,}; {WIDE_NAME} takes {WIDE.nodes:,} and {WIDE.demands:,}: MCF_WIDE names one")
    return wide
