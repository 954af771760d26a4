"""The text of a certificate in pieces, from arrays."""

from __future__ import annotations

from collections.abc import Iterator

import numpy as np

from mcf.certificate import Certificate, write_certificate
from mcf.lp.arrays import Array
from mcf.lp.build import with_gap
from mcf.numbers import rounded_down, rounded_up

from .bound import FAR, WholeBound
from .kernel import Kernel
from .network import Large
from .pool import Search, Trees
from .problem import Problem
from .rows import PathRows

_SOME = 4096


def header_of(network: Large, lower: tuple[int, int], upper: tuple[int, int], phases: int, scale: tuple[int, int], gap: int | None
              ) -> Certificate:
    """A certificate without rows, with its verdict; `gap` is what is wanted, in millionths."""
    certificate = Certificate(2, network.links, network.modules, phases, *scale, counts=network.counts, lower=lower,
                              lower_millionths=rounded_down(*lower), upper=upper, upper_millionths=rounded_up(*upper))
    return with_gap(certificate, gap)


def certificate_text(problem: Problem, search: Search, trees: Trees, rows: PathRows, bound: WholeBound, gap: int | None) -> Iterator[bytes]:
    """The text of paths and a bound."""
    network = problem.network
    lower = rows.phases * rows.capacity, rows.load
    head = header_of(network, lower, (bound.above, bound.below), rows.phases, (rows.capacity, rows.load), gap)
    yield _front(head)
    if isinstance(search, Kernel):
        yield from search.lines(network.graph, network.words, trees.before, network.ids.some(rows.commodity), rows.tree,
                                problem.end[rows.commodity], problem.turned[rows.commodity], rows.weight)
    else:
        yield from path_lines(problem, trees, rows)
    yield from _bound_lines(network, bound, FAR)


def cut_text(network: Large, reached: Array, sources: Array, gap: int | None) -> Iterator[bytes]:
    """The text where some demand has no way: `reached` has a row for each source."""
    potentials = np.where(reached, 0, 1)
    row = np.searchsorted(sources, network.source)
    apart = int(network.amount[potentials[row, network.target] == 1].sum())
    yield _front(header_of(network, (0, 1), (0, apart), 0, (0, 1), gap))
    bound = WholeBound(np.zeros(len(network.capacity), np.int64), sources, potentials, 0, apart)
    yield from _bound_lines(network, bound, 1)


def _front(head: Certificate) -> bytes:
    """The lines before all rows."""
    return write_certificate(head).encode("latin-1").removesuffix(b"end\n")


def _bound_lines(network: Large, bound: WholeBound, closed: int) -> Iterator[bytes]:
    """Lengths, those of cells without capacity as is said, potentials, and the end."""
    rows = zip(network.words, bound.lengths.tolist(), network.capacity.tolist())
    yield b"".join(b"length %b %d\n" % (word, length if capacity else closed) for word, length, capacity in rows)
    for source, row in zip(bound.sources.tolist(), bound.potentials):
        yield b"potential %b %b\n" % (network.nodes[source], " ".join(map(str, row.tolist())).encode())
    yield b"end\n"


def path_lines(problem: Problem, trees: Trees, rows: PathRows) -> Iterator[bytes]:
    """The lines of paths; of a few rows at a time."""
    network = problem.network
    for at in range(0, len(rows.weight), _SOME):
        some = slice(at, at + _SOME)
        cells, counts = walks(problem, trees, rows.tree[some], rows.commodity[some])
        words = [network.words[cell] for cell in cells.tolist()]
        ends = np.cumsum(counts).tolist()
        lines, begun = [], 0
        for commodity, weight, end in zip(rows.commodity[some].tolist(), rows.weight[some].tolist(), ends):
            lines.append(b" ".join([b"path", network.ids.word(commodity), b"%d" % weight, *words[begun:end]]))
            begun = end
        yield b"\n".join([*lines, b""])


def walks(problem: Problem, trees: Trees, tree: Array, commodity: Array) -> tuple[Array, Array]:
    """The cells of paths, in the order in which their commodities go over them, one path behind the other, and how many each has."""
    graph = problem.network.graph
    node, turned = problem.end[commodity].astype(np.int64), problem.turned[commodity]
    cells, of = [], []
    at = np.arange(len(tree))
    while len(at):
        arc = trees.before[tree[at], node[at]]
        on = arc >= 0
        at, arc = at[on], arc[on]
        cells.append(graph.cell[arc])
        of.append(at)
        node[at] = graph.tail[arc]
    steps = np.repeat(np.arange(len(of)), [len(some) for some in of])
    path, cell = np.concatenate(of), np.concatenate(cells)
    # (found from the far end: a path that goes from the root has them the other way round)
    order = np.lexsort((np.where(turned[path], steps, -steps), path))
    return cell[order], np.bincount(path, minlength=len(tree))
