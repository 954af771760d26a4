"""The kinds of certificates, by the command of `mcf` that writes them: which paths are allowed, and what is sought."""

from __future__ import annotations

from dataclasses import dataclass
from fractions import Fraction
from typing import Callable, Protocol

from scipy.sparse import csc_matrix

from mcf import ScaledNetwork, read_certificate, read_hops, read_throughput
from mcf.certificate import Certificate, HopCertificate, TotalCertificate

from .arrays import Array
from .path_lp import FractionProgram, PathProgram
from .prices import Bounds, TotalBounds
from .problem import Arcs, Pairs, pairs_of
from .rounding import Rounding, Whole
from .search import AllPaths, Search, WithinLimits
from .total_lp import TotalProgram
from .total_rounding import TotalRounding


class Rounds(Protocol):
    """Makes whole numbers of flows."""

    def __init__(self, matrix: csc_matrix, pair: Array, amounts: list[int], capacities: list[int], flows: Array) -> None:
        """`matrix` says which cells each path has, each once."""

    def best(self, aim: Fraction, enough: Fraction, deadline: float) -> Whole:
        """The weights that carry most, of those that were tried until enough is carried or the deadline comes."""


@dataclass(frozen=True)
class Kind:
    """A kind of certificates: its command with the words that go before all options, and how it is made.

    `limited` says whether demands keep their limits of hops, `each` whether one fraction of each demand has to be carried.
    """

    command: str
    words: tuple[str, ...]
    certificate: type[Certificate]
    read: Callable[[str], Certificate]
    limited: bool
    each: bool
    search: Callable[[Pairs, Arcs], Search]
    program: type[PathProgram]
    bounds: type[Bounds]
    rounding: type[Rounds]

    @property
    def judge(self) -> str:
        """The command that judges a certificate."""
        return self.certificate.judge

    def pairs(self, scaled: ScaledNetwork) -> Pairs:
        """The pairs of a network."""
        return pairs_of(scaled, scaled.limits if self.limited else None)


SOLVE = Kind("solve", ("--workers", "1"), Certificate, read_certificate, False, True, AllPaths, FractionProgram, Bounds, Rounding)
HOPS = Kind("hops", (), HopCertificate, read_hops, True, True, WithinLimits, FractionProgram, Bounds, Rounding)
THROUGHPUT = Kind("throughput", (), TotalCertificate, read_throughput, False, False, AllPaths, TotalProgram, TotalBounds, TotalRounding)

KINDS = {kind.command: kind for kind in (SOLVE, HOPS, THROUGHPUT)}
