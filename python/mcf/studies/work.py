"""The work on scenarios, where a worker does it: each is solved by the proved program, and judged by its check."""

from __future__ import annotations

import platform
import time
import zlib
from collections import OrderedDict
from collections.abc import Callable
from dataclasses import dataclass, replace
from fractions import Fraction
from functools import lru_cache
from typing import TypeVar

from .. import version
from ..commands import judgement_of, sentence_of
from ..errors import TextError
from ..network import Demand, Network, read_network, write_network
from ..ranges import Range
from ..scaled import ScaledNetwork, scale
from .children import Answer, Ended, Program, program
from .scenarios import Asked, Change, changed, demands_of, unpacked

KEPT = 4
FEASIBLE, REFUSED, FAILED, NOTHING = "feasible", "refused", "failed", "nothing"
_Value = TypeVar("_Value")


@dataclass(frozen=True)
class Job:
    """A scenario for a worker: what it asks, and whether its certificates, and its demands that have a way alone, are asked for too."""

    key: str
    matrix: str
    change: Change
    routing: str
    keep: bool = False
    without_cut: bool = False


@dataclass(frozen=True)
class Task:
    """Scenarios of one network for a worker, with all that they need: the network and the matrices as packed texts."""

    ground: str
    network: bytes
    matrices: dict[str, bytes]
    jobs: tuple[Job, ...]
    asked: Asked
    program: str | None = None


@dataclass(frozen=True)
class Found:
    """What is known of one network: a verdict, the line of its judge or the refusal, bounds as fractions, and the certificate.

    The certificate is packed once it is sent. The verdict is closed, open or feasible, as the line of the judge has it; or it was refused,
    or failed; or nothing was left to route. The note says how a routing by a rule falls short of the rule, as by shares that are rounded;
    None where that is not known, or there is no rule.
    """

    verdict: str
    line: str = ""
    lower: str = ""
    upper: str = ""
    certificate: bytes | None = None
    note: str | None = None

    @property
    def carries_nothing(self) -> bool:
        """Whether its bounds say that nothing is carried of some demand."""
        return bool(self.upper) and Range(Fraction(self.lower), Fraction(self.upper)).is_nothing


@dataclass(frozen=True)
class Row:
    """What is known of a scenario: of all its demands, and, where some have no way and that was asked for, of the rest."""

    key: str
    found: Found
    rest: Found | None
    left_out: tuple[str, ...]
    cut: tuple[str, ...]
    seconds: float
    place: str
    version: str


def answered(task: Task) -> list[Row]:
    """The rows of the scenarios of a task, in their order."""
    return [_row(task, job) for job in task.jobs]


def _row(task: Task, job: Job) -> Row:
    """The row of a scenario; one that gave no answer says so in its row."""
    begun = time.monotonic()
    network = changed(_network(task, job.matrix), job.change)
    found, rest, cut = _both(task, job, network.network)
    return Row(job.key, found, rest, network.left_out, cut, time.monotonic() - begun, _place(), version_told())


def _both(task: Task, job: Job, network: Network) -> tuple[Found, Found | None, tuple[str, ...]]:
    """What is known of all demands, and of the rest where some have no way; and which these are."""
    found, cut = _tried(task, job, network)
    if not cut or not job.without_cut:
        return found, None, cut
    gone = set(cut)
    left = tuple(row for row in network.demands if row.id not in gone)
    if not any(_is_wanted(row) for row in left):
        return found, Found(NOTHING), cut
    return found, _tried(task, job, replace(network, demands=left))[0], cut


def _tried(task: Task, job: Job, network: Network) -> tuple[Found, tuple[str, ...]]:
    """What is known of a network, and its demands without a way; that it has no answer where it gives none."""
    try:
        found, cut = _found(task, job.routing, network)
    except Ended as why:
        return Found(FAILED, str(why)), ()
    return _sent(found, job.keep), cut


def _sent(found: Found, keep: bool) -> Found:
    """What goes over a wire: the certificate packed, or not at all."""
    return replace(found, certificate=zlib.compress(found.certificate, 1) if keep and found.certificate is not None else None)


def _found(task: Task, routing: str, network: Network) -> tuple[Found, tuple[str, ...]]:
    """What is known of a network under a routing, and the demands that have no way.

    Where some have none, this is shown by a certificate of `mcf solve`, whichever routing is asked for.
    """
    mcf = program(task.program)
    text = write_network(network).encode("latin-1")
    if routing == "best":
        found = solved(mcf, text, task.asked)
        return found, cut_off(network, task.asked) if found.carries_nothing else ()
    cut = cut_off(network, task.asked)
    if cut:
        return solved(mcf, text, task.asked), cut
    return _otherwise(routing)(mcf, network, text, task.asked, task.ground, routing), ()


def _otherwise(routing: str) -> Callable[[Program, Network, bytes, Asked, str, str], Found]:
    """What makes a routing that is not that of `mcf solve`; imported where it is asked for, since it takes long."""
    if routing == "exact":
        from .exact import exact
        return exact
    from .rules import by_rule
    return by_rule


def scaled_of(network: Network, asked: Asked) -> ScaledNetwork | None:
    """A network in units; None where it is refused, or has nothing to carry, of which `mcf solve` then tells."""
    try:
        scaled = scale(network, asked.links, asked.modules)
    except TextError:
        return None
    return scaled if scaled.commodities else None


def solved(mcf: Program, text: bytes, asked: Asked) -> Found:
    """What `mcf solve` finds, once `mcf check` has judged it."""
    answer = mcf.run("solve", asked.solve_words, text)
    return judged(mcf, text, answer.data) if answer.status in (0, 1) else refused("solve", answer, text)


def judged(mcf: Program, text: bytes, certificate: bytes) -> Found:
    """A certificate or routing with its bounds, as the line of `mcf check` has them; Ended where it is not called valid or feasible."""
    answer = mcf.run("check", (), text, certificate)
    judgement = judgement_of(answer.line, Fraction(1)) if answer.status == 0 else None
    if not judgement:
        raise Ended(f"mcf check says: {answer.line or f'status {answer.status}'}")
    verdict = {True: "closed", False: "open", None: FEASIBLE}[judgement.closed]
    upper = "" if judgement.upper is None else str(judgement.upper)
    return Found(verdict, answer.line, str(judgement.lower), upper, certificate)


def refused(command: str, answer: Answer, text: bytes) -> Found:
    """A refusal of the program with what it means; Ended where a file was not read or written, TextError where the words are wrong."""
    if answer.status == 3:
        return Found(REFUSED, f"{answer.line}: {sentence_of(answer.line, command, {'net': text}, answer.program)}")
    if answer.status == 2:
        raise TextError(f"mcf {command} does not take these options")
    raise Ended(f"mcf {command} says: {answer.line or f'status {answer.status}'}")


def cut_off(network: Network, asked: Asked) -> tuple[str, ...]:
    """The demands of an amount that have no way over links with capacity."""
    after: dict[str, list[str]] = {}
    for link in network.links:
        if link.installed(asked.modules):
            after.setdefault(link.source, []).append(link.target)
            if asked.links != "directed":
                after.setdefault(link.target, []).append(link.source)
    reach: dict[str, set[str]] = {}
    found = []
    for row in network.demands:
        if row.source not in reach:
            reach[row.source] = _reached(after, row.source)
        if row.target not in reach[row.source] and _is_wanted(row):
            found.append(row.id)
    return tuple(found)


def _is_wanted(row: Demand) -> bool:
    """Whether a demand is one: of an amount, between two nodes."""
    return row.source != row.target and row.amount > 0


def _reached(after: dict[str, list[str]], source: str) -> set[str]:
    """The nodes that are reached from a node."""
    found, stack = {source}, [source]
    while stack:
        for other in after.get(stack.pop(), ()):
            if other not in found:
                found.add(other)
                stack.append(other)
    return found


_grounds: OrderedDict[str, Network] = OrderedDict()
_demands: OrderedDict[str, tuple[Demand, ...]] = OrderedDict()


def _network(task: Task, matrix: str) -> Network:
    """The network with the demands of a matrix; those that were read last are kept."""
    ground = _kept(_grounds, task.ground, lambda: read_network(unpacked(task.network)))
    demands = _kept(_demands, matrix, lambda: demands_of(unpacked(task.matrices[matrix])))
    return replace(ground, demands=demands)


def _kept(known: OrderedDict[str, _Value], key: str, made: Callable[[], _Value]) -> _Value:
    """A value that is made once and kept while it is among the last ones."""
    value = known.pop(key) if key in known else made()
    known[key] = value
    while len(known) > KEPT:
        known.popitem(last=False)
    return value


@lru_cache(maxsize=1)
def version_told() -> str:
    """The version and the commit, asked for once."""
    return version.told()


@lru_cache(maxsize=1)
def _place() -> str:
    """The name of this machine."""
    return platform.node()
