"""A whole study: what is not done yet is done, and kept as it comes."""

from __future__ import annotations

import zlib
from collections.abc import Callable, Iterator, Sequence
from dataclasses import dataclass, field, replace
from itertools import islice

from tqdm import tqdm

from ..errors import TextError
from ..given import name_of
from ..network import read_network, write_network
from .children import Ended, Program, program
from .engine import Engine, Gone, engine_of
from .scenarios import Change, Changed, Plan, Scenario, changed, demands_of, packed
from .store import Due, Store, Wanted
from .work import FAILED, Found, Job, Row, Task, cut_off, judged

_AT_ONCE = 2000


@dataclass(frozen=True)
class Place:
    """Where a study runs: so many processes of this machine, or a scheduler's workers; with which program there, and with which here."""

    jobs: int = 1
    scheduler: str | None = None
    program: str | None = None
    here: str | None = None
    quiet: bool = False


@dataclass
class Left:
    """The scenarios that are not done, as tasks; what is on its way is kept by its key until its row comes."""

    plan: Plan
    store: Store
    wanted: Wanted
    program: str | None
    sent: dict[str, Scenario] = field(default_factory=dict)
    _source: Iterator[Due] | None = None
    _packed: dict[str, bytes] = field(default_factory=dict)

    def next(self, most: int) -> Task | None:
        """The next task, of at most so many scenarios."""
        source = self._source = self._source or _left(self.plan, self.store, self.wanted)
        taken = list(islice(source, most))
        if not taken:
            return None
        matrices = {due.scenario.matrix.digest for due in taken}
        self._packed = {digest: self._packed.get(digest) or packed(self.store.text(digest)) for digest in matrices}
        self.sent |= {due.scenario.key: due.scenario for due in taken}
        ground = self.plan.ground
        return Task(ground.digest, ground.packed, dict(self._packed), tuple(map(_job, taken)), self.plan.asked, self.program)


def _job(due: Due) -> Job:
    """What a worker is asked."""
    one = due.scenario
    return Job(one.key, one.matrix.digest, one.change, one.routing, due.keep, due.without_cut)


def _left(plan: Plan, store: Store, wanted: Wanted) -> Iterator[Due]:
    """The scenarios that are not done; those that ask the same are one."""
    for part in parts(plan.once()):
        yield from store.left(part, wanted)


def parts(plan: Plan) -> Iterator[list[Scenario]]:
    """The scenarios of a plan in parts."""
    source = iter(plan)
    while part := list(islice(source, _AT_ONCE)):
        yield part


def run(plan: Plan, store: Store, wanted: Wanted, place: Place, say: Callable[[str], None]) -> None:
    """Does what is left of a study. TextError where it cannot go on; what was done stands in the store."""
    store.keep_texts([(plan.ground.digest, plan.ground.text)])
    if wanted.recheck:
        _judge_kept(plan, store, wanted, place)
    left = sum(1 for _ in _left(plan, store, wanted))
    if not left:
        return
    tasks = Left(plan, store, wanted, place.program)
    with tqdm(total=left, unit=" scenarios", disable=True if place.quiet else None, smoothing=0.05) as bar:
        with engine_of(min(place.jobs, left), place.scheduler, place.program, say) as engine:
            try:
                _work(engine, tasks, left, place, bar)
            except Gone as why:
                raise TextError(f"{why}; what was done stands in {store.path}") from None


def _judge_kept(plan: Plan, store: Store, wanted: Wanted, place: Place) -> None:
    """Judges here what is kept and lacks nothing else, so that nothing of it is solved again; whatever the file says was judged before."""
    tasks = Left(plan, store, wanted, place.program)
    for part in parts(plan.once()):
        store.forget_judged(part)
        for scenario in store.unchecked(part, wanted):
            tasks.sent[scenario.key] = scenario
            _take([store.rows([scenario.key], certificates=True)[scenario.key].row], tasks, place)


def _work(engine: Engine, tasks: Left, left: int, place: Place, bar: tqdm[None]) -> None:
    """Does what is left, and tells how far it is."""
    for rows in engine.rows(tasks, left):
        _take(rows, tasks, place)
        bar.update(len(rows))
        bar.set_postfix(workers=engine.workers, refresh=False)


def _take(rows: list[Row], tasks: Left, place: Place) -> None:
    """Keeps the rows of a task, judged again where that is asked for."""
    if tasks.wanted.recheck:
        for row in rows:
            _recheck(row, tasks, place)
    kept = [(tasks.sent.pop(row.key), row, tasks.wanted.recheck) for row in rows]
    tasks.store.add(kept, tasks.plan.ground.digest, tasks.plan.asked)


def _recheck(row: Row, tasks: Left, place: Place) -> None:
    """Judges what a worker handed over by the program of this machine; TextError where it says something else."""
    scenario, mcf = tasks.sent[row.key], program(place.here)
    network = network_of(tasks.store, tasks.plan.ground.digest, scenario.matrix.digest, scenario.change)
    who = f"scenario {row.key}: {row.place or 'a worker'} says"
    cut = cut_off(network.network, tasks.plan.asked) if row.found.lower else row.cut
    if (row.left_out, row.cut) != (network.left_out, cut):
        raise TextError(f"{who} that demands {_named(row.cut)} have no way and {_named(row.left_out)} are left out, and the check here that these "
                        f"are {_named(cut)} and {_named(network.left_out)}")
    for found, one in ((row.found, network.network), (row.rest, network.without(row.cut))):
        if found is not None and (found.lower or found.upper or found.certificate is not None):
            here = _judged_here(mcf, write_network(one), found)
            if here != replace(found, certificate=None, note=None):
                raise TextError(f"{who} {found.line!r}, bounds {found.lower} and {found.upper or 'none'}, and the check here {here.line!r}")


def _named(demands: Sequence[str]) -> str:
    """Some demands by their names."""
    return ", ".join(map(name_of, demands)) or "none"


def _judged_here(mcf: Program, text: str, found: Found) -> Found:
    """What the check of this machine says of a certificate."""
    try:
        return replace(judged(mcf, text.encode("latin-1"), zlib.decompress(found.certificate or b"")), certificate=None)
    except (Ended, zlib.error) as why:
        return Found(FAILED, str(why))


def network_of(store: Store, ground: str, matrix: str, change: Change) -> Changed:
    """The network of a scenario, from the texts that are kept."""
    network = read_network(store.text(ground))
    return changed(replace(network, demands=demands_of(store.text(matrix))), change)
