"""Where a study runs: in this process, on processes of this machine, or on a cluster of Dask that is there already."""

from __future__ import annotations

import asyncio
import contextlib
import logging
import os
import sys
import tempfile
import time
from collections.abc import Callable, Iterator
from dataclasses import dataclass, field, replace
from typing import TYPE_CHECKING, Any, Protocol
from uuid import uuid4

from ..children import HeldSignals
from ..errors import TextError
from ..needs import needed
from .children import end_all
from .work import FAILED, Found, Job, Row, Task, answered, version_told

if TYPE_CHECKING:
    from distributed import Client, Future

SECONDS_A_TASK = 0.5
IN_FLIGHT = 4
MOST_JOBS = 500
DEATHS = 3
PATIENCE = 30.0
"""How many seconds a worker of this machine may be away before another one takes its place; each time twice as many."""

HURRY = 5.0
"""How many seconds of the start of workers an interrupt waits for."""

_LOOK = 2.0
_NEVER = logging.CRITICAL + 1
_QUIET = ("distributed", "asyncio", "tornado", "bokeh")


class Gone(TextError):
    """A scheduler that ended amid the work."""


class Tasks(Protocol):
    """What cuts scenarios into tasks."""

    def next(self, most: int) -> Task | None:
        """The next task, of at most so many scenarios; None behind the last one."""


@dataclass
class Pace:
    """How many scenarios make a task of about half a second."""

    seconds: float | None = None

    def took(self, rows: int, seconds: float) -> None:
        """Takes how long so many scenarios took."""
        each = seconds / max(1, rows)
        self.seconds = each if self.seconds is None else 0.7 * self.seconds + 0.3 * each

    def jobs(self, workers: int, left: int) -> int:
        """How many scenarios the next task has: near the end so few that all workers have some."""
        wanted = 1 if self.seconds is None else int(SECONDS_A_TASK / max(self.seconds, 1e-6))
        return max(1, min(wanted, MOST_JOBS, -(-left // (2 * workers))))


class Engine(Protocol):
    """Does tasks, and hands out their rows as they come."""

    @property
    def workers(self) -> int:
        """How many tasks are done at a time."""

    def rows(self, tasks: Tasks, left: int) -> Iterator[list[Row]]:
        """The rows of all tasks, task by task."""


@dataclass
class Alone:
    """This process does all, one task after the other."""

    pace: Pace = field(default_factory=Pace)
    workers: int = 1

    def rows(self, tasks: Tasks, left: int) -> Iterator[list[Row]]:
        """The rows of all tasks."""
        try:
            while (task := tasks.next(self.pace.jobs(1, left))) is not None:
                begun = time.monotonic()
                rows = answered(task)
                self.pace.took(len(rows), time.monotonic() - begun)
                left -= len(rows)
                yield rows
        finally:
            end_all()


@dataclass
class Staff:
    """The workers of a cluster of this machine, each of which a nanny of Dask starts again where it dies.

    A nanny may wait for ever, for a worker that was killed while it started. So one whose worker is away for long gives way to another.
    """

    cluster: Any
    jobs: int
    patience: float = PATIENCE
    _away: dict[object, float] = field(default_factory=dict)
    _closing: set[object] = field(default_factory=set)
    _looked: float = 0.0

    @property
    def there(self) -> set[object]:
        """The names of the workers that the scheduler knows."""
        # (a list first: the loop of the cluster changes it meanwhile)
        return {worker["name"] for worker in list(self.cluster.scheduler_info["workers"].values())}

    def mend(self) -> None:
        """Replaces the workers that are away for long; called again and again."""
        now = time.monotonic()
        if now - self._looked < _LOOK:
            return
        self._looked = now
        away = {*self.cluster.worker_spec} - self.there
        self._away = {name: self._away.get(name, now) for name in away}
        if lost := [name for name, since in self._away.items() if now - since > self.patience]:
            self.patience *= 2
            self._away.clear()
            with contextlib.suppress(Exception):
                self.cluster.sync(self._replace, lost)

    async def _replace(self, lost: list[object]) -> None:
        """New workers in the place of these; on the loop of the cluster."""
        for name in lost:
            self.cluster.worker_spec.pop(name, None)
            self.cluster.workers.pop(name, None)
        for nanny in _nannies(self.cluster):
            if nanny.name in lost:
                _kill(nanny)
                self._closing.add(asyncio.ensure_future(nanny.close(timeout=2)))
        self.cluster.scale(self.jobs)


@dataclass
class Spread:
    """Workers of Dask do all; what is done is let go of at once, since Dask does again what is still held where a worker dies."""

    client: Client
    name: str
    staff: Staff | None = None
    pace: Pace = field(default_factory=Pace)
    _flying: dict[str, Task] = field(default_factory=dict)
    _looked: float = 0.0
    _threads: int = 0

    @property
    def workers(self) -> int:
        """How many threads all workers have, as they were a moment ago."""
        if time.monotonic() - self._looked > _LOOK:
            self._looked = time.monotonic()
            with contextlib.suppress(OSError, RuntimeError, AttributeError):
                self._threads = sum(worker["nthreads"] for worker in self.client.scheduler_info()["workers"].values())
        return self._threads

    def rows(self, tasks: Tasks, left: int) -> Iterator[list[Row]]:
        """The rows of all tasks, in the order in which they come."""
        from distributed import as_completed
        running = as_completed(loop=self.client.loop, with_results=True, raise_errors=False)
        more = True
        while more or self._flying:
            while more and len(self._flying) < IN_FLIGHT * max(1, self.workers):
                task = tasks.next(self.pace.jobs(max(1, self.workers), left))
                more = task is not None
                if task is not None:
                    running.add(self._sent(task))
            if not self._flying:
                break
            future, result = self._next(running)
            for rows in self._taken(future, result, running):
                left -= len(rows)
                yield rows

    def _next(self, running: Any) -> tuple[Future, Any]:
        """The next future that is done; Gone where the scheduler is, of which not all futures tell."""
        while not running.has_ready():
            self._require_scheduler()
            if self.staff is not None:
                self.staff.mend()
            with running.thread_condition:
                running.thread_condition.wait(timeout=0.1)
        found: tuple[Future, Any] = next(running)
        return found

    def _require_scheduler(self) -> None:
        """Gone where the scheduler is."""
        if self.client.status != "running":
            raise Gone(f"the scheduler at {self.name} is gone")

    def _sent(self, task: Task) -> Future:
        """The future of a task."""
        future = self.client.submit(_timed, task, pure=False, key=f"mcf-study-{uuid4().hex}")
        self._flying[future.key] = task
        return future

    def _taken(self, future: Future, result: Any, running: Any) -> Iterator[list[Row]]:
        """The rows of a future that is done. A task on which workers died is done again one scenario at a time, to know which it is."""
        task = self._flying.pop(future.key)
        status = future.status
        future.release()
        if isinstance(result, Done):
            # (whatever became of its future since)
            self.pace.took(len(result.rows), result.seconds)
            yield result.rows
        elif status == "error" and _is_death(result[1]):
            if len(task.jobs) == 1:
                yield [_failed(task, f"its worker died {DEATHS + 1} times on it")]
            for job in task.jobs if len(task.jobs) > 1 else ():
                running.add(self._sent(_only(task, job)))
        elif status == "error":
            raise TextError(_why(result[1]))
        else:
            # (it was lost with the worker that had it)
            self._require_scheduler()
            running.add(self._sent(task))


@dataclass(frozen=True)
class Done:
    """The rows of a task, and how long it took."""

    rows: list[Row]
    seconds: float


def _timed(task: Task) -> Done:
    """The rows of a task, and how long it took; run by a worker."""
    begun = time.monotonic()
    rows = answered(task)
    return Done(rows, time.monotonic() - begun)


def _is_death(error: BaseException) -> bool:
    """Whether Dask gave up since workers died."""
    return type(error).__name__ == "KilledWorker"


def _why(error: BaseException) -> str:
    """What a worker's error is for people."""
    if isinstance(error, TextError):
        return f"a worker says: {error}"
    if isinstance(error, ImportError):
        return f"a worker lacks what a study needs: {error}; install the wheel there"
    return f"a worker failed: {type(error).__name__}: {error}"


def _failed(task: Task, why: str) -> Row:
    """The row of a scenario that has no answer."""
    return Row(task.jobs[0].key, Found(FAILED, why), None, (), (), 0.0, "", version_told())


def _only(task: Task, job: Job) -> Task:
    """A task of one of its scenarios."""
    return replace(task, jobs=(job,))


@contextlib.contextmanager
def engine_of(jobs: int, scheduler: str | None, program: str | None, say: Callable[[str], None]) -> Iterator[Engine]:
    """The engine that is asked for: a scheduler's workers, else so many processes, and this one alone where that is one."""
    if scheduler is None and jobs == 1:
        yield Alone()
        return
    with needed():
        import distributed  # noqa: F401 (it sets the levels of its logs when it is imported)
    with _quietly(), _cluster(jobs) if scheduler is None else contextlib.nullcontext() as cluster:
        with _client(cluster.scheduler_address if cluster is not None else scheduler) as client:
            engine = Spread(client, scheduler or "127.0.0.1", Staff(cluster, jobs) if cluster is not None else None)
            if scheduler is not None:
                _await_workers(client, scheduler, program, say)
            yield engine


@contextlib.contextmanager
def _quietly() -> Iterator[None]:
    """What Dask logs is not shown: what is to be said is said by one line, also where it logs after the end of a scheduler."""
    names = [name for name in (*_QUIET, *logging.root.manager.loggerDict) if name.split(".")[0] in _QUIET]
    before = {name: logging.getLogger(name).level for name in names}
    for name in names:
        logging.getLogger(name).setLevel(_NEVER)
    yield
    for name, level in before.items():
        logging.getLogger(name).setLevel(level)


@contextlib.contextmanager
def _cluster(jobs: int) -> Iterator[Any]:
    """So many worker processes of this machine, of one thread each; nothing of them is open to another machine."""
    with needed():
        import dask
        from distributed import LocalCluster
    # (workers hold next to nothing, and a machine that others fill is no reason to stop)
    settings: dict[str, object] = {f"distributed.worker.memory.{name}": False for name in ("terminate", "pause", "spill", "target")}
    settings["distributed.worker.preload"] = ["mcf.studies.quiet"]
    # (else Dask closes the nanny of a worker that is away for 15 seconds, as on a busy machine, and starts no other one: `Staff` does)
    settings["distributed.deploy.lost-worker-timeout"] = "1 day"
    quiet = _variable("DASK_DISTRIBUTED__LOGGING__DISTRIBUTED", "critical")
    with dask.config.set(settings), quiet, _main_hidden(), tempfile.TemporaryDirectory(prefix="mcf-study-") as room:
        # (an interrupt while workers start would leave some of them behind, which say so)
        signals = HeldSignals()
        try:
            # (workers are started later, since this waits for all of them, and for ever for one that is killed meanwhile)
            cluster = LocalCluster(n_workers=0, threads_per_worker=1, processes=True, host="127.0.0.1",
                                   dashboard_address="127.0.0.1:0", worker_dashboard_address="127.0.0.1:0",
                                   silence_logs=_NEVER, local_directory=room,
                                   env={"DASK_DISTRIBUTED__LOGGING__DISTRIBUTED": "critical"})
        except (OSError, RuntimeError) as fault:
            signals.let_go()
            raise TextError(f"workers could not be started: {fault or type(fault).__name__}") from None
        try:
            cluster.scale(jobs)
            _await_all(Staff(cluster, jobs), signals)
            signals.let_go()
            yield cluster
        finally:
            _end(cluster)
            signals.let_go()


@contextlib.contextmanager
def _variable(name: str, value: str) -> Iterator[None]:
    """A variable of the environment for a while: what workers are told by `env` alone they read too late."""
    before = os.environ.get(name)
    os.environ[name] = value
    try:
        yield
    finally:
        if before is None:
            del os.environ[name]
        else:
            os.environ[name] = before


def _end(cluster: Any) -> None:
    """Ends the workers at once, also amid a scenario."""
    with contextlib.suppress(Exception):
        for nanny in _nannies(cluster):
            _kill(nanny)
    with contextlib.suppress(Exception):
        cluster.close(timeout=10)


def _await_all(staff: Staff, signals: HeldSignals) -> None:
    """Waits until all workers are there, or as long as they mostly need; an interrupt waits for a few seconds alone."""
    begun = time.monotonic()
    while len(staff.there) < staff.jobs and time.monotonic() - begun < (HURRY if signals.came else staff.patience):
        time.sleep(0.02)


def _nannies(cluster: Any) -> list[Any]:
    """The nannies of a cluster, those that start a worker still too."""
    return list({*getattr(cluster, "_created", ()), *cluster.workers.values()})


def _kill(nanny: Any) -> None:
    """Ends the process of a nanny's worker, if there is one, and lets it start no other one."""
    nanny.auto_restart = False
    process = getattr(nanny.process, "process", None)
    if process is not None and process.pid:
        with contextlib.suppress(ProcessLookupError):
            process._process.kill()


@contextlib.contextmanager
def _main_hidden() -> Iterator[None]:
    """Hides the script that runs: processes that Python starts anew would run it as well."""
    main = sys.modules["__main__"]
    hidden = {name: main.__dict__.pop(name) for name in ("__file__",) if name in main.__dict__}
    spec, main.__spec__ = main.__spec__, None
    try:
        yield
    finally:
        main.__dict__.update(hidden)
        main.__spec__ = spec


@contextlib.contextmanager
def _client(address: str | None) -> Iterator[Client]:
    """A client of a scheduler; TextError where there is none."""
    with needed():
        from distributed import Client
    try:
        client = Client(address, timeout=10, set_as_default=False)
    except (OSError, ValueError) as fault:
        raise TextError(f"there is no scheduler at {address}: {str(fault).splitlines()[0] if str(fault) else 'no answer'}") from None
    try:
        yield client
    finally:
        with contextlib.suppress(Exception):
            client.close(timeout=2)


def _await_workers(client: Client, address: str, path: str | None, say: Callable[[str], None]) -> None:
    """Waits for a worker, and asks all that are there for their version and their program; TextError where one cannot work."""
    told = False
    while not client.scheduler_info()["workers"]:
        if client.status != "running":
            raise TextError(f"the scheduler at {address} is gone")
        if not told:
            say(f"no workers yet at {address}: waiting for one")
        told = True
        time.sleep(0.5)
    try:
        versions = client.run(_ready, path, on_error="return")
    except OSError:
        raise TextError(f"the scheduler at {address} is gone") from None
    for worker, answer in versions.items():
        if isinstance(answer, BaseException):
            raise TextError(f"{worker}: {_why(answer)}")
    others = {answer for answer in versions.values() if answer != version_told()}
    if others:
        say(f"workers have mcf {', '.join(sorted(others))}, and this is {version_told()}; each row names its own")


def _ready(path: str | None) -> str:
    """The version of a worker, once it has found its program; run by a worker."""
    from ..program import find_program
    find_program(path)
    return version_told()
