"""What becomes of the fraction where one link fails, where one is doubled, and where all demands grow."""

from __future__ import annotations

import os
import re
import sys
import tempfile
import time
from collections.abc import Iterable, Iterator
from concurrent.futures import Future, ThreadPoolExecutor
from contextlib import contextmanager
from dataclasses import dataclass, replace
from fractions import Fraction
from itertools import compress
from pathlib import Path

from tqdm import tqdm

from mcf import Link, Program, TextError, save_text, write_network
from mcf.network import Network

from ..children import end_all, run
from ..judged import Judged, judge
from ..limits import MAX_UNITS
from ..ranges import Range, in_order
from ..report.figures import Figures

# The links of one script: with the longest names it stays below the 1 MiB that scripts may have.
AT_ONCE = 1000
SHOW = re.compile(r"^show lower (\d+)/(\d+) \S+ upper (\d+)/(\d+) \S+$", re.ASCII | re.MULTILINE)
SWEEP = re.compile(
    r"^sweep (\S+) (?:(?:closed|open) phases \d+ )?lower (\d+)/(\d+) \S+ upper (\d+)/(\d+) \S+$", re.ASCII | re.MULTILINE
)


@dataclass(frozen=True)
class Case:
    """What one change of a link does: with the certificate's own paths and bound, and routed anew."""

    kind: str
    link: Link
    capacity: Fraction
    kept: Range
    routed: Range

    @property
    def range(self) -> Range:
        """What is known of the fraction after the change."""
        return self.routed


@dataclass(frozen=True)
class Settings:
    """How a survey is made."""

    growth: Fraction = Fraction(1)
    solver: str = "solve"
    jobs: int = 1
    options: tuple[str, ...] = ()
    quiet: bool = False
    gap: Fraction | None = None

    @property
    def solves(self) -> bool:
        """Whether each case is routed anew."""
        return self.solver != "none"


@dataclass(frozen=True)
class Survey:
    """All cases of a kind, in the order in which they matter; `left` are links whose capacity cannot be doubled within the limits."""

    figures: Figures
    kind: str
    base: Range
    cases: tuple[Case, ...]
    settings: Settings
    left: tuple[Link, ...] = ()


@dataclass(frozen=True)
class Ground:
    """What a survey stands on: the files, their figures and the program."""

    program: Program
    net: str
    certificate: str
    figures: Figures
    judgement: Judged

    @property
    def base(self) -> Range:
        """The bounds of the network as it is, by the certificate."""
        try:
            return self.judgement.range
        except TextError as why:
            raise TextError(f"{self.certificate}: {why}") from None

    @property
    def links(self) -> tuple[Link, ...]:
        """The links of the network."""
        return self.figures.scaled.network.links

    def installed(self, link: Link) -> Fraction:
        """A link's capacity, modules included."""
        return link.installed(self.figures.scaled.modules)

    def within_limits(self, factor: int) -> tuple[tuple[Link, ...], tuple[Link, ...]]:
        """The links whose capacity times a factor is within the limits of the program, and the others."""
        most = self.figures.scaled.in_file_unit(MAX_UNITS)
        fitting = [self.installed(link) * factor <= most for link in self.links]
        return tuple(compress(self.links, fitting)), tuple(link for link, fits in zip(self.links, fitting) if not fits)


def survey(ground: Ground, kind: str, settings: Settings, base: Range) -> Survey:
    """The cases of a kind, `failure` or `double`: failures by what is carried at least, doublings likewise and the greatest first."""
    factor = {"failure": 0, "double": 2}[kind]
    links, left = ground.within_limits(factor)
    kept = _kept(ground, kind, links, factor)
    routed = list(_routed(ground, links, factor, kept, settings)) if settings.solves else kept
    growth = settings.growth
    cases = [
        Case(kind, link, ground.installed(link), old.divided(growth), new.divided(growth))
        for link, old, new in zip(links, kept, routed)
    ]
    return Survey(ground.figures, kind, base.divided(growth), in_order(cases, greatest_first=kind == "double"), settings, left)


def based(ground: Ground, settings: Settings) -> Range:
    """The bounds of the network as it is: those of the certificate, and of a solve where these are not close enough."""
    base = ground.base
    if not settings.solves or base.within(_gap(ground, settings)):
        return base
    return base.both(_judged(ground, ground.figures.scaled.network, settings))


def _gap(ground: Ground, settings: Settings) -> Fraction:
    """The gap at which nothing is solved: the one that is asked for, else that of the certificate; an exact survey has none."""
    if settings.solver != "solve":
        return Fraction(0)
    return Fraction(getattr(ground.judgement.content, "gap"), 10**6) if settings.gap is None else settings.gap


def _kept(ground: Ground, kind: str, links: tuple[Link, ...], factor: int) -> list[Range]:
    """What the certificate is still worth in each case: by `sweep` where the program has it, else by `whatif`.

    Both judge the certificate themselves, and each of their lines is proved to hold on the changed network.
    """
    if kind == "failure":
        swept = _swept(ground, (0,), "sweep", ground.net, ground.certificate)
        if swept:
            return swept
    parts = [links[at : at + AT_ONCE] for at in range(0, len(links), AT_ONCE)]
    return [bounds for part in parts for bounds in _shown(ground, part, factor)]


def _shown(ground: Ground, links: tuple[Link, ...], factor: int) -> list[Range]:
    """What `whatif` shows of the certificate with each of these links changed."""
    with _room() as room:
        save_text(room / "script", "".join(_steps(ground, link, factor) for link in links))
        text = ground.program.ask("whatif", ground.net, ground.certificate, str(room / "script"))
    found = [_range(match.groups()) for match in SHOW.finditer(text)]
    if len(found) != len(links):
        raise TextError(f"mcf whatif wrote {len(found)} lines for {len(links)} links")
    return found


def _swept(ground: Ground, statuses: tuple[int, ...], *words: str) -> list[Range] | None:
    """The lines of `sweep` or `sweepsolve`; none where the program has no such command, or not this work.

    A line of `sweepsolve` is proved to be that of a solve of the network without the link, closed or open.
    """
    answer = ground.program.run(*words)
    by_link = {match[1]: _range(match.groups()[1:]) for match in SWEEP.finditer(answer.text)}
    complete = answer.status in statuses and all(link.id in by_link for link in ground.links)
    return [by_link[link.id] for link in ground.links] if complete else None


def _steps(ground: Ground, link: Link, factor: int) -> str:
    """The steps of a script that change a link, show, and change it back."""
    installed = ground.installed(link)
    return f"set {link.id} {_decimal(installed * factor)} show set {link.id} {_decimal(installed)}\n"


def _decimal(value: Fraction) -> str:
    """A number of at most six decimals as a word."""
    millionths = int(value * 10**6)
    return f"{millionths // 10**6}.{millionths % 10**6:06d}".rstrip("0").rstrip(".")


def _range(words: Iterable[str]) -> Range:
    """The range of four numbers."""
    a, b, c, d = map(int, words)
    return Range(Fraction(a, b), Fraction(c, d))


def _routed(ground: Ground, links: tuple[Link, ...], factor: int, kept: list[Range], settings: Settings) -> Iterator[Range]:
    """The bounds of each case routed anew; where the old paths are as good already, nothing is solved."""
    gap = _gap(ground, settings)
    places = {link.id: at for at, link in enumerate(ground.links)}
    if factor == 0 and settings.solver == "solve":
        swept = _swept(ground, (0, 1), "sweepsolve", *_modes(ground), *settings.options, "--", ground.net)
        kept = [old.both(new) for old, new in zip(kept, swept)] if swept else kept
    tasks: list[Future[Range] | None] = []
    with ThreadPoolExecutor(settings.jobs) as pool:
        try:
            for link, old in zip(links, kept):
                tasks.append(None if old.within(gap) else pool.submit(_solved, ground, places[link.id], factor, settings))
            for task, old in tqdm(zip(tasks, kept), total=len(tasks), unit="link", disable=True if settings.quiet else None):
                yield task.result().both(old) if task else old
        except BaseException:
            _end(pool, tasks)
            raise


def _end(pool: ThreadPoolExecutor, tasks: list[Future[Range] | None]) -> None:
    """Ends all solves: none begins any more, and children of those that run are ended, until all are done."""
    pool.shutdown(wait=False, cancel_futures=True)
    while not all(task is None or task.done() for task in tasks):
        end_all()
        time.sleep(0.05)


def _solved(ground: Ground, at: int, factor: int, settings: Settings) -> Range:
    """The bounds of the network with one link changed."""
    network = changed(ground.figures.scaled.network, at, ground.installed(ground.links[at]) * factor)
    return _judged(ground, network, settings)


def _judged(ground: Ground, network: Network, settings: Settings) -> Range:
    """The bounds of a network by a new certificate, once `check` calls that valid."""
    with _room() as room:
        net = room / "net"
        save_text(net, write_network(network))
        if settings.solver == "certify":
            text = _certified(ground, net, *_modes(ground), *settings.options)
        else:
            text = ground.program.solve(net, *_modes(ground), "--workers", "1", *settings.options)
        return judge(ground.program, net, text).range


def _modes(ground: Ground) -> tuple[str, ...]:
    """The options by which links and modules are read as in the certificate."""
    return "--links", ground.figures.scaled.links, "--modules", ground.figures.scaled.modules


def _certified(ground: Ground, net: Path, *words: str) -> str:
    """The certificate of certify, for the changed network."""
    # (as a module of this package, wherever that is; -P: not one of the folder that the user is in)
    command = [sys.executable, "-P", "-B", "-m", "mcf.cli.certify", str(net), *words, "--mcf", ground.program.path]
    places = [str(Path(__file__).resolve().parents[2]), *filter(None, [os.environ.get("PYTHONPATH")])]
    done = run(command, environment={"PYTHONPATH": os.pathsep.join(places)}, gently=True)
    if done.status not in (0, 1):
        raise TextError(done.trouble or f"certify ended with status {done.status}")
    return done.text


def changed(network: Network, at: int, capacity: Fraction) -> Network:
    """The network with one link of that capacity, and without modules there."""
    link = replace(network.links[at], capacity=_decimal(capacity), modules=())
    return replace(network, links=(*network.links[:at], link, *network.links[at + 1 :]))


@contextmanager
def _room() -> Iterator[Path]:
    """A folder for a while."""
    with tempfile.TemporaryDirectory(prefix="mcf-survey-") as room:
        yield Path(room)
