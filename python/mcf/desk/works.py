"""What the desk has computed: certificates, failures, doublings and routes, each by the program or a tool as a child."""

from __future__ import annotations

import csv
import io
from collections.abc import Iterator, Sequence
from dataclasses import dataclass, field, replace
from fractions import Fraction
from functools import partial
from pathlib import Path

from ..certificate import Routing
from ..commands import judgement_of, sentence_of
from ..errors import Invalid, McfError, TextError
from ..given import decimal_word, number_of
from ..limits import MAX_SCRIPT_BYTES
from ..names import text_of
from ..ranges import Range, in_order
from ..report.figures import Figures
from ..route.shown import below_the_best
from ..survey.cases import Case, Settings, Survey
from ..survey.words import sentence
from .bounds import Bounds, bounds_of
from .child import Held, Work, folder
from .edits import Edit, changed
from .state import Certificate, Desk, Key
from .weights import weights_of

SOLVERS = {"solve": "{mcf} solve", "certify": "tools/certify"}
METHODS = {
    "ecmp": "equal-cost multipath, by hops", "hops": "one shortest path, by hops", "capacity": "one shortest path, by 1/capacity",
    "cost": "one shortest path, by the file's routing cost", "ecmp-capacity": "equal-cost multipath, by 1/capacity",
    "ecmp-cost": "equal-cost multipath, by the file's routing cost",
}
SECONDS = "300"


@dataclass(frozen=True)
class Edited:
    """The network with edits: its text, and the canonical one."""

    edits: tuple[Edit, ...]
    network: Held
    printed: Held


@dataclass(frozen=True)
class Failure:
    """A link that fails: what the same paths and prices are worth then, and what a new solve found."""

    link: int
    kept: Bounds
    routed: Bounds | None = None

    @property
    def range(self) -> Range:
        """What is known of the fraction."""
        return self.kept.range.both(self.routed.range) if self.routed else self.kept.range


@dataclass(frozen=True)
class Failures:
    """All single failures of the network as it was, the worst first."""

    key: Key
    edits: int
    base: Bounds
    cases: tuple[Failure, ...]
    sentence: str
    command: str
    solved: bool = False


@dataclass(frozen=True)
class Doublings:
    """All links doubled in turn, the best first."""

    key: Key
    edits: int
    rows: tuple[tuple[int, str, str, str], ...]
    sentence: str
    command: str


@dataclass(frozen=True)
class Routes:
    """What a routing without any choice of paths carries, and how far that is below the best."""

    key: Key
    edits: int
    method: str
    line: str
    beside: str
    command: str
    text: Held


@dataclass
class Found:
    """What was computed last of each kind."""

    failures: Failures | None = None
    doublings: Doublings | None = None
    routes: Routes | None = None
    number: int = 0
    names: dict[str, int] = field(default_factory=dict)


class Works:
    """What a desk can be asked for."""

    def __init__(self, desk: Desk, gap: str | None = None) -> None:
        """Nothing has been computed yet; a gap is for the first solve."""
        self.desk, self.found, self.first_gap = desk, Found(), gap
        self.ground = desk.ground

    # -- certificates

    def judged(self, work: Work, made: str, name: str, of: Edited, text: bytes, before: Bounds | None = None) -> Certificate:
        """A certificate of the network with edits, once `check` called it valid."""
        held = Held(text)
        line = work.ask(self.ground.program, "check", {"net": of.network, "cert": held}).line
        judgement = judgement_of(line, Fraction(1))
        if judgement is None or not judgement:
            raise Invalid((judgement and judgement.condition) or "", sentence_of(line, "check", {}), line)
        if judgement.upper is None:
            raise TextError("it is a routing, which has no bound: a certificate is wanted, as mcf solve and tools/certify write it")
        return Certificate(name, made, of.edits, of.network, of.printed, held, bounds_of(line), weights_of(work, of.printed, held), before)

    def edited(self, edits: tuple[Edit, ...] = ()) -> Edited:
        """The texts of the network with edits."""
        return Edited(edits, *self.ground.edited(changed(edits)))

    def solve(self, kind: str, gap: str) -> None:
        """Begins to solve the network as it is now."""
        if kind not in SOLVERS:
            raise TextError(f"solvers are {' and '.join(SOLVERS)}")
        options = ["--gap", decimal_word(_gap(gap))] if gap.strip() else []
        with self.desk.lock:
            edits = tuple(self.desk.history.done)
            shown = self.desk.shown
        before = shown if isinstance(shown, Bounds) else None

        def run(work: Work) -> str:
            """Solves, judges, and adds the certificate."""
            of = self.edited(edits)
            made = " ".join([SOLVERS[kind].format(mcf=self.ground.command), "NET", *self.ground.modes, *options])
            text = self._solved(work, kind, of.network, options)
            one = self.judged(work, made, self._name(kind), of, text, before)
            self.desk.add(one)
            return f"{one.name}: {one.bounds.line}"

        self.desk.start(f"{SOLVERS[kind].format(mcf=self.ground.command)} of the network {_with(len(edits))}", run)

    def _solved(self, work: Work, kind: str, network: Held, options: Sequence[str]) -> bytes:
        """The certificate of a solver."""
        if kind == "solve":
            return work.ask(self.ground.program, "solve", {"net": network}, [*self.ground.modes, *options]).out
        words = [network.path, *self.ground.modes, *options, "--seconds", SECONDS, "--mcf", self.ground.program]
        return work.tool("certify", words).out

    def _name(self, kind: str) -> str:
        """A name for a new certificate."""
        with self.desk.lock:
            number = self.found.names[kind] = self.found.names.get(kind, 0) + 1
        return f"{kind}-{number}"

    # -- failures

    def sweep(self) -> None:
        """What the certificate is worth without each link, at once: by `sweep`, or by `whatif` where there are edits behind it."""
        with self.desk.lock:
            one, key, base, count = self.desk.certificate, self.desk.key, self.desk.bounds, len(self.desk.history.done)
            capacities = self.ground.capacities(self.desk.changed)
        assert one is not None
        if key[1]:
            lines = list(self._turned(one, key, [(link, Fraction(0)) for link in range(len(capacities))], capacities))
            command = f"{self.ground.command} whatif NET CERT, with each link closed in turn behind these edits"
        else:
            lines = self.desk.asked("sweep", {"net": one.network, "cert": one.text})
            command = f"{self.ground.command} sweep NET CERT"
        cases = [Failure(link, bounds_of(line)) for link, line in enumerate(lines)]
        self._keep(Failures(key, count, base, *self._ordered(cases, base, capacities), command))

    def _turned(self, one: Certificate, key: Key, turns: list[tuple[int, Fraction]], capacities: list[Fraction]) -> Iterator[str]:
        """The lines of `whatif` with each of some links at another capacity in turn, in scripts that are not too long."""
        rows: list[str] = []
        size = first = sum(len(step) + 1 for step in key[1])
        for link, capacity in turns:
            name = self.ground.network.links[link].id
            row = f"set {name} {decimal_word(capacity)} show set {name} {decimal_word(capacities[link])}"
            if rows and size + len(row) + 1 > MAX_SCRIPT_BYTES:
                yield from self.desk.shows(one, [*key[1], *rows])
                rows, size = [], first
            rows.append(row)
            size += len(row) + 1
        if rows:
            yield from self.desk.shows(one, [*key[1], *rows])

    def _ordered(self, cases: list[Failure], base: Bounds, capacities: list[Fraction]) -> tuple[tuple[Failure, ...], str]:
        """The failures, the worst first, and what is to be said of them."""
        links = self.ground.network.links
        told = in_order(Case("failure", links[one.link], capacities[one.link], one.kept.range, one.range) for one in cases)
        empty = Figures(self.ground.scaled, Routing(2, self.ground.scaled.links, self.ground.scaled.modules, 0, 0, 1))
        said = sentence(Survey(empty, "failure", base.range, told, Settings(quiet=True)))
        return in_order(cases), said[0].upper() + said[1:]

    def _keep(self, found: Failures) -> None:
        """Keeps the failures for all pages."""
        with self.desk.lock:
            self.found.failures = found
            self.found.number += 1
            self.desk.revision += 1

    def sweepsolve(self) -> None:
        """Begins to solve the network anew without each link."""
        if self.found.failures is None or self.found.failures.key != self.desk.key:
            self.sweep()
        with self.desk.lock:
            before, edits = self.found.failures, tuple(self.desk.history.done)
            if before is None or before.key != self.desk.key:
                raise TextError("the network was changed meanwhile: solve each failure once more")
        self.desk.start(f"{self.ground.command} sweepsolve of the network {_with(len(edits))}", partial(self._failed, before=before, edits=edits))

    def _failed(self, work: Work, before: Failures, edits: tuple[Edit, ...]) -> str:
        """Solves without each link, and puts the answers beside those of the same paths."""
        network = self.edited(edits).network
        lines = work.ask(self.ground.program, "sweepsolve", {"net": network}, self.ground.modes).lines
        by_link = {one.link: one for one in before.cases}
        cases = [replace(by_link[link], routed=bounds_of(line)) for link, line in enumerate(lines)]
        command = " ".join([f"{self.ground.command} sweepsolve NET", *self.ground.modes])
        ordered, said = self._ordered(cases, before.base, self.ground.capacities(changed(edits)))
        self._keep(Failures(before.key, before.edits, before.base, ordered, said, command, True))
        return said

    # -- doublings and routes

    def double(self, exact: bool) -> None:
        """Begins to double each link in turn, by the tool survey."""
        with self.desk.lock:
            one, key, count = self.desk.certificate, self.desk.key, len(self.desk.history.done)
        if one is None or key[1]:
            raise TextError("there are edits behind the certificate: solve again first, and then double each link")
        words = ["--double", *(["--exact"] if exact else [])]
        title = f"tools/survey {' '.join(words)} of the network {_with(count)}"
        self.desk.start(title, partial(self._surveyed, one=one, key=key, count=count, words=words))

    def _surveyed(self, work: Work, one: Certificate, key: Key, count: int, words: list[str]) -> str:
        """Runs the survey."""
        with folder() as room:
            table = Path(room, "double.csv")
            files = [one.network.path, one.text.path]
            ended = work.tool("survey", [*files, *words, "--csv", str(table), "--quiet", "--mcf", self.ground.program])
            rows = self._doubled(table.read_text("latin-1"))
        said = ended.out.decode("utf-8", "replace").strip()
        with self.desk.lock:
            self.found.doublings = Doublings(key, count, rows, said, " ".join(["tools/survey NET CERT", *words]))
        return said

    def _doubled(self, text: str) -> tuple[tuple[int, str, str, str], ...]:
        """The rows of a survey's table: link, lower, upper, and whether all demands fit."""
        numbers = {link.id: at for at, link in enumerate(self.ground.network.links)}
        return tuple((numbers[_plain(row["link"])], row["lower"], row["upper"], row["fits"]) for row in csv.DictReader(io.StringIO(text)))

    def route(self, method: str) -> None:
        """Begins to find what today's routes carry, by the tool route."""
        if method not in METHODS:
            raise TextError(f"methods are {', '.join(METHODS)}")
        with self.desk.lock:
            key, shown, edits = self.desk.key, self.desk.shown, tuple(self.desk.history.done)
        by, _, lengths = method.partition("-")
        words = ["--by", by, *(["--lengths", lengths] if lengths else []), *self.ground.modes, "--no-best"]

        def run(work: Work) -> str:
            """Runs the tool."""
            network = self.edited(edits).network
            text = Held(work.tool("route", [network.path, *words, "--mcf", self.ground.program]).out)
            line = work.ask(self.ground.program, "check", {"net": network, "cert": text}).line
            judgement = judgement_of(line, Fraction(1))
            if not judgement or judgement.lower is None:
                raise McfError(f"the routing is not feasible: {line}")
            beside = below_the_best(judgement.lower, shown.range) if isinstance(shown, Bounds) else ""
            with self.desk.lock:
                self.found.routes = Routes(key, len(edits), METHODS[method], line, beside, " ".join(["tools/route NET", *words]), text)
            return line

        self.desk.start(f"tools/route by {METHODS[method]}", run)


def _gap(word: str) -> Fraction:
    """A gap."""
    return number_of(word.strip(), "gap", 1000)


def _plain(cell: str) -> str:
    """A name of a table without the apostrophe that spreadsheets are given."""
    return text_of(cell)


def _with(count: int) -> str:
    """With how many edits."""
    return "as it was read" if not count else f"with {count} edit{'s' if count > 1 else ''}"
