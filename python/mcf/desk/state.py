"""The state of a desk: edits, certificates by name, and what the program said of them; the same for all pages that show it."""

from __future__ import annotations

import threading
from collections.abc import Callable, Iterator
from contextlib import contextmanager
from dataclasses import dataclass
from fractions import Fraction

from ..errors import Invalid, McfError, Refused, TextError
from ..output import write
from .bounds import Bounds, bounds_of
from .child import Held, Stopped, Work
from .edits import NAME_LENGTH, Edit, History, changed, difference, same, script
from .ground import Ground
from .links import Links
from .turns import Job, Newest
from .weights import Weights, nothing

MOST_EDITS = 100_000
MOST_KEPT = 500
WHATS = ("close", "double", "set", "restore")

Key = tuple[str, tuple[str, ...]]


@dataclass(frozen=True)
class Certificate:
    """A certificate that `check` called valid on its own network, which is the file's with some edits."""

    name: str
    made: str
    edits: tuple[Edit, ...]
    network: Held
    printed: Held
    text: Held
    bounds: Bounds
    weights: Weights
    before: Bounds | None = None

    @property
    def closed(self) -> bool:
        """Whether it keeps the gap that it names."""
        return self.bounds.line.startswith("valid closed ")


@dataclass(frozen=True)
class Trouble:
    """Why bounds are not known, in a line."""

    line: str


class Desk:
    """All that pages show. Whatever changes it holds the lock; nothing that takes long does."""

    def __init__(self, ground: Ground, history: History, save: str | None) -> None:
        """A desk without a certificate."""
        self.ground, self.history, self.save = ground, history, save
        self.lock = threading.RLock()
        self.certificates: dict[str, Certificate] = {}
        self.active: str | None = None
        self._chosen: str | None = None
        self.job: Job | None = None
        self.revision = 1
        self.unsaved = ""
        self._known: dict[Key, Bounds | Trouble] = {}
        self._newest = Newest()
        self._asking: set[Work] = set()
        self._closed = False

    @property
    def closed(self) -> bool:
        """Whether the desk has ended."""
        return self._closed

    # -- edits

    def edit(self, link: int, what: str, word: str = "") -> None:
        """Closes or doubles a link, gives it a capacity, or that of the file again; TextError where it cannot be."""
        with self.lock:
            self.ground.require_link(link)
            before = self.capacity(link)
            if what not in WHATS:
                raise TextError("an edit closes or doubles a link, sets its capacity, or restores it")
            if len(self.history.done) >= MOST_EDITS:
                raise TextError(f"there are {MOST_EDITS:,} edits, and no more are kept: undo some, or save them and begin anew")
            known = {"close": Fraction(0), "double": 2 * before, "restore": self.ground.installed[link]}
            after = known[what] if what in known else self.ground.capacity_of(word)
            self.ground.require_capacity(after)
            self.history.add(link, "set" if what == "restore" else what, before, after)
            self._edited()

    def undo(self) -> None:
        """Takes the last edit back."""
        with self.lock:
            self.history.undo()
            self._edited()

    def redo(self) -> None:
        """Does the edit again that was undone last."""
        with self.lock:
            self.history.redo()
            self._edited()

    def call(self, number: int, name: str) -> None:
        """Gives an edit a name."""
        with self.lock:
            self.history.call(number, name[:NAME_LENGTH])
            self._saved()
            self.revision += 1

    def _edited(self) -> None:
        """What follows a change of the list: the certificate that was chosen counts, or else the nearest one, and the list is saved."""
        fitting = [one for one in self.certificates.values() if same(one.edits, self.history.done[: len(one.edits)])]
        if self._chosen not in [one.name for one in fitting]:
            self._chosen = None
        if fitting:
            self.active = self._chosen or max(fitting, key=lambda one: len(one.edits)).name
        self._tried_again()
        self._saved()
        self.revision += 1

    def _tried_again(self) -> None:
        """What was in the way of bounds may be gone, as a want of memory: they are asked for once more."""
        self._known = {key: found for key, found in self._known.items() if isinstance(found, Bounds)}

    def _saved(self) -> None:
        """Writes the edits into their file, whole; what fails is told on the page, and tried again with the next edit."""
        if self.save is None:
            return
        try:
            write(self.save, script(self.ground.network, self.history.done).encode("latin-1"))
            self.unsaved = ""
        except TextError as why:
            self.unsaved = f"the edits could not be saved: {why}"

    def capacity(self, link: int) -> Fraction:
        """The capacity of a link now."""
        return self.changed.get(link, self.ground.installed[link])

    @property
    def changed(self) -> dict[int, Fraction]:
        """The capacities that edits have changed."""
        return changed(self.history.done)

    # -- certificates and bounds

    @property
    def certificate(self) -> Certificate | None:
        """The certificate that counts now."""
        return self.certificates[self.active] if self.active is not None else None

    def choose(self, name: str) -> None:
        """Makes another certificate count."""
        with self.lock:
            if name not in self.certificates:
                raise TextError("there is no such certificate")
            self.active = self._chosen = name
            self._tried_again()
            self.revision += 1

    def add(self, certificate: Certificate) -> None:
        """A new certificate, which counts from now on where its edits are among those that are done."""
        with self.lock:
            self.certificates[certificate.name] = certificate
            if self.active is None or same(certificate.edits, self.history.done[: len(certificate.edits)]):
                self.active, self._chosen = certificate.name, None
            self.revision += 1

    @property
    def steps(self) -> list[str]:
        """The commands that lead from the certificate's network to the network as it is now."""
        one = self.certificate
        return difference(self.ground.network, self.ground.installed, changed(one.edits) if one else {}, self.changed)

    @property
    def key(self) -> Key:
        """What the bounds of now are kept under."""
        return self.active or "", tuple(self.steps)

    @property
    def shown(self) -> Bounds | Trouble | None:
        """The bounds of the network as it is now, why they are not known, or nothing while they are asked for."""
        one, key = self.certificate, self.key
        if one is None:
            return Trouble("no certificate yet, so nothing is known of these demands")
        return self._known.get(key) if key[1] else one.bounds

    @property
    def bounds(self) -> Bounds:
        """The bounds of now; TextError where they are not known."""
        found = self.shown
        if not isinstance(found, Bounds):
            raise TextError(found.line if found else "the bounds are being asked for: try again in a moment")
        return found

    def settle(self) -> bool:
        """Has the bounds of now asked for; False where a later question took its place."""
        with self.lock:
            if self.shown is not None:
                return True
        return self._newest.ask(self._ask)

    def _ask(self) -> None:
        """Asks `whatif` for the bounds of now."""
        with self.lock:
            if self.shown is not None:
                return
            one, key = self.certificate, self.key
        assert one is not None
        found: Bounds | Trouble
        try:
            line = self.shows(one, [*key[1], "show"])[-1]
            found = bounds_of(line)
        except (Refused, Invalid) as why:
            found = Trouble(str(why))
        except (McfError, OSError) as why:
            found = Trouble(str(why))
        with self.lock:
            while len(self._known) >= MOST_KEPT:
                del self._known[next(iter(self._known))]
            self._known[key] = found
            self.revision += 1

    def shows(self, one: Certificate, steps: list[str]) -> list[str]:
        """The lines of `whatif` for a certificate and the commands of a script."""
        with Held(self.ground.commands(steps).encode("latin-1")) as held:
            return self.asked("whatif", {"net": one.network, "cert": one.text, "script": held})

    def asked(self, command: str, texts: dict[str, Held], options: tuple[str, ...] = ()) -> list[str]:
        """The lines of a command that is quick; it ends with the desk."""
        with self.working() as work:
            return work.ask(self.ground.program, command, texts, options).lines

    @contextmanager
    def working(self) -> Iterator[Work]:
        """Work that a request waits for; it ends with the desk."""
        work = Work()
        with self.lock:
            if self._closed:
                raise McfError("the desk ends")
            self._asking.add(work)
        try:
            yield work
        except Stopped:
            raise McfError("the desk ends") from None
        finally:
            with self.lock:
                self._asking.discard(work)

    def links(self) -> Links:
        """The rows of links as they are now."""
        one = self.certificate
        return Links(self.ground.scaled, self.ground.installed, one.weights if one else nothing(self.ground.scaled), self.changed)

    def script(self) -> str:
        """The edits since the certificate that counts, as a script; where some of its own were undone, the difference alone."""
        one = self.certificate
        before = one.edits if one else ()
        if same(before, self.history.done[: len(before)]):
            return script(self.ground.network, self.history.done[len(before) :])
        return self.ground.commands([*self.steps, "show"])

    # -- long work

    def start(self, title: str, run: Callable[[Work], str]) -> None:
        """Begins a long piece of work; TextError where another one is not done."""
        with self.lock:
            if self._closed:
                raise TextError("the desk ends")
            if self.job is not None and self.job.running:
                raise TextError(f"this is still under way: {self.job.title}; stop it first")
            self.job = Job(title, run, self._job_ended)
            self.revision += 1
            self.job.begin()

    def _job_ended(self) -> None:
        """Pages show the end of a job."""
        with self.lock:
            self.revision += 1

    def stop(self) -> None:
        """Stops the long piece of work; TextError where there is none."""
        with self.lock:
            if self.job is None or not self.job.running:
                raise TextError("nothing is under way")
            self.job.stop()

    def close(self) -> None:
        """Ends all children; nothing is begun any more."""
        with self.lock:
            self._closed = True
            works = [*self._asking, *([self.job.work] if self.job else [])]
        for work in works:
            work.stop()
        if self.job is not None and self.job.thread.is_alive():
            self.job.thread.join(15.0)
