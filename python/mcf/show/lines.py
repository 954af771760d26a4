"""The lines of `sweep`, `sweepsolve` and `whatif`, each with the bounds that it says, and what kind a text is."""

from __future__ import annotations

import re
from dataclasses import dataclass
from fractions import Fraction

from ..certificate import Certificate, HopCertificate, Routing, TotalCertificate
from ..errors import TextError
from ..ranges import Range
from ..report.figures import Figures

_KINDS: tuple[tuple[type[Routing], str], ...] = (
    (Certificate, "certificate"), (HopCertificate, "hops"), (TotalCertificate, "throughput"), (Routing, "routing"))
CERTIFICATES = {f"{kind.header} ": name for kind, name in _KINDS}
_WORD = r"([^ \t\r\n()#]+)"
_BOUNDS = r"lower (\d+)/([1-9]\d*) \S+ upper (\d+)/([1-9]\d*) \S+"
_LINES = {
    "sweep": re.compile(rf"sweep {_WORD}()() {_BOUNDS}", re.ASCII),
    "sweepsolve": re.compile(rf"sweep {_WORD} (closed|open) phases (\d+) {_BOUNDS}", re.ASCII),
    "whatif": re.compile(rf"()()()show {_BOUNDS}", re.ASCII)}


@dataclass(frozen=True)
class Case:
    """A line, or a matrix of batch: what it says of its bounds, and what the proved check says of the certificate under it.

    judged: the line of the check; None where nothing was judged. condition: the first one that fails of an invalid certificate, and why.
    figures: of a valid one.
    """

    name: str
    said: Range
    closed: bool | None = None
    phases: int | None = None
    judged: str | None = None
    condition: str | None = None
    why: str | None = None
    figures: Figures | None = None

    @property
    def bounds(self) -> Range | None:
        """The bounds that the check confirmed."""
        if self.figures is None or self.figures.upper is None:
            return None
        return Range(self.figures.lower, self.figures.upper)


def kind_of_text(text: str) -> str | None:
    """What a text is by its first line: `certificate`, `hops`, `throughput`, `routing`, `batch`, `sweep`, `sweepsolve` or `whatif`."""
    for front, kind in {**CERTIFICATES, "matrix ": "batch"}.items():
        if text.startswith(front):
            return kind
    first = text.partition("\n")[0]
    return next((kind for kind, form in _LINES.items() if form.fullmatch(first)), None)


def cases_of(text: str, kind: str) -> list[Case]:
    """The cases of the lines of a kind; TextError, with the line, where one is another, or the last one is cut off."""
    lines = text.split("\n")
    found = [_case(line, kind, at) for at, line in enumerate(lines[:-1], 1)]
    if lines[-1]:
        raise TextError(f"line {len(lines)}: is cut off")
    return found


def _case(line: str, kind: str, at: int) -> Case:
    """The case of a line; those of whatif are named by their numbers."""
    match = _LINES[kind].fullmatch(line)
    if match is None:
        raise TextError(f"line {at}: no line of mcf {kind}")
    name, closed, phases, *words = match.groups()
    a, b, c, d = map(int, words)
    try:
        said = Range(Fraction(a, b), Fraction(c, d))
    except TextError as why:
        raise why.led(f"line {at}: ") from None
    return Case(name or str(at), said, closed == "closed" if closed else None, int(phases) if phases else None)
