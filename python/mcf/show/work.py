"""From files to what is shown of them: read once, and judged by the proved check where there is something to judge."""

from __future__ import annotations

from collections.abc import Iterator
from dataclasses import dataclass, replace
from fractions import Fraction

from tqdm import tqdm

from ..certificate import judge_of
from ..errors import TextError
from ..hints.netfile import kind_of
from ..matrices import answers, is_batch, unit_of
from ..network import Network
from ..program import Program
from ..ranges import Range
from ..report.work import Reader, Shown, Source, listed_in, matrix_of, tell_links
from .lines import CERTIFICATES, Case, cases_of, kind_of_text


@dataclass(frozen=True)
class Question:
    """The files that are asked for: `-` is standard input; `file` is None where a network alone is."""

    net: str
    file: str | None = None
    listed: str | None = None


@dataclass(frozen=True)
class Found:
    """What a file is: `kind` is `network`, or as `kind_of_text` says.

    shown: a valid certificate or a feasible routing. cases: the lines or matrices of what has several. judged: the line of the check on one
    certificate or routing; condition: the first that fails, where that is invalid, and why.
    """

    kind: str
    net: Source
    network: Network
    file: Source | None = None
    shown: Shown | None = None
    cases: tuple[Case, ...] = ()
    judged: str | None = None
    condition: str | None = None
    why: str | None = None

    @property
    def unit(self) -> str:
        """The unit that the network names."""
        return unit_of(self.net.text)

    @property
    def is_sound(self) -> bool:
        """Whether nothing that was judged is invalid."""
        return self.condition is None and not any(case.condition for case in self.cases)


def show(program: Program, question: Question) -> Found:
    """What the files are; TextError, with its cause, where the program refuses one, or a file is none that is known here."""
    reader = Reader(program)
    net = reader.source(question.net)
    network = reader.rows(net)
    if question.file is None:
        return Found("network", net, network)
    file = reader.source(question.file)
    kind = kind_of_text(file.text)
    if kind is None:
        raise TextError(f"{file.name}: {_unknown(file.text)}").at(file.name)
    if question.listed and kind != "batch":
        raise TextError(f"--list is for what batch wrote, and {file.name} is {file.text.partition(' ')[0]}").at(kind="usage")
    found = Found(kind, net, network, file)
    if kind in CERTIFICATES.values():
        return _judged(reader, found, file)
    listed = listed_in(reader.source(question.listed)) if question.listed else None
    return replace(found, cases=tuple(_matrices(reader, found, file, listed) if is_batch(file.text) else _lines(found, file)))


def _unknown(text: str) -> str:
    """What a text is that is not shown."""
    if not text:
        return "is empty: sweep of a network without links writes that, and so does whatif without a show"
    if text.startswith("?SNDlib"):
        return "is a network, and one is named already: show it alone"
    kinds = "a certificate, a routing, and what batch, sweep, sweepsolve or whatif wrote"
    return f"{kind_of(text[:4096].encode('latin-1'))}, and is none of {kinds}"


def _judged(reader: Reader, found: Found, file: Source) -> Found:
    """A certificate or routing with what the check says."""
    try:
        shown = reader.shown(found.net, file)
    except TextError as why:
        if why.kind != "invalid":
            raise
        return replace(found, judged=_line(file.text, why), condition=why.code, why=str(why))
    tell_links(found.net, file, shown.figures, "show")
    return replace(found, shown=shown, judged=shown.said)


def _line(text: str, why: TextError) -> str:
    """The line of the check on an invalid certificate or routing."""
    return f"mcf {judge_of(text)}: invalid {why.code}"


def _lines(found: Found, file: Source) -> Iterator[Case]:
    """The cases of lines, which are of links that the network has, each once and in their order."""
    try:
        cases = cases_of(file.text, found.kind)
    except TextError as why:
        raise why.led(f"{file.name}: ") from None
    links = [link.id for link in found.network.links]
    if found.kind != "whatif" and [case.name for case in cases] != links:
        at = next((at for at, (case, link) in enumerate(zip(cases, links)) if case.name != link), min(len(cases), len(links)))
        other = f"the lines are not those of the links of {found.net.name}, in their order"
        raise TextError(f"{file.name} line {at + 1}: {other}").at(file.name, at + 1)
    yield from cases


def _matrices(reader: Reader, found: Found, batch: Source, listed: dict[str, str] | None) -> Iterator[Case]:
    """The cases of matrices, each certificate judged with its own demands where the list is given."""
    try:
        texts = answers(batch.text)
    except TextError as why:
        raise why.led(f"{batch.name}: ") from None
    for name, text in tqdm(texts.items(), unit=" matrices", disable=None, leave=False):
        case = _said(batch, name, text)
        yield case if listed is None else _judged_matrix(reader, found, batch, listed, case)


def _said(batch: Source, name: str, text: str) -> Case:
    """What the certificate of a matrix says of itself."""
    words = {line.partition(" ")[0]: line.split(" ") for line in text.split("\n")[:12]}
    try:
        lower, upper = (Fraction(words[end][1]) for end in ("lower", "upper"))
        return Case(name, Range(lower, upper), words["verdict"][1] == "closed", int(words["phases"][1]))
    except (KeyError, IndexError, ValueError, ZeroDivisionError):
        raise TextError(f"{batch.name}: the certificate of matrix {name} has no bounds").at(batch.name) from None


def _judged_matrix(reader: Reader, found: Found, batch: Source, listed: dict[str, str], case: Case) -> Case:
    """The case of a matrix with what the check says of its certificate."""
    try:
        shown = reader.shown(*matrix_of(found.net, batch, listed, case.name.encode("latin-1").decode("utf-8", "surrogateescape")))
    except TextError as why:
        if why.kind != "invalid":
            raise
        return replace(case, judged=f"mcf check: invalid {why.code}", condition=why.code, why=str(why))
    return replace(case, judged=shown.said, figures=shown.figures)
