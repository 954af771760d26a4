"""Certificates of all three kinds, and routings: read, and written byte for byte."""

from __future__ import annotations

from dataclasses import dataclass, field
from pathlib import Path as File
from typing import Callable, ClassVar, TypeVar

from .errors import TextError
from .numbers import decimal_of, millionths_of, whole_of
from .scaled import Counts

_COUNTS = ("nodes", "cells", "commodities", "decimals", "skipped", "left", "hops")

_Row = TypeVar("_Row")
_Kind = TypeVar("_Kind", bound="Certificate")


@dataclass(frozen=True, slots=True)
class Path:
    """A path of a demand: its weight in units, and the names of its cells in order."""

    demand: str
    weight: int
    cells: tuple[str, ...]


@dataclass(frozen=True, slots=True)
class Length:
    """The length of a cell, by its name."""

    cell: str
    length: int


@dataclass(frozen=True, slots=True)
class Potential:
    """The potentials of all nodes, in their order, for a source."""

    node: str
    values: tuple[int, ...]


@dataclass(frozen=True, slots=True)
class Layer:
    """A source's layer of an index: for each node, in their order, what no walk of at most so many cells goes below in length."""

    node: str
    index: int
    values: tuple[int, ...]


@dataclass(slots=True)
class Routing:
    """A routing text; `form` is 1 or 2. The weights times `scale_capacity / scale_load` are what is routed, in units."""

    header: ClassVar[str] = "mcf-routing"
    judge: ClassVar[str] = "check"

    form: int
    links: str
    modules: str
    phases: int
    scale_capacity: int
    scale_load: int
    paths: list[Path] = field(default_factory=list)


@dataclass(slots=True)
class Certificate(Routing):
    """A certificate; `lower` and `upper` are numerator and denominator as written, the rest of lines 6, 9 and 10 is in millionths."""

    header: ClassVar[str] = "mcf-certificate"

    verdict: str = "open"
    counts: Counts = field(default_factory=lambda: Counts(0, 0, 0, 0, 0, 0, 0))
    gap: int = 0
    lower: tuple[int, int] = (0, 1)
    lower_millionths: int = 0
    upper: tuple[int, int] = (0, 1)
    upper_millionths: int = 0
    lengths: list[Length] = field(default_factory=list)
    potentials: list[Potential] = field(default_factory=list)


@dataclass(slots=True)
class HopCertificate(Certificate):
    """A certificate with hop limits, `mcf-hops 1`. Its cells are named as in form 2, so `form` is 2."""

    header: ClassVar[str] = "mcf-hops"
    judge: ClassVar[str] = "checkhops"

    layers: list[Layer] = field(default_factory=list)


@dataclass(slots=True)
class TotalCertificate(Certificate):
    """A certificate of a total, `mcf-throughput 1`: `lower` and `upper` are totals in units. `form` is 2, as of a `HopCertificate`."""

    header: ClassVar[str] = "mcf-throughput"
    judge: ClassVar[str] = "checkthroughput"

    threshold: int = 1


def load_text(file: str | File) -> str:
    """The text of a file, one character for each byte."""
    try:
        return File(file).read_bytes().decode("latin-1")
    except OSError as error:
        raise TextError(f"{file}: {error.strerror}") from error


def save_text(file: str | File, text: str) -> None:
    """Writes a text that `load_text` would read."""
    try:
        File(file).write_bytes(text.encode("latin-1"))
    except OSError as error:
        raise TextError(f"{file}: {error.strerror}") from error


def judge_of(text: str) -> str:
    """The command of `mcf` that judges a text, by the first word of its header; `check` where that is none of those known."""
    kind = text[:text.find(" ")]
    others: tuple[type[Certificate], ...] = (HopCertificate, TotalCertificate)
    return next((known.judge for known in others if known.header == kind), Certificate.judge)


def read_any(text: str) -> Certificate | Routing:
    """The certificate, of any kind, or the routing of a text."""
    reader = {HopCertificate.judge: read_hops, TotalCertificate.judge: read_throughput}.get(judge_of(text))
    if reader is not None:
        return reader(text)
    return read_routing(text) if text.startswith("mcf-routing ") else read_certificate(text)


def read_certificate(text: str) -> Certificate:
    """The certificate of a text; names and numbers are not compared with those of any network, which `mcf check` does."""
    lines = _Lines(text)
    certificate = _head(lines, Certificate)
    _rows(lines, certificate)
    lines.end("path, length and potential rows")
    return certificate


def read_hops(text: str) -> HopCertificate:
    """The certificate with hop limits of a text, likewise."""
    lines = _Lines(text)
    certificate = _head(lines, HopCertificate)
    _rows(lines, certificate)
    certificate.layers = lines.rows("layer", lambda words: Layer(words[0], whole_of(words[1]), tuple(map(whole_of, words[2:]))))
    lines.end("path, length, potential and layer rows")
    return certificate


def read_throughput(text: str) -> TotalCertificate:
    """The certificate of a total of a text, likewise."""
    lines = _Lines(text)
    certificate = _head(lines, TotalCertificate)
    certificate.threshold = lines.value(whole_of, lines.words("threshold", 1)[0])
    _rows(lines, certificate)
    lines.end("path, length and potential rows")
    return certificate


def read_routing(text: str) -> Routing:
    """The routing of a text."""
    lines = _Lines(text)
    form = lines.form(Routing.header, (1, 2))
    links, = lines.words("links", 1, _modes(form))
    modules, = lines.words("modules", 1, ("none", "largest", "sum"))
    phases, scale_capacity, scale_load = _scale(lines)
    paths = lines.rows("path", _path)
    lines.end("path rows")
    return Routing(form, links, modules, phases, scale_capacity, scale_load, paths)


def write_certificate(certificate: Certificate) -> str:
    """The text of a certificate of any kind, its rows in their order."""
    counts = " ".join(f"{name} {getattr(certificate.counts, name)}" for name in _COUNTS)
    lines = [
        f"{certificate.header} {_written_form(certificate)}", f"verdict {certificate.verdict}", f"links {certificate.links}",
        f"modules {certificate.modules}", f"net {counts}", f"gap {decimal_of(certificate.gap)}",
        f"phases {certificate.phases}", f"scale {certificate.scale_capacity} {certificate.scale_load}",
        _fraction_line("lower", certificate.lower, certificate.lower_millionths),
        _fraction_line("upper", certificate.upper, certificate.upper_millionths),
    ]
    if isinstance(certificate, TotalCertificate):
        lines.append(f"threshold {certificate.threshold}")
    lines += _path_lines(certificate.paths)
    lines += [f"length {row.cell} {row.length}" for row in certificate.lengths]
    lines += [" ".join(["potential", row.node, *map(str, row.values)]) for row in certificate.potentials]
    if isinstance(certificate, HopCertificate):
        lines += [" ".join(["layer", row.node, str(row.index), *map(str, row.values)]) for row in certificate.layers]
    return "\n".join(lines) + "\nend\n"


def write_routing(routing: Routing) -> str:
    """The text of a routing, its paths in their order."""
    lines = [f"mcf-routing {routing.form}", f"links {routing.links}", f"modules {routing.modules}",
             f"phases {routing.phases}", f"scale {routing.scale_capacity} {routing.scale_load}"]
    return "\n".join(lines + _path_lines(routing.paths)) + "\nend\n"


def _written_form(certificate: Certificate) -> int:
    """The number of line 1: that of the form of cell words, where the kind has several."""
    return certificate.form if type(certificate) is Certificate else 1


def _path_lines(paths: list[Path]) -> list[str]:
    """The lines of paths."""
    return [" ".join(["path", path.demand, str(path.weight), *path.cells]) for path in paths]


def _fraction_line(keyword: str, fraction: tuple[int, int], millionths: int) -> str:
    """Line 9 or 10."""
    return f"{keyword} {fraction[0]}/{fraction[1]} {decimal_of(millionths)}"


def _head(lines: _Lines, kind: type[_Kind]) -> _Kind:
    """Lines 1 to 10, as a certificate without rows."""
    form = lines.form(kind.header, (1, 2)) if kind is Certificate else lines.form(kind.header, (1,)) + 1
    verdict, = lines.words("verdict", 1, ("closed", "open"))
    links, = lines.words("links", 1, _modes(form))
    modules, = lines.words("modules", 1, ("none", "largest", "sum"))
    counts = _counts(lines)
    gap = lines.value(millionths_of, lines.words("gap", 1)[0])
    scale = _scale(lines)
    return kind(form, links, modules, *scale, [], verdict, counts, gap, *_fraction(lines, "lower"), *_fraction(lines, "upper"))


def _rows(lines: _Lines, certificate: Certificate) -> None:
    """Paths, lengths and potentials."""
    certificate.paths = lines.rows("path", _path)
    certificate.lengths = lines.rows("length", lambda words: Length(words[0], whole_of(words[1])))
    certificate.potentials = lines.rows("potential", lambda words: Potential(words[0], tuple(map(whole_of, words[1:]))))


def _modes(form: int) -> tuple[str, ...]:
    """The link modes of a form."""
    return ("directed", "undirected") if form == 1 else ("directed", "undirected", "bidirected")


def _counts(lines: _Lines) -> Counts:
    """Line 5."""
    words = lines.words("net", 2 * len(_COUNTS))
    if tuple(words[::2]) != _COUNTS:
        raise lines.error(f"net and the counts of {', '.join(_COUNTS)} are expected")
    return Counts(*(lines.value(whole_of, word) for word in words[1::2]))


def _scale(lines: _Lines) -> tuple[int, int, int]:
    """Phases and both numbers of the scale."""
    phases = lines.value(whole_of, lines.words("phases", 1)[0])
    capacity, load = (lines.value(whole_of, word) for word in lines.words("scale", 2))
    return phases, capacity, load


def _fraction(lines: _Lines, keyword: str) -> tuple[tuple[int, int], int]:
    """The fraction of line 9 or 10, and its decimal in millionths."""
    fraction, decimal = lines.words(keyword, 2)
    numerator, slash, denominator = fraction.partition("/")
    if not slash:
        raise lines.error("a fraction has no /")
    return (lines.value(whole_of, numerator), lines.value(whole_of, denominator)), lines.value(millionths_of, decimal)


def _path(words: list[str]) -> Path:
    """The path of a row's words."""
    return Path(words[0], whole_of(words[1]), tuple(words[2:]))


class _Lines:
    """The lines of a text, read one after another."""

    def __init__(self, text: str) -> None:
        """Cuts a text into its lines."""
        self._lines = text.split("\n")
        if self._lines.pop() != "":
            raise TextError("the last line has no line feed")
        self._at = 0

    def error(self, what: str) -> TextError:
        """An error in the line that was read last."""
        return TextError(f"line {self._at}: {what}")

    def value(self, reader: Callable[[str], int], word: str) -> int:
        """The number of a word of the line that was read last."""
        try:
            return reader(word)
        except TextError as error:
            raise self.error(str(error)) from error

    def _next(self) -> str:
        """The next line."""
        self._at += 1
        if self._at > len(self._lines):
            raise self.error("the text is cut off")
        return self._lines[self._at - 1]

    def form(self, header: str, forms: tuple[int, ...]) -> int:
        """The form of line 1, one of those that are known."""
        known = {f"{header} {form}": form for form in forms}
        line = self._next()
        if line not in known:
            raise self.error(f"{' or '.join(known)} is expected")
        return known[line]

    def words(self, keyword: str, count: int, allowed: tuple[str, ...] | None = None) -> list[str]:
        """The words of the next line behind its keyword, so many and from those that are allowed."""
        first, *words = self._next().split(" ")
        if first != keyword or len(words) != count or (allowed is not None and not set(words) <= set(allowed)):
            raise self.error(f"{keyword} and {' or '.join(allowed) if allowed else f'{count} words'} is expected")
        return words

    def rows(self, keyword: str, row: Callable[[list[str]], _Row]) -> list[_Row]:
        """The rows of a kind that begin with the next line."""
        rows: list[_Row] = []
        front = keyword + " "
        while self._at < len(self._lines) and self._lines[self._at].startswith(front):
            words = self._next().split(" ")
            try:
                rows.append(row(words[1:]))
            except (TextError, IndexError) as error:
                raise self.error(f"no row of kind {keyword}") from error
        return rows

    def end(self, rows: str) -> None:
        """The last line, behind rows of these kinds."""
        if self._next() != "end" or self._at != len(self._lines):
            raise self.error(f"{rows}, and end, are expected in this order")
