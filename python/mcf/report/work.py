"""From files to a report's files."""

from __future__ import annotations

import argparse
import tempfile
from collections.abc import Callable, Iterable
from dataclasses import dataclass
from pathlib import Path

from mcf import Program, TextError, jsons, judge_of, load_text, output, scale
from mcf.judged import Judged, NotValid, judge
from mcf.linkmode import otherwise
from mcf.matrices import answers, is_batch, matrices, unit_of, with_demands
from mcf.network import Network
from mcf.output import contents
from mcf.ranges import are_equal
from mcf.scaled import ScaledNetwork

from .figures import Figures
from .page import batch_page, report_page, sides_of
from .sentences import verdict
from .summary import Summary, batch_sentence
from .tables import batch_table, links_table, paths_table
from .values import matrix_values, names_of, side_values


@dataclass(frozen=True)
class Source:
    """A text and the name of the file that it comes from."""

    name: str
    text: str


@dataclass(frozen=True)
class Shown:
    """What is shown of a network: figures whose text the proved check called valid in this run, what it said, and the network's unit."""

    figures: Figures
    said: str
    unit: str


class Reader:
    """Reads files, each once, so what was judged is what is shown, also where a file changes meanwhile or can be read only once."""

    def __init__(self, program: Program) -> None:
        """The program judges, and reads networks."""
        self._program = program
        self._read: dict[str, Source] = {}
        self._networks: dict[tuple[str, str, str], ScaledNetwork] = {}

    def source(self, name: str) -> Source:
        """A file by its name; `-` is standard input."""
        if name not in self._read:
            self._read[name] = Source("standard input" if name == "-" else name, contents(name).decode("latin-1"))
        return self._read[name]

    def shown(self, net: Source, certificate: Source) -> Shown:
        """The figures of a certificate or routing that is valid or feasible; TextError, with its cause, where it is not."""
        with tempfile.TemporaryDirectory(prefix="mcf-report-") as room:
            file = Path(room, "net")
            file.write_bytes(net.text.encode("latin-1"))
            try:
                found = judge(self._program, file, certificate.text)
                text = found.content
                scaled = self._scaled(file, net, text.links, text.modules)
            except NotValid as why:
                raise why.led(f"{certificate.name} on {net.name}: ", {str(file): net.name, None: certificate.name}) from None
            except TextError as why:
                raise why.led(f"{net.name}: ", {str(file): net.name}) from None
        figures = Figures(scaled, text)
        _require_same(figures, found)
        return Shown(figures, f"mcf {judge_of(certificate.text)}: {found.line}", unit_of(net.text))

    def rows(self, net: Source) -> Network:
        """The rows of a network, which the proved program reads; TextError, with the refusal, where it does not."""
        with tempfile.TemporaryDirectory(prefix="mcf-report-") as room:
            file = Path(room, "net")
            file.write_bytes(net.text.encode("latin-1"))
            try:
                return self._program.network(file)
            except TextError as why:
                raise why.led(f"{net.name}: ", {str(file): net.name}) from None

    def _scaled(self, file: Path, net: Source, links: str, modules: str) -> ScaledNetwork:
        """The network of a text that was accepted, under options."""
        key = net.text, links, modules
        if key not in self._networks:
            self._networks[key] = scale(self._program.network(file), links, modules)
        return self._networks[key]


def _require_same(figures: Figures, found: Judged) -> None:
    """The fractions of the figures are those of the program's line."""
    low, high = figures.lower, figures.upper
    units = 10**figures.scaled.decimals if figures.is_total else 1
    bounds = found.range if figures.is_certificate else None
    pairs = [(low * units, found.lower)] + ([(None if high is None else high * units, bounds.upper)] if bounds else [])
    if not are_equal(pairs):
        raise TextError(f"internal error: the figures are not those that the check tells: {found.line}")


def judged_figures(program: Program, net: str, certificate: str) -> tuple[Figures, Judged]:
    """The figures of a certificate or routing that `mcf check` finds valid, and the judgement."""
    text = load_text(certificate)
    try:
        found = judge(program, net, text, "check")
    except NotValid as why:
        kind = judge_of(text)
        other = f"; it is one for mcf {kind}, and only those of mcf solve and routings are taken" if kind != "check" else ""
        raise TextError(f"{certificate} on {net}: {why}{other}").at(why.file or (certificate if why.code else None), why.line, kind=why.kind, code=why.code) from None
    return Figures(scale(program.network(net), found.content.links, found.content.modules), found.content), found


def write_report(program: Program, words: argparse.Namespace, title: str, say: Callable[[str], None]) -> None:
    """Writes the page and the tables that are asked for, and says the sentences."""
    reader = Reader(program)
    net, first = reader.source(words.net), reader.source(words.certificate)
    require_batch(first, words)
    listed = listed_in(reader.source(words.list)) if words.list else None
    if is_batch(first.text) and words.matrix is None:
        _write_batch(reader, net, first, listed, words, title, say)
        return
    other = reader.source(words.net2) if words.net2 else net
    pairs = [(net, first)] + ([(other, reader.source(words.second))] if words.second else [])
    both = [reader.shown(*answered(pair, listed, words.matrix)) for pair in pairs]
    for (one, answer), found in zip(pairs, both):
        tell_links(one, answer, found.figures, "report", words.quiet)
    if said := None if words.quiet else other_modes([found.figures for found in both]):
        jsons.note(said, "report")
    _write_sides(_beside(both), words, title, say)


def tell_links(net: Source, answer: Source, figures: Figures, tool: str, quiet: bool = False) -> None:
    """Says that an answer reads links otherwise than the network's file says, where it does."""
    said = otherwise(net.name, net.text.encode("latin-1"), figures.text.links, answer.name)
    if said and not quiet:
        jsons.note(said, tool)


def other_modes(sides: list[Figures]) -> str | None:
    """That two answers read links, or modules where there are any, in different ways; none where they do not."""
    have = any(link.modules for side in sides for link in side.scaled.network.links)
    modes = [f"links {side.text.links}{f' and modules {side.text.modules}' if have else ''}" for side in sides]
    return f"before is with {modes[0]}, and after with {modes[1]}, so what differs may be that alone" if len(set(modes)) > 1 else None


def require_batch(answer: Source, words: argparse.Namespace) -> None:
    """Refuses, beside a single answer, the words for what batch wrote."""
    if is_batch(answer.text):
        return
    if words.matrix is not None:
        raise TextError(f"--matrix names a matrix of what batch wrote, and {answer.name} is a single answer")
    if words.list is not None:
        raise TextError(f"--list is for what batch wrote, and {answer.name} is a single answer")


def listed_in(source: Source) -> dict[str, str]:
    """The matrices of a list."""
    try:
        return matrices(source.text)
    except TextError as why:
        raise why.led(f"{source.name}: ") from None


def answered(pair: tuple[Source, Source], listed: dict[str, str] | None, name: str | None) -> tuple[Source, Source]:
    """A network and an answer; of what batch wrote, those of the matrix that is named."""
    net, answer = pair
    if not is_batch(answer.text):
        return pair
    if name is None:
        raise TextError(f"{answer.name}: is of batch, which has an answer for each matrix: --matrix NAME takes one")
    return matrix_of(net, answer, listed, name)


def matrix_of(net: Source, batch: Source, listed: dict[str, str] | None, name: str) -> tuple[Source, Source]:
    """The network with a matrix's demands, and the certificate that batch wrote for it."""
    if listed is None:
        raise TextError(f"{batch.name}: is of batch; --list LIST names the list of matrices that it was made of")
    key = name.encode("utf-8", "surrogateescape").decode("latin-1")
    found = answers(batch.text)
    if key not in listed or key not in found:
        raise TextError(f"there is no matrix {name} in {batch.name if key in listed else 'the list'}")
    return Source(f"{net.name} with matrix {name}", with_demands(net.text, listed[key])), Source(batch.name, found[key])


def _beside(both: list[Shown]) -> list[Shown]:
    """Both, where a routing takes over the bound of the other one if that is a certificate of the same network."""
    if len(both) < 2:
        return both
    first, second = both
    if first.figures.is_total != second.figures.is_total:
        raise TextError("a certificate of a total carries demands in parts of their own, so it can stand beside another one of a total alone")
    return [
        Shown(first.figures.beside(second.figures), first.said, first.unit),
        Shown(second.figures.beside(first.figures), second.said, second.unit),
    ]


def _write_sides(both: list[Shown], words: argparse.Namespace, title: str, say: Callable[[str], None]) -> None:
    """The files on one certificate or on two."""
    if words.html:
        sides = sides_of([(one.figures, one.said, one.unit) for one in both], words.rows)
        write(words.html, report_page(title, sides), "utf-8")
    if words.csv:
        write(words.csv, links_table([one.figures for one in both]))
    if words.paths:
        write(words.paths, paths_table(both[-1].figures))
    for front, one in zip(("Before: ", "After: ") if len(both) > 1 else ("",), both):
        say(front + verdict(one.figures))
    jsons.put(title=title, outputs=_outputs(words), sides=lambda: [side_values(one.figures, one.said, one.unit) for one in both])


def _write_batch(reader: Reader, net: Source, batch: Source, listed: dict[str, str] | None, words: argparse.Namespace, title: str,
                 say: Callable[[str], None]) -> None:  # fmt: skip
    """The files on all matrices that batch answered."""
    if words.second or words.paths:
        raise TextError(f"{batch.name}: is of batch, and {'--paths' if words.paths else 'a second file'} takes --matrix NAME")
    rows = summaries(reader, net, batch, listed)
    if rows:
        tell_links(net, batch, rows[0].figures, "report", words.quiet)
    without = [name for name in listed or () if name not in {row.matrix for row in rows}]
    sentence = batch_sentence(rows, without)
    if words.html:
        write(words.html, batch_page(title, rows, sentence, unit_of(net.text)), "utf-8")
    if words.csv:
        write(words.csv, batch_table(rows))
    say(sentence)
    jsons.put(title=title, outputs=_outputs(words), unit=unit_of(net.text), matrices=lambda: list(map(matrix_values, rows)), without=names_of(without))


def _outputs(words: argparse.Namespace) -> list[str]:
    """The files that are asked for."""
    return [name for name in (words.html, words.csv, words.paths) if name]


def summaries(reader: Reader, net: Source, batch: Source, listed: dict[str, str] | None) -> list[Summary]:
    """What the certificate of each matrix says, in their order."""
    names: Iterable[str] = answers(batch.text)
    shown = [(name, reader.shown(*matrix_of(net, batch, listed, name.encode("latin-1").decode("utf-8", "surrogateescape")))) for name in names]
    return [Summary(name, one.figures, one.said) for name, one in shown]


def write(file: str, text: str, encoding: str = "latin-1") -> None:
    """Writes a text whole, or leaves what was there; `-` is standard output."""
    output.write(file, text.encode(encoding, "replace"))
