"""What a network asks of the proved program and of the tools: each answer is judged before it is handed out."""

from __future__ import annotations

import os
import warnings
from collections.abc import Iterator, Mapping, Sequence
from contextlib import contextmanager
from dataclasses import replace
from fractions import Fraction
from functools import lru_cache
from importlib import import_module
from typing import TYPE_CHECKING, Any, TypeVar

from . import certificate as core
from .answers import Answer, Batch, Bounds, Certificate, Routing, Sweep, WhatIf, answer_of
from .commands import Judgement, ask, judgement_of, option_words, program_path, sentence_of
from .errors import Invalid, McfError, Refused, TextError, Usage
from .given import brief, decimal_word, name_of, number_of, word_of
from .limits import DEFAULT_PHASES, MAX_DEMANDS, MAX_MATRICES, MAX_WORK
from .needs import needed
from .running import run_tool
from .scaled import scale

if TYPE_CHECKING:
    from .networks import Network, Path

_WORDS = {"set": 3, "add": 3, "sub": 3, "close": 2}
_Kind = TypeVar("_Kind", bound=Answer)
Options = dict[str, Any]


def _options(network: Network, options: Options) -> Options:
    """The options with the network's own mode of links where none is asked for, since tools else read links as the text says."""
    return {**options, "links": network.mode if options.get("links") is None else options["links"]}


def solved(network: Network, kind: type[_Kind], command: str, options: Options, timeout: float | None) -> _Kind:
    """The judged certificate of solve, hops or throughput."""
    ended = ask(command, {"net": network.data}, option_words(_options(network, options)), timeout)
    return _judged(_of_kind(kind, network, ended.out), timeout)


def _of_kind(kind: type[_Kind], network: Network, data: bytes, notes: tuple[str, ...] = ()) -> _Kind:
    """The answer of a text, which has to be of a kind."""
    answer = answer_of(network, data, notes)
    if not isinstance(answer, kind):
        raise McfError(f"a {kind.kind} is expected, and the answer is a {answer.kind}")
    return answer


def _judged(answer: _Kind, timeout: float | None = None) -> _Kind:
    """An answer, once the proved check called it valid or feasible; Invalid where it does not."""
    judgement = checked(answer.network, answer, timeout)
    if not judgement:
        raise Invalid(judgement.condition or "", sentence_of(judgement.line, answer.rows.judge, {}), judgement.line)
    return answer


def checked(network: Network, certificate: Answer | Path, timeout: float | None = None) -> Judgement:
    """What the proved check says; the object keeps it where it is of that network."""
    answer = certificate if isinstance(certificate, Answer) else None
    data = _text_of(certificate)
    with _refused_by_path(cert=certificate):
        ended = ask(core.judge_of(data[:64].decode("latin-1")), {"net": network.data, "cert": data}, (), timeout)
    judgement = judgement_of(ended.line, _unit(network, data))
    assert judgement is not None
    if answer is not None and answer.network.data == network.data:
        answer._said.append(judgement)
    return judgement


def _unit(network: Network, data: bytes) -> Fraction:
    """What the bounds of a text are multiplied by: totals are in units, fractions of demands in none."""
    if not data.startswith(b"mcf-throughput "):
        return Fraction(1)
    rows = core.read_any(data.decode("latin-1"))
    return Fraction(1, 10**scale(network.rows, rows.links, rows.modules).decimals)


def _text_of(certificate: Answer | Path) -> bytes:
    """The text of a certificate or routing, or that of a file; TypeError where it is neither."""
    if isinstance(certificate, Answer):
        return certificate.data
    return core.load_text(_path_of(certificate)).encode("latin-1")


def _path_of(path: Path) -> str:
    """A path as a str; TypeError where it is none."""
    if not isinstance(path, (str, bytes, os.PathLike)):
        raise TypeError(f"a certificate is wanted, or the path of one, and not {brief(path, repr)}")
    return os.fsdecode(path)


@contextmanager
def _refused_by_path(**texts: Answer | Path) -> Iterator[None]:
    """A text that is refused is called by its path, if it was read from a file."""
    try:
        yield
    except Refused as why:
        text = texts.get(why.file)
        if text is None or isinstance(text, Answer):
            raise
        path = _path_of(text)
        raise Refused(why.kind, path, why.line, why.sentence, f"{path}: {why.said}") from None


def loaded(network: Network, path: Path) -> Answer:
    """The answer of a file, which is not judged."""
    try:
        return answer_of(network, _text_of(path))
    except TextError as error:
        raise error.led(f"{_path_of(path)}: ") from None


def certified(network: Network, kind: str, options: Options, progress: bool, timeout: float | None) -> Certificate:
    """The judged certificate of the tool certify."""
    if kind not in ("solve", "hops", "throughput"):
        raise ValueError(f"kind is solve, hops or throughput, and not {kind!r}")
    seconds = str(options.pop("seconds"))
    words = ["{0}", "--kind", kind, *option_words(_options(network, options)), f"--seconds={seconds}"]
    with _bar(f"certify {kind}", progress):
        data, notes = _by_tool("certify", words, network, timeout)
    return _judged(_of_kind(Certificate, network, data, notes), timeout)


def routed(network: Network, options: Options, timeout: float | None) -> Routing:
    """The judged routing of the tool route."""
    given = {name: str(value) for name, value in _options(network, options).items() if value is not None}
    words = ["{0}", "--no-best", *(f"--{name}={value}" for name, value in given.items())]
    return _judged(_of_kind(Routing, network, *_by_tool("route", words, network, timeout)), timeout)


def _by_tool(tool: str, words: list[str], network: Network, timeout: float | None) -> tuple[bytes, tuple[str, ...]]:
    """What a tool wrote of a network, and what it said beside; McfError with its line where it has no answer."""
    ended, paths = run_tool(tool, [*words, "--mcf", program_path()], [network.data], timeout)
    if ended.status not in (0, 1) or not ended.out:
        why = (ended.trouble or f"{tool} ended with status {ended.status}").replace(paths[0], "the network")
        usage = why.removesuffix(f" ({tool} --help has the words)")
        raise McfError(why) if usage == why else Usage(usage)
    lines = ended.err.decode("utf-8", "replace").splitlines()
    return ended.out, tuple(line.removeprefix(f"{tool}: ") for line in lines if line.startswith(f"{tool}: "))


def batch(network: Network, matrices: Mapping[str, Any], options: Options, progress: bool, timeout: float | None) -> Batch:
    """The judged certificates of all matrices, in runs of as many as the program takes at once with all phases."""
    plain = replace(network, _file=None)
    networks = _matrices(plain, matrices)
    words = option_words(_options(network, options))
    found: dict[str, Certificate] = {}
    with _bar("batch", progress, len(networks)) as bar:
        for names in _runs(networks, _phases_of(words)):
            text = "".join(_matrix_text(name, networks[name]) for name in names)
            ended = ask("batch", {"net": plain.data, "list": text.encode("latin-1")}, words, timeout)
            for name, data in zip(names, _certificates(ended.out)):
                found[name] = _judged(_of_kind(Certificate, networks[name], data), timeout)
                bar.update()
    return Batch(found)


def _matrices(plain: Network, matrices: Mapping[str, Any]) -> dict[str, Network]:
    """The network with each matrix by its name; ValueError, which names the matrix, where there is none."""
    if not isinstance(matrices, Mapping):
        raise ValueError(f"matrices: {{name: demands}} is wanted, and not {brief(matrices, repr)}")
    networks: dict[str, Network] = {}
    for given, demands in matrices.items():
        word = word_of(given, "matrix")
        if name_of(word) in networks:
            raise ValueError(f"matrix {given!r}: another one has that name too")
        try:
            networks[name_of(word)] = plain.with_demands(demands)
        except ValueError as why:
            raise ValueError(f"matrix {given!r}: {why}") from None
    return networks


def _phases_of(words: Sequence[str]) -> int:
    """How many phases the words of options ask for; what is no number of them the program refuses."""
    word = words[words.index("--phases") + 1] if "--phases" in words else str(DEFAULT_PHASES)
    return int(word) if word.isdecimal() and len(word) < 10 and int(word) else 1


def _runs(networks: Mapping[str, Network], phases: int) -> Iterator[list[str]]:
    """The names of matrices in runs: within the program's limits, and with few enough demands that each phase is allowed."""
    most = min(MAX_DEMANDS, max(1, MAX_WORK // phases))
    names: list[str] = []
    rows = 0
    for name, network in networks.items():
        count = len(network.rows.demands)
        if names and (len(names) == MAX_MATRICES or rows + count > most):
            yield names
            names, rows = [], 0
        names.append(name)
        rows += count
    if names:
        yield names


def _matrix_text(name: str, network: Network) -> str:
    """A matrix of a list."""
    rows = (f"  {row.id} ( {row.source} {row.target} ) {row.unit} {row.value} {row.longest}\n" for row in network.rows.demands)
    return f"{word_of(name, 'matrix')} (\n{''.join(rows)})\n"


def _certificates(text: bytes) -> list[bytes]:
    """The certificates of an answer of batch."""
    return [part.split(b"\n", 1)[1] + b"\nend\n" for part in text.split(b"\nend\n") if part]


def swept(network: Network, certificate: Certificate | Path, timeout: float | None) -> Sweep:
    """What a certificate is worth without each link."""
    with _refused_by_path(cert=certificate):
        ended = ask("sweep", {"net": network.data, "cert": _text_of(certificate)}, (), timeout)
    return Sweep(tuple(map(_bounds, ended.lines)))


def sweep_solved(network: Network, options: Options, timeout: float | None) -> Sweep:
    """The network solved without each link."""
    ended = ask("sweepsolve", {"net": network.data}, option_words(_options(network, options)), timeout)
    return Sweep(tuple(map(_bounds, ended.lines)))


def _bounds(line: str, case: str = "") -> Bounds:
    """The bounds of a line of sweep, sweepsolve or whatif."""
    words = line.split(" ")
    # (a link may have any name, as lower)
    lower, upper = Fraction(words[-5]), Fraction(words[-2])
    if words[2:3] in (["closed"], ["open"]):
        return Bounds(name_of(words[1]), lower, upper, words[2] == "closed", int(words[4]))
    return Bounds(case or name_of(words[1]), lower, upper)


def what_if(network: Network, certificate: Certificate | Path, edits: Sequence[tuple[Any, ...]], timeout: float | None) -> WhatIf:
    """What a certificate is worth behind each edit."""
    ids = {link.id for link in network.rows.links}
    lines = [_edit_line(edit, f"edit {at + 1}", ids) for at, edit in enumerate(edits)]
    script = "".join(f"{line}\nshow\n" for line in lines)
    texts = {"net": network.data, "cert": _text_of(certificate), "script": script.encode("latin-1")}
    with _refused_by_path(cert=certificate):
        ended = ask("whatif", texts, (), timeout)
    return WhatIf(tuple(_bounds(said, name_of(line)) for said, line in zip(ended.lines, lines)))


def _edit_line(edit: tuple[Any, ...], what: str, ids: set[str]) -> str:
    """The command of a script for an edit."""
    if not isinstance(edit, (tuple, list)) or (*map(type, edit[:1]), len(edit)) != (str, _WORDS.get(str(edit[0]) if edit else "")):
        raise ValueError(f"{what}: {edit!r} is no edit: ('set', link, capacity), ('add', ..), ('sub', ..) or ('close', link)")
    link = word_of(edit[1], what)
    if link not in ids:
        raise ValueError(f"{what}: the network has no link {edit[1]!r}")
    return " ".join([edit[0], link, *(decimal_word(number_of(number, what)) for number in edit[2:])])


def tightened(network: Network, certificates: Sequence[Certificate | Path], timeout: float | None) -> Certificate:
    """The judged best certificate of one or more."""
    if not certificates:
        raise ValueError("tighten: at least one certificate is wanted")
    first, *others = certificates
    texts = [_text_of(one) for one in certificates]
    with _refused_by_path(cert=first):
        # (what comes of one and another is of the program's own making, so the first alone may be refused as the first)
        best = texts[0] if others else ask("tighten", {"net": network.data, "cert": texts[0]}, (), timeout).out
        for other, text in zip(others, texts[1:]):
            with _refused_by_path(cert2=other):
                best = ask("tighten", {"net": network.data, "cert": best, "cert2": text}, (), timeout).out
    return _judged(_of_kind(Certificate, network, best), timeout)


def _bar(what: str, progress: bool, total: int | None = None) -> Any:
    """A bar of progress on a terminal, and in a notebook that can show one."""
    with needed():
        return _bars(progress)(desc=what, total=total, disable=None if progress else True, leave=False)


@lru_cache(maxsize=2)
def _bars(progress: bool) -> Any:
    """The bars of tqdm; where a notebook has no widgets, the plain ones, without a warning."""
    if not progress:
        return import_module("tqdm").tqdm
    with warnings.catch_warnings():
        warnings.simplefilter("ignore")
        return import_module("tqdm.auto").tqdm
