"""The commands of the proved program: their words, what they answer, and how a run without an answer ends.

The standard library alone.
"""

from __future__ import annotations

import operator
import re
from collections.abc import Mapping, Sequence
from dataclasses import dataclass
from fractions import Fraction
from typing import SupportsIndex

from .children import Ended
from .errors import Invalid, NoMemory, NoProgram, ReadFault, Refused, TextError, Usage, WriteFault
from .given import Number, brief, decimal_word, name_of, number_of
from .limits import MAX_GAP, limits_of
from .numbers import MILLION
from .program import INVALID, REFUSED, find_program, wide_for
from .running import in_memory, require_program, require_status, run
from .tokens import NATIVE

FRONTS = {"solve": "mcf-certificate ", "tighten": "mcf-certificate ", "upgrade": "mcf-certificate ", "hops": "mcf-hops ",
          "throughput": "mcf-throughput ", "batch": "matrix ", "sweep": "sweep ", "sweepsolve": "sweep ", "whatif": "show ",
          "print": NATIVE.decode()}
WHOLE = ("phases", "step", "workers")
_VALID = re.compile(r"valid (closed|open) (\w+) (\w+) lower (\d+)/([1-9]\d*) \S+ upper (\d+)/([1-9]\d*) \S+")
_FEASIBLE = re.compile(r"feasible (\w+) (\w+) (\d+)/([1-9]\d*) \S+")


@dataclass(frozen=True)
class Judgement:
    """What the proved check says of a certificate or routing. As a truth value: whether it is valid, or feasible.

    verdict: `valid` (a certificate), `feasible` (a routing), or `invalid`.
    condition: the first condition that fails, `C1` to `C10`; None where all hold.
    closed: whether both bounds are within the gap that the certificate names; None of a routing, or where it is invalid.
    links, modules: how links and modules were read; None where it is invalid.
    lower: the fraction of every demand that the paths carry; of a total, how much is carried, in the network's unit.
    upper: what no routing exceeds; None of a routing, which shows no bound.
    line: the program's own line.
    """

    verdict: str
    condition: str | None
    closed: bool | None
    links: str | None
    modules: str | None
    lower: Fraction | None
    upper: Fraction | None
    line: str

    def __bool__(self) -> bool:
        """Whether the certificate is valid, or the routing feasible."""
        return self.verdict in ("valid", "feasible")


def judgement_of(line: str, unit: Fraction) -> Judgement | None:
    """What a line of check, checkhops or checkthroughput says; bounds are multiplied by `unit`. None where it is no such line."""
    if valid := _VALID.fullmatch(line):
        lower, upper = (Fraction(int(valid[at]), int(valid[at + 1])) * unit for at in (4, 6))
        return Judgement("valid", None, valid[1] == "closed", valid[2], valid[3], lower, upper, line)
    if feasible := _FEASIBLE.fullmatch(line):
        return Judgement("feasible", None, None, feasible[1], feasible[2], Fraction(int(feasible[3]), int(feasible[4])), None, line)
    if invalid := INVALID.fullmatch(line):
        return Judgement("invalid", invalid[1], None, None, None, None, None, line)
    return None


def option_words(options: Mapping[str, object]) -> list[str]:
    """The words of options; those that are None are left out.

    ValueError where a gap has more than six decimals, Usage where a number that has to be whole is none.
    """
    words = []
    for name, value in options.items():
        if value is not None:
            words += [f"--{name}", _option_word(name, value)]
    return words


def _option_word(name: str, value: object) -> str:
    """The word of an option's value."""
    if name == "gap":
        return decimal_word(number_of(value, "gap", MAX_GAP // MILLION))
    if isinstance(value, str):
        return value
    if isinstance(value, bool) or not isinstance(value, SupportsIndex):
        raise Usage(f"{name} is a {'whole number' if name in WHOLE else 'str'}, and not {brief(value, repr)}")
    return str(operator.index(value))


def ask(command: str, texts: Mapping[str, bytes], options: Sequence[str] = (), timeout: float | None = None) -> Ended:
    """Runs a command on texts in memory, which are its files in this order.

    Statuses 0 and 1 are answers. Usage, Refused, Invalid, ReadFault, WriteFault, NoMemory, NoProgram and Timeout otherwise. A text that is
    beyond the limits of `mcf` is given to `mcf-wide`, if it is there.
    """
    path = program_path()
    with in_memory(list(texts.values())) as files:
        words = [command, *options, "--", *(f"/proc/self/fd/{number}" for number in files)]
        ended = run([path, *words], files, timeout, name=f"mcf {command}")
        if wide := wide_path(path, ended):
            path = wide
            ended = run([path, *words], files, timeout, name=f"mcf-wide {command}")
    require_status(ended, path)
    require_answer(command, ended, path, words, texts)
    return ended


def program_path() -> str:
    """The path of the program mcf; NoProgram where there is none, or another one."""
    try:
        path = find_program().path
    except TextError as error:
        raise NoProgram(str(error)) from None
    require_program(path)
    return path


def wide_path(path: str, ended: Ended) -> str | None:
    """The path of the program with wide limits, where the one at a path refused a text that is beyond its own and there is such a program."""
    if ended.status != 3:
        return None
    try:
        wide = wide_for(path, ended.line)
    except TextError as error:
        raise NoProgram(str(error)) from None
    return wide.path if wide else None


def require_answer(command: str, ended: Ended, path: str, words: list[str], texts: Mapping[str, bytes]) -> None:
    """The error of an end that is no answer."""
    line, status = ended.line, ended.status
    if status == 2 and line == "usage":
        raise Usage(f"mcf {command}: {_misfit(words, path)}")
    if status == 3 and (refused := REFUSED.fullmatch(line)):
        raise _refusal(command, refused, texts, path)
    if status == 4 and line == "read fault":
        raise ReadFault(f"mcf {command}: a file could not be read to its end")
    if status == 5:
        raise WriteFault(f"mcf {command}: the answer could not be written")
    if status == 6 and line == "memory":
        raise NoMemory(f"mcf {command}: out of memory")
    if status == 1 and command in FRONTS and (invalid := INVALID.fullmatch(line)):
        raise Invalid(invalid[1], sentence_of(line, command, texts, path), line)
    judges = command.startswith("check")
    known = judgement_of(line, Fraction(1)) is not None if judges else line.startswith(FRONTS[command]) or _is_empty(command, ended)
    if status > 1 or not known:
        raise NoProgram(f"{path}: this is another program than mcf, since it answers {command} with status {status} and {line[:60]!r}")


def _is_empty(command: str, ended: Ended) -> bool:
    """Whether an answer of no lines is one: that of a network without links, of a list or script of nothing."""
    return command in ("batch", "sweep", "sweepsolve", "whatif") and not ended.out


def _misfit(words: list[str], path: str) -> str:
    """What the hints say of words that are not in the grammar of the program at a path."""
    from .hints.words import Misfit, read
    try:
        read(words, limits_of(path))
    except Misfit as misfit:
        return str(misfit)
    return "the words are not in the grammar"


def _refusal(command: str, refused: re.Match[str], texts: Mapping[str, bytes], path: str) -> Refused:
    """The exception of a refusal's line, which the program at a path wrote."""
    said, file = refused[0], refused[1]
    kind = "work" if refused[5] else refused[4] or refused[2]
    line = int(refused[3]) if refused[3] else None
    sentence = sentence_of(said, command, texts, path)
    rows = texts.get(file, b"").split(b"\n", line)[:line] if line else []
    if line and len(rows) == line and file in ("net", "list", "script") and rows[-1].strip():
        sentence += f"; the line is {name_of(rows[-1].decode('latin-1')).strip()[:200]!r}"
    return Refused(kind, file, line, sentence, said)


def sentence_of(line: str, command: str, texts: Mapping[str, bytes], path: str = "mcf") -> str:
    """The sentence of the hints on a line of the program at a path."""
    from .hints.hint import sentence_of as hinted
    name = "cert2" if line.startswith("refused cert2 ") else "cert"
    return hinted(line, command, texts.get(name, b"")[:16], texts.get("net", b"")[:4096], limits_of(path))
