"""Certificates and routings that the proved program called valid or feasible in this run: what sentences are made of.

The bounds are those of the program's own line. The text that was judged is the one that is kept, so a file that changes meanwhile
changes nothing of what is said.
"""

from __future__ import annotations

import re
import tempfile
from dataclasses import dataclass
from fractions import Fraction
from functools import cached_property
from pathlib import Path as File

from .certificate import Routing, judge_of, load_text, read_any, save_text
from .errors import TextError
from .hints.hint import explained
from .limits import limits_of
from .program import Program, refused_at, silent
from .ranges import Range

_VALID = re.compile(r"valid (closed|open) \w+ \w+ lower (\d+)/([1-9]\d*) \S+ upper (\d+)/([1-9]\d*) \S+")
_FEASIBLE = re.compile(r"feasible \w+ \w+ (\d+)/([1-9]\d*) \S+")


@dataclass(frozen=True)
class Said:
    """The line that `check`, `checkhops` or `checkthroughput` wrote of a text that is valid or feasible."""

    line: str

    @property
    def closed(self) -> bool:
        """Whether the gap that the certificate names is kept."""
        return self.line.startswith("valid closed ")

    @property
    def lower(self) -> Fraction:
        """What is carried: a fraction of every demand, or a total."""
        match = _FEASIBLE.fullmatch(self.line)
        return Fraction(int(match[1]), int(match[2])) if match else self.range.lower

    @property
    def range(self) -> Range:
        """Both bounds of a certificate; TextError for a routing, which has one alone."""
        match = _VALID.fullmatch(self.line)
        if match is None:
            raise TextError("a routing has no bound, so a certificate is wanted")
        a, b, c, d = map(int, match.groups()[1:])
        return Range(Fraction(a, b), Fraction(c, d))


@dataclass(frozen=True)
class Judged(Said):
    """A text with the line of its judge."""

    text: str

    def __init__(self, text: str, line: str) -> None:
        """A text and its line."""
        super().__init__(line)
        object.__setattr__(self, "text", text)

    @cached_property
    def content(self) -> Routing:
        """The certificate or routing."""
        return read_any(self.text)


class NotValid(TextError):
    """A text that is not valid or feasible; `said` is the program's line."""

    def __init__(self, command: str, said: str, meaning: str = "") -> None:
        """The command that judged, what it said, and the same with what it means."""
        super().__init__(command, said, meaning)
        self.command, self.said, self.meaning = command, said, meaning

    def __str__(self) -> str:
        """What the command said."""
        return f"mcf {self.command} says: {self.meaning or self.said}"


def judge(program: Program, net: str | File, text: str, command: str | None = None) -> Judged:
    """A text, once it is judged by the command of its kind, or by the one that is named; NotValid where it is not valid or feasible."""
    with tempfile.TemporaryDirectory(prefix="mcf-judge-") as room:
        file = File(room, "cert")
        save_text(file, text)
        return Judged(text, judge_there(program, net, file, command or judge_of(text)).line)


def judge_there(program: Program, net: str | File, file: str | File, command: str) -> Said:
    """What a command says of a file, which is not read here and may be large, likewise."""
    answer = program.check(net, file, command=command)
    if answer.status < 0:
        raise TextError(f"mcf {command}: {silent(answer.status)}").at(kind="program")
    if answer.status != 0 or not (_VALID.fullmatch(answer.line) or _FEASIBLE.fullmatch(answer.line)):
        meaning = explained(answer.line, [command, str(net), str(file)], limits_of(answer.program)) if answer.status in (1, 3, 4) else ""
        # (the name of the file that the text is from is the caller's)
        fault = NotValid(command, answer.line or f"status {answer.status}", meaning)
        raise refused_at(fault, answer.line, {"net": str(net)})
    return Said(answer.line)


def judge_file(program: Program, net: str | File, file: str | File, command: str | None = None) -> Judged:
    """The text of a file, likewise."""
    return judge(program, net, load_text(file), command)
