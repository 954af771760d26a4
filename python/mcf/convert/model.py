"""What every format is read into, and how it is told what was lost on the way."""

from __future__ import annotations

import io
import re
import sys
from dataclasses import dataclass, field
from fractions import Fraction
from typing import TextIO

from ..errors import TextError
from ..output import one_line

_OWN = re.compile(r"(?<!tools/convert )--(?=(?:bytes|columns|decimal-comma|from|unit)\b(?!-))")


class Refused(TextError):
    """Why there is no answer, in one line for people."""


def elsewhere(sentence: str) -> str:
    """What is said of a file, for those who have not the converter's own options: it is named with them."""
    return _OWN.sub("tools/convert --", sentence)


class Spot(str):
    """Where something stands, for people: a line of a file, and what is there. The file and the line are kept as data."""

    file: str
    line: int

    def __new__(cls, file: str, line: int, what: str = "") -> Spot:
        """The words of a place."""
        made = super().__new__(cls, f"{file} line {line}{f': {what}' if what else ''}")
        made.file, made.line = file, line
        return made

    def of(self, what: str) -> Spot:
        """What is there."""
        return Spot(self.file, self.line, what)


def refused(where: str, why: str) -> Refused:
    """A refusal of what stands somewhere, with its file and its line where they are known."""
    found = Refused(f"{where}: {why}")
    return found.at(where.file, where.line) if isinstance(where, Spot) else found


@dataclass(frozen=True)
class Node:
    """A node: how its file refers to it, its name, and the words of its place."""

    key: str
    name: str
    place: tuple[str, ...] | None = None


@dataclass(frozen=True)
class Link:
    """A link between two nodes, which are given by their keys."""

    name: str
    source: str
    target: str
    capacity: Fraction | None
    costs: tuple[str, str, str] = ("0", "0", "0")
    modules: tuple[tuple[Fraction, str], ...] = ()


@dataclass(frozen=True)
class Demand:
    """A demand between two nodes, which are given by keys or names, with its line where that is known."""

    name: str
    source: str
    target: str
    value: Fraction
    unit: Fraction = Fraction(1)
    longest: str = "UNLIMITED"
    line: int = field(default=0, compare=False)

    @property
    def amount(self) -> Fraction:
        """Routing unit times demand value."""
        return self.unit * self.value


@dataclass
class Matrix:
    """A demand matrix with its name."""

    name: str
    demands: list[Demand]


@dataclass
class Source:
    """What one file has.

    `bits` is the unit of its numbers in bits per second, where the file says it, and `said` the head that does; `links_mode` how its links
    are meant, where it says that, and `mentioned` the line of a comment that has a word for it.
    """

    path: str
    kind: str
    nodes: list[Node] = field(default_factory=list)
    links: list[Link] = field(default_factory=list)
    matrices: list[Matrix] = field(default_factory=list)
    meta: dict[str, str] = field(default_factory=dict)
    bits: Fraction | None = None
    said: str = ""
    links_mode: str | None = None
    mentioned: tuple[int, str] | None = None
    by_number: bool = False
    native: bool = False
    columns: tuple[str, ...] = ()


@dataclass
class Network:
    """A network under its words: what is written."""

    nodes: list[Node]
    links: list[Link]
    matrices: list[Matrix]
    meta: dict[str, str] = field(default_factory=dict)
    bits: Fraction | None = None
    links_mode: str | None = None

    @property
    def one_way(self) -> bool:
        """Whether links are known to be one way."""
        return self.links_mode == "directed"


@dataclass
class Notes:
    """Says line by line what is dropped, renamed, rounded or merged."""

    out: TextIO = field(default_factory=lambda: sys.stderr)
    quiet: bool = False
    said: list[tuple[str, str]] = field(default_factory=list)

    def say(self, verb: str, text: str) -> None:
        """One line, with every character in it that would break the line escaped."""
        self.said.append((verb, text))
        if not self.quiet:
            print(f"{verb}: {one_line(text)}", file=self.out)

    def take(self, later: Notes) -> None:
        """Says what was noted elsewhere meanwhile."""
        self.said += later.said
        if not self.quiet and isinstance(later.out, io.StringIO):
            self.out.write(later.out.getvalue())
