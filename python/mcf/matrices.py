"""Lists of demand matrices, the network that one of them gives, and what `batch` wrote for a list.

All texts are cut where docs/judge/formats.md says that their parts begin and end, and stay otherwise as they are.
"""

from __future__ import annotations

import re
from collections.abc import Iterator
from dataclasses import dataclass

from .errors import TextError
from .tokens import tokens

_MATRIX = re.compile(r"^matrix ([^ \n]+)\n", re.MULTILINE)


@dataclass(frozen=True)
class Section:
    """A name and what stands in its parentheses, from `start` to `end` in the text; `line` is that of the name."""

    name: str
    start: int
    end: int
    line: int


def sections(text: str, start: int = 0) -> Iterator[Section]:
    """The names with parentheses behind them that a text has from a place on, in their order."""
    name, first, opened, depth = "", 0, 0, 0
    for token, line, place in tokens(text.encode("latin-1"), text.count("\n", 0, start) + 1, start):
        if token.startswith(b"#"):
            continue
        if token == b"(":
            opened, depth = (opened if depth else place + 1), depth + 1
        elif token == b")":
            depth -= 1
        elif not depth:
            name, first = (token.decode("latin-1"), line) if not name else ("", 0)
        if depth < 0 or (not depth and not name):
            raise TextError(f"line {line}: a name and parentheses are expected")
        if token == b")" and not depth:
            yield Section(name, opened, place, first)
            name = ""
    if name:
        raise TextError("the text is cut off")


def matrices(text: str) -> dict[str, str]:
    """The rows of demands of each matrix of a list, by its name."""
    found: dict[str, str] = {}
    for section in sections(text):
        if section.name in found:
            raise TextError(f"line {section.line}: {section.name} stands twice")
        found[section.name] = text[section.start:section.end]
    return found


def with_demands(net: str, rows: str) -> str:
    """The text of a network with other rows of demands in place of its own."""
    place = next((section for section in sections(net, net.find("\n") + 1) if section.name == "DEMANDS"), None)
    if place is None:
        raise TextError("the network has no section DEMANDS")
    return f"{net[:place.start]}{rows}{net[place.end:]}"


def is_batch(text: str) -> bool:
    """Whether a text is what `batch` writes."""
    return text.startswith("matrix ")


def answers(text: str) -> dict[str, str]:
    """The certificate of each matrix that `batch` wrote, by the matrix's name."""
    parts = _MATRIX.split(text)
    if parts[0]:
        raise TextError("line 1: matrix and a name are expected")
    names = parts[1::2]
    twice = next((name for at, name in enumerate(names) if name in names[:at]), None)
    if twice is not None:
        raise TextError(f"matrix {twice} stands twice")
    return dict(zip(names, parts[2::2]))


def unit_of(net: str) -> str:
    """The unit that a network's META names, as people write it; nothing where it names none."""
    meta = next((net[section.start:section.end] for section in sections(net, net.find("\n") + 1) if section.name == "META"), "")
    words = [word.decode("latin-1") for word, _, _ in tokens(meta.encode("latin-1")) if not word.startswith(b"#")]
    unit = next((after for word, equals, after in zip(words, words[1:], words[2:]) if (word, equals) == ("unit", "=")), "")
    rate = re.fullmatch(r"([KMGT]?)BITPERSEC", unit)
    return f"{rate[1].replace('K', 'k')}bit/s" if rate else unit
