"""Network texts as arrays, as docs/judge/formats.md has their grammar: what is read here is what `mcf` reads.

What does not fit is not told here: `Odd` says that there is something, and the proved program is asked what.
"""

from __future__ import annotations

import re
from dataclasses import dataclass

import numpy as np

from mcf.lp.arrays import Array

from .words import Words

_HEADER = b"?SNDlib native format; type: network;"
_COMMENT = re.compile(rb"#[^\n]*")
_OPEN, _CLOSE = 40, 41
_PARENS = (b"(", b")")
_LINK = [b"", b"(", b"", b"", b")", b"", b"", b"", b"", b"("]
_SECTIONS = (b"NODES", b"LINKS", b"DEMANDS")


class Odd(Exception):
    """A text that is not as it should be, or that is rarely so: the program says which."""


@dataclass(frozen=True)
class Rows:
    """The words of a network text: those of nodes and links as lists of lists, those of demands by column, and how many sections were
    skipped."""

    nodes: Words
    links: list[list[bytes]]
    demand: Words
    source: Words
    target: Words
    unit: Words
    value: Words
    longest: Words
    skipped: int


def rows_of(data: bytes) -> Rows:
    """The rows of a text; Odd where it does not fit the grammar."""
    if not data.startswith(_HEADER):
        raise Odd
    line = data.find(b"\n")
    body = data[line + 1:] if line >= 0 else b""
    if b"#" in body:
        body = _COMMENT.sub(b"", body)
    tokens = _tokens(np.frombuffer(body, np.uint8))
    sections, skipped = _sections(tokens)
    nodes, links, demands = (tokens.some(slice(*section)) for section in sections)
    if len(demands) % 8:
        raise Odd
    of = [demands.some(slice(column, None, 8)) for column in range(8)]
    if (_kinds(of[1]) != _OPEN).any() or (_kinds(of[4]) != _CLOSE).any() or any(_is_paren(of[column]) for column in (0, 2, 3, 5, 6, 7)):
        raise Odd
    return Rows(_node_ids(nodes), _link_rows(links), of[0], of[2], of[3], of[5], of[6], of[7], skipped)


def _tokens(text: Array) -> Words:
    """The words and parentheses of a text."""
    paren = (text == _OPEN) | (text == _CLOSE)
    inner = ~(paren | (text == 32) | (text == 10) | (text == 9) | (text == 13))
    begins, ends = inner.copy(), inner.copy()
    begins[1:] &= ~inner[:-1]
    ends[:-1] &= ~inner[1:]
    del inner
    # (texts are shorter than 2^31 bytes)
    first, last = (np.flatnonzero(some | paren).astype(np.int32) for some in (begins, ends))
    if (last - first >= 255).any():
        raise Odd
    return Words(text, first, last + 1)


def _kinds(tokens: Words) -> Array:
    """The first byte of each token, which of parentheses is all."""
    found: Array = tokens.text[tokens.first]
    return found


def _is_paren(tokens: Words) -> bool:
    """Whether one of the tokens is a parenthesis."""
    kinds = _kinds(tokens)
    return bool(((kinds == _OPEN) | (kinds == _CLOSE)).any())


def _sections(tokens: Words) -> tuple[list[tuple[int, int]], int]:
    """Where the tokens of nodes, links and demands stand, and how many other sections there are."""
    kinds = _kinds(tokens) if len(tokens) else np.zeros(0, np.uint8)
    step = (kinds == _OPEN).astype(np.int32) - (kinds == _CLOSE)
    depth = np.cumsum(step)
    opened, closed = np.flatnonzero((depth == 1) & (step == 1)), np.flatnonzero((depth == 0) & (step == -1))
    if (depth < 0).any() or len(opened) != len(closed) or not len(opened) or closed[-1] != len(tokens) - 1:
        raise Odd
    # (each section is one word and its group)
    if not np.array_equal(opened, np.concatenate([[0], closed[:-1] + 1]) + 1):
        raise Odd
    names = [tokens.word(int(at) - 1) for at in opened] if len(opened) < 10_000 else []
    places = [at for at, name in enumerate(names) if name in _SECTIONS]
    if [names[at] for at in places] != list(_SECTIONS):
        raise Odd
    return [(int(opened[at]) + 1, int(closed[at])) for at in places], len(names) - len(_SECTIONS)


def _node_ids(tokens: Words) -> Words:
    """The ids of nodes."""
    kinds = _kinds(tokens)
    depth = np.cumsum((kinds == _OPEN).astype(np.int32) - (kinds == _CLOSE))
    outer = (depth == 0) & (kinds != _CLOSE)
    opened = np.flatnonzero(kinds == _OPEN)
    if (depth > 1).any() or (len(opened) and (opened[0] == 0 or not outer[opened - 1].all())):
        raise Odd
    return tokens.some(np.flatnonzero(outer))


def _link_rows(tokens: Words) -> list[list[bytes]]:
    """The words of each link: id, both ends, capacity, and the capacities of its modules."""
    words = [tokens.word(at) for at in range(len(tokens))]
    rows, at = [], 0
    while at < len(words):
        close = next((place for place in range(at + 10, len(words)) if words[place] in _PARENS), len(words))
        shape = [word if word in _PARENS else b"" for word in words[at:at + 10]]
        if shape != _LINK or (close - at) % 2 or words[close:close + 1] != [b")"]:
            raise Odd
        rows.append([words[at], words[at + 2], words[at + 3], words[at + 5], *words[at + 10:close:2]])
        at = close + 1
    return rows
