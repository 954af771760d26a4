"""REPETITA's graphs and demands: https://github.com/svissicchio/Repetita has the format."""

from __future__ import annotations

import re
from fractions import Fraction

from .files import stem
from .model import Demand, Link, Matrix, Node, Notes, Source, Spot, refused
from .numbers import number
from .words import told

Row = tuple[int, list[str]]

KBIT = Fraction(1000)


def numbered(text: str) -> list[tuple[int, str]]:
    """The lines that are not blank, with their numbers."""
    return [(at, line) for at, line in enumerate(text.split("\n"), 1) if line.strip()]


def rows_of(path: str, lines: list[tuple[int, str]], title: str, width: int) -> tuple[list[Row], list[tuple[int, str]]]:
    """The rows of the section at the front, as many as its title says, behind a line of column names; and the rest."""
    head = lines[0][1].split() if lines else []
    if len(head) != 2 or head[0] != title or not _is_whole(head[1]):
        raise refused(Spot(path, lines[0][0] if lines else 1), f"{title} and a number are due")
    count = int(head[1])
    rows = [(at, line.split()) for at, line in lines[2 : 2 + count]]
    wrong = next((at for at, row in rows if len(row) != width), None)
    if wrong is not None or len(rows) < count:
        raise refused(Spot(path, wrong or lines[-1][0]), f"{title} has rows of {width} words, {count} of them")
    return rows, lines[2 + count :]


def read_graph(path: str, text: str, notes: Notes) -> Source:
    """Nodes and edges, each edge one way; the weight becomes the routing cost."""
    nodes, rest = rows_of(path, numbered(text), "NODES", 3)
    edges, more = rows_of(path, rest, "EDGES", 6)
    for at, line in more:
        notes.say("dropped", f"{path} line {at}: {line.strip()}")
    source = Source(path, "graph", bits=KBIT, links_mode="directed")
    source.nodes = [Node(str(key), row[0], (row[1], row[2])) for key, (_, row) in enumerate(nodes)]
    for at, row in edges:
        ends = _end(Spot(path, at), row[1], len(nodes)), _end(Spot(path, at), row[2], len(nodes))
        source.links.append(Link(row[0], *ends, number(row[4], Spot(path, at, f"bw of edge {told(row[0])}")), ("0", row[3], "0")))
    delays = sum(1 for _, row in edges if row[5] not in ("0", "0.0"))
    if delays:
        notes.say("dropped", f"{path}: delay of {delays} edges")
    return source


def read_demands(path: str, text: str, notes: Notes) -> Source:
    """Demands between nodes that are given by their numbers in a graph."""
    rows, more = rows_of(path, numbered(text), "DEMANDS", 4)
    for at, line in more:
        notes.say("dropped", f"{path} line {at}: {line.strip()}")
    demands = [_demand(path, at, row) for at, row in rows]
    return Source(path, "demands", matrices=[Matrix(stem(path), demands)], bits=KBIT, by_number=True)


def _demand(path: str, at: int, row: list[str]) -> Demand:
    """The demand of a row; its ends are whole numbers."""
    what = Spot(path, at)
    wrong = next((word for word in row[1:3] if not _is_whole(word)), None)
    if wrong is not None:
        raise refused(what, f"{told(wrong)} is no number of a node")
    return Demand(row[0], row[1], row[2], number(row[3], what.of(f"bw of demand {told(row[0])}")), line=at)


def _is_whole(word: str) -> bool:
    """Whether a word is a whole number that a list may have entries for."""
    return re.fullmatch("[0-9]{1,9}", word) is not None


def _end(what: str, word: str, nodes: int) -> str:
    """The number of a node as its key."""
    if not _is_whole(word) or int(word) >= nodes:
        raise refused(what, f"{told(word)} is no number of a node, of which there are {nodes}")
    return str(int(word))
