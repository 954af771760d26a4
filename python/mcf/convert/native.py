"""Network files and lists of matrices: read as the program reads them, and written."""

from __future__ import annotations

import re
from collections.abc import Callable, Iterator
from dataclasses import dataclass, field
from fractions import Fraction
from typing import TypeVar

from ..errors import TextError
from ..limits import MAX_WORD_BYTES
from ..numbers import fraction_of
from ..scaled import LINK_MODES
from ..tokens import NATIVE
from ..tokens import tokens as tokens_of
from ..units import unit_of
from .model import Demand, Link, Matrix, Network, Node, Notes, Refused, Source, Spot, refused
from .numbers import plain
from .words import told, word_of

MODE = re.compile(rb"\b(?:un|bi)?directed\b", re.IGNORECASE)
# the comment behind the head that says how links are meant: unlike META it changes nothing of what the program counts
SAID = re.compile(rb"(?<=\n)#[ \t]*links[ \t]*=[ \t]*(undirected|directed|bidirected)[ \t\r]*(?:\n|\Z)")
HEADER = "?SNDlib native format; type: network; version: 1.0"
SECTIONS = ("NODES", "LINKS", "DEMANDS")

_Row = TypeVar("_Row", Node, Link, Demand)


@dataclass
class Tokens:
    """The tokens of a text, one after the other, with their lines."""

    path: str
    rest: Iterator[tuple[str, int]]
    line: int = 1
    ahead: str | None = None
    comments: list[tuple[int, str]] = field(default_factory=list)

    def peek(self) -> str | None:
        """The next token, or none at the end."""
        if self.ahead is None:
            self.ahead, self.line = next(self.rest, (None, self.line))
        return self.ahead

    def take(self, wanted: str | None = None) -> str:
        """The next token, which has to be the wanted one, or a word where none is told."""
        token = self.peek()
        fits = token == wanted if wanted else token is not None and token not in ("(", ")")
        if not fits or token is None:
            due = repr(wanted) if wanted else "a word"
            raise self.refused(f"{due} is due, and not {'the end' if token is None else told(token)}")
        self.ahead = None
        return token

    def words(self) -> list[str]:
        """The words of a group without groups in it."""
        self.take("(")
        found = []
        while self.peek() != ")":
            found.append(self.take())
        self.take(")")
        return found

    def refused(self, why: str) -> Refused:
        """A fault of the line that was read last."""
        return refused(Spot(self.path, self.line), why)


def tokens(path: str, data: bytes, line: int = 1) -> Tokens:
    """The tokens of a text that begins in that line; comments that have a word for how links are meant are kept beside them."""
    comments: list[tuple[int, str]] = []

    def found() -> Iterator[tuple[str, int]]:
        for token, at, _ in tokens_of(data, line):
            if token.startswith(b"#"):
                comments.extend((at, mode.decode().lower()) for mode in MODE.findall(token))
            elif len(token) > MAX_WORD_BYTES:
                raise refused(Spot(path, at), f"a word of {len(token)} bytes: at most {MAX_WORD_BYTES} are read")
            else:
                yield token.decode("utf-8", "surrogateescape"), at

    return Tokens(path, found(), line, comments=comments)


def read_network(path: str, data: bytes, notes: Notes) -> Source:
    """The rows of a network file."""
    if not data.startswith(NATIVE):
        raise refused(Spot(path, 1), f"{NATIVE.decode()} is due")
    source = Source(path, "native", native=True)
    text = tokens(path, data.partition(b"\n")[2], 2)
    demands: list[Demand] = []
    rows = _sections(text, source, notes)
    for section in SECTIONS:
        if next(rows, None) != section:
            raise text.refused(f"{section} is due, and not the end")
        if section == "NODES":
            source.nodes = _group(text, _node)
            names = {node.key for node in source.nodes}
        elif section == "LINKS":
            source.links = _group(text, lambda rest: _link(rest, names))
        else:
            demands = _group(text, lambda rest: _demand(rest, names))
    next(rows, None)
    unit = unit_of(source.meta.get("unit", ""))
    source.bits = Fraction(unit.bits) if unit and not unit.is_of_bytes else None
    source.links_mode = _links_said(source, data)
    source.mentioned = text.comments[0] if text.comments else None
    source.matrices = [Matrix("", demands)] if demands else []
    return source


def links_of(path: str, data: bytes) -> str | None:
    """How links are meant, as the comment behind the head says, or else the section META; what stands behind the first section of rows is
    read only where META may stand there."""
    if not data.startswith(NATIVE):
        raise refused(Spot(path, 1), f"{NATIVE.decode()} is due")
    source = Source(path, "native", native=True)
    text = tokens(path, data.partition(b"\n")[2], 2)
    behind = data.find(b"META", data.find(SECTIONS[0].encode())) >= 0
    for _ in _sections(text, source, Notes(quiet=True)):
        if not behind:
            break
        _skipped(text)
    return _links_said(source, data)


def _links_said(source: Source, data: bytes) -> str | None:
    """How links are meant, where the comment behind the head says it, or META has a word for it that is known."""
    comment = SAID.match(data, data.find(b"\n") + 1)
    said = comment[1].decode() if comment else source.meta.get("links")
    return said if said in LINK_MODES else None


def saying(data: bytes, mode: str) -> bytes:
    """The text of a network with the comment behind its head that says how links are meant, in place of one that is there."""
    head, _, rest = data.partition(b"\n")
    comment = SAID.match(data, len(head) + 1)
    return b"%s\n# links = %s\n%s" % (head, mode.encode(), data[comment.end() :] if comment else rest)


def _sections(text: Tokens, source: Source, notes: Notes) -> Iterator[str]:
    """The three sections in their order, each to be read before the next one is asked for; what stands between is META, or left out."""
    left = list(SECTIONS)
    while text.peek() is not None:
        section = text.take()
        if left and section == left[0]:
            yield left.pop(0)
        elif section in SECTIONS:
            raise text.refused(f"{left[0] if left else 'another section'} is due, and not {section}")
        elif section == "META":
            source.meta |= _meta(_skipped(text))
        else:
            _skipped(text)
            notes.say("dropped", f"{source.path}: section {section}")


def read_list(path: str, data: bytes) -> Source:
    """The matrices of a list."""
    text = tokens(path, data)
    source = Source(path, "list", native=True)
    names: set[str] = set()
    while text.peek() is not None:
        name = text.take()
        if name in names:
            raise text.refused(f"matrix {told(name)} stands twice")
        names.add(name)
        source.matrices.append(Matrix(name, _group(text, lambda rest: _demand(rest, None))))
    return source


def _group(text: Tokens, entry: Callable[[Tokens], tuple[_Row, int]]) -> list[_Row]:
    """The entries of a section, no two of the same name."""
    text.take("(")
    found: dict[str, _Row] = {}
    while text.peek() != ")":
        row, line = entry(text)
        if row.name in found:
            raise refused(Spot(text.path, line), f"{told(row.name)} stands twice")
        found[row.name] = row
    text.take(")")
    return list(found.values())


def _node(text: Tokens) -> tuple[Node, int]:
    name, line = text.take(), text.line
    return Node(name, name, tuple(text.words()) if text.peek() == "(" else None), line


def _ends(text: Tokens, nodes: set[str] | None) -> tuple[str, str]:
    """Two ends, each of them a node where these are known."""
    text.take("(")
    ends = _end(text, nodes), _end(text, nodes)
    text.take(")")
    return ends


def _end(text: Tokens, nodes: set[str] | None) -> str:
    name = text.take()
    if nodes is not None and name not in nodes:
        raise text.refused(f"{told(name)} is no node")
    return name


def _number(text: Tokens) -> Fraction:
    word = text.take()
    try:
        return fraction_of(word)
    except TextError:
        raise text.refused(f"{told(word)} is no number of at least 0") from None


def _link(text: Tokens, nodes: set[str]) -> tuple[Link, int]:
    name, line = text.take(), text.line
    ends, capacity = _ends(text, nodes), _number(text)
    costs = (text.take(), text.take(), text.take())
    text.take("(")
    modules: list[tuple[Fraction, str]] = []
    while text.peek() != ")":
        modules.append((_number(text), text.take()))
    text.take(")")
    return Link(name, *ends, capacity, costs, tuple(modules)), line


def _demand(text: Tokens, nodes: set[str] | None) -> tuple[Demand, int]:
    name, line = text.take(), text.line
    ends = _ends(text, nodes)
    unit, value, longest = _number(text), _number(text), text.take()
    require_longest(longest, Spot(text.path, text.line))
    return Demand(name, *ends, value, unit, longest, line), line


def require_longest(word: str, what: str) -> None:
    """Refuses a longest path that the program would refuse."""
    try:
        if word != "UNLIMITED":
            fraction_of(word)
    except TextError:
        raise refused(what, f"the longest path is UNLIMITED or a number, and not {told(word)}") from None


def _skipped(text: Tokens) -> list[str]:
    """The words of a group, however deep."""
    text.take("(")
    found, depth = [], 1
    while depth:
        token = text.peek()
        depth += {"(": 1, ")": -1}.get(token or "", 0)
        found.append(text.take(token) if token else text.take())
    return found[:-1]


def _meta(words: list[str]) -> dict[str, str]:
    """The entries `name = words` of a META section."""
    meta: dict[str, str] = {}
    name = ""
    for at, word in enumerate(words):
        if at + 1 < len(words) and words[at + 1] == "=":
            name = word
        elif word not in ("=", "(", ")") and name:
            meta[name] = f"{meta[name]} {word}" if name in meta else word
    return meta


def network_text(network: Network) -> str:
    """The text of a network file, which `mcf print` writes again but for META."""
    rows = [HEADER]
    if network.meta:
        rows += ["META (", *(f"  {word_of(k)} = {_meta_words(v)}" for k, v in network.meta.items()), ")"]
    rows += ["NODES (", *map(_node_row, network.nodes), ")"]
    rows += ["LINKS (", *map(_link_row, network.links), ")"]
    demands = network.matrices[0].demands if network.matrices else []
    rows += ["DEMANDS (", *map(_demand_row, demands), ")"]
    return "\n".join(rows) + "\n"


def list_text(network: Network) -> str:
    """The text of a list of matrices."""
    rows = []
    for matrix in network.matrices:
        rows += [f"{matrix.name} (", *map(_demand_row, matrix.demands), ")"]
    return "".join(f"{row}\n" for row in rows)


def _meta_words(value: str) -> str:
    return " ".join(word_of(word) for word in value.split())


def _node_row(node: Node) -> str:
    return f"  {node.name}" if node.place is None else f"  {node.name} ( {''.join(f'{w} ' for w in node.place)})"


def _link_row(link: Link) -> str:
    modules = "".join(f"{plain(capacity)} {cost} " for capacity, cost in link.modules)
    return (
        f"  {link.name} ( {link.source} {link.target} ) {plain(link.capacity or Fraction(0))} {' '.join(link.costs)} ( {modules})"
    )


def _demand_row(demand: Demand) -> str:
    return f"  {demand.name} ( {demand.source} {demand.target} ) {plain(demand.unit)} {plain(demand.value)} {demand.longest}"
