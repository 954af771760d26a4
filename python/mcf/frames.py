"""Frames of pandas and graphs of networkx, both ways; nothing else of the package imports pandas.

A frame that is handed out is the caller's own: changing it changes no network and no certificate.
"""

from __future__ import annotations

from collections.abc import Hashable, Iterable, Iterator, Mapping, Sequence
from dataclasses import dataclass
from fractions import Fraction
from numbers import Real
from typing import Any

from .given import brief, decimal_word, name_of, number_of, spelled, word_of
from .limits import MAX_WORD_BYTES
from .needs import needed
from .network import Demand, Link, Network, Node

with needed():
    import networkx
    import pandas

_PLACES = (("x", "y"), ("lon", "lat"), ("longitude", "latitude"), ("Longitude", "Latitude"))
_PAIRS = ("pos", "position")
_OWN = {"nodes": ("id", "x", "y"), "links": ("id", "source", "target", "capacity"),
        "demands": ("id", "source", "target", "amount", "longest")}
_DUE = {"nodes": ("id",), "links": ("source", "target", "capacity"), "demands": ("source", "target", "amount")}


@dataclass(frozen=True)
class Table:
    """The rows of a frame: the values of its known columns, the label of each row, and its other columns."""

    kind: str
    columns: dict[str, list[Any]]
    labels: list[Hashable]
    rest: pandas.DataFrame

    def rows(self) -> Iterator[tuple[str, dict[str, Any]]]:
        """What each row is called in a message, and its values by column; a value that is missing is None."""
        for at, label in enumerate(self.labels):
            values = {name: column[at] for name, column in self.columns.items()}
            yield f"{self.kind}, row {label!r}", {name: None if _is_missing(value) else value for name, value in values.items()}


def frame(columns: Mapping[str, Sequence[object]], exact: bool = False) -> pandas.DataFrame:
    """A frame of these columns: fractions as floats, or as they are."""
    return pandas.DataFrame({name: _column(values, exact) for name, values in columns.items()})


def _column(values: Sequence[object], exact: bool) -> pandas.Series:
    """A column; one of fractions has floats, and NaN where there is none."""
    some = [value for value in values if value is not None]
    if not exact and some and all(isinstance(value, Fraction) for value in some):
        return pandas.Series([float("nan") if value is None else float(value) for value in values], dtype=float)  # type: ignore[arg-type]
    if some and all(type(value) is int for value in some) and len(some) == len(values):
        return pandas.Series(values, dtype="int64")
    if not some and values and not exact:
        return pandas.Series([float("nan")] * len(values), dtype=float)
    return pandas.Series(values, dtype=bool if some and all(type(value) is bool for value in some) else object)


def nodes_frame(network: Network, rest: pandas.DataFrame | None) -> pandas.DataFrame:
    """Nodes: id, x and y as the file has them (mostly longitude and latitude), NaN where it has none."""
    places = [node.position or (None, None) for node in network.nodes]
    made = pandas.DataFrame({"id": pandas.Series([name_of(node.id) for node in network.nodes], dtype=object)})
    made["x"] = pandas.Series([x for x, _ in places], dtype=float)
    made["y"] = pandas.Series([y for _, y in places], dtype=float)
    return _with_rest(made, rest)


def links_frame(network: Network, rest: pandas.DataFrame | None, exact: bool) -> pandas.DataFrame:
    """Links: id, source, target, and capacity with the greatest module; where links have modules, also what is installed without."""
    links = network.links
    columns: dict[str, Sequence[object]] = {
        "id": [name_of(link.id) for link in links], "source": [name_of(link.source) for link in links],
        "target": [name_of(link.target) for link in links], "capacity": [link.installed("largest") for link in links]}
    if any(link.modules for link in links):
        columns["preinstalled"] = [link.installed("none") for link in links]
    return _with_rest(frame(columns, exact), rest)


def demands_frame(network: Network, rest: pandas.DataFrame | None, exact: bool) -> pandas.DataFrame:
    """Demands: id, source, target, amount, and the longest path in links, missing where there is no limit."""
    demands = network.demands
    made = frame({"id": [name_of(demand.id) for demand in demands], "source": [name_of(demand.source) for demand in demands],
                  "target": [name_of(demand.target) for demand in demands], "amount": [demand.amount for demand in demands]}, exact)
    made["longest"] = pandas.array([demand.hops for demand in demands], dtype="Int64")
    return _with_rest(made, rest)


def _with_rest(made: pandas.DataFrame, rest: pandas.DataFrame | None) -> pandas.DataFrame:
    """A frame with copies of the columns that were kept beside."""
    if rest is None:
        return made
    for name in rest.columns:
        made[name] = rest[name].copy(deep=True)
    return made


def table_of(given: object, kind: str) -> Table:
    """The rows of a frame, or of what pandas makes one of; an index that has the name of a column is one.

    ValueError where a column is missing or stands twice.
    """
    data = _frame_of(given, kind)
    own = _OWN[kind]
    levels = [name for name in data.index.names if name in own and name not in data.columns]
    data = data.reset_index(level=levels) if levels else data
    for name in own:
        if list(data.columns).count(name) > 1:
            raise ValueError(f"{kind}: column {name!r} stands twice")
    missing = [name for name in _DUE[kind] if name not in data.columns]
    if missing:
        raise ValueError(f"{kind}: column {missing[0]!r} is missing; there are {', '.join(map(repr, data.columns)) or 'none'}")
    rest = data[[name for name in data.columns if name not in own]].reset_index(drop=True)
    columns = {name: list(data[name].to_numpy()) for name in own if name in data.columns}
    return Table(kind, columns, list(data.index), rest)


def _frame_of(given: object, kind: str) -> pandas.DataFrame:
    """A frame of its own, of a frame, of a series of amounts with both ends as its index, or of what pandas makes a frame of."""
    if isinstance(given, pandas.DataFrame):
        return given.copy(deep=True)
    if not isinstance(given, pandas.Series):
        try:
            return pandas.DataFrame(given)
        except (ValueError, TypeError) as error:
            raise ValueError(f"{kind}: a frame is wanted, and pandas makes none of this {type(given).__name__}: {error}") from None
    series = given.copy(deep=True)
    if series.index.nlevels == 2 and list(series.index.names) == [None, None]:
        series.index = series.index.set_names(["source", "target"])
    return series.rename("amount").to_frame()


def _is_missing(value: object) -> bool:
    """Whether a cell has nothing."""
    return value is None or value is pandas.NA or value is pandas.NaT or (isinstance(value, Real) and value != value)


def nodes_of(table: Table) -> list[Node]:
    """The nodes of a frame."""
    return [Node(_word(row, "id", what), _place(row.get("x"), row.get("y"), what)) for what, row in table.rows()]


def links_of(table: Table) -> list[Link]:
    """The links of a frame; one without an id is named by its ends."""
    links, names = [], Names(table.columns.get("id", ()))
    for what, row in table.rows():
        source, target = (_word(row, end, what) for end in ("source", "target"))
        capacity = decimal_word(number_of(row["capacity"], f"{what}, capacity"))
        links.append(Link(names.own(row.get("id"), source, target, what), source, target, capacity))
    return links


def demands_of(table: Table) -> list[Demand]:
    """The demands of a frame; one without an id is named by its ends."""
    demands, names = [], Names(table.columns.get("id", ()))
    for what, row in table.rows():
        source, target = (_word(row, end, what) for end in ("source", "target"))
        amount = decimal_word(number_of(row["amount"], f"{what}, amount"))
        longest = row.get("longest")
        hops = "UNLIMITED" if longest is None else decimal_word(number_of(longest, f"{what}, longest"))
        demands.append(Demand(names.own(row.get("id"), source, target, what), source, target, "1", amount, hops))
    return demands


def demands_of_pairs(amounts: Mapping[Any, Any]) -> list[Demand]:
    """The demands of amounts by pairs of source and target."""
    rows = []
    for pair, amount in amounts.items():
        if not isinstance(pair, tuple) or len(pair) != 2:
            raise ValueError(f"demands: {pair!r} is no pair of source and target")
        rows.append({"source": pair[0], "target": pair[1], "amount": amount})
    return demands_of(table_of(pandas.DataFrame(rows, columns=["source", "target", "amount"], dtype=object), "demands"))


def _word(row: Mapping[str, Any], column: str, what: str) -> str:
    """The word of a name in a row."""
    if row[column] is None:
        raise ValueError(f"{what}: {column} is missing")
    return word_of(row[column], f"{what}, {column}")


def _place(x: object, y: object, what: str) -> tuple[str, str] | None:
    """The words of a place; ValueError where there is one number alone, or one is none."""
    if x is None and y is None:
        return None
    if x is None or y is None:
        raise ValueError(f"{what}: a place is both x and y, or none")
    words = str(x), str(y)
    try:
        float(words[0]), float(words[1])
        return word_of(words[0], what), word_of(words[1], what)
    except ValueError:
        raise ValueError(f"{what}: {x!r}, {y!r} are no coordinates") from None


class Names:
    """The words of rows, each once: their own, or made of both ends so that they are those of no row."""

    def __init__(self, given: Iterable[object]) -> None:
        """No word is taken yet; `given` are the ids of all rows, some of them missing."""
        self._given = {spelled(name) for name in given if not _is_missing(name)}
        self._taken: dict[str, str] = {}
        self._last: dict[str, int] = {}

    def own(self, name: object, source: str, target: str, what: str) -> str:
        """The word of a row; ValueError where another row has its id."""
        word = self._free(f"{source}-{target}") if name is None else word_of(name, f"{what}, id")
        if word in self._taken:
            raise ValueError(f"{what}: the id {name_of(word)!r} is that of {self._taken[word]} too")
        self._taken[word] = what
        return word

    def _free(self, first: str) -> str:
        """A word of both ends, with the least number behind it that makes it free."""
        stem = first if len(first) <= MAX_WORD_BYTES - 8 else "row"
        word, number = stem, self._last.get(stem, 1)
        while word in self._taken or name_of(word) in self._given:
            number += 1
            word = f"{stem}_{number}"
        self._last[stem] = number
        return word


def nodes_of_graph(graph: networkx.Graph) -> list[Node]:
    """The nodes of a graph, named by `str`; ValueError where two become one."""
    nodes: list[Node] = []
    seen: dict[str, object] = {}
    for node, data in graph.nodes(data=True):
        word = word_of(node, f"node {node!r}")
        if word in seen:
            raise ValueError(f"nodes {seen[word]!r} and {node!r} have one name, {name_of(word)!r}")
        seen[word] = node
        nodes.append(Node(word, _place_of(data, f"node {node!r}")))
    return nodes


def links_of_graph(graph: networkx.Graph, capacity: str) -> tuple[list[Link], pandas.DataFrame]:
    """The links of a graph, and what else its edges have, a row for each link."""
    links, rest, names = [], [], Names(data.get("id") for _, _, data in graph.edges(data=True))
    for source, target, data in graph.edges(data=True):
        what = f"edge {source!r}, {target!r}"
        if capacity not in data:
            raise ValueError(f"{what}: there is no attribute {capacity!r}; it has {', '.join(map(repr, data)) or 'none'}")
        ends = word_of(source, what), word_of(target, what)
        if (data.get("source"), data.get("target")) == (name_of(ends[1]), name_of(ends[0])) and not graph.is_directed():
            # (a graph that has no directions hands out its edges from either end)
            ends = ends[::-1]
        size = decimal_word(number_of(data[capacity], f"{what}, {capacity}"))
        links.append(Link(names.own(data.get("id"), *ends, what), *ends, size))
        rest.append({name: value for name, value in data.items() if name not in (capacity, *_OWN["links"])})
    return links, pandas.DataFrame(rest, index=range(len(links)))


def _place_of(data: Mapping[str, Any], what: str) -> tuple[str, str] | None:
    """Where a node of a graph stands, if it says so."""
    for name in _PAIRS:
        if data.get(name) is not None:
            try:
                x, y = data[name]
            except (TypeError, ValueError):
                raise ValueError(f"{what}: {name} is two numbers, and not {brief(data[name], repr)}") from None
            return _place(x, y, what)
    for across, up in _PLACES:
        if across in data and up in data:
            return None if _is_missing(data[across]) or _is_missing(data[up]) else _place(data[across], data[up], what)
    return None


def _number(value: Fraction) -> int | float | Fraction:
    """A number as an int or a float, if that is exactly it, as `number_of` reads it; else the fraction itself."""
    if value.denominator == 1:
        return value.numerator
    return float(value) if Fraction(str(float(value))) == value else value


def graph_of(network: Network, mode: str, rest: pandas.DataFrame | None) -> networkx.MultiGraph | networkx.MultiDiGraph:
    """The graph: nodes with `pos` where the network has their places; edges with their id as key and as `id`, both ends in the order of
    the network, and `capacity`; and its attribute `links`, the mode."""
    graph = networkx.MultiDiGraph(links=mode) if mode == "directed" else networkx.MultiGraph(links=mode)
    for node in network.nodes:
        graph.add_node(name_of(node.id), **({} if node.position is None else {"pos": node.position}))
    # (a frame without columns has no records, however many rows it has)
    others = [{}] * len(network.links) if rest is None or rest.columns.empty else rest.to_dict("records")
    for link, other in zip(network.links, others, strict=True):
        name, source, target = name_of(link.id), name_of(link.source), name_of(link.target)
        graph.add_edge(source, target, name)
        # (a column may have any name, as that of an argument of add_edge)
        graph.edges[source, target, name].update({str(key): value for key, value in other.items()})
        graph.edges[source, target, name].update(id=name, source=source, target=target, capacity=_number(link.installed("largest")))
    return graph


def mode_of_graph(graph: networkx.Graph) -> str:
    """How the links of a graph are read: as its attribute `links` says, where that fits its kind."""
    if graph.is_directed():
        return "directed"
    return "bidirected" if graph.graph.get("links") == "bidirected" else "undirected"

