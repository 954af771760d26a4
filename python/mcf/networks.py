"""Networks: read from files, made of frames or of a graph, and asked how much of their demands they can carry.

A `Network` never changes; what changes one gives another. Capacities and amounts are exact: an int, a Fraction, a Decimal, a decimal as
a str, or a float that counts as the shortest decimal that gives it; at most six decimals, not negative, in a unit of your own (Gbit/s,
cars per hour), the same for all.
"""

from __future__ import annotations

import os
from collections.abc import Collection, Iterable, Mapping, Sequence
from dataclasses import dataclass, field, replace
from functools import cached_property
from typing import TYPE_CHECKING, Any, NamedTuple, Union

from . import asking
from .answers import Answer, Batch, Certificate, HopCertificate, Routing, Sweep, TotalCertificate, WhatIf
from .commands import Judgement
from .given import Number, decimal_word, name_of, number_of, word_of
from .linkmode import saying
from .needs import needed
from .network import Demand, Link, Node, write_network
from .network import Network as Rows
from .output import write
from .scaled import LINK_MODES

if TYPE_CHECKING:
    import networkx
    import pandas


Path = Union[str, "os.PathLike[str]"]


class Frames(NamedTuple):
    """The three frames of a network, as `Network.nodes`, `.links` and `.demands` have them."""

    nodes: pandas.DataFrame
    links: pandas.DataFrame
    demands: pandas.DataFrame


class Beside(NamedTuple):
    """Columns that were given beside those that are known."""

    nodes: pandas.DataFrame | None = None
    links: pandas.DataFrame | None = None
    demands: pandas.DataFrame | None = None


@dataclass(frozen=True, repr=False)
class Network:
    """Nodes, links with capacities, and demands between nodes.

    Made by `mcf.read(path)`, `Network.from_frames(links, demands)` or `Network.from_networkx(graph, demands)`.

    rows: the core's rows, for `mcf.scale` and the like.
    mode: how links are read where a call does not say: `undirected` (both ways share the capacity), `directed` or `bidirected` (each way
        has it whole).
    notes: what was dropped, renamed or rounded when a file of another format was read, a line each.
    """

    rows: Rows
    mode: str = "undirected"
    notes: tuple[str, ...] = field(default=(), compare=False)
    _file: bytes | None = field(default=None, compare=False)
    _beside: Beside = field(default=Beside(), compare=False)

    def __post_init__(self) -> None:
        """ValueError for another mode, which no tool would know."""
        if self.mode not in LINK_MODES:
            raise ValueError(f"mode is one of {', '.join(LINK_MODES)}, and not {self.mode!r}")

    # -- made

    @classmethod
    def from_rows(cls, rows: Rows, mode: str = "undirected") -> Network:
        """A network of the core's rows, as `mcf.read_network` gives them. ValueError for another mode."""
        return cls(rows, mode)

    @classmethod
    def from_frames(cls, links: Any, demands: Any, nodes: Any = None, *, directed: bool = False) -> Network:
        """A network of frames of pandas.

        links: columns source, target and capacity; id if they have names. demands: columns source, target and amount; id, and longest (how
        many links a path may have, for `hops`); or {(source, target): amount}. nodes: column id; x and y (longitude and latitude) for
        maps. Without nodes, the ends of links and demands are the nodes. An index that is named as a column counts as one. Other columns
        are kept beside and handed back by `.links`, `.demands` and `.nodes`. Names are what `str` makes of them, and of a float that is
        whole what it makes of the int, since pandas makes floats of ints as soon as one is missing.

        directed: links go from source to target alone.

        ValueError, which names the frame, the row and the column, where one is missing, a number is none (NaN, negative, finer than a
        millionth), a name has what a network text cannot hold (a blank, a parenthesis, #, over 255 bytes), or an end is no node.
        """
        from . import frames
        linked = frames.table_of(links, "links")
        made = frames.links_of(linked)
        wanted, beside = _demands(demands)
        if nodes is None:
            pairs = [*((link.source, link.target) for link in made), *((demand.source, demand.target) for demand in wanted)]
            ends = dict.fromkeys(end for pair in pairs for end in pair)
            return cls(_joined([Node(end) for end in ends], made, wanted), _mode(directed), _beside=Beside(None, linked.rest, beside))
        listed = frames.table_of(nodes, "nodes")
        rows = _joined(frames.nodes_of(listed), made, wanted)
        return cls(rows, _mode(directed), _beside=Beside(listed.rest, linked.rest, beside))

    @classmethod
    def from_networkx(cls, graph: networkx.Graph, demands: Any, capacity: str = "capacity") -> Network:
        """A network of a graph of networkx, of any of its four kinds, and of demands.

        demands: a frame (source, target, amount) or {(source, target): amount}, whose ends are nodes of the graph. capacity: the attribute
        of edges that has the capacity. The links of a directed graph go from source to target alone; those of one whose own attribute
        `links` is bidirected have their capacity each way. Parallel edges are links of their own. An edge's attribute `id` names its
        link, else its ends do. A node's `pos`, or x and y, or longitude and latitude, is its place on maps. Other attributes of edges
        are columns of `.links`, but for those named source, target and capacity, which `.links` has of its own.

        ValueError, which names the node or edge, as in `from_frames`, and where two nodes become one as strings.
        """
        from . import frames
        nodes = frames.nodes_of_graph(graph)
        links, rest = frames.links_of_graph(graph, capacity)
        wanted, beside = _demands(demands)
        return cls(_joined(nodes, links, wanted), frames.mode_of_graph(graph), _beside=Beside(None, rest, beside))

    # -- shown

    @property
    def directed(self) -> bool:
        """Whether links go from source to target alone, unless a call says otherwise."""
        return self.mode == "directed"

    @cached_property
    def data(self) -> bytes:
        """The text that the program reads: the file's own, if it was a network file, else one line for each row."""
        return write_network(self.rows).encode("latin-1") if self._file is None else self._file

    @property
    def nodes(self) -> pandas.DataFrame:
        """A frame of nodes: id, x, y (NaN where a node has no place)."""
        from .frames import nodes_frame
        return nodes_frame(self.rows, self._beside.nodes)

    @property
    def links(self) -> pandas.DataFrame:
        """A frame of links: id, source, target, capacity.

        Where links have modules, capacity is with the greatest one, as `solve` takes it unless told otherwise, and preinstalled is the
        capacity without any.
        """
        from .frames import links_frame
        return links_frame(self.rows, self._beside.links, False)

    @property
    def demands(self) -> pandas.DataFrame:
        """A frame of demands: id, source, target, amount, longest (links of a path at most; missing where there is no limit)."""
        from .frames import demands_frame
        return demands_frame(self.rows, self._beside.demands, False)

    def frames(self, exact: bool = False) -> Frames:
        """Nodes, links and demands as frames; with `exact`, capacities and amounts are Fractions in place of floats."""
        from .frames import demands_frame, links_frame
        links = links_frame(self.rows, self._beside.links, exact)
        return Frames(self.nodes, links, demands_frame(self.rows, self._beside.demands, exact))

    def to_networkx(self) -> networkx.MultiGraph | networkx.MultiDiGraph:
        """A multigraph, directed if the network is: nodes with `pos` if known; edges with their id as key and as `id`, their `source` and
        `target`, and `capacity`, which is an int, a float, or, where neither has all its digits, a Fraction; the mode as its `links`.

        Demands have no place in it; `.demands` has them. `from_networkx` gives the network back; of undirected links in another order,
        since the graph has them by their nodes.
        """
        from .frames import graph_of
        return graph_of(self.rows, self.mode, self._beside.links)

    def __repr__(self) -> str:
        """The numbers of rows."""
        rows = self.rows
        mode = "" if self.mode == "undirected" else f", {self.mode}"
        return f"<mcf.Network: {len(rows.nodes)} nodes, {len(rows.links)} links, {len(rows.demands)} demands{mode}>"

    def save(self, path: Path) -> None:
        """Writes a network file, whole or not at all, which `mcf check` and all tools read. TextError where it cannot be written.

        A comment behind its first line says how links are read, as `# links = directed`, where the text does not say it already and it is
        not the usual way; tools and `mcf.read` read them so. Certificates of the network are those of the file, and the other way round.
        """
        write(os.fspath(path), saying(self.data, self.mode))

    # -- changed

    def with_capacities(self, capacities: Mapping[str, Number]) -> Network:
        """The network with other capacities of some links, {id: capacity}; their modules are taken away. ValueError for an unknown id."""
        wanted = self._numbers(capacities, [link.id for link in self.rows.links], "link")
        links = tuple(replace(link, capacity=wanted[link.id], modules=()) if link.id in wanted else link for link in self.rows.links)
        return replace(self, rows=replace(self.rows, links=links), _file=None)

    def with_demands(self, demands: Any) -> Network:
        """The network with other demands: all of a frame or of {(source, target): amount}; or the same with other amounts, {id: amount}.

        ValueError as in `from_frames`, for an unknown id, and for {}, which may mean either.
        """
        if isinstance(demands, Mapping) and not demands:
            raise ValueError("demands: {} has neither pairs nor ids, so it may mean none at all or no change: an empty frame means none")
        if isinstance(demands, Mapping) and not any(isinstance(key, tuple) for key in demands):
            wanted = self._numbers(demands, [demand.id for demand in self.rows.demands], "demand")
            rows = tuple(replace(row, unit="1", value=wanted[row.id]) if row.id in wanted else row for row in self.rows.demands)
            return replace(self, rows=replace(self.rows, demands=rows), _file=None)
        made, beside = _demands(demands)
        rows_of_all = _joined(self.rows.nodes, self.rows.links, made)
        return replace(self, rows=rows_of_all, _file=None, _beside=self._beside._replace(demands=beside))

    def scaled_demands(self, factor: Number) -> Network:
        """The network with all amounts times a number. ValueError where one then has more than six decimals."""
        times = number_of(factor, "factor")
        amounts = {name_of(demand.id): demand.amount * times for demand in self.rows.demands}
        return self.with_demands(amounts) if amounts else self

    def without(self, links: Collection[str] = (), nodes: Collection[str] = ()) -> Network:
        """The network without some links and nodes; with a node its links go, and the demands from and to it.

        To keep what a failed node wanted as demands without a way, take its links alone. ValueError for an unknown id.
        """
        gone = self._known(links, [link.id for link in self.rows.links], "link")
        lost = self._known(nodes, [node.id for node in self.rows.nodes], "node")
        rows = self.rows
        nodes_at = [at for at, node in enumerate(rows.nodes) if node.id not in lost]
        links_at = [at for at, link in enumerate(rows.links) if link.id not in gone and not {link.source, link.target} & lost]
        demands_at = [at for at, demand in enumerate(rows.demands) if not {demand.source, demand.target} & lost]
        left = Rows(tuple(rows.nodes[at] for at in nodes_at), tuple(rows.links[at] for at in links_at),
                    tuple(rows.demands[at] for at in demands_at))
        places = (nodes_at, links_at, demands_at)
        kept = (rest if rest is None else rest.iloc[at].reset_index(drop=True) for rest, at in zip(self._beside, places))
        return replace(self, rows=left, _file=None, _beside=Beside(*kept))

    def _known(self, names: Iterable[str], words: Iterable[str], what: str) -> set[str]:
        """The words of names that rows have; a name alone is no list of names."""
        if isinstance(names, str):
            raise ValueError(f"{what}s: a list of ids is wanted, and {names!r} is one str")
        there = set(words)
        found = {name: word_of(name, f"{what} {name!r}") for name in names}
        unknown = next((name for name, word in found.items() if word not in there), None)
        if unknown is not None:
            raise ValueError(f"the network has no {what} {unknown!r}")
        return set(found.values())

    def _numbers(self, numbers: Mapping[str, Number], words: Iterable[str], what: str) -> dict[str, str]:
        """The words of numbers by those of ids that rows have."""
        self._known(numbers, words, what)
        return {word_of(name, what): decimal_word(number_of(value, f"{what} {name!r}")) for name, value in numbers.items()}

    # -- asked

    def solve(self, *, gap: Number | None = None, phases: int | None = None, step: int | None = None, workers: int | None = None,
              links: str | None = None, modules: str | None = None, timeout: float | None = None) -> Certificate:
        """Which fraction of every demand can be carried at once: a certificate, which the proved check called valid.

        gap: by what part upper may be above lower (0.05); at most six decimals. phases: how often each demand is routed at most, 1 to
        65,536 (1,000, fewer for many demands). step: 1 to 1,048,576 (8,192; of `mcf-wide` 524,288). workers: 1 to 16 (1, and 4 from 4,000
        demands on); with several, paths depend on the schedule. links: `undirected`, `directed` or `bidirected` (the network's `mode`).
        modules: `largest`, `none` or `sum` (largest). timeout: in seconds, for each run of a program: the solver's, and the check's.
        Whether the gap was met is `.closed`; both bounds hold in any case.

        Refused where the network has a fault (no demand; more than 512 nodes, 4,096 links or 32,768 demands, or than `mcf-wide` takes
        where it is there), Usage where an option is out of its range, and the other errors of `mcf.McfError`.
        """
        options = dict(gap=gap, phases=phases, step=step, workers=workers, links=links, modules=modules)
        return asking.solved(self, Certificate, "solve", options, timeout)

    def hops(self, *, gap: Number | None = None, phases: int | None = None, step: int | None = None, links: str | None = None,
             modules: str | None = None, timeout: float | None = None) -> HopCertificate:
        """As `solve`, with paths that keep to the longest path of each demand (the column longest of `.demands`, in links)."""
        options = dict(gap=gap, phases=phases, step=step, links=links, modules=modules)
        return asking.solved(self, HopCertificate, "hops", options, timeout)

    def throughput(self, *, gap: Number | None = None, phases: int | None = None, step: int | None = None, links: str | None = None,
                   modules: str | None = None, timeout: float | None = None) -> TotalCertificate:
        """The greatest total that can be carried, each demand in part: `.lower` and `.upper` are totals, in the network's unit."""
        options = dict(gap=gap, phases=phases, step=step, links=links, modules=modules)
        return asking.solved(self, TotalCertificate, "throughput", options, timeout)

    def certify(self, kind: str = "solve", *, gap: Number | None = None, seconds: float = 300.0, links: str | None = None,
                modules: str | None = None, progress: bool = True, timeout: float | None = None) -> Certificate:
        """The exact optimum, or nearly, by a linear program: a certificate, which the proved check called valid.

        kind: `solve`, `hops` or `throughput`. gap: the one to be met, from 0 on; without it the true one, rounded up to millionths.
        seconds: then the best so far is handed out. progress: a bar on a terminal or in a notebook. McfError where there is none.
        """
        return asking.certified(self, kind, dict(gap=gap, seconds=seconds, links=links, modules=modules), progress, timeout)

    def route(self, by: str = "hops", *, lengths: str | None = None, cost: str | None = None, paths: int | None = None,
              links: str | None = None, modules: str | None = None, seconds: float = 60.0, timeout: float | None = None) -> Routing:
        """The routing that a network has today, which the proved check called feasible.

        by: `hops`, `capacity` (lengths of one over capacity) or `cost`: the shortest path of each demand; `ecmp`: equal shares over all
        shortest paths; `k-paths`: the best split over `paths` of them. lengths: those of ecmp and k-paths, `hops`, `capacity` or `cost`.
        cost: which one of the file, `routing`, `capacity` or `setup`. McfError where a demand has no way.
        """
        options = dict(by=by, lengths=lengths, cost=cost, paths=paths, links=links, modules=modules, seconds=seconds)
        return asking.routed(self, options, timeout)

    def batch(self, matrices: Mapping[str, Any], *, gap: Number | None = None, phases: int | None = None, step: int | None = None,
              links: str | None = None, modules: str | None = None, progress: bool = True, timeout: float | None = None) -> Batch:
        """A certificate for each demand matrix, on the same nodes and links; all judged valid.

        matrices: {name: what `with_demands` takes}, as many as you like; names are what `str` makes of them. timeout: for each run of the
        program, of up to 64 matrices. ValueError, which names the matrix, where one cannot be, or two have one name.
        """
        options = dict(gap=gap, phases=phases, step=step, links=links, modules=modules)
        return asking.batch(self, matrices, options, progress, timeout)

    def sweep(self, certificate: Certificate | Path, *, timeout: float | None = None) -> Sweep:
        """What a certificate, or that of a path, is still worth without each single link: both bounds for each, without solving again.

        The paths stay as they are, so lower is 0 where one goes over the link; `sweepsolve` finds others. Upper holds for all routings.
        """
        return asking.swept(self, certificate, timeout)

    def sweepsolve(self, *, gap: Number | None = None, phases: int | None = None, step: int | None = None, links: str | None = None,
                   modules: str | None = None, timeout: float | None = None) -> Sweep:
        """The network solved anew without each single link: both bounds for each, and whether the gap was met."""
        return asking.sweep_solved(self, dict(gap=gap, phases=phases, step=step, links=links, modules=modules), timeout)

    def whatif(self, certificate: Certificate | Path, edits: Sequence[tuple[Any, ...]], *, timeout: float | None = None) -> WhatIf:
        """What a certificate, or that of a path, is still worth after each of some edits, one behind the other, without solving again.

        edits: ("set", link, capacity), ("add", link, capacity), ("sub", link, capacity) or ("close", link). Numbers are in the network's
        unit, with at most as many decimals as its others. ValueError where an edit is none or names an unknown link.
        """
        return asking.what_if(self, certificate, edits, timeout)

    def tighten(self, *certificates: Certificate | Path, timeout: float | None = None) -> Certificate:
        """The best certificate that one or more of this network, or those of paths, give together, with the bounds of cuts that they
        point to."""
        return asking.tightened(self, certificates, timeout)

    def check(self, certificate: Answer | Path, *, timeout: float | None = None) -> Judgement:
        """What the proved check says of a certificate of any kind or a routing, as a value; a path is that of a file.

        Of an object that was not judged it is kept too, as its `.judged`. Refused where the text is none of this network, as by names or
        counts that differ.
        """
        return asking.checked(self, certificate, timeout)

    def load(self, path: Path) -> Answer:
        """The certificate of any kind, or the routing, of a file. It says that it is not judged until `check` has judged it."""
        return asking.loaded(self, path)


def read(path: Path, *more: Path, **options: Any) -> Network:
    """The network of a file, or of several that belong together (links, demands and places as tables).

    Formats are told by their contents, also within gzip: SNDlib native and XML, GraphML (Topology Zoo, networkx, Gephi), REPETITA, CSV of
    links (source, target, capacity), of demands (source, target, amount) and of places (node, x, y). Options are those of the tool
    convert: capacity (the attribute of GraphML), capacity_default (of links that have none, as "10G"), unit and from_unit ("Gbit", ..),
    round (to so many decimals, 0 to 6), merge (demands of the same ends become one), gravity (demands of so much in all, made up where
    there are none), scale (all demands times a number). What was dropped, renamed or rounded is in `.notes`.

    A network file is handed to the program as it stands, so certificates of the network are those of the file.
    Refused where a file is no network, with the line; ReadFault where it cannot be read; ValueError for another option.
    """
    paths = [os.fspath(one) for one in (path, *more)]
    with needed():
        from .reading import read_files
    return read_files(paths, options)


def of(network: Network | Path) -> Network:
    """A network as it is, or that of a path."""
    return network if isinstance(network, Network) else read(network)


def check(network: Network | Path, certificate: Answer | Path, *, timeout: float | None = None) -> Judgement:
    """What the proved check says of a certificate or routing: `Network.check`. Both may be paths of files."""
    return of(network).check(certificate, timeout=timeout)


def solve(network: Network | Path, **options: Any) -> Certificate:
    """`Network.solve` of a network or of a file."""
    return of(network).solve(**options)


def certify(network: Network | Path, kind: str = "solve", **options: Any) -> Certificate:
    """`Network.certify` of a network or of a file."""
    return of(network).certify(kind, **options)


def _mode(directed: bool) -> str:
    """The mode of links."""
    return "directed" if directed else "undirected"


def _demands(given: Any) -> tuple[list[Demand], Any]:
    """The demands of a frame or of pairs, and the columns beside."""
    from . import frames
    if isinstance(given, Mapping) and all(isinstance(key, tuple) for key in given):
        return frames.demands_of_pairs(given), None
    table = frames.table_of(given, "demands")
    return frames.demands_of(table), table.rest


def _joined(nodes: Sequence[Node], links: Sequence[Link], demands: Sequence[Demand]) -> Rows:
    """The rows, whose ends have to be nodes; each node once."""
    names = {node.id for node in nodes}
    if len(names) != len(nodes):
        double = next(node.id for at, node in enumerate(nodes) if node.id in {other.id for other in nodes[:at]})
        raise ValueError(f"nodes: {name_of(double)!r} stands twice")
    _require_ends("link", links, names)
    _require_ends("demand", demands, names)
    return Rows(tuple(nodes), tuple(links), tuple(demands))


def _require_ends(what: str, rows: Sequence[Link] | Sequence[Demand], names: set[str]) -> None:
    """ValueError where an end is no node."""
    lost = next(((row, end) for row in rows for end in (row.source, row.target) if end not in names), None)
    if lost is not None:
        raise ValueError(f"{what} {name_of(lost[0].id)!r}: {name_of(lost[1])!r} is no node")
