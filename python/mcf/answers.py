"""What the commands answer: certificates of three kinds, routings, and tables of bounds.

Bounds are exact fractions. A frame has floats; with `exact=True` it has the fractions themselves. What is shown of an answer says what the
proved check said of it in this process, or that it is not judged.
"""

from __future__ import annotations

import html
import json
import os
from collections.abc import Callable, Iterator, Mapping
from dataclasses import dataclass, field
from fractions import Fraction
from functools import cached_property, lru_cache
from typing import TYPE_CHECKING, Any, ClassVar, SupportsIndex, overload

from . import certificate as core
from . import values, version
from .commands import Judgement
from .errors import TextError
from .given import name_of
from .numbers import decimal_of, rounded_down, rounded_up
from .output import write
from .scaled import ScaledNetwork, scale

if TYPE_CHECKING:
    import matplotlib.figure
    import pandas

    from .networks import Network, Path

NOT_JUDGED = "not judged"
Columns = dict[str, list[Any]]


@dataclass(frozen=True, repr=False)
class Answer:
    """A certificate or a routing of a network.

    network: the network that it is of. data: its text, as the program reads it. notes: what the tool said that made it, a line each, as how
    far a routing is below the best.
    """

    kind: ClassVar[str] = ""

    network: Network
    data: bytes
    notes: tuple[str, ...] = field(default=(), compare=False)
    _said: list[Judgement] = field(default_factory=list, compare=False)

    @classmethod
    def from_text(cls, text: str | bytes, network: Network) -> Answer:
        """The certificate of any kind, or the routing, of a text; TextError, with the line, where it is none. It is not judged."""
        data = text.encode("utf-8", "surrogateescape") if isinstance(text, str) else text
        return answer_of(network, data)

    # -- what it says

    @property
    def text(self) -> str:
        """The text, which `mcf check` and other checkers read."""
        return self.data.decode("utf-8", "surrogateescape")

    @cached_property
    def rows(self) -> core.Routing:
        """The core's rows of the text, for `mcf.loads`, `mcf.lengths` and the like."""
        return core.read_any(self.data.decode("latin-1"))

    def require_rows(self) -> None:
        """TextError, with the line, where the text is none."""
        getattr(self, "rows")

    @cached_property
    def scaled(self) -> ScaledNetwork:
        """The network in whole units, with links and modules as the text reads them."""
        return scale(self.network.rows, self.rows.links, self.rows.modules)

    @property
    def judged(self) -> Judgement | None:
        """What the proved check said of it in this process; None where it was not asked, as for one that was read from a file."""
        return self._said[-1] if self._said else None

    @property
    def lower(self) -> Fraction:
        """The fraction of every demand that the paths carry at once: 1 or more where all demands fit."""
        return values.lower(self.rows) if self.rows.scale_load else Fraction(0)

    @property
    def upper(self) -> Fraction | None:
        """The fraction of every demand that no routing exceeds; None of a routing, which shows no bound."""
        return None

    @property
    def closed(self) -> bool | None:
        """Whether both bounds are within the gap that was asked for; None of a routing."""
        return None

    @property
    def gap(self) -> Fraction | None:
        """By what part upper is above lower, 0 where both are equal; None where that is not known, or lower alone is 0."""
        return None if self.upper is None else values.true_gap(self.lower, self.upper)

    @property
    def phases(self) -> int:
        """How often each demand was routed; 0 where some demand has no way, and nothing is carried."""
        return self.rows.phases

    # -- tables

    @property
    def paths(self) -> pandas.DataFrame:
        """A frame of paths: demand, nodes and links (tuples of names, in order), share, amount.

        share: the part of the demand that goes over the path; all of a demand's are 1 together (of a total: at most 1). amount: how much
        that is when the lower fraction is carried, in the network's unit.
        """
        return _frame(self._paths(), False)

    def link_table(self, *, at_lower: bool = False, exact: bool = False) -> pandas.DataFrame:
        """A frame of links: link, source, target, capacity, load, utilisation, share_of_bound.

        load: what flows over the link if the paths carry each demand once; with `at_lower`, if they carry the lower fraction of it, so
        that everything fits; of a total, what is carried; in the network's unit. utilisation: load over capacity, 1 where the link is
        full; missing where it has no capacity. share_of_bound: the part of the upper bound that is due to the link; 0 where more capacity
        there leaves this bound as it is (no such column for a routing). Of bidirected links each way is a row.
        """
        return _frame(self._links(at_lower), exact)

    def demand_table(self, *, exact: bool = False) -> pandas.DataFrame:
        """A frame of demands with an amount: demand, source, target, amount, carried, share, paths, most_links.

        carried: how much of it the paths carry within all capacities. share: carried over amount. paths: over how many it is split.
        most_links: the links of its longest path.
        """
        return _frame(self._demands(), exact)

    def bottleneck(self, *, exact: bool = False) -> pandas.DataFrame:
        """The links of the link table with a share of the bound, the greatest first: those that hold the answer back."""
        columns = self._links(False)
        shares: list[Fraction] = columns.get("share_of_bound", [])
        order = sorted((at for at, share in enumerate(shares) if share), key=lambda at: -shares[at])
        return _frame({name: [column[at] for at in order] for name, column in columns.items()}, exact)

    @cached_property
    def _weights(self) -> list[int]:
        """The load of each cell in weights."""
        return values.loads(self.scaled, self.rows)

    def _load_factor(self, at_lower: bool) -> Fraction:
        """What a weight is, in the network's unit."""
        rows, unit = self.rows, Fraction(1, 10**self.scaled.decimals)
        if at_lower:
            return unit * Fraction(rows.scale_capacity, rows.scale_load) if rows.scale_load else Fraction(0)
        return unit / rows.phases if rows.phases else Fraction(0)

    def _shares(self) -> list[Fraction] | None:
        """The share of each cell in the bound."""
        return None

    def _links(self, at_lower: bool) -> Columns:
        """The columns of the link table."""
        scaled, names = self.scaled, self._names
        cells = scaled.cells
        factor = self._load_factor(at_lower)
        capacity = [scaled.in_file_unit(cell.capacity) for cell in cells]
        load = [weight * factor for weight in self._weights]
        columns: Columns = {
            "link": [name_of(scaled.network.links[cell.link].id) for cell in cells], "source": [names[cell.tail] for cell in cells],
            "target": [names[cell.head] for cell in cells], "capacity": capacity, "load": load,
            "utilisation": [flow / size if size else None for flow, size in zip(load, capacity)]}
        shares = self._shares()
        return columns if shares is None else {**columns, "share_of_bound": shares}

    @cached_property
    def _names(self) -> list[str]:
        """The names of nodes."""
        return [name_of(node.id) for node in self.network.rows.nodes]

    def _share_of(self, weight: int, amount: int) -> Fraction:
        """The part of a demand that a path of a weight carries."""
        return Fraction(weight, self.rows.phases * amount) if self.rows.phases else Fraction(0)

    def _paths(self) -> Columns:
        """The columns of the paths."""
        scaled, factor = self.scaled, self._load_factor(True)
        found: Columns = {"demand": [], "nodes": [], "links": [], "share": [], "amount": []}
        for path in self.rows.paths:
            commodity = scaled.commodities[_commodity(scaled, path.demand)]
            cells = values.cells_of_path(scaled, self.rows.form, path)
            found["demand"].append(name_of(path.demand))
            found["nodes"].append(tuple(self._names[node] for node in values.nodes_of_walk(scaled, commodity.source, cells)))
            found["links"].append(tuple(name_of(scaled.network.links[scaled.cells[cell].link].id) for cell in cells))
            found["share"].append(self._share_of(path.weight, commodity.amount))
            found["amount"].append(path.weight * factor)
        return found

    def _demands(self) -> Columns:
        """The columns of the demand table."""
        scaled, factor, names = self.scaled, self._load_factor(True), self._names
        commodities = scaled.commodities
        weight, count, most = ([0] * len(commodities) for _ in range(3))
        for path in self.rows.paths:
            at = _commodity(scaled, path.demand)
            weight[at] += path.weight
            count[at] += path.weight > 0
            most[at] = max(most[at], len(path.cells))
        amount = [scaled.in_file_unit(commodity.amount) for commodity in commodities]
        carried = [of * factor for of in weight]
        return {"demand": [name_of(scaled.demand_id(at)) for at in range(len(commodities))],
                "source": [names[commodity.source] for commodity in commodities],
                "target": [names[commodity.target] for commodity in commodities], "amount": amount, "carried": carried,
                "share": [part / whole for part, whole in zip(carried, amount)], "paths": count, "most_links": most}

    # -- shown and written

    def plot(self, ax: Any = None, *, at_lower: bool = False) -> matplotlib.figure.Figure:
        """A figure of matplotlib: the map, links coloured by utilisation and as thick as their share of the bound.

        Nodes stand where the network says, else where springs put them. ax: axes to draw into; without it a new figure.
        """
        from .plots import figure_of
        return figure_of(self, ax, at_lower)

    def save(self, path: Path) -> None:
        """Writes the text, whole or not at all, for `mcf check` and other checkers. TextError where it cannot be written."""
        write(os.fspath(path), self.data)

    def to_json(self, *, tables: bool = True, indent: int | None = None) -> str:
        """JSON of what it says: exact fractions as strings, floats beside. `tables` adds links, demands and paths.

        docs/study/json.md explains its properties, and `mcf.jsons.schema("answer")` has their grammar.
        """
        said: dict[str, Any] = {
            "version": version.version(), "commit": _commit(), "kind": self.kind, "judged": self.judged.line if self.judged else None,
            "judgement": self.judged.verdict if self.judged else NOT_JUDGED, "closed": self.closed, "links": self.rows.links,
            "modules": self.rows.modules, "phases": self.phases, "lower": _json(self.lower), "upper": _json(self.upper),
            "gap": _json(self.gap), "notes": list(self.notes)}
        if tables:
            said |= {"link_table": _records(self._links(False)), "demand_table": _records(self._demands()),
                     "paths": _records(self._paths())}
        return json.dumps(said, indent=indent)

    @property
    def _heading(self) -> list[tuple[str, str]]:
        """What is shown of it."""
        rows = [("judged", self.judged.line.split(" ")[0] if self.judged else NOT_JUDGED), ("lower", _shown(self.lower))]
        if self.upper is not None:
            gap = "unknown" if self.gap is None else _shown(self.gap, True).split(" ")[0]
            rows += [("upper", _shown(self.upper, True)), ("gap", f"{gap} ({'closed' if self.closed else 'open'})")]
        return rows

    def __repr__(self) -> str:
        """Both bounds, and whether it is judged."""
        return f"<mcf.{type(self).__name__}: {', '.join(f'{name} {value}' for name, value in self._heading)}>"

    def _repr_html_(self) -> str:
        """The same for a notebook, with the links that hold the bound."""
        head = "".join(f"<tr><th>{html.escape(name)}</th><td>{html.escape(value)}</td></tr>" for name, value in self._heading)
        notes = "".join(f"<p>{html.escape(note)}</p>" for note in self.notes)
        title = f"<b>{html.escape(type(self).__name__)}</b><table>{head}</table>{notes}"
        return title if self._shares() is None else f"{title}{self.bottleneck().head(10).to_html(index=False)}"


class Routing(Answer):
    """Paths alone, as `Network.route` gives them: which fraction they carry, and no bound on others. Judged as feasible."""

    kind = "routing"


class Certificate(Answer):
    """Paths that carry one fraction of every demand at once, and lengths that show that no routing carries more than another."""

    kind = "certificate"

    @property
    def _bounds(self) -> core.Certificate:
        """The rows as those of a certificate."""
        assert isinstance(self.rows, core.Certificate)
        return self.rows

    @property
    def upper(self) -> Fraction:
        """The fraction of every demand that no routing exceeds, whatever paths it takes: below 1 not all demands fit."""
        return Fraction(*self._bounds.upper)

    @property
    def closed(self) -> bool:
        """Whether both bounds are within the gap that was asked for."""
        return self._bounds.verdict == "closed"

    def _shares(self) -> list[Fraction]:
        """The share of each cell in the bound."""
        return values.shares_of_bound(self.scaled, self._bounds)


class HopCertificate(Certificate):
    """A certificate whose paths, and those of all routings that its bound is on, keep to the longest paths of demands."""

    kind = "hops"

    @property
    def upper(self) -> Fraction:
        """The fraction of every demand that no routing within these limits exceeds; others may."""
        return super().upper


class TotalCertificate(Certificate):
    """A certificate of the greatest total: each demand is carried in part. `lower` and `upper` are totals in the network's unit."""

    kind = "throughput"

    @property
    def lower(self) -> Fraction:
        """How much the paths carry together, in the network's unit."""
        return self.scaled.in_file_unit(super().lower)

    @property
    def upper(self) -> Fraction:
        """The total that no routing exceeds, in the network's unit."""
        return self.scaled.in_file_unit(super().upper)

    def _load_factor(self, at_lower: bool) -> Fraction:
        """What a weight is: of a total, only what is carried makes sense."""
        return super()._load_factor(True)

    def _share_of(self, weight: int, amount: int) -> Fraction:
        """The part of a demand that a path of a weight carries."""
        rows = self.rows
        return Fraction(weight * rows.scale_capacity, rows.scale_load * amount) if rows.scale_load else Fraction(0)

    def _shares(self) -> list[Fraction]:
        """The share of each cell in the bound; what demands themselves hold back is the rest."""
        assert isinstance(self.rows, core.TotalCertificate)
        volume = values.volume(self.scaled, self.rows)
        whole = volume + values.excess(self.scaled, self.rows)
        return [share * volume / whole if whole else Fraction(0) for share in super()._shares()]


_KINDS: dict[str, type[Answer]] = {
    core.Routing.header: Routing, core.HopCertificate.header: HopCertificate, core.TotalCertificate.header: TotalCertificate}


def answer_of(network: Network, data: bytes, notes: tuple[str, ...] = ()) -> Answer:
    """The answer of a text, of its own kind; TextError, with the line, where it is none."""
    kind = _KINDS.get(data.split(b" ", 1)[0].decode("latin-1"), Certificate)
    made = kind(network, data, notes)
    made.require_rows()
    return made


@dataclass(frozen=True)
class Bounds:
    """Both bounds of a case: `case` names it. Of a case that was solved anew, whether its gap was met, and its phases."""

    case: str
    lower: Fraction
    upper: Fraction
    closed: bool | None = None
    phases: int | None = None


@dataclass(frozen=True, repr=False)
class Cases:
    """Bounds of several cases, in their order: a sequence of `Bounds`, and a frame by `table()`."""

    heading: ClassVar[str] = "case"

    rows: tuple[Bounds, ...]

    def __len__(self) -> int:
        """How many cases there are."""
        return len(self.rows)

    def __iter__(self) -> Iterator[Bounds]:
        """The cases."""
        return iter(self.rows)

    @overload
    def __getitem__(self, case: SupportsIndex | str) -> Bounds: ...

    @overload
    def __getitem__(self, case: slice) -> tuple[Bounds, ...]: ...

    def __getitem__(self, case: SupportsIndex | str | slice) -> Bounds | tuple[Bounds, ...]:
        """A case by its place, or the first one of a name; cases by a slice. KeyError where there is no such name."""
        if not isinstance(case, str):
            return self.rows[case]
        found = next((row for row in self.rows if row.case == case), None)
        if found is None:
            raise KeyError(case)
        return found

    def table(self, exact: bool = False) -> pandas.DataFrame:
        """A frame: the case, lower and upper; of cases that were solved anew also closed and phases."""
        rows = self.rows
        columns: Columns = {self.heading: [row.case for row in rows], "lower": [row.lower for row in rows],
                            "upper": [row.upper for row in rows]}
        if any(row.closed is not None for row in rows):
            columns |= {"closed": [row.closed for row in rows], "phases": [row.phases for row in rows]}
        return _frame(columns, exact)

    def to_json(self, indent: int | None = None) -> str:
        """JSON of the rows: exact fractions as strings, floats beside."""
        return json.dumps([{self.heading: row.case, "lower": _json(row.lower), "upper": _json(row.upper), "closed": row.closed,
                            "phases": row.phases} for row in self.rows], indent=indent)

    def __repr__(self) -> str:
        """How many cases there are."""
        return f"<mcf.{type(self).__name__}: {len(self.rows)} cases, each with both bounds; .table() is a frame>"

    def _repr_html_(self) -> str:
        """The table."""
        return str(self.table().to_html(index=False))


class Sweep(Cases):
    """Both bounds without each single link, in the order of the links."""

    heading = "link"


class WhatIf(Cases):
    """Both bounds behind each edit, in their order."""

    heading = "edit"


@dataclass(frozen=True, repr=False)
class Batch(Mapping[str, Certificate]):
    """Certificates by the names of their matrices, in their order; each has its own network."""

    certificates: dict[str, Certificate]

    def __getitem__(self, name: str) -> Certificate:
        """The certificate of a matrix."""
        return self.certificates[name]

    def __iter__(self) -> Iterator[str]:
        """The names of matrices."""
        return iter(self.certificates)

    def __len__(self) -> int:
        """How many matrices there are."""
        return len(self.certificates)

    def table(self, exact: bool = False) -> pandas.DataFrame:
        """A frame: matrix, lower, upper, closed, phases, judged."""
        some = self.certificates.values()
        return _frame({
            "matrix": list(self.certificates), "lower": [one.lower for one in some], "upper": [one.upper for one in some],
            "closed": [one.closed for one in some], "phases": [one.phases for one in some],
            "judged": [one.judged.verdict if one.judged else NOT_JUDGED for one in some]}, exact)

    def to_json(self, indent: int | None = None) -> str:
        """JSON of all certificates, without their tables, by the names of matrices."""
        return json.dumps({name: json.loads(one.to_json(tables=False)) for name, one in self.certificates.items()}, indent=indent)

    def __repr__(self) -> str:
        """How many matrices there are."""
        return f"<mcf.Batch: {len(self)} matrices, each with its certificate; .table() is a frame>"

    def _repr_html_(self) -> str:
        """The table."""
        return str(self.table().to_html(index=False))


def _frame(columns: Columns, exact: bool) -> pandas.DataFrame:
    """A frame of columns."""
    from .frames import frame
    return frame(columns, exact)


def _commodity(scaled: ScaledNetwork, demand: str) -> int:
    """The number of a demand's commodity."""
    try:
        return scaled.commodity_of[demand]
    except KeyError:
        raise TextError(f"the network has no demand {name_of(demand)} of an amount") from None


def _shown(value: Fraction, up: bool = False) -> str:
    """A bound with six decimals, rounded so that it still holds, and the fraction itself where that is short."""
    whole = (rounded_up if up else rounded_down)(value.numerator, value.denominator)
    exact = f" ({value})" if value.denominator > 1 and len(str(value)) < 24 else ""
    return decimal_of(whole) + exact


@lru_cache(maxsize=1)
def _commit() -> str:
    """The commit, which is asked for once."""
    return version.commit()


def _json(value: object) -> object:
    """A value for JSON: a fraction as its exact string and as a float."""
    if isinstance(value, Fraction):
        return {"exact": str(value), "float": float(value)}
    return list(value) if isinstance(value, tuple) else value


def _records(columns: Columns) -> list[dict[str, object]]:
    """The rows of columns."""
    names: Callable[[tuple[object, ...]], dict[str, object]] = lambda row: dict(zip(columns, map(_json, row)))
    return [names(row) for row in zip(*columns.values())]
