"""CSV: tables of links, of nodes, and of demands as lists or as squares."""

from __future__ import annotations

import csv
import io
import re
from collections.abc import Iterator
from dataclasses import dataclass, replace
from fractions import Fraction
from typing import TYPE_CHECKING

from ..names import cell_of, text_of
from ..units import of_head, unit_of
from .files import stem
from .model import Demand, Link, Matrix, Network, Node, Notes, Refused, Source, Spot, refused
from .native import require_longest
from .numbers import NUMBER, Form, Unit, is_rate, number, plain, rate
from .words import BLANKS, told

if TYPE_CHECKING:
    import _csv

ROLES = {
    "id": ("id", "link", "demand", "name", "label", "key", "edge", "link_id", "demand_id"),
    "node": ("node", "node_id", "site", "city", "pop", "router"),
    "source": ("source", "src", "from", "a", "origin", "tail", "node1", "u", "source_node", "a_end"),
    "target": ("target", "dst", "dest", "to", "b", "destination", "head", "sink", "node2", "v", "target_node", "z", "z_end"),
    "capacity": ("capacity", "cap", "bandwidth", "bw", "speed"),
    "amount": ("amount", "demand_value", "value", "traffic", "volume", "demand", "rate"),
    "unit": ("unit", "routing_unit"),
    "longest": ("longest", "max_path_length", "max_hops"),
    "capacity_cost": ("capacity_cost",),
    "routing_cost": ("routing_cost", "cost", "weight", "metric"),
    "setup_cost": ("setup_cost",),
    "modules": ("modules",),
    "matrix": ("matrix", "time", "hour", "period", "timestamp"),
    "x": ("x", "longitude", "lon", "long", "lng"),
    "y": ("y", "latitude", "lat"),
}
LINK_ROLES = ("id", "source", "target", "capacity", "capacity_cost", "routing_cost", "setup_cost", "modules")
DEMAND_ROLES = ("matrix", "id", "source", "target", "amount", "unit", "longest")
NODE_ROLES = ("node", "x", "y")
# the columns whose heads may have a unit, by what a table has
RATES = {"links": "capacity", "demands": "amount"}


@dataclass
class Table:
    """The rows of a file with the columns that play a part."""

    path: str
    place: dict[str, int]
    rows: list[tuple[int, list[str]]]
    form: Form

    def word(self, row: list[str], role: str, spare: str = "") -> str:
        """The word of a role in a row, or the spare one."""
        at = self.place.get(role, -1)
        return (row[at] if at >= 0 else "") or spare

    def must(self, at: int, row: list[str], role: str) -> str:
        """A word that has to be there."""
        found = self.word(row, role)
        if not found:
            raise refused(Spot(self.path, at), f"no {role}")
        return found


def lines_of(path: str, text: str, notes: Notes) -> list[tuple[int, list[str]]]:
    """The rows of a CSV with the lines they begin in, each as long as the first; the mark between columns is that of the first row.

    Rows of blanks alone are left out. A blank round a word is no part of it, which is said.
    """
    first = next((line for line in text.split("\n") if line.strip(BLANKS)), "")
    reader = csv.reader(io.StringIO(text, newline=""), delimiter=max(";\t,|", key=first.count), strict=True)
    rows: list[tuple[int, list[str]]] = []
    blank = 0
    for at, row in _numbered(path, reader):
        words = [_word(path, at, cell) for cell in row]
        if not any(words):
            continue
        if not rows and len(words) == 1 and words[0].startswith("#"):
            raise refused(Spot(path, at), "a line that begins with # is a row too, and the first row names the columns: take it out")
        if rows and len(words) != len(rows[0][1]):
            raise refused(Spot(path, at), f"{_counted(words)}, and the first row has {len(rows[0][1])}{_why(rows, row)}")
        blank = blank or (at if any(cell != cell.strip(BLANKS) for cell in row) else 0)
        rows.append((at, [text_of(word) for word in words]))
    if blank:
        notes.say("read", f"{path} line {blank}: blanks round a word are no part of it, here and further on")
    return rows


def _numbered(path: str, reader: _csv._reader) -> Iterator[tuple[int, list[str]]]:
    """The rows of a reader with the lines in which they begin."""
    at = 1
    try:
        for row in reader:
            yield at, row
            at = reader.line_num + 1
    except csv.Error as fault:
        raise refused(Spot(path, at), str(fault)) from None


def _word(path: str, at: int, cell: str) -> str:
    """The word of a cell."""
    if cell[:1] in (" ", "\t") and cell.lstrip(BLANKS).startswith('"'):
        raise refused(Spot(path, at), "a blank before a quotation mark, which so is no mark")
    return cell.strip(BLANKS)


def _counted(words: list[str]) -> str:
    """How many words a row has."""
    return f"{len(words)} columns" if len(words) != 1 else "1 column"


def _why(rows: list[tuple[int, list[str]]], row: list[str]) -> str:
    """What mostly makes a row of another length."""
    if rows[0][1][0].startswith("#"):
        return ", which begins with # and is a row too: take comments out"
    if row[0].startswith("#"):
        return " (a line that begins with # is a row too: take comments out)"
    if len(row) == 1 + len(rows[0][1]) and re.fullmatch("[0-9]{3}", row[-1]):
        return " (a comma within a number makes two of it: leave it out)"
    return ""


def columns_of(words: list[str], files: list[str]) -> dict[str, dict[str, str]]:
    """The columns that `--columns` names, by their roles, for each file that is named in front, and for all others under no name."""
    columns: dict[str, dict[str, str]] = {}
    for word in words:
        file = next((file for file in sorted(files, key=len, reverse=True) if word.startswith(f"{file}:")), "")
        found = columns.setdefault(file, {})
        for pair in _pairs(word[len(file) + 1 :] if file else word):
            role, _, name = pair.partition("=")
            if role not in ROLES or not name:
                raise Refused(f"--columns: {told(pair)} is no ROLE=NAME; roles are {', '.join(ROLES)}")
            if role in found or name in found.values():
                raise Refused(f"--columns: {role if role in found else told(name)} is given twice")
            found[role] = name
    return columns


def _pairs(words: str) -> list[str]:
    """The pairs of a word, with quotation marks round one that has a comma."""
    try:
        return [pair for pair in next(csv.reader([words], strict=True), []) if pair]
    except csv.Error as fault:
        raise Refused(f"--columns: {fault}") from None


def require_columns(columns: dict[str, dict[str, str]], sources: list[Source]) -> None:
    """Refuses a column that was named and that no table has, or not the one it was named for."""
    for file, named in columns.items():
        tables = [source for source in sources if file in ("", source.path)]
        lost = next((name for name in named.values() if not any(name in source.columns for source in tables)), None)
        if lost is not None:
            there = "; ".join(f"{source.path} has {', '.join(source.columns)}" for source in tables if source.columns)
            raise Refused(f"{file or 'no table'} has {'no' if file else 'a'} column {told(lost)}" + (f": {there}" if there else ""))


def read(path: str, text: str, notes: Notes, form: Form) -> Source:
    """What a table has: links, nodes or demands, by its columns; a square of demands by its names."""
    rows = lines_of(path, text, notes)
    if not rows:
        raise Refused(f"{path}: no rows").at(path)
    line, head = rows[0]
    named = {role: name for role, name in form.columns.items() if name in head}
    table = Table(path, _places(head, named), rows[1:], form)
    if not named and _is_square(head, rows):
        if _kind(table.place):
            what = f"this may be a square of nodes or a table of {_kind(table.place)} (--columns makes it a table)"
            raise refused(Spot(path, line), what)
        form = _form_of(path, head[0], form, notes, corner=True)
        return replace(_square(path, line, head, rows[1:], form), said=form.where)
    if "id" not in named and _is_demand_the_id(head, table.place):
        table.place = _places(head, named | {"amount": head[table.place["id"]]})
        _tell_amounts(head, table, notes)
    double = next((head[at] for at in table.place.values() if head.count(head[at]) > 1), None)
    if double is not None:
        raise refused(Spot(path, line), f"two columns are named {told(double)}")
    column = table.place.get(RATES.get(_kind(table.place), ""))
    table.form = form if column is None else _form_of(path, head[column], form, notes)
    return replace(_read_by_columns(head, table, notes), columns=tuple(head), said=table.form.where)


def _read_by_columns(head: list[str], table: Table, notes: Notes) -> Source:
    """What a table has by the roles of its columns."""
    path, place, kind = table.path, table.place, _kind(table.place)
    if not kind:
        due = "source, target and capacity (links) or amount (demands), or node, x and y (places)"
        lost = "".join(f", and no {name!r}" for name in table.form.columns.values() if name not in head)
        raise Refused(f"{path}: columns {due} are due; it has {', '.join(head)}{lost} (--columns names them)").at(path)
    _tell_unread(path, head, place, {"links": LINK_ROLES, "demands": DEMAND_ROLES, "places": ("node", "id", "x", "y")}[kind], notes)
    if kind == "links":
        return _links(table, notes)
    return _demands(table) if kind == "demands" else _places_of_nodes(table)


def _kind(place: dict[str, int]) -> str:
    """What a table with columns of these roles has: links, demands or places; nothing where it has not enough of them."""
    if "source" in place and "target" in place and place.keys() & {"capacity", "modules", "amount"}:
        return "links" if place.keys() & {"capacity", "modules"} else "demands"
    return "places" if place.keys() & {"node", "id"} and {"x", "y"} <= place.keys() else ""


def _places(head: list[str], columns: dict[str, str]) -> dict[str, int]:
    """The column of each role: the one that was named, or else one of a known name."""
    lower = [_lower(word) for word in head]
    bare = [_lower(of_head(word)[0]) for word in head]
    place: dict[str, int] = {}
    for role, names in ROLES.items():
        if role in columns:
            place[role] = head.index(columns[role])
            continue
        named = {head.index(name) for name in columns.values()}
        known = bare if role in RATES.values() else lower
        found = [known.index(name) for name in names if name in known and known.index(name) not in named]
        found = [at for at in found if at not in place.values()]
        if found:
            place[role] = found[0]
    return place


def _lower(word: str) -> str:
    """A column's name as it is compared."""
    return word.lower().replace(" ", "_").replace("-", "_")


def _form_of(path: str, head: str, form: Form, notes: Notes, corner: bool = False) -> Form:
    """How numbers are read whose column, or square, has that head: plain ones in the unit that it says, if it says one."""
    word = of_head(head)[1]
    unit = unit_of(word)
    if unit is None:
        return form
    where = f"{'the corner' if corner else 'column'} {told(head)}"
    if unit.is_of_bytes and not form.unit.bytes:
        raise Refused(f"{path}: {where} is of bytes: --bytes reads each of them as eight bits").at(path)
    notes.say("read", f"{path}: numbers in {word}, as the corner says" if corner else f"{path}: numbers of {where} in {word}, as its head says")
    return replace(form, unit=Unit(Fraction(unit.bits), True, form.unit.bytes), said=word, where=where)


def _is_demand_the_id(head: list[str], place: dict[str, int]) -> bool:
    """Whether a table of demands has a column `demand` for their names, and none for their amounts."""
    is_pairs = "source" in place and "target" in place and not {"capacity", "modules", "amount"} & place.keys()
    return is_pairs and "id" in place and head[place["id"]].lower() == "demand"


def _tell_amounts(head: list[str], table: Table, notes: Notes) -> None:
    """Says that the column `demand` has the amounts; refuses it if a row has no number there, or another column could have them."""
    demand = table.place["amount"]
    others = [at for at, name in enumerate(head) if name and at not in table.place.values() and _has_numbers(table, at)]
    if others or not _has_numbers(table, demand):
        likely = head[others[0] if others else demand]
        raise Refused(
            f"{table.path}: no column is known to have the amounts; it has {', '.join(head)} "
            f"(--columns amount=NAME says which, as amount={likely})"
        )
    notes.say("read", f"{table.path}: column {head[demand]} as the amounts, since it has numbers alone")


def _has_numbers(table: Table, at: int) -> bool:
    """Whether a column has a number in each row."""
    return all(at < len(row) and is_rate(row[at], table.form.comma) for _, row in table.rows)


def _tell_unread(path: str, head: list[str], place: dict[str, int], roles: tuple[str, ...], notes: Notes) -> None:
    """Says which columns are not read."""
    read_at = {place[role] for role in roles if role in place}
    for at, name in enumerate(head):
        if at not in read_at:
            notes.say("dropped", f"{path}: column {name or at + 1}")


def _links(table: Table, notes: Notes) -> Source:
    source = Source(table.path, "links", bits=table.form.unit.bits)
    for at, row in table.rows:
        ends = table.must(at, row, "source"), table.must(at, row, "target")
        source.nodes += [Node(end, end) for end in ends]
        name = table.word(row, "id")
        costs = table.word(row, "capacity_cost", "0"), table.word(row, "routing_cost", "0"), table.word(row, "setup_cost", "0")
        source.links.append(Link(name, *ends, _capacity(table, at, row, notes), costs, _modules(table, at, row)))
    source.nodes = list({node.key: node for node in source.nodes}.values())
    return source


def _capacity(table: Table, at: int, row: list[str], notes: Notes) -> Fraction | None:
    """The capacity of a row; the missing one where it has none."""
    word = table.word(row, "capacity")
    if word:
        return rate(word, Spot(table.path, at, "capacity"), table.form.unit, table.form.comma)
    if table.word(row, "modules"):
        return Fraction(0)
    missing = table.form.missing
    if not missing:
        return None
    unit = f" {table.form.said}" if table.form.said and NUMBER.fullmatch(missing) else ""
    notes.say("added", f"{table.path} line {at}: no capacity, which becomes {missing}{unit}")
    return rate(missing, Spot(table.path, at, "capacity"), table.form.unit, table.form.comma)


def _modules(table: Table, at: int, row: list[str]) -> tuple[tuple[Fraction, str], ...]:
    parts = table.word(row, "modules").split()
    if len(parts) % 2:
        raise refused(Spot(table.path, at), "modules are pairs of a capacity and a cost")
    where = Spot(table.path, at, "modules")
    return tuple((rate(a, where, table.form.unit, table.form.comma), b) for a, b in zip(parts[::2], parts[1::2]))


def _places_of_nodes(table: Table) -> Source:
    """Nodes with their places, each once."""
    nodes: dict[str, Node] = {}
    for at, row in table.rows:
        node = _node(table, at, row)
        if node.key in nodes:
            raise refused(Spot(table.path, at), f"node {told(node.key)} stands twice")
        nodes[node.key] = node
    return Source(table.path, "nodes", nodes=list(nodes.values()))


def _node(table: Table, at: int, row: list[str]) -> Node:
    """A node, and its place where the row has one."""
    name = table.word(row, "node") or table.must(at, row, "id")
    x, y = (table.word(row, role) for role in ("x", "y"))
    if bool(x) != bool(y):
        raise refused(Spot(table.path, at), "a place is both x and y, or none")
    if table.form.comma:
        x, y = x.replace(",", "."), y.replace(",", ".")
    return Node(name, name, (x, y) if x else None)


def _demands(table: Table) -> Source:
    source = Source(table.path, "demands", bits=table.form.unit.bits)
    found: dict[str, list[Demand]] = {}
    for at, row in table.rows:
        found.setdefault(table.word(row, "matrix"), []).append(_demand(table, at, row))
    if "" in found and len(found) > 1:
        raise refused(Spot(table.path, found[''][0].line), "no matrix, which other rows have")
    source.matrices = [Matrix(name or stem(table.path), demands) for name, demands in found.items()]
    return source


def _demand(table: Table, at: int, row: list[str]) -> Demand:
    ends = table.must(at, row, "source"), table.must(at, row, "target")
    what = Spot(table.path, at)
    value = rate(table.must(at, row, "amount"), what.of("amount"), table.form.unit, table.form.comma)
    unit = number(table.word(row, "unit", "1"), what.of("routing unit"), table.form.comma)
    longest = table.word(row, "longest", "UNLIMITED")
    require_longest(longest, what)
    return Demand(table.word(row, "id"), *ends, value, unit, longest, at)


def _is_square(head: list[str], rows: list[tuple[int, list[str]]]) -> bool:
    """Whether the names of the columns behind the first one are those of the rows."""
    names = [row[0] for _, row in rows[1:]]
    return len(head) > 2 and sorted(head[1:]) == sorted(names)


def _square(path: str, line: int, head: list[str], rows: list[tuple[int, list[str]]], form: Form) -> Source:
    """The demands of a square, row to column; nothing and 0 are no demand."""
    double = next((name for name in head[1:] if head[1:].count(name) > 1), None)
    if double is not None:
        raise refused(Spot(path, line), f"{told(double)} stands twice")
    demands = []
    for at, row in rows:
        for target, word in zip(head[1:], row[1:]):
            value = rate(word or "0", Spot(path, at, f"{told(row[0])} to {told(target)}"), form.unit, form.comma)
            if value:
                demands.append(Demand("", row[0], target, value, line=at))
    return Source(path, "demands", matrices=[Matrix(stem(path), demands)], bits=form.unit.bits)


def text(network: Network, what: str, notes: Notes) -> str:
    """The table of links, nodes or demands of a network."""
    rows: list[tuple[str, ...]] = []
    if what == "links":
        rows = [("link", *LINK_ROLES[1:]), *map(_link_row, network.links)]
    elif what == "nodes":
        rows = [NODE_ROLES, *(_node_row(node, notes) for node in network.nodes)]
    else:
        rows = [("matrix", "demand", *DEMAND_ROLES[2:]), *(_demand_row(m.name, d) for m in network.matrices for d in m.demands)]
    out = io.StringIO()
    csv.writer(out, lineterminator="\n").writerows([cell_of(word) for word in row] for row in rows)
    _require_utf8(out.getvalue())
    _tell_left_out(network, what, notes)
    return out.getvalue()


def _require_utf8(table: str) -> None:
    """Refuses names whose bytes are no UTF-8: a table with one would be read in another encoding, and the name as another one."""
    try:
        table.encode("utf-8")
    except UnicodeEncodeError as fault:
        line = table.count("\n", 0, fault.start) + 1
        raise Refused(f"a name in line {line} of the table is no UTF-8, so another one would be read: rename it, or write a network file") from None


def _tell_left_out(network: Network, what: str, notes: Notes) -> None:
    """Says what of the network is not in this table."""
    counts = {
        "nodes": sum(1 for node in network.nodes if node.place) if what != "nodes" else 0,
        "links": len(network.links) if what != "links" else 0,
        "demands": sum(len(m.demands) for m in network.matrices) if what != "demands" else 0,
    }
    for name, count in counts.items():
        if count:
            places = "places of " if name == "nodes" else ""
            notes.say("dropped", f"{places}{count} {name}, which a .{name}.csv has")
    if what == "links" and network.links_mode not in (None, "undirected"):
        notes.say("dropped", f"that links are {network.links_mode}, which a table does not say: --links {network.links_mode} says it again")


def _link_row(link: Link) -> tuple[str, ...]:
    modules = " ".join(f"{plain(capacity)} {cost}" for capacity, cost in link.modules)
    return (link.name, link.source, link.target, plain(link.capacity or Fraction(0)), *link.costs, modules)


def _node_row(node: Node, notes: Notes) -> tuple[str, ...]:
    if node.place and len(node.place) != 2:
        notes.say("dropped", f"the place of node {node.name}, which has {len(node.place)} words")
    return (node.name, *(node.place if node.place and len(node.place) == 2 else ("", "")))


def _demand_row(matrix: str, demand: Demand) -> tuple[str, ...]:
    return (matrix, demand.name, demand.source, demand.target, plain(demand.value), plain(demand.unit), demand.longest)
