"""`tools/convert` on drawn input: there and back in each format, and beside readings that share nothing with it.

Quick by default; `tools/test --long` draws 10,000 inputs for each property, from the seed of `--hypothesis-seed`, and
`tools/test --processes` 300, each with a process of its own.
"""

from __future__ import annotations

import csv
import io
import os
import re
import subprocess
import tempfile
from collections.abc import Iterator
from dataclasses import dataclass
from fractions import Fraction
from pathlib import Path
from xml.etree import ElementTree

import pytest

hypothesis = pytest.importorskip("hypothesis")
from hypothesis import assume, event, example, given, settings  # noqa: E402
from hypothesis import strategies as st  # noqa: E402

from mcf import TextError, fraction_of, read_network, write_network  # noqa: E402
from mcf.convert import work  # noqa: E402
from mcf.convert.edits import Edit  # noqa: E402
from mcf.convert.model import Notes, Refused  # noqa: E402
from mcf.convert.work import Task  # noqa: E402
from mcf.names import cell_of, text_of  # noqa: E402
from mcf.network import Demand, Link, Module, Network, Node  # noqa: E402
from mcf.program import Program  # noqa: E402

ROOT = Path(__file__).resolve().parents[2]


@dataclass
class Room:
    """A folder with the files of one drawn input."""

    path: Path

    def write(self, name: str, text: str) -> str:
        """A file of that text."""
        (self.path / name).write_bytes(text.encode("utf-8", "surrogateescape"))
        return str(self.path / name)

    def convert(self, *sources: str, to: str, **asked: object) -> tuple[str, str]:
        """What is written of these files, and all that is said; Refused where they are refused, and nothing is written then."""
        target = self.path / f"written.{to}"
        target.unlink(missing_ok=True)
        try:
            said = (_as_process if os.environ.get("MCF_PROCESSES") else _within)(list(map(str, sources)), str(target), to, asked)
        except Refused as why:
            assert not target.exists() and str(why) and "\n" not in str(why), why
            raise
        return target.read_bytes().decode("utf-8", "surrogateescape"), said


def _within(sources: list[str], target: str, to: str, asked: dict[str, object]) -> str:
    """What is said of a conversion within this process."""
    said = io.StringIO()
    work.convert(Task(sources, target, written=to, **asked), Notes(said))  # type: ignore[arg-type]
    return said.getvalue()


def _as_process(sources: list[str], target: str, to: str, asked: dict[str, object]) -> str:
    """The same of the tool as a user starts it; Refused with its line where it ends with status 2."""
    words = [*sources, target, "--to", to]
    for name, value in asked.items():
        if name == "edits":
            words += [word for edit in value for word in (edit.option, edit.name, edit.word) if word]  # type: ignore[attr-defined]
        elif value:
            words += [f"--{'from' if name == 'kind' else name}", *([] if value is True else [str(value)])]
    done = subprocess.run([ROOT / "tools/convert", *words], stdout=subprocess.PIPE, stderr=subprocess.PIPE, check=False)
    *said, last = done.stderr.decode("utf-8", "surrogateescape").splitlines(keepends=True) or [""]
    assert done.stdout == b"" and done.returncode in (0, 2), (done.stdout, done.returncode, last)
    if done.returncode:
        assert last.startswith("convert: "), last
        raise Refused(last.removeprefix("convert: ").rstrip("\n"))
    return "".join([*said, last])


@pytest.fixture(scope="module")
def room() -> Iterator[Room]:
    """A folder in memory, where there is one."""
    memory = "/dev/shm" if Path("/dev/shm").is_dir() else None
    with tempfile.TemporaryDirectory(dir=memory, prefix="mcf-test-") as folder:
        yield Room(Path(folder))


# networks

LETTERS = "aAbB1_=+-@'\",;|:.<>&/\\`~ä€𝄞\u00a0\u2028\ufeff\u0663"
ODD = LETTERS + "\x01\x0b\x1c\x7f\x85\ud7ff\ufffe\udcff"
names = st.one_of(st.text(LETTERS, min_size=1, max_size=6), st.sampled_from(["x", "y", "node", "source", "=1+1", "-5", "UNLIMITED", "NODES", "A"]))
odd_names = st.one_of(names, st.text(ODD, min_size=1, max_size=4))
numbers = st.one_of(
    st.integers(0, 10**6).map(str),
    st.tuples(st.integers(0, 10**6), st.integers(0, 10**6 - 1)).map(lambda pair: f"{pair[0]}.{pair[1]:06d}"),
    st.sampled_from(["0", "0.0", ".5", "5.", "1e3", "2.5E-2", "1e-6", "17592186044416", "007", "1e99", "1e-7"]),
)
costs = st.one_of(numbers, st.sampled_from(["0", "n/a", "=1", "-3"]))
places = st.one_of(st.none(), st.tuples(costs, costs), st.lists(costs, max_size=3).map(tuple))


@st.composite
def networks(draw: st.DrawFn, name: st.SearchStrategy[str] = names) -> Network:
    """A small network with odd names and numbers."""
    ids = draw(st.lists(name, min_size=1, max_size=5, unique=True))
    end = st.sampled_from(ids)
    module = st.builds(Module, numbers, costs)
    link_ids = draw(st.lists(name, max_size=5, unique=True))
    demand_ids = draw(st.lists(name, max_size=5, unique=True))
    longest = st.one_of(st.just("UNLIMITED"), st.sampled_from(["3", "2.9", "0"]))
    nodes = tuple(Node(one, draw(places)) for one in ids)
    links = tuple(Link(one, draw(end), draw(end), draw(numbers), draw(costs), draw(costs), draw(costs), tuple(draw(st.lists(module, max_size=2))))
                  for one in link_ids)  # fmt: skip
    demands = tuple(Demand(one, draw(end), draw(end), draw(st.sampled_from(["1", "0.5", "2"])), draw(numbers), draw(longest)) for one in demand_ids)
    return Network(nodes, links, demands)


def said_rows(network: Network, *, placed: bool = True) -> tuple[object, ...]:
    """What a network says: all rows, with numbers by their values."""
    nodes = [(node.id, node.place if placed else None) for node in network.nodes]
    links = [(link.id, link.source, link.target, fraction_of(link.capacity), link.capacity_cost, link.routing_cost, link.setup_cost,
              [(fraction_of(module.capacity), module.cost) for module in link.modules]) for link in network.links]  # fmt: skip
    demands = [(d.id, d.source, d.target, fraction_of(d.unit), fraction_of(d.value), d.longest) for d in network.demands]
    return nodes, links, demands


def plain_places(network: Network) -> Network:
    """The network with those places alone that tables and graphs have: two words, or none."""
    return Network(tuple(Node(n.id, n.place if n.place and len(n.place) == 2 else None) for n in network.nodes), network.links, network.demands)


def read(text: str) -> Network:
    """The network of a text that was written, without META, by a reader that shares nothing with the one that is tested."""
    head, _, rest = text.partition("NODES (")
    return read_network(head.partition("META")[0] + "NODES (" + rest)


@given(network=networks(odd_names), mode=st.sampled_from([None, "undirected", "directed", "bidirected"]))
def test_networks_come_back_from_network_files(room: Room, network: Network, mode: str | None) -> None:
    file = room.write("a.net", write_network(network))
    try:
        text, _ = room.convert(file, to="net", links=mode)
        again, said = room.convert(room.write("b.net", text), to="net")
    except Refused as why:
        event(f"refused: {str(why).split(': ')[-1][:20]}")
        return
    assert again == text and said_rows(read(text)) == said_rows(network)
    assert ("META" in text) == (mode in ("directed", "bidirected")) and (f"links = {mode}\n" in text) == ("META" in text)
    assert not [line for line in said.splitlines() if not line.startswith(("note: ", "links: "))]


@given(network=networks())
@example(network=Network((Node("x", ("1", "2")), Node("y", ("3", "4"))), (Link("L", "x", "y", "1"),), ()))
def test_networks_come_back_from_their_tables(room: Room, network: Network) -> None:
    file = room.write("a.net", write_network(network))
    try:
        parts = [room.write(f"a.{kind}.csv", room.convert(file, to=kind)[0]) for kind in ("links", "demands", "nodes")]
        text, said = room.convert(*(parts if network.demands else [parts[0], parts[2]]), to="net")
    except Refused as why:
        event(f"refused: {str(why).split(': ')[-1][:20]}")
        return
    nodes, links, demands = said_rows(plain_places(network))
    found, *rest = said_rows(read(text))
    assert rest == [links, demands] and sorted(found) == sorted(nodes)  # type: ignore[type-var,arg-type]
    assert "renamed" not in said


@given(network=networks(odd_names))
def test_names_of_any_bytes_come_back_from_tables_or_that_is_said(room: Room, network: Network) -> None:
    file = room.write("a.net", write_network(network))
    try:
        text, said = room.convert(room.write("a.csv", room.convert(file, to="links")[0]), to="net")
    except Refused:
        return
    if "Windows-1252" not in said and "renamed" not in said:
        assert said_rows(read(text))[1] == said_rows(network)[1]


@given(network=networks(odd_names), directed=st.booleans())
def test_networks_come_back_from_graphs(room: Room, network: Network, directed: bool) -> None:
    file = room.write("a.net", write_network(network))
    try:
        graph, _ = room.convert(file, to="graphml", links="directed" if directed else None)
        text, said = room.convert(room.write("a.graphml", graph), to="net")
    except Refused as why:
        event(f"refused: {str(why).split(': ')[-1][:20]}")
        return
    nodes, links, _ = said_rows(plain_places(network))
    assert said_rows(read(text))[:2] == (nodes, links) and ("links = directed" in text) == directed
    assert "renamed" not in said
    if network.demands:
        demands = room.write("a.demands.csv", room.convert(file, to="demands")[0])
        try:
            assert said_rows(read(room.convert(room.path / "a.graphml", demands, to="net")[0])) == said_rows(plain_places(network))  # type: ignore[arg-type]
        except Refused:
            event("demands refused")


@given(matrices=st.lists(networks(), min_size=1, max_size=3), titles=st.lists(names, min_size=3, max_size=3, unique=True))
def test_lists_come_back_from_their_tables(room: Room, matrices: list[Network], titles: list[str]) -> None:
    text = "".join(f"{title} (\n{_rows(network)})\n" for title, network in zip(titles, matrices))
    try:
        first, _ = room.convert(room.write("a.list", text), to="list")
        table, _ = room.convert(room.write("b.list", first), to="demands")
        again, said = room.convert(room.write("b.csv", table), to="list")
    except Refused as why:
        event(f"refused: {str(why).split(': ')[-1][:20]}")
        return
    assert again == first or not all(network.demands for network in matrices[: len(titles)])
    assert "renamed" not in said


def _rows(network: Network) -> str:
    """The rows of a network's demands."""
    return "".join(f"  {d.id} ( {d.source} {d.target} ) {d.unit} {d.value} {d.longest}\n" for d in network.demands)


# tables beside another reader

cells = st.text("aB1 _='\"#,;.-\t\n", max_size=5)


@given(rows=st.lists(st.tuples(cells, cells, numbers, cells), min_size=1, max_size=5), mark=st.sampled_from(",;|"),
       end=st.sampled_from(["\n", "\r\n"]), wrong=st.one_of(st.none(), st.tuples(st.integers(0, 4), st.sampled_from([-1, 1]))))
def test_tables_are_read_as_pandas_reads_them(
    room: Room, rows: list[tuple[str, str, str, str]], mark: str, end: str, wrong: tuple[int, int] | None
) -> None:
    pandas = pytest.importorskip("pandas")
    out = io.StringIO()
    writer = csv.writer(out, delimiter=mark, lineterminator=end)
    writer.writerow(["source", "target", "capacity", "id"])
    lines = []
    for at, row in enumerate(rows):
        lines.append(out.getvalue().count("\n") + 1)
        writer.writerow([*row, "1"] if wrong == (at, 1) else row[:-1] if wrong == (at, -1) else row)
    text = out.getvalue()
    file = room.write("t.csv", text)
    bad = wrong is not None and wrong[0] < len(rows)
    try:
        written, _ = room.convert(file, to="links")
    except Refused as why:
        if bad and str(why).startswith(f"{file} line {lines[wrong[0]] if wrong else 0}: "):
            event("refused by its line")
        else:
            assert _why_refused(rows, bad) or bad, why
        return
    assert not bad
    table = pandas.read_csv(io.StringIO(text, newline=""), sep=mark, dtype=str, keep_default_na=False, skip_blank_lines=False)
    found = [row for row in csv.reader(io.StringIO(written))][1:]
    assert len(found) == len(table) == len(rows)
    for row, other in zip(found, table.itertuples(index=False)):
        assert fraction_of(row[3]) == fraction_of(other.capacity)
        assert [_bare(text_of(row[at])) for at in (1, 2)] == [_bare(text_of(name.strip(" \t\r\n"))) for name in (other.source, other.target)] or "_2" in written


def _bare(name: str) -> str:
    """A name as a word, by a rule that shares nothing with that of convert."""
    kept = "".join(letter if letter not in " \t\r\n()#" else "\n" for letter in name.strip(" \t\r\n"))
    return "_".join(part for part in _split(kept))


def _split(text: str) -> list[str]:
    """The parts between runs of line feeds; an empty part where one stands in front or behind."""
    parts = [part for at, part in enumerate(text.split("\n")) if part or at == 0]
    return [*parts, ""] if text.endswith("\n") else parts


def _why_refused(rows: list[tuple[str, str, str, str]], bad: bool) -> bool:
    """Whether something in a table may not be read: no end, a number too fine or too great."""
    values = [fraction_of(row[2]) for row in rows]
    no_end = any(not row[at].strip(" \t\r\n") for row in rows for at in (0, 1))
    front = any(cell[:1] in (" ", "\t") and cell.strip().startswith('"') for row in rows for cell in row)
    return no_end or front or any(value > 2**44 or (value * 10**6).denominator != 1 for value in values)


# units beside a table of their own

PREFIXES = {"": 1, "k": 10**3, "K": 10**3, "M": 10**6, "G": 10**9, "T": 10**12}
TAILS = {"bit/s": 1, "b/s": 1, "bps": 1, "bit": 1, "b": 1, "bits": 1, "B/s": 8, "Bps": 8, "B": 8, "byte/s": 8, "bytes": 8}
TARGETS = {"bit": 1, "kbit": 10**3, "Mbit": 10**6, "Gbit": 10**9, "Tbit": 10**12}


@given(number=st.tuples(st.integers(0, 999), st.integers(0, 999)), prefix=st.sampled_from(sorted(PREFIXES)), tail=st.sampled_from(sorted(TAILS)),
       blank=st.sampled_from(["", " "]), unit=st.sampled_from(sorted(TARGETS)), octets=st.booleans())  # fmt: skip
def test_rates_are_what_their_units_say(
    room: Room, number: tuple[int, int], prefix: str, tail: str, blank: str, unit: str, octets: bool
) -> None:
    value = Fraction(f"{number[0]}.{number[1]:03d}")
    text = f"source,target,capacity\nA,B,{number[0]}.{number[1]:03d}{blank}{prefix}{tail}\n"
    expected = value * PREFIXES[prefix] * TAILS[tail] / TARGETS[unit]
    readable = octets or TAILS[tail] == 1
    try:
        written, _ = room.convert(room.write("t.csv", text), to="links", unit=unit, bytes=octets)
    except Refused as why:
        assert not readable or expected > 2**44 or (expected * 10**6).denominator != 1, why
        return
    assert readable and Fraction(written.splitlines()[1].split(",")[3]) == expected


@given(tail=st.text("kKmMgGtTbBiItTsSpPyYeE/- OCoc1348", min_size=1, max_size=6))
def test_any_other_unit_is_refused(room: Room, tail: str) -> None:
    word = tail.strip()
    assume(word and "," not in word)
    known = {f"{prefix}{one}".lower() for prefix in PREFIXES for one in (*TAILS, "")} | {f"{p}{w}" for p in ["", *"kmgt"] for w in ("bits/s", "byte", "bytes/s")}
    try:
        room.convert(room.write("t.csv", f"source,target,capacity\nA,B,7{word}\n"), to="links", unit="bit", bytes=True)
    except Refused:
        return
    # (digits in front go on with the number, and so may an exponent)
    fitting = re.fullmatch(r"[0-9]*(?:[eE]-?[0-9]{1,2})?\s*(.*)", word)
    assert fitting and fitting[1].lower() in known | {""}


# graphs beside networkx

XML = st.text("aB1 _='\"<>&;ä€\u00a0", min_size=1, max_size=5).map(str.strip).filter(bool)


@given(directed=st.booleans(), labels=st.lists(XML, min_size=1, max_size=4, unique=True),
       edges=st.lists(st.tuples(st.integers(0, 3), st.integers(0, 3), st.one_of(st.none(), numbers)), max_size=6),
       default=st.one_of(st.none(), numbers))  # fmt: skip
def test_graphs_of_networkx_are_read_as_they_are(
    room: Room, directed: bool, labels: list[str], edges: list[tuple[int, int, str | None]], default: str | None
) -> None:
    networkx = pytest.importorskip("networkx")
    graph = (networkx.MultiDiGraph if directed else networkx.MultiGraph)()
    for at, label in enumerate(labels):
        graph.add_node(f"n{at}", label=label)
    edges = [(a % len(labels), b % len(labels), size) for a, b, size in edges]
    for at, (a, b, size) in enumerate(edges):
        graph.add_edge(f"n{a}", f"n{b}", **({} if size is None else {"capacity": size}), name=f"e{at}")
    root = ElementTree.fromstring("\n".join(networkx.generate_graphml(graph)))
    for key in root.iter("{http://graphml.graphdrawing.org/xmlns}key"):
        if key.get("attr.name") == "capacity" and default is not None:
            ElementTree.SubElement(key, "{http://graphml.graphdrawing.org/xmlns}default").text = default
    file = room.write("g.graphml", ElementTree.tostring(root, encoding="unicode"))
    has_key = any(size is not None for _, _, size in edges)
    sizes = [size if size is not None else default if has_key else None for _, _, size in edges]
    try:
        table, said = room.convert(file, to="links")
    except Refused as why:
        values = [fraction_of(size) for size in sizes if size is not None]
        assert not edges or None in sizes or any(value > 2**44 or (value * 10**6).denominator != 1 for value in values), why
        return
    rows = list(csv.DictReader(io.StringIO(table)))
    assert [fraction_of(row["capacity"]) for row in rows] == [fraction_of(size or "") for size in _in_order(graph, edges, sizes)]
    assert (f"links: directed, as {file} says" in said) == directed


def _in_order(graph: object, edges: list[tuple[int, int, str | None]], sizes: list[str | None]) -> list[str | None]:
    """The sizes in the order in which networkx writes the edges."""
    return [sizes[int(name[1:])] for _, _, name in graph.edges(data="name")]  # type: ignore[attr-defined]


@given(network=networks())
def test_graphs_that_are_written_are_what_networkx_reads(room: Room, network: Network) -> None:
    networkx = pytest.importorskip("networkx")
    try:
        text, _ = room.convert(room.write("a.net", write_network(network)), to="graphml", links="directed")
    except Refused:
        return
    graph = networkx.read_graphml(room.write("a.graphml", text), force_multigraph=True)
    assert graph.is_directed() and sorted(graph.nodes) == sorted(node.id for node in network.nodes)
    found = sorted((source, target, data["id"], data["capacity"]) for source, target, data in graph.edges(data=True))
    assert found == sorted((link.source, link.target, link.id, float(fraction_of(link.capacity))) for link in network.links)


# cells, and changes


@given(text=st.text("'=+-@\t\r1aA.", max_size=6))
def test_any_text_comes_back_from_its_cell(text: str) -> None:
    cell = cell_of(text)
    assert text_of(cell) == text and (cell == text or cell == f"'{text}")
    assert not cell[:1] or cell[0] not in "=+@\t\r" and (cell[0] != "-" or cell[1:].replace(".", "", 1).isdigit())


FACTORS = st.sampled_from(["0", "1", "2", "0.5", "1.25", "0.000001", "3e1"])


@given(network=networks(), data=st.data())
def test_changes_are_those_that_were_asked_for(room: Room, network: Network, data: st.DataObject) -> None:
    options = st.sampled_from(["--capacity-of", "--times-capacity", "--close", "--times-demand"])
    ids = st.sampled_from([*(link.id for link in network.links), *(demand.id for demand in network.demands), "none"])
    asked = data.draw(st.lists(st.tuples(options, ids, FACTORS), min_size=1, max_size=3))
    edits = [Edit(option, name, "" if option == "--close" else word) for option, name, word in asked]
    try:
        text, said = room.convert(room.write("a.net", write_network(network)), to="net", edits=edits)
    except Refused:
        return
    nodes, links, demands = said_rows(network)
    assert said_rows(read(text)) == (nodes, [_changed_link(row, edits) for row in links], [_changed_demand(row, edits) for row in demands])  # type: ignore[attr-defined]
    assert said.count("changed: ") == len({(edit.option == "--times-demand", edit.name) for edit in edits})


def _changed_link(row: tuple[object, ...], edits: list[Edit]) -> tuple[object, ...]:
    """A link's row after its change."""
    name, source, target, capacity, *costs, modules = row
    edit = next((edit for edit in edits if edit.name == name and edit.option != "--times-demand"), None)
    if edit is None:
        return row
    if edit.option == "--times-capacity":
        factor = fraction_of(edit.word)
        return name, source, target, capacity * factor, *costs, [(size * factor, cost) for size, cost in modules]  # type: ignore[operator,attr-defined]
    return name, source, target, fraction_of(edit.word or "0"), *costs, []


def _changed_demand(row: tuple[object, ...], edits: list[Edit]) -> tuple[object, ...]:
    """A demand's row after its change."""
    name, source, target, unit, value, longest = row
    edit = next((edit for edit in edits if edit.name == name and edit.option == "--times-demand"), None)
    return row if edit is None else (name, source, target, unit, value * fraction_of(edit.word), longest)  # type: ignore[operator]


# network files beside the program


DAMAGE = st.lists(st.tuples(st.integers(0, 10**6), st.integers(0, 3), st.sampled_from(["", "(", ")", "#", " ", "\n", "x", "-", "UNLIMITED", "NODES (", "0", "."])),
                  max_size=3)  # fmt: skip


@settings(max_examples=max(20, settings.default.max_examples * 3 // 100))
@given(network=networks(odd_names), damage=DAMAGE)
def test_network_files_are_read_as_the_program_reads_them(room: Room, program: Program, network: Network, damage: list[tuple[int, int, str]]) -> None:
    text = write_network(network)
    for at, count, new in damage:
        place = at % len(text)
        text = text[:place] + new + text[place + count :]
    file = room.write("a.net", text)
    answer = program.run("print", file)
    try:
        written, _ = room.convert(file, to="net", kind="native")
    except Refused as why:
        event("refused")
        refused_by_print = answer.status == 3
        assert refused_by_print or _beyond(read_network(answer.text.encode("latin-1").decode("utf-8", "surrogateescape"))), why
        if refused_by_print and " line " in answer.line and not answer.line.startswith("refused net N5"):
            assert f"{file} line " in str(why)
        return
    assert answer.status == 0, answer
    assert said_rows(read(written)) == said_rows(read_network(answer.text.encode("latin-1").decode("utf-8", "surrogateescape")))


def _beyond(network: Network) -> bool:
    """Whether a network that `print` takes is refused for its numbers or for having no links."""
    try:
        sizes = [fraction_of(word) for link in network.links for word in (link.capacity, *(module.capacity for module in link.modules))]
        amounts = [demand.amount for demand in network.demands]
        sizes += [fraction_of(word) for demand in network.demands for word in (demand.unit, demand.value)] + amounts
    except TextError:
        return True
    fine = all((size * 10**6).denominator == 1 for size in sizes)
    return not network.links or not fine or any(size * 10**6 > 2**44 for size in sizes) or sum(amounts) * 10**6 > 2**46
