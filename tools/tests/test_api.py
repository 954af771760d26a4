"""The API of a notebook: networks of frames, graphs and files; certificates and their tables; what is refused, and how."""

from __future__ import annotations

import json
import pickle
import subprocess
import sys
from collections.abc import Iterator
from dataclasses import replace
from decimal import Decimal
from fractions import Fraction
from pathlib import Path

import networkx
import numpy
import pandas
import pytest

import mcf
from mcf import Network, Program
from mcf.linkmode import link_mode_of_file
from mcf.report.figures import Figures

LINKS = pandas.DataFrame({"source": ["A", "A", "B"], "target": ["B", "C", "C"], "capacity": [10.0, 6.0, 6.0]})
DEMANDS = pandas.DataFrame({"source": ["A", "A"], "target": ["B", "C"], "amount": [8, 4]})


@pytest.fixture(autouse=True)
def found(monkeypatch: pytest.MonkeyPatch, request: pytest.FixtureRequest) -> None:
    """The program of the tests, where one is built."""
    if "program" in request.fixturenames:
        monkeypatch.setenv("MCF", request.getfixturevalue("program").path)


@pytest.fixture
def triangle(program: Program) -> Network:
    """Three nodes, two demands; 4/3 of both fit."""
    return Network.from_frames(LINKS, DEMANDS)


def links(**columns: list[object]) -> pandas.DataFrame:
    """One link from A to B, with other columns."""
    return pandas.DataFrame({"source": ["A"], "target": ["B"], "capacity": [1], **columns})


# -- made of frames


def test_a_network_of_frames_is_the_one_of_the_file(triangle: Network, root: Path) -> None:
    assert repr(triangle) == "<mcf.Network: 3 nodes, 3 links, 2 demands>"
    certificate = triangle.certify(gap=0, progress=False)
    assert (certificate.lower, certificate.upper, certificate.closed, certificate.gap) == (Fraction(4, 3), Fraction(4, 3), True, 0)
    assert certificate.judged and certificate.judged.verdict == "valid"
    assert mcf.solve(root / "examples/triangle.net").lower == triangle.solve().lower


def test_frames_come_back_as_they_were_given() -> None:
    given = links(id=["L"], colour=["red"], age=[7])
    network = Network.from_frames(given, {("A", "B"): 0.1}, pandas.DataFrame({"id": ["A", "B", "C"], "x": [1, 2, None], "y": [3, 4, None]}))
    assert network.links.to_dict("list") == {"id": ["L"], "source": ["A"], "target": ["B"], "capacity": [1.0], "colour": ["red"], "age": [7]}
    assert network.demands.amount.tolist() == [0.1] and network.demands.longest.isna().all()
    exact = network.frames(exact=True)
    assert exact.demands.amount.tolist() == [Fraction(1, 10)] and exact.links.capacity.tolist() == [Fraction(1)]
    assert network.nodes.x.tolist()[:2] == [1.0, 2.0] and network.nodes.x.isna().tolist() == [False, False, True]
    assert Network.from_frames(network.links, network.demands, network.nodes) == network


def test_a_frame_that_was_handed_out_is_the_callers_own() -> None:
    given = links(colour=[["red"]])
    network = Network.from_frames(given, {("A", "B"): 1})
    given.loc[0, "capacity"] = 99
    network.links.loc[0, "capacity"] = 98
    network.demands.drop(columns="amount", inplace=True)
    network.links.loc[0, "colour"] = "blue"
    assert network.links.capacity.tolist() == [1.0] and network.demands.amount.tolist() == [1.0]
    assert network.links.colour.tolist() == [["red"]]


def test_an_index_with_the_name_of_a_column_is_one() -> None:
    named = links().assign(id=["L"]).set_index("id")
    by_pair = pandas.Series({("A", "B"): 2.5})
    network = Network.from_frames(named, by_pair)
    assert network.links.id.tolist() == ["L"] and network.demands.amount.tolist() == [2.5]
    shifted = links().set_index(pandas.Index([41]))
    assert Network.from_frames(shifted, by_pair).links.id.tolist() == ["A-B"]


def test_names_are_made_by_str_and_parallel_links_get_numbers() -> None:
    frame = pandas.DataFrame({"source": [1, 1, 2], "target": [2, 2, 3], "capacity": [1, 2, 3]})
    network = Network.from_frames(frame, {(1, 3): 1})
    assert network.links.id.tolist() == ["1-2", "1-2_2", "2-3"] and network.nodes.id.tolist() == ["1", "2", "3"]


@pytest.mark.parametrize("value, exact", [
    (0.1, Fraction(1, 10)), (1e-6, Fraction(1, 10**6)), ("2.50", Fraction(5, 2)), (Decimal("0.3"), Fraction(3, 10)), (0, Fraction(0)),
    (Fraction(1, 8), Fraction(1, 8)), (numpy.float32(0.1), Fraction(1, 10)), (numpy.int64(7), Fraction(7)), (1e12, Fraction(10**12)),
    (-0.0, Fraction(0)), (123456.789012, Fraction(123456789012, 10**6))])
def test_numbers_are_exact(value: object, exact: Fraction) -> None:
    network = Network.from_frames(pandas.DataFrame({"source": ["A"], "target": ["B"], "capacity": pandas.Series([value], dtype=object)}), {})
    assert network.frames(exact=True).links.capacity.tolist() == [exact]


@pytest.mark.parametrize("value, said", [
    (1e-7, "has more than 6 decimals"), (float("nan"), "is no number"), (float("inf"), "is no number"), (-1, "is negative"), ("1,5", "is no number"),
    (True, "is no number"), (None, "is no number"), (Fraction(1, 3), "has more than 6 decimals"), (2**44 + 1, "is more than 17592186044416"),
    (Decimal("NaN"), "is no number"), ("1/2", "is no number"), (pandas.NA, "is no number"), (1 / 3, "has more than 6 decimals"), ([1], "is no number"),
    ("9" * 5000, "'99999[0-9]*.. is no number"), pytest.param(10**5000, "a number of thousands of digits is more than", id="long"), (10**100, "10{79}.. is more than"),
    (Decimal("1E+99999999"), "1E.99999999 is more than"), (Decimal("1E-99999999"), "has more than 6 decimals"), (Decimal("-1E+99999999"), "is negative")])
def test_other_numbers_are_refused_by_their_row(value: object, said: str) -> None:
    frame = pandas.DataFrame({"source": ["A", "A"], "target": ["B", "B"], "capacity": pandas.Series([1, value], [7, 8], dtype=object)}, index=[7, 8])
    with pytest.raises(ValueError, match=f"links, row 8, capacity: .*{said}"):
        Network.from_frames(frame, {})


@pytest.mark.parametrize("name", ["Zürich", "東京", "a,b", "+x", "=1", "-", "it's", '"q"', "UNLIMITED", "NODES", "x" * 255, "a\u00a0b", "\x7f", "end"])
def test_any_other_name_is_kept(program: Program, name: str) -> None:
    network = Network.from_frames(pandas.DataFrame({"id": [name], "source": [name], "target": ["B"], "capacity": [2]}), {(name, "B"): 1})
    certificate = network.solve()
    assert certificate.link_table().link.tolist() == [name] and certificate.paths.nodes.tolist() == [(name, "B")]
    assert network.links.source.tolist() == [name] and certificate.lower == 2
    assert network.sweep(certificate).table().link.tolist() == [name]


@pytest.mark.parametrize("name, said", [
    ("New York", "has a blank"), ("a(b)", "a parenthesis"), ("a#b", "or #"), ("a\tb", "has a blank"), ("a\nb", "a line end"), ("", "the name is empty"),
    ("x" * 256, "has 256 bytes"), ("ü" * 128, "has 256 bytes"), ("\ud800", "a character that UTF-8 has not")])
def test_a_name_that_no_network_text_holds_is_refused(name: str, said: str) -> None:
    with pytest.raises(ValueError, match=said):
        Network.from_frames(links(source=[name]), {})
    graph = networkx.Graph()
    graph.add_edge(name, "B", capacity=1)
    with pytest.raises(ValueError, match=said):
        Network.from_networkx(graph, {})


@pytest.mark.parametrize("frame, demands, nodes, said", [
    (LINKS.drop(columns="capacity"), {}, None, "links: column 'capacity' is missing; there are 'source', 'target'"),
    (pandas.concat([LINKS, LINKS[["source"]]], axis=1), {}, None, "links: column 'source' stands twice"),
    (LINKS, pandas.DataFrame({"source": ["A"], "target": ["B"]}), None, "demands: column 'amount' is missing"),
    (LINKS, {("A", "X"): 1}, pandas.DataFrame({"id": ["A", "B", "C"]}), "demand 'A-X': 'X' is no node"),
    (LINKS, {}, pandas.DataFrame({"id": ["A", "B"]}), "link 'A-C': 'C' is no node"),
    (LINKS, {}, pandas.DataFrame({"id": ["A", "B", "C", "A"]}), "nodes: 'A' stands twice"),
    (LINKS.assign(id=["x", "y", "x"]), {}, None, "links, row 2: the id 'x' is that of links, row 0 too"),
    (LINKS.assign(source=["A", None, "B"]), {}, None, "links, row 1: source is missing"),
    (LINKS, {"A": 1}, None, "demands: a frame is wanted, and pandas makes none of this dict"),
    (LINKS, {}, pandas.DataFrame({"id": ["A", "B", "C"], "x": ["here", 1, 2], "y": [1, 2, 3]}), "nodes, row 0: 'here', 1 are no coordinates"),
    (LINKS, {}, pandas.DataFrame({"id": ["A", "B", "C"], "x": [1, 1, 1], "y": [1, None, 2]}), "nodes, row 1: a place is both x and y, or none"),
    (LINKS, {}, pandas.DataFrame({"id": ["A", "B", "C"], "x": [1, 1, 1]}), "nodes, row 0: a place is both x and y, or none")])
def test_a_fault_of_a_frame_is_named(frame: pandas.DataFrame, demands: object, nodes: object, said: str) -> None:
    with pytest.raises(ValueError, match=said):
        Network.from_frames(frame, demands, nodes)


# -- made of graphs


@pytest.mark.parametrize("kind", [networkx.Graph, networkx.DiGraph, networkx.MultiGraph, networkx.MultiDiGraph])
def test_all_four_kinds_of_graphs(program: Program, kind: type[networkx.Graph]) -> None:
    graph = kind()
    graph.add_node(1, pos=(8.5, 47.4))
    graph.add_edge(1, 2, capacity=3, colour="red")
    graph.add_edge(1, 2, capacity=4)
    graph.add_edge(2, 3, capacity=0.5)
    network = Network.from_networkx(graph, {(1, 3): 1})
    assert network.directed == graph.is_directed() and len(network.links) == (3 if graph.is_multigraph() else 2)
    assert network.nodes.x.tolist()[0] == 8.5 and "colour" in network.links.columns
    certificate = network.solve()
    assert certificate.judged and certificate.judged.links == ("directed" if graph.is_directed() else "undirected")
    assert certificate.lower == Fraction(1, 2)
    again = Network.from_networkx(network.to_networkx(), network.demands)
    assert again == network and again.to_networkx().is_directed() == graph.is_directed()
    assert network.solve(links="undirected").judged.links == "undirected"  # type: ignore[union-attr]


@pytest.mark.parametrize("edges, said", [
    ([(1, "1", {"capacity": 1})], "nodes 1 and '1' have one name, '1'"), ([("A", "B", {})], "edge 'A', 'B': there is no attribute 'capacity'"),
    ([("A", "B", {"capacity": "much"})], "edge 'A', 'B', capacity: 'much' is no number")])
def test_a_fault_of_a_graph_is_named(edges: list[object], said: str) -> None:
    with pytest.raises(ValueError, match=said):
        Network.from_networkx(networkx.Graph(edges), {})


def test_places_of_a_graph_are_two_numbers_or_none() -> None:
    graph = networkx.Graph([("A", "B", {"capacity": 1})])
    graph.nodes["A"].update(x=float("nan"), y=3)
    assert Network.from_networkx(graph, {}).rows.nodes[0].place is None
    for odd in ((1, 2, 3), 5, "8.5"):
        graph.nodes["A"]["pos"] = odd
        with pytest.raises(ValueError, match="node 'A': pos is two numbers, and not "):
            Network.from_networkx(graph, {})


def test_what_is_missing_in_a_column_of_short_floats_is_missing() -> None:
    ids, longest = (numpy.array([7, numpy.nan], dtype=numpy.float32) for _ in range(2))
    frame = pandas.DataFrame({"source": ["A", "A"], "target": ["B", "C"], "capacity": [1, 2], "id": ids})
    network = Network.from_frames(frame, pandas.DataFrame({"source": ["A", "A"], "target": ["B", "C"], "amount": [1, 2], "longest": longest}))
    assert network.links.id.tolist() == ["7", "A-C"] and [row.longest for row in network.rows.demands] == ["7", "UNLIMITED"]


@pytest.mark.parametrize("mode", ["undirected", "directed", "bidirected"])
@pytest.mark.parametrize("beside", [{}, {"key": [1, 2, 3], "u_for_edge": ["p", "q", "r"], "self": [4, 5, 6], "pos": ["x", "y", "z"]}])
def test_a_network_goes_to_a_graph_and_back(program: Program, mode: str, beside: dict[str, list[object]]) -> None:
    """Parallel links, links of a pair both ways, and columns of any name."""
    frame = pandas.DataFrame({"id": ["a", "b", "c"], "source": ["A", "A", "B"], "target": ["B", "B", "A"], "capacity": [1, 0.25, 3], **beside})
    network = Network(Network.from_frames(frame, {("A", "B"): 1}).rows, mode, _beside=Network.from_frames(frame, {})._beside)
    graph = network.to_networkx()
    assert graph.number_of_edges() == 3 and {data["capacity"] for _, _, data in graph.edges(data=True)} == {1, 0.25, 3}
    again = Network.from_networkx(graph, network.demands)
    assert (again, again.mode) == (network, mode) and again.links.to_dict("list") == network.links.to_dict("list")
    assert again.check(network.solve())


def test_undirected_links_keep_their_ends(program: Program) -> None:
    frame = pandas.DataFrame({"id": ["x", "y"], "source": ["C", "B"], "target": ["A", "A"], "capacity": [1, 2]})
    network = Network.from_frames(frame, {("B", "C"): 1}, pandas.DataFrame({"id": ["A", "B", "C"]}))
    again = Network.from_networkx(network.to_networkx(), network.demands)
    assert {(row.id, row.source, row.target) for row in again.rows.links} == {(row.id, row.source, row.target) for row in network.rows.links}


def test_floats_that_are_whole_are_the_names_of_their_ints() -> None:
    """Of a column of ints in which one is missing pandas makes floats."""
    frame = pandas.DataFrame({"source": [1.0, 2.0], "target": [2, 3], "capacity": [1, 1]})
    network = Network.from_frames(frame, {(1, numpy.float64(3)): 1})
    assert network.nodes.id.tolist() == ["1", "2", "3"] and network.links.id.tolist() == ["1-2", "2-3"]
    assert Network.from_frames(links(source=[1.5]), {}).nodes.id.tolist() == ["1.5", "B"]


def test_another_attribute_may_have_the_capacity() -> None:
    graph = networkx.Graph()
    graph.add_edge("A", "B", bandwidth=Fraction(5, 2))
    assert Network.from_networkx(graph, {}, "bandwidth").links.capacity.tolist() == [2.5]


# -- read and written


def test_files_of_other_formats_are_read(program: Program, root: Path, tmp_path: Path) -> None:
    data = root / "tools/tests/data/convert"
    for name in ("network.xml", "small.graph"):
        network = mcf.read(data / name)
        assert len(network.links) > 1 and network.directed == name.endswith(".graph")
    (tmp_path / "links.csv").write_text("source,target,capacity\nA,B,1.5\nNew York,B,2\n")
    (tmp_path / "demands.csv").write_text("source,target,amount\nA,B,3\n")
    network = mcf.read(tmp_path / "links.csv", tmp_path / "demands.csv")
    assert network.nodes.id.tolist() == ["A", "B", "New_York"] and any("New York" in note for note in network.notes)
    assert network.solve().lower == Fraction(1, 2)
    assert mcf.read(root / "examples/alps.graphml", unit="Gbit", capacity_default="10G").links.capacity.max() < 1e6


def test_a_network_file_is_handed_on_as_it_stands(program: Program, root: Path, tmp_path: Path) -> None:
    text = (root / "examples/triangle.net").read_bytes().replace(b"\nNODES", b"\nMETA (\n a = 1\n)\nNODES", 1)
    (tmp_path / "a.net").write_bytes(text)
    network = mcf.read(tmp_path / "a.net")
    network.solve().save(tmp_path / "a.cert")
    assert program.check(tmp_path / "a.net", tmp_path / "a.cert").line.startswith("valid closed ")
    network.save(tmp_path / "b.net")
    assert (tmp_path / "b.net").read_bytes() == text


@pytest.mark.parametrize("mode", ["sideways", "", "Directed"])
def test_another_mode_of_links_is_refused(mode: str) -> None:
    network = Network.from_frames(LINKS, DEMANDS)
    for made in (lambda: Network.from_rows(network.rows, mode), lambda: replace(network, mode=mode)):
        with pytest.raises(ValueError, match=f"^mode is one of undirected, directed, bidirected, and not '{mode}'$"):
            made()


def test_links_are_read_as_the_network_says_and_not_its_text(program: Program, tmp_path: Path) -> None:
    one_way = Network.from_rows(Network.from_frames(LINKS, DEMANDS).rows, "directed")
    one_way.save(tmp_path / "a.net")
    network = replace(mcf.read(tmp_path / "a.net"), mode="undirected")
    assert {answer.rows.links for answer in (network.solve(), network.certify(progress=False), network.route())} == {"undirected"}


def test_made_ids_give_way_to_those_of_any_row() -> None:
    rows = {"id": [None, "A-B", None, "A-B_2"], "source": ["A"] * 4, "target": ["B"] * 4}
    made = ["A-B_3", "A-B", "A-B_4", "A-B_2"]
    network = Network.from_frames(pandas.DataFrame({**rows, "capacity": [1] * 4}), pandas.DataFrame({**rows, "amount": [1] * 4}))
    assert [network.links.id.tolist(), network.demands.id.tolist()] == [made, made]
    graph = networkx.MultiGraph()
    for name in rows["id"]:
        graph.add_edge("A", "B", capacity=1, **({} if name is None else {"id": name}))
    assert Network.from_networkx(graph, {}).links.id.tolist() == made
    with pytest.raises(ValueError, match="the id 'x' is that of links, row 0 too"):
        Network.from_frames(pandas.DataFrame({"id": ["x", "x"], "source": ["A"] * 2, "target": ["B"] * 2, "capacity": [1] * 2}), {})


@pytest.mark.parametrize("mode", ["undirected", "directed", "bidirected"])
def test_a_saved_network_says_how_its_links_are_read(tmp_path: Path, mode: str) -> None:
    network = Network.from_rows(Network.from_frames(LINKS, DEMANDS).rows, mode)
    network.save(tmp_path / "a.net")
    text = (tmp_path / "a.net").read_bytes()
    assert link_mode_of_file("a.net", str(tmp_path / "a.net")).mode == mode
    assert [line for line in text.splitlines() if not line.startswith(b"# links = ")] == network.data.splitlines()
    assert (text == network.data) == (mode == "undirected")


@pytest.mark.parametrize("mode", ["undirected", "directed", "bidirected"])
def test_certificates_of_a_network_are_those_of_its_saved_file(program: Program, tmp_path: Path, mode: str) -> None:
    network = Network.from_rows(Network.from_frames(LINKS, DEMANDS).rows, mode)
    before = network.solve()
    network.save(tmp_path / "a.net")
    again = mcf.read(tmp_path / "a.net")
    assert (again, again.mode) == (network, mode) and again.check(before) and network.check(again.solve())
    assert mcf.check(tmp_path / "a.net", before)
    again.without(links=["B-C"]).save(tmp_path / "b.net")
    assert mcf.read(tmp_path / "b.net").mode == mode
    other = replace(mcf.read(tmp_path / "b.net"), mode="undirected")
    other.save(tmp_path / "c.net")
    assert mcf.read(tmp_path / "c.net").mode == "undirected" and mcf.check(tmp_path / "c.net", other.solve())


@pytest.mark.parametrize("text, kind, line", [
    (b"?SNDlib native format; type: network; version: 1.0\nNODES (\n A\n)\nLINKS (\n L ( A X ) 1 0 0 0 ( )\n)\nDEMANDS ( )\n", "N6", 6),
    (b"?SNDlib native format; type: network; version: 1.0\nNODES (\n A\n", "N3", 4), (b"<network", "convert", None), (b"", "convert", None)])
def test_a_file_that_is_no_network_is_refused(program: Program, tmp_path: Path, text: bytes, kind: str, line: int | None) -> None:
    (tmp_path / "x.net").write_bytes(text)
    with pytest.raises(mcf.Refused) as caught:
        mcf.read(tmp_path / "x.net")
    assert (caught.value.kind, caught.value.line, caught.value.file) == (kind, line, str(tmp_path / "x.net")) and caught.value.sentence
    assert "\n" not in str(caught.value) and str(pickle.loads(pickle.dumps(caught.value))) == str(caught.value)


def test_a_file_of_several_that_is_refused_is_named_with_its_line(tmp_path: Path) -> None:
    (tmp_path / "links.csv").write_text("source,target,capacity\nA,B,1.5\n")
    (tmp_path / "demands\xfc.csv").write_text("source,target,amount\nA,B,1\nA,B,much\n")
    with pytest.raises(mcf.Refused) as caught:
        mcf.read(tmp_path / "links.csv", tmp_path / "demands\xfc.csv")
    assert (caught.value.kind, caught.value.file, caught.value.line) == ("convert", str(tmp_path / "demands\xfc.csv"), 3)
    with pytest.raises(mcf.ReadFault, match="none.csv: No such file"):
        mcf.read(tmp_path / "links.csv", tmp_path / "none.csv")


@pytest.mark.parametrize("options, said", [
    ({"round": 7}, "round is 0 or .* or 6 or None, and not 7"), ({"round": 1.5}, "and not 1.5"), ({"round": True}, "and not True"), ({"unit": "ell"}, "unit is bit or "),
    ({"from_unit": 5}, "from_unit is bit or "), ({"merge": "yes"}, "merge is True or False, and not 'yes'"), ({"merge": 1}, "and not 1"),
    ({"capacity_default": 10}, "capacity_default is a str, and not 10"), ({"capacity": 5}, "capacity is a str, and not 5"), ({"scale": -1}, "scale: -1 is negative"),
    ({"gravity": "x"}, "gravity: 'x' is no number")])
def test_an_option_of_read_that_cannot_be_is_refused(root: Path, options: dict[str, object], said: str) -> None:
    with pytest.raises(ValueError, match=said):
        mcf.read(root / "examples/alps.graphml", **options)


def test_what_is_missing_is_named_by_the_options_of_read(root: Path, tmp_path: Path) -> None:
    with pytest.raises(mcf.Refused, match="has no capacity: capacity_default=X gives it X$"):
        mcf.read(root / "examples/alps.graphml")
    (tmp_path / "links.csv").write_text("source,target,capacity\nA,B,0.12345678\n")
    with pytest.raises(mcf.Refused, match=r"\(round=N rounds it\)$"):
        mcf.read(tmp_path / "links.csv")
    with pytest.raises(mcf.Refused, match="no format that is known here$"):
        mcf.read(root / "examples/triangle.cert")


def test_the_name_of_a_file_says_nothing_of_its_links(program: Program, tmp_path: Path) -> None:
    (tmp_path / "links are one way.csv").write_bytes(b"\xef\xbb\xbfsource,target,capacity\nA,B,1\n")
    network = mcf.read(tmp_path / "links are one way.csv")
    assert any("links are one way.csv" in note for note in network.notes) and network.mode == "undirected"


def test_options_of_read_that_are_none_are_as_if_they_were_not_given(program: Program, root: Path) -> None:
    plain = {"unit": None, "from_unit": None, "round": None, "merge": False, "gravity": None, "scale": None, "capacity": None}
    assert mcf.read(root / "examples/alps.graphml", capacity_default="10G", **plain) == mcf.read(root / "examples/alps.graphml", capacity_default="10G")


def test_a_file_that_is_missing_is_a_read_fault(program: Program, tmp_path: Path) -> None:
    for path in (tmp_path / "none.net", tmp_path):
        with pytest.raises(mcf.ReadFault, match=str(path)):
            mcf.read(path)
    with pytest.raises(ValueError, match="there is no option 'colour'"):
        mcf.read(tmp_path / "none.net", colour="red")


# -- changed


def test_changes_give_other_networks(triangle: Network) -> None:
    ids = triangle.links.id.tolist()
    more = triangle.with_capacities({ids[0]: "12.5"})
    assert more.links.capacity.tolist() == [12.5, 6.0, 6.0] and triangle.links.capacity.tolist() == [10.0, 6.0, 6.0]
    assert triangle.scaled_demands(0.5).demands.amount.tolist() == [4.0, 2.0]
    assert triangle.with_demands({"A-B": 3}).demands.amount.tolist() == [3.0, 4.0]
    assert triangle.with_demands({("B", "C"): 1}).demands.id.tolist() == ["B-C"]
    assert triangle.with_demands(DEMANDS.assign(amount=[1, 2])).demands.amount.tolist() == [1.0, 2.0]
    assert triangle.without(links=[ids[0]]).links.id.tolist() == ids[1:]
    left = triangle.without(nodes=["B"])
    assert (left.nodes.id.tolist(), left.links.id.tolist(), left.demands.id.tolist()) == (["A", "C"], ["A-C"], ["A-C"])


@pytest.mark.parametrize("change, said", [
    (lambda of: of.with_capacities({"X": 1}), "the network has no link 'X'"), (lambda of: of.with_demands({"X": 1}), "the network has no demand 'X'"),
    (lambda of: of.without(nodes=["X"]), "the network has no node 'X'"), (lambda of: of.without(links="A-B"), "a list of ids is wanted"),
    (lambda of: of.scaled_demands(1 / 3), "factor: .* more than 6 decimals"), (lambda of: of.with_capacities({"A-B": -1}), "link 'A-B': -1 is negative"),
    (lambda of: of.with_demands({"A-B": 0.000001}).scaled_demands(0.5), "demand 'A-B': .* more than 6 decimals")])
def test_changes_of_what_is_not_there_are_refused(change: object, said: str) -> None:
    with pytest.raises(ValueError, match=said):
        change(Network.from_frames(LINKS, DEMANDS))  # type: ignore[operator]


# -- certificates


def test_tables_say_what_the_report_says(program: Program, root: Path) -> None:
    network = mcf.read(root / "examples/polska.net")
    certificate = network.solve()
    figures = Figures(certificate.scaled, certificate.rows)
    table = certificate.link_table(exact=True)
    assert table.load.tolist() == [row.load for row in figures.links] and table.utilisation.tolist() == [row.utilisation for row in figures.links]
    assert table.share_of_bound.tolist() == [row.share for row in figures.links] and sum(table.share_of_bound) == 1
    assert max(table.utilisation) == 1 / certificate.lower and max(certificate.link_table(at_lower=True, exact=True).utilisation) == 1
    assert list(table.columns) == ["link", "source", "target", "capacity", "load", "utilisation", "share_of_bound"]
    demands = certificate.demand_table(exact=True)
    assert set(demands.share) == {certificate.lower} and demands.amount.sum() == figures.total
    paths = certificate.paths
    assert list(paths.columns) == ["demand", "nodes", "links", "share", "amount"]
    assert paths.groupby("demand").share.sum().round(9).eq(1).all() and (paths.nodes.map(len) == paths.links.map(len) + 1).all()
    assert certificate.bottleneck().share_of_bound.is_monotonic_decreasing


def test_totals_and_hop_limits(program: Program, root: Path) -> None:
    total = mcf.read(root / "examples/in-a-row.net").throughput(gap=0)
    assert isinstance(total, mcf.TotalCertificate) and total.judged
    assert total.demand_table(exact=True).carried.sum() == total.lower == total.judged.lower and total.upper == total.judged.upper
    assert total.link_table().utilisation.max() <= 1 and 0 < total.link_table(exact=True).share_of_bound.sum() <= 1
    limited = mcf.read(root / "examples/detours.net").hops()
    assert isinstance(limited, mcf.HopCertificate) and limited.judged and limited.upper <= limited.network.solve().upper * 2
    most = limited.network.demands.set_index("id").longest
    assert all(row.most_links <= most[row.demand] for row in limited.demand_table().itertuples() if most[row.demand] is not pandas.NA)


def test_a_total_of_decimals_is_in_the_unit_of_the_network(program: Program) -> None:
    total = Network.from_frames(links(capacity=[0.25]), {("A", "B"): 2.5}).certify("throughput", gap=0, progress=False)
    assert isinstance(total, mcf.TotalCertificate)
    assert total.lower == total.upper == Fraction(1, 4) and total.judged and total.judged.lower == Fraction(1, 4)
    assert total.link_table().load.tolist() == [0.25] and total.demand_table().carried.tolist() == [0.25]


def test_capacity_zero_and_a_demand_without_a_way(program: Program) -> None:
    certificate = Network.from_frames(links(capacity=[0]), {("A", "B"): 1}).solve()
    assert (certificate.lower, certificate.upper, certificate.closed, certificate.phases, certificate.gap) == (0, 0, True, 0, 0)
    assert certificate.link_table().utilisation.isna().all() and certificate.paths.empty and certificate.demand_table().carried.tolist() == [0.0]
    assert certificate.bottleneck().empty and certificate._repr_html_() and certificate.plot()


def test_a_certificate_of_a_file_is_not_judged_until_it_is_checked(triangle: Network, tmp_path: Path) -> None:
    certificate = triangle.solve()
    certificate.save(tmp_path / "a.cert")
    loaded = triangle.load(tmp_path / "a.cert")
    assert loaded == certificate and loaded.judged is None
    for shown in (repr(loaded), loaded._repr_html_(), loaded.to_json()):
        assert "not judged" in shown
    judgement = triangle.check(loaded)
    assert judgement and judgement == certificate.judged == loaded.judged and "not judged" not in repr(loaded)
    assert mcf.check(triangle, tmp_path / "a.cert") == judgement
    again = mcf.Certificate.from_text(certificate.text, triangle)
    assert again == certificate and again.judged is None


def test_a_wrong_certificate_is_invalid_and_one_of_another_network_refused(triangle: Network) -> None:
    certificate = triangle.solve()
    wrong = mcf.Certificate.from_text(certificate.text.replace("scale 10 ", "scale 11 "), triangle)
    judgement = mcf.check(triangle, wrong)
    assert not judgement and (judgement.verdict, judgement.condition, judgement.lower) == ("invalid", "C3", None) and wrong.judged == judgement
    with pytest.raises(mcf.Invalid, match="invalid C3: a link carries more than its capacity") as caught:
        triangle.sweep(wrong)  # type: ignore[arg-type]
    assert caught.value.condition == "C3"
    other = triangle.with_capacities({"A-B": 9})
    assert not other.check(certificate) and certificate.judged
    with pytest.raises(mcf.Refused, match="K3") as refused:
        Network.from_frames(LINKS.assign(id=["x", "y", "z"]), DEMANDS).check(certificate)
    assert (refused.value.kind, refused.value.file) == ("K3", "cert")
    with pytest.raises(mcf.Refused, match="K6"):
        triangle.with_demands({("A", "B"): 1}).check(certificate)
    assert mcf.Certificate.from_text(certificate.text, other).judged is None


def test_a_text_that_is_no_certificate_is_named(triangle: Network, tmp_path: Path) -> None:
    (tmp_path / "x").write_text("mcf-certificate 2\nverdict open\n")
    with pytest.raises(mcf.TextError, match="x: line 3"):
        triangle.load(tmp_path / "x")
    with pytest.raises(mcf.Refused, match="K2"):
        triangle.check(tmp_path / "x")
    with pytest.raises(mcf.TextError, match="No such file"):
        triangle.load(tmp_path / "none")


def test_others_check_what_was_saved(triangle: Network, program: Program, root: Path, tmp_path: Path) -> None:
    triangle.save(tmp_path / "a.net")
    for at, answer in enumerate([triangle.solve(), triangle.certify(progress=False), triangle.route("ecmp", seconds=5), triangle.hops()]):
        answer.save(tmp_path / f"{at}.cert")
        line = program.check(tmp_path / "a.net", tmp_path / f"{at}.cert", command=answer.rows.judge).line
        assert answer.judged and line == answer.judged.line and line.startswith(("valid ", "feasible "))
        if at < 2:
            twice = subprocess.run([str(root / "tools/check_twice"), str(tmp_path / "a.net"), str(tmp_path / f"{at}.cert")],
                                   capture_output=True, text=True, check=False)
            assert twice.stdout.startswith("valid "), twice.stdout + twice.stderr


def test_json_has_exact_numbers_beside_floats(triangle: Network) -> None:
    certificate = triangle.certify(gap=0, progress=False)
    said = json.loads(certificate.to_json())
    assert said["lower"] == {"exact": "4/3", "float": 4 / 3} and said["judgement"] == "valid" and said["kind"] == "certificate"
    assert [row["capacity"]["exact"] for row in said["link_table"]] == ["10", "6", "6"]
    assert {row["demand"] for row in said["demand_table"]} == {"A-B", "A-C"} and said["paths"][0]["nodes"][0] == "A"
    assert "link_table" not in json.loads(certificate.to_json(tables=False))


def test_shown_bounds_hold(program: Program) -> None:
    network = Network.from_frames(links(capacity=[3]), {("A", "B"): 7})
    certificate = network.certify(gap=0, progress=False)
    assert "lower 0.428571 (3/7), upper 0.428572 (3/7)" in repr(certificate)
    page = Network.from_frames(links(id=["<b>"]), {("A", "B"): 1}).solve()._repr_html_()
    assert "&lt;b&gt;" in page and "<b>&" not in page.replace("<b>Certificate</b>", "")


def test_a_figure(program: Program, root: Path) -> None:
    for name, mode in (("abilene", "bidirected"), ("both-ways", "undirected")):
        certificate = mcf.read(root / f"examples/{name}.net").solve(links=mode, gap=0.3)
        figure = certificate.plot()
        assert figure._repr_png_().startswith(b"\x89PNG") and len(figure.axes[0].patches) == len(certificate.link_table())
        assert "matplotlib.pyplot" not in sys.modules or figure.number not in sys.modules["matplotlib.pyplot"].get_fignums() \
            if hasattr(figure, "number") else True
    axes = figure.axes[0]
    assert certificate.plot(axes) is figure


# -- the other commands


def test_a_link_may_have_any_name(triangle: Network) -> None:
    """Words of the program's own lines, and a name whose last byte ends a line of Latin-1."""
    names = ["lower", "upper", "Å"]
    network = Network.from_frames(LINKS.assign(id=names), DEMANDS)
    others = triangle.sweep(triangle.solve()), triangle.sweepsolve(), triangle.whatif(triangle.solve(), [("close", "A-B"), ("set", "B-C", 0)])
    found = network.sweep(network.solve()), network.sweepsolve(), network.whatif(network.solve(), [("close", "lower"), ("set", "Å", 0)])
    assert [[row.case for row in cases] for cases in found] == [names, names, ["close lower", "set Å 0"]]
    for one, other in zip(found, others):
        assert [(row.lower, row.upper) for row in one] == [(row.lower, row.upper) for row in other]


def test_sweeps_and_edits(triangle: Network) -> None:
    certificate = triangle.certify(gap=0, progress=False)
    sweep = triangle.sweep(certificate)
    assert [row.case for row in sweep] == triangle.links.id.tolist() and sweep["A-C"].lower == 0
    solved = triangle.sweepsolve(gap=0.01)
    for one, two in zip(sweep, solved):
        assert one.lower <= two.upper and two.closed and two.upper <= one.upper * Fraction("1.011")
    assert list(solved.table().columns) == ["link", "lower", "upper", "closed", "phases"] and len(sweep.table()) == 3
    with pytest.raises(KeyError):
        sweep["X"]
    assert sweep[-1] == sweep[2] == sweep[numpy.int64(2)] == list(sweep)[2] and sweep[:2] == tuple(sweep)[:2]
    with pytest.raises(IndexError):
        sweep[3]
    edits = [("set", "A-B", 12), ("add", "A-B", Fraction(3)), ("sub", "A-B", 5), ("close", "B-C")]
    found = triangle.whatif(certificate, edits)
    assert found.table().edit.tolist() == ["set A-B 12", "add A-B 3", "sub A-B 5", "close B-C"]
    assert found[0].upper == 18 / Fraction(12) and found[2].upper == certificate.upper
    assert triangle.whatif(certificate, []).table().empty


@pytest.mark.parametrize("edit, said", [
    (("set", "X", 1), "edit 2: the network has no link 'X'"), (("double", "A-B"), "edit 2: .* is no edit"), (("set", "A-B"), "edit 2: .* is no edit"),
    (("close", "A-B", 1), "edit 2: .* is no edit"), ("close", "edit 2: 'close' is no edit"), (("set", "A-B", float("nan")), "edit 2: nan is no number"),
    (("set", "a b", 1), "edit 2: the name 'a b' has a blank"), (5, "edit 2: 5 is no edit"), ([], r"edit 2: \[\] is no edit"),
    (([], "A-B"), "edit 2: .* is no edit"), (None, "edit 2: None is no edit")])
def test_an_edit_that_is_none_is_named(triangle: Network, edit: object, said: str) -> None:
    with pytest.raises(ValueError, match=said):
        triangle.whatif(triangle.solve(), [("close", "A-B"), edit])  # type: ignore[list-item]


def test_a_certificate_may_be_given_by_its_path(triangle: Network, tmp_path: Path) -> None:
    certificate, file = triangle.solve(), tmp_path / "a.cert"
    certificate.save(file)
    assert triangle.sweep(file) == triangle.sweep(certificate) and triangle.sweep(str(file)) == triangle.sweep(certificate)
    assert triangle.whatif(file, [("close", "A-B")]) == triangle.whatif(certificate, [("close", "A-B")])
    assert triangle.tighten(file, certificate).data == triangle.tighten(certificate, file).data
    (tmp_path / "cut").write_bytes(certificate.data[:60])
    calls = [triangle.sweep, triangle.tighten, triangle.check, lambda path: triangle.tighten(certificate, path),
             lambda path: triangle.whatif(path, [("close", "A-B")])]
    for call in calls:
        with pytest.raises(mcf.Refused, match=f"^{tmp_path}/cut: refused cert2? K2 line 4: ") as caught:
            call(tmp_path / "cut")  # type: ignore[operator]
        assert (caught.value.file, caught.value.line) == (str(tmp_path / "cut"), 4)
        for none in (None, 5, [certificate]):
            with pytest.raises(TypeError, match="a certificate is wanted, or the path of one, and not "):
                call(none)  # type: ignore[operator]
        with pytest.raises(mcf.TextError, match="No such file"):
            call(tmp_path / "none")  # type: ignore[operator]


def test_an_edit_that_the_program_refuses(triangle: Network) -> None:
    certificate = triangle.solve()
    with pytest.raises(mcf.Refused, match="the line is 'sub A-B 11'") as caught:
        triangle.whatif(certificate, [("close", "A-C"), ("sub", "A-B", 11)])
    assert (caught.value.kind, caught.value.file, caught.value.line) == ("S6", "script", 3)
    with pytest.raises(mcf.Refused, match="S4"):
        triangle.whatif(certificate, [("set", "A-B", 0.5)])


def test_tighten_joins_certificates(triangle: Network) -> None:
    some = [triangle.solve(gap=0.5), triangle.solve(gap=0.05), triangle.solve(gap=0.2)]
    best = triangle.tighten(*some)
    assert best.judged and best.lower >= max(one.lower for one in some) and best.upper <= min(one.upper for one in some)
    assert triangle.tighten(some[0]).upper <= some[0].upper
    with pytest.raises(ValueError, match="at least one certificate"):
        triangle.tighten()


def test_more_matrices_than_a_run_takes(triangle: Network, program: Program, tmp_path: Path) -> None:
    matrices = {f"m{at}": {"A-B": at + 1} for at in range(70)}
    batch = triangle.batch({**matrices, "other": pandas.DataFrame({"source": ["C"], "target": ["B"], "amount": [1]})}, gap=0.2, progress=False)
    assert list(batch) == [*matrices, "other"] and all(one.judged for one in batch.values())
    assert batch["other"].demand_table().demand.tolist() == ["C-B"] and batch.table().shape == (71, 6)
    last = batch["m69"]
    last.network.save(tmp_path / "a.net")
    last.save(tmp_path / "a.cert")
    assert program.check(tmp_path / "a.net", tmp_path / "a.cert").status == 0
    assert last.lower <= Fraction(16, 70) <= last.upper * 2 and not triangle.batch({}, progress=False)
    with pytest.raises(ValueError, match="matrix: the name 'a b' has a blank"):
        triangle.batch({"a b": {"A-B": 1}}, progress=False)


def test_a_matrix_without_demands_is_refused(triangle: Network) -> None:
    for empty in ({"A-B": 0, "A-C": 0}, DEMANDS.head(0)):
        with pytest.raises(mcf.Refused, match="M8"):
            triangle.batch({"m": empty}, progress=False)
    with pytest.raises(ValueError, match="^matrix 'm': demands: {} has neither pairs nor ids"):
        triangle.batch({"n": {"A-B": 1}, "m": {}}, progress=False)
    with pytest.raises(ValueError, match="has neither pairs nor ids"):
        triangle.with_demands({})
    assert triangle.with_demands(DEMANDS.head(0)).scaled_demands(2).demands.empty


def test_matrices_of_one_name_and_what_is_none_are_refused(triangle: Network) -> None:
    assert list(triangle.batch({1: {"A-B": 1}, 2.0: {"A-B": 2}}, progress=False)) == ["1", "2"]  # type: ignore[dict-item]
    with pytest.raises(ValueError, match="^matrix '1': another one has that name too$"):
        triangle.batch({1: {"A-B": 1}, "1": {"A-B": 2}}, progress=False)  # type: ignore[dict-item]
    with pytest.raises(ValueError, match="^matrix 'm': the network has no demand 'X'$"):
        triangle.batch({"m": {"X": 1}}, progress=False)
    with pytest.raises(ValueError, match="^matrices: {name: demands} is wanted, and not "):
        triangle.batch([DEMANDS], progress=False)  # type: ignore[arg-type]
    assert len(triangle.batch({"m": {"A-B": 1}}, phases="5", progress=False)) == 1  # type: ignore[arg-type]


# -- options


@pytest.mark.parametrize("options, said", [
    ({"phases": 0}, "`0` is no value of --phases, which is a whole number from 1 to 65536"), ({"workers": 17}, "--workers"), ({"links": "both"}, "--links"),
    ({"modules": "all"}, "--modules"), ({"links": ""}, "--links"), ({"phases": 1.5}, "phases is a whole number, and not 1.5"),
    ({"workers": True}, "workers is a whole number, and not True"), ({"step": [1]}, r"step is a whole number, and not \[1\]"),
    ({"links": 2.5}, "links is a str, and not 2.5")])
def test_an_option_out_of_range_is_usage(triangle: Network, options: dict[str, object], said: str) -> None:
    with pytest.raises(mcf.Usage, match=said):
        triangle.solve(**options)  # type: ignore[arg-type]


def test_gaps_are_exact(triangle: Network) -> None:
    with pytest.raises(ValueError, match="^gap: 1001 is more than 1000$"):
        triangle.solve(gap=1001)
    with pytest.raises(ValueError, match="^gap: 0.30000000000000004 has more than 6 decimals; round it$"):
        triangle.solve(gap=0.1 + 0.2)
    with pytest.raises(mcf.Refused, match="since each has amount 0 or ends in its own node, mostly in a file that has links alone$"):
        triangle.scaled_demands(0).solve()
    texts = {triangle.solve(gap=gap).text for gap in (0.1, "0.1", Decimal("0.10"), Fraction(1, 10))}  # type: ignore[arg-type]
    assert len(texts) == 1 and "gap 0.100000\n" in texts.pop()
    for gap, kind in ((Fraction(1, 3), ValueError), (-1, ValueError), (1001, ValueError), (float("nan"), ValueError)):
        with pytest.raises(kind):
            triangle.solve(gap=gap)


def test_what_the_network_has_too_much_of_is_refused(triangle: Network) -> None:
    with pytest.raises(mcf.Refused, match="no demand is left") as caught:
        triangle.with_demands(DEMANDS.head(0)).solve()
    assert caught.value.kind == "N10" and caught.value.file == "net"
    many = pandas.DataFrame({"source": ["A"] * 33000, "target": ["B"] * 33000, "amount": [1] * 33000})
    with pytest.raises(mcf.Refused, match="more than 512 nodes, 4,096 links or 32,768 demands"):
        triangle.with_demands(many).solve()
    with pytest.raises(mcf.Refused) as work:
        triangle.with_demands(many.head(100)).solve(phases=65536)
    assert work.value.kind == "work" and work.value.line is None


def test_a_tool_without_an_answer_says_why(triangle: Network) -> None:
    with pytest.raises(mcf.McfError, match="has no way over links with capacity"):
        triangle.with_demands({("A", "B"): 1}).with_capacities({"A-B": 0, "A-C": 0}).route("hops")
    with pytest.raises(mcf.Usage, match=r"invalid choice: 'best' \(choose from [^()]*\)$"):
        triangle.route("best")
    for seconds in ("x", 0, -1, float("nan")):
        with pytest.raises(mcf.Usage, match="is no number of seconds above 0$"):
            triangle.certify(seconds=seconds, progress=False)  # type: ignore[arg-type]
    with pytest.raises(ValueError, match="kind is solve, hops or throughput"):
        triangle.certify("best")


def test_a_newcomer_finds_the_way() -> None:
    assert mcf.__doc__ is not None and all(word in mcf.__doc__ for word in ("mcf.read(", ".solve()", ".link_table()", "help(mcf.Network)"))
    public = [value for name, value in vars(Network).items() if not name.startswith("_") and callable(getattr(value, "__func__", value))]
    assert len(public) > 15 and all(value.__doc__ for value in public)


def test_modules_of_the_api_need_no_package_to_be_imported(root: Path) -> None:
    code = f"import sys; sys.path.insert(0, {str(root / 'python')!r}); import mcf; print(mcf.Network.from_frames.__doc__[:12], mcf.Certificate.kind)"
    done = subprocess.run([sys.executable, "-I", "-S", "-B", "-c", code], capture_output=True, text=True, check=False)
    assert (done.stdout, done.stderr) == ("A network of certificate\n", "")
    done = subprocess.run([sys.executable, "-I", "-S", "-B", "-c", code + "; mcf.Network.from_frames({}, {})"], capture_output=True, text=True,
                          check=False)
    assert "python3-pandas" in done.stderr and "tools/setup installs them" in done.stderr


