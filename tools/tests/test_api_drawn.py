"""Properties of the API on drawn networks: what goes in comes back or is refused, and all that it tells is what the proved check says."""

from __future__ import annotations

import json
import os
from collections import Counter
from collections.abc import Callable, Iterator
from dataclasses import replace
from fractions import Fraction
from pathlib import Path
from typing import Any

import networkx
import pandas
import pytest

pytest.importorskip("hypothesis", reason="python3-hypothesis is missing: tools/setup --tests")
from hypothesis import HealthCheck, assume, given, settings  # noqa: E402
from hypothesis import strategies as st  # noqa: E402

import mcf  # noqa: E402
from drawn import small_networks  # noqa: E402
from jsoned import fractions_in  # noqa: E402
from mcf import Network, Program, certificate, scale, volume, weighted_distance, write_certificate  # noqa: E402
from mcf.given import name_of  # noqa: E402
from mcf.limits import MAX_UNITS  # noqa: E402
from mcf.lp.rounding import fullest  # noqa: E402
from mcf.network import Link as LinkRow  # noqa: E402
from mcf.network import Network as Rows  # noqa: E402
from mcf.ranges import Range  # noqa: E402

# what asks the program takes longer; the long profile tries as many as everywhere
FEW = settings(max_examples=settings().max_examples if os.environ.get("MCF_LONG") or os.environ.get("MCF_PROCESSES") else 8,
               suppress_health_check=[HealthCheck.function_scoped_fixture])
DECIMALS = st.decimals(0, MAX_UNITS, places=6, allow_nan=False)
# what a network text can hold, and what else may be given
FIT_NAMES = st.text(st.characters(blacklist_categories=("Cs",), blacklist_characters=" \t\r\n()#"), min_size=1, max_size=4)
ANY_NAMES = st.text(st.characters(blacklist_categories=("Cs",)), min_size=1, max_size=4)
FLOATS = st.floats(0, 1e9).map(lambda value: round(value, 6))
FIT_NUMBERS = st.one_of(DECIMALS, st.integers(0, MAX_UNITS), FLOATS, DECIMALS.map(str), DECIMALS.map(Fraction))
ANY_NUMBERS = st.one_of(FIT_NUMBERS, st.integers(), st.floats(), st.fractions(), st.text(max_size=4))


@pytest.fixture(autouse=True)
def found(monkeypatch: pytest.MonkeyPatch, request: pytest.FixtureRequest) -> None:
    """The program of the tests, where one is built."""
    if "program" in request.fixturenames:
        monkeypatch.setenv("MCF", request.getfixturevalue("program").path)


@st.composite
def frames(draw: st.DrawFn) -> dict[str, list[dict[str, Any]]]:
    """Rows of nodes, links and demands: odd names and numbers, loops, parallel links, nodes that nobody names."""
    fit = draw(st.sampled_from((True, True, True, False)))
    names = draw(st.lists(FIT_NAMES if fit else ANY_NAMES, min_size=2, max_size=5, unique=True))
    number = FIT_NUMBERS if fit else ANY_NUMBERS
    place = st.floats(-180, 180)
    nodes = [{"id": name, "x": draw(place), "y": draw(place)} for name in names]
    ends = st.tuples(st.sampled_from(names), st.sampled_from(names))
    links = [{"source": a, "target": b, "capacity": draw(number), "colour": draw(st.sampled_from(("red", "blue")))}
             for a, b in draw(st.lists(ends, min_size=1, max_size=6))]
    demands = [{"source": a, "target": b, "amount": draw(number), "longest": draw(st.none() | st.integers(1, 60))}
               for a, b in draw(st.lists(ends, max_size=4))]
    return {"nodes": nodes, "links": links, "demands": demands}


def tables(rows: dict[str, list[dict[str, Any]]], columns: dict[str, list[str]]) -> Iterator[pandas.DataFrame]:
    """The frames of rows, whose values stay as they were drawn."""
    for kind, names in columns.items():
        yield pandas.DataFrame({name: pandas.Series([row[name] for row in rows[kind]], dtype=object) for name in names})


def made(build: Callable[[], Network]) -> Network | None:
    """A network, or nothing where it is refused in one line."""
    try:
        return build()
    except ValueError as refused:
        assert "\n" not in str(refused) and str(refused)
        return None


def exact_of(value: object) -> Fraction:
    """The number that was meant."""
    return Fraction(str(value)) if isinstance(value, float) else Fraction(value)  # type: ignore[arg-type]


@given(frames(), st.booleans())
def test_frames_come_back_as_they_went_in_or_are_refused(rows: dict[str, list[dict[str, Any]]], directed: bool) -> None:
    columns = {"links": ["source", "target", "capacity", "colour"], "demands": ["source", "target", "amount", "longest"],
               "nodes": ["id", "x", "y"]}
    links, demands, nodes = tables(rows, columns)
    network = made(lambda: Network.from_frames(links, demands, nodes, directed=directed))
    if network is None:
        return
    back = network.frames(exact=True)
    assert list(back.links.capacity) == [exact_of(value) for value in links.capacity] and list(back.links.colour) == list(links.colour)
    assert list(back.demands.amount) == [exact_of(value) for value in demands.amount]
    assert list(back.nodes.id) == list(nodes.id) and list(back.nodes.x) == list(nodes.x)
    assert [(a, b) for a, b in zip(back.links.source, back.links.target)] == [(a, b) for a, b in zip(links.source, links.target)]
    again = Network.from_frames(back.links, back.demands, back.nodes, directed=directed)
    assert (again.rows, again.data, again.directed) == (network.rows, network.data, directed)


@given(frames(), st.sampled_from((networkx.Graph, networkx.DiGraph, networkx.MultiGraph, networkx.MultiDiGraph)))
def test_graphs_come_back_as_they_went_in_or_are_refused(rows: dict[str, list[dict[str, Any]]], kind: type[networkx.Graph]) -> None:
    graph = kind()
    for node in rows["nodes"]:
        graph.add_node(node["id"], pos=(node["x"], node["y"]))
    for link in rows["links"]:
        graph.add_edge(link["source"], link["target"], capacity=link["capacity"], colour=link["colour"])
    network = made(lambda: Network.from_networkx(graph, {}))
    if network is None:
        return
    back = network.to_networkx()
    assert set(back.nodes) == set(graph.nodes) and back.is_directed() == graph.is_directed()
    assert edges_of(back) == edges_of(graph)
    assert [data["pos"] for _, data in back.nodes(data=True)] == [data["pos"] for _, data in graph.nodes(data=True)]
    again = Network.from_networkx(back, {})
    assert links_of(again.rows.links, graph.is_directed()) == links_of(network.rows.links, graph.is_directed())
    assert again.rows.nodes == network.rows.nodes


def edges_of(graph: networkx.Graph) -> Counter[Any]:
    """The edges of a graph: their ends, capacity and colour, each as often as it is there."""
    def ends(a: str, b: str) -> object:
        """Both, in their order where that counts."""
        return (a, b) if graph.is_directed() else tuple(sorted((a, b)))
    return Counter((ends(a, b), exact_of(data["capacity"]), data["colour"]) for a, b, data in graph.edges(data=True))


def links_of(links: tuple[LinkRow, ...], directed: bool) -> set[Any]:
    """The links of rows, in any order; the ends of undirected ones too."""
    return {(link.id, (link.source, link.target) if directed else frozenset((link.source, link.target)), link.capacity) for link in links}


@FEW
@given(rows=small_networks(), directed=st.booleans())
def test_what_is_saved_and_read_is_judged_alike(program: Program, tmp_path: Path, rows: Rows, directed: bool) -> None:
    network = Network.from_rows(rows, "directed" if directed else "undirected")
    solved = network.solve(gap=0.05, workers=1)
    network.save(tmp_path / "net")
    solved.save(tmp_path / "cert")
    read = mcf.read(tmp_path / "net")
    loaded = read.load(tmp_path / "cert")
    assert loaded.judged is None and read.rows == network.rows
    files = tmp_path / "net", tmp_path / "cert"
    for said in (read.check(loaded), read.check(files[1]), mcf.check(network, solved), mcf.check(*files)):
        assert (said.lower, said.upper, said.closed) == (solved.lower, solved.upper, solved.closed) and bool(said)
    assert (loaded.lower, loaded.upper) == (solved.lower, solved.upper)
    line = program.check(tmp_path / "net", tmp_path / "cert").line
    assert solved.judged is not None and solved.judged.line == line


@FEW
@given(rows=small_networks(), draw=st.data())
def test_whatif_tells_the_bounds_that_the_check_has_for_the_changed_network(program: Program, rows: Rows, draw: st.DataObject) -> None:
    links = tuple(replace(link, capacity=str(int(Fraction(link.capacity)) + 1)) for link in rows.links)
    demands = tuple(replace(demand, value=str(int(Fraction(demand.value)) + 1)) for demand in rows.demands)
    network = Network.from_rows(replace(rows, links=links, demands=demands))
    solved = network.solve(gap=0.1, workers=1)
    assume(solved.upper > 0)
    names = st.sampled_from([name_of(link.id) for link in links])
    edits = draw.draw(st.lists(st.tuples(st.just("set"), names, st.integers(1, 9)), max_size=3))
    changed = network
    for edit, row in zip(edits, network.whatif(solved, edits)):
        changed = changed.with_capacities({edit[1]: edit[2]})
        handed = mcf.Certificate.from_text(on_other_capacities(solved.rows, changed), changed)
        said = changed.check(handed)
        assert said and (said.lower, said.upper) == (row.lower, row.upper)


def on_other_capacities(rows: certificate.Routing, network: Network) -> str:
    """The text of a certificate's paths and lengths, with the bounds that they have under other capacities."""
    assert isinstance(rows, certificate.Certificate)
    scaled = scale(network.rows)
    capacity, load = fullest(mcf.loads(scaled, rows), [cell.capacity for cell in scaled.cells])
    lower, upper = (rows.phases * capacity, load), (volume(scaled, rows), weighted_distance(scaled, rows))
    bounds = Range(Fraction(*lower), Fraction(*upper))
    verdict = "closed" if bounds.within(Fraction(rows.gap, 10**6)) else "open"
    return write_certificate(replace(
        rows, verdict=verdict, scale_capacity=capacity, scale_load=load, lower=lower, upper=upper,
        lower_millionths=mcf.rounded_down(*lower), upper_millionths=mcf.rounded_up(*upper)))


@FEW
@given(rows=small_networks(), directed=st.booleans())
def test_json_has_the_exact_values(program: Program, rows: Rows, directed: bool) -> None:
    network = Network.from_rows(rows, "directed" if directed else "undirected")
    for answer in (network.solve(gap=0.05, workers=1), network.throughput(gap=0.05)):
        said = json.loads(answer.to_json())
        assert all(number["float"] == float(Fraction(number["exact"])) for number in fractions_in(said))
        assert (Fraction(said["lower"]["exact"]), Fraction(said["upper"]["exact"])) == (answer.lower, answer.upper)
        assert answer.judged is not None and said["judged"] == answer.judged.line
        for name, table in (("link_table", answer.link_table(exact=True)), ("demand_table", answer.demand_table(exact=True))):
            exact = [{key: Fraction(cell["exact"]) if isinstance(cell, dict) else cell for key, cell in row.items()} for row in said[name]]
            assert exact == [dict(zip(table.columns, row)) for row in table.itertuples(index=False)]
