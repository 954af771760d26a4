"""Routings: shortest paths, equal-cost multipath and k paths against plain definitions, and as texts that both checkers accept."""

from __future__ import annotations

import subprocess
from fractions import Fraction
from itertools import islice
from pathlib import Path

import networkx
import pytest

from mcf import Demand, Link, Node, Program, TextError, lower, read_routing, save_text, scale, write_network
from mcf.network import Network
from networks import odd_network
from mcf.route.lengths import METHODS, whole_lengths
from mcf.route.run import Question, route
from mcf.route.shortest import Ways
from mcf.route.whole import in_units, phases_for


def asked(net: Path, by: str, **options: object) -> Question:
    """A question with defaults."""
    given: dict[str, object] = {"links": "undirected", "modules": "largest", "lengths": "hops", "cost": "routing", "paths": 4, "seconds": 60.0}
    return Question(str(net), by, **{**given, **options})  # type: ignore[arg-type]


def simple_graph(scaled: object, lengths: list[int]) -> networkx.DiGraph:
    """A graph with a node in the midst of each way, so that parallel cells stay apart."""
    graph = networkx.DiGraph()
    for number, (cell, length) in enumerate(zip(scaled.cells, lengths)):  # type: ignore[attr-defined]
        if cell.capacity and cell.tail != cell.head:
            for tail, head in ((cell.tail, cell.head), (cell.head, cell.tail))[:1 + cell.both]:
                graph.add_edge(tail, ("way", number, tail), weight=length)
                graph.add_edge(("way", number, tail), head, weight=0)
    return graph


def split_by_hand(ways: Ways, node: int, target: int, distances: list[int | None], share: Fraction, flow: dict[int, Fraction]) -> None:
    """Equal-cost multipath as it is defined: each node in turn, path by path."""
    if node == target:
        return
    arcs = [arc for arc in ways.out[node] if distances[arc.to] is not None and distances[node] == arc.length + distances[arc.to]]
    for arc in arcs:
        flow[arc.cell] = flow.get(arc.cell, Fraction(0)) + share / len(arcs)
        split_by_hand(ways, arc.to, target, distances, share / len(arcs), flow)


@pytest.mark.parametrize("seed", range(25))
@pytest.mark.parametrize("links", ["undirected", "directed", "bidirected"])
def test_paths_on_odd_networks(seed: int, links: str) -> None:
    scaled = scale(odd_network(seed), links, "sum")
    for by in ("hops", "capacity"):
        lengths = whole_lengths(scaled, by, "routing")
        ways, graph = Ways(scaled, lengths), simple_graph(scaled, lengths)
        for commodity in scaled.commodities:
            far = ways.distances_to(commodity.target)
            if not (graph.has_node(commodity.source) and graph.has_node(commodity.target)
                    and networkx.has_path(graph, commodity.source, commodity.target)):
                assert far[commodity.source] is None
                continue
            assert far[commodity.source] == networkx.shortest_path_length(graph, commodity.source, commodity.target, "weight")
            walk = ways.shortest(commodity.source, commodity.target, far)
            assert sum(lengths[cell] for cell in walk) == far[commodity.source]
            flow: dict[int, Fraction] = {}
            split_by_hand(ways, commodity.source, commodity.target, far, Fraction(1), flow)
            paths = ways.equal_cost(commodity.source, commodity.target, far)
            assert sum(share for _, share in paths) == 1 and all(share > 0 for _, share in paths)
            assert {cell: sum(share for walk, share in paths if cell in walk) for cell in flow} == flow
            few = ways.k_shortest(commodity.source, commodity.target, far, 5)
            others = islice(networkx.shortest_simple_paths(graph, commodity.source, commodity.target, "weight"), 5)
            assert [sum(lengths[cell] for cell in walk) for walk in few] == [networkx.path_weight(graph, path, "weight") for path in others]
            assert len(set(few)) == len(few)


def test_lengths_by_capacity_are_exact() -> None:
    network = Network(tuple(map(Node, "ABC")), (Link("L", "A", "B", "3"), Link("M", "B", "C", "6"), Link("N", "A", "C", "2"), Link("O", "A", "C", "0")),
                      (Demand("D", "A", "C", "1", "1"),))
    scaled = scale(network)
    lengths = whole_lengths(scaled, "capacity", "routing")
    assert lengths[0] + lengths[1] == lengths[2] and lengths[3] == 0, "1/3 + 1/6 is 1/2"
    ways = Ways(scaled, lengths)
    assert len(ways.equal_cost(0, 2, ways.distances_to(2))) == 2


def test_costs_of_the_file() -> None:
    nodes, demands = tuple(map(Node, "ABC")), (Demand("D", "A", "C", "1", "1"),)
    network = Network(nodes, (Link("L", "A", "C", "1", "2", "9.5", "1"), Link("M", "A", "B", "1", "0", "0", "1"), Link("N", "B", "C", "1", "x", "9.5", "1")), demands)
    scaled = scale(network)
    for cost, cells in (("routing", (0,)), ("setup", (0,))):
        ways = Ways(scaled, whole_lengths(scaled, "cost", cost))
        assert ways.shortest(0, 2, ways.distances_to(2)) == cells, "of equal costs the way of fewer links, where a cost is 0"
    with pytest.raises(TextError, match="capacity cost"):
        whole_lengths(scaled, "cost", "capacity")
    dear = Network(nodes, (Link("L", "A", "C", "1", "2", "9.5"), Link("M", "A", "B", "1", "0", "0"), Link("N", "B", "C", "1", "0", "9.4")), demands)
    ways = Ways(scale(dear), whole_lengths(scale(dear), "cost", "routing"))
    assert ways.shortest(0, 2, ways.distances_to(2)) == (1, 2)


def test_phases_make_splits_exact_where_they_can() -> None:
    assert phases_for([Fraction(1, 3), Fraction(5, 4), Fraction(7)]).number == 12
    found = phases_for([Fraction(1, 3), Fraction(1, 65537)])
    assert not found.exact and 32768 < found.number <= 65536
    assert in_units([Fraction(1, 3), Fraction(2, 3)], 3) == [1, 2]
    assert in_units([Fraction(2, 3), Fraction(2, 3), Fraction(2, 3)], 1) == [1, 1, 0]


@pytest.mark.parametrize("by", METHODS)
@pytest.mark.parametrize("name", ["triangle", "polska", "abilene"])
def test_routings_are_accepted(program: Program, root: Path, tmp_path: Path, name: str, by: str) -> None:
    net, file = root / f"examples/{name}.net", tmp_path / "routing"
    routed = route(program, asked(net, by))
    save_text(file, routed.text)
    assert routed.line.startswith("feasible undirected largest ")
    done = subprocess.run([str(root / "tools/check_twice"), str(net), str(file)], capture_output=True, text=True, check=False)
    assert done.stdout.strip() == routed.line
    assert any("below" in note for note in routed.notes)


def test_each_way_of_a_link_has_its_own_load(program: Program, root: Path, tmp_path: Path) -> None:
    net, file = root / "examples/both-ways.net", tmp_path / "routing"
    for links, carried in (("undirected", 1), ("bidirected", 2)):
        routed = route(program, asked(net, "hops", links=links))
        save_text(file, routed.text)
        assert lower(read_routing(routed.text)) == carried and routed.line.startswith(f"feasible {links} largest ")
        done = subprocess.run([str(root / "tools/check_twice"), str(net), str(file)], capture_output=True, text=True, check=False)
        assert done.stdout.strip() == routed.line


def test_values_and_how_far_below_the_best(program: Program, root: Path) -> None:
    hops = route(program, asked(root / "examples/triangle.net", "hops"))
    assert lower(read_routing(hops.text)) == Fraction(5, 4)
    assert hops.notes == ["the best carries 1.333333 of every demand, so this is 6.25% below"]
    few = route(program, asked(root / "examples/triangle.net", "k-paths", paths=2))
    assert lower(read_routing(few.text)) == Fraction(4, 3), "two paths of each are all that there are"
    one = route(program, asked(root / "examples/triangle.net", "k-paths", paths=1))
    assert lower(read_routing(one.text)) == Fraction(5, 4)


def test_more_paths_carry_more(program: Program, root: Path) -> None:
    carried = [lower(read_routing(route(program, asked(root / "examples/geant.net", "k-paths", paths=count)).text)) for count in (1, 2, 4)]
    assert carried == sorted(carried) and carried[0] < carried[-1]


def test_a_split_that_no_phases_meet_is_told(program: Program, tmp_path: Path) -> None:
    """Twelve stages of three parallel links: the shares of paths are parts of 3 to the 12th."""
    nodes = tuple(Node(f"N{i}") for i in range(13))
    links = tuple(Link(f"L{i}_{j}", f"N{i}", f"N{i + 1}", str(j + 1)) for i in range(12) for j in range(3 if i else 2))
    demands = tuple(Demand(f"D{i}", f"N{i}", "N12", "1", "1") for i in range(11))
    net = tmp_path / "net"
    save_text(net, write_network(Network(nodes, links, demands)))
    exact = route(program, asked(net, "ecmp"))
    assert not any("no number of phases" in note for note in exact.notes), "the flow needs three paths alone"
    primes = tuple(Link(f"P{i}_{j}", "A", f"B{i}", "9") for i, count in enumerate((17, 19, 23, 29)) for j in range(count))
    wide = Network((Node("A"), *(Node(f"B{i}") for i in range(4))), primes, tuple(Demand(f"D{i}", "A", f"B{i}", "1", "1") for i in range(4)))
    save_text(net, write_network(wide))
    told = route(program, asked(net, "ecmp"))
    assert any("no number of phases up to 65536 makes these splits exact" in note for note in told.notes)
    assert told.line.startswith("feasible ")


def test_a_demand_without_a_way_is_told(program: Program, root: Path) -> None:
    for by in ("hops", "ecmp", "k-paths"):
        with pytest.raises(TextError, match="no way"):
            route(program, asked(root / "examples/polska.net", by, links="directed"))


def test_command(program: Program, root: Path, tmp_path: Path) -> None:
    tool, net = str(root / "tools/route"), str(root / "examples/triangle.net")
    done = subprocess.run([tool, net, "--by", "hops", "--mcf", program.path], capture_output=True, text=True, check=False)
    assert done.returncode == 0 and done.stdout.startswith("mcf-routing ") and "6.25% below" in done.stderr
    for words, status in (([net], 2), ([net, "--by", "hops", "--paths", "0"], 2), (["/nonexistent", "--by", "hops"], 2)):
        assert subprocess.run([tool, *words, "--mcf", program.path], capture_output=True, check=False).returncode == status
