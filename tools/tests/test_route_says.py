"""Routings and what is said of them, beside networkx and exact numbers: k shortest paths, equal-cost multipath, how far below the best."""

from __future__ import annotations

import os
import subprocess
from fractions import Fraction
from itertools import islice
from pathlib import Path

import networkx
import pytest

pytest.importorskip("hypothesis", reason="python3-hypothesis is missing: tools/setup --tests")

from hypothesis import given, settings  # noqa: E402
from hypothesis import strategies as st  # noqa: E402

from drawn import small_networks  # noqa: E402
from mcf import Demand, Link, Node, Program, ScaledNetwork, TextError, save_text, scale, write_network  # noqa: E402
from mcf.network import Network  # noqa: E402
from mcf.ranges import Range  # noqa: E402
from mcf.route.lengths import whole_lengths  # noqa: E402
from mcf.route.run import Question, route  # noqa: E402
from mcf.route.shortest import Ways  # noqa: E402
from mcf.route.shown import below_the_best, few_digits_up, percent, percent_up  # noqa: E402
from test_route import asked, simple_graph  # noqa: E402

ROOT = Path(__file__).resolve().parents[2]
ROUTE = ROOT / "tools/route"
DRAWN = 10_000 if os.environ.get("MCF_LONG") else 300 if os.environ.get("MCF_PROCESSES") else 150


def grid(side: int) -> Network:
    """A square grid with a demand from corner to corner."""
    name = [[f"N{row}_{column}" for column in range(side)] for row in range(side)]
    across = [(name[row][column], name[row][column + 1]) for row in range(side) for column in range(side - 1)]
    down = [(name[row][column], name[row + 1][column]) for row in range(side - 1) for column in range(side)]
    links = tuple(Link(f"L{number}", *ends, "1") for number, ends in enumerate(across + down))
    return Network(tuple(Node(one) for row in name for one in row), links, (Demand("D", name[0][0], name[-1][-1], "1", "1"),))


@pytest.mark.parametrize("count", [1, 4, 100, 1000])
def test_a_grid_has_all_the_paths_that_are_asked_for(count: int) -> None:
    """From corner to corner of 10 by 10 nodes there are 48,620 shortest paths."""
    scaled = scale(grid(10))
    ways = Ways(scaled, whole_lengths(scaled, "hops", "routing"))
    demand = scaled.commodities[0]
    found = ways.k_shortest(demand.source, demand.target, ways.distances_to(demand.target), count)
    assert len(set(found)) == count and {len(walk) for walk in found} == {18}


def test_routes_on_a_grid_are_split_over_the_paths_that_are_asked_for(program: Program, tmp_path: Path) -> None:
    net = tmp_path / "net"
    save_text(net, write_network(grid(10)))
    found = route(program, asked(net, "k-paths", paths=3))
    assert not any("fewer than" in note for note in found.notes), found.notes


@settings(max_examples=DRAWN)
@given(small_networks(), st.sampled_from(["undirected", "directed", "bidirected"]), st.sampled_from(["hops", "capacity"]), st.integers(1, 12))
def test_k_shortest_paths_are_those_of_networkx(network: Network, links: str, by: str, count: int) -> None:
    scaled = scale(network, links)
    lengths = whole_lengths(scaled, by, "routing")
    ways, graph = Ways(scaled, lengths), simple_graph(scaled, lengths)
    for demand in scaled.commodities:
        far = ways.distances_to(demand.target)
        found = ways.k_shortest(demand.source, demand.target, far, count)
        if far[demand.source] is None:
            assert not found
            continue
        others = list(islice(networkx.shortest_simple_paths(graph, demand.source, demand.target, "weight"), count))
        assert [sum(lengths[cell] for cell in walk) for walk in found] == [networkx.path_weight(graph, path, "weight") for path in others]
        assert len(set(found)) == len(found)
        for walk in found:
            nodes = visited(scaled, demand.source, walk)
            assert nodes[-1] == demand.target and len(set(nodes)) == len(nodes)


def visited(scaled: ScaledNetwork, start: int, walk: tuple[int, ...]) -> list[int]:
    """The nodes of a walk."""
    nodes = [start]
    for number in walk:
        cell = scaled.cells[number]
        assert cell.capacity and (cell.tail == nodes[-1] or (cell.both and cell.head == nodes[-1]))
        nodes.append(cell.head if cell.tail == nodes[-1] else cell.tail)
    return nodes


@settings(max_examples=DRAWN)
@given(small_networks(), st.sampled_from(["undirected", "directed", "bidirected"]), st.sampled_from(["hops", "capacity"]))
def test_equal_cost_multipath_is_that_of_all_shortest_paths(network: Network, links: str, by: str) -> None:
    """By networkx: a path's share is the product, over its nodes, of one over the links on which a shortest path goes on from there."""
    scaled = scale(network, links)
    lengths = whole_lengths(scaled, by, "routing")
    ways, graph = Ways(scaled, lengths), simple_graph(scaled, lengths)
    for demand in scaled.commodities:
        far = ways.distances_to(demand.target)
        if far[demand.source] is None:
            continue
        paths = list(networkx.all_shortest_paths(graph, demand.source, demand.target, "weight"))
        after: dict[object, set[object]] = {}
        for path in paths:
            for node, way in zip(path[0::2], path[1::2]):
                after.setdefault(node, set()).add(way)
        wanted: dict[int, Fraction] = {}
        for path in paths:
            share = Fraction(1)
            for node in path[0:-1:2]:
                share /= len(after[node])
            for way in path[1::2]:
                wanted[way[1]] = wanted.get(way[1], Fraction(0)) + share
        found: dict[int, Fraction] = {}
        for walk, part in ways.equal_cost(demand.source, demand.target, far):
            for cell in walk:
                found[cell] = found.get(cell, Fraction(0)) + part
        assert found == wanted


def test_rounding_by_hand() -> None:
    best = Range(Fraction("2.26687244"), Fraction("2.26687244") + Fraction(1, 10**9))
    assert below_the_best(Fraction(2), best) == ("the best carries 2.266872 of every demand and no routing more than 2.266873, so this is at most "
                                                 "11.78% below")
    assert below_the_best(Fraction("3.999975"), Range(Fraction(4), Fraction(4))) == "the best carries 4.000000 of every demand, so this is 0.00063% below"
    assert below_the_best(Fraction(4), Range(Fraction(4), Fraction(4))) == "the best carries 4.000000 of every demand, so this is not below it"
    assert percent(Fraction(999_999, 10**6)) == "99.99%" and percent(Fraction(1)) == "100.00%" and percent(Fraction(1, 16)) == "6.25%"
    assert percent_up(Fraction(1, 3)) == "33.34%" and percent_up(Fraction(0)) == "0.00%" and percent_up(Fraction(1, 10**9)) == "0.00000010%"
    assert few_digits_up(Fraction(1, 3)) == "0.334" and few_digits_up(Fraction(1234567)) == "1234567" and few_digits_up(Fraction(1, 65537)) == "0.0000153"


@settings(max_examples=DRAWN)
@given(st.fractions(0, 1, max_denominator=10**7))
def test_parts_are_shown_as_they_are(part: Fraction) -> None:
    up, near = (Fraction(text(part).rstrip("%")) / 100 for text in (percent_up, percent))
    assert part <= up and abs(near - part) <= Fraction(1, 10**4) and (near == 0) == (part == 0) == (up == 0) and (near == 1) == (part == 1)
    assert not part or part <= Fraction(few_digits_up(part)) <= part * Fraction(102, 100)


def test_no_best_is_looked_for_where_none_is_asked_for(program: Program, tmp_path: Path) -> None:
    fake = tmp_path / "mcf"
    fake.write_text(f'#!/bin/sh\necho "$*" >> {tmp_path}/asked\nexec {program.path} "$@"\n')
    fake.chmod(0o755)
    words = [str(ROUTE), str(ROOT / "examples/triangle.net"), "--by", "hops", "--mcf", str(fake)]
    done = subprocess.run([*words, "--no-best"], capture_output=True, text=True, check=False)
    assert done.returncode == 0 and done.stdout.startswith("mcf-routing ")
    assert done.stderr == "route: feasible undirected largest 10/8 1.250000\n"
    solves = [line for line in (tmp_path / "asked").read_text().splitlines() if line.startswith("solve ") and "triangle" in line]
    assert not solves
    beside = subprocess.run(words, capture_output=True, text=True, check=False)
    assert "below" in beside.stderr and "triangle.net" in (tmp_path / "asked").read_text().split("solve ", 2)[-1]


def test_the_bound_of_the_best_is_told_where_it_is_not_known_exactly(program: Program, tmp_path: Path) -> None:
    split = Network((Node("A"), Node("B"), Node("C")), (Link("L0", "A", "B", "65546"), Link("L1", "A", "C", "1"), Link("L2", "C", "B", "1")),
                    (Demand("D", "A", "B", "1", "1"),))
    net = tmp_path / "net"
    save_text(net, write_network(split))
    found = route(program, Question(str(net), "hops", "undirected", "largest", "hops", "routing", 4, 60.0))
    assert found.notes == ["the best carries 65546.000000 of every demand and no routing more than 65547.000000, so this is at most 0.0016% below"]


@pytest.mark.parametrize("how", [">&-", "> /dev/full", "| true"])
def test_an_output_that_cannot_be_written_is_trouble(program: Program, how: str) -> None:
    line = f"set -o pipefail; {ROUTE} examples/triangle.net --by hops --no-best --mcf {program.path} {how}"
    done = subprocess.run(["bash", "-c", line], cwd=ROOT, capture_output=True, text=True, check=False)
    assert (done.returncode, done.stdout) == (2, "") and done.stderr.startswith("route: standard output: ") and done.stderr.count("\n") == 1


def test_wrong_words_and_outputs_are_one_line(program: Program, tmp_path: Path) -> None:
    net = tmp_path / "net"
    save_text(net, write_network(grid(2)))
    for words in (("--seconds", "nan"), ("--seconds", "0"), ("--paths", "0"), ("--output", str(net)), ("--output", str(tmp_path / "no/where"))):
        done = subprocess.run([str(ROUTE), str(net), "--by", "hops", *words, "--mcf", program.path], capture_output=True, text=True, check=False)
        assert (done.returncode, done.stdout) == (2, "") and done.stderr.startswith("route: ") and done.stderr.count("\n") == 1


def test_a_network_without_demands_is_one_line(program: Program, tmp_path: Path) -> None:
    net = tmp_path / "net"
    save_text(net, write_network(Network((Node("A"), Node("B")), (Link("L", "A", "B", "1"),), (Demand("D", "A", "A", "1", "1"),))))
    with pytest.raises(TextError, match="no demand with an amount"):
        route(program, asked(net, "hops"))
