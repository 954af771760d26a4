"""Certificates with hop limits and of a total from the linear program: optimal, valid by the proved program, in bounded time."""

from __future__ import annotations

import itertools
import random
from fractions import Fraction
from pathlib import Path

import numpy as np
import pytest
from scipy.sparse import csc_matrix

from certified import asked, bounds, command, unlimited, with_limits
from mcf.lp import clp, run
from mcf.lp.kinds import HOPS, SOLVE, THROUGHPUT, Kind
from mcf.lp.near import near_fractions
from mcf.lp.prices import TotalBounds
from mcf.lp.problem import UNLIMITED, Arcs, pairs_of
from mcf.lp.run import Request, Result, certify
from mcf.lp.search import WithinLimits
from mcf.lp.total_rounding import TotalRounding
from judges import judged
from limits import with_few_more
from mcf import (LINK_MODES, Demand, Link, Node, Program, TextError, load_text, lower, nodes_of_walk, read_any, read_certificate,
                 save_text, scale, write_certificate, write_network, write_routing)
from mcf.certificate import Certificate, HopCertificate, Routing, TotalCertificate
from mcf.network import Network
from networks import odd_network

OTHERS = (HOPS, THROUGHPUT)
WAYS = (("undirected", "largest"), ("directed", "none"), ("bidirected", "sum"))


def optimal(program: Program, request: Request) -> Certificate:
    """The certificate, which the linear program gave, the proved program finds valid and closed, and the judge here too."""
    result = certify(program, request)
    assert result.trouble is None and result.closed and result.line.startswith("valid closed ")
    certificate = read_any(result.text)
    assert type(certificate) is request.kind.certificate and write_certificate(certificate) == result.text
    scaled = scale(program.network(request.net), certificate.links, certificate.modules)
    assert judged(scaled, certificate) == "valid closed"
    assert certificate.gap == (request.gap if request.gap is not None else certificate.gap) and certificate.gap <= 1
    return certificate


@pytest.fixture(name="limited")
def _limited(program: Program, root: Path, tmp_path: Path) -> Path:
    """Polska with each demand limited to one link more than its shortest path has."""
    net = tmp_path / "limited.net"
    save_text(net, write_network(with_few_more(program.network(root / "examples/polska.net"), 1)))
    return net


@pytest.mark.parametrize("name", ["triangle", "detours", "in-a-row", "both-ways", "polska", "nobel-us", "geant", "germany50"])
@pytest.mark.parametrize("kind", OTHERS, ids=lambda kind: kind.command)
def test_examples_are_closed(program: Program, root: Path, name: str, kind: Kind) -> None:
    modes = LINK_MODES if name != "germany50" else ("undirected",)
    for links in modes:
        optimal(program, asked(root / f"examples/{name}.net", links=links, kind=kind))


def test_totals_are_those_known(program: Program, root: Path) -> None:
    for name, total in (("in-a-row", 20), ("triangle", 12), ("nobel-us", Fraction(1331, 2))):
        assert bounds(optimal(program, asked(root / f"examples/{name}.net", kind=THROUGHPUT))) == (total, total)


def test_limits_that_bind(program: Program, root: Path, tmp_path: Path) -> None:
    assert bounds(optimal(program, asked(root / "examples/detours.net", kind=HOPS))) == (4, 4)
    net = tmp_path / "net"
    network = program.network(root / "examples/nobel-us.net")
    save_text(net, write_network(with_few_more(network, 0)))
    free, within = read_certificate(certify(program, asked(net)).text), optimal(program, asked(net, kind=HOPS, gap=1))
    assert isinstance(within, HopCertificate) and within.layers
    assert bounds(within)[1] < bounds(free)[0] * Fraction(4, 5), "shortest paths alone carry less"
    without = optimal(program, asked(root / "examples/nobel-us.net", kind=HOPS))
    assert bounds(without) == bounds(free) and not without.layers  # type: ignore[attr-defined]


@pytest.mark.parametrize("seed", range(14))
def test_odd_networks(program: Program, tmp_path: Path, seed: int) -> None:
    net = tmp_path / "net"
    network = with_limits(odd_network(seed), seed)
    save_text(net, write_network(network))
    for (links, modules), kind in itertools.product(WAYS, OTHERS):
        certificate = optimal(program, asked(net, links=links, modules=modules, kind=kind))
        if not certificate.upper[0]:
            assert certificate.phases == 0 and bounds(certificate) == (0, 0)


@pytest.mark.parametrize("seed", range(100, 112))
def test_without_any_start(seed: int) -> None:
    network = with_limits(odd_network(seed), seed)
    for (links, modules), kind in itertools.product(WAYS, OTHERS):
        scaled = scale(network, links, modules)
        try:
            certificate = run._optimum(unlimited(scaled, 2, kind), None, np.inf).certificate
        except TextError as error:
            assert "no way" in str(error) and kind is HOPS
            continue
        assert judged(scaled, certificate) == "valid closed" and certificate.gap <= 1


def test_drawn_network_of_middle_size(program: Program, tmp_path: Path) -> None:
    net = tmp_path / "net"
    save_text(net, program.ask("gen", "7", "40", "120", "800").replace(" UNLIMITED", " 5").replace(" 1 5\n", " 40 5\n"))
    for links in ("undirected", "bidirected"):
        for kind in OTHERS:
            optimal(program, asked(net, links=links, kind=kind))


@pytest.mark.parametrize("kind", OTHERS, ids=lambda kind: kind.command)
def test_same_input_gives_the_same_text(program: Program, limited: Path, kind: Kind) -> None:
    first, second = (certify(program, asked(limited, kind=kind)).text for _ in range(2))
    assert first == second


@pytest.mark.parametrize("kind", OTHERS, ids=lambda kind: kind.command)
def test_rows_stand_in_the_order_of_the_command(program: Program, limited: Path, kind: Kind) -> None:
    certificate = optimal(program, asked(limited, kind=kind))
    scaled = scale(program.network(limited))
    cell_of = scaled.cell_of(2)
    keys = [(scaled.commodity_of[path.demand], [cell_of[word] for word in path.cells]) for path in certificate.paths]
    assert keys == sorted(keys) and len({str(key) for key in keys}) == len(keys)
    assert [row.cell for row in certificate.lengths] == list(scaled.words(2))
    layers = certificate.layers if isinstance(certificate, HopCertificate) else []
    for places in ([(scaled.node_of[row.node],) for row in certificate.potentials],
                   [(scaled.node_of[row.node], row.index) for row in layers]):
        assert places == sorted(places)


def test_begins_from_texts_of_any_kind(program: Program, root: Path, limited: Path, tmp_path: Path) -> None:
    start, routing = tmp_path / "start", tmp_path / "routing"
    best = {kind.command: bounds(optimal(program, asked(limited, kind=kind))) for kind in (HOPS, THROUGHPUT)}
    for command_ in ("solve", "hops", "throughput"):
        save_text(start, program.solve(limited, "--links", "undirected", "--phases", "30", command=command_))
        for kind in OTHERS:
            assert bounds(optimal(program, asked(limited, kind=kind, start=str(start)))) == best[kind.command]
        assert certify(program, asked(limited, start=str(start))).line.startswith("valid closed")
    free = read_certificate(certify(program, asked(limited)).text)
    save_text(routing, write_routing(Routing(2, free.links, free.modules, free.phases, free.scale_capacity, free.scale_load, free.paths)))
    assert bounds(optimal(program, asked(limited, kind=HOPS, start=str(routing)))) == best["hops"], "longer paths are left out"
    with pytest.raises(TextError, match="links undirected and modules largest"):
        certify(program, asked(limited, links="directed", kind=HOPS, start=str(start)))
    save_text(start, load_text(root / "examples/detours.hops").replace("layer A 1 0 1", "layer A 1 0 2"))
    with pytest.raises(TextError, match="mcf checkhops of .*: invalid C7"):
        certify(program, asked(root / "examples/detours.net", kind=HOPS, start=str(start)))


def test_a_demand_without_an_allowed_way_gives_the_text_of_hops(program: Program, root: Path, tmp_path: Path) -> None:
    net = tmp_path / "net"
    save_text(net, load_text(root / "examples/detours.net").replace(" 2 2\n", " 2 0\n"))
    result = certify(program, asked(net, kind=HOPS))
    assert result.closed and result.trouble is None
    assert result.text == program.solve(net, "--gap", "0", command="hops")


def test_demands_without_a_way_do_not_hold_the_total_down(program: Program, root: Path, tmp_path: Path) -> None:
    net = tmp_path / "net"
    text = load_text(root / "examples/in-a-row.net")
    save_text(net, text.replace("  A\n", "  X\n  A\n").replace("DEMANDS (\n", "DEMANDS (\n  D ( A X ) 1 7 UNLIMITED\n"))
    assert bounds(optimal(program, asked(net, kind=THROUGHPUT))) == (20, 20)
    save_text(net, text.replace("  A\n", "  X\n  A\n").split("DEMANDS")[0] + "DEMANDS (\n  D ( A X ) 1 7 UNLIMITED\n)\n")
    alone = optimal(program, asked(net, kind=THROUGHPUT))
    assert bounds(alone) == (0, 0) and alone.phases == 0


def test_a_limit_over_64_is_one_line(program: Program, root: Path, tmp_path: Path) -> None:
    net = tmp_path / "net"
    nodes, links = [f"N{i}" for i in range(70)], [Link(f"L{i}", f"N{i}", f"N{i + 1}", "9") for i in range(69)]
    save_text(net, write_network(Network(tuple(map(Node, nodes)), tuple(links), (Demand("D", "N0", "N3", "1", "2", "65"),))))
    done = command(root, program, str(net), "--kind", "hops")
    assert done.returncode == 2 and done.stdout == "" and done.stderr.count("\n") == 1 and "refused net N11 line 146" in done.stderr
    assert bounds(optimal(program, asked(net, kind=THROUGHPUT))) == (2, 2)


@pytest.mark.parametrize("kind", OTHERS, ids=lambda kind: kind.command)
def test_without_clp_the_certificate_is_that_of_the_command(program: Program, limited: Path, monkeypatch: pytest.MonkeyPatch,
                                                            kind: Kind) -> None:
    best = bounds(optimal(program, asked(limited, kind=kind)))
    monkeypatch.setattr(clp, "LIBRARIES", ("libNoSuchClp.so.1",))
    result = certify(program, asked(limited, kind=kind))
    assert result.trouble is not None and "CLP is missing" in result.trouble
    _holds(result, best)


@pytest.mark.parametrize("kind", OTHERS, ids=lambda kind: kind.command)
def test_an_answer_that_the_judge_refuses_is_not_handed_out(program: Program, limited: Path, monkeypatch: pytest.MonkeyPatch,
                                                            kind: Kind) -> None:
    best = bounds(optimal(program, asked(limited, kind=kind)))
    make = run.certificate_of

    def wrong(*words: object) -> Certificate:
        certificate = make(*words)  # type: ignore[arg-type]
        certificate.paths = certificate.paths[:1] * 2 + certificate.paths[1:]
        return certificate

    monkeypatch.setattr(run, "certificate_of", wrong)
    result = certify(program, asked(limited, kind=kind))
    assert result.trouble is not None and "invalid C" in result.trouble and kind.judge in result.trouble
    _holds(result, best)


@pytest.mark.parametrize("seconds", [0.001, 0.3])
@pytest.mark.parametrize("kind", OTHERS, ids=lambda kind: kind.command)
def test_too_little_time_still_gives_a_valid_certificate(program: Program, tmp_path: Path, kind: Kind, seconds: float) -> None:
    net = tmp_path / "net"
    save_text(net, program.ask("gen", "5", "60", "150", "900").replace(" UNLIMITED", " 9"))
    result = certify(program, asked(net, seconds=seconds, kind=kind))
    assert result.line.startswith("valid ")


def _holds(result: Result, best: tuple[Fraction, Fraction]) -> None:
    """That a certificate is valid and encloses the optimum."""
    low, high = bounds(read_any(result.text))  # type: ignore[arg-type]
    assert result.line.startswith("valid ") and 0 < low <= best[0] == best[1] <= high


def test_command_says_what_it_is(program: Program, root: Path, tmp_path: Path) -> None:
    net, out = str(root / "examples/detours.net"), tmp_path / "out"
    done = command(root, program, net, "--kind", "hops", "--gap", "0", "--output", str(out))
    assert (done.returncode, done.stdout) == (0, "")
    assert done.stderr == "certify: " + program.check(net, out, command="checkhops").text
    done = command(root, program, net, "--kind", "throughput")
    assert done.returncode == 0 and done.stdout.startswith("mcf-throughput 1\n") and done.stderr == ""
    assert command(root, program, net, "--kind", "fair").returncode == 2


def brute_force(scaled: object, source: int, target: int, limit: int, lengths: list[int]) -> float:
    """The least length of a walk of at most so many cells over cells with capacity, by trying one cell more after another."""
    best = {source: 0}
    for _ in range(limit):
        after = dict(best)
        for number, cell in enumerate(scaled.cells):  # type: ignore[attr-defined]
            for tail, head in [(cell.tail, cell.head)] + [(cell.head, cell.tail)] * cell.both:
                if cell.capacity and tail in best:
                    after[head] = min(after.get(head, best[tail] + lengths[number]), best[tail] + lengths[number])
        best = after
    return best.get(target, np.inf)


@pytest.mark.parametrize("seed", range(12))
def test_search_within_limits(seed: int) -> None:
    scaled = scale(with_limits(odd_network(seed), seed, ("0", "1", "2", "3", "5", "UNLIMITED")), *WAYS[seed % 3])
    pairs, arcs = pairs_of(scaled, scaled.limits), Arcs(scaled)
    draw = random.Random(seed)
    lengths = [draw.choice((0, 0, 1, 2, 3, 7)) for _ in scaled.cells]
    search = WithinLimits(pairs, arcs)
    distances = search.distances(np.array(lengths))
    for pair, (source, target, limit) in enumerate(zip(pairs.source.tolist(), pairs.target.tolist(), pairs.limit.tolist())):
        most = limit if limit != UNLIMITED else len(scaled.network.nodes)
        assert distances[pair] == brute_force(scaled, source, target, most, lengths)
        if np.isfinite(distances[pair]):
            walk = list(search.walk(pair))
            nodes = nodes_of_walk(scaled, source, walk)
            assert nodes[-1] == target and len(set(nodes)) == len(nodes) <= most + 1
            assert sum(lengths[cell] for cell in walk) == distances[pair]


def test_pairs_keep_limits_apart() -> None:
    demands = [("A", "B", "2"), ("B", "A", "2"), ("A", "B", "UNLIMITED"), ("A", "B", "2.5"), ("A", "B", "1")]
    rows = tuple(Demand(f"D{at}", source, target, "1", "1", longest) for at, (source, target, longest) in enumerate(demands))
    scaled = scale(Network(tuple(map(Node, "ABCD")), (Link("L", "A", "B", "1"),), rows))
    assert scaled.limits == (2, 2, None, 2, 1)
    found = pairs_of(scaled, scaled.limits)
    assert found.of_commodity.tolist() == [0, 0, 1, 0, 2] and found.limit.tolist() == [2, UNLIMITED, 1]
    assert pairs_of(scaled).amount.tolist() == [5]


@pytest.mark.parametrize("seed", range(20))
def test_threshold_is_the_best_of_all(seed: int) -> None:
    draw = random.Random(seed)
    amounts, distances = [draw.randrange(1, 9) for _ in range(6)], [draw.choice((0, 1, 2, 3, 5, 8, np.inf)) for _ in range(6)]
    lengths, capacities = np.array([3, 1]), [draw.randrange(9), draw.randrange(9)]
    bounds_ = TotalBounds(amounts, capacities, lambda _: np.array(distances, float))
    bounds_._try(lengths)
    volume = 3 * capacities[0] + capacities[1]
    tried = [Fraction(volume + sum(a * max(0, t - int(d)) for a, d in zip(amounts, distances) if d < np.inf), t) for t in range(1, 40)]
    reached = sum(a for a, d in zip(amounts, distances) if d < np.inf)
    assert bounds_.best is not None and min(bounds_.best.value, Fraction(reached)) == min(*tried, reached)


def test_whole_totals_fit_in_spite_of_noise() -> None:
    draw = random.Random(5)
    cells = [[0, 1], [1], [2, 0], [0], [1, 2]]
    matrix = csc_matrix((np.ones(8), [cell for row in cells for cell in row], [0, 2, 3, 5, 6, 8]), (3, 5))
    amounts, capacities, pair = [7, 5], [6, 4, 3], np.array([0, 0, 0, 1, 1])
    for noise in (0.0, 1e-9, 1e-4, 0.3):
        flows = np.array([flow * (1 + noise * draw.uniform(-1, 1)) for flow in (1.5, 2.5, 1.5, 3, 0)])
        whole = TotalRounding(matrix, pair, amounts, capacities, flows).best(Fraction(12), Fraction(12), np.inf)
        sums, loads = [0, 0], [0, 0, 0]
        for column, weight in enumerate(whole.weights):
            assert weight >= 0
            sums[pair[column]] += weight
            for cell in cells[column]:
                loads[cell] += weight
        assert all(have <= whole.load * most for have, most in zip(sums + loads, amounts + capacities))
        assert lower(TotalCertificate(2, "directed", "none", 1, 1, whole.load)) == 0
        assert whole.lower >= Fraction(17, 2) * (1 - Fraction(noise) * 2)


def test_fractions_behind_noise() -> None:
    found = near_fractions(np.array([0.5 + 1e-10, 1 / 3, 7.0]), 60, 1e-9, 100)
    assert found == ([Fraction(1, 2), Fraction(1, 3), Fraction(7)], 6)
    assert near_fractions(np.array([0.5, 1 / 3]), 60, 1e-9, 5) is None and near_fractions(np.array([0.123456]), 60, 1e-9, 10**6) is None


def test_kinds_have_their_commands() -> None:
    assert [(kind.command, kind.judge) for kind in (SOLVE, HOPS, THROUGHPUT)] == [
        ("solve", "check"), ("hops", "checkhops"), ("throughput", "checkthroughput")]
