"""Certificates by trees of sources: the optimum of the form over paths, valid for both checkers, and each part against another way."""

from __future__ import annotations

import re
import subprocess
import time
from fractions import Fraction
from pathlib import Path

import numpy as np
import pytest
from hypothesis import HealthCheck, given, settings
from hypothesis import strategies as st
from scipy.optimize import linprog
from scipy.sparse import csr_matrix

from certified import asked, bounds, command
from drawn import small_networks
from mcf import Program, TextError, read_certificate, save_text, scale, write_network
from mcf.lp.clp import Model, load_clp
from mcf.lp.run import certify
from mcf.trees import form, kernel, run
from mcf.trees.bound import whole_product
from mcf.trees.form import chosen
from mcf.trees.kernel import Kernel
from mcf.trees.master import Columns, Master, Point
from mcf.trees.network import network_of
from mcf.trees.optimum import TreeProgram, thinned
from mcf.trees.plain import Plain
from mcf.trees.problem import Problem, problem_of
from mcf.trees.reading import Odd
from mcf.trees.rows import rows_of, shares_of, weights_of
from mcf.trees.run import TreeResult, certify_by_trees
from mcf.trees.text import path_lines
from networks import arc_optimum, near, odd_network

MODES = (("undirected", "largest"), ("directed", "none"), ("bidirected", "sum"))
GAP = Fraction(1, 10**6)


def by_trees(program: Program, net: Path, room: Path, links: str = "undirected", modules: str = "largest", **options: object) -> TreeResult:
    """A certificate by trees."""
    found = chosen(program, str(net), links, modules, "trees", True)
    assert found.problem is not None
    room.mkdir(exist_ok=True)
    request = asked(net, links=links, modules=modules, **options)
    return certify_by_trees(found.program, request, found.problem, room, time.monotonic() + request.seconds)


def twice(root: Path, net: Path, result: TreeResult, *words: str) -> str:
    """What the second checker says of a certificate."""
    done = [str(root / "tools/check_twice"), *words, str(net), str(result.file)]
    return subprocess.run(done, capture_output=True, text=True, check=False).stdout.strip()


def drawn(root: Path, file: Path, *words: str) -> Path:
    """A drawn network."""
    with open(file, "wb") as target:
        subprocess.run(["/usr/bin/python3", str(root / "bench/draw"), *words], stdout=target, check=True)
    return file


@pytest.mark.parametrize("seed", range(6))
def test_odd_networks(program: Program, root: Path, tmp_path: Path, seed: int) -> None:
    net, network = tmp_path / "net", odd_network(seed)
    save_text(net, write_network(network))
    for links, modules in MODES:
        result = by_trees(program, net, tmp_path / "room", links, modules)
        assert result.trouble is None and result.line == twice(root, net, result)
        certificate = read_certificate(result.text)
        lower, upper = bounds(certificate)
        assert result.closed, result.left
        assert certificate.counts == scale(network, links, modules).counts(0)
        assert near(lower, arc_optimum(scale(network, links, modules))) if upper else certificate.phases == 0


@pytest.mark.parametrize("name", ("triangle", "polska", "germany50"))
def test_the_optimum_is_that_of_paths(program: Program, root: Path, tmp_path: Path, name: str) -> None:
    net = root / f"examples/{name}.net"
    for links in ("undirected", "bidirected"):
        one, other = (bounds(read_certificate(result.text)) for result in (
            by_trees(program, net, tmp_path / "room", links), certify(program, asked(net, links=links, modules="largest"))))
        assert one[0] <= other[1] and other[0] <= one[1], "bounds of one optimum"
        assert one[1] <= one[0] * (1 + GAP)


@settings(suppress_health_check=[HealthCheck.function_scoped_fixture], max_examples=12)
@given(network=small_networks(), links=st.sampled_from(("undirected", "directed", "bidirected")))
def test_small_networks_reach_the_optimum(program: Program, tmp_path: Path, network: object, links: str) -> None:
    net = tmp_path / "net"
    save_text(net, write_network(network))  # type: ignore[arg-type]
    result = by_trees(program, net, tmp_path / "room", links, "none")
    lower, upper = result.judged.range.lower, result.judged.range.upper
    assert not upper or near(lower, arc_optimum(scale(network, links, "none")))  # type: ignore[arg-type]


@pytest.mark.parametrize("capacities", ("sizes", "near"))
def test_a_drawn_network_of_197_nodes(root: Path, tmp_path: Path, capacities: str) -> None:
    net = drawn(root, tmp_path / "net", "7", "197", "243", "--shape", "rings", "--capacities", capacities)
    problem = problem_of(network_of(net.read_bytes(), "undirected", "largest"))
    assert len(problem.network.source) == 38_612
    judge = Program(str(root / "tools/tests/data/trees/wide_check"))
    result = certify_by_trees(judge, asked(net), problem, tmp_path, time.monotonic() + 3600)
    assert result.closed and result.line.startswith("valid closed undirected largest ")


def test_no_compiler_gives_the_same_bounds(program: Program, root: Path, tmp_path: Path, monkeypatch: pytest.MonkeyPatch) -> None:
    net = root / "examples/germany50.net"
    compiled = by_trees(program, net, tmp_path / "one").judged.range
    monkeypatch.setattr(run, "kernel", lambda: None)
    plain = by_trees(program, net, tmp_path / "other").judged.range
    assert compiled.within(GAP) and plain.within(GAP)
    assert compiled.lower <= plain.upper and plain.lower <= compiled.upper


def test_without_a_compiler_none_is_found(tmp_path: Path, monkeypatch: pytest.MonkeyPatch) -> None:
    monkeypatch.setenv("XDG_CACHE_HOME", str(tmp_path))
    monkeypatch.setenv("PATH", str(tmp_path))
    assert kernel.kernel() is None


@pytest.fixture(name="compiled")
def _compiled() -> Kernel:
    """The kernel; tests of it are skipped where nothing can compile it."""
    found = kernel.kernel()
    if found is None:
        pytest.skip("no C compiler")
    return found


@pytest.fixture(name="problem")
def _problem(root: Path) -> Problem:
    """A problem with links of both ways."""
    return problem_of(network_of((root / "examples/germany50.net").read_bytes(), "bidirected", "largest"))


def test_the_kernel_finds_what_numpy_finds(compiled: Kernel, problem: Problem) -> None:
    graph, plain = problem.network.graph, Plain()
    draw = np.random.default_rng(3)
    price = draw.random(graph.cells)
    trees, cost = compiled.trees(graph, price, problem.roots, problem.wanted)
    other, others = plain.trees(graph, price, problem.roots, problem.wanted)
    assert np.allclose(cost, others, rtol=1e-12) and np.array_equal(trees, other), "no two ways are equal with prices by chance"
    rows = np.arange(graph.cells, dtype=np.int32)
    root = np.arange(len(problem.roots), dtype=np.int32)
    loads, same = (one.loads(graph, trees, root, problem.wanted, rows, len(rows)) for one in (compiled, plain))
    assert np.allclose(loads, same, rtol=1e-12) and np.allclose(loads @ price, cost, rtol=1e-12)
    length = draw.integers(0, 1 << 46, graph.cells)
    assert np.array_equal(compiled.distances(graph, length, problem.roots), plain.distances(graph, length, problem.roots))


def test_the_kernel_writes_the_lines_of_the_slower_way(compiled: Kernel, root: Path) -> None:
    for links in ("undirected", "bidirected"):
        problem = problem_of(network_of((root / "examples/germany50.net").read_bytes(), links, "largest"))
        program = TreeProgram(problem, compiled)
        rows = rows_of(problem, program.best.trees, shares_of(problem, program.best.trees))
        network, commodity = problem.network, rows.commodity
        quick = compiled.lines(network.graph, network.words, program.best.trees.before, network.ids.some(commodity), rows.tree,
                               problem.end[commodity], problem.turned[commodity], rows.weight)
        assert b"".join(quick) == b"".join(path_lines(problem, program.best.trees, rows))


def columns_of(seed: int, sources: int, each: int, links: int) -> csr_matrix:
    """Trees by chance, which have a part of the links."""
    draw = np.random.default_rng(seed)
    return csr_matrix(draw.random((sources * each, links)) * (draw.random((sources * each, links)) < 0.5))


def least(matrix: csr_matrix, sources: int, each: int, top: float | None = None, cost: np.ndarray | None = None) -> tuple[float, float]:
    """The least greatest fullness, or below it the least cost, by HiGHS and by CLP."""
    count, links = matrix.shape
    price = np.append(np.zeros(count), 1.0) if cost is None else np.append(cost, 0.0)
    within = np.hstack([matrix.toarray().T, -np.ones((links, 1)) if cost is None else np.zeros((links, 1))])
    each_one = np.hstack([np.kron(np.eye(sources), np.ones(each)), np.zeros((sources, 1))])
    room, one = np.full(links, top or 0.0), np.ones(sources)
    found = linprog(price, within, room, each_one, one, method="highs").fun
    with Model(load_clp()) as model:
        rows = csr_matrix(np.vstack([within, each_one])).tocsc()
        model.load(rows, price, np.full(count + 1, np.inf), np.append(room, one), np.append(np.full(links, -np.inf), one))
        assert model.solve_anew(60.0)
        return float(found), model.cost


def point_of(columns: Columns, cost: np.ndarray, top: float | None = None) -> Point:
    """A point to begin from: all trees alike."""
    part = 1 / np.bincount(columns.source)[columns.source]
    full = columns.full(part)
    most = top or float(full.max()) * 1.01
    price = np.full(len(full), 1 / len(full))
    paid = cost + columns.fullness @ price
    worth = np.minimum.reduceat(paid, columns.first) - 0.1
    return Point(part, paid - worth[columns.source], np.maximum(most - full, 0.01 * most), price, worth, most)


@pytest.mark.parametrize("seed", range(6))
def test_the_interior_point_against_highs_and_clp(seed: int) -> None:
    sources, each, links = 3 + 4 * seed, 5, 4 + 6 * seed
    matrix = columns_of(seed, sources, each, links)
    columns = Columns(matrix, np.arange(0, sources * each, each))
    wanted, same = least(matrix, sources, each)
    assert wanted == pytest.approx(same, rel=1e-6)
    nothing = np.zeros(sources * each)
    point = Master(columns, point_of(columns, nothing), np.arange(links)).solve(1e-9, np.inf)
    assert point.top == pytest.approx(wanted, rel=1e-7) and columns.full(point.part).max() == pytest.approx(wanted, rel=1e-7)
    assert point.price.sum() == pytest.approx(1, rel=1e-9) and point.worth.sum() == pytest.approx(wanted, rel=1e-7)
    cost = np.random.default_rng(seed).random(sources * each)
    top = 1.1 * wanted
    cheapest, _ = least(matrix, sources, each, top, cost)
    point = Master(columns, point_of(columns, cost, top), np.arange(links), cost).solve(1e-9, np.inf)
    assert cost @ point.part == pytest.approx(cheapest, rel=1e-6) and columns.full(point.part).max() <= top * (1 + 1e-7)


def test_links_far_from_full_join_when_they_hold_a_step_back() -> None:
    matrix = columns_of(11, 12, 5, 30)
    columns = Columns(matrix, np.arange(0, 60, 5))
    wanted, _ = least(matrix, 12, 5)
    begun = point_of(columns, np.zeros(60))
    links = np.array([int(np.argmin(begun.room))])
    begun.room = begun.top - columns.full(begun.part)
    begun.price = np.where(np.arange(30) == links[0], 1.0, 0.0)
    master = Master(columns, begun, links)
    point = master.solve(1e-9, np.inf)
    assert 1 < len(master.links) <= 30 and len(set(master.links.tolist())) == len(master.links)
    assert columns.full(point.part).max() == pytest.approx(wanted, rel=1e-7)


def test_thinning_keeps_within_what_is_allowed(problem: Problem) -> None:
    program = TreeProgram(problem, Plain())
    best = program.optimise(1e-7, np.inf, lambda _: None)
    few = thinned(best.trees, best.bound * (1 + 1e-6), 1, np.inf)
    assert few.full().max() <= best.bound * (1 + 1e-6) and len(few.part) < len(best.trees.part)
    assert np.allclose(np.add.reduceat(few.part, few.first()), 1)


@given(st.lists(st.tuples(st.integers(1, 1 << 44), st.lists(st.floats(1e-9, 1), min_size=1, max_size=6)), min_size=1, max_size=5))
def test_whole_weights_sum_to_the_whole(rows: list[tuple[int, list[float]]]) -> None:
    whole = np.array([amount * 65536 for amount, _ in rows])
    counts = [len(parts) for _, parts in rows]
    owner, begun = np.repeat(np.arange(len(rows)), counts), np.concatenate([[0], np.cumsum(counts)[:-1]])
    part = np.concatenate([np.array(parts) / sum(parts) for _, parts in rows])
    weight = weights_of(whole, owner, begun, part)
    assert (weight >= 0).all() and np.add.reduceat(weight, begun).tolist() == whole.tolist()
    assert (np.abs(weight - whole[owner] * part) <= 6 + whole[owner] * 6 / (1 << 30)).all()


@given(st.lists(st.tuples(st.integers(0, (1 << 63) - 1), st.integers(0, (1 << 63) - 1)), min_size=1, max_size=50))
def test_products_of_whole_numbers_are_exact(pairs: list[tuple[int, int]]) -> None:
    one, other = (np.array(column, np.int64) for column in zip(*pairs))
    assert whole_product(one, other) == sum(a * b for a, b in pairs)


def spelled(text: str) -> str:
    """The same network with comments, tabs, skipped sections, and numbers in other spellings."""
    text = text.replace("LINKS (\n", "LINKS ( # a comment ( )\n\t").replace("\nDEMANDS", "\nMETA ( a ( b c ) )#x\nDEMANDS\r")
    return text.replace("?SNDlib native format; type: network; version: 1.0", "?SNDlib native format; type: network; anything (") + "MORE ( )"


@pytest.mark.parametrize("seed", range(8))
def test_reading_is_that_of_the_program(program: Program, tmp_path: Path, seed: int) -> None:
    net, network = tmp_path / "net", odd_network(seed)
    save_text(net, spelled(write_network(network)))
    assert program.network(net) == network
    for links, modules in MODES:
        scaled, large = scale(network, links, modules), network_of(net.read_bytes(), links, modules)
        assert large.counts == scaled.counts(2)
        assert [word.decode() for word in large.words] == list(scaled.words(2))
        assert large.capacity.tolist() == [cell.capacity for cell in scaled.cells]
        rows = zip(large.source.tolist(), large.target.tolist(), large.amount.tolist(), map(large.ids.word, range(len(large.ids))))
        assert list(rows) == [(c.source, c.target, c.amount, scaled.demand_id(i).encode()) for i, c in enumerate(scaled.commodities)]


@pytest.mark.parametrize(("old", "new"), (
    ("?SNDlib", "SNDlib"), ("NODES (", "NODES"), ("D ( N0", "D0 ( N0"), ("( N0 N1 )", "( N0 none )"), ("UNLIMITED\n)", "UNLIMITED )\n) )"),
    (" 1 1 UNLIMITED", " 1 0.0000001 UNLIMITED"), (" 1 1 UNLIMITED", " 1 -1 UNLIMITED"), (" 1 1 UNLIMITED", " 1 9e30 UNLIMITED"),
    (" 1 1 UNLIMITED", " 1 UNLIMITED"), ("L0 (", "L0 ( x"), ("\n)\nLINKS", "\n  N0\n)\nLINKS")))
def test_what_does_not_fit_is_left_to_the_program(program: Program, root: Path, tmp_path: Path, old: str, new: str) -> None:
    text = write_network(odd_network(1))
    assert old in text
    save_text(tmp_path / "net", text.replace(old, new))
    with pytest.raises(Odd):
        network_of((tmp_path / "net").read_bytes(), "undirected", "largest")
    done = command(root, program, str(tmp_path / "net"), "--form", "trees")
    assert done.returncode == 2 and "refused net N" in done.stderr and done.stdout == ""


def test_the_tool_says_which_form(program: Program, root: Path, tmp_path: Path) -> None:
    net = str(root / "examples/polska.net")
    done = command(root, program, net, "--form", "trees", "--output", str(tmp_path / "cert"))
    first, trees, second = done.stderr.splitlines()
    assert re.fullmatch("certify: [0-9]+ trees in [0-9] rounds; the paths are those of [0-9]+", trees)
    assert first == "certify: by trees of sources: 29 rows, where paths of pairs have 84" and done.returncode == 0
    assert second == "certify: " + program.check(net, tmp_path / "cert").line
    assert "by trees" not in command(root, program, net, "--output", str(tmp_path / "cert")).stderr
    done = command(root, program, net, "--form", "trees", "--kind", "hops")
    assert done.returncode == 2 and done.stderr.startswith("certify: --form trees is for --kind solve alone")


def test_the_smaller_form_is_taken(program: Program, root: Path) -> None:
    small = chosen(program, str(root / "examples/ta2.net"), "undirected", "largest", None, True)
    assert small.problem is None
    assert chosen(program, str(root / "examples/ta2.net"), "undirected", "largest", "trees", True).problem is not None


def test_beyond_the_limits_the_wide_program_judges(program: Program, root: Path, tmp_path: Path, monkeypatch: pytest.MonkeyPatch) -> None:
    net = drawn(root, tmp_path / "net", "7", "197", "243", "--shape", "rings")
    monkeypatch.delenv("MCF_WIDE", raising=False)
    monkeypatch.setattr(form, "find_wide_program", lambda _: None)
    with pytest.raises(TextError, match="197 nodes and 38,612 demands are beyond the limits of .*MCF_WIDE"):
        chosen(program, str(net), "undirected", "largest", None, True)
    monkeypatch.undo()
    monkeypatch.setenv("MCF_WIDE", program.path)
    found = chosen(program, str(net), "undirected", "largest", None, True)
    assert found.said == "by trees of sources: 439 rows, where paths of pairs have 19,549"


def test_a_time_that_is_over_leaves_the_start(program: Program, root: Path, tmp_path: Path) -> None:
    result = by_trees(program, root / "examples/germany50.net", tmp_path / "room", seconds=0.001)
    assert result.line.startswith("valid ") and (result.closed or "the seconds were over" in result.left)


def test_the_same_input_gives_the_same_text(program: Program, root: Path, tmp_path: Path) -> None:
    one, other = (by_trees(program, root / "examples/nobel-us.net", tmp_path / name).text for name in ("one", "other"))
    assert one == other


def test_capacity_0_everywhere_and_no_demand(program: Program, tmp_path: Path) -> None:
    text = ("?SNDlib native format; type: network; version: 1.0\nNODES (\n  A\n  B\n)\nLINKS (\n  L ( A B ) %s 0 0 0 ( )\n)\n"
            "DEMANDS (\n  D ( A B ) 1 %s UNLIMITED\n)\n")
    save_text(tmp_path / "net", text % ("0", "1"))
    assert by_trees(program, tmp_path / "net", tmp_path / "room").line.endswith("lower 0/1 0.000000 upper 0/1 0.000000")
    save_text(tmp_path / "net", text % ("1", "0"))
    with pytest.raises(TextError, match="nothing to carry"):
        by_trees(program, tmp_path / "net", tmp_path / "room")
