"""Certificates of the linear program: exact on the examples and on odd networks, judged by both checkers, in bounded time."""

from __future__ import annotations

import os
import signal
import subprocess
import time
from fractions import Fraction
from pathlib import Path

import numpy as np
import pytest

from mcf.lp import clp, path_lp, run
from mcf.lp.build import gap_of, in_form
from mcf.lp.path_lp import FractionProgram
from mcf.lp.pool import Pool, complete
from mcf.lp.prices import Bounds
from mcf.lp.problem import Arcs, pairs_of
from mcf.lp.rounding import Rounding
from mcf.lp.run import certify
from mcf.lp.search import AllPaths
from mcf.lp.start import simple
from certified import asked, bounds, command, unlimited
from mcf import Demand, Link, Node, Program, TextError, load_text, read_certificate, save_text, scale, write_certificate, write_network
from mcf.certificate import Certificate
from mcf.network import Network
from mcf.route.run import Question, route
from networks import arc_optimum, near, odd_network

SIX = ("abilene", "polska", "nobel-us", "geant", "germany50", "ta2")


def twice(root: Path, net: Path, text: str, room: Path) -> str:
    """What the second checker says of a certificate."""
    save_text(room / "cert", text)
    done = subprocess.run([str(root / "tools/check_twice"), str(net), str(room / "cert")], capture_output=True, text=True, check=False)
    return done.stdout.strip()


def line_network(*capacities: str, amount: str = "1") -> Network:
    """Two nodes, parallel links and one demand."""
    links = tuple(Link(f"L{i}", "A", "B", capacity) for i, capacity in enumerate(capacities))
    return Network((Node("A"), Node("B")), links, (Demand("D", "A", "B", "1", amount),))


@pytest.mark.parametrize("name", ["triangle", *SIX])
def test_examples_are_exact(program: Program, root: Path, tmp_path: Path, name: str) -> None:
    net = root / f"examples/{name}.net"
    result = certify(program, asked(net))
    assert result.trouble is None and result.closed
    certificate = read_certificate(result.text)
    lower, upper = bounds(certificate)
    assert lower == upper, "the optimum itself, on both sides"
    assert certificate.gap == 0 and certificate.form == program.form
    assert near(upper, arc_optimum(scale(program.network(net)))) if name not in ("germany50", "ta2") else lower > 0
    assert result.line == twice(root, net, result.text, tmp_path)


@pytest.mark.parametrize("seed", range(18))
def test_odd_networks(program: Program, root: Path, tmp_path: Path, seed: int) -> None:
    net = tmp_path / "net"
    network = odd_network(seed)
    save_text(net, write_network(network))
    for links, modules in (("undirected", "largest"), ("directed", "none"), ("bidirected", "sum")):
        result = certify(program, asked(net, links=links, modules=modules))
        assert result.trouble is None and result.closed
        assert result.line == twice(root, net, result.text, tmp_path)
        certificate = read_certificate(result.text)
        lower, upper = bounds(certificate)
        assert certificate.gap <= 1
        if upper:
            assert near(lower, arc_optimum(scale(network, links, modules)))
        else:
            assert certificate.phases == 0


def test_same_input_gives_the_same_text(program: Program, root: Path) -> None:
    first, second = (certify(program, asked(root / "examples/nobel-us.net")).text for _ in range(2))
    assert first == second


def test_rows_stand_in_the_order_of_solve(program: Program, root: Path) -> None:
    certificate = read_certificate(certify(program, asked(root / "examples/polska.net")).text)
    scaled = scale(program.network(root / "examples/polska.net"))
    cell_of = scaled.cell_of(certificate.form)
    keys = [(scaled.commodity_of[path.demand], [cell_of[word] for word in path.cells]) for path in certificate.paths]
    assert keys == sorted(keys) and len({str(key) for key in keys}) == len(keys)
    assert [row.cell for row in certificate.lengths] == list(scaled.words(certificate.form))
    places = [scaled.node_of[row.node] for row in certificate.potentials]
    assert places == sorted(places)


def test_gap_that_is_asked_for_stands_in_the_text(program: Program, root: Path) -> None:
    result = certify(program, asked(root / "examples/polska.net", gap=1))
    assert result.closed and read_certificate(result.text).gap == 1
    open_one = certify(program, asked(root / "examples/polska.net", gap=0))
    assert open_one.closed, "the optimum is met exactly"


def test_begins_from_a_certificate_and_from_a_routing(program: Program, root: Path, tmp_path: Path) -> None:
    net = root / "examples/triangle.net"
    from_cert = certify(program, asked(net, start=str(root / "examples/triangle.cert")))
    assert bounds(read_certificate(from_cert.text)) == (Fraction(4, 3), Fraction(4, 3))
    assert from_cert.text.startswith(f"mcf-certificate {program.form}\n")
    from_routing = certify(program, asked(net, start=str(root / "examples/triangle.routing")))
    certificate = read_certificate(from_routing.text)
    assert certificate.modules == "none", "the routing's own"
    assert bounds(certificate) == (Fraction(4, 3), Fraction(4, 3))
    with pytest.raises(TextError, match="links undirected and modules none"):
        certify(program, asked(net, modules="sum", start=str(root / "examples/triangle.routing")))
    bad = tmp_path / "bad"
    save_text(bad, load_text(root / "examples/triangle.cert").replace("368", "369"))
    with pytest.raises(TextError, match="invalid C2"):
        certify(program, asked(net, start=str(bad)))


def test_a_start_in_form_1_becomes_one_in_form_2(program: Program, root: Path) -> None:
    net = root / "examples/one-link.net"
    assert certify(program, asked(net, start=str(root / "examples/one-link.cert"))).text.split("\n")[0] == "mcf-certificate 2"
    both = certify(program, asked(root / "examples/both-ways.net", start=str(root / "examples/both-ways.cert")))
    assert bounds(read_certificate(both.text)) == (Fraction(2), Fraction(2)) and both.line.startswith("valid closed bidirected ")
    old = read_certificate(load_text(root / "examples/one-link.cert"))
    upgraded = program.ask("upgrade", str(net), str(root / "examples/one-link.cert"))
    assert upgraded == write_certificate(in_form(scale(program.network(net), "directed"), old, 2))


def test_walks_with_round_trips_are_cut_short() -> None:
    scaled = scale(Network(tuple(map(Node, "ABC")), (Link("L", "A", "B", "1"), Link("M", "B", "C", "1"), Link("O", "B", "B", "1")),
                           (Demand("D", "A", "C", "1", "1"),)))
    assert simple(scaled, 0, [0, 1]) == [0, 1]
    assert simple(scaled, 0, [0, 0, 0, 1]) == [0, 1]
    assert simple(scaled, 0, [0, 2, 2, 1, 1, 1]) == [0, 1]
    assert simple(scaled, 1, [0, 0, 1]) == [1]


def test_a_demand_without_a_way_gives_the_cut(program: Program, root: Path) -> None:
    result = certify(program, asked(root / "examples/polska.net", links="directed"))
    assert result.closed and bounds(read_certificate(result.text)) == (0, 0)


def test_without_clp_the_certificate_is_that_of_solve(program: Program, root: Path, monkeypatch: pytest.MonkeyPatch) -> None:
    monkeypatch.setattr(clp, "LIBRARIES", ("libNoSuchClp.so.1",))
    result = certify(program, asked(root / "examples/polska.net"))
    assert result.trouble is not None and "CLP is missing" in result.trouble
    assert result.line.startswith("valid open") and not result.closed, "a millionth is asked for, and not reached"
    assert result.left.startswith("open: a gap of 0.0") and "where 0.000001 was asked for; this is a certificate of mcf solve, " in result.left
    lower, upper = bounds(read_certificate(result.text))
    assert Fraction(0) < upper / lower - 1 < Fraction(1, 20)


def test_an_answer_that_check_refuses_is_not_handed_out(program: Program, root: Path, monkeypatch: pytest.MonkeyPatch) -> None:
    make = run.certificate_of

    def wrong(*words: object) -> Certificate:
        certificate = make(*words)  # type: ignore[arg-type]
        certificate.paths[0] = certificate.paths[1]
        return certificate

    monkeypatch.setattr(run, "certificate_of", wrong)
    result = certify(program, asked(root / "examples/nobel-us.net"))
    assert result.trouble is not None and "invalid C2" in result.trouble
    assert result.line.startswith("valid open") and not result.closed, "a millionth is asked for, and not reached"
    assert certify(program, asked(root / "examples/nobel-us.net", gap=50_000)).closed


@pytest.mark.parametrize("seconds", [0.001, 0.3])
def test_too_little_time_still_gives_a_valid_certificate(program: Program, root: Path, tmp_path: Path, seconds: float) -> None:
    net = tmp_path / "net"
    save_text(net, program.ask("gen", "5", "60", "150", "900"))
    result = certify(program, asked(net, seconds=seconds))
    assert result.line.startswith("valid ")
    assert result.line == twice(root, net, result.text, tmp_path)


def test_drawn_network_of_middle_size(program: Program, root: Path, tmp_path: Path) -> None:
    net = tmp_path / "net"
    save_text(net, program.ask("gen", "7", "50", "200", "2000"))
    for links in ("undirected", "directed"):
        result = certify(program, asked(net, links=links))
        assert result.closed and read_certificate(result.text).gap <= 1
        assert result.line == twice(root, net, result.text, tmp_path)


@pytest.mark.parametrize("seed", range(12))
def test_bidirected_links_in_form_2(root: Path, tmp_path: Path, seed: int) -> None:
    network = odd_network(100 + seed)
    scaled = scale(network, "bidirected", "sum")
    net = tmp_path / "net"
    save_text(net, write_network(network))
    try:
        certificate = run._optimum(unlimited(scaled, 2), None, np.inf).certificate
    except TextError as error:
        assert "no way" in str(error)
        return
    text = write_certificate(certificate)
    assert twice(root, net, text, tmp_path).startswith("valid closed bidirected sum")
    assert certificate.gap <= 1 and near(Fraction(*certificate.lower), arc_optimum(scaled))


def test_capacity_of_two_to_the_44_beside_one() -> None:
    network = line_network("17592186044416", "1", amount="3")
    certificate = run._optimum(unlimited(scale(network), 1), None, np.inf).certificate
    lower, upper = bounds(certificate)
    assert upper == Fraction(17592186044417, 3) and upper / lower - 1 < Fraction(1, 10**13), "no phases split off a part in 2^44"


def test_an_optimum_that_no_number_of_phases_meets() -> None:
    network = line_network("65547", amount="1")
    certificate = run._optimum(unlimited(scale(network), 1), None, np.inf).certificate
    assert Fraction(*certificate.lower) == Fraction(*certificate.upper) == 65547
    split = Network((Node("A"), Node("B"), Node("C")), (Link("L0", "A", "B", "65546"), Link("L1", "A", "C", "1"), Link("L2", "C", "B", "1")),
                    (Demand("D", "A", "B", "1", "1"),))
    certificate = run._optimum(unlimited(scale(split), 1), None, np.inf).certificate
    assert bounds(certificate) == (65546, 65547), "one unit of at most 65,536 is too much for the small link, and none is what is left"
    assert gap_of(certificate) == 16


def test_bound_is_exact_for_prices_with_noise() -> None:
    scaled = scale(line_network("3", "5", "11"))
    pairs, arcs = pairs_of(scaled), Arcs(scaled)
    found = Bounds([1], [3, 5, 11], AllPaths(pairs, arcs).distances).offer(np.array([0.2500000001, 0.25, 0.2499999999]))
    assert found is not None and found.value == 19


def test_opposite_demands_share_a_pair_where_links_are_undirected() -> None:
    network = Network((Node("A"), Node("B")), (Link("L", "A", "B", "9"),),
                      (Demand("D", "A", "B", "1", "2"), Demand("E", "B", "A", "1", "3"), Demand("F", "A", "B", "1", "4")))
    both, one = pairs_of(scale(network)), pairs_of(scale(network, "bidirected"))
    assert both.amount.tolist() == [9] and both.turned.tolist() == [False, True, False]
    assert one.amount.tolist() == [6, 3] and one.of_commodity.tolist() == [0, 1, 0]


def test_rounding_keeps_sums_and_repairs() -> None:
    scaled = scale(Network(tuple(map(Node, "ABC")), (Link("AB", "A", "B", "7"), Link("AC", "A", "C", "3"), Link("CB", "C", "B", "2")),
                           (Demand("D", "A", "B", "1", "5"), Demand("E", "A", "C", "1", "1"))))
    pairs, arcs = pairs_of(scaled), Arcs(scaled)
    capacities = [7, 3, 2]
    pool = Pool(2)
    search = AllPaths(pairs, arcs)
    complete(pool, search, np.array([1.0, 9.0, 9.0]))
    library = clp.load_clp()
    optimum = FractionProgram(library, pairs, search, np.array(capacities, float), pool).optimise(np.inf, lambda found: None)
    bound = Bounds([5, 1], capacities, search.distances).offer(optimum.prices)
    assert bound is not None and optimum.proved and near(bound.value, optimum.carried)
    matrix = pool.cells_by_walks(3)
    whole = Rounding(matrix, np.array(pool.pair), [5, 1], capacities, optimum.flows).best(bound.value, bound.value, np.inf)
    sums = np.bincount(pool.pair, whole.weights)
    assert sums.tolist() == [5 * whole.phases, whole.phases]
    assert bound.value * Fraction(999_999, 1_000_000) <= whole.lower <= bound.value


def test_command_writes_the_file_and_says_the_line(program: Program, root: Path, tmp_path: Path) -> None:
    out = tmp_path / "out"
    done = command(root, program, str(root / "examples/triangle.net"), "--gap", "0.000001", "--output", str(out))
    assert (done.returncode, done.stdout) == (0, "")
    assert done.stderr.count("\n") == 1 and "valid closed undirected largest lower" in done.stderr
    assert program.check(root / "examples/triangle.net", out).line in done.stderr
    plain = command(root, program, str(root / "examples/triangle.net"))
    assert plain.returncode == 0 and plain.stdout.startswith("mcf-certificate ") and plain.stderr == ""


@pytest.mark.parametrize("words,said", [
    (("/nonexistent/net",), "read fault"), (("examples/triangle.cert",), "refused net N1 line 1"),
    (("examples/triangle.net", "--from", "/nonexistent/cert"), "read fault"),
    (("examples/triangle.net", "--output", "/nonexistent/folder/file"), "No such file"),
])
def test_trouble_is_one_line(program: Program, root: Path, words: tuple[str, ...], said: str) -> None:
    done = command(root, program, *(str(root / word) if word.startswith("examples") else word for word in words))
    assert done.returncode == 2 and done.stdout == ""
    assert done.stderr.count("\n") == 1 and said in done.stderr


def test_what_is_open_says_how_far_it_came_and_why(program: Program, root: Path, tmp_path: Path) -> None:
    """Without --gap a millionth is asked for, and a certificate that is far from it is open, with status 1."""
    net = tmp_path / "net"
    save_text(net, program.ask("gen", "5", "512", "4096", "32768"))
    done = command(root, program, str(net), "--seconds", "1")
    assert done.returncode == 1 and done.stdout.startswith("mcf-certificate ") and "\nverdict open\n" in done.stdout
    assert "\ngap 0.000001\n" in done.stdout and done.stderr.count("\n") == 1
    assert done.stderr.startswith("certify: open: a gap of ") and " is left, where 0.000001 was asked for; " in done.stderr
    save_text(tmp_path / "cert", done.stdout)
    assert program.check(net, tmp_path / "cert").line.startswith("valid open ")


@pytest.mark.parametrize("stop,said", [
    (path_lp.Stop.SECONDS, "the seconds were over in round 7 of the linear program"),
    (path_lp.Stop.ROUNDS, "the linear program stopped after 7 rounds, as many as it may have"),
    (path_lp.Stop.COLUMNS, "no further path is worth adding to the linear program, and its flows in whole numbers carry no more"),
])
def test_why_it_stopped(stop: path_lp.Stop, said: str) -> None:
    nothing = np.zeros(0)
    assert run._stopped(path_lp.Optimum(nothing, 1.0, nothing, nothing, 2.0, 7, stop), False) == said
    hurried = run._stopped(path_lp.Optimum(nothing, 1.0, nothing, nothing, 2.0, 7, path_lp.Stop.COLUMNS), True)
    assert hurried == "the seconds were over while its flows were made whole numbers"


def test_rounds_that_are_over_are_told(program: Program, root: Path, tmp_path: Path, monkeypatch: pytest.MonkeyPatch) -> None:
    net, routing = root / "examples/nobel-us.net", tmp_path / "routing"
    save_text(routing, route(program, Question(str(net), "hops", "undirected", "largest", "hops", "routing", 1, 60.0, False)).text)
    monkeypatch.setattr(path_lp, "ROUNDS", 1)
    result = certify(program, asked(net, start=str(routing)))
    assert not result.closed and result.line.startswith("valid open ")
    assert result.left.endswith("; the linear program stopped after 1 rounds, as many as it may have")


def test_a_gap_that_is_not_reached_is_open_and_one_that_is_wide_enough_closed(program: Program, tmp_path: Path) -> None:
    """One unit in 65,546 is left by any number of phases."""
    split = Network((Node("A"), Node("B"), Node("C")), (Link("L0", "A", "B", "65546"), Link("L1", "A", "C", "1"), Link("L2", "C", "B", "1")),
                    (Demand("D", "A", "B", "1", "1"),))
    net = tmp_path / "net"
    save_text(net, write_network(split))
    result = certify(program, asked(net))
    assert not result.closed and result.left == ("open: a gap of 0.000016 is left, where 0.000001 was asked for; no further path is worth "
                                                 "adding to the linear program, and its flows in whole numbers carry no more")
    assert certify(program, asked(net, gap=16)).closed and not certify(program, asked(net, gap=15)).closed


def test_a_network_without_demands_is_one_line(program: Program, root: Path, tmp_path: Path) -> None:
    net = tmp_path / "net"
    save_text(net, write_network(Network((Node("A"), Node("B")), (Link("L", "A", "B", "1"),), (Demand("D", "A", "A", "1", "1"),))))
    for kind in ("solve", "hops", "throughput"):
        done = command(root, program, str(net), "--kind", kind)
        assert (done.returncode, done.stdout) == (2, "")
        assert done.stderr == f"certify: {net}: no demand of an amount between two nodes, so there is nothing to carry\n"


@pytest.mark.parametrize("how", [">&-", "> /dev/full", "| true"])
def test_an_output_that_cannot_be_written_is_trouble(program: Program, root: Path, how: str) -> None:
    line = f"set -o pipefail; tools/certify examples/triangle.net --mcf {program.path} {how}"
    done = subprocess.run(["bash", "-c", line], cwd=root, capture_output=True, text=True, check=False)
    assert (done.returncode, done.stdout) == (2, "") and done.stderr.startswith("certify: standard output: ") and done.stderr.count("\n") == 1


def test_an_output_that_is_read_or_has_no_place_is_told_before_the_work(program: Program, root: Path, tmp_path: Path) -> None:
    net = tmp_path / "net"
    save_text(net, load_text(root / "examples/triangle.net"))
    for output in (net, tmp_path / "no" / "where"):
        done = command(root, Program("/bin/false"), str(net), "--output", str(output))
        assert done.returncode == 2 and done.stderr.count("\n") == 1 and "false" not in done.stderr
    assert load_text(net) == load_text(root / "examples/triangle.net")


@pytest.mark.parametrize("when", ["solve", "check", "linear program"])
@pytest.mark.parametrize("number", [signal.SIGINT, signal.SIGTERM])
def test_a_signal_ends_it_and_its_children(program: Program, root: Path, tmp_path: Path, number: signal.Signals, when: str) -> None:
    """While the program solves or checks, and while CLP runs, which does not look at signals."""
    scratch, fake = tmp_path / "scratch", tmp_path / "mcf"
    scratch.mkdir()
    held = f'[ "$1" = {when.split()[0]} ] && {{ touch {tmp_path}/began; sleep 3600; }}\n'
    fake.write_text(f'#!/bin/sh\n{held}exec {program.path} "$@"\n')
    fake.chmod(0o755)
    words = [str(root / "tools/certify"), str(root / "examples/geant.net"), "--output", str(tmp_path / "out"), "--mcf", str(fake)]
    if when == "linear program":
        words = ["/usr/bin/python3", "-B", "-c", SLOW_CLP.format(package=str(root / "python"), began=str(tmp_path / "began")), *words[1:]]
    with subprocess.Popen(words, stdout=subprocess.PIPE, stderr=subprocess.PIPE, text=True, env={**os.environ, "TMPDIR": str(scratch)}) as running:
        while not (tmp_path / "began").exists():
            assert running.poll() is None
            time.sleep(0.01)
        running.send_signal(number)
        out, told = running.communicate()
    assert (running.returncode, out, told.count("\n")) == (130, "", 1) and told.startswith("certify: ")
    assert list(scratch.iterdir()) == [] and not (tmp_path / "out").exists()
    assert str(fake) not in subprocess.run(["ps", "-eo", "args"], capture_output=True, text=True, check=True).stdout


SLOW_CLP = """
import ctypes, sys
sys.path.insert(0, {package!r})
from mcf.cli.certify import main
from mcf.lp import clp
load = clp.load_clp
sleep = ctypes.CDLL(None).sleep


class Slow:
    def __init__(self):
        self._library = load()

    def __getattr__(self, name):
        return getattr(self._library, name)

    def Clp_primal(self, model, words):
        open({began!r}, "w").close()
        return sleep(3600)


from mcf.lp import run
run.load_clp = Slow
main()
"""


def test_another_locale(program: Program, root: Path, tmp_path: Path) -> None:
    net = tmp_path / "net"
    save_text(net, write_network(Network((Node("\xc3\xa4"), Node("B")), (Link("L\xe4", "\xc3\xa4", "B", "1"),), (Demand("D", "B", "\xc3\xa4", "1", "1"),))))
    done = subprocess.run([str(root / "tools/certify"), str(net), "--mcf", program.path], capture_output=True, check=False,
                          env={**os.environ, "LC_ALL": "C", "PYTHONCOERCECLOCALE": "0", "PYTHONUTF8": "0"})
    assert done.returncode == 0 and done.stderr == b"" and b"=L\xe4" in done.stdout


def test_wrong_words_are_usage(program: Program, root: Path) -> None:
    for words in (("x", "--gap", "-1"), ("x", "--gap", "0.0000001"), ("x", "--links", "both"), ("x", "--seconds", "soon"), (),
                  ("x", "--seconds", "nan"), ("x", "--seconds", "inf"), ("x", "--seconds", "0"), ("x", "--gap", "9" * 5000),
                  ("x", "--gap", "1", "--gap", "2")):
        done = command(root, program, *words)
        assert done.returncode == 2 and done.stdout == "" and done.stderr.startswith("certify: ") and done.stderr.count("\n") == 1
