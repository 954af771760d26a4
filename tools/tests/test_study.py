"""`tools/study`: scenarios, their keys, what is done of each, and what is said, in one process."""

from __future__ import annotations

import gzip
import io
import os
import random
import shutil
import signal
import sqlite3
import subprocess
import tarfile
import tempfile
import time
import zlib
from collections.abc import Iterator
from contextlib import closing
from dataclasses import replace
from fractions import Fraction
from pathlib import Path

import pytest

import mcf
from mcf import Program, TextError, read_network, write_network
from mcf.linkmode import link_mode
from mcf.network import Demand, Network
from mcf.ranges import Answer, Range
from mcf.report.shown import percent_down
from mcf.studies import answers, run, work
from mcf.studies.bands import band
from mcf.studies.changes import Fibres, all_changes, failures, read_changes, read_groups
from mcf.studies.engine import Pace
from mcf.studies.matrices import How, Told, _stamp, in_numbers, own, read_matrices
from mcf.studies.scenarios import INTACT, Asked, Change, Ground, Matrix, Plan, changed, demand_rows, demands_of, digest_of
from mcf.studies.show import Shown
from mcf.studies.store import Store, Wanted
from mcf.studies.work import Found, Row
from mcf.convert.numbers import Unit
from mcf.studies.words import sentences
from studied import EXAMPLES, STUDY, TRIANGLE, net_file, network, ran, rows, table, timeless

# the exact optima of the triangle with one link closed: cuts that are easily seen
CLOSED = {"AB": Fraction(1, 2), "AC": Fraction(5, 6), "BC": Fraction(5, 4)}
# two arcs of each fibre of a triangle
ARCS = network([(f"{a}{b}", a, b, "10") for a, b in ("AB", "BA", "BC", "CB", "CA", "AC")], [("D", "A", "B", "8"), ("E", "C", "A", "4")])
# D2 goes over a bridge
CERT = zlib.compress(b"mcf-certificate")
BRIDGE = network([("AB", "A", "B", "4"), ("BA2", "A", "B", "4"), ("BC", "B", "C", "3")], [("D1", "A", "B", "4"), ("D2", "A", "C", "2")])


def plan_of(net: Network, changes: list[Change], asked: Asked = Asked(), routings: tuple[str, ...] = ("best",)) -> Plan:
    """A plan of a network's own demands."""
    return Plan(Ground.of(net), [Matrix("", digest_of(demand_rows(net.demands)))], changes, routings, asked)


# -- scenarios and keys


def test_failures_are_each_link_each_node_and_each_two_links() -> None:
    net = read_network(TRIANGLE)
    found = list(failures(net, ("links", "nodes", "pairs"), Fibres(net)))
    assert [change.title for change in found] == ["link AB", "link AC", "link BC", "node A", "node B", "node C", "pair AB+AC", "pair AB+BC",
                                                  "pair AC+BC"]
    assert [set(change.links) for change in found[3:6]] == [{"AB", "AC"}, {"AB", "BC"}, {"AC", "BC"}]


def test_without_changes_a_study_has_the_network_as_it_is() -> None:
    net = read_network(TRIANGLE)
    assert all_changes(net, (), (), Fibres(net), False) == [INTACT]
    assert all_changes(net, ("links",), (), Fibres(net), True)[0] == INTACT and len(all_changes(net, ("links",), (), Fibres(net), False)) == 3


def test_both_arcs_of_a_fibre_fail_together() -> None:
    net = read_network(ARCS)
    assert [change.links for change in failures(net, ("links",), Fibres(net, True))] == [("AB", "BA"), ("BC", "CB"), ("CA", "AC")]
    assert len(list(failures(net, ("pairs",), Fibres(net, True)))) == 3 and len(list(failures(net, ("links",), Fibres(net)))) == 6


def test_arcs_that_are_several_are_no_fibre() -> None:
    net = read_network(network([("1", "A", "B", "1"), ("2", "A", "B", "1"), ("3", "B", "A", "1")], [("D", "A", "B", "1")]))
    with pytest.raises(TextError, match="link 1: 2 links from A to B and 1 back, so which two are a fibre is not known"):
        Fibres(net, True).units()


def test_a_key_is_what_is_asked_and_not_what_it_is_called() -> None:
    net = read_network(TRIANGLE)
    named = [Change("link", "AB", ("AB",)), Change("group", "conduit", ("AB",)), Change("pair", "x", ("AB", "AC")), Change("group", "y", ("AC", "AB"))]
    keys = [scenario.key for scenario in plan_of(net, named)]
    assert keys[0] == keys[1] != keys[2] == keys[3] and len(list(plan_of(net, named).once())) == 2
    others = {scenario.key for asked in (Asked(gap="0.01"), Asked(phases="9"), Asked(links="directed"), Asked(modules="none"))
              for scenario in plan_of(net, named[:1], asked)}
    assert len({*others, keys[0]}) == 5
    assert {scenario.key for scenario in plan_of(net, named[:1], Asked(cost="setup", paths=9))} == {keys[0]}
    wider = replace(net, links=(replace(net.links[0], capacity="11"), *net.links[1:]))
    assert {scenario.key for scenario in plan_of(wider, named[:1])} != {keys[0]}


@pytest.mark.parametrize("name", ["Malà", "Åre", "a\x0cb", "a\x1fb", "\u2028", "="])
def test_a_demand_may_have_any_name(name: str) -> None:
    """The last byte of à is a blank of Latin-1, and that of Å ends a line there."""
    word = name.encode().decode("latin-1")
    rows_of_it = (Demand(word, word, "B", "1", "4", "UNLIMITED"), Demand("D", "A", word, "2", "0.5", "3"))
    assert demands_of(demand_rows(rows_of_it)) == rows_of_it and demands_of("") == ()


def test_names_of_many_letters_are_studied(tmp_path: Path, program: Program) -> None:
    text = TRIANGLE.replace("A_to_B", "Malà").replace(" B ", " Å ").replace("  B\n", "  Å\n")
    plain, other = (rows(tmp_path, net_file(tmp_path, one), "--failures", "links,nodes", program=program, status=1) for one in (TRIANGLE, text))
    assert [row["lower"] for row in plain] == [row["lower"] for row in other] and other[3]["left_out"] == "Malà A_to_C"
    (tmp_path / "m.list").write_text("à (\n  Malà ( A Å ) 1 8 UNLIMITED\n)\n")
    found, = rows(tmp_path, net_file(tmp_path, text), "--matrices", "m.list", program=program, status=0)
    assert found["matrix"] == "à" and Fraction(found["lower"]) <= 2 <= Fraction(found["upper"])


def test_a_lost_node_takes_its_links_and_its_own_demands() -> None:
    net = read_network(TRIANGLE)
    found = changed(net, list(failures(net, ("nodes",), Fibres(net)))[2])
    assert [link.capacity for link in found.network.links] == ["10", "0", "0"] and found.left_out == ("A_to_C",)
    assert [demand.id for demand in found.network.demands] == ["A_to_B"] and demands_of(demand_rows(net.demands)) == net.demands


@pytest.mark.parametrize("text, said", [
    ("group,link\nG,XY\n", "line 2: the network has no link 'XY'"), ("group,node\nG,XY\n", "line 2: the network has no node 'XY'"),
    ("group\nG\n", "line 1: the columns are group and link or node, and not group"), ("group,link\n,AB\n", "line 2: a group and a link or a node are due"),
    ("group,link\nG,AB,AC\n", "line 2: 3 columns"), ("group,link\n", "has no rows behind its head")])
def test_a_table_of_groups_is_read_or_refused_by_its_line(tmp_path: Path, text: str, said: str) -> None:
    (tmp_path / "g.csv").write_text(text)
    with pytest.raises(TextError, match=said):
        read_groups(str(tmp_path / "g.csv"), read_network(TRIANGLE))


@pytest.mark.parametrize("text, said", [
    ("scenario,link,capacity\nS,AB,-1\n", "line 2: capacity: '-1' is no number"), ("scenario,link,capacity\nS,ZZ,1\n", "line 2: the network has no link 'ZZ'"),
    ("scenario,link,capacity\nS,AB,1\nS,AB,2\n", "line 3: scenario S gives link AB two capacities"),
    ("scenario,link,capacity\n", "has no rows behind its head"), ("scenario;link;capacity\nS;AB;1,5\n", "tools/convert --decimal-comma reads 1,5 as 1.5"),
    ("scenario,link,capacity\nS,AB,0.1234567\n", "line 2: capacity 0.1234567 has more than 6 decimals")])
def test_a_table_of_changes_is_read_or_refused_by_its_line(tmp_path: Path, text: str, said: str) -> None:
    (tmp_path / "c.csv").write_text(text)
    net = read_network(TRIANGLE)
    with pytest.raises(TextError, match=said):
        read_changes(str(tmp_path / "c.csv"), net, Unit(), Fibres(net))


# -- what is done of each scenario


def test_the_triangle_has_its_known_optima(tmp_path: Path, program: Program) -> None:
    found = rows(tmp_path, net_file(tmp_path), "--failures", "links", "--intact", "--gap", "0.02", program=program, status=1)
    optima = {"": Fraction(4, 3), **CLOSED}
    assert [row["change"] for row in found] == ["", "AB", "AC", "BC"]
    for row in found:
        lower, upper, best = Fraction(row["lower"]), Fraction(row["upper"]), optima[row["change"]]
        assert lower <= best <= upper <= lower * Fraction(102, 100) and row["verdict"] == "closed"
        assert row["fits"] == ("yes" if best >= 1 else "no")


def test_growth_divides_both_bounds_and_solves_nothing(tmp_path: Path, program: Program) -> None:
    found = rows(tmp_path, net_file(tmp_path), "--grow", "1,1.1,1.21", program=program, status=0)
    first = found[0]
    assert len({row["key"] for row in found}) == 1 and [row["growth"] for row in found] == ["1", "11/10", "121/100"]
    for row in found:
        for bound in ("lower", "upper"):
            assert Fraction(row[bound]) == Fraction(first[bound]) / Fraction(row["growth"])
    assert len(table_of(tmp_path)) == 1


def table_of(room: Path, store: str = "study.db") -> list[tuple[object, ...]]:
    """Keys and verdicts that a store has."""
    with sqlite3.connect(room / store) as base:
        return list(base.execute("SELECT key, verdict FROM rows"))


def test_demands_without_a_way_are_named_and_the_rest_is_told(tmp_path: Path, program: Program) -> None:
    net = net_file(tmp_path, BRIDGE)
    found = {row["change"]: row for row in rows(tmp_path, net, "--failures", "links", "--without-cut", program=program, status=1)}
    cut = found["BC"]
    assert (cut["lower"], cut["upper"], cut["fits"], cut["without_way"]) == ("0", "0", "no", "D2")
    assert Fraction(cut["rest_lower"]) <= 2 <= Fraction(cut["rest_upper"]) and cut["rest_fits"] == "yes"
    assert found["AB"]["without_way"] == "" == found["AB"]["rest_lower"]
    out, _ = ran(tmp_path, net, "--failures", "links", program=program, status=1)
    assert "1 leaves some demand without a way" in out and "The worst is link BC: some demand has no way at all" in out


def test_without_cut_does_what_is_new_alone(tmp_path: Path, program: Program) -> None:
    net = net_file(tmp_path, BRIDGE)
    plain = rows(tmp_path, net, "--failures", "links", program=program)
    whole = rows(tmp_path, net, "--failures", "links", "--without-cut", program=program)
    assert [row["seconds"] for row in plain][:2] == [row["seconds"] for row in whole][:2] and whole[2]["rest_lower"] and not plain[2]["rest_lower"]


def test_a_failed_node_says_which_demands_are_left_out(tmp_path: Path, program: Program) -> None:
    found = {row["nodes"]: row for row in rows(tmp_path, net_file(tmp_path), "--failures", "nodes", program=program, status=1)}
    assert found["C"]["left_out"] == "A_to_C" and found["C"]["without_way"] == "" and Fraction(found["C"]["lower"]) <= Fraction(5, 4) <= Fraction(found["C"]["upper"])
    assert found["A"]["verdict"] == "refused" and "no demand is left" in found["A"]["refusal"] and found["A"]["fits"] == "undecided"
    out, _ = ran(tmp_path, net_file(tmp_path), "--failures", "nodes", program=program, status=1)
    assert "All demands fit in 2 of 3 scenarios; 1 was refused." in out


def test_both_arcs_of_a_fibre_are_closed_in_the_network(tmp_path: Path, program: Program) -> None:
    net = net_file(tmp_path, ARCS)
    together = rows(tmp_path, net, "--links", "directed", "--failures", "links", "--fibres", program=program)
    assert [row["links"] for row in together] == ["AB BA", "BC CB", "CA AC"]
    (tmp_path / "g.csv").write_text("group,link\nfirst,AB\nfirst,BA\n")
    grouped = rows(tmp_path, net, "--links", "directed", "--groups", "g.csv", program=program)
    assert grouped[0]["key"] == together[0]["key"] and grouped[0]["lower"] == together[0]["lower"]
    _, why = ran(tmp_path, net, "--failures", "links", "--fibres", program=program, status=2)
    assert why == "study: --fibres is for links that are directed, and these are undirected: both ways of a link fail with it\n"


def test_each_scenario_has_the_whole_budget(tmp_path: Path, program: Program) -> None:
    net = EXAMPLES / "triangle.net"
    whole = program.solve(net, "--workers", "1")
    found = rows(tmp_path, net, "--failures", "links", "--intact", program=program)
    line = program.check(net, _saved(tmp_path, whole)).line
    lower, upper = (Fraction(line.split(" ")[line.split(" ").index(name) + 1]) for name in ("lower", "upper"))
    assert (Fraction(found[0]["lower"]), Fraction(found[0]["upper"])) == (lower, upper)


def _saved(room: Path, text: str) -> Path:
    """A file with a text."""
    file = room / "some.cert"
    file.write_bytes(text.encode("latin-1"))
    return file


def test_each_row_is_what_a_solve_of_its_network_says(tmp_path: Path, program: Program) -> None:
    """Each change made by hand, solved and checked by the program, beside the study."""
    (tmp_path / "c.csv").write_text("scenario,link,capacity\nS,AB,3\nS,BC,0\nT,AC,12.5\n")
    found = rows(tmp_path, net_file(tmp_path), "--changes", "c.csv", "--failures", "links", program=program)
    sizes = {"AB": {"AB": "0"}, "AC": {"AC": "0"}, "BC": {"BC": "0"}, "S": {"AB": "3", "BC": "0"}, "T": {"AC": "12.5"}}
    for row in found:
        text = TRIANGLE
        for link, size in sizes[row["change"]].items():
            text = text.replace(f"{link} ( {link[0]} {link[1]} ) {'10' if link == 'AB' else '6'} ", f"{link} ( {link[0]} {link[1]} ) {size} ")
        net = net_file(tmp_path, text, "other.net")
        line = program.check(net, _saved(tmp_path, program.solve(net, "--workers", "1"))).line.split(" ")
        assert [Fraction(line[line.index(name) + 1]) for name in ("lower", "upper")] == [Fraction(row["lower"]), Fraction(row["upper"])]


@pytest.mark.parametrize("rule", ["ecmp", "hops", "capacity", "k-paths"])
def test_a_rule_is_that_of_route(tmp_path: Path, program: Program, rule: str) -> None:
    net = net_file(tmp_path)
    found = rows(tmp_path, net, "--routing", rule, program=program, status=0)[0]
    done = subprocess.run([STUDY.parent / "route", net, "--by", rule, "--no-best", "--mcf", program.path, "--output", tmp_path / "r"], capture_output=True,
                          text=True, check=True)
    assert Fraction(found["lower"]) == Fraction(done.stderr.split(" ")[4]) and (found["upper"], found["verdict"], found["fits"]) == ("", "feasible", "yes")


# one demand over 3 links, one over 5, and so on: no number of phases up to 65,536 splits all of them equally
ODD = (3, 5, 7, 11, 13, 17)
PARALLEL = network([(f"L{count}_{at}", "A", f"N{count}", "1") for count in ODD for at in range(count)], [(f"D{count}", "A", f"N{count}", "1") for count in ODD])


def test_a_row_says_how_its_routing_falls_short_of_its_rule(tmp_path: Path, program: Program) -> None:
    net = net_file(tmp_path, PARALLEL)
    found = rows(tmp_path, net, "--routing", "best,hops,ecmp,k-paths", "--paths", "20", program=program, status=0)
    best, hops, ecmp, few = (row["note"] for row in found)
    assert best == "" == hops and ecmp.startswith("no number of phases up to 65536 makes these splits exact; of ")
    assert few.startswith("6 of 6 pairs of nodes have fewer than 20 paths")
    done = subprocess.run([STUDY.parent / "route", net, "--by", "ecmp", "--no-best", "--mcf", program.path, "--output", tmp_path / "r"], capture_output=True,
                          text=True, check=True)
    assert f"route: {ecmp}\n" in done.stderr
    words = (net, "--routing", "ecmp", "--html", "p.html")
    out, _ = ran(tmp_path, *words, program=program, status=0)
    assert out == ("It is shown to carry all demands in 1 of 1 scenario; 1 has a note in the table. The least that it is shown to carry is "
                   f"{percent_down(Fraction(found[2]['lower']))} of every demand: the network as it is.\n")
    assert ecmp in (tmp_path / "p.html").read_text()


def test_a_row_says_how_the_routing_of_its_rest_falls_short(tmp_path: Path, program: Program) -> None:
    net = net_file(tmp_path, PARALLEL.replace(")\nLINKS", "  Z\n)\nLINKS").replace("DEMANDS (\n", "DEMANDS (\n  LOST ( A Z ) 1 1 UNLIMITED\n"))
    found, = rows(tmp_path, net, "--routing", "ecmp", "--without-cut", "--recheck", program=program, status=1)
    assert (found["upper"], found["without_way"], found["note"][:12]) == ("0", "LOST", "no number of")


def test_a_rule_that_is_not_shown_to_carry_all_is_undecided(tmp_path: Path, program: Program) -> None:
    out, _ = ran(tmp_path, net_file(tmp_path), "--routing", "best,ecmp", "--failures", "links", program=program, status=1)
    assert out.splitlines()[1] == ("Routing ecmp: It is shown to carry all demands in 1 of 3 scenarios. The least that it is shown to carry is 50.0 % "
                                   "of every demand: link AB.")


def test_exact_is_as_near_as_certify(tmp_path: Path, program: Program) -> None:
    pytest.importorskip("scipy")
    found = rows(tmp_path, net_file(tmp_path), "--routing", "exact", "--failures", "links", "--intact", program=program, status=1)
    optima = {"": Fraction(4, 3), **CLOSED}
    for row in found:
        assert row["verdict"] == "closed" and Fraction(row["lower"]) <= optima[row["change"]] <= Fraction(row["upper"])
        assert Fraction(row["upper"]) - Fraction(row["lower"]) <= Fraction(2, 10**6)


def test_an_exact_scenario_without_its_linear_program_is_open(program: Program, monkeypatch: pytest.MonkeyPatch) -> None:
    """What `mcf solve` calls closed at its own gap is not as close as an exact scenario has to be."""
    pytest.importorskip("scipy")
    from mcf.studies import children, exact

    def fails(*_: object) -> None:
        """No linear program."""
        raise RuntimeError("no memory for it")

    monkeypatch.setattr(exact, "_optimum", fails)
    mcf_here, text = children.program(program.path), TRIANGLE.encode()
    assert work.solved(mcf_here, text, Asked()).verdict == "closed"
    found = exact.exact(mcf_here, read_network(TRIANGLE), text, Asked(), "ground", "exact")
    assert found.verdict == "open" and Fraction(found.lower) <= Fraction(4, 3) <= Fraction(found.upper)
    assert exact.exact(mcf_here, read_network(TRIANGLE), text, Asked(gap="0.05"), "ground", "exact").verdict == "closed"
    children.end_all()


def test_a_cost_means_nothing_where_lengths_are_others() -> None:
    assert Asked(cost="setup").unused(("ecmp", "cost", "best")) == [("cost", "best"), ("cost", "ecmp by hops")]
    assert Asked(cost="setup", lengths="cost").unused(("ecmp", "k-paths")) == []


def test_options_that_mean_nothing_for_a_routing_are_said(tmp_path: Path, program: Program) -> None:
    out, why = ran(tmp_path, net_file(tmp_path), "--routing", "best,hops", "--phases", "30", "--paths", "2", program=program, status=0)
    assert why.splitlines() == ["study: --phases means nothing for the routing hops", "study: --paths means nothing for the routing best",
                                "study: --paths means nothing for the routing hops"]


def test_how_links_are_read_is_said_where_the_file_says_more(tmp_path: Path, program: Program) -> None:
    commented = net_file(tmp_path, TRIANGLE.replace("LINKS (", "# directed links\nLINKS ("), "c.net")
    said = net_file(tmp_path, TRIANGLE.replace("NODES (", "META (\n  links = directed\n)\nNODES ("), "m.net")
    assert ran(tmp_path, commented, program=program)[1] == (
        f"study: links are read as undirected; a comment in line 7 of {commented} says directed: --links directed reads them so\n")
    assert ran(tmp_path, said, program=program)[1] == f"study: links are read as directed, as {said} says\n"
    assert ran(tmp_path, commented, "--links", "directed", program=program)[1] == "" == ran(tmp_path, net_file(tmp_path), program=program)[1]


# -- what is kept


class Counted:
    """A program that keeps count of its solves."""

    def __init__(self, room: Path, program: Program) -> None:
        """A script that writes a line and becomes the program."""
        self._log = room / "log"
        script = room / "counted"
        script.write_text(f'#!/bin/sh\necho "$1" >>{self._log}\nexec {program.path} "$@"\n')
        script.chmod(0o755)
        self.program = Program(str(script))

    def runs(self, command: str) -> int:
        """How often a command ran."""
        return self._log.read_text().split().count(command) if self._log.exists() else 0

    def solves(self) -> int:
        """How many solves there were."""
        return self.runs("solve")


def test_the_same_command_does_nothing_and_a_wider_one_what_is_new(tmp_path: Path, program: Program) -> None:
    counted, net = Counted(tmp_path, program), net_file(tmp_path)
    first = rows(tmp_path, net, "--failures", "links", program=counted.program)
    assert counted.solves() == 3
    assert rows(tmp_path, net, "--failures", "links", program=counted.program) == first and counted.solves() == 3
    wider = rows(tmp_path, net, "--failures", "links,pairs", program=counted.program)
    assert wider[:3] == first and counted.solves() == 6


def test_two_that_ask_the_same_are_solved_once(tmp_path: Path, program: Program) -> None:
    counted, net = Counted(tmp_path, program), net_file(tmp_path)
    (tmp_path / "g.csv").write_text("group;link\none;AB\ntwo;AB\n")
    found = rows(tmp_path, net, "--failures", "links", "--groups", "g.csv", program=counted.program)
    assert counted.solves() == 3 and [row["kind"] for row in found] == ["link", "link", "link", "group", "group"]
    assert found[0]["key"] == found[3]["key"] == found[4]["key"]


def test_a_certificate_is_handed_out_and_the_check_judges_it(tmp_path: Path, program: Program) -> None:
    net = net_file(tmp_path, BRIDGE)
    found = rows(tmp_path, net, "--failures", "links,nodes", "--keep", "--without-cut", program=program)
    for row in found:
        if row["verdict"] == "refused":
            continue
        rest = ["--rest"] if row["rest_lower"] else []
        done = subprocess.run([STUDY, "show", row["key"][:10], *rest, "--network", "one.net"], cwd=tmp_path, capture_output=True, check=True)
        line = program.check(tmp_path / "one.net", _saved(tmp_path, done.stdout.decode("latin-1"))).line.split(" ")
        assert line[0] == "valid" and Fraction(line[line.index("lower") + 1]) == Fraction(row["rest_lower"] or row["lower"])


def test_show_says_why_it_has_none(tmp_path: Path, program: Program) -> None:
    key = rows(tmp_path, net_file(tmp_path), program=program)[0]["key"]
    for words, said in ((["xyz"], "study.db: no key begins with 'xyz'"), ([b"\xff"], "study.db: no key begins with"),
                        ([key], "its certificate was not kept"), ([key, "--store", "none.db"], "no such file")):
        done = subprocess.run([STUDY, "show", *words], cwd=tmp_path, capture_output=True, text=True, check=False)
        assert done.returncode == 2 and said in done.stderr and done.stderr.count("\n") == 1 and done.stdout == ""
    assert rows(tmp_path, net_file(tmp_path), "--keep", program=program)[0]["key"] == key
    assert subprocess.run([STUDY, "show", key], cwd=tmp_path, capture_output=True, check=False).returncode == 0


def test_what_was_kept_is_not_lost(tmp_path: Path, program: Program) -> None:
    net = net_file(tmp_path, BRIDGE)
    key = rows(tmp_path, net, "--failures", "links", "--keep", program=program)[2]["key"]
    rows(tmp_path, net, "--failures", "links", "--without-cut", program=program)
    assert subprocess.run([STUDY, "show", key], cwd=tmp_path, capture_output=True, check=False).returncode == 0


def test_what_is_known_of_the_rest_is_not_lost(tmp_path: Path, program: Program) -> None:
    words = (net_file(tmp_path, BRIDGE), "--failures", "links")
    whole = rows(tmp_path, *words, "--without-cut", program=program)
    kept = rows(tmp_path, *words, "--keep", program=program)
    assert whole[2]["rest_lower"] and [row["rest_lower"] for row in kept] == [row["rest_lower"] for row in whole]
    show = [STUDY, "show", whole[2]["key"], "--rest"]
    assert subprocess.run(show, cwd=tmp_path, capture_output=True, check=False).returncode == 0


def test_of_two_studies_at_once_nothing_is_lost(tmp_path: Path) -> None:
    """One keeps certificates, and the other one asks for the rest: what comes last takes the place of nothing that has more."""
    scenario = next(iter(plan_of(read_network(BRIDGE), [INTACT])))
    store = Store(str(tmp_path / "s.db"))
    cut = Found("closed", "one", "0", "0")
    kept = Row(scenario.key, replace(cut, certificate=CERT), None, (), ("D2",), 0.0, "", "")
    rest = Row(scenario.key, cut, Found("closed", "two", "1", "1"), (), ("D2",), 0.0, "", "")
    failed = Row(scenario.key, Found("failed", "three"), None, (), (), 0.0, "", "")
    for one in (failed, kept, rest, failed, kept):
        store.add([(scenario, one, False)], "net", Asked())
    found = store.rows([scenario.key], certificates=True)[scenario.key].row
    assert (found.found.certificate, found.rest, found.cut) == (CERT, rest.rest, ("D2",))
    # (of the rest there is no certificate, which --keep asks for)
    assert not store.left([scenario], Wanted(False, True)) and store.left([scenario], Wanted(True, False))[0].without_cut
    store.close()


def test_a_rest_without_an_answer_leaves_the_answer_on_all_demands(tmp_path: Path, program: Program) -> None:
    weak = tmp_path / "weak"
    weak.write_text(f'#!/bin/sh\nfor net; do :; done\n[ "$1" = solve ] && ! grep -q "D2 " "$net" && kill -9 $$\nexec {program.path} "$@"\n')
    weak.chmod(0o755)
    words = (net_file(tmp_path, BRIDGE), "--failures", "links", "--without-cut")
    found = rows(tmp_path, *words, program=Program(str(weak)), status=2)[2]
    assert (found["lower"], found["upper"], found["without_way"], found["rest_fits"]) == ("0", "0", "D2", "undecided")
    out, _ = ran(tmp_path, *words, program=Program(str(weak)), status=2)
    assert "of 1 the demands that have a way have no answer, and the same command tries again" in out
    assert rows(tmp_path, *words, program=program, status=1)[2]["rest_fits"] == "yes"


@pytest.mark.parametrize("seed", range(12))
def test_a_damaged_store_is_one_line(tmp_path: Path, seed: int) -> None:
    draw = random.Random(seed)
    net, whole = read_network(TRIANGLE), tmp_path / "s.db"
    plan = plan_of(net, list(failures(net, ("links", "nodes", "pairs"), Fibres(net))))
    store = Store(str(whole))
    store.keep_texts([(plan.ground.digest, plan.ground.text)])
    found = Found("closed", "line", "1/2", "2/3", zlib.compress(draw.randbytes(900)))
    store.add([(one, Row(one.key, found, None, ("D",), (), 0.1, "here", "1"), False) for one in plan], plan.ground.digest, plan.asked)
    store.close()
    data = bytearray(whole.read_bytes())
    for _ in range(draw.choice((1, 20, 200))):
        data[draw.randrange(len(data))] = draw.randrange(256)
    some = [bytes(data), *(whole.read_bytes()[:length] for length in (1, 50, 100, 512, draw.randrange(len(data)))), bytes(len(data)), bytes(5)]
    for text in some:
        whole.write_bytes(text)
        try:
            store = Store(str(whole))
            try:
                store.left(list(plan), Wanted())
                store.rows([one.key for one in plan], certificates=True)
                store.text(plan.ground.digest)
            finally:
                store.close()
        except TextError as why:
            assert str(why).startswith(f"{whole}: ") and "\n" not in str(why)
        else:
            assert text == bytes(data)


@pytest.mark.parametrize("column, value", [("certificate", b"no certificate"), ("asked", "{}"), ("asked", "[]"), ("asked", "{"), ("cut", "3"), ("seconds", "x")])
def test_a_row_that_is_damaged_is_one_line(tmp_path: Path, column: str, value: object) -> None:
    plan, path = plan_of(read_network(TRIANGLE), [INTACT]), tmp_path / "study.db"
    store, one = Store(str(path)), next(iter(plan))
    store.add([(one, Row(one.key, Found("closed", "line", "1", "2", CERT), None, (), (), 0.1, "", ""), False)], "net", Asked())
    store.close()
    with sqlite3.connect(path) as base:
        base.execute(f"UPDATE rows SET {column} = ?", (value,))
    done = subprocess.run([STUDY, "show", one.key], cwd=tmp_path, capture_output=True, text=True, check=False)
    assert done.returncode == 2 and done.stderr.startswith("study: study.db: is damaged (") and done.stderr.count("\n") == 1 and not done.stdout


def test_what_is_kept_is_judged_again_without_a_solve(tmp_path: Path, program: Program) -> None:
    counted, words = Counted(tmp_path, program), (net_file(tmp_path, BRIDGE), "--failures", "links", "--without-cut")
    rows(tmp_path, *words, "--keep", program=counted.program)
    solves, checks = counted.runs("solve"), counted.runs("check")
    rows(tmp_path, *words, "--recheck", program=counted.program)
    # (of one scenario the rest is judged too)
    assert (counted.runs("solve"), counted.runs("check")) == (solves, checks + 4)
    # (whoever says in the file that it was judged, each run judges it)
    rows(tmp_path, *words, "--recheck", program=counted.program)
    assert (counted.runs("solve"), counted.runs("check")) == (solves, checks + 8)
    with sqlite3.connect(tmp_path / "study.db") as base:
        assert base.execute("SELECT min(rechecked) FROM rows").fetchone() == (1,)
        base.execute("UPDATE rows SET lower = '1/1000' WHERE lower <> '0'")
    _, why = ran(tmp_path, *words, "--recheck", program=program, status=2)
    assert ", bounds 1/1000 and " in why and ", and the check here 'valid closed undirected largest lower " in why


def test_bounds_that_contradict_each_other_are_damage(tmp_path: Path) -> None:
    plan, path = plan_of(read_network(TRIANGLE), [INTACT]), tmp_path / "s.db"
    store, one = Store(str(path)), next(iter(plan))
    for lower, upper in (("3", "2"), ("x", "2"), ("1/0", "2"), ("-1", "2")):
        store.add([(one, Row(one.key, Found("closed", "line", lower, upper), None, (), (), 0.1, "", ""), False)], "net", Asked())
        with pytest.raises(TextError, match="s.db: is damaged"):
            store.rows([one.key])


def test_what_arrives_is_judged_again(tmp_path: Path, program: Program) -> None:
    net = read_network(TRIANGLE)
    plan, store = plan_of(net, [INTACT]), Store(str(tmp_path / "s.db"))
    store.keep_texts([(plan.ground.digest, plan.ground.text), (plan.matrices[0].digest, demand_rows(net.demands))])
    place = run.Place(1, None, program.path, program.path, True)
    run.run(plan, store, Wanted(True, False, True), place, print)
    scenario = next(iter(plan))
    row = store.rows([scenario.key], certificates=True)[scenario.key].row
    tasks = run.Left(plan, store, Wanted(True, False, True), program.path, {row.key: scenario})
    run._recheck(row, tasks, place)
    for false in (replace(row.found, line=row.found.line.replace("lower 4", "lower 5")), replace(row.found, certificate=b"nothing"),
                  replace(row.found, lower="2"), replace(row.found, upper="3/2"), replace(row.found, verdict="open"), replace(row.found, certificate=None)):
        with pytest.raises(TextError, match="the check here"):
            run._recheck(replace(row, found=false), tasks, place)
    for false_row in (replace(row, cut=("A_to_B",)), replace(row, left_out=("A_to_C",)), replace(row, rest=row.found, cut=("A_to_C",))):
        with pytest.raises(TextError, match="the check here that these are none and none"):
            run._recheck(false_row, tasks, place)


@pytest.mark.parametrize("name", [":memory:", "file:x?mode=memory", "-x", "é"])
def test_a_store_is_a_file_whatever_its_name(tmp_path: Path, monkeypatch: pytest.MonkeyPatch, name: str) -> None:
    monkeypatch.chdir(tmp_path)
    Store(name).close()
    assert [file.name for file in tmp_path.iterdir()] == [name]


def test_a_file_that_is_no_store_is_refused(tmp_path: Path, program: Program) -> None:
    net = net_file(tmp_path)
    (tmp_path / "text.db").write_text("no database " * 100)
    with sqlite3.connect(tmp_path / "other.db") as base:
        base.execute("CREATE TABLE rows (a)")
    (tmp_path / "short.db").write_text("x")
    for store, said in (("text.db", "text.db: is no file of a study"), ("short.db", "short.db: is no file of a study"),
                        ("other.db", "other.db: is a database, and none of a study; name another file by --store"),
                        ("none/study.db", "none/study.db: No such file or directory")):
        assert ran(tmp_path, net, "--store", store, program=program, status=2)[1] == f"study: {said}\n"
    assert ran(tmp_path, net, "--store", net, program=program, status=2)[1].startswith(f"study: {net}: is read too")


# a store as version 0.2.0 made it first, without notes
FORM_1 = """CREATE TABLE texts (digest TEXT PRIMARY KEY, data BLOB NOT NULL) WITHOUT ROWID;
CREATE TABLE rows (key TEXT PRIMARY KEY, network TEXT NOT NULL, matrix TEXT NOT NULL, asked TEXT NOT NULL, verdict TEXT NOT NULL, line TEXT NOT NULL,
lower TEXT NOT NULL, upper TEXT NOT NULL, rest_verdict TEXT, rest_line TEXT, rest_lower TEXT, rest_upper TEXT, left_out TEXT NOT NULL, cut TEXT NOT NULL,
seconds REAL NOT NULL, place TEXT NOT NULL, version TEXT NOT NULL, rechecked INTEGER NOT NULL, certificate BLOB, rest_certificate BLOB);
PRAGMA application_id = 0x6D636673; PRAGMA user_version = 1;"""


def of_form_1(path: Path, plan: Plan) -> None:
    """A store of form 1 with a routing of each scenario."""
    with sqlite3.connect(path) as base:
        base.executescript(FORM_1)
        for one in plan:
            asked = '{"links": [], "nodes": [], "capacities": []}'
            base.execute(f"INSERT INTO rows VALUES ({', '.join('?' * 20)})", (one.key, "net", "matrix", asked, "feasible", "feasible 1", "1/2", "",
                                                                            *(None,) * 4, "[]", "[]", 0.1, "here", "0.1", 0, CERT, None))
    base.close()


def test_a_store_without_notes_is_gone_on_with(tmp_path: Path) -> None:
    plan, path = plan_of(read_network(TRIANGLE), [INTACT], routings=("hops", "ecmp", "k-paths")), tmp_path / "s.db"
    of_form_1(path, plan)
    for _ in range(2):
        store = Store(str(path), create=False)
        found = {case.scenario.routing: (case.found.lower, case.note) for case in answers.cases(plan, store)}
        assert found == {"hops": ("1/2", None), "ecmp": ("1/2", answers.NOT_KEPT), "k-paths": ("1/2", answers.NOT_KEPT)}
        assert not store.left(list(plan), Wanted(True, True))
        store.close()
    one = list(plan)[1]
    store = Store(str(path))
    store.add([(one, Row(one.key, Found("feasible", "line", "1/3", "", CERT, "rounded"), None, (), (), 0.1, "", ""), False)], "net", Asked())
    assert [case.note for case in answers.cases(plan, store)] == [None, "rounded", answers.NOT_KEPT]
    store.close()


def only_read(room: Path, *words: str | Path) -> tuple[int, str, str]:
    """The end of `study show` of a user who may write neither the files of a room nor the room."""
    for file in room.iterdir():
        file.chmod(0o444)
    room.chmod(0o555)
    try:
        done = subprocess.run([STUDY, "show", *words], cwd="/", capture_output=True, text=True, check=False,
                              **({"user": "nobody", "group": "nogroup", "extra_groups": []} if os.geteuid() == 0 else {}))
    finally:
        room.chmod(0o755)
    return done.returncode, done.stdout, done.stderr


@pytest.fixture
def open_room() -> Iterator[Path]:
    """A folder that everybody may read."""
    with tempfile.TemporaryDirectory() as room:
        Path(room).chmod(0o755)
        yield Path(room)


@pytest.mark.parametrize("what", ["done", "at work", "empty log", "form 1"])
def test_a_store_that_may_only_be_read_is_shown(root: Path, open_room: Path, what: str) -> None:
    text, path = (root / "examples/triangle.cert").read_text("ascii"), open_room / "s.db"
    net = read_network(TRIANGLE)
    matrix, rows_of_it = own(net)
    plan = Plan(Ground.of(net), [matrix], [INTACT], ("best",), Asked())
    one = next(iter(plan))
    if what == "form 1":
        of_form_1(path, plan)
        with closing(sqlite3.connect(path)) as base:
            base.execute("UPDATE rows SET certificate = ?, network = ?, matrix = ?", (zlib.compress(text.encode()), plan.ground.digest, matrix.digest))
            for digest, kept in ((plan.ground.digest, plan.ground.text), (matrix.digest, rows_of_it)):
                base.execute("INSERT INTO texts VALUES (?, ?)", (digest, zlib.compress(kept.encode())))
            base.commit()
    else:
        store = Store(str(path))
        store.keep_texts([(plan.ground.digest, plan.ground.text), (matrix.digest, rows_of_it)])
        found = Found("closed", "line", "1/2", "2/3", zlib.compress(text.encode()))
        store.add([(one, Row(one.key, found, None, (), (), 0.1, "here", "1"), False)], plan.ground.digest, plan.asked)
    if what in ("done", "empty log"):
        store.close()
    if what == "empty log":
        (open_room / "s.db-wal").touch()
    before = {file.name: file.read_bytes() for file in open_room.iterdir()}
    assert only_read(open_room, one.key[:9], "--store", path) == (0, text, "")
    assert {file.name: file.read_bytes() for file in open_room.iterdir()} == before or what == "at work"
    assert only_read(open_room, "none", "--store", path) == (2, "", f"study: {path}: no key begins with 'none'\n")
    if what == "at work":
        store.close()


@pytest.mark.parametrize("mode", ["undirected", "directed"])
def test_the_network_of_a_certificate_says_how_its_links_are_read(root: Path, mode: str) -> None:
    text = (root / "examples/triangle.cert").read_bytes().replace(b"links undirected", b"links " + mode.encode())
    made = Shown("key", "line", text, read_network(TRIANGLE)).network
    assert link_mode("a.net", made).mode == mode and (b"# links = directed\n" in made) == (mode == "directed")


def test_a_log_that_cannot_be_read_is_one_line(open_room: Path) -> None:
    Store(str(open_room / "s.db")).close()
    (open_room / "s.db-wal").write_bytes(b"x" * 40)
    status, out, said = only_read(open_room, "none", "--store", open_room / "s.db")
    assert (status, out) == (2, "") and said.startswith(f"study: {open_room}/s.db: cannot be opened: its folder ") and said.count("\n") == 1


def test_a_store_is_never_between_two_forms(tmp_path: Path) -> None:
    path = tmp_path / "s.db"
    of_form_1(path, plan_of(read_network(TRIANGLE), [INTACT]))
    with sqlite3.connect(path) as base:
        # (so that the second column cannot be added)
        base.execute("ALTER TABLE rows ADD COLUMN rest_note TEXT")
    base.close()
    with pytest.raises(TextError, match="s.db: duplicate column name: rest_note"):
        Store(str(path))
    with sqlite3.connect(path) as base:
        assert base.execute("PRAGMA user_version").fetchone()[0] == 1 and "note" not in [row[1] for row in base.execute("PRAGMA table_info(rows)")]
    base.close()


def test_a_full_disk_ends_it_in_one_line_and_the_same_command_goes_on(tmp_path: Path, program: Program) -> None:
    small = tmp_path / "small"
    small.mkdir()
    if subprocess.run(["mount", "-t", "tmpfs", "-o", "size=120k", "tmpfs", small], capture_output=True, check=False).returncode:
        pytest.skip("a small disk wants root")
    try:
        words = (EXAMPLES / "polska.net", "--failures", "links", "--keep", "--phases", "20", "--store", small / "study.db")
        out, why = ran(tmp_path, *words, program=program, status=2)
        assert (out, why) == ("", f"study: {small}/study.db: the disk is full\n")
        done = len(table_of(small))
        subprocess.run(["mount", "-o", "remount,size=20m", small], check=True)
        found = rows(tmp_path, *words, program=program)
        assert len(found) == 18 == len(table_of(small)) and 0 < done < 18
    finally:
        # (lazily, since a connection to the database may be there still)
        subprocess.run(["umount", "--lazy", small], check=True)


def test_a_worker_never_runs_the_study_of_its_parent(tmp_path: Path) -> None:
    script = tmp_path / "parent.py"
    script.write_text(f"import multiprocessing, runpy, sys\nsys.argv = ['study', '/no/net']\nif __name__ == '__main__':\n"
                      f"    worker = multiprocessing.get_context('spawn').Process(target=print, args=('begun',))\n"
                      f"    worker.start()\n    worker.join()\n    print(worker.exitcode)\nelse:\n    runpy.run_path({str(STUDY)!r})\n")
    done = subprocess.run(["/usr/bin/python3", script], cwd=tmp_path, capture_output=True, text=True, check=False)
    assert (done.stdout, done.stderr) == ("2\n", "")


def test_an_interrupt_ends_it_in_one_line_and_the_same_command_goes_on(tmp_path: Path, program: Program) -> None:
    words = [STUDY, EXAMPLES / "polska.net", "--failures", "pairs", "--jobs", "1", "--gap", "0.2", "--mcf", program.path, "--csv", "p.csv"]
    child = subprocess.Popen(words, cwd=tmp_path, stdout=subprocess.PIPE, stderr=subprocess.PIPE, text=True)
    while not (tmp_path / "study.db").exists() or not _count(tmp_path):
        assert child.poll() is None
        time.sleep(0.02)
    child.send_signal(signal.SIGINT)
    out, why = child.communicate()
    assert (child.returncode, out, why) == (130, "", "study: interrupted\n") and not (tmp_path / "p.csv").exists()
    done = _count(tmp_path)
    assert 0 < done < 153
    assert len(rows(tmp_path, EXAMPLES / "polska.net", "--failures", "pairs", "--gap", "0.2", program=program)) == 153 == _count(tmp_path)


def _count(room: Path) -> int:
    """How many rows a store has, also while it is made."""
    try:
        return len(table_of(room))
    except sqlite3.OperationalError:
        return 0


# -- matrices


@pytest.mark.parametrize("mode", ["w", "w:gz"])
def test_an_archive_that_is_cut_short_is_refused(tmp_path: Path, program: Program, mode: str) -> None:
    net, file = net_file(tmp_path), tmp_path / "day.tar"
    with tarfile.open(file, mode) as packed:
        for at in range(3):
            data = f"m{at} (\n  D ( A B ) 1 4 UNLIMITED\n)\n".encode()
            info = tarfile.TarInfo(f"m{at}.list")
            info.size = len(data)
            packed.addfile(info, io.BytesIO(data))
    whole = file.read_bytes()
    # (behind the first and the second of three members of two blocks each, amid the third one, and before the mark of the end)
    for length in (1024, 2048, 2600, 3072) if mode == "w" else (len(whole) // 2, len(whole) - 40):
        file.write_bytes(whole[:length])
        why = ran(tmp_path, net, "--matrices", "day.tar", program=program, status=2)[1]
        assert why.startswith("study: day.tar: ") and why.count("\n") == 1
    file.write_bytes(whole)
    assert [matrix.name for matrix in _matrices_of(file)] == ["m0", "m1", "m2"]


def _matrices_of(path: Path) -> list[Matrix]:
    """The matrices of a file, for the triangle."""
    return read_matrices([str(path)], TRIANGLE.encode(), How(), lambda *_: None, Told())


def dynamic(time_of: str, amount: str) -> bytes:
    """A file of SNDlib's dynamic matrices."""
    return f"""<?xml version="1.0" encoding="ISO-8859-1"?>
<network xmlns="http://sndlib.zib.de/network" version="1.0"><meta><granularity>5min</granularity><time>{time_of}</time></meta>
<demands><demand id="A_B"><source>A</source><target>B</target><demandValue>{amount}</demandValue></demand></demands></network>""".encode()


def test_matrices_of_an_archive_a_folder_and_files_are_in_the_order_of_their_times(tmp_path: Path, program: Program) -> None:
    files = {"m-20040301-0010.xml": dynamic("20040301-0010", "4"), "m-20040301-0000.xml": dynamic("20040301-0000", "8"),
             "m-20040301-0005.xml": dynamic("20040301-0005", "2")}
    (tmp_path / "day").mkdir()
    (tmp_path / "day/readme").write_text("what this is")
    with tarfile.open(tmp_path / "day.tgz", "w:gz") as packed:
        for name, data in files.items():
            (tmp_path / "day" / f"{name}.gz").write_bytes(gzip.compress(data))
            info = tarfile.TarInfo(f"day/{name}")
            info.size = len(data)
            packed.addfile(info, io.BytesIO(data))
    net = net_file(tmp_path)
    found = rows(tmp_path, net, "--matrices", "day.tgz", program=program)
    assert [row["time"] for row in found] == ["20040301000000", "20040301000500", "20040301001000"]
    for row, amount in zip(found, (8, 2, 4)):
        assert Fraction(row["lower"]) <= Fraction(16, amount) <= Fraction(row["upper"])
    text, why = ran(tmp_path, net, "--matrices", "day", "--csv", "-", program=program)
    assert timeless(table(text)) == timeless(found) and "left out: day/readme" in why
    assert timeless(rows(tmp_path, net, "--matrices", *(f"day/{name}.gz" for name in sorted(files, reverse=True)), program=program)) == timeless(found)


def test_what_is_hidden_in_a_folder_is_no_matrix(tmp_path: Path) -> None:
    """Notebooks keep copies in hidden folders."""
    for name in ("a.csv", ".b.csv", ".ipynb_checkpoints/a-checkpoint.csv", "more/c.csv"):
        file = tmp_path / ".top" / name
        file.parent.mkdir(parents=True, exist_ok=True)
        file.write_text("source,target,amount\nA,B,4\n")
    shutil.make_archive(str(tmp_path / "day"), "zip", tmp_path / ".top")
    shutil.make_archive(str(tmp_path / "day"), "gztar", tmp_path / ".top")
    for source in (".top", "day.zip", "day.tar.gz"):
        assert sorted(matrix.name for matrix in _matrices_of(tmp_path / source)) == ["a", "c"]


def test_links_of_an_archive_are_read_or_refused(tmp_path: Path) -> None:
    """tar writes the second name of a file as a link."""
    (tmp_path / "day").mkdir()
    (tmp_path / "day/a.csv").write_text("source,target,amount\nA,B,4\n")
    (tmp_path / "day/b.csv").hardlink_to(tmp_path / "day/a.csv")
    (tmp_path / "day/c.csv").symlink_to("b.csv")
    (tmp_path / "day/d").symlink_to(".")
    for kind in ("", ":gz"):
        with tarfile.open(tmp_path / "day.tar", f"w{kind}") as packed:
            packed.add(tmp_path / "day", "day")
        assert [matrix.name for matrix in _matrices_of(tmp_path / "day.tar")] == ["a", "b", "c"]
    (tmp_path / "day/e.csv").symlink_to("nowhere")
    with tarfile.open(tmp_path / "day.tar", "w") as packed:
        packed.add(tmp_path / "day", "day")
    with pytest.raises(TextError, match="day.tar: day/e.csv is a link to what is not in the archive"):
        _matrices_of(tmp_path / "day.tar")


def test_lists_and_tables_are_read_as_batch_and_convert_read_them(tmp_path: Path, program: Program) -> None:
    net = net_file(tmp_path)
    (tmp_path / "day.list").write_text("late (\n  D ( A B ) 1 4 UNLIMITED\n)\nearly (\n  D ( A B ) 1 8 UNLIMITED\n)\n")
    (tmp_path / "day.csv").write_text("time,source,target,amount\nlate,A,B,4\nearly,A,B,8\n")
    listed, tabled = (rows(tmp_path, net, "--matrices", file, program=program) for file in ("day.list", "day.csv"))
    assert [row["matrix"] for row in listed] == ["late", "early"] == [row["matrix"] for row in tabled]
    assert [row["lower"] for row in listed] == [row["lower"] for row in tabled]


@pytest.mark.parametrize("text, said", [
    ("one (\n  D ( A X ) 1 4 UNLIMITED\n)\n", "m.list line 2: demand 'D': 'X' is no node"),
    ("one (\n  D ( A B ) 1 4 UNLIMITED\n)\none (\n)\n", "m.list line 4: matrix 'one' stands twice"),
    ("one (\n  D ( A B ) 1 0.1234567 UNLIMITED\n)\n", "m.list: demand D of 0.1234567 has more than 6 decimals (--round N rounds all amounts)"),
    ("", "m.list: has no demands")])
def test_a_matrix_that_cannot_be_is_refused_by_its_line(tmp_path: Path, program: Program, text: str, said: str) -> None:
    (tmp_path / "m.list").write_text(text)
    assert said in ran(tmp_path, net_file(tmp_path), "--matrices", "m.list", program=program, status=2)[1]


def test_options_of_the_converter_are_called_so(tmp_path: Path) -> None:
    """A study has no --decimal-comma, and a notebook neither."""
    (tmp_path / "m.csv").write_text("source;target;amount\nA;B;1,5\n")
    (tmp_path / "l.csv").write_text("source;target;capacity\nA;B;1,5\n")
    with pytest.raises(TextError, match="m.csv line 2: amount: '1,5' .* .tools/convert --decimal-comma reads 1,5 as 1.5.$"):
        _matrices_of(tmp_path / "m.csv")
    with pytest.raises(mcf.Refused, match=".tools/convert --decimal-comma reads 1,5 as 1.5.$"):
        mcf.read(tmp_path / "l.csv")


def test_a_matrix_that_stands_in_two_files_is_refused(tmp_path: Path, program: Program) -> None:
    for name in ("a.list", "b.list"):
        (tmp_path / name).write_text("one (\n  D ( A B ) 1 4 UNLIMITED\n)\n")
    assert ran(tmp_path, net_file(tmp_path), "--matrices", "a.list", "b.list", program=program, status=2)[1] == "study: matrix one stands in a.list and in b.list\n"


def test_longest_paths_that_no_routing_keeps_to_are_said(tmp_path: Path, program: Program, monkeypatch: pytest.MonkeyPatch,
                                                         capsys: pytest.CaptureFixture[str]) -> None:
    net = net_file(tmp_path, TRIANGLE.replace("8 UNLIMITED", "8 1"))
    (tmp_path / "m.list").write_text("one (\n  D ( A B ) 1 4 2\n  E ( A C ) 1 4 2\n)\ntwo (\n  D ( A B ) 1 4 2\n)\n")
    said = "longest: {} a longest path, which no routing of a study keeps to"
    assert ran(tmp_path, net, program=program, status=0)[1] == f"study: {said.format('1 demand has')}\n"
    why = ran(tmp_path, net, "--matrices", "m.list", program=program, status=0)[1]
    assert why == f"study: {said.format('matrix one: 2 demands have')} (and 1 more)\n"
    monkeypatch.setenv("MCF", program.path)
    mcf.study(net, jobs=1, progress=False)
    assert capsys.readouterr().err == f"study: {said.format('1 demand has')}\n"


def test_amounts_are_rounded_where_that_is_asked_for(tmp_path: Path, program: Program) -> None:
    (tmp_path / "m.list").write_text("one (\n  D ( A B ) 1 0.1234567 UNLIMITED\n)\n")
    text, why = ran(tmp_path, net_file(tmp_path), "--matrices", "m.list", "--round", "2", "--csv", "-", program=program)
    row = table(text)[0]
    assert "rounded: matrix one: demand D: 0.1234567 to 0.12" in why and Fraction(row["lower"]) <= Fraction(1600, 12) <= Fraction(row["upper"])


def test_times_are_seen_in_names() -> None:
    assert _stamp("demandMatrix-abilene-zhang-5min-20040301-0005") == "20040301000500" and _stamp("2004-03-01T23:55:10") == "20040301235510"
    assert _stamp("99999999-0000") == "" == _stamp("m12") and sorted(["m10", "m9"], key=in_numbers) == ["m9", "m10"]


# -- what is said


def case_of(found: Found, name: str, rest: Found | None = None, routing: str = "best") -> answers.Case:
    """A case of the triangle with one link closed."""
    scenario = next(iter(plan_of(read_network(TRIANGLE), [Change("link", name, (name,))], routings=(routing,))))
    return answers.Case(scenario, Fraction(1), Row(scenario.key, found, rest, (), (), 0.0, "", ""))


def summed(cases: list[answers.Case], routing: str = "best") -> answers.Part:
    """What was found of cases."""
    sums = answers._Sum(routing, "1")
    sums.take(cases)
    return sums.part()


HALF, MOST, LOST, OUT = Found("closed", "", "1/2", "1/2"), Found("closed", "", "3/4", "4/5"), Found("failed", "died"), Found("refused", "N1")


@pytest.mark.parametrize("found, said, status", [
    ([HALF, MOST, LOST], "Not all demands fit in 2 of 3 scenarios; 1 has no answer, and the same command tries again. "
                         "Of the 2 that have an answer the worst is link L0: 50.0 % to 50.0 % of every demand.", 2),
    ([HALF, HALF, OUT], "Not all demands fit in 2 of 3 scenarios; 1 was refused. "
                        "Of the 2 that have an answer the worst are link L0 and link L1, which are equally bad: 50.0 % to 50.0 % of every demand.", 1),
    ([OUT, HALF, OUT], "Not all demands fit in 1 of 3 scenarios; 2 were refused. The one that has an answer is link L1: 50.0 % to 50.0 % of every demand.", 1),
    ([OUT, OUT], "Nothing is known of 2 scenarios; 2 were refused.", 2),
    ([LOST], "Nothing is known of 1 scenario; 1 has no answer, and the same command tries again.", 2),
    ([HALF, MOST], "Not all demands fit in 2 of 2 scenarios. The worst is link L0: 50.0 % to 50.0 % of every demand.", 1),
    ([HALF], "Not all demands fit in 1 of 1 scenario: 50.0 % to 50.0 % of every demand.", 1)])
def test_the_worst_is_one_of_those_that_have_an_answer(found: list[Found], said: str, status: int) -> None:
    part = summed([case_of(one, f"L{at}") for at, one in enumerate(found)])
    plan = plan_of(read_network(TRIANGLE), [INTACT])
    assert sentences(plan, [part]) == [said] and answers.status_of([part]) == status


def test_of_a_rule_the_least_is_of_those_that_have_an_answer() -> None:
    carried = Found("feasible", "", "1/2", note="")
    part = summed([case_of(carried, "L0", routing="ecmp"), case_of(LOST, "L1", routing="ecmp")], "ecmp")
    assert sentences(plan_of(read_network(TRIANGLE), [INTACT], routings=("ecmp",)), [part]) == [
        "It is shown to carry all demands in 0 of 2 scenarios; 1 has no answer, and the same command tries again. "
        "Of the 1 that has an answer the least that it is shown to carry is 50.0 % of every demand: link L0."]


def test_demands_of_lost_nodes_are_said_to_be_left_out(tmp_path: Path, program: Program) -> None:
    out, _ = ran(tmp_path, net_file(tmp_path), "--failures", "nodes", program=program, status=1)
    assert "1 was refused. In 3 the demands of lost nodes are left out. Of the 2 that have an answer " in out


def test_a_network_without_demands_has_no_answer(tmp_path: Path, program: Program) -> None:
    out, _ = ran(tmp_path, net_file(tmp_path, TRIANGLE.partition("DEMANDS")[0] + "DEMANDS (\n)\n"), program=program, status=2)
    assert out == "Nothing is known of 1 scenario; 1 was refused.\n"


def test_a_rule_that_has_no_routing_is_a_row_with_its_reason(tmp_path: Path, program: Program) -> None:
    net = net_file(tmp_path, TRIANGLE.replace("10 0 0 0", "10 0 n/a 0"))
    found = rows(tmp_path, net, "--routing", "hops,cost", program=program, status=1)
    assert [row["verdict"] for row in found] == ["feasible", "refused"]
    assert found[1]["refusal"] == "there is no routing by cost: a routing cost of the file: 'n/a' is no number"


def test_a_page_of_rules_shows_no_bound(tmp_path: Path, program: Program) -> None:
    (tmp_path / "day.list").write_text("m1 (\n  D ( A B ) 1 4 UNLIMITED\n)\nm2 (\n  D ( A B ) 1 8 UNLIMITED\n)\n")
    words = (net_file(tmp_path), "--matrices", "day.list", "--routing", "ecmp", "--html", "p.html")
    ran(tmp_path, *words, program=program, status=0)
    page = (tmp_path / "p.html").read_text()
    assert page.count("<svg") == 3 and "no routing carries more" not in page and "#b2182b" not in page.partition("</style>")[2]
    for said in ("Over time, if the matrices stand in its order", "as is shown; more may be",
                 "The scenario of which the least is shown to be carried: the network as it is with matrix m2"):
        assert said in page


@pytest.mark.parametrize("words, said", [
    (["--failures", "links,links"], "'links,links' is no list of different words"), (["--failures", "arcs"], "--failures: 'arcs' is none of links, nodes, pairs"),
    (["--routing", "worst"], "--routing: 'worst' is none of best, exact, ecmp"), (["--grow", "0"], "--grow is more than 0"),
    (["--grow", "x"], "'x' is no number"), (["--grow", "1,1.0"], "--grow: 1,1.0 has a number twice"),
    (["--store", "-"], "--store is a file, and - is none"), (["--csv", "study.db"], "study.db: is written twice"),
    (["--html", "study.db-wal"], "study.db-wal: is written twice"), (["--csv", "one", "--html", "./one"], "./one: is written twice"),
    (["--csv", "-", "--html", "/dev/stdout"], "/dev/stdout: is written twice"), (["--gap", "0.0000001"], "--gap: 0.0000001 is no whole number of millionths"),
    (["--phases", "0"], "--phases is from 1 to 65536"), (["--jobs", "0"], "--jobs is at least 1"),
    (["--jobs", "2", "--scheduler", "tcp://x:1"], "--jobs is for this machine")])
def test_words_that_cannot_be_are_refused_before_anything_is_done(tmp_path: Path, program: Program, words: list[str], said: str) -> None:
    _, why = ran(tmp_path, net_file(tmp_path), *words, program=program, status=2, jobs=None)
    assert said in why and why.count("\n") == 1 and not (tmp_path / "study.db").exists()


def test_the_page_has_both_bands_the_map_and_the_table(tmp_path: Path, program: Program) -> None:
    (tmp_path / "day.list").write_text("m1 (\n  D ( A B ) 1 4 UNLIMITED\n)\nm2 (\n  D ( A B ) 1 8 UNLIMITED\n)\n")
    ran(tmp_path, net_file(tmp_path), "--matrices", "day.list", "--failures", "links", "--html", "p.html", "--title", "A <study>", program=program, status=1)
    page = (tmp_path / "p.html").read_text()
    for said in ("A &lt;study&gt;", "Over time", "Scenarios in the order of what they carry", "The worst scenario: link AB with matrix m2", "mcf check: valid"):
        assert said in page
    assert page.count("<svg") == 3


def test_over_time_leaves_out_what_cuts_some_demand_off(tmp_path: Path, program: Program) -> None:
    """A bridge carries nothing of every demand where it fails, whatever the matrix: the band over time is that of the other links."""
    bridge = TRIANGLE.replace("  C\n)", "  C\n  D\n)").replace("LINKS (\n", "LINKS (\n  CD ( C D ) 9 0 0 0 ( )\n")
    (tmp_path / "day.list").write_text("m1 (\n  E ( A D ) 1 4 UNLIMITED\n)\nm2 (\n  E ( A D ) 1 8 UNLIMITED\n)\n")
    ran(tmp_path, net_file(tmp_path, bridge), "--matrices", "day.list", "--failures", "links", "--html", "p.html", program=program, status=1)
    assert "that have an answer, without the 2 scenarios that leave some demand without a way. Blue" in (tmp_path / "p.html").read_text()


def test_labels_below_a_band_do_not_overlap() -> None:
    times = [f"2026-12-01_{at // 12:02d}:{at % 12 * 5:02d}:00" for at in range(288)]
    marks = band([Range(Fraction(1), Fraction(1))] * 288, times, "a day").places
    ends = [mark.at + (0 if at == 0 else -160 if at == len(marks) - 1 else -80) for at, mark in enumerate(marks)]
    assert len(marks) == 4 and all(left + 152 < right for left, right in zip(ends, ends[1:]))


def test_a_band_of_many_is_drawn_as_few() -> None:
    many = [Range(Fraction(at, 100), Fraction(at + 5, 100)) for at in range(5000)]
    found = band(many, [str(at) for at in range(5000)], "many")
    assert found.together == 3 and found.lower.count("L") == 1666 and [mark.label for mark in found.places] == ["0", "1250", "2500", "3750", "4999"]


def test_the_worst_of_parts_is_the_worst_of_all() -> None:
    net = read_network(TRIANGLE)
    scenario = next(iter(plan_of(net, [INTACT])))
    ends = [(5, 9), (3, 8), (4, 4), (2, 6), (1, 5), (7, 9)]
    cases = [answers.Case(scenario, Fraction(1), Row("", Found("open", "", str(low), str(high)), None, (), (), 0.0, "", "")) for low, high in ends]
    sums = answers._Sum("best", "1")
    for at in range(0, 6, 2):
        sums.take(cases[at:at + 2])
    part = sums.part()
    assert part.worst is not None and [case.range.lower for case in part.worst.cases] == [3, 4, 2, 1] and part.worst.of == 6
    assert part.counts == {Answer.YES: 6, Answer.NO: 0, Answer.OPEN: 0}


def test_tasks_are_of_half_a_second_and_small_near_the_end() -> None:
    pace = Pace()
    assert pace.jobs(4, 1000) == 1
    pace.took(10, 0.1)
    assert pace.jobs(4, 1000) == 50 and pace.jobs(4, 40) == 5 and pace.jobs(4, 1) == 1


# -- in a notebook


def test_a_study_of_a_notebook_is_a_frame(program: Program, tmp_path: Path, monkeypatch: pytest.MonkeyPatch) -> None:
    monkeypatch.setenv("MCF", program.path)
    found = mcf.study(net_file(tmp_path), {"low": {("A", "B"): 4}, "high": {("A", "B"): "8.5"}}, failures="links", groups={"both": ["AB", "C"]},
                      changes={"wide": {"AB": 20}}, grow=[1, "1.5"], jobs=1, progress=False, exact=True)
    assert len(found) == 2 * 5 * 2 and set(found["kind"]) == {"link", "group", "change"}
    wide = found[(found["change"] == "wide") & (found["matrix"] == "high")]
    first, second = wide["lower"]
    assert first <= Fraction(260, 85) <= wide.iloc[0]["upper"] and second == first / Fraction(3, 2)
    both = found[(found["change"] == "both")].iloc[0]
    assert both["links"] == "AB AC BC" and both["without_way"] == "A-B" and both["left_out"] == ""
    for words, said in (({"failures": "arcs"}, "failures: 'arcs' is none of"), ({"groups": {"g": ["X"]}}, "group 'g': 'X' is no link and no node"),
                        ({"grow": [0]}, "grow: 0 leaves no demands"), ({"routing": []}, "routing: None is none of")):
        with pytest.raises(ValueError, match=said):
            mcf.study(net_file(tmp_path), jobs=1, progress=False, **words)  # type: ignore[arg-type]


def test_a_notebook_has_the_options_of_the_command(program: Program, tmp_path: Path, monkeypatch: pytest.MonkeyPatch,
                                                   capsys: pytest.CaptureFixture[str]) -> None:
    monkeypatch.setenv("MCF", program.path)
    (tmp_path / "m.list").write_text("one (\n  D ( A B ) 1 0.1234567 UNLIMITED\n)\n")
    mcf.study(net_file(tmp_path), routing="hops", paths=2, jobs=1, progress=False)
    assert capsys.readouterr().err == "study: paths means nothing for the routing hops\n"
    frame = mcf.study(net_file(tmp_path), [tmp_path / "m.list"], round=2, routing="k-paths", lengths="capacity", paths=1, grow=[1, "1.0"], jobs=1,
                      progress=False, exact=True)
    assert len(frame) == 1 and frame["lower"][0] == Fraction(1000, 12)
    for words, said in (({"paths": 0}, "paths: 0 is not from 1 to 1000"), ({"lengths": "miles"}, "lengths: 'miles' is none of hops"),
                        ({"cost": "x"}, "cost: 'x' is none of routing"), ({"modules": "all"}, "modules: 'all' is none of"),
                        ({"matrices": {1: {("A", "B"): 1}, "1": {("A", "B"): 2}}}, "matrix '1': another one has that name too"),
                        ({"groups": {1: ["AB"], "1": ["AC"]}}, "group '1': another one has that name too"),
                        ({"changes": {1: {"AB": 1}, 1.0: {"AB": 1}, "1": {"AB": 2}}}, "change '1': another one has that name too"),
                        ({"matrices": {"m": {("A", "X"): 1}}}, "matrix 'm': demand 'A-X': 'X' is no node"),
                        ({"jobs": 0}, "jobs: 0 is less than 1"), ({"seconds": float("nan")}, "seconds: nan is no number"),
                        ({"round": 7}, "round: 7 is not from 0 to 6"), ({"jobs": 2, "scheduler": "tcp://x:1"}, "a scheduler has its own workers"),
                        ({"links": "both"}, "links: 'both' is none of"), ({"matrices": [tmp_path / "m.list"], "from_unit": "mile"}, "'mile' is none of")):
        with pytest.raises(ValueError, match=said):
            mcf.study(net_file(tmp_path), **{"jobs": 1, "progress": False, **words})  # type: ignore[arg-type]
    for path in (tmp_path / "m.list", str(tmp_path / "m.list")):
        assert len(mcf.study(net_file(tmp_path), path, round=2, jobs=1, progress=False)) == 1


def test_the_text_of_a_network_is_that_of_the_core() -> None:
    assert write_network(changed(read_network(TRIANGLE), INTACT).network) == TRIANGLE
