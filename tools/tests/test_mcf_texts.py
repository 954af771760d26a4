"""The package mcf: rows, numbers, cells, certificates and routings, and the values of both."""

from __future__ import annotations

from fractions import Fraction
from pathlib import Path

import pytest

from mcf import (Demand, Layer, Link, Module, Node, Program, TextError, cells_of_path, decimal_of, excess, find_program, fraction_of,
                 judge_of, load_text, loads, lower, millionths_of, nodes_of_walk, read_any, read_certificate, read_hops, read_network,
                 read_routing, read_throughput, rounded_down, rounded_up, routed, scale, shares_of_bound, true_gap, upper, utilisation,
                 volume, weighted_distance, whole_of, write_certificate, write_network, write_routing)
from mcf.certificate import HopCertificate, TotalCertificate
from mcf.network import Network
from mcf.graph import graph_of

HEAD = "?SNDlib native format; type: network; version: 1.0\n"
ROWS = ("NODES (\n  A ( 1.5 -2 )\n  B ( )\n  \xe9\x85\xa0C\n)\nLINKS (\n  L1 ( A B ) 1.0E1 0.00 x y ( .5 7 3 k )\n  L2 ( B A ) 5. 0 0 0 ( )\n)\n"
        "DEMANDS (\n  D1 ( A B ) 2 1.25 UNLIMITED\n  D2 ( A A ) 1 .000001 3\n  D3 ( B \xe9\x85\xa0C ) 1 0 UNLIMITED\n)\n")

BIDIRECTED = """mcf-certificate 2
verdict closed
links bidirected
modules largest
net nodes 2 cells 2 commodities 2 decimals 0 skipped 0 left 0 hops 0
gap 0.050000
phases 1
scale 10 5
lower 10/5 2.000000
upper 90071992547409920/45035996273704960 2.000000
path D1 5 +L1
path D2 5 -L1
length +L1 4503599627370496
length -L1 4503599627370496
potential A 0 4503599627370496
potential B 4503599627370496 0
end
"""


def two_nodes(*demands: Demand) -> Network:
    """A and B, a link of 10 between them, and demands."""
    return Network((Node("A"), Node("B")), (Link("L1", "A", "B", "10"),), demands)


def test_canonical_text_is_kept_to_the_byte() -> None:
    network = read_network(HEAD + ROWS)
    assert write_network(network) == HEAD + ROWS
    assert [node.place for node in network.nodes] == [("1.5", "-2"), (), None]
    assert network.nodes[0].position == (1.5, -2.0)
    assert network.nodes[1].position is None
    assert network.nodes[2].id == "\xe9\x85\xa0C"
    assert network.links[0] == Link("L1", "A", "B", "1.0E1", "0.00", "x", "y", (Module(".5", "7"), Module("3", "k")))
    assert network.demands[1] == Demand("D2", "A", "A", "1", ".000001", "3")


def test_print_of_the_program_is_kept_to_the_byte(program: Program, root: Path) -> None:
    files = sorted(root.glob("examples/*.net"))
    assert len(files) >= 8
    for file in files:
        assert write_network(program.network(file)) == program.ask("print", str(file))


@pytest.mark.parametrize("cut", ["NODES (\n  A\n", "NODES (\n)\nLINKS (\n  L ( A B ) 1 0 0 ( )\n)\nDEMANDS (\n)\n",
                                 "NODES (\n A\n)\nLINKS (\n)\nDEMANDS (\n)\n", ROWS + "more\n", ROWS[:-1],
                                 "NODES (\n)\nLINKS (\n  L ( A B ) 1 0 0 0 ( 1 )\n)\nDEMANDS (\n)\n",
                                 "NODES (\n)\nLINKS (\n)\nDEMANDS (\n  D ( A B ) 1 1\n)\n"])
def test_text_that_is_not_canonical_is_refused(cut: str) -> None:
    with pytest.raises(TextError):
        read_network(HEAD + cut)


@pytest.mark.parametrize("word,value", [("1000.00", Fraction(1000)), (".5", Fraction(1, 2)), ("5.", Fraction(5)),
                                        ("1.0E3", Fraction(1000)), ("2e-3", Fraction(1, 500)), ("0", Fraction(0))])
def test_numbers_of_networks(word: str, value: Fraction) -> None:
    assert fraction_of(word) == value


@pytest.mark.parametrize("word", [".", "-1", "+1", "1E", "1E100", "1,5", "0x1", "", "1_0", "\u0661", "1 ", "1/2", "inf"])
def test_words_that_are_no_numbers(word: str) -> None:
    with pytest.raises(TextError):
        fraction_of(word)


def test_numbers_of_certificates() -> None:
    assert whole_of("120") == 120 and millionths_of("12.000345") == 12_000_345
    for word in ("01", "", "-1", "+1", "1" * 40, "1_0", "\xb2"):
        with pytest.raises(TextError):
            whole_of(word)
    for word in ("1.5", "01.000000", "1.0000000", ".500000", "1"):
        with pytest.raises(TextError):
            millionths_of(word)
    assert decimal_of(12_000_345) == "12.000345"
    assert (rounded_down(2, 3), rounded_up(2, 3), rounded_up(1, 1)) == (666_666, 666_667, 1_000_000)


def test_units_are_the_greatest_that_serve_for_all() -> None:
    network = read_network(HEAD + ROWS)
    largest = scale(network)
    assert [cell.capacity for cell in largest.cells] == [130, 50]
    assert [commodity.amount for commodity in largest.commodities] == [25]
    assert largest.decimals == 1, "the demand of a millionth from A to itself has no part in it"
    assert [cell.capacity for cell in scale(network, modules="none").cells] == [100, 50]
    assert [cell.capacity for cell in scale(network, modules="sum").cells] == [135, 50]
    counts = largest.counts(4)
    assert (counts.nodes, counts.cells, counts.commodities, counts.skipped, counts.left, counts.hops) == (3, 2, 1, 4, 2, 1)
    assert largest.in_file_unit(25) == Fraction(5, 2)


def test_too_fine_and_unknown_options_are_refused() -> None:
    fine = two_nodes(Demand("D", "A", "B", "1", "0.0000001"))
    for words in ((), ("both",), ("directed", "all")):
        with pytest.raises(TextError):
            scale(fine, *words)


def test_cells_by_link_mode() -> None:
    network = two_nodes(Demand("D1", "A", "B", "1", "5"))
    assert [(c.sign, c.tail, c.head, c.both) for c in scale(network, "undirected").cells] == [("=", 0, 1, True)]
    assert [(c.sign, c.tail, c.head, c.both) for c in scale(network, "directed").cells] == [("+", 0, 1, False)]
    both = scale(network, "bidirected")
    assert [(c.sign, c.tail, c.head, c.capacity) for c in both.cells] == [("+", 0, 1, 10), ("-", 1, 0, 10)]
    assert both.words(2) == ("+L1", "-L1") and both.cell_of(2) == {"+L1": 0, "-L1": 1}
    assert scale(network, "undirected").words(1) == ("L1",) and scale(network, "undirected").words(2) == ("=L1",)
    for links, form in (("bidirected", 1), ("directed", 3)):
        with pytest.raises(TextError):
            scale(network, links).words(form)


def test_certificates_are_written_to_the_byte(root: Path) -> None:
    for text in (*(load_text(root / f"examples/{name}.cert") for name in ("polska", "triangle", "one-link", "both-ways")), BIDIRECTED):
        assert write_certificate(read_certificate(text)) == text
    for file in ("triangle.routing", "one-link.routing"):
        text = load_text(root / "examples" / file)
        assert write_routing(read_routing(text)) == text
    form2 = "mcf-routing 2\nlinks bidirected\nmodules sum\nphases 1\nscale 1 1\npath \xe9 1 -L\npath D 0\nend\n"
    assert write_routing(read_any(form2)) == form2


def test_certificate_of_form_2() -> None:
    network = two_nodes(Demand("D1", "A", "B", "1", "5"), Demand("D2", "B", "A", "1", "5"))
    certificate = read_certificate(BIDIRECTED)
    scaled = scale(network, certificate.links, certificate.modules)
    assert loads(scaled, certificate) == [5, 5]
    assert lower(certificate) == upper(scaled, certificate) == 2
    assert (volume(scaled, certificate), weighted_distance(scaled, certificate)) == certificate.upper
    assert shares_of_bound(scaled, certificate) == [Fraction(1, 2)] * 2
    assert utilisation(scaled, certificate) == [1, 1]
    assert scaled.counts(0) == certificate.counts


def test_other_kinds_are_written_to_the_byte(root: Path) -> None:
    limited, total = load_text(root / "examples/detours.hops"), load_text(root / "examples/in-a-row.throughput")
    hops, throughput = read_hops(limited), read_throughput(total)
    assert read_any(limited) == hops and read_any(total) == throughput
    assert write_certificate(hops) == limited and write_certificate(throughput) == total
    assert hops.layers[1] == Layer("A", 1, (0, 1, 1, 0, 1)) and throughput.threshold == 1 and hops.form == throughput.form == 2
    assert [judge_of(text) for text in (limited, total, BIDIRECTED, "mcf-routing 2\n", "")] == ["checkhops", "checkthroughput"] + ["check"] * 3
    assert (hops.judge, throughput.judge, read_any(BIDIRECTED).judge) == ("checkhops", "checkthroughput", "check")


def test_values_of_other_kinds() -> None:
    nodes, links = tuple(map(Node, "ABC")), (Link("AB", "A", "B", "10"), Link("BC", "B", "C", "10"))
    rows = (Demand("AC", "A", "C", "1", "10", "1.9"), Demand("AB", "A", "B", "1", "10", "2"), Demand("BC", "B", "C", "1", "10", "1e9"))
    scaled = scale(Network((*nodes, Node("D")), links, rows))
    assert scaled.limits == (1, 2, None)
    head = ("verdict open\nlinks undirected\nmodules largest\nnet nodes 4 cells 2 commodities 3 decimals 0 skipped 0 left 0 hops 3\n"
            "gap 0.000000\nphases 1\nscale 2 1\nlower 6/1 6.000000\nupper 9/1 9.000000\n")
    total = read_throughput(f"mcf-throughput 1\n{head}threshold 3\npath AB 1 =AB\npath BC 2 =BC\nlength =AB 2\nlength =BC 2\n"
                            "potential A 0 2 4 9\npotential B 2 0 2 9\nend\n")
    assert isinstance(total, TotalCertificate) and lower(total) == 6
    assert (volume(scaled, total), excess(scaled, total), upper(scaled, total)) == (40, 20, 20)
    hops = read_hops(f"mcf-hops 1\n{head}path AB 1 =AB\nlength =AB 2\nlength =BC 2\npotential B 2 0 2 9\n"
                     "layer A 0 1 5 5 5\nlayer A 1 1 3 5 5\nlayer A 2 1 3 5 5\nend\n")
    assert isinstance(hops, HopCertificate) and lower(hops) == 2
    assert weighted_distance(scaled, hops) == 10 * 4 + 10 * 2 + 10 * 2 and upper(scaled, hops) == Fraction(40, 80)
    del hops.layers[1]
    with pytest.raises(TextError, match="no layers of A"):
        upper(scaled, hops)


@pytest.mark.parametrize("old,new", [
    ("mcf-hops 1", "mcf-hops 2"), ("mcf-hops 1", "mcf-throughput 1"), ("mcf-throughput 1", "mcf-throughput 2"),
    ("mcf-throughput 1", "mcf-hops 1"), ("threshold 1", "threshold"), ("threshold 1", "threshold 01"), ("threshold 1\n", ""),
    ("layer A 1 0", "layer A x 0"), ("layer A 1 0", "layer A 1 -1"), ("layer A 0 0 1 1 1 1", "layer A"), ("layer A 0", "potential A"),
    ("\nend\n", "\nlength =AB 1\nend\n"), ("\nend\n", "\n"),
])
def test_damaged_certificates_of_other_kinds_are_told(root: Path, old: str, new: str) -> None:
    texts = [load_text(root / "examples" / name) for name in ("detours.hops", "in-a-row.throughput")]
    for text in texts:
        damaged = text.replace(old, new, 1)
        if damaged == text:
            continue
        try:
            assert write_certificate(read_any(damaged)) == damaged  # type: ignore[arg-type]
            assert new == "potential A", "potentials may stand before layers"
        except TextError as error:
            assert str(error).startswith("line ") and "\n" not in str(error)


@pytest.mark.parametrize("old,new", [
    ("mcf-certificate 2", "mcf-certificate 3"), ("verdict closed", "verdict shut"), ("links bidirected", "links both"),
    ("gap 0.050000", "gap 0.05"), ("phases 1", "phases 01"), ("scale 10 5", "scale 10"), ("lower 10/5", "lower 10"),
    ("skipped 0", "skip 0"), ("path D1 5 +L1", "path D1"), ("path D1 5", "path D1 5.0"), ("length +L1", "length"),
    ("potential A 0", "potential A x"), ("\nend\n", "\n"), ("\nend\n", "\nend"), ("end\n", "end\nend\n"),
    ("length -L1", "path -L1"), ("path D2 5 -L1\n", ""), ("mcf-certificate 2", "mcf-certificate 1"),
])
def test_damaged_certificates_do_not_read_as_before(old: str, new: str) -> None:
    damaged = BIDIRECTED.replace(old, new, 1)
    assert damaged != BIDIRECTED
    try:
        assert write_certificate(read_certificate(damaged)) == damaged
        assert old == "path D2 5 -L1\n", "only a row left out is still a certificate's text"
    except TextError as error:
        assert "\n" not in str(error)


def test_values_are_those_of_the_program(program: Program, root: Path) -> None:
    for name in ("polska", "triangle"):
        certificate = read_certificate(load_text(root / f"examples/{name}.cert"))
        scaled = scale(program.network(root / f"examples/{name}.net"), certificate.links, certificate.modules)
        assert scaled.counts(certificate.counts.skipped) == certificate.counts
        assert lower(certificate) == Fraction(*certificate.lower)
        assert (volume(scaled, certificate), weighted_distance(scaled, certificate)) == certificate.upper
        assert sum(shares_of_bound(scaled, certificate)) == 1
        assert max(filter(None, utilisation(scaled, certificate))) == 1
        for path in certificate.paths:
            ends = scaled.commodities[scaled.commodity_of[path.demand]]
            nodes = nodes_of_walk(scaled, ends.source, cells_of_path(scaled, certificate.form, path))
            assert nodes[-1] == ends.target


def test_routed_is_in_the_unit_of_the_file(program: Program, root: Path) -> None:
    routing = read_routing(load_text(root / "examples/triangle.routing"))
    scaled = scale(program.network(root / "examples/triangle.net"), routing.links, routing.modules)
    assert routed(scaled, routing) == [10, 6, Fraction(2, 3)]
    assert lower(routing) == Fraction(4, 3)


def test_walks_that_do_not_join_are_refused() -> None:
    scaled = scale(two_nodes(Demand("D1", "A", "B", "1", "5")), "directed")
    assert nodes_of_walk(scaled, 0, [0]) == [0, 1]
    with pytest.raises(TextError):
        nodes_of_walk(scaled, 1, [0])


def test_gap_of_two_fractions() -> None:
    assert true_gap(Fraction(1), Fraction(21, 20)) == Fraction(1, 20)
    assert true_gap(Fraction(0), Fraction(0)) == 0 and true_gap(Fraction(0), Fraction(1)) is None


def test_graph_has_an_edge_for_each_cell() -> None:
    network = two_nodes(Demand("D1", "A", "B", "1", "5"))
    one = graph_of(scale(network))
    assert list(one.edges(keys=True, data="capacity")) == [("A", "B", "=L1", 10)] and not one.is_directed()
    two = graph_of(scale(network, "bidirected"))
    assert sorted(two.edges(keys=True)) == [("A", "B", "+L1"), ("B", "A", "-L1")] and two.is_directed()


def test_form_is_that_of_the_program(program: Program, root: Path) -> None:
    for links in ("undirected", "directed", "bidirected"):
        text = program.solve(root / "examples/triangle.net", "--workers", "1", "--links", links)
        assert read_certificate(text).form == program.form == 2


def test_errors_of_the_program_are_one_line(program: Program) -> None:
    with pytest.raises(TextError, match="usage"):
        program.ask("help")
    with pytest.raises(TextError, match="no such program"):
        find_program("/nonexistent/mcf")
