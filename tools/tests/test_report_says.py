"""What `tools/report` says: of each kind of certificate, of many matrices, on maps, of its files and at its ends; recomputed from the texts."""

from __future__ import annotations

import csv
import io
import os
import re
import signal
import stat
import subprocess
import tempfile
import time
from collections.abc import Sequence
from dataclasses import replace
from fractions import Fraction
from html import unescape
from pathlib import Path

import pytest

pytest.importorskip("hypothesis", reason="python3-hypothesis is missing: tools/setup --tests")

from hypothesis import assume, given  # noqa: E402
from hypothesis import strategies as st  # noqa: E402

from mcf import Node, Program, TextError, load_text, read_any, read_network, scale  # noqa: E402
from mcf.network import Network  # noqa: E402
from mcf.matrices import answers, matrices, unit_of, with_demands  # noqa: E402
from mcf.ranges import Range  # noqa: E402
from mcf.report import drawing, layout, page, sentences, shown, tables  # noqa: E402
from mcf.report.figures import Figures  # noqa: E402
from mcf.report.summary import Summary, batch_sentence  # noqa: E402
from mcf.report.work import other_modes  # noqa: E402

ROOT = Path(__file__).resolve().parents[2]
REPORT, EXAMPLES = ROOT / "tools/report", ROOT / "examples"
HEAD = "?SNDlib native format; type: network; version: 1.0\n"
SQUARE = (
    f"{HEAD}NODES (\n  A ( 0 0 )\n  B ( 0 2 )\n  C ( 2 2 )\n  D ( 2 0 )\n)\nLINKS (\n  AB ( A B ) 2 0 0 0 ( )\n  BC ( B C ) 2 0 0 0 ( )\n"
    "  CD ( C D ) 2 0 0 0 ( )\n  DA ( D A ) 2 0 0 0 ( )\n)\nDEMANDS (\n  AC ( A C ) 1 4 2\n  BD ( B D ) 1 3 UNLIMITED\n)\n"
)


def figures(net: str, text: str) -> Figures:
    """The figures of two texts; lines of the network that are empty or comments are left out."""
    found, net = read_any(text), re.sub(r"^(#.*)?\n", "", net, flags=re.MULTILINE)
    return Figures(scale(read_network(net), found.links, found.modules), found)


def page_of(*sides: Figures) -> str:
    """The page of figures."""
    return page.report_page("net", page.sides_of([(one, "checked", "Gbit/s") for one in sides], 300))


def routing(weights: str) -> Figures:
    """A routing of the square, of paths with weights, all demands once."""
    return figures(SQUARE, f"mcf-routing 2\nlinks undirected\nmodules largest\nphases 1\nscale 1 9\n{weights}end\n")


BEFORE = routing("path AC 4 =AB =BC\npath BD 3 =AB =DA\n")
AFTER = routing("path AC 2 =AB =BC\npath AC 2 =DA =CD\npath BD 1 =AB =DA\npath BD 2 =BC =CD\n")


def test_answers_that_are_read_in_other_ways_are_told_apart() -> None:
    """Modules alone are no difference where no link has any."""
    text = "mcf-routing 2\nlinks directed\nmodules none\nphases 1\nscale 1 9\npath AC 4 +AB +BC\npath BD 3 +BC +CD\nend\n"
    directed, none = figures(SQUARE, text), figures(SQUARE, text.replace("links directed", "links undirected").replace("+", "="))
    assert other_modes([BEFORE]) is other_modes([BEFORE, AFTER]) is other_modes([BEFORE, none]) is None
    assert other_modes([BEFORE, directed]) == "before is with links undirected, and after with links directed, so what differs may be that alone"
    net = SQUARE.replace("2 0 0 0 ( )", "2 0 0 0 ( 1 1 )")
    one, other = (figures(net, text.replace("none", modules)) for modules in ("sum", "none"))
    assert other_modes([one, other]) == \
        "before is with links directed and modules sum, and after with links directed and modules none, so what differs may be that alone"


# -- maps


def drawn_classes(text: str) -> list[list[str]]:
    """The classes of the lines of each map of a page, as they are drawn when it opens."""
    style = re.search(r"<style>(.*?)</style>", text, re.DOTALL)
    assert style is not None
    return [[found for found in re.findall(r'class="f(\w) l\w"', svg)] for svg in re.findall(r"<svg.*?</svg>", text, re.DOTALL)]


def test_both_sides_are_drawn_at_the_same_load_with_the_same_colours() -> None:
    text = page_of(BEFORE, AFTER)
    assert "At the lower fraction" not in text and 'type="radio"' not in text
    assert text.count('<div class="maps two flat">') == 1
    assert "Both sides at the same load, all demands of the network carried once, and with the same colours." in text
    assert sorted(BEFORE.links[at].utilisation for at in range(4)) == [0, Fraction(3, 2), 2, Fraction(7, 2)]
    before, after = drawn_classes(text)
    assert sorted(before) == ["5", "5", "6", "n"] and sorted(after) == ["5"] * 4
    assert "100 to 200 %" in text and "more than 200 %" in text


def test_a_single_map_opens_with_all_demands_carried_once() -> None:
    text = page_of(BEFORE)
    assert 'id="at-full" checked' in text and text.count(" checked>") == 1


def test_a_certificate_without_paths_says_that_no_link_has_a_load() -> None:
    empty = figures(SQUARE, "mcf-routing 2\nlinks undirected\nmodules largest\nphases 0\nscale 0 1\nend\n")
    assert "There are no paths, so no link has a load." in page_of(empty)


def placed(*without: str) -> layout.Layout:
    """The layout of a ring of twelve nodes, of which some have no place."""
    names = [f"N{at}" for at in range(12)]
    places = {name: (f"{at % 4}", f"{at // 4}") for at, name in enumerate(names)}
    net = read_network(SQUARE)
    ring = [replace(net.links[0], id=f"L{at}", source=name, target=names[(at + 1) % 12]) for at, name in enumerate(names)]
    nodes = tuple(Node(name, None if name in without else places[name]) for name in names)
    return layout.layout(scale(Network(nodes, tuple(ring), (replace(net.demands[0], source="N0", target="N1"),))))


@pytest.mark.parametrize("without", [("N5",), ("N5", "N6", "N7"), tuple(f"N{at}" for at in range(2, 12)), ("N0", "N11")])
def test_places_that_are_made_up_are_apart_and_counted_as_such(without: tuple[str, ...]) -> None:
    found = placed(*without)
    assert found.made_up == {int(name[1:]) for name in without}
    assert found.source.startswith(f"the file's coordinates, which has them of {12 - len(without)} of 12 nodes; ")
    assert "drawn hollow, are made up" in found.source
    far = [((a - c) ** 2 + (b - d) ** 2) ** 0.5 for at, (a, b) in enumerate(found.places) for c, d in found.places[:at]]
    assert min(far) > 25 and found == placed(*without)
    given_ones = [number for number in range(12) if number not in found.made_up]
    whole = placed()
    sides = [(number, other) for number in given_ones for other in given_ones if number < other]
    ratios = {round(_far(found, *pair) / _far(whole, *pair), 2) for pair in sides}
    assert max(ratios) - min(ratios) < 0.05, "nodes with a place keep it"


def _far(found: layout.Layout, one: int, other: int) -> float:
    """How far two nodes are apart."""
    (a, b), (c, d) = found.places[one], found.places[other]
    return ((a - c) ** 2 + (b - d) ** 2) ** 0.5


def test_one_place_is_no_map_and_no_place_none() -> None:
    one, none = placed(*(f"N{at}" for at in range(1, 12))), placed(*(f"N{at}" for at in range(12)))
    assert one.source == "a spring layout, since the file has a single place, of 1 of 12 nodes; all places are made up"
    assert none.source == "a spring layout, since the file has no coordinates; all places are made up"
    assert len(one.made_up) == len(none.made_up) == 12 and placed().made_up == frozenset()


def test_nodes_of_one_place_stand_side_by_side_and_that_is_said() -> None:
    net = read_network(SQUARE)
    same = replace(net, nodes=(net.nodes[0], replace(net.nodes[1], place=("0", "0")), *net.nodes[2:]))
    found = layout.layout(scale(same))
    assert len(set(found.places)) == 4 and "2 nodes that have the place of another side by side" in found.source


def test_made_up_places_are_hollow_in_the_page() -> None:
    net = read_network(SQUARE)
    part = replace(net, nodes=(Node("A"), *net.nodes[1:]))
    text = page_of(Figures(scale(part), BEFORE.text))
    assert text.count('class="made"') == 1 and "which has them of 3 of 4 nodes" in text
    assert "svg circle.made { fill: #fff;" in text and page_of(BEFORE).count('class="made"') == 0


# -- sentences and numbers of each kind


def test_a_certificate_with_hop_limits() -> None:
    found = figures(load_text(EXAMPLES / "detours.net"), load_text(EXAMPLES / "detours.hops"))
    assert sentences.verdict(found) == (
        "Every demand fits with 300.0 % to spare, and no routing within the hop limits gives more: this is the exact optimum."
    )
    text = page_of(found)
    assert "<th>Hop limit</th>" in text and "The paths keep it, and the bound is one of routings that keep it" in text
    assert text.count("o routing within the hop limits") == 5 and "No routing carries" not in text and "No routing of any paths" not in text
    assert "no routing within the hop limits would carry more than" in sentences.growth(found)


def test_a_link_without_capacity_is_no_other_link_that_may_get_more(program: Program, tmp_path: Path) -> None:
    """It has no share of the bound, and more capacity on it alone lifts the optimum."""
    text = ("?SNDlib native format; type: network; version: 1.0\nNODES (\n  A\n  B\n)\nLINKS (\n  L1 ( A B ) 1 0 0 0 ( )\n"
            "  L2 ( A B ) CAP 0 0 0 ( )\n)\nDEMANDS (\n  D ( A B ) 1 2 UNLIMITED\n)\n")
    found = []
    for size in ("0", "9"):
        (tmp_path / "net").write_text(text.replace("CAP", size))
        found.append(figures((tmp_path / "net").read_text(), program.solve(tmp_path / "net", "--workers", "1")))
    assert [row.link for row in found[0].bottleneck] == ["L1"] and found[0].upper == Fraction(1, 2) and found[1].lower > found[0].upper
    assert "However much more all other links get that have capacity already, no routing carries more than the upper fraction" in page_of(found[0])


def test_a_routing_takes_no_bound_of_one_with_hop_limits() -> None:
    net, text = load_text(EXAMPLES / "detours.net"), load_text(EXAMPLES / "detours.hops")
    limited = figures(net, text)
    head = f"mcf-routing 2\nlinks {limited.text.links}\nmodules {limited.text.modules}\nphases {limited.text.phases}\n"
    rows = "".join(line + "\n" for line in text.splitlines() if line.startswith(("scale ", "path ")))
    assert figures(net, f"{head}{rows}end\n").beside(limited).upper is None


def test_a_certificate_of_a_total() -> None:
    found = figures(load_text(EXAMPLES / "in-a-row.net"), load_text(EXAMPLES / "in-a-row.throughput"))
    assert (found.lower, found.upper, found.total) == (20, 20, 30)
    assert sentences.verdict(found) == (
        "Not every demand fits: these paths carry 20 of 30 in all (66.6 %), and no routing carries more: this is the exact optimum."
    )
    assert all(row.load == row.load_at_lower <= row.capacity for row in found.links)
    assert sum(row.carried * row.amount for row in found.demands) == 20
    text = page_of(found)
    assert "<th>Carried</th>" in text and "all demands carried once" not in text and 'type="radio"' not in text


def test_a_total_of_nothing_and_a_small_one() -> None:
    net = f"{HEAD}NODES (\n  A\n  B\n)\nLINKS (\n  L ( A B ) 0 0 0 0 ( )\n)\nDEMANDS (\n  D ( A B ) 1 0.0004 UNLIMITED\n)\n"
    head = ("mcf-throughput 1\nverdict closed\nlinks directed\nmodules largest\nnet nodes 2 cells 1 commodities 1 decimals 4 skipped 0 left 0 hops 0\n"
            "gap 0.050000\n")
    cut = f"{head}phases 0\nscale 0 1\nlower 0/1 0.000000\nupper 0/1 0.000000\nthreshold 1\nlength +L 1\npotential A 0 1\nend\n"
    assert "No routing carries more than<b>0 Gbit/s</b>" in page_of(figures(net, cut))
    full = f"{head}phases 1\nscale 3 4\nlower 3/1 3.000000\nupper 3/1 3.000000\nthreshold 1\npath D 4 +L\nlength +L 1\npotential A 0 1\nend\n"
    found = figures(net.replace(" 0 0 0 0 ", " 0.0003 0 0 0 "), full)
    assert sentences.verdict(found).startswith("Not every demand fits: these paths carry 0.0003 of 0.0004 in all (75.0 %), ")


@pytest.mark.parametrize(
    ("low", "high", "sentence"),
    [
        ((3, 1), (3, 1), "Every demand is carried whole, 3 in all."),
        ((2, 1), (5, 2), "Not every demand fits: these paths carry 2 of 3 in all (66.6 %), and no routing carries more than 2.5 (83.4 %)."),
        ((2, 1), (4, 1), "Not decided whether every demand fits: these paths carry 2 of 3 in all (66.6 %)."),
        ((0, 1), (1, 1), "Not every demand fits: these paths carry 0 of 3 in all (0.0 %), and no routing carries more than 1 (33.4 %)."),
        ((1, 3), (1, 3), "Not every demand fits: these paths carry 0.333333 of 3 in all (11.1 %), and no routing carries more: "
                         "this is the exact optimum."),
    ],
)  # fmt: skip
def test_the_sentence_of_a_total(low: tuple[int, int], high: tuple[int, int], sentence: str) -> None:
    assert sentences._total(Range(Fraction(*low), Fraction(*high)), Fraction(3)) == sentence


@pytest.mark.parametrize(
    ("value", "nearest", "up"),
    [
        ("1.0004", "100.04 %", "100.1 %"), ("0.99996", "99.996 %", "99.996 %"), ("1", "100.0 %", "100.0 %"), ("1.001", "100.1 %", "100.1 %"),
        ("0.9", "90.0 %", "90.0 %"), ("0.99999999", "99.999999 %", "99.999999 %"), ("1.00000001", "100.000001 %", "100.1 %"),
    ],
)  # fmt: skip
def test_percents_never_hide_the_side_of_a_hundred(value: str, nearest: str, up: str) -> None:
    assert (shown.percent(Fraction(value)), shown.percent_up(Fraction(value))) == (nearest, up)


def test_names_that_are_formulas_have_an_apostrophe() -> None:
    net = SQUARE.replace("AB (", "=1+1 (").replace("  AC (", "  @x (")
    text = BEFORE.text
    paths = [replace(path, demand=path.demand.replace("AC", "@x"), cells=tuple(c.replace("AB", "=1+1") for c in path.cells)) for path in text.paths]
    found = Figures(scale(read_network(net)), replace(text, paths=paths))
    assert tables.links_table([found]).splitlines()[1].startswith("'=1+1,=,A,B,")
    assert tables.paths_table(found).splitlines()[1].split(",")[0] == "'@x"


# -- the numbers against the text alone

NAMES = ("A", "B", "C", "D")


@st.composite
def networks(draw: st.DrawFn) -> tuple[str, str]:
    """A network of four nodes, and a certificate of any kind or a routing with any paths: judged by nobody, so of any numbers."""
    mode = draw(st.sampled_from(("undirected", "directed", "bidirected")))
    capacity = st.sampled_from(("0", "1", "2.5", "7", "0.000001", "12345"))
    links = [(f"L{at}", *draw(st.permutations(NAMES))[:2], draw(capacity)) for at in range(draw(st.integers(1, 6)))]
    demands = [(f"D{at}", *draw(st.permutations(NAMES))[:2], draw(st.sampled_from(("1", "3", "0.25")))) for at in range(draw(st.integers(1, 4)))]
    net = HEAD + "NODES (\n" + "".join(f"  {name}\n" for name in NAMES) + ")\nLINKS (\n"
    net += "".join(f"  {key} ( {a} {b} ) {room} 0 0 0 ( )\n" for key, a, b, room in links) + ")\nDEMANDS (\n"
    net += "".join(f"  {key} ( {a} {b} ) 1 {size} UNLIMITED\n" for key, a, b, size in demands) + ")\n"
    signs = {"undirected": "=", "directed": "+", "bidirected": "+-"}[mode]
    cells = [sign + key for key, *_ in links for sign in signs]
    kind = draw(st.sampled_from(("mcf-routing 2", "mcf-certificate 2", "mcf-throughput 1")))
    lines = [f"links {mode}", "modules none"]
    if not kind.startswith("mcf-routing"):
        counts = "net nodes 4 cells 0 commodities 0 decimals 0 skipped 0 left 0 hops 0"
        lines = ["verdict open", *lines, counts, "gap 0.000000"]
    number = st.integers(1, 50)
    lines += [f"phases {draw(number)}", f"scale {draw(number)} {draw(number)}"]
    if not kind.startswith("mcf-routing"):
        lines += ["lower 0/1 0.000000", "upper 0/1 0.000000"] + (["threshold 7"] if kind.startswith("mcf-throughput") else [])
    lines += [f"path {key} {draw(number)} " + " ".join(draw(st.lists(st.sampled_from(cells), min_size=1, max_size=4))) for key, *_ in demands]
    if not kind.startswith("mcf-routing"):
        lines += [f"length {cell} {draw(number)}" for cell in cells]
        # (a bound that is none has nothing above 0 below its line; of a total, a difference may be below 0)
        own, other = (st.integers(0, 9), st.integers(0, 9)) if kind.startswith("mcf-throughput") else (st.just(0), st.integers(1, 9))
        sources = dict.fromkeys(demand[1] for demand in demands)
        lines += [f"potential {name} " + " ".join(str(draw(own if node == name else other)) for node in NAMES) for name in sources]
    return net, "\n".join([kind, *lines, "end", ""])


def rounded(value: Fraction) -> str:
    """The nearest decimal of six digits, by Python's own rounding upwards of halves."""
    millionths = (abs(value) * 2 * 10**6 + 1) // 2
    return f"{'-' if value < 0 and millionths else ''}{millionths // 10**6}.{millionths % 10**6:06d}"


class Texts:
    """What two texts say, cut into words and taken as fractions, by the words of docs/judge/formats.md alone."""

    def __init__(self, net: str, text: str) -> None:
        """Cuts both texts."""
        links, _, demands = net.partition("LINKS")[2].partition("DEMANDS")
        self.room = {row[0]: Fraction(row[5]) for row in map(str.split, links.splitlines()) if len(row) > 6}
        self.demands = [(row[2], row[3], Fraction(row[6])) for row in map(str.split, demands.splitlines()) if len(row) == 8]
        numbers = [*self.room.values(), *(size for *_, size in self.demands)]
        self.unit = next(10**digits for digits in range(7) if all((number * 10**digits).denominator == 1 for number in numbers))
        rows = [line.split(" ") for line in text.splitlines()]
        self.paths = [(int(row[2]), row[3:]) for row in rows if row[0] == "path"]
        self.lengths = {row[1]: int(row[2]) for row in rows if row[0] == "length"}
        self.potentials = {row[1]: dict(zip(NAMES, map(int, row[2:]))) for row in rows if row[0] == "potential"}
        said = {row[0]: row[1:] for row in rows}
        self.phases, self.scale = int(said["phases"][0]), Fraction(*map(int, said["scale"]))
        self.threshold = int(said["threshold"][0]) if "threshold" in said else None
        self.cells = [(key, sign) for key in self.room for sign in {"undirected": "=", "directed": "+", "bidirected": "+-"}[said["links"][0]]]

    def load(self, key: str, sign: str) -> Fraction:
        """The load of a cell where all demands are carried once, or as a total is carried."""
        weight = sum(weight * path.count(sign + key) for weight, path in self.paths)
        return weight * (Fraction(1, self.phases) if self.threshold is None else self.scale) / self.unit

    @property
    def lower(self) -> Fraction:
        """What loads are multiplied by at the lower fraction."""
        return self.phases * self.scale if self.threshold is None else Fraction(1)

    @property
    def bound(self) -> Fraction:
        """What is above in the bound."""
        volume = sum(self.room[cell[1:]] * self.unit * length for cell, length in self.lengths.items())
        if self.threshold is None:
            return Fraction(volume)
        differences = [(size, max(self.potentials[a][b] - self.potentials[a][a], 0)) for a, b, size in self.demands]
        return volume + sum(size * self.unit * max(self.threshold - difference, 0) for size, difference in differences)

    def row(self, key: str, sign: str) -> list[str]:
        """Capacity, load, load at the lower fraction, utilisations, headroom and share, as decimals."""
        size, load = self.room[key], self.load(key, sign)
        used = [rounded(load / size), rounded(load * self.lower / size)] if size else ["", ""]
        share = size * self.unit * self.lengths[sign + key] / self.bound if self.lengths and self.bound else Fraction(0)
        return [rounded(size), rounded(load), rounded(load * self.lower), *used, rounded(size - load), rounded(share) if self.lengths else ""]


@given(networks())
def test_every_number_of_the_table_is_that_of_the_texts(texts: tuple[str, str]) -> None:
    found = figures(*texts)
    rows = list(csv.reader(io.StringIO(tables.links_table([found]))))
    alone = Texts(*texts)
    assert {(row[0], row[1]): row[4:] for row in rows[1:]} == {cell: alone.row(*cell) for cell in alone.cells}


@given(networks())
def test_every_utilisation_of_the_page_is_that_of_the_texts(texts: tuple[str, str]) -> None:
    found, alone = figures(*texts), Texts(*texts)
    # (bounds that contradict each other are of no certificate that the program called valid, and no page shows them)
    assume(found.upper is None or found.lower <= found.upper)
    text = page_of(found)
    part = text.partition("<h2>Utilisation</h2>")[2].partition("<h2>Demands and paths</h2>")[0]
    seen = [unescape(cell) for cell in re.findall(r'px"></span>([^<]*)</td>', part)]
    wanted = sorted((alone.load(*cell) / alone.room[cell[0]] for cell in alone.cells if alone.room[cell[0]]), reverse=True)
    assert seen == [shown.percent(value) for value in wanted]
    assert len(re.findall(r"<path ", text)) == len(alone.cells)


# -- what batch wrote

LIST = "# a day\nnight ( AC ( A C ) 1 1 UNLIMITED )\nnoon ( AC ( A C ) 1 4 UNLIMITED # both\n BD ( B D ) 1 3 UNLIMITED\n)\n"


def test_lists_networks_and_answers_are_cut_where_their_parts_begin() -> None:
    found = matrices(LIST)
    assert [*found] == ["night", "noon"] and found["night"].strip() == "AC ( A C ) 1 1 UNLIMITED"
    net = SQUARE.replace("NODES", "META ( unit = MBITPERSEC )\nNODES", 1) + "TAIL ( DEMANDS ( x ) )\n"
    changed = with_demands(net, found["noon"])
    assert changed.count("AC ( A C ) 1 4 UNLIMITED # both") == 1 and "AC ( A C ) 1 4 2" not in changed
    assert changed.endswith(")\nTAIL ( DEMANDS ( x ) )\n") and (unit_of(net), unit_of(SQUARE)) == ("Mbit/s", "")
    assert answers("matrix a\nx\nend\nmatrix b\ny\nend\n") == {"a": "x\nend\n", "b": "y\nend\n"}


@pytest.mark.parametrize(
    ("text", "said"),
    [
        ("a ( )\nb )", "line 2: a name and parentheses"), ("a b ( )", "line 1: a name and parentheses"), ("( )", "line 1: a name and parentheses"),
        ("a ( )\na ( )", "line 2: a stands twice"), ("a ( (", "the text is cut off"), ("a", "the text is cut off"),
    ],
)  # fmt: skip
def test_lists_of_another_form_are_refused_by_their_line(text: str, said: str) -> None:
    with pytest.raises(TextError, match=said):
        matrices(text)


def summary(name: str, low: Fraction, high: Fraction) -> Summary:
    """A matrix with any bounds."""
    found = replace(BEFORE, known=high)
    object.__setattr__(found, "lower", low)
    return Summary(name, found, "said")


@pytest.mark.parametrize(
    ("bounds", "sentence"),
    [
        ([("1", "1.1"), ("2", "2.1")], "All demands fit in 2 of 2 matrices. The least is carried of m0: 100.0 % to 110.0 % of every demand."),
        ([("1", "1.2"), ("1.1", "1.3"), ("2", "2")], "All demands fit in 3 of 3 matrices. Of which the least is carried is not decided among m0, m1: "
                                                     "100.0 % to 120.0 % of every demand."),
        ([("0.5", "0.5"), ("0.5", "0.5")], "All demands fit in 0 of 2 matrices, not in 2. The least is carried alike of m0, m1: "
                                           "50.0 % to 50.0 % of every demand."),
        ([("0.9", "1.1"), ("0.3", "0.4")], "All demands fit in 0 of 2 matrices, not in 1, and in 1 it is not decided. "
                                           "The least is carried of m1: 30.0 % to 40.0 % of every demand."),
    ],
)  # fmt: skip
def test_the_sentence_on_many_matrices(bounds: list[tuple[str, str]], sentence: str) -> None:
    rows = [summary(f"m{at}", Fraction(low), Fraction(high)) for at, (low, high) in enumerate(bounds)]
    assert batch_sentence(rows, []) == sentence
    front, least = sentence.split(". ", 1)
    assert batch_sentence(rows, ["x"]) == f"{front}. 1 matrix of the list has no answer there. Among the others: {least[0].lower()}{least[1:]}"


# -- the command


def report(
    *words: str | Path, program: Program, status: int = 0, front: Sequence[str] = (), given_text: bytes = b"", **environment: str
) -> tuple[str, str]:
    """What a run writes on both outputs."""
    done = subprocess.run(
        [*front, REPORT, *map(str, words), "--mcf", program.path], input=given_text, capture_output=True, env={**os.environ, **environment}, check=False
    )
    assert done.returncode == status, done.stderr
    assert done.stderr.count(b"\n") == (status != 0), done.stderr
    return done.stdout.decode("latin-1"), done.stderr.decode("latin-1")


TRIANGLE = EXAMPLES / "triangle.net", EXAMPLES / "triangle.cert"
SENTENCE = "Every demand fits with 29.0 % to spare; no routing gives more than 35.2 % to spare.\n"


def test_the_sentence_alone(program: Program) -> None:
    assert report(*TRIANGLE, program=program) == (SENTENCE, "")
    assert report(*TRIANGLE, "--quiet", program=program) == ("", "")
    text = TRIANGLE[1].read_bytes()
    assert report(TRIANGLE[0], "-", program=program, given_text=text) == (SENTENCE, "")
    assert report("-", TRIANGLE[1], program=program, given_text=TRIANGLE[0].read_bytes()) == (SENTENCE, "")


def test_what_batch_wrote_in_a_table_and_by_name(tmp_path: Path, program: Program) -> None:
    net, day, made = tmp_path / "square.net", tmp_path / "day.list", tmp_path / "day.certs"
    net.write_text(SQUARE + "TAIL ( x )\n")
    day.write_text(LIST)
    made.write_text(program.ask("batch", str(net), str(day), "--gap", "0", statuses=(0, 1)))
    out, _ = report(net, made, "--list", day, "--html", tmp_path / "x.html", "--csv", tmp_path / "x.csv", program=program)
    assert out == ("All demands fit in 1 of 2 matrices, not in 1. The least is carried of noon: 57.1 % to 57.2 % of every demand.\n")
    rows = [line.split(",") for line in (tmp_path / "x.csv").read_text().splitlines()]
    assert [row[:6] for row in rows[1:]] == [["night", "1", "1.000000", "4.000000", "4.000000", "yes"],
                                             ["noon", "2", "7.000000", "0.571428", "0.571429", "no"]]  # fmt: skip
    assert (tmp_path / "x.html").read_text().count("mcf check: valid closed") == 2
    out, _ = report(net, made, "--list", day, "--matrix", "night", program=program)
    assert out.startswith("Every demand fits with 300.0 % to spare, and no routing gives more")
    for words, said in (
        ([], "--list LIST names the list"), (["--list", day, "--matrix", "dawn"], "there is no matrix dawn in the list"),
        (["--list", day, "--paths", tmp_path / "p"], "--paths takes --matrix NAME"), (["--list", net], "a name and parentheses are expected"),
    ):  # fmt: skip
        assert said in report(net, made, *words, program=program, status=2)[1]
    day.write_text(LIST.replace("1 4", "1 5"))
    assert "invalid C2" in report(net, made, "--list", day, "--matrix", "noon", program=program, status=2)[1]


@pytest.mark.parametrize(
    ("words", "said"),
    [
        (["/no/net", TRIANGLE[1]], "report: /no/net: No such file or directory\n"),
        ([TRIANGLE[0], EXAMPLES], f"report: {EXAMPLES}: Is a directory\n"),
        ([*TRIANGLE, "--html", EXAMPLES], f"report: {EXAMPLES}: Is a directory\n"),
        ([*TRIANGLE, "--html", "/no/where/x"], "report: /no/where/x: No such file or directory\n"),
        ([*TRIANGLE, "--csv", TRIANGLE[0]], f"report: {TRIANGLE[0]}: is read too: write to another file\n"),
        ([*TRIANGLE, "--csv", "/tmp/mcf-x", "--html", "/tmp/../tmp/mcf-x"], "report: /tmp/mcf-x: is written twice\n"),
        ([TRIANGLE[0], TRIANGLE[0]], "refused cert K1 line 1: this is no certificate and no routing"),
        ([TRIANGLE[1], TRIANGLE[1]], "refused net N1 line 1: it is a certificate or routing, and the network's file stands first\n"),
        (["-", "-"], "report: standard input is one file alone\n"),
        ([*TRIANGLE, "--rows", "9" * 5000], "invalid int value"),
        ([*TRIANGLE, "--rows", "-1"], "--rows is at least 0"),
        ([*TRIANGLE, "--html", "a", "--html", "b"], "--html is given twice"),
        ([*TRIANGLE, "--matrix", "m"], "--matrix names a matrix of what batch wrote"),
        ([*TRIANGLE, "--list", TRIANGLE[1]], "--list is for what batch wrote, and "),
        ([EXAMPLES / "in-a-row.net", EXAMPLES / "in-a-row.throughput", TRIANGLE[1], "--net2", TRIANGLE[0]], "of a total alone"),
    ],
)  # fmt: skip
def test_each_trouble_is_one_line(program: Program, words: list[str | Path], said: str) -> None:
    out, told = report(*words, program=program, status=2)
    assert out == "" and said in told and told.startswith("report: ") and "/mcf-report-" not in told and "/mcf-judge-" not in told


def test_the_version(program: Program) -> None:
    assert report("--version", program=program)[0].startswith(f"mcf {(ROOT / 'VERSION').read_text().strip()} (")


def test_numbers_of_five_thousand_digits(tmp_path: Path, program: Program) -> None:
    for old, new in (("phases 48", "phases " + "9" * 5000), ("scale 10", "scale " + "9" * 5000)):
        text = TRIANGLE[1].read_text()
        assert old in text
        (tmp_path / "cert").write_text(text.replace(old, new, 1))
        assert "refused cert K4" in report(TRIANGLE[0], tmp_path / "cert", program=program, status=2)[1]
    net = tmp_path / "net"
    net.write_text(TRIANGLE[0].read_text().replace(" 10 ", " " + "9" * 5000 + " ", 1))
    assert "refused net N2" in report(net, TRIANGLE[1], program=program, status=2)[1]


def test_an_output_that_takes_nothing_leaves_the_old_file(tmp_path: Path, program: Program) -> None:
    for shell in (">/dev/full", ">&-"):
        words = ["bash", "-c", f'"$0" "$@" {shell}']
        assert "report: standard output: " in report(*TRIANGLE, "--csv", "-", program=program, status=2, front=words)[1]
        assert "report: output: " in report(*TRIANGLE, program=program, status=2, front=words)[1]
    old = tmp_path / "x.html"
    old.write_bytes(b"old")
    report(*TRIANGLE, "--html", old, "--csv", "/dev/full", program=program, status=2)
    limited = ["bash", "-c", 'ulimit -f 1; trap "" XFSZ; "$0" "$@"']
    old.write_bytes(b"old")
    report(*TRIANGLE, "--html", old, program=program, status=2, front=limited)
    assert old.read_bytes() == b"old" and os.listdir(tmp_path) == ["x.html"]


@pytest.mark.parametrize("environment", [{"LC_ALL": "C"}, {"LC_ALL": "POSIX", "PYTHONUTF8": "0"}, {"PYTHONIOENCODING": "ascii"}])
def test_any_locale_writes_the_same_page(tmp_path: Path, program: Program, environment: dict[str, str]) -> None:
    net = tmp_path / "k\u00f6ln.net"
    net.write_bytes(TRIANGLE[0].read_bytes().replace(b"A_to_B", "K\u00f6ln".encode()))
    cert = tmp_path / "cert"
    cert.write_bytes(TRIANGLE[1].read_bytes().replace(b"A_to_B", "K\u00f6ln".encode()))
    report(net, cert, "--html", tmp_path / "a.html", program=program)
    report(net, cert, "--html", tmp_path / "b.html", program=program, **environment)
    assert (tmp_path / "a.html").read_bytes() == (tmp_path / "b.html").read_bytes()
    assert "K\u00f6ln".encode() in (tmp_path / "a.html").read_bytes()


@pytest.mark.parametrize("sent", [signal.SIGINT, signal.SIGTERM])
def test_a_signal_ends_it_with_one_line_and_the_old_file(tmp_path: Path, program: Program, sent: signal.Signals) -> None:
    old, mark = tmp_path / "x.html", tmp_path / "begun"
    old.write_bytes(b"old")
    slow = tmp_path / "mcf"
    slow.write_text(f"#!/bin/sh\ntouch {mark}\nsleep 60\n")
    slow.chmod(0o755)
    with tempfile.TemporaryDirectory() as room:
        words = [REPORT, *TRIANGLE, "--html", old, "--mcf", slow]
        run = subprocess.Popen([*map(str, words)], stderr=subprocess.PIPE, env={**os.environ, "TMPDIR": room}, start_new_session=True,
                               preexec_fn=lambda: signal.signal(signal.SIGINT, signal.SIG_DFL))  # fmt: skip
        while not mark.exists():
            time.sleep(0.01)
        run.send_signal(sent)
        _, said = run.communicate(timeout=60)
        assert os.listdir(room) == []
    assert run.returncode == 130 and said.count(b"\n") == 1 and old.read_bytes() == b"old"
    with pytest.raises(ProcessLookupError):
        os.killpg(run.pid, 0)


def test_a_folder_without_permission_is_told_before_the_work(program: Program) -> None:
    as_nobody = ["setpriv", "--reuid=65534", "--regid=65534", "--clear-groups"] if os.geteuid() == 0 else []
    with tempfile.TemporaryDirectory() as room:
        os.chmod(room, stat.S_IRUSR | stat.S_IXUSR | stat.S_IROTH | stat.S_IXOTH)
        done = subprocess.run([*as_nobody, REPORT, *TRIANGLE, "--html", f"{room}/x", "--mcf", "/no/mcf"], capture_output=True, check=False)
        if b"can't open file" in done.stderr or b"Permission denied\n" == done.stderr[-18:] and b"report: " not in done.stderr:
            pytest.skip("nobody else may read this repository")
        assert (done.returncode, os.listdir(room)) == (2, [])
    assert done.stderr.decode() == f"report: {room}/x: Permission denied\n"
