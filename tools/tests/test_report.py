"""`tools/report` and mcf.report: figures by hand, sentences, tables, and pages in a browser."""

from __future__ import annotations

import csv
import io
import re
import subprocess
from collections import deque
from fractions import Fraction
from pathlib import Path

import pytest

import browser
from mcf import Length, Path as Route, Potential, Program, load_text, read_any, read_certificate, read_network, scale
from mcf.certificate import Certificate
from mcf.network import Network
from mcf.report import drawing, layout, page, sentences, shown, tables
from mcf.report.figures import Figures

ROOT = Path(__file__).resolve().parents[2]
REPORT = ROOT / "tools/report"
EXAMPLES = ROOT / "examples"
HEAD = "?SNDlib native format; type: network; version: 1.0\n"
TRIANGLE = (
    f"{HEAD}NODES (\n  A\n  B\n  C\n)\nLINKS (\n  AB ( A B ) 10 0 0 0 ( )\n  AC ( A C ) 6 0 0 0 ( )\n  BC ( B C ) 6 0 0 0 ( )\n)\n"
    "DEMANDS (\n  A_to_B ( A B ) 1 8 UNLIMITED\n  A_to_C ( A C ) 1 4 UNLIMITED\n)\n"
)
SCRIPT = "<script>window.top.hit=1</script>"
QUOTE = '"onload="window.top.hit=1'


def figures(net: str, text: str) -> Figures:
    """The figures of two texts."""
    found = read_any(text)
    return Figures(scale(read_network(net), found.links, found.modules), found)


@pytest.fixture(name="triangle")
def _triangle() -> Figures:
    return figures(TRIANGLE, load_text(EXAMPLES / "triangle.cert"))


@pytest.fixture(name="by_hand")
def _by_hand() -> Figures:
    return figures(TRIANGLE, load_text(EXAMPLES / "triangle.routing"))


def certificate(low: tuple[int, int], high: tuple[int, int], demand: int = 1) -> Figures:
    """A network of one link of 1 and a demand, with any fractions: for sentences alone."""
    net = f"{HEAD}NODES (\n  A\n  B\n)\nLINKS (\n  L ( A B ) {high[0]} 0 0 0 ( )\n)\nDEMANDS (\n  D ( A B ) 1 {demand} UNLIMITED\n)\n"
    text = Certificate(
        1,
        "undirected",
        "largest",
        low[0],
        1,
        low[1],
        [Route("D", low[0] * demand, ("L",))],
        lengths=[Length("L", 1)],
        potentials=[Potential("A", (0, high[1]))],
    )
    return Figures(scale(read_network(net)), text)


def page_of(*sides: Figures, title: str = "net") -> str:
    """The page of figures."""
    return page.report_page(title, page.sides_of([(one, "checked", "Gbit/s") for one in sides], 300))


def test_loads_and_utilisations_of_the_triangle_by_hand(triangle: Figures):
    ab, ac, bc = triangle.links
    assert (ab.load, ac.load, bc.load) == (Fraction(372, 48), Fraction(204, 48), Fraction(20, 48))
    assert (ab.utilisation, ac.utilisation) == (Fraction(372, 480), Fraction(204, 288))
    assert ab.load_at_lower == 10 and ab.utilisation_at_lower == 1
    assert ac.load_at_lower == Fraction(204 * 10, 372)
    assert bc.headroom == 6 - Fraction(20, 48)
    assert triangle.most_utilised is ab
    assert 1 / (ab.utilisation or 1) == triangle.lower == Fraction(480, 372)


def test_shares_are_capacity_times_length(triangle: Figures):
    parts = [10 * 2702159776422297, 6 * 2601615928176640, 6 * 108523438997504]
    assert [row.share for row in triangle.links] == [Fraction(part, sum(parts)) for part in parts]
    assert [row.link for row in triangle.bottleneck] == ["AB", "AC", "BC"]
    assert triangle.upper == Fraction(43282433967267834, 32023741924084936)


def test_capacity_counts_and_not_length_alone():
    net = f"{HEAD}NODES (\n  A\n  B\n)\nLINKS (\n  thin ( A B ) 1 0 0 0 ( )\n  thick ( A B ) 100 0 0 0 ( )\n)\nDEMANDS (\n  D ( A B ) 1 1 UNLIMITED\n)\n"
    text = Certificate(
        1,
        "undirected",
        "largest",
        1,
        1,
        1,
        [Route("D", 1, ("thick",))],
        lengths=[Length("thin", 3), Length("thick", 2)],
        potentials=[Potential("A", (0, 2))],
    )
    rows = Figures(scale(read_network(net)), text).bottleneck
    assert [(row.link, row.share) for row in rows] == [("thick", Fraction(200, 203)), ("thin", Fraction(3, 203))]


def test_demands_have_their_paths_the_greatest_part_first(triangle: Figures):
    first, second = triangle.demands
    assert (first.demand, first.amount, first.fewest, first.most_links) == ("A_to_B", 8, 1, 2)
    assert [(path.part, path.links) for path in first.paths] == [(Fraction(368, 384), ("AB",)), (Fraction(16, 384), ("AC", "BC"))]
    assert first.mean_links == Fraction(368 + 32, 384)
    assert sum(path.part for path in second.paths) == 1


def test_a_routing_has_no_bound(by_hand: Figures):
    assert by_hand.upper is None and by_hand.bottleneck == ()
    assert [row.share for row in by_hand.links] == [None] * 3
    assert by_hand.links[0].load == Fraction(15, 2)
    assert sentences.verdict(by_hand) == (
        "Every demand fits with 33.3 % to spare on these paths; whether other paths carry more is not known, "
        "since a routing has no bound."
    )
    assert "Share of the bound</th>" not in page_of(by_hand)


def test_a_routing_takes_over_the_bound_beside_it(triangle: Figures, by_hand: Figures):
    found = by_hand.beside(triangle)
    assert found.upper == triangle.upper and triangle.beside(by_hand) is triangle
    assert (
        sentences.verdict(found)
        == "Every demand fits with 33.3 % to spare on these paths; no routing gives more than 35.2 % to spare."
    )
    other = figures(TRIANGLE.replace("BC ( B C ) 6", "BC ( B C ) 7"), load_text(EXAMPLES / "triangle.routing"))
    assert other.beside(triangle).upper is None


@pytest.mark.parametrize(
    ("low", "high", "sentence"),
    [
        (
            (480, 372),
            (43282433967267834, 32023741924084936),
            "Every demand fits with 29.0 % to spare; no routing gives more than 35.2 % to spare.",
        ),
        ((1, 1), (1001, 1000), "Every demand fits with nothing to spare; no routing gives more than 0.1 % to spare."),
        (
            (999, 1000),
            (1001, 1000),
            "Not decided: these paths carry 99.9 % of every demand, and no routing carries more than 100.1 %. "
            "A smaller gap or more phases bring both closer.",
        ),
        (
            (3999, 10000),
            (4001, 10000),
            "Not every demand fits: these paths carry 39.9 % of each, and no routing carries more than 40.1 %.",
        ),
        (
            (1, 3),
            (1, 3),
            "Not every demand fits: these paths carry 33.3 % of each, and no routing carries more: this is the exact optimum.",
        ),
        ((4, 3), (4, 3), "Every demand fits with 33.3 % to spare, and no routing gives more: this is the exact optimum."),
        (
            (1, 100000),
            (1, 50000),
            "Not every demand fits: these paths carry 0.0010 % of each, and no routing carries more than 0.1 %.",
        ),
    ],
)
def test_the_verdict_in_a_sentence(low: tuple[int, int], high: tuple[int, int], sentence: str):
    assert sentences.verdict(certificate(low, high)) == sentence


def test_a_cut_is_told_with_its_demands():
    net = (
        f"{HEAD}NODES (\n  A\n  B\n  C\n)\nLINKS (\n  L1 ( A B ) 5 0 0 0 ( )\n  L2 ( B C ) 0 0 0 0 ( )\n)\nDEMANDS (\n  D1 ( A B ) 1 2 UNLIMITED\n"
        "  D2 ( A C ) 1 3 UNLIMITED\n)\n"
    )
    text = Certificate(
        1,
        "undirected",
        "largest",
        0,
        0,
        1,
        [],
        lengths=[Length("L1", 0), Length("L2", 1)],
        potentials=[Potential("A", (0, 0, 1))],
    )
    found = Figures(scale(read_network(net)), text)
    assert (found.lower, found.upper) == (0, 0)
    assert [row.demand for row in found.without_way] == ["D2"]
    assert sentences.verdict(found).startswith("1 demand has no way over links with capacity, the greatest of them D2")
    assert "Demands without a way" in page_of(found)
    assert drawing.class_of(found.links[1].utilisation) == "c"


def test_doubling_a_link_is_told_of_both_of_its_ways():
    net = f"{HEAD}NODES (\n  A\n  B\n)\nLINKS (\n  L1 ( A B ) 10 0 0 0 ( )\n)\nDEMANDS (\n  D1 ( A B ) 1 5 UNLIMITED\n  D2 ( B A ) 1 5 UNLIMITED\n)\n"
    text = (
        "mcf-certificate 2\nverdict closed\nlinks bidirected\nmodules largest\nnet nodes 2 cells 2 commodities 2 decimals 0 skipped 0 left 0 hops 0\n"
        "gap 0.050000\nphases 1\nscale 10 5\nlower 10/5 2.000000\nupper 90071992547409920/45035996273704960 2.000000\npath D1 5 +L1\npath D2 5 -L1\n"
        "length +L1 4503599627370496\nlength -L1 4503599627370496\npotential A 0 4503599627370496\npotential B 4503599627370496 0\nend\n"
    )
    found = Figures(scale(read_network(net), "bidirected"), read_certificate(text))
    assert [(row.link, row.way, row.source, row.load, row.share) for row in found.links] == [
        ("L1", "+", "A", 5, Fraction(1, 2)),
        ("L1", "-", "B", 5, Fraction(1, 2)),
    ]
    assert (
        sentences.growth(found)
        == "1 link makes up 100.0 % of the bound. With twice the capacity on L1 alone, no routing would carry more than 400.0 % of every demand."
    )
    lines = drawing.drawing(found, layout.layout(found.scaled)).lines
    assert {line.title[:9] for line in lines} == {"L1: A → B", "L1: B → A"}
    (x1, y1), (x2, y2) = layout.layout(found.scaled).places
    for line in lines:
        middle = [float(number) for number in line.path.split("Q")[1].split()[:2]]
        way = 1 if "A → B" in line.title else -1
        # right of its direction: y goes downwards, so the product of both is positive
        assert way * ((x2 - x1) * (middle[1] - y1) - (y2 - y1) * (middle[0] - x1)) > 0


def test_the_table_of_links(triangle: Figures):
    rows = list(csv.DictReader(io.StringIO(tables.links_table([triangle]))))
    assert rows[0] == {
        "link": "AB",
        "way": "=",
        "source": "A",
        "target": "B",
        "capacity": "10.000000",
        "load": "7.750000",
        "load_at_lower": "10.000000",
        "utilisation": "0.775000",
        "utilisation_at_lower": "1.000000",
        "headroom": "2.250000",
        "share": "0.624309",
    }
    assert [row["link"] for row in rows] == ["AB", "AC", "BC"]


def test_the_table_of_two_certificates(triangle: Figures, by_hand: Figures):
    rows = list(csv.DictReader(io.StringIO(tables.links_table([triangle, by_hand]))))
    assert (rows[0]["load"], rows[0]["load_after"], rows[0]["share_after"]) == ("7.750000", "7.500000", "")


def test_flows_of_paths_sum_to_loads_of_links():
    text = read_any(load_text(EXAMPLES / "polska.cert"))
    found = Figures(scale(_network("polska"), text.links, text.modules), text)
    flows: dict[str, Fraction] = {}
    for row in csv.DictReader(io.StringIO(tables.paths_table(found))):
        for link in row["links"].split():
            flows[link] = flows.get(link, Fraction(0)) + Fraction(row["flow"])
    for row in found.links:
        assert abs(flows[row.link] - row.load) < Fraction(1, 1000)


def _network(name: str) -> Network:
    """An example, without the program: comments and other sections cut out, and words one space apart."""
    from mcf.convert.native import tokens  # pylint: disable=import-outside-toplevel

    text = tokens(name, (EXAMPLES / f"{name}.net").read_bytes().partition(b"\n")[2])
    words = [word for word, _ in text.rest]
    rows: dict[str, list[str]] = {}
    at = 0
    while at < len(words):
        name, at, depth, row = words[at], at + 2, 1, []
        while depth:
            depth += {"(": 1, ")": -1}.get(words[at], 0)
            row.append(words[at])
            at += 1
        rows[name] = row[:-1]
    lines = {name: _rows(rows[name], size) for name, size in (("NODES", 1), ("LINKS", 9), ("DEMANDS", 8))}
    return read_network(
        HEAD + "".join(f"{name} (\n" + "".join(f"  {' '.join(row)}\n" for row in part) + ")\n" for name, part in lines.items())
    )


def _rows(words: list[str], size: int) -> list[list[str]]:
    """The rows of a section: so many words each, and a group behind them where one opens."""
    rows, at = [], 0
    while at < len(words):
        end = at + size
        if end < len(words) and words[end] == "(":
            end = words.index(")", end) + 1
        rows.append(words[at:end])
        at = end
    return rows


def test_places_of_the_file_or_springs(triangle: Figures):
    springs = layout.layout(triangle.scaled)
    assert springs.source.startswith("a spring layout") and springs == layout.layout(triangle.scaled)
    assert len(set(springs.places)) == 3
    places = layout.layout(scale(_network("polska")))
    by_name = dict(zip([node.id for node in _network("polska").nodes], places.places))
    assert places.source == "the file's coordinates"
    assert by_name["Szczecin"][0] < by_name["Warszawa"][0] and by_name["Gdansk"][1] < by_name["Krakow"][1]
    assert all(0 <= x <= places.width and 0 <= y <= places.height for x, y in places.places)


def test_thickness_is_the_share_and_colour_the_utilisation(triangle: Figures):
    lines = drawing.drawing(triangle, layout.layout(triangle.scaled)).lines
    by_link = {line.title.split(":")[0]: line for line in lines}
    assert by_link["AB"].width > by_link["AC"].width > by_link["BC"].width
    assert (by_link["AB"].at_full, by_link["AB"].at_lower) == ("3", "4")
    assert [drawing.class_of(Fraction(x, 100)) for x in (0, 25, 26, 90, 100, 101)] == ["n", "0", "1", "3", "4", "5"]


@pytest.mark.parametrize(("value", "text"), [
    (Fraction(0), "0.0 %"), (Fraction(1, 3), "33.3 %"), (Fraction(12345), "1,234,500.0 %"), (Fraction(1, 2000), "0.050 %"),
    (Fraction(1, 123456789), "0.00000081 %"), (Fraction(999, 1000000), "0.099 %"), (Fraction(1, 1000), "0.1 %"),
])  # fmt: skip
def test_percents_rounded_down_are_never_more_and_never_nothing(value: Fraction, text: str):
    assert shown.percent_down(value) == text


def test_amounts_and_decimals():
    assert [shown.amount(Fraction(x)) for x in ("1234567.5", "0.0004", "0", "0.00006251", "3", "2.0006")] == [
        "1,234,567.5", "0.0004", "0", "0.000063", "3", "2.001"]
    assert [shown.amount_carried(Fraction(x)) for x in ("3200/310", "0.0019", "0.00006259", "5")] == ["10.322", "0.001", "0.000062", "5"]
    assert [shown.decimal(Fraction(x)) for x in ("-0.0000004", "-1.5", "1/3")] == ["0.000000", "-1.500000", "0.333333"]


def hostile() -> Figures:
    """A network whose names are markup, and bytes that are no UTF-8."""
    names = [SCRIPT, QUOTE, "&lt;b&gt;", "x" * 250, "\xff\xfe", "\xe2\x80\xaeright"]
    nodes = "".join(f"  {name}\n" for name in names)
    links = "".join(f"  {name}'{at} ( {name} {names[at - 1]} ) 5 0 0 0 ( )\n" for at, name in enumerate(names))
    demands = "".join(f"  {name};{at} ( {name} {names[at - 1]} ) 1 1 UNLIMITED\n" for at, name in enumerate(names))
    net = read_network(f"{HEAD}NODES (\n{nodes})\nLINKS (\n{links})\nDEMANDS (\n{demands})\n")
    routes = [Route(demand.id, 1, (link.id,)) for demand, link in zip(net.demands, net.links)]
    return Figures(
        scale(net),
        Certificate(
            1,
            "undirected",
            "largest",
            1,
            5,
            1,
            routes,
            lengths=[Length(link.id, 1) for link in net.links],
            potentials=[Potential(node.id, (0, 1, 1, 1, 1, 1)) for node in net.nodes],
        ),
    )


def test_names_are_escaped_and_nothing_comes_from_elsewhere():
    text = page_of(hostile(), title=SCRIPT)
    assert "<script" not in text and "&lt;script&gt;window.top.hit=1&lt;/script&gt;" in text
    assert 'onload="' not in text.replace("&#34;", "")
    assert not re.search(r"(?:src|href)\s*=|url\(|@import|<link|<img|<iframe|https?://", text)
    assert "default-src 'none'" in text


@pytest.mark.parametrize("width", [400, 1600])
def test_pages_lie_within_their_width_in_a_browser(tmp_path: Path, width: int, triangle: Figures, by_hand: Figures):
    text = read_any(load_text(EXAMPLES / "polska.cert"))
    polska = Figures(scale(_network("polska"), text.links, text.modules), text)
    for found, circles, lines in (
        (page_of(polska), 12, 18),
        (page_of(by_hand, triangle), 6, 6),
        (page_of(hostile(), title=SCRIPT), 6, 6),
    ):
        seen = browser.measured(found, width, tmp_path)
        assert seen["outside"] == [] and seen["lost"] == [] and seen["wide"] <= width
        assert seen["circles"] == circles and sum(seen["strokes"].values()) == lines
        assert seen["picture"][0] > 250 and seen["picture"][1] > 100
        assert "none" not in seen["strokes"]
        assert seen["scripts"] == 0 and not seen["hit"]
    assert SCRIPT in seen["text"] and seen["title"] == SCRIPT


def test_the_colours_in_a_browser_are_those_of_the_legend(tmp_path: Path, triangle: Figures):
    assert browser.measured(page_of(triangle), 1600, tmp_path)["strokes"] == {
        "rgb(244, 160, 92)": 1,
        "rgb(230, 195, 74)": 1,
        "rgb(67, 147, 195)": 1,
    }


def greatest() -> Figures:
    """512 nodes in a ring with chords, 4,096 links, and 5,000 demands over fewest links."""
    nodes = "".join(f"  N{at}\n" for at in range(512))
    ends = [(at % 512, (at + 1 + 7 * (at // 512)) % 512) for at in range(4096)]
    links = "".join(f"  L{at} ( N{a} N{b} ) {1 + at % 90} 0 0 0 ( )\n" for at, (a, b) in enumerate(ends))
    pairs = [(at * 37 % 512, (at * 37 + 1 + at * 11 % 511) % 512) for at in range(5000)]
    demands = "".join(f"  D{at} ( N{a} N{b} ) 1 1 UNLIMITED\n" for at, (a, b) in enumerate(pairs))
    scaled = scale(read_network(f"{HEAD}NODES (\n{nodes})\nLINKS (\n{links})\nDEMANDS (\n{demands})\n"))
    trees = {source: _tree(ends, source) for source in {a for a, _ in pairs}}
    routes = [Route(f"D{at}", 1, tuple(f"L{link}" for link in _way(trees[a], ends, b))) for at, (a, b) in enumerate(pairs)]
    return Figures(
        scaled,
        Certificate(
            1,
            "undirected",
            "largest",
            1,
            1,
            60,
            routes,
            lengths=[Length(f"L{at}", 1 + at % 7) for at in range(4096)],
            potentials=[Potential(f"N{a}", (1,) * 512) for a in trees],
        ),
    )


def _tree(ends: list[tuple[int, int]], source: int) -> list[int]:
    """The link by which each node is reached first, by breadth."""
    around: list[list[tuple[int, int]]] = [[] for _ in range(512)]
    for at, (a, b) in enumerate(ends):
        around[a].append((at, b))
        around[b].append((at, a))
    by, queue = [-1] * 512, deque([source])
    by[source] = -2
    while queue:
        for at, other in around[queue.popleft()]:
            if by[other] == -1:
                by[other] = at
                queue.append(other)
    return by


def _way(tree: list[int], ends: list[tuple[int, int]], target: int) -> list[int]:
    """The links from the root of a tree to a node."""
    way = []
    while tree[target] >= 0:
        way.append(tree[target])
        a, b = ends[tree[target]]
        target = a + b - target
    return way[::-1]


@pytest.fixture(name="greatest_page", scope="module")
def _greatest_page() -> str:
    found = greatest()
    object.__setattr__(found, "upper", Fraction(1))
    return page_of(found)


def bare(text: str) -> str:
    """A page with as many lines and rows of a table as this one has, and nothing else: what the browser itself takes for them."""
    lines, rows, fields = (text.count(mark) for mark in ("<path", "<tr", "<td"))
    drawn = "".join(f'<path d="M{at % 800} {at * 7 % 800} L{at * 13 % 800} {at * 17 % 800}" stroke="black"/>' for at in range(lines))
    row = f"<tr>{'<td>1.25</td>' * (fields // rows)}</tr>"
    return f'<!DOCTYPE html><body><svg width="800" height="800">{drawn}</svg><table>{row * rows}</table></body>'


def test_the_greatest_network_opens_in_under_three_seconds(tmp_path: Path, greatest_page: str):
    seen = browser.measured(greatest_page, 1600, tmp_path)
    assert seen["circles"] == 512 and sum(seen["strokes"].values()) == 4096
    assert seen["outside"] == [] and seen["wide"] <= 1600
    # Where other work keeps the processors, a page with nothing but as many elements takes longer too: ours takes half of its time.
    took, beside = [seen["seconds"]], []
    while min(took) >= 3 and (not beside or min(took) >= min(beside)) and len(took) < 5:
        beside.append(browser.measured(bare(greatest_page), 1600, tmp_path)["seconds"])
        took.append(browser.measured(greatest_page, 1600, tmp_path)["seconds"])
    assert min(took) < 3 or min(took) < min(beside), (took, beside)


def report(*words: str | Path, program: Program, status: int = 0) -> tuple[str, str]:
    """What a run writes on both outputs."""
    done = subprocess.run([REPORT, *map(str, words), "--mcf", program.path], capture_output=True, text=True, check=False)
    assert done.returncode == status, done.stderr
    return done.stdout, done.stderr


def test_the_command_writes_page_and_tables(tmp_path: Path, program: Program):
    net, cert = EXAMPLES / "polska.net", EXAMPLES / "polska.cert"
    words = ["--html", tmp_path / "x.html", "--csv", tmp_path / "x.csv", "--paths", tmp_path / "p.csv"]
    sentence = "Not every demand fits: these paths carry 39.9 % of each, and no routing carries more than 41.9 %.\n"
    assert report(net, cert, *words, program=program) == (sentence, "")
    first = [(tmp_path / name).read_bytes() for name in ("x.html", "x.csv", "p.csv")]
    report(net, cert, *words, program=program)
    assert first == [(tmp_path / name).read_bytes() for name in ("x.html", "x.csv", "p.csv")]
    assert (
        shown.joined(sentence.strip()).encode() in first[0]
        and b"<b>9,658 Mbit/s</b>" in first[0]
        and b"<th>Load, Mbit/s</th>" in first[0]
    )
    assert len(first[1].splitlines()) == 19
    out, _ = report(net, cert, "--csv", "-", program=program)
    assert out.encode() == first[1]


def test_what_is_not_valid_is_not_shown(tmp_path: Path, program: Program):
    text = load_text(EXAMPLES / "polska.cert")
    bad = text.replace(" 16660 =Link_0_2", " 16661 =Link_0_2", 1)
    assert bad != text
    (tmp_path / "bad.cert").write_text(bad)
    _, said = report(EXAMPLES / "polska.net", tmp_path / "bad.cert", "--csv", "-", program=program, status=2)
    assert said == (
        f"report: {tmp_path / 'bad.cert'} on {EXAMPLES / 'polska.net'}: mcf check says: invalid C2: the weights of a demand do not sum to "
        "phases times its amount, mostly since the network's file was changed after the certificate was made: make a new one\n"
    )
    _, said = report(EXAMPLES / "triangle.net", EXAMPLES / "polska.cert", "--csv", "-", program=program, status=2)
    assert "mcf check says: refused cert K6 line 5: the certificate's counts are not those of this network; " in said


def test_a_routing_and_a_certificate_side_by_side(tmp_path: Path, program: Program):
    words = [EXAMPLES / "triangle.net", EXAMPLES / "triangle.routing", EXAMPLES / "triangle.cert", "--html", tmp_path / "x.html"]
    out, _ = report(*words, program=program)
    assert [line.split(":")[0] for line in out.splitlines()] == ["Before", "After"]
    text = (tmp_path / "x.html").read_text("utf-8")
    assert "Links before and after" in text and "<h3>Before</h3>" in text and "<h3>After</h3>" in text


def test_certificates_of_other_kinds_are_judged_by_their_check(tmp_path: Path, program: Program):
    for net, certificate, judge in (("detours", "detours.hops", "checkhops"), ("in-a-row", "in-a-row.throughput", "checkthroughput")):
        words = EXAMPLES / f"{net}.net", EXAMPLES / certificate
        report(*words, "--html", tmp_path / "x.html", program=program)
        assert f"mcf {judge}: valid closed " in (tmp_path / "x.html").read_text("utf-8")
        bad = tmp_path / "bad"
        bad.write_text(words[1].read_text().replace("phases ", "phases 1", 1).replace("length ", "length =A 1\nlength ", 1))
        _, said = report(words[0], bad, "--csv", "-", program=program, status=2)
        assert said.count("\n") == 1 and f"mcf {judge} says: refused cert K3" in said
