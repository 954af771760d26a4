"""`tools/convert` reads its input as it stands, or refuses it by its line, and changes nothing that it does not say."""

from __future__ import annotations

import csv
import io
import re
from fractions import Fraction
from pathlib import Path

import pytest

from converted import DATA, EXAMPLES, converted, made
from mcf.convert.words import MOST, word_of
from mcf.names import cell_of, text_of
from mcf.units import Rate, carrier_of, unit_of

LINKS = "source,target,capacity\nA,B,3\nB,C,4\n"
NET = """?SNDlib native format; type: network; version: 1.0
NODES (
  A ( 1 2 )
  B ( 3 4 )
)
LINKS (
  L1 ( A B ) 10 0 0 0 ( )
  L2 ( B A ) 10 0 0 0 ( 5 1 20 2 )
)
DEMANDS (
  D1 ( A B ) 1 4 UNLIMITED
  D2 ( B A ) 2 1.5 UNLIMITED
)
"""


# tables


@pytest.mark.parametrize(
    ("text", "why"),
    [
        ("source,target,capacity\nA,B,1,000\n", "t.csv line 2: 4 columns, and the first row has 3 (a comma within a number makes two of it: leave it out)"),
        ("source,target,capacity\nA,B,3\nB,C\n", "t.csv line 3: 2 columns, and the first row has 3"),
        ("source,target,capacity\nA,B,3,\n", "t.csv line 2: 4 columns, and the first row has 3"),
        ('source,target,capacity\n"A\nX",B,3\nB,C,3,4\n', "t.csv line 4: 4 columns, and the first row has 3"),
        ("\n\nsource,target,capacity\n\nA,B\n", "t.csv line 5: 2 columns, and the first row has 3"),
        ('source,target,capacity\nA,B,"1,000"\n', "t.csv line 2: capacity: '1,000' is no number of at least 0 (a comma between thousands is not read: leave it out)"),
        ('source,target,capacity\nA,B,"1,234,567.5"\n', "t.csv line 2: capacity: '1,234,567.5' is no number of at least 0 (a comma between thousands is not read: leave it out)"),
        ('source,target,capacity\nA, "B",3\n', "t.csv line 2: a blank before a quotation mark, which so is no mark"),
        ('source,target,capacity\nA,"B"x,3\n', "t.csv line 2: ',' expected after '\"'"),
        ("# made by hand\nsource,target,capacity\nA,B,3\n", "t.csv line 1: a line that begins with # is a row too, and the first row names the columns: take it out"),
        ("source,target,capacity\n# the west\nA,B,3\n", "t.csv line 2: 1 column, and the first row has 3 (a line that begins with # is a row too: take comments out)"),
        ("source,target,capacity,capacity\nA,B,3,4\n", "t.csv line 1: two columns are named 'capacity'"),
        ("source,target,capacity\nA,B,\u0663\n", "t.csv line 2: capacity: '\u0663' is no number of at least 0"),
        (f"source,target,capacity\nA,B,{'9' * 5000}\n", "t.csv line 2: capacity: a number of 5000 characters: at most 255 are read"),
        (f"source,target,capacity\nA,B,{'9' * 200}\n", None),
        ("source,target,amount,longest\nA,B,3,abc\n", "t.csv line 2: the longest path is UNLIMITED or a number, and not 'abc'"),
        ("source,target,amount,hour\nA,B,3,1\nA,B,3,\n", "t.csv line 3: no matrix, which other rows have"),
        ("-,A,B\nA,0,1\nB,1\n", "t.csv line 3: 2 columns, and the first row has 3"),
        ("-,A,A\nA,0,1\nA,1,0\n", "t.csv line 1: 'A' stands twice"),
        ("node,x,y\nA,1,\n", "t.csv line 2: a place is both x and y, or none"),
    ],
)  # fmt: skip
def test_tables_are_refused_by_their_line(tmp_path: Path, text: str, why: str | None) -> None:
    end = converted(made(tmp_path, t_csv=text), "t.csv", to="net" if "capacity" in text else "demands")
    assert end.why == why if why else len(end.why) < 400


def test_rows_that_begin_with_a_hash_are_rows(tmp_path: Path) -> None:
    end = converted(made(tmp_path, t_csv="source,target,capacity\n#A,B,3\nB,#A,4\n"), "t.csv")
    assert end.rows("LINKS") == ["_A-B ( _A B ) 3 0 0 0 ( )", "B-_A ( B _A ) 4 0 0 0 ( )"]
    assert "renamed: node '#A' is _A" in end.said


def test_blanks_round_words_are_said(tmp_path: Path) -> None:
    end = converted(made(tmp_path, t_csv="source,target,capacity\nA,B,3\nA ,C, 4\n"), "t.csv")
    assert end.rows("LINKS") == ["A-B ( A B ) 3 0 0 0 ( )", "A-C ( A C ) 4 0 0 0 ( )"]
    assert end.said[0] == "read: t.csv line 3: blanks round a word are no part of it, here and further on"


def test_blanks_of_other_kinds_stay(tmp_path: Path) -> None:
    end = converted(made(tmp_path, t_csv="source,target,capacity\n\u00a0A\u2028,B\x85,3\n"), "t.csv")
    assert "NODES (\n  \u00a0A\u2028\n  B\x85\n)\n" in (end.text or "") and not any("renamed" in line for line in end.said)


def test_a_decimal_comma_makes_no_thousand_of_a_point(tmp_path: Path) -> None:
    room = made(tmp_path, a_csv="source;target;capacity\nA;B;1.000\n", b_csv="source;target;capacity\nA;B;1.000,5\n", c_csv="source;target;capacity\nA;B;1,5\n")
    assert "a.csv line 2: capacity: '1.000' may be a number of thousands" in converted(room, "a.csv", "--decimal-comma").why
    assert "b.csv line 2: capacity: '1.000,5' may be a number of thousands" in converted(room, "b.csv", "--decimal-comma").why
    assert converted(room, "c.csv", "--decimal-comma").rows("LINKS") == ["A-B ( A B ) 1.5 0 0 0 ( )"]


def test_bytes_of_no_encoding_are_refused_by_their_line(tmp_path: Path) -> None:
    (tmp_path / "t.csv").write_bytes(b"source,target,capacity\nA,B,3\nA,\x81,4\n")
    assert converted(tmp_path, "t.csv").why == "t.csv line 3: a byte that is neither UTF-8 nor Windows-1252"


def test_columns_are_told_for_each_file(tmp_path: Path) -> None:
    room = made(tmp_path, l_csv="left,right,size\nA,B,3\n", d_csv="left,right,size\nB,A,2\n")
    columns = "source=left,target=right,"
    end = converted(room, "l.csv", "d.csv", "--columns", f"{room}/l.csv:{columns}capacity=size", "--columns", f"{room}/d.csv:{columns}amount=size")
    assert (end.rows("LINKS"), end.rows("DEMANDS")) == (["A-B ( A B ) 3 0 0 0 ( )"], ["B-A ( B A ) 1 2 UNLIMITED"])
    assert converted(room, "l.csv", "--columns", f"{columns}capacity=size", "--columns", "source=right").why == "--columns: source is given twice"
    assert converted(room, "l.csv", "--columns", "source=left,target=left").why == "--columns: 'left' is given twice"
    end = converted(made(room, e_csv='source,target,"size, Mbit"\nA,B,3\n'), "e.csv", "--columns", '"capacity=size, Mbit"')
    assert end.rows("LINKS") == ["A-B ( A B ) 3 0 0 0 ( )"]


def test_a_column_for_a_file_that_has_it_not_is_refused(tmp_path: Path) -> None:
    room = made(tmp_path, l_csv=LINKS, d_csv="source,target,amount\nA,B,3\n")
    said = converted(room, "l.csv", "d.csv", "--columns", f"{room}/l.csv:amount=amount").why
    assert said == "l.csv has no column 'amount': l.csv has source, target, capacity"


def test_words_that_are_given_twice_are_refused(tmp_path: Path) -> None:
    room = made(tmp_path, l_csv=LINKS)
    assert converted(room, "l.csv", "--unit", "Mbit", "--unit", "Gbit").why == "--unit is given twice (convert --help has the words)"
    assert converted(room, "l.csv", "--to", "net").why == "--to is given twice (convert --help has the words)"


# units

UNIT_TABLE = {
    1: ["b", "bit", "Bit", "bits", "b/s", "bps", "bit/s", "bits/s", "BITPERSEC", "bitspersec"],
    10**3: ["k", "K", "kb", "kbit", "Kbit", "kbps", "kb/s", "Kbit/s", "KBITPERSEC"],
    10**6: ["m", "M", "Mb", "Mbit", "Mbits", "Mbps", "mbps", "Mb/s", "Mbit/s", "MBIT/S", "MBITPERSEC"],
    10**9: ["g", "G", "Gb", "Gbit", "Gbps", "gbps", "Gb/s", "Gbit/s", "GBITPERSEC"],
    10**12: ["t", "T", "Tb", "Tbit", "Tbps", "Tb/s", "Tbit/s", "TBITPERSEC"],
}
BYTE_TABLE = {
    8: ["B", "B/s", "Bps", "byte", "bytes", "Byte/s", "BYTEPERSEC"],
    8 * 10**3: ["kB", "KB", "kB/s", "KBps", "kbyte", "Kbytes/s"],
    8 * 10**6: ["MB", "MB/s", "MBps", "Mbyte", "MBYTE/S", "mB/s"],
    8 * 10**9: ["GB", "GB/s", "GBps", "Gbytes"],
    8 * 10**12: ["TB", "TB/s", "TBps", "Tbyte/s"],
}
NO_UNITS = ["", "MBPS", "MB/S", "Mi", "Mib", "MiB", "GE", "10G", "x", "Mbaud", "pps", "P", "Pb/s", "bit/", "/s", "kk", "s", "octets", "Erl", "E1", "T3", "G.703"]
CARRIERS = {"OC-1": 51_840_000, "OC-3": 155_520_000, "OC3": 155_520_000, "OC-12": 622_080_000, "oc-48": 2_488_320_000, "OC-48c": 2_488_320_000,
            "OC-192": 9_953_280_000, "OC-768": 39_813_120_000, "STM-1": 155_520_000, "STM-4": 622_080_000, "STM16": 2_488_320_000,
            "STM-64": 9_953_280_000, "stm-256": 39_813_120_000}  # fmt: skip
NO_CARRIERS = ["OC", "OC-", "OC-0", "OC-048", "STM", "STM-0", "OC--3", "OC-3x", "2xOC-3", "STS-1", "OC-99999"]


@pytest.mark.parametrize(("bits", "word"), [(bits, word) for bits, words in UNIT_TABLE.items() for word in words])
def test_units_of_bits(tmp_path: Path, bits: int, word: str) -> None:
    assert unit_of(word) == Rate(bits)
    end = converted(made(tmp_path, t_csv=f"source,target,capacity\nA,B,2.5{word}\nB,C,7 {word}\n"), "t.csv", "--unit", "bit")
    assert [Fraction(row.split()[5]) for row in end.rows("LINKS")] == [Fraction(5, 2) * bits, 7 * bits]


@pytest.mark.parametrize(("bits", "word"), [(bits, word) for bits, words in BYTE_TABLE.items() for word in words])
def test_units_of_bytes_are_refused_unless_asked_for(tmp_path: Path, bits: int, word: str) -> None:
    assert unit_of(word) == Rate(bits, is_of_bytes=True)
    room = made(tmp_path, t_csv=f"source,target,capacity\nA,B,3M\nB,C,0.5{word}\n")
    assert converted(room, "t.csv", "--unit", "Mbit").why == f"t.csv line 3: capacity: '0.5{word}' is of bytes: --bytes reads each of them as eight bits"
    end = converted(room, "t.csv", "--unit", "Mbit", "--bytes")
    assert [Fraction(row.split()[5]) for row in end.rows("LINKS")] == [3, Fraction(bits, 2 * 10**6)]


@pytest.mark.parametrize("word", NO_UNITS)
def test_other_units_are_refused_by_their_line(tmp_path: Path, word: str) -> None:
    assert unit_of(word) is None
    if re.fullmatch("[A-Za-z/]+", word) and word[0] != "/":
        said = converted(made(tmp_path, t_csv=f"source,target,capacity\nA,B,3M\nB,C,2{word}\n"), "t.csv", "--unit", "Mbit").why
        assert said.startswith(f"t.csv line 3: capacity: '2{word}' has an unknown unit: known are bit/s, ")


@pytest.mark.parametrize(("word", "bits"), CARRIERS.items())
def test_carriers(tmp_path: Path, word: str, bits: int) -> None:
    assert carrier_of(word) == Rate(bits)
    end = converted(made(tmp_path, t_csv=f"source,target,capacity\nA,B,{word}\n"), "t.csv", "--unit", "Mbit")
    assert [Fraction(row.split()[5]) for row in end.rows("LINKS")] == [Fraction(bits, 10**6)]


@pytest.mark.parametrize("word", NO_CARRIERS)
def test_what_is_no_carrier_is_refused(tmp_path: Path, word: str) -> None:
    assert carrier_of(word) is None
    assert "t.csv line 2: capacity: " in converted(made(tmp_path, t_csv=f"source,target,capacity\nA,B,{word}\n"), "t.csv", "--unit", "Mbit").why


def test_bytes_a_second_are_not_bits(tmp_path: Path) -> None:
    room = made(tmp_path, t_csv="source,target,capacity\nA,B,100MB/s\n")
    assert "of bytes" in converted(room, "t.csv", "--unit", "Mbit").why
    assert converted(room, "t.csv", "--unit", "Mbit", "--bytes").rows("LINKS") == ["A-B ( A B ) 800 0 0 0 ( )"]


@pytest.mark.parametrize("kind", ["csv links, REPETITA demands", "XML links, csv demands", "REPETITA links, csv demands"])
def test_a_file_without_units_beside_one_with_units_is_refused(tmp_path: Path, kind: str) -> None:
    room = made(tmp_path, l_csv="id,source,target,capacity\ne,0_New_York,2_Washington_DC,4\n", d_csv="source,target,amount\nUlm,Köln,2\n", e_csv="source,target,amount\n1_Chicago,0_New_York,2\n")
    files: tuple[str | Path, ...]
    files, lost = {
        "csv links, REPETITA demands": (("l.csv", DATA / "small.0000.demands"), "l.csv"),
        "XML links, csv demands": ((DATA / "network.xml", "d.csv"), "d.csv"),
        "REPETITA links, csv demands": ((DATA / "small.graph", "e.csv"), "e.csv"),
    }[kind]
    assert converted(room, *files).why.startswith(f"{lost} does not say its unit: --from-unit says in which its numbers are")
    end = converted(room, *files, "--from-unit", "Gbit", "--merge")
    if kind != "csv links, REPETITA demands":
        assert [Fraction(row.split()[6]) for row in end.rows("DEMANDS")] == [2 * (10**3 if "XML" in kind else 10**6)]


def test_an_unknown_unit_of_meta_is_named(tmp_path: Path) -> None:
    room = made(tmp_path, a_net=NET.replace("NODES (", "META (\n  unit = POUNDS\n)\nNODES (", 1))
    assert "unit = POUNDS" in converted(room, "a.net").rows("META")
    assert "does not say its unit (META has POUNDS, which is none that is known)" in converted(room, "a.net", "--unit", "Mbit").why


def test_a_list_is_in_the_unit_of_its_network(tmp_path: Path) -> None:
    room = made(tmp_path, a_list="day ( D ( Gdansk Krakow ) 1 7 UNLIMITED )\n")
    end = converted(room, "--net", EXAMPLES / "polska.net", "a.list", "--unit", "kbit", to="list")
    assert "  D ( Gdansk Krakow ) 1 7000 UNLIMITED\n" in (end.text or "")
    assert any(line.startswith("note: a.list: its numbers are in the unit of ") for line in end.said)


# GraphML

GRAPH = """<graphml xmlns="http://graphml.graphdrawing.org/xmlns">
<key id="c" for="edge" attr.name="capacity" attr.type="double"><default>7.25</default></key>
<key id="s" for="edge" attr.name="LinkSpeed" attr.type="string"/>
<key id="u" for="edge" attr.name="LinkSpeedUnits" attr.type="string"/>
<key id="x" for="all" attr.name="note" attr.type="string"/>
<graph edgedefault="undirected">
<node id="a"/><node id="b"/>
%s
</graph></graphml>
"""


def graph(edges: str, *, default: bool = False) -> str:
    """A graph of two nodes with these edges."""
    text = GRAPH % edges
    return text if default else text.replace("<default>7.25</default>", "")


def test_defaults_of_keys_hold(tmp_path: Path) -> None:
    edges = '<edge source="a" target="b"/><edge source="a" target="b"><data key="c">2</data></edge>'
    end = converted(made(tmp_path, g_graphml=graph(edges, default=True)), "g.graphml")
    assert [row.split()[5] for row in end.rows("LINKS")] == ["7.25", "2"]


def test_speeds_keep_their_units(tmp_path: Path) -> None:
    edges = '<edge source="a" target="b"><data key="s">10</data><data key="u">%s</data></edge>'
    for unit, mbit in (("G", "10000"), ("M", "10"), ("K", "0.01"), ("Gbit/s", "10000")):
        end = converted(made(tmp_path, g_graphml=graph(edges % unit)), "g.graphml", "--unit", "Mbit")
        assert [row.split()[5] for row in end.rows("LINKS")] == [mbit]
    assert "10G has a unit: --unit says" in converted(made(tmp_path, g_graphml=graph(edges % "G")), "g.graphml").why
    assert "LinkSpeedUnits is 'furlongs'" in converted(made(tmp_path, g_graphml=graph(edges % "furlongs")), "g.graphml", "--unit", "Mbit").why
    assert "is of bytes" in converted(made(tmp_path, g_graphml=graph(edges % "MB/s")), "g.graphml", "--unit", "Mbit").why
    bare = '<edge source="a" target="b"><data key="s">10</data></edge>'
    assert "has no unit: --from-unit" in converted(made(tmp_path, g_graphml=graph(bare)), "g.graphml", "--unit", "Mbit").why


@pytest.mark.parametrize(
    ("old", "new", "why"),
    [
        ("%s", '<edge source="a" target="c"><data key="c">1</data></edge>', "line 8: 'c' is no node"),
        ('<node id="b"/>', '<node id="b"/>\n<node id="a"/>', "line 8: node 'a' stands twice"),
        ("%s", '<edge source="a" target="b"><data key="c">nan</data></edge>', "'nan' is no number of at least 0"),
        ("%s", '<edge source="a" target="b"><data key="c">INF</data></edge>', "'INF' is no number of at least 0"),
        ("%s", '<edge source="a" target="b"><data key="c">1</data>\n<data key="c">2</data></edge>', "line 9: a second 'capacity' of the same edge"),
        ("%s", '<edge source="a" target="b" directed="true"/>\n<edge source="a" target="b"/>', "line 9: edges of both kinds"),
        ("%s", '<edge source="a" target="b" directed="maybe"/>', "line 8: directed is true or false, and not 'maybe'"),
        (' edgedefault="undirected"', "", "line 6: edgedefault is directed or undirected, and not ''"),
        ('<node id="b"/>', '<node id="b"><graph edgedefault="directed"/></node>', "line 7: a graph within a node is not read"),
        ('attr.name="note"', 'attr.name="note"/><key id="x" for="node" attr.name="other"', "line 5: a second key of 'other'"),
        ('<key id="x"', '<!DOCTYPE x [<!ENTITY a "b">]><key id="x"', "line 5: no XML"),
    ],
)  # fmt: skip
def test_graphs_are_refused_by_their_line(tmp_path: Path, old: str, new: str, why: str) -> None:
    text = GRAPH.replace("<default>7.25</default>", "").replace(old, new) if old == "%s" else graph("").replace(old, new)
    assert why in converted(made(tmp_path, g_graphml=text), "g.graphml", "--capacity-default", "1").why


def test_exact_decimals_pass_through_graphs(tmp_path: Path) -> None:
    edges = '<edge source="a" target="b"><data key="c">8796093022.207999</data></edge>'
    room = made(tmp_path, g_graphml=graph(edges))
    end = converted(room, "g.graphml", to="graphml")
    assert ">8796093022.207999<" in (end.text or "")


@pytest.mark.parametrize(
    "doctype",
    [
        '<!DOCTYPE r [<!ENTITY a "aaaa">]>',
        '<!DOCTYPE r [<!ENTITY a SYSTEM "file:///etc/passwd">]>',
        '<!DOCTYPE r [<!ENTITY % a SYSTEM "file:///etc/passwd"> %a;]>',
        '<!DOCTYPE r [<!ENTITY a "1"><!ENTITY b "&a;&a;&a;&a;">]>',
        '<!DOCTYPE r [<!NOTATION n SYSTEM "n"><!ENTITY a SYSTEM "x" NDATA n>]>',
    ],
)
@pytest.mark.parametrize("root", ["graphml", "network"])
def test_entities_are_refused_by_their_line(tmp_path: Path, doctype: str, root: str) -> None:
    text = f'<?xml version="1.0"?>\n{doctype}\n<{root}><meta><unit>&a;</unit></meta></{root}>'
    assert converted(made(tmp_path, b_xml=text), "b.xml").why == "b.xml line 2: entities of its own are not read"


def test_a_doctype_of_another_file_is_not_followed(tmp_path: Path) -> None:
    text = (DATA / "network.xml").read_text("iso-8859-1").replace("?>", '?>\n<!DOCTYPE network SYSTEM "file:///nowhere.dtd">', 1)
    (tmp_path / "n.xml").write_text(text, "iso-8859-1")
    assert converted(tmp_path, "n.xml").rows("NODES") == converted(tmp_path, DATA / "network.xml").rows("NODES")


def test_the_line_of_an_entity_is_right_behind_65535(tmp_path: Path) -> None:
    text = graph("\n" * 70_000 + '<edge source="a" target="c"/>')
    assert converted(made(tmp_path, g_graphml=text), "g.graphml").why == "g.graphml line 70008: 'c' is no node"


def test_what_is_not_read_is_said(tmp_path: Path) -> None:
    edges = '<edge source="a" target="b"><desc>x</desc><data key="c">1</data><data key="x">y</data></edge><hyperedge/><data key="x">z</data>'
    said = converted(made(tmp_path, g_graphml=graph(edges)), "g.graphml").said
    for line in ("attribute <desc> of 1 entries", "attribute note of 1 entries", "hyperedge of the graph", "1 attributes of the graph"):
        assert f"dropped: g.graphml: {line}" in said


# how links are meant


def test_directed_links_stay_directed(tmp_path: Path) -> None:
    end = converted(tmp_path, DATA / "small.graph", to="graphml")
    assert '<graph edgedefault="directed">' in (end.text or "") and end.said[0] == f"links: directed, as {DATA}/small.graph says"
    first = converted(made(tmp_path, a_graphml=end.text or ""), "a.graphml", "--capacity-default", "1")
    assert first.rows("META") == ["links = directed"] and first.said[0] == "links: directed, as a.graphml says"
    again = converted(made(tmp_path, a_net=first.text or ""), "a.net", to="graphml")
    assert '<graph edgedefault="directed">' in (again.text or "") and again.said[0] == "links: directed, as a.net says"


def test_links_are_meant_as_the_words_say(tmp_path: Path) -> None:
    room = made(tmp_path, l_csv=LINKS)
    end = converted(room, "l.csv", "--links", "directed")
    assert end.said[0] == "links: directed, as --links says" and end.rows("META") == ["links = directed"]
    again = converted(made(room, a_net=end.text or ""), "a.net", "--links", "undirected")
    assert again.why == "a.net says that its links are directed, and --links says undirected"
    table = converted(room, "a.net", to="links")
    assert "dropped: that links are directed, which a table does not say: --links directed says it again" in table.said
    assert converted(made(room, d_csv="source,target,amount\nA,B,1\n"), "d.csv", "--links", "directed", to="list").why.startswith("--links says how")


def test_a_comment_on_links_is_told_in_the_first_line(tmp_path: Path) -> None:
    room = made(tmp_path, a_net=NET.replace("LINKS (", "# all links are directed\nLINKS (").replace("DEMANDS", "OTHER ( x )\nDEMANDS"))
    end = converted(room, "a.net")
    assert end.said[0] == "links: undirected; a comment in line 6 of a.net says directed: --links directed reads them so"
    assert converted(room, "a.net", "--links", "directed").said[0] == "links: directed, as --links says"


# network files


@pytest.mark.parametrize(
    ("old", "new", "why"),
    [
        ("UNLIMITED", "abc", "a.net line 11: the longest path is UNLIMITED or a number, and not 'abc'"),
        ("L2 ( B A )", "L1 ( B A )", "a.net line 8: 'L1' stands twice"),
        ("D2 ( B A )", "D1 ( B A )", "a.net line 12: 'D1' stands twice"),
        ("  B ( 3 4 )", "  A", "a.net line 4: 'A' stands twice"),
        ("L2 ( B A )", "L2 ( B X )", "a.net line 8: 'X' is no node"),
        ("D2 ( B A )", "D2 ( B X )", "a.net line 12: 'X' is no node"),
        (" 10 0 0 0 ( )", " +10 0 0 0 ( )", "a.net line 7: '+10' is no number of at least 0"),
        (" 10 0 0 0 ( )", " 10 0 0 0 ( 5 )", "a.net line 7: a word is due, and not ')'"),
        ("LINKS (", "NODES (", "a.net line 6: LINKS is due, and not NODES"),
        ("DEMANDS (", "OTHER (", "a.net line 13: DEMANDS is due, and not the end"),
        ("?SNDlib native", "?SNDlib odd", "a.net line 1: "),
        ("L1 ", "L" * 256 + " ", "a.net line 7: a word of 256 bytes: at most 255 are read"),
    ],
)
def test_network_files_are_refused_as_the_program_does(tmp_path: Path, old: str, new: str, why: str) -> None:
    room = made(tmp_path, a_net=NET.replace(old, new, 1))
    assert converted(room, "a.net", "--from", "native").why.startswith(why)


# names


def test_a_label_of_100000_characters_is_cut_in_one_go(tmp_path: Path) -> None:
    label = "ä" * 100_000
    assert word_of(label) == "ä" * (MOST // 2)
    edges = '<edge source="a" target="b"><data key="c">1</data></edge>'
    text = graph(edges).replace('<node id="a"/>', f'<node id="a"><data key="l">{label}</data></node>')
    end = converted(made(tmp_path, g_graphml=text.replace('<key id="x"', '<key id="l" for="node" attr.name="label"/><key id="x"')), "g.graphml")
    assert end.rows("NODES")[0] == "ä" * (MOST // 2) and len(max(end.said, key=len)) < 400


@pytest.mark.parametrize("size", range(MOST - 3, MOST + 5))
@pytest.mark.parametrize("letter", ["a", "ä", "€", "𝄞", "\udcff"])
def test_words_are_cut_between_characters(size: int, letter: str) -> None:
    word = word_of("x" * (size - 1) + letter * 2)
    data = word.encode("utf-8", "surrogateescape")
    assert MOST - 3 <= len(data) <= MOST and ("x" * (size - 1) + letter * 2).startswith(word)


FORMULAS = ["=1+1", "+A", "-A", "@x", "'=1+1", "''+A", "-", "=", "'-5", "-5x", "+5", "-1e5"]
PLAIN = ["A", "'A", "''", "-5", "-74.00597", "", "A=1", "5", "'", "a'=b"]


@pytest.mark.parametrize("name", [*FORMULAS, *PLAIN, "\tA", "\rA", "'\tA"])
def test_cells_are_no_formulas_and_read_back(name: str) -> None:
    cell = cell_of(name)
    assert text_of(cell) == name
    assert cell == name if name in PLAIN else cell == f"'{name}"


def test_formulas_in_a_network_come_back_from_its_tables(tmp_path: Path) -> None:
    names = FORMULAS + [name for name in PLAIN if name]
    nodes = "".join(f"  {name} ( {name} -1.5 )\n" for name in names)
    links = "".join(f"  {name} ( {name} A ) 1 {name} 0 0 ( 2 {name} )\n" for name in names)
    demands = "".join(f"  {name} ( A {name} ) 1 1 UNLIMITED\n" for name in names)
    head = NET.splitlines()[0]
    text = f"{head}\nNODES (\n{nodes})\nLINKS (\n{links})\nDEMANDS (\n{demands})\n"
    room = made(tmp_path, a_net=text)
    for kind in ("links", "demands", "nodes"):
        table = converted(room, "a.net", to=kind).text or ""
        made(room, **{f"{kind}_csv": table})
        cells = {cell for row in csv.reader(io.StringIO(table)) for cell in row}
        assert not [cell for cell in cells if cell[:1] in tuple("=+@") or (cell[:1] == "-" and not re.fullmatch(r"-[0-9.]+", cell))]
    assert converted(room, "links.csv", "demands.csv", "nodes.csv").text == text


def test_a_name_that_may_be_of_two_nodes_is_refused(tmp_path: Path) -> None:
    edges = '<edge source="a" target="b"><data key="c">1</data></edge>'
    text = graph(edges).replace('<node id="a"/>', '<node id="a"><data key="l">b</data></node>').replace('<key id="x"', '<key id="l" for="node" attr.name="label"/><key id="x"')
    room = made(tmp_path, g_graphml=text, d_csv="source,target,amount\na,b,1\n")
    assert converted(room, "g.graphml", "d.csv").why == "d.csv line 2: a demand: 'b' is no node, but the name of several: b, b_2"


def test_names_that_become_words_of_nodes_are_said(tmp_path: Path) -> None:
    room = made(tmp_path, a_net=NET.replace("A (", "St._Gallen (").replace(" A ", " St._Gallen "), d_csv="source,target,amount\nSt. Gallen,B,1\nB,St. Gallen,1\n")
    end = converted(room, "a.net", "d.csv")
    assert end.said.count("read: 'St. Gallen' as node St._Gallen") == 1


def test_nodes_of_demands_alone_stay_two(tmp_path: Path) -> None:
    end = converted(made(tmp_path, d_csv="source,target,amount,hour\na b,a_b,1,1\na_b,a b,1,2\n"), "d.csv", to="list")
    assert re.findall(r"\( (\S+) (\S+) \)", end.text or "") == [("a_b", "a_b_2"), ("a_b_2", "a_b")]


# files


@pytest.mark.parametrize("how", ["itself", "link", "hard link", "spelling", "base"])
def test_the_input_is_never_overwritten(tmp_path: Path, how: str) -> None:
    source, target = tmp_path / "a.net", tmp_path / "b.net"
    source.write_text(NET.replace("NODES", "# kept\nNODES"))
    if how == "link":
        target.symlink_to(source)
    elif how == "hard link":
        target.hardlink_to(source)
    else:
        target = source if how != "spelling" else tmp_path / "x" / ".." / "a.net"
        (tmp_path / "x").mkdir()
    before = source.read_bytes()
    words = ["--net", str(source), str(made(tmp_path, d_csv="source,target,amount\nA,B,1\n") / "d.csv")] if how == "base" else [str(source)]
    assert "is read too" in played(*words, str(target)) and source.read_bytes() == before


def played(*words: str) -> str:
    """The one line of a run that is refused."""
    import contextlib
    import sys
    from unittest import mock

    from mcf.cli.convert import run
    from mcf.output import status_of

    said = io.StringIO()
    with mock.patch.object(sys, "argv", ["convert", *words]), contextlib.redirect_stderr(said):
        assert status_of(run, "convert") == 2
    assert said.getvalue().count("\n") == 1
    return said.getvalue()


def test_a_wrong_output_is_told_before_the_work(tmp_path: Path) -> None:
    assert played("/no/such/file.net", str(tmp_path / "no/where.net")) == f"convert: {tmp_path}/no/where.net: No such file or directory\n"


def test_standard_input_is_read_once() -> None:
    assert "standard input is read once" in played("-", "-", "/dev/null", "--to", "net")


# changes


def changed(room: Path, *words: str, text: str = NET) -> object:
    """The rows that changes make of the network."""
    end = converted(made(room, a_net=text), "a.net", *words)
    return end.rows("LINKS") + end.rows("DEMANDS") if end.status == 0 else end.why


BEFORE = ["L1 ( A B ) 10 0 0 0 ( )", "L2 ( B A ) 10 0 0 0 ( 5 1 20 2 )", "D1 ( A B ) 1 4 UNLIMITED", "D2 ( B A ) 2 1.5 UNLIMITED"]


@pytest.mark.parametrize(
    ("words", "rows"),
    [
        ("--capacity-of L1 40", {0: "L1 ( A B ) 40 0 0 0 ( )"}),
        ("--capacity-of L2 0.000001", {1: "L2 ( B A ) 0.000001 0 0 0 ( )"}),
        ("--times-capacity L2 2.5", {1: "L2 ( B A ) 25 0 0 0 ( 12.5 1 50 2 )"}),
        ("--close L2", {1: "L2 ( B A ) 0 0 0 0 ( )"}),
        ("--times-demand D2 0.1", {3: "D2 ( B A ) 2 0.15 UNLIMITED"}),
        ("--close L1 --close L1", {0: "L1 ( A B ) 0 0 0 0 ( )"}),
        ("--close L1 --fibres", {0: "L1 ( A B ) 0 0 0 0 ( )", 1: "L2 ( B A ) 0 0 0 0 ( )"}),
        ("--close L1 --close L2 --fibres", {0: "L1 ( A B ) 0 0 0 0 ( )", 1: "L2 ( B A ) 0 0 0 0 ( )"}),
        ("--capacity-of L2 3 --fibres", {0: "L1 ( A B ) 3 0 0 0 ( )", 1: "L2 ( B A ) 3 0 0 0 ( )"}),
        ("--times-capacity L1 2 --fibres", {0: "L1 ( A B ) 20 0 0 0 ( )", 1: "L2 ( B A ) 20 0 0 0 ( 10 1 40 2 )"}),
        ("--times-demand D1 2 --scale 1.5", {2: "D1 ( A B ) 1 12 UNLIMITED", 3: "D2 ( B A ) 1 4.5 UNLIMITED"}),
        ("--capacity-of L1 40 --times-capacity L2 2 --times-demand D1 2",
         {0: "L1 ( A B ) 40 0 0 0 ( )", 1: "L2 ( B A ) 20 0 0 0 ( 10 1 40 2 )", 2: "D1 ( A B ) 1 8 UNLIMITED"}),
    ],
)  # fmt: skip
def test_changes_of_links_and_demands(tmp_path: Path, words: str, rows: dict[int, str]) -> None:
    assert changed(tmp_path, *words.split()) == [rows.get(at, row) for at, row in enumerate(BEFORE)]


@pytest.mark.parametrize(
    ("words", "why"),
    [
        ("--close L9", "--close 'L9': there is no such link"),
        ("--times-demand L1 2", "--times-demand 'L1': there is no such demand"),
        ("--capacity-of L1 -3", "--capacity-of 'L1': '-3' is no number of at least 0"),
        ("--capacity-of L1 x", "--capacity-of 'L1': 'x' is no number of at least 0"),
        ("--capacity-of L1 1e-7", "--capacity-of 'L1': 0.0000001 has more than 6 decimals"),
        ("--times-capacity L1 0.1234567", "--times-capacity 'L1': 0.1234567 has more than 6 decimals"),
        ("--times-demand D2 0.000001", "demand D2: 0.0000015 has more than 6 decimals (--round N rounds it)"),
        ("--capacity-of L1 40 --close L1", "--capacity-of 'L1' and --close 'L1' both change link 'L1'"),
        ("--capacity-of L1 40 --capacity-of L1 41", "--capacity-of 'L1' and --capacity-of 'L1' both change link 'L1'"),
        ("--times-capacity L1 2 --times-capacity L1 2", "--times-capacity 'L1' and --times-capacity 'L1' both change link 'L1'"),
        ("--times-capacity L1 2 --times-capacity L2 2 --fibres", "--times-capacity 'L1' and --times-capacity 'L2' both change link 'L2'"),
        ("--times-demand D1 2 --times-demand D1 2", "--times-demand 'D1' is given twice"),
        ("--fibres", "--fibres says how links change, and no change of a link is asked for"),
        ("--close L1 --fibres --links undirected", "--fibres is for links that are directed, and these are undirected"),
        ("--capacity-of L1 40G", "--capacity-of 'L1': 40G has a unit: --unit says in which all are written"),
    ],
)
def test_changes_that_are_refused(tmp_path: Path, words: str, why: str) -> None:
    assert changed(tmp_path, *words.split()) == why


def test_a_fibre_is_known_or_refused(tmp_path: Path) -> None:
    text = NET.replace("  L2", "  L3 ( B A ) 5 0 0 0 ( )\n  L2")
    said = changed(tmp_path, "--close", "L1", "--fibres", text=text)
    assert said == "--close 'L1': 1 links from A to B and 2 back, so which two are a fibre is not known: name each, without --fibres"


def test_changes_may_have_units_and_are_said(tmp_path: Path) -> None:
    room = made(tmp_path, a_net=NET)
    end = converted(room, "a.net", "--from-unit", "Gbit", "--unit", "Mbit", "--capacity-of", "L2", "2.5G", "--close", "L1")
    assert [row.split()[5] for row in end.rows("LINKS")] == ["0", "2500"]
    assert end.said == ["changed: link L1: closed, capacity 10000 to 0", "changed: link L2: capacity 10000 to 2500, without its 2 modules"]


def test_a_missing_capacity_may_be_given(tmp_path: Path) -> None:
    room = made(tmp_path, l_csv="id,source,target,capacity\nL1,A,B,3\nL2,B,C,\n")
    assert converted(room, "l.csv", "--capacity-of", "L2", "5").rows("LINKS")[1] == "L2 ( B C ) 5 0 0 0 ( )"
    assert converted(room, "l.csv", "--times-capacity", "L2", "5").why == "--times-capacity 'L2': the link has no capacity"


def test_changes_of_what_is_not_written_are_refused(tmp_path: Path) -> None:
    room = made(tmp_path, a_net=NET)
    assert converted(room, "a.net", "--close", "L1", to="list").why == "--close 'L1' changes links, and what is written has none"
    assert converted(room, "a.net", "--times-demand", "D1", "2", to="graphml").why == "--times-demand 'D1' changes demands, and what is written has none"
    assert converted(room, "a.net", "--scale", "2", to="links").why == "--scale changes demands, and what is written has none"
    assert converted(room, "a.net", "--capacity", "bw", to="net").why.startswith("--capacity names an attribute of GraphML, and no file is one")
