"""`tools/convert`: other formats to network files and lists, and back; what is lost is said."""

from __future__ import annotations

import gzip
import random
import subprocess
from pathlib import Path

import pytest

from mcf import Program
from mcf.convert import work
from mcf.convert.model import Notes, Refused
from mcf.convert.work import Task

ROOT = Path(__file__).resolve().parents[2]
CONVERT = ROOT / "tools/convert"
DATA = ROOT / "tools/tests/data/convert"
EXAMPLES = ROOT / "examples"


def convert(*words: str | Path, status: int = 0) -> tuple[str, list[str]]:
    """What is written on standard output, and the lines that are said."""
    done = subprocess.run([CONVERT, *map(str, words)], capture_output=True, cwd=DATA, check=False)
    said = done.stderr.decode("utf-8").splitlines()
    assert done.returncode == status, said
    return done.stdout.decode("utf-8"), said


def rows(text: str, section: str) -> list[str]:
    """The rows of a section of a network text."""
    lines = text.splitlines()
    first = lines.index(f"{section} (") + 1
    return [line.strip() for line in lines[first : lines.index(")", first)]]


def refusal(*words: str | Path) -> str:
    """The one line of a refusal, which is the last."""
    out, said = convert(*words, status=2)
    assert not out and said[-1].startswith("convert: ")
    return said[-1]


def test_sndlib_xml_has_all_rows_and_says_what_is_dropped():
    text, said = convert("network.xml", "-", "--to", "net")
    assert rows(text, "NODES") == ["Köln ( 6.96 50.94 )", "Frankfurt_Main_ ( 8.68 50.11 )", "Ulm ( 9.99 48.40 )"]
    assert rows(text, "LINKS") == [
        "L1 ( Köln Frankfurt_Main_ ) 155 10.0 1.5 7.0 ( 40 133.0 160 399.0 )",
        "L2 ( Frankfurt_Main_ Ulm ) 622.08 0.0 0 0 ( )",
        "L3 ( Ulm Köln ) 0 0 0 0 ( 1000 5 )",
    ]
    assert rows(text, "DEMANDS") == ["Köln_Ulm ( Köln Ulm ) 2 30.5 3", "Frankfurt_Ulm ( Frankfurt_Main_ Ulm ) 1 20 UNLIMITED"]
    assert rows(text, "META") == ["granularity = 1month", "time = 2004", "unit = MBITPERSEC", "origin = made up for tests"]
    assert said == [
        "dropped: network.xml: admissiblePaths of demand 'Köln_Ulm'",
        "renamed: node 'Frankfurt (Main)' is Frankfurt_Main_",
    ]


def test_units_are_those_of_meta():
    text, _ = convert("network.xml", "-", "--to", "net", "--unit", "kbit")
    assert rows(text, "LINKS")[0] == "L1 ( Köln Frankfurt_Main_ ) 155000 10.0 1.5 7.0 ( 40000 133.0 160000 399.0 )"
    assert rows(text, "DEMANDS")[0] == "Köln_Ulm ( Köln Ulm ) 1 61000 3"
    assert "unit = KBITPERSEC" in rows(text, "META")


def test_dynamic_matrices_become_a_list():
    files = sorted(DATA.glob("demandMatrix-*.xml"))
    text, said = convert(*(f.name for f in files), "-", "--to", "list", "--round", "4")
    assert text.splitlines() == [
        "demandMatrix-abilene-zhang-5min-20040301-0000 (",
        "  ATLAM5_ATLAng ( ATLAM5 ATLAng ) 1 0.0012 UNLIMITED",
        "  ATLAng_CHINng ( ATLAng CHINng ) 1 4.5 UNLIMITED",
        ")",
        "demandMatrix-abilene-zhang-5min-20040301-0005 (",
        "  ATLAM5_ATLAng ( ATLAM5 ATLAng ) 1 1.25 UNLIMITED",
        "  ATLAng_CHINng ( ATLAng CHINng ) 1 0 UNLIMITED",
        ")",
    ]
    assert (
        said[0] == "rounded: matrix demandMatrix-abilene-zhang-5min-20040301-0000: demand ATLAM5_ATLAng: 0.00123456789 to 0.0012"
    )
    assert len([line for line in said if line.startswith("rounded")]) == 1


def test_nothing_is_rounded_unless_asked():
    files = sorted(f.name for f in DATA.glob("demandMatrix-*.xml"))
    assert "0.00123456789 has more than 6 decimals (--round N" in refusal(*files, "-", "--to", "list")


def test_rounding_to_nothing_is_said():
    _, said = convert("demandMatrix-abilene-zhang-5min-20040301-0000.xml", "-", "--to", "list", "--round", "2")
    assert said[0].endswith("demand ATLAM5_ATLAng: 0.00123456789 to 0, which leaves it out")


def test_rounding_of_many_numbers_is_said_in_one_line(tmp_path: Path):
    rows = [f"D{at},A,B,{at}.00{at + 1}" for at in range(9)]
    (tmp_path / "d.csv").write_text("\n".join(["id,source,target,amount", *rows, "small,B,A,0.001"]) + "\n")
    (tmp_path / "l.csv").write_text("id,source,target,capacity\nL,A,B,1.2345\n")
    text, said = convert(str(tmp_path / "l.csv"), str(tmp_path / "d.csv"), "-", "--to", "net", "--round", "2")
    line = "rounded: 11 numbers to 2 decimals, the first of link L: 1.2345 to 1.23; rounded to 0 and so left out: demand D0, demand small"
    assert [one for one in said if one.startswith("rounded")] == [line]
    assert rows_of_demands(text) == ["0", "1", "2", "3", "4.01", "5.01", "6.01", "7.01", "8.01", "0"]


def rows_of_demands(text: str) -> list[str]:
    """The amounts of the rows of demands."""
    return [row.split()[6] for row in rows(text, "DEMANDS")]


def test_topology_zoo_has_places_labels_and_raw_speeds():
    text, said = convert("zoo.graphml", "-", "--to", "net", "--unit", "Mbit", "--capacity-default", "2.4G")
    assert rows(text, "NODES") == [
        "New_York ( -74.00597 40.71427 )",
        "Chicago ( -87.65005 41.85003 )",
        "None",
        "None_2 ( -77.03637 38.89511 )",
    ]
    assert rows(text, "LINKS") == [
        "e1 ( New_York Chicago ) 10000 0 0 0 ( )",
        "New_York-Chicago ( New_York Chicago ) 622 0 0 0 ( )",
        "Chicago-None ( Chicago None ) 2400 0 0 0 ( )",
        "None-None_2 ( None None_2 ) 2400 0 0 0 ( )",
    ]
    assert "renamed: node 'None' is None_2" in said
    assert [line for line in said if line.startswith("added")] == [
        "added: zoo.graphml line 52: edge from 1 to 2: no capacity, which becomes 2.4G",
        "added: zoo.graphml line 55: edge from 2 to 3: no capacity, which becomes 2.4G",
    ]
    assert "dropped: zoo.graphml: attribute Country of 2 entries" in said
    assert said[-1] == "note: no demands: give a file of demands behind the network's, or have them made up by --gravity X"


def test_a_missing_capacity_is_refused_unless_one_is_given():
    line = refusal("zoo.graphml", "-", "--to", "net")
    assert line == "convert: link Chicago-None has no capacity, and 1 others have none: --capacity-default X gives them X"


def test_one_missing_capacity_is_told_alone(tmp_path: Path):
    (tmp_path / "t.csv").write_text("source,target,capacity\nA,B,3\nB,C,\n")
    line = refusal(tmp_path / "t.csv", "-", "--to", "net")
    assert line == "convert: link B-C has no capacity: --capacity-default X gives it X"


def test_the_head_of_a_column_has_the_unit_of_its_numbers(tmp_path: Path):
    links, demands = tmp_path / "l.csv", tmp_path / "d.csv"
    links.write_text("source,target,capacity (Gbit/s)\nA,B,10\nB,C,2500M\n")
    demands.write_text("source,target,traffic_mbps\nA,B,250\n")
    for asked, numbers in ((("--unit", "Mbit"), ("10000", "2500", "250")), ((), ("10", "2.5", "0.25"))):
        text, said = convert(links, demands, "-", "--to", "net", *asked)
        found = [row.split()[at] for section, at in (("LINKS", 5), ("DEMANDS", 6)) for row in rows(text, section)]
        assert tuple(found) == numbers
        assert f"read: {demands}: numbers of column 'traffic_mbps' in mbps, as its head says" in said
    assert "--from-unit another one" in refusal(links, demands, "-", "--to", "net", "--from-unit", "Mbit")
    demands.write_text("source,target,amount\nA,B,250\n")
    assert "d.csv does not say its unit" in refusal(links, demands, "-", "--to", "net")
    links.write_text("source,target,capacity (Gbit/s)\nA,B,10\nB,C,2500M\nA,C,\n")
    text, said = convert(links, "-", "--to", "links", "--unit", "Mbit", "--capacity-default", "3")
    assert text.splitlines()[-1].split(",")[3] == "3000" and f"added: {links} line 4: no capacity, which becomes 3 Gbit/s" in said
    links.write_text("source,target,capacity (Gbit/s)\nA,B,10\nB,C,2500M\n")
    # (the unit of a file that says none is no other one of a file whose head says it)
    text, _ = convert(links, demands, "-", "--to", "net", "--from-unit", "Mbit")
    assert [row.split()[at] for section, at in (("LINKS", 5), ("DEMANDS", 6)) for row in rows(text, section)] == ["10", "2.5", "0.25"]
    links.write_text("source,target,capacity [MB/s]\nA,B,10\n")
    assert "--bytes reads each of them as eight bits" in refusal(links, "-", "--to", "net")


def test_a_unit_for_files_that_say_none_is_said_to_mean_nothing_where_all_say_theirs():
    _, said = convert("small.graph", "small.0000.demands", "-", "--to", "net", "--from-unit", "Gbit")
    assert "note: small.graph says its unit, so --from-unit means nothing" in said


def test_behind_two_dashes_all_words_are_files(tmp_path: Path):
    (tmp_path / "-x.net").write_text((EXAMPLES / "one-link.net").read_text())
    done = subprocess.run([CONVERT, "--to", "links", "--", "-x.net", "-"], capture_output=True, cwd=tmp_path, text=True, check=False)
    assert done.returncode == 0 and done.stdout.splitlines()[1] == "L1,A,B,10,0,0,0,"


def test_the_head_of_a_column_that_is_not_read_says_no_unit(tmp_path: Path):
    table = tmp_path / "modules.csv"
    table.write_text("source,target,modules,traffic (Mbit/s)\nA,B,1 5 4 7,3\n")
    text, said = convert(table, "-", "--to", "net", "--unit", "Mbit", "--from-unit", "Gbit")
    assert rows(text, "LINKS") == ["A-B ( A B ) 0 0 0 0 ( 1000 5 4000 7 )"]
    assert not [line for line in said if line.startswith("read:")]


def test_the_corner_of_a_square_has_the_unit_of_its_numbers(tmp_path: Path):
    links, square = tmp_path / "links.csv", tmp_path / "square.csv"
    links.write_text("source,target,capacity (Gbit/s)\nA,B,10\n")
    square.write_text("Mbit/s,A,B\nA,0,250\nB,1.5G,0\n")
    text, said = convert(links, square, "-", "--to", "net")
    assert [row.split()[6] for row in rows(text, "DEMANDS")] == ["0.25", "1.5"]
    assert f"read: {square}: numbers in Mbit/s, as the corner says" in said
    links.write_text("source,target,capacity (Gbit/s)\nA,B,10\n")
    assert refusal(links, square, "-", "--to", "net", "--from-unit", "Tbit").endswith("column 'capacity (Gbit/s)' says its unit, and --from-unit another one")
    square.write_text("MB/s,A,B\nA,0,250\nB,1.5G,0\n")
    assert "the corner 'MB/s' is of bytes" in refusal(links, square, "-", "--to", "net")


def test_a_unit_that_is_not_known_is_named_where_no_other_is(tmp_path: Path):
    net, demands = tmp_path / "a.net", tmp_path / "d.csv"
    net.write_text((EXAMPLES / "one-link.net").read_text().replace("NODES (", "META (\n  unit = FURLONG\n)\nNODES (", 1))
    demands.write_text("source,target,amount\nA,B,2\n")
    _, said = convert(net, demands, "-", "--to", "net")
    assert f"note: no file says a unit that is known ({net} has FURLONG): all numbers are taken to be in the same one" in said


def test_repetita_is_one_way_and_names_nodes_by_number():
    text, said = convert("small.graph", "small.0000.demands", "-", "--to", "net", "--merge", "--unit", "Mbit")
    assert rows(text, "NODES")[2] == "2_Washington_DC ( -77.03637 38.89511 )"
    assert rows(text, "LINKS")[2] == "edge_2 ( 1_Chicago 2_Washington_DC ) 2480 0 20 0 ( )"
    assert rows(text, "DEMANDS") == [
        "demand_0 ( 0_New_York 2_Washington_DC ) 1 1000 UNLIMITED",
        "demand_1 ( 2_Washington_DC 0_New_York ) 1 12.345 UNLIMITED",
    ]
    assert said == [
        "links: directed, as small.graph says",
        "dropped: small.graph: delay of 2 edges",
        "merged: demand demand_2 of 160 into demand_0",
        "note: links are one way: solve with --links directed",
    ]


def test_repetita_demands_want_their_graph():
    assert "give the graph too" in refusal("small.0000.demands", "-", "--to", "list")
    text, _ = convert("--net", "small.graph", "small.0000.demands", "-", "--to", "list")
    assert text.splitlines()[0] == "small.0000 ("
    assert text.splitlines()[1] == "  demand_0 ( 0_New_York 2_Washington_DC ) 1 840000 UNLIMITED"


def test_csv_links_and_a_square():
    text, said = convert("links.csv", "square.csv", "places.csv", "-", "--to", "net", "--from-unit", "Mbit", "--decimal-comma")
    assert rows(text, "NODES") == ["Den_Haag ( 4.30 52.08 )", "Utrecht ( 5.12 52.09 )", "Zwolle ( 6.09 52.51 )"]
    assert rows(text, "LINKS") == [
        "Den_Haag-Utrecht ( Den_Haag Utrecht ) 10000 0 5 0 ( )",
        "Utrecht-Den_Haag ( Utrecht Den_Haag ) 2500 0 5 0 ( )",
        "Utrecht-Zwolle ( Utrecht Zwolle ) 1000 0 7 0 ( )",
    ]
    assert rows(text, "DEMANDS") == [
        "Den_Haag-Utrecht ( Den_Haag Utrecht ) 1 120.5 UNLIMITED",
        "Den_Haag-Zwolle ( Den_Haag Zwolle ) 1 30 UNLIMITED",
        "Utrecht-Den_Haag ( Utrecht Den_Haag ) 1 80 UNLIMITED",
        "Utrecht-Zwolle ( Utrecht Zwolle ) 1 10.25 UNLIMITED",
        "Zwolle-Den_Haag ( Zwolle Den_Haag ) 1 5 UNLIMITED",
    ]
    assert said == ["dropped: links.csv: column owner", "read: square.csv: numbers in Mbit, as the corner says", "renamed: node 'Den Haag' is Den_Haag"]


def test_a_name_that_is_no_utf8_is_no_part_of_a_table(tmp_path: Path):
    """A table with such a byte is read as Windows-1252, where the name would be another one; in a network file it stays."""
    net = tmp_path / "a.net"
    net.write_bytes(b"?SNDlib native format; type: network; version: 1.0\nNODES (\n  x\n  y\n)\nLINKS (\n  L ( x y ) 1 0 0 0 ( )\n)\n"
                    b"DEMANDS (\n  D\xff ( x y ) 1 1 UNLIMITED\n)\n")
    assert refusal(net, "-", "--to", "demands").startswith("convert: a name in line 2 of the table is no UTF-8")
    done = subprocess.run([CONVERT, net, "-", "--to", "net"], capture_output=True, check=False)
    assert done.returncode == 0 and b"  D\xff ( x y )" in done.stdout


def test_csv_of_hours_becomes_a_list():
    text, said = convert(
        "--net", "links.csv", "hours.csv", "-", "--to", "list", "--from-unit", "Mbit", "--merge", "--scale", "1.1"
    )
    assert text.splitlines() == [
        "08:00 (",
        "  Den_Haag-Utrecht ( Den_Haag Utrecht ) 1 165 UNLIMITED",
        "  Utrecht-Zwolle ( Utrecht Zwolle ) 1 88.55 UNLIMITED",
        ")",
        "09:00 (",
        "  Den_Haag-Utrecht ( Den_Haag Utrecht ) 1 110 UNLIMITED",
        ")",
    ]
    assert "merged: demand Den_Haag-Utrecht_2 of 33 into Den_Haag-Utrecht" in said
    assert "2 matrices (08:00, 09:00, ..): a network has one" in refusal(
        "links.csv", "hours.csv", "-", "--to", "net", "--from-unit", "Mbit"
    )


def test_merge_both_adds_the_two_directions():
    text, _ = convert(
        "--net", "links.csv", "square.csv", "-", "--to", "list", "--from-unit", "Mbit", "--decimal-comma", "--merge-both"
    )
    assert text.splitlines()[1:] == [
        "  Den_Haag-Utrecht ( Den_Haag Utrecht ) 1 200.5 UNLIMITED",
        "  Den_Haag-Zwolle ( Den_Haag Zwolle ) 1 35 UNLIMITED",
        "  Utrecht-Zwolle ( Utrecht Zwolle ) 1 10.25 UNLIMITED",
        ")",
    ]


@pytest.mark.parametrize(("text", "said"), [
    ("capacity (Gbit/s),source,target\n10,A,B\n", None), ('"capacity (Gbit/s)","source","target"\n10,A,B\n', None),
    ("capacity (Gbit/s);source;target\n10;A;B\n", None), ("capacity (Gbit/s)\tsource\ttarget\n10\tA\tB\n", None),
    ("capacity (of it),source,target\n10,A,B\n", "columns source, target and capacity (links) or amount"),
    ("# made up, by hand\ncapacity,source,target\n10,A,B\n", "line 2: 3 columns, and the first row has 2, which begins with # and is a row too: take comments out"),
    ("# made up\ncapacity,source,target\n10,A,B\n", "line 1: a line that begins with # is a row too"),
    ("capacity (Gbit/s)\n10\n", "no format that is known here"), ("", "no format that is known here"), (" \n", "no format that is known here"),
    ("# nothing\n", "no file has links"),
    ("day (\n  d ( A B ) 1 x UNLIMITED\n)\n", "line 2: 'x' is no number"), ("a ( ) ,b ( d,e ( A B ) 1 x UNLIMITED )\n", "line 1: 'x' is no number"),
    ("# a, b\n\nday ( d ( A B ) 1 x UNLIMITED )\n", "line 3: 'x' is no number"),
])
def test_a_table_on_standard_input_is_no_list(text: str, said: str | None) -> None:
    done = subprocess.run([CONVERT, "-", "-", "--to", "net"], input=text, capture_output=True, text=True, check=False)
    if said is None:
        assert rows(done.stdout, "LINKS") == ["A-B ( A B ) 10 0 0 0 ( )"], done.stderr
    else:
        assert done.returncode == 2 and said in done.stderr.splitlines()[-1], done.stderr


def test_made_names_give_way_to_those_that_are_given(tmp_path: Path) -> None:
    (tmp_path / "links.csv").write_text("id,source,target,capacity\n,A,B,1\nA-B,A,B,2\n")
    (tmp_path / "demands.csv").write_text("id,source,target,amount\n,A,B,1\nA-B,A,B,2\n")
    text, said = convert(tmp_path / "links.csv", tmp_path / "demands.csv", "-", "--to", "net")
    assert rows(text, "LINKS") == ["A-B_2 ( A B ) 1 0 0 0 ( )", "A-B ( A B ) 2 0 0 0 ( )"]
    assert rows(text, "DEMANDS") == ["A-B_2 ( A B ) 1 1 UNLIMITED", "A-B ( A B ) 1 2 UNLIMITED"]
    assert not any(line.startswith("renamed") for line in said)


@pytest.mark.parametrize("mode", ["directed", "bidirected"])
@pytest.mark.parametrize("kind", ["net", "list", "demands"])
def test_merge_both_is_refused_where_directions_share_nothing(tmp_path: Path, mode: str, kind: str) -> None:
    (tmp_path / "links.csv").write_text("source,target,capacity\nA,B,10\nB,A,4\n")
    (tmp_path / "demands.csv").write_text("source,target,amount\nA,B,3\nB,A,2\n")
    words = "--net", tmp_path / "links.csv", tmp_path / "demands.csv", "-", "--to", kind, "--merge-both"
    assert refusal(*words, "--links", mode) == (
        f"convert: --merge-both is for undirected links, and these are {mode}: a demand there is none back (--merge merges those of one direction)")
    text, said = convert(*words)
    assert "merged: demand B-A of 2, back, into A-B" in said and "5" in text
    convert(*words[:-1], "--merge", "--links", mode)


def test_demands_are_written_in_the_unit_of_the_links(tmp_path: Path):
    (tmp_path / "d.csv").write_text("from,to,traffic\nGdansk,Krakow,7\n")
    assert "d.csv does not say its unit: --from-unit" in refusal(EXAMPLES / "polska.net", tmp_path / "d.csv", "-", "--to", "net")
    text, said = convert(EXAMPLES / "polska.net", tmp_path / "d.csv", "-", "--to", "net", "--from-unit", "Gbit")
    assert rows(text, "DEMANDS") == ["Gdansk-Krakow ( Gdansk Krakow ) 1 7000 UNLIMITED"]
    assert f"note: {tmp_path / 'd.csv'}: its numbers are written in the unit of the links" in said


def test_units_are_never_guessed():
    assert "10G has a unit: --unit says in which all are written" in refusal("links.csv", "-", "--to", "net")
    assert "line 3: capacity: 500 has no unit: --from-unit" in refusal("mixed.csv", "-", "--to", "net", "--unit", "Mbit")
    text, _ = convert("mixed.csv", "-", "--to", "net", "--unit", "Mbit", "--from-unit", "kbit")
    assert [row.split()[5] for row in rows(text, "LINKS")] == ["1000", "0.5"]


@pytest.mark.parametrize("encoding", ["utf-8-sig", "utf-16", "utf-16-be-marked"])
def test_byte_order_marks_are_dropped(tmp_path: Path, encoding: str):
    plain = (DATA / "places.csv").read_text("utf-8") + "Zürich,8.54,47.37\n"
    data = b"\xfe\xff" + plain.encode("utf-16-be") if encoding == "utf-16-be-marked" else plain.encode(encoding)
    (tmp_path / "places.csv").write_bytes(data)
    text, said = convert(tmp_path / "places.csv", "-", "--to", "nodes")
    assert text == "node,x,y\nDen_Haag,4.30,52.08\nUtrecht,5.12,52.09\nZwolle,6.09,52.51\nZürich,8.54,47.37\n"
    assert said[0].endswith(f"the byte order mark of UTF-{'8' if encoding == 'utf-8-sig' else '16'}")


def test_a_byte_order_mark_before_a_network_file(tmp_path: Path):
    (tmp_path / "a.net").write_bytes(b"\xef\xbb\xbf" + (EXAMPLES / "one-link.net").read_bytes())
    text, _ = convert(tmp_path / "a.net", "-", "--to", "net")
    assert text == (EXAMPLES / "one-link.net").read_text()


@pytest.mark.parametrize("name", ["network.xml", "zoo.graphml", "small.graph", "places.csv"])
def test_gzip_of_each_reads_as_itself(tmp_path: Path, name: str):
    (tmp_path / f"{name}.gz").write_bytes(gzip.compress((DATA / name).read_bytes()))
    words = ["-", "--to", "nodes"]
    assert convert(tmp_path / f"{name}.gz", *words)[0] == convert(name, *words)[0]


def test_gzip_is_written_the_same_each_time(tmp_path: Path):
    for name in ("a.net.gz", "b.net.gz"):
        convert("network.xml", tmp_path / name)
    assert (tmp_path / "a.net.gz").read_bytes() == (tmp_path / "b.net.gz").read_bytes()
    assert gzip.decompress((tmp_path / "a.net.gz").read_bytes()).startswith(b"?SNDlib native format")


@pytest.mark.parametrize("name", ["polska", "abilene", "ta2", "one-link", "germany50"])
def test_csv_and_back_keeps_every_row(tmp_path: Path, name: str):
    parts = [tmp_path / f"x{ending}" for ending in (".csv", ".demands.csv", ".nodes.csv")]
    for part in parts:
        convert(EXAMPLES / f"{name}.net", part)
    there, _ = convert(EXAMPLES / f"{name}.net", "-", "--to", "net")
    back, said = convert(*parts, "-", "--to", "net")
    assert [rows(back, s) for s in ("LINKS", "DEMANDS")] == [rows(there, s) for s in ("LINKS", "DEMANDS")]
    assert said == ["note: no file says its unit: all numbers are taken to be in the same one"]
    if name not in ("one-link",):
        assert rows(back, "NODES") == rows(there, "NODES")


@pytest.mark.parametrize("name", ["polska", "abilene", "ta2"])
def test_graphml_and_back_keeps_nodes_and_links(tmp_path: Path, name: str):
    _, said = convert(EXAMPLES / f"{name}.net", tmp_path / "x.graphml")
    assert any("GraphML has no place for" in line for line in said)
    there, _ = convert(EXAMPLES / f"{name}.net", "-", "--to", "net")
    back, _ = convert(tmp_path / "x.graphml", "-", "--to", "net")
    assert [rows(back, s) for s in ("NODES", "LINKS")] == [rows(there, s) for s in ("NODES", "LINKS")]


def test_graphml_is_what_networkx_reads(tmp_path: Path):
    networkx = pytest.importorskip("networkx")
    convert(EXAMPLES / "polska.net", tmp_path / "x.graphml")
    graph = networkx.read_graphml(tmp_path / "x.graphml")
    assert (graph.number_of_nodes(), graph.number_of_edges()) == (12, 18)
    assert graph.nodes["Gdansk"]["Longitude"] == 18.6


def test_lists_to_csv_and_back(tmp_path: Path):
    convert("--net", "links.csv", "hours.csv", tmp_path / "day.list", "--from-unit", "Mbit")
    convert(tmp_path / "day.list", tmp_path / "day.demands.csv")
    back, said = convert(tmp_path / "day.demands.csv", "-", "--to", "list")
    assert back == (tmp_path / "day.list").read_text() and not said


def test_a_network_s_own_demands_become_a_list_of_its_name():
    text, said = convert(EXAMPLES / "one-link.net", "-", "--to", "list")
    assert text == "one-link (\n  D1 ( A B ) 1 4 UNLIMITED\n)\n"
    assert said == ["dropped: 2 nodes and 1 links: a list has demands alone"]


def test_other_demands_take_the_place_of_a_network_s_own(tmp_path: Path):
    (tmp_path / "d.csv").write_text("from,to,traffic\nGdansk,Krakow,7\n")
    text, said = convert(EXAMPLES / "polska.net", tmp_path / "d.csv", "-", "--to", "net", "--from-unit", "Mbit")
    assert rows(text, "DEMANDS") == ["Gdansk-Krakow ( Gdansk Krakow ) 1 7 UNLIMITED"]
    assert any("its own 66 demands" in line for line in said)


@pytest.mark.parametrize("encoding", ["utf-8-sig", "utf-16"])
def test_xml_with_a_byte_order_mark(tmp_path: Path, encoding: str):
    text = (DATA / "network.xml").read_text("iso-8859-1").replace("ISO-8859-1", encoding.removesuffix("-sig"))
    (tmp_path / "network.xml").write_bytes(text.encode(encoding))
    marked, said = convert(tmp_path / "network.xml", "-", "--to", "net")
    assert marked == convert("network.xml", "-", "--to", "net")[0]
    assert "byte order mark" in said[0]


def test_windows_tables_are_read_and_said(tmp_path: Path):
    (tmp_path / "t.csv").write_bytes("source;target;capacity\r\nK\u00f6ln;Ulm;1,5\r\n".encode("cp1252"))
    text, said = convert(tmp_path / "t.csv", "-", "--to", "net", "--decimal-comma")
    assert rows(text, "LINKS") == ["K\u00f6ln-Ulm ( K\u00f6ln Ulm ) 1.5 0 0 0 ( )"]
    assert said[0] == f"read: {tmp_path / 't.csv'}: no UTF-8, so as Windows-1252"


def test_names_that_fall_together_stay_two():
    text, said = convert("twins.csv", "-", "--to", "net")
    assert rows(text, "NODES") == ["a_b", "a_b_2", "a_b_2_2"]
    assert rows(text, "LINKS") == ["a_b-a_b_2 ( a_b a_b_2 ) 1 0 0 0 ( )", "a_b_2-a_b_2_2 ( a_b_2 a_b_2_2 ) 2 0 0 0 ( )"]
    assert "renamed: node 'a#b' is a_b_2" in said


@pytest.mark.parametrize(
    ("text", "why"),
    [
        ("source,target,capacity\nA,B,-1\n", "'-1' is no number of at least 0"),
        ("source,target,capacity\nA,B,1,5\n", "line 2: 4 columns, and the first row has 3"),
        ("source,target,capacity\nA,B,nan\n", "'nan' is no number"),
        ("source,target,capacity\nA,B,1e400\n", "'1e400' is no number"),
        ('source,target,capacity\nA,B,"1,5"\n', "--decimal-comma reads 1,5 as 1.5"),
        ("source,target,capacity\nA,,3\n", "line 2: no target"),
        ("left,right,capacity\nA,B,3\n", "it has left, right, capacity (--columns names them)"),
        ("source,target,capacity\nA,B,99999999999999\n", "--unit Mbit or Gbit"),
        ("from,to,Gbps\nA,B,3\n", "it has from, to, Gbps (--columns names them)"),
        ('source,target,capacity\nA,"B,3\n', "line 2"),
        ("node,x,y\nA,1,2\nA,1,2\n", "line 3: node 'A' stands twice"),
        ("", "no rows"),
    ],
)
def test_tables_that_do_not_fit_are_refused_by_their_line(tmp_path: Path, text: str, why: str):
    (tmp_path / "t.csv").write_text(text)
    assert why in refusal(tmp_path / "t.csv", "-", "--to", "net")


def test_columns_can_be_named(tmp_path: Path):
    (tmp_path / "t.csv").write_text("left;right;size\nA;B;3\n")
    text, _ = convert(tmp_path / "t.csv", "-", "--to", "net", "--columns", "source=left,target=right,capacity=size")
    assert rows(text, "LINKS") == ["A-B ( A B ) 3 0 0 0 ( )"]


LINKS_CSV = "source,target,capacity\nA,B,3\nB,C,4\n"


def test_columns_are_named_for_the_tables_that_have_them(tmp_path: Path):
    (tmp_path / "links.csv").write_text(LINKS_CSV)
    (tmp_path / "demands.csv").write_text("source,target,demand,Mbps\nA,C,d1,2\nB,C,d2,1.5\n")
    (tmp_path / "square.csv").write_text("-,A,B,C\nA,0,7,0\nB,0,0,0\nC,0,0,0\n")
    for words in (["links.csv", "demands.csv"], ["--net", "links.csv", "demands.csv", "--merge"]):
        files = [tmp_path / word if word.endswith(".csv") else word for word in words]
        text, said = convert(*files, "-", "--to", "demands", "--columns", "amount=Mbps", "--from-unit", "Mbit")
        assert [row.split(",")[1:5] for row in text.splitlines()[1:]] == [["d1", "A", "C", "2"], ["d2", "B", "C", "1.5"]]
        assert [line for line in said if "column" in line] == [
            f"read: {tmp_path / 'demands.csv'}: numbers of column 'Mbps' in Mbps, as its head says"]
    # (a square has no columns to be named, and is read beside a table whose columns are)
    text, _ = convert(tmp_path / "links.csv", tmp_path / "square.csv", "-", "--to", "net", "--columns", "capacity=capacity")
    assert rows(text, "DEMANDS") == ["A-B ( A B ) 1 7 UNLIMITED"]


def test_columns_that_no_table_has_are_refused(tmp_path: Path):
    (tmp_path / "links.csv").write_text(LINKS_CSV)
    (tmp_path / "demands.csv").write_text("source,target,amount\nA,C,2\n")
    (tmp_path / "odd.csv").write_text("left,right,size\nA,B,3\n")
    both = [tmp_path / "links.csv", tmp_path / "demands.csv"]
    assert refusal(*both, "-", "--to", "net", "--columns", "amount=Mbps") == (
        f"convert: no table has a column 'Mbps': {both[0]} has source, target, capacity; {both[1]} has source, target, amount"
    )
    said = refusal(tmp_path / "odd.csv", "-", "--to", "net", "--columns", "source=left,target=rigth,capacity=size")
    assert said.endswith("it has left, right, size, and no 'rigth' (--columns names them)")
    assert refusal(EXAMPLES / "polska.net", "-", "--to", "net", "--columns", "amount=Mbps").endswith("no table has a column 'Mbps'")


@pytest.mark.parametrize("words", ["Mbps=amount", "amount", "amount=", "=Mbps"])
def test_columns_have_a_role_and_a_name(words: str):
    assert f"--columns: '{words}' is no ROLE=NAME; roles are id, node, source" in refusal(
        "links.csv", "-", "--to", "net", "--columns", words
    )


@pytest.mark.parametrize(
    ("text", "demands"),
    [
        ("source,target,demand\nA,C,2\nB,C,0.5\n", ["A-C ( A C ) 1 2 UNLIMITED", "B-C ( B C ) 1 0.5 UNLIMITED"]),
        ("name,from,to,Demand\n1,A,C,2e1\n", ["1 ( A C ) 1 20 UNLIMITED"]),
        (",from,to,demand,owner\n0,A,C,3,east\n", ["A-C ( A C ) 1 3 UNLIMITED"]),
    ],
)
def test_a_column_of_demands_that_has_numbers_alone_is_the_amount_and_said(tmp_path: Path, text: str, demands: list[str]):
    (tmp_path / "links.csv").write_text(LINKS_CSV)
    (tmp_path / "d.csv").write_text(text)
    written, said = convert(tmp_path / "links.csv", tmp_path / "d.csv", "-", "--to", "net")
    assert rows(written, "DEMANDS") == demands
    name = "Demand" if "Demand" in text else "demand"
    assert said[0] == f"read: {tmp_path / 'd.csv'}: column {name} as the amounts, since it has numbers alone"


def test_a_column_of_demands_stays_the_name_beside_amounts(tmp_path: Path):
    (tmp_path / "links.csv").write_text(LINKS_CSV)
    (tmp_path / "d.csv").write_text("demand,source,target,value\n7,A,C,2\n")
    written, said = convert(tmp_path / "links.csv", tmp_path / "d.csv", "-", "--to", "net")
    assert rows(written, "DEMANDS") == ["7 ( A C ) 1 2 UNLIMITED"]
    assert said == ["note: no file says its unit: all numbers are taken to be in the same one"]


@pytest.mark.parametrize(
    ("text", "likely"),
    [
        ("source,target,demand\nA,C,2\nB,C,n/a\n", "demand"),
        ('source,target,demand\nA,C,"1,5"\n', "demand"),
        ("demand,source,target,Mbps\n1,A,C,2\n", "Mbps"),
        ("demand,source,target,Mbps\nd1,A,C,2\n", "Mbps"),
    ],
)
def test_amounts_are_not_guessed_where_two_columns_could_have_them_or_none(tmp_path: Path, text: str, likely: str):
    (tmp_path / "d.csv").write_text(text)
    said = refusal(tmp_path / "d.csv", "-", "--to", "demands")
    assert "d.csv: no column is known to have the amounts; it has " in said
    assert said.endswith(f"(--columns amount=NAME says which, as amount={likely})")
    (tmp_path / "d.csv").write_text(text.replace("n/a", "1").replace('"1,5"', "1.5"))
    written, _ = convert(tmp_path / "d.csv", "-", "--to", "demands", "--columns", f"amount={likely}")
    assert written.splitlines()[1].split(",")[4] in ("2", "1.5")


def test_a_demand_to_no_node_is_refused(tmp_path: Path):
    (tmp_path / "d.csv").write_text("source,target,amount\nDen Haag,Paris,3\n")
    assert "'Paris' is no node" in refusal("links.csv", tmp_path / "d.csv", "-", "--to", "net", "--from-unit", "Mbit")


def test_gravity_makes_demands_up_where_there_are_none(tmp_path: Path):
    (tmp_path / "t.csv").write_text("source,target,capacity\nA,B,1\nB,C,3\nB,C,0\nD,D,0\n")
    text, said = convert(tmp_path / "t.csv", "-", "--to", "net", "--gravity", "19")
    assert rows(text, "DEMANDS") == ["A-B ( A B ) 1 4 UNLIMITED", "A-C ( A C ) 1 3 UNLIMITED", "B-C ( B C ) 1 12 UNLIMITED"]
    assert said[-1] == "made up: 3 demands of 19 in all, by capacities at both ends"
    for mode in ("directed", "bidirected"):
        text, _ = convert(tmp_path / "t.csv", "-", "--to", "net", "--gravity", "19", "--links", mode)
        assert rows(text, "DEMANDS")[:2] == ["A-B ( A B ) 1 2 UNLIMITED", "A-C ( A C ) 1 1.5 UNLIMITED"] and len(rows(text, "DEMANDS")) == 6
    assert "some file has" in refusal(EXAMPLES / "polska.net", "-", "--to", "net", "--gravity", "10")
    text, _ = convert("small.graph", "-", "--to", "net", "--gravity", "100")
    assert len(rows(text, "DEMANDS")) == 6


def test_xml_with_entities_of_its_own_is_refused(tmp_path: Path):
    bomb = '<?xml version="1.0"?><!DOCTYPE network [<!ENTITY a "aaaa">]><network><meta><unit>&a;</unit></meta></network>'
    (tmp_path / "b.xml").write_text(bomb)
    assert "entities of its own are not read" in refusal(tmp_path / "b.xml", "-", "--to", "net")


@pytest.mark.parametrize(
    "data", [b"", b"\x00\x01\x02", b"\x1f\x8bnot gzip", b"<network>", b"<html></html>", b"NODES 3\nlabel x y\n", b"no such thing"]
)
def test_files_of_nothing_known_are_refused_in_one_line(tmp_path: Path, data: bytes):
    (tmp_path / "x").write_bytes(data)
    refusal(tmp_path / "x", "-", "--to", "net")


def damaged(data: bytes, seed: int) -> list[bytes]:
    """Fronts of a file, and the file with a few bytes exchanged, left out or put in."""
    drawn = random.Random(seed)
    found = [data[:cut] for cut in range(0, len(data), max(1, len(data) // 40))]
    for _ in range(40):
        new = bytearray(data)
        at = drawn.randrange(len(new))
        new[at : at + drawn.choice((0, 1, 1))] = bytes(drawn.choices(b'()<>#,;"\n\r\t .-+eE0\xff\x00', k=drawn.choice((0, 1, 2))))
        found.append(bytes(new))
    return found


@pytest.mark.parametrize("file", sorted(DATA.iterdir()), ids=lambda file: file.name)
def test_damaged_files_are_read_or_refused_in_one_line(tmp_path: Path, file: Path):
    answers = {True: 0, False: 0}
    for data in damaged(file.read_bytes(), len(file.name)):
        (tmp_path / file.name).write_bytes(data)
        for kind in ("net", "list", "demands"):
            task = Task(
                [str(tmp_path / file.name)],
                str(tmp_path / "out"),
                written=kind,
                missing="1G",
                from_unit="Mbit",
                decimals=3,
                merge=True,
            )
            try:
                work.convert(task, Notes(quiet=True))
                answers[True] += 1
            except Refused as why:
                answers[False] += 1
                assert "\n" not in str(why) and str(why)
    assert answers[False] > 20


def test_a_file_that_is_not_there():
    assert refusal("nowhere.xml", "-", "--to", "net") == "convert: nowhere.xml: No such file or directory"


def test_more_than_the_limits_is_refused(tmp_path: Path):
    lines = "\n".join(f"N{i},N{i + 1},1" for i in range(1000))
    (tmp_path / "big.csv").write_text(f"source,target,capacity\n{lines}\n")
    assert refusal(tmp_path / "big.csv", "-", "--to", "net") == "convert: 1001 nodes: at most 1000 are taken"
    assert len(convert(tmp_path / "big.csv", "-", "--to", "graphml")[0]) > 1000


def test_what_the_program_with_wide_limits_alone_takes_is_written_and_said(tmp_path: Path):
    lines = "\n".join(f"N{i},N{i + 1},1" for i in range(600))
    (tmp_path / "big.csv").write_text(f"source,target,capacity\n{lines}\n")
    text, said = convert(tmp_path / "big.csv", "-", "--to", "net")
    assert text.count("\n  N") >= 601
    assert "note: 601 nodes and 0 demands are beyond the limits of mcf, 512 and 32,768: mcf-wide takes them" in said


@pytest.mark.parametrize(
    "words",
    [
        ("network.xml",),
        ("links.csv", "square.csv", "places.csv", "--from-unit", "Mbit", "--decimal-comma"),
        ("small.graph", "small.0000.demands", "--unit", "Mbit"),
        ("twins.csv", "twins-demands.csv"),
    ],
)
def test_the_program_reads_what_is_written(tmp_path: Path, program: Program, words: tuple[str, ...]):
    convert(*words, tmp_path / "x.net")
    rows_read = program.network(tmp_path / "x.net")
    text = (tmp_path / "x.net").read_text("utf-8")
    assert [len(part) for part in (rows_read.nodes, rows_read.links, rows_read.demands)] == [
        len(rows(text, s)) for s in ("NODES", "LINKS", "DEMANDS")
    ]
    assert "verdict" in program.solve(tmp_path / "x.net", "--workers", "1")
