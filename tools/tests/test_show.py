"""`tools/show`: what a file is, judged first by the proved check."""

from __future__ import annotations

import csv
import io
import json
import re
import subprocess
from fractions import Fraction
from pathlib import Path
from typing import Any

import pytest

from jsoned import require_valid
from mcf import Program, load_text
from mcf.errors import TextError
from mcf.show.lines import cases_of, kind_of_text
from mcf.network import read_network
from mcf.report.work import Source
from mcf.show.text import lines_of, sentences
from mcf.show.work import Found

pytest.importorskip("jsonschema", reason="python3-jsonschema is missing: tools/setup --tests")

ROOT = Path(__file__).resolve().parents[2]
EXAMPLES = ROOT / "examples"
NET, CERT = EXAMPLES / "triangle.net", EXAMPLES / "triangle.cert"
ROWS = "  A_to_B ( A B ) 1 {0} UNLIMITED\n  A_to_C ( A C ) 1 {0} UNLIMITED\n"


def shown(program: Program, *words: str | Path, status: int = 0, given: str = "") -> str:
    """What the tool says; standard error has a line exactly where there is trouble."""
    command = [str(ROOT / "tools/show"), *map(str, words), "--mcf", program.path]
    done = subprocess.run(command, capture_output=True, input=given.encode("latin-1"), check=False)
    assert done.returncode == status and done.stderr.count(b"\n") == (status == 2), done.stderr
    return (done.stderr if status == 2 else done.stdout).decode()


def as_json(program: Program, *words: str | Path, status: int = 0, given: str = "") -> dict[str, Any]:
    """The object, which is as its schema says."""
    said: dict[str, Any] = json.loads(shown(program, *words, "--json", status=status, given=given))
    require_valid(said, "show")
    return said


def batch(program: Program, room: Path) -> tuple[Path, Path]:
    """A list of two matrices, and what batch writes for it."""
    listed, certs = room / "day.list", room / "day.certs"
    listed.write_text("".join(f"{name} (\n{ROWS.format(amount)})\n" for name, amount in (("noon", 5), ("night", 9))))
    certs.write_text(program.ask("batch", str(NET), str(listed), statuses=(0, 1)))
    return listed, certs


def test_a_network_alone_is_counted_and_not_judged(program: Program) -> None:
    said = as_json(program, EXAMPLES / "polska.net")
    assert (said["what"], said["judged"], said["counts"]) == ("network", None, {"nodes": 12, "links": 18, "demands": 66})
    rows = program.network(EXAMPLES / "polska.net")
    assert [row["link"] for row in said["network"]["links"]] == [link.id for link in rows.links]
    sizes = [Fraction(row["with_largest"]["exact"]) for row in said["network"]["links"]]
    assert sizes == [link.installed("largest") for link in rows.links]
    total = sum(Fraction(row["amount"]["exact"]) for row in said["network"]["demands"])
    assert f"polska.net: 12 nodes, 18 links, 66 demands, {int(total):,} Mbit/s in all" in said["sentences"][0]


@pytest.mark.parametrize("net, file, what", [
    ("triangle.net", "triangle.cert", "certificate"), ("detours.net", "detours.hops", "hops"),
    ("triangle.net", "triangle.routing", "routing"), ("in-a-row.net", "in-a-row.throughput", "throughput"),
    ("both-ways.net", "both-ways.cert", "certificate")])  # fmt: skip
def test_bounds_are_those_of_the_line_of_the_check(program: Program, net: str, file: str, what: str) -> None:
    said = as_json(program, EXAMPLES / net, EXAMPLES / file)
    judge = {"hops": "checkhops", "throughput": "checkthroughput"}.get(what, "check")
    line = program.check(EXAMPLES / net, EXAMPLES / file, command=judge).line
    assert (said["what"], said["judged"], said["condition"]) == (what, f"mcf {judge}: {line}", None)
    found = re.findall(r"(\d+)/(\d+)", line)
    lower = Fraction(said["side"]["lower"]["exact"])
    unit = 10 ** int(re.findall(r"decimals (\d+)", load_text(EXAMPLES / file))[0]) if what == "throughput" else 1
    assert lower * unit == Fraction(*map(int, found[0]))
    assert what == "routing" or Fraction(said["side"]["upper"]["exact"]) * unit == Fraction(*map(int, found[1]))


def test_text_has_aligned_tables(program: Program) -> None:
    lines = shown(program, NET, CERT).splitlines()
    assert lines[0].endswith("triangle.net: 3 nodes, 3 links, 2 demands, 12 in all")
    assert "Every demand fits with 29.0 % to spare; no routing gives more than 35.2 % to spare." in lines
    at = lines.index("links, the most utilised first:")
    assert lines[at + 1] == "  link  source  target  capacity   load  utilisation"
    assert lines[at + 2] == "  AB    A       B             10   7.75       77.5 %"
    few = shown(program, EXAMPLES / "polska.net", EXAMPLES / "polska.cert", "--rows", "3").splitlines()
    assert "demands, the greatest first, 3 of 66:" in few and len(few) < 25
    assert "utilisation" not in shown(program, NET, CERT, "--rows", "0")


def test_a_terminal_gets_no_control_characters_of_names(program: Program, tmp_path: Path) -> None:
    odd = tmp_path / "odd.net"
    odd.write_text(re.sub(r"\bAB\b", "A\x1b[31mB", load_text(NET)))
    (tmp_path / "odd.cert").write_text(program.solve(odd))
    text = shown(program, odd, tmp_path / "odd.cert")
    assert "\x1b" not in text and text.count("A\\x1b[31mB") == 3
    assert as_json(program, odd, tmp_path / "odd.cert")["side"]["links"][0]["link"] == "A\x1b[31mB"


def test_tables_are_aligned_and_cut() -> None:
    rows = list(lines_of("t", (("name", "n"), [["a", "1"], ["bbbbbb", "10"], ["c", "–"]]), 2))
    assert rows == ["t, 2 of 3:", "  name     n", "  a        1", "  bbbbbb  10"]


def test_an_invalid_certificate_is_status_1_and_shows_no_bounds(program: Program, tmp_path: Path) -> None:
    bad = tmp_path / "bad.cert"
    bad.write_text(load_text(CERT).replace("scale 10 372", "scale 11 372").replace("480/372", "528/372"))
    text = shown(program, NET, bad, status=1)
    assert "bad.cert: a certificate of solve, and not valid: mcf check says: invalid C3: " in text
    assert "lower" not in text and "%" not in text
    said = as_json(program, NET, bad, status=1)
    assert (said["condition"], said["judged"]) == ("C3", "mcf check: invalid C3") and "side" not in said


def test_matrices_of_batch_are_judged_with_their_list(program: Program, tmp_path: Path) -> None:
    listed, certs = batch(program, tmp_path)
    said = as_json(program, NET, certs, "--list", listed)
    found = [(case["case"], case["fits"], case["bounds"] == case["said"]) for case in said["cases"]]
    assert found == [("noon", "yes", True), ("night", "no", True)]
    assert all(case["judged"].startswith("mcf check: valid ") for case in said["cases"])
    assert "2 matrices of batch, each certificate valid by mcf check: all demands fit in 1, not in 1, and in 0" in said["sentences"][1]
    alone = as_json(program, NET, certs)
    assert all((case["judged"], case["bounds"], case["fits"]) == (None, None, None) for case in alone["cases"])
    assert "not judged here; --list LIST has each certificate judged" in alone["sentences"][1]


def test_an_invalid_matrix_is_named(program: Program, tmp_path: Path) -> None:
    listed, certs = batch(program, tmp_path)
    front, mark, night = certs.read_text().partition("matrix night\n")
    more = re.sub(r"^path A_to_B (\d+)", lambda found: f"path A_to_B {int(found[1]) + 1}", night, count=1, flags=re.M)
    certs.write_text(front + mark + more)
    said = as_json(program, NET, certs, "--list", listed, status=1)
    noon, night_case = said["cases"]
    assert noon["condition"] is None and re.fullmatch("C[0-9]+", night_case["condition"]) and night_case["bounds"] is None
    assert said["sentences"][1].endswith("2 matrices of batch, of which 1 certificate is not valid: night")


@pytest.mark.parametrize("command, files, statuses", [("sweep", (NET, CERT), (0,)), ("sweepsolve", (NET,), (0, 1)),
                                                      ("whatif", (NET, CERT, EXAMPLES / "triangle.script"), (0,))])  # fmt: skip
def test_lines_are_shown_as_the_programs_own(program: Program, command: str, files: tuple[Path, ...], statuses: tuple[int, ...]) -> None:
    text = program.ask(command, *map(str, files), statuses=statuses)
    said = as_json(program, NET, "-", given=text)
    assert said["what"] == command and said["judged"] is None
    assert said["sentences"][1].endswith(f"of {command}: the program's own lines, and not judged here")
    found = [tuple(Fraction(int(a), int(b)) for a, b in re.findall(r"(\d+)/(\d+)", line)) for line in text.splitlines()]
    assert [(Fraction(case["said"]["lower"]["exact"]), Fraction(case["said"]["upper"]["exact"])) for case in said["cases"]] == found
    assert all(case["bounds"] is None and case["fits"] is None for case in said["cases"])
    assert "not judged" in shown(program, NET, "-", given=text)


@pytest.mark.parametrize("change, why", [
    (lambda text: text.replace("sweep AC", "sweep XY"), "standard input line 2: the lines are not those of the links of"),
    (lambda text: text.replace("\nsweep BC", "\nswept BC"), "standard input: line 3: no line of mcf sweep"),
    (lambda text: text[:-9], "standard input: line 3: is cut off"),
    (lambda text: text.rpartition("sweep BC")[0], "standard input line 3: "),
    (lambda text: "", "standard input: is empty: "), (lambda text: "nothing\n", "standard input: does not begin with ?SNDlib"),
    (lambda text: load_text(NET), "standard input: is a network, and one is named already"),
    (lambda text: text.replace("lower 0/372", "lower 9/1"), "standard input: line 1: bounds that contradict each other"),
])  # fmt: skip
def test_what_is_no_answer_is_refused_by_its_line(program: Program, change: Any, why: str) -> None:
    text = program.ask("sweep", str(NET), str(CERT))
    assert why in shown(program, NET, "-", given=change(text), status=2)


def test_a_table_as_csv(program: Program, tmp_path: Path) -> None:
    rows = list(csv.DictReader(io.StringIO(shown(program, NET, CERT, "--csv", "-"))))
    assert [row["link"] for row in rows] == ["AB", "AC", "BC"] and rows[0]["load"] == "7.750000"
    rows = list(csv.DictReader(io.StringIO(shown(program, NET, "--csv", "-"))))
    assert [row["capacity"] for row in rows] == ["10.000000", "6.000000", "6.000000"]
    listed, certs = batch(program, tmp_path)
    shown(program, NET, certs, "--list", listed, "--csv", tmp_path / "a.csv")
    table = list(csv.DictReader(io.StringIO((tmp_path / "a.csv").read_text())))
    assert [(row["case"], row["judged"], row["condition"]) for row in table] == [("noon", "yes", ""), ("night", "yes", "")]


def test_a_list_is_for_batch_alone(program: Program) -> None:
    assert "--list is for what batch wrote" in shown(program, NET, CERT, "--list", NET, status=2)


def test_kinds_of_texts() -> None:
    assert kind_of_text("sweep closed lower 0/1 0.0 upper 1/1 1.0\n") == "sweep"
    assert kind_of_text("sweep closed closed phases 3 lower 0/1 0.0 upper 1/1 1.0\n") == "sweepsolve"
    assert kind_of_text("show lower 0/1 0.0 upper 1/1 1.0\n") == "whatif" and kind_of_text("mcf-else 1\n") is None
    assert [case.name for case in cases_of("sweep a\x0bb lower 0/1 0.0 upper 1/1 1.0\n", "sweep")] == ["a\x0bb"]
    with pytest.raises(TextError, match="line 1: no line of mcf sweep"):
        cases_of("sweep a lower 0/0 0.0 upper 1/1 1.0\n", "sweep")


@pytest.mark.parametrize(("front", "said"), [("", ""), ("# links = directed\n", "; links are directed, as it says"), ("# directed\n", ""),
                                             ("META ( links = bidirected )\n", "; links are bidirected, as it says")])
def test_a_network_alone_is_shown_with_how_its_links_are_read(root: Path, front: str, said: str) -> None:
    text = (root / "examples/triangle.net").read_text("ascii")
    text = re.sub(r"^(#.*)?\n", "", text, flags=re.MULTILINE)
    found = Found("network", Source("a.net", text.replace("NODES", f"{front}NODES", 1)), read_network(text))
    assert sentences(found) == [f"a.net: 3 nodes, 3 links, 2 demands, 12 in all{said}"]
