"""`tools/survey`: failures, doublings and growth, by hand and with the program."""

from __future__ import annotations

import csv
import dataclasses
import io
import json
import subprocess
from fractions import Fraction
from pathlib import Path

import pytest

import browser
from mcf import Link, Module, Program, TextError, load_text, read_any, read_certificate, read_network, scale
from mcf.judged import Judged
from mcf.ranges import Range
from mcf.report.figures import Figures
from mcf.survey import cases as surveys
from mcf.survey.cases import Case, Ground, Settings, Survey
from mcf.survey.page import Part, survey_page
from mcf.survey.words import grown, grown_sentence, sentence, survey_table

ROOT = Path(__file__).resolve().parents[2]
SURVEY = ROOT / "tools/survey"
EXAMPLES = ROOT / "examples"
HEAD = "?SNDlib native format; type: network; version: 1.0\n"
TRIANGLE = (
    f"{HEAD}NODES (\n  A\n  B\n  C\n)\nLINKS (\n  AB ( A B ) 10 0 0 0 ( )\n  AC ( A C ) 6 0 0 0 ( )\n  BC ( B C ) 6 0 0 0 ( )\n)\n"
    "DEMANDS (\n  A_to_B ( A B ) 1 8 UNLIMITED\n  A_to_C ( A C ) 1 4 UNLIMITED\n)\n"
)
# The exact optima of the triangle with one link closed, and with one link doubled: cuts that are easily seen.
CLOSED = {"AB": Fraction(1, 2), "AC": Fraction(5, 6), "BC": Fraction(5, 4)}
DOUBLED = {"AB": Fraction(13, 6), "AC": Fraction(11, 6), "BC": Fraction(4, 3)}


def run(*words: str | Path, program: Program, status: int = 0) -> tuple[str, str]:
    """What a run writes on both outputs."""
    done = subprocess.run(
        [SURVEY, *map(str, words), "--mcf", program.path, *([] if "--jobs" in words else ["--jobs", "1"])], capture_output=True, text=True, check=False
    )
    assert done.returncode == status, done.stderr
    return done.stdout, done.stderr


def table(text: str) -> list[dict[str, str]]:
    """The rows of a table."""
    return list(csv.DictReader(io.StringIO(text)))


def triangle() -> Figures:
    """The figures of the triangle and its certificate."""
    text = read_certificate(load_text(EXAMPLES / "triangle.cert"))
    return Figures(scale(read_network(TRIANGLE)), text)


def of_values(kind: str, values: dict[str, Fraction], growth: Fraction = Fraction(1), solver: str = "solve") -> Survey:
    """A survey of the triangle with given fractions."""
    links = {link.id: link for link in triangle().scaled.network.links}
    cases = [
        Case(kind, links[name], Fraction(links[name].capacity), Range(Fraction(0), value), Range(value, value))
        for name, value in values.items()
    ]
    return Survey(triangle(), kind, Range(Fraction(4, 3), Fraction(4, 3)), tuple(cases), Settings(growth, solver))


@pytest.mark.parametrize(("option", "kind", "optima"), [("--failures", "failure", CLOSED), ("--double", "double", DOUBLED)])
def test_the_triangle_has_its_known_optima(program: Program, option: str, kind: str, optima: dict[str, Fraction]):
    out, _ = run(
        EXAMPLES / "triangle.net",
        EXAMPLES / "triangle.cert",
        option,
        "--csv",
        "-",
        "--gap",
        "0.01",
        program=program,
        status=1 if kind == "failure" else 0,
    )
    rows = table(out)
    assert [row["link"] for row in rows] == ["AB", "AC", "BC"] and {row["change"] for row in rows} == {kind}
    for row in rows:
        assert Fraction(row["lower"]) <= optima[row["link"]] <= Fraction(row["upper"])
        assert Fraction(row["upper"]) <= Fraction(row["lower"]) * Fraction(1051, 1000)
        assert Fraction(row["kept_lower"]) <= Fraction(row["lower"]) and Fraction(row["upper"]) <= Fraction(row["kept_upper"])
    assert [row["fits"] for row in rows] == (["no", "no", "yes"] if kind == "failure" else ["yes"] * 3)


def test_both_ways_of_a_link_are_changed(program: Program):
    words = [EXAMPLES / "both-ways.net", EXAMPLES / "both-ways.cert"]
    out, _ = run(*words, "--double", program=program)
    assert out == "The link most worth doubling is L1 (A – B): 400.0 % to 400.0 % of every demand with it, and 200.0 % to 200.0 % of every demand without.\n"
    out, _ = run(*words, "--failures", "--quick", "--csv", "-", program=program, status=1)
    assert [(row["link"], row["kept_lower"], row["kept_upper"]) for row in table(out)] == [("L1", "0.000000", "0.000000")]


def test_what_is_kept_is_what_whatif_shows(program: Program, tmp_path: Path):
    net, cert = EXAMPLES / "polska.net", EXAMPLES / "polska.cert"
    out, _ = run(net, cert, "--failures", "--quick", "--csv", "-", program=program, status=1)
    (tmp_path / "one").write_text("close Link_6_10 show")
    shown = program.ask("whatif", str(net), str(cert), str(tmp_path / "one")).split()
    row = next(row for row in table(out) if row["link"] == "Link_6_10")
    assert (row["kept_lower"], row["kept_upper"]) == (shown[3], shown[6])
    assert len(table(out)) == 18 and {row["lower"] for row in table(out)} == {"0.000000"}


def test_growth_divides_both_fractions_and_sets_the_status(program: Program):
    words = [EXAMPLES / "triangle.net", EXAMPLES / "triangle.cert"]
    out, _ = run(*words, "--grow", "1.2", "--grow", "1.25", program=program)
    assert out == (
        "With all demands times 1.25 all of them fit: 103.2 % to 108.2 % of every demand.\n"
        "With all demands times 1.2 all of them fit: 107.5 % to 112.7 % of every demand.\n"
    )
    out, _ = run(*words, "--grow", "1.3", program=program, status=1)
    assert out.startswith("With all demands times 1.3 it is not decided whether they fit")
    run(*words, "--failures", "--grow", "0.4", program=program)
    out, _ = run(*words, "--failures", "--grow", "0.4", "--csv", "-", program=program)
    assert Fraction(table(out)[0]["lower"]) <= CLOSED["AB"] / Fraction("0.4") <= Fraction(table(out)[0]["upper"])


def test_one_input_gives_one_text_whatever_the_jobs(program: Program, tmp_path: Path):
    net, cert = EXAMPLES / "triangle.net", EXAMPLES / "triangle.cert"
    texts = []
    for jobs in ("1", "3"):
        run(
            net,
            cert,
            "--failures",
            "--double",
            "--jobs",
            jobs,
            "--html",
            tmp_path / "x.html",
            "--csv",
            tmp_path / "x.csv",
            program=program,
            status=1,
        )
        texts.append(((tmp_path / "x.html").read_bytes(), (tmp_path / "x.csv").read_bytes()))
    assert texts[0] == texts[1]


def test_a_bridge_cuts_demands_off(program: Program, tmp_path: Path):
    (tmp_path / "cert").write_text(program.solve(EXAMPLES / "one-link.net", "--workers", "1"), "latin-1")
    out, _ = run(EXAMPLES / "one-link.net", tmp_path / "cert", "--failures", program=program, status=1)
    assert out == (
        "Not all demands fit after 1 of 1 single failure. The worst is that of L1 (A – B): some demand has no way at all; "
        "without failures it is 250.0 % to 250.0 % of every demand.\n"
    )


def test_sweep_is_taken_where_the_program_has_it(program: Program, tmp_path: Path):
    fake = tmp_path / "mcf"
    lines = "".join(f"sweep {link} lower 0/1 0.000000 upper {at}/7 0.1\\n" for at, link in enumerate(("AB", "AC", "BC"), 1))
    fake.write_text(f'#!/bin/sh\nif [ "$1" = sweep ]; then printf \'{lines}\'; exit 0; fi\nexec {program.path} "$@"\n')
    fake.chmod(0o755)
    out, _ = run(
        EXAMPLES / "triangle.net",
        EXAMPLES / "triangle.cert",
        "--failures",
        "--quick",
        "--csv",
        "-",
        program=Program(str(fake)),
        status=1,
    )
    assert [row["kept_upper"] for row in table(out)] == ["0.142858", "0.285715", "0.428572"]


def test_sweepsolve_saves_what_it_closes(program: Program, tmp_path: Path):
    fake = tmp_path / "mcf"
    lines = "sweep AB closed phases 3 lower 49/100 0.490000 upper 51/100 0.510000\\n"
    lines += "sweep AC open phases 3 lower 1/100 0.010000 upper 99/100 0.990000\\nsweep BC closed phases 3 lower 122/100 1.22 upper 128/100 1.28\\n"
    log = tmp_path / "log"
    fake.write_text(
        f"#!/bin/sh\nif [ \"$1\" = sweepsolve ]; then printf '{lines}'; exit 1; fi\n"
        f'[ "$1" = solve ] && echo solve >> {log}\nexec {program.path} "$@"\n'
    )
    fake.chmod(0o755)
    words = [EXAMPLES / "triangle.net", EXAMPLES / "triangle.cert", "--failures", "--csv", "-"]
    out, _ = run(*words, program=Program(str(fake)), status=1)
    rows = {row["link"]: (Fraction(row["lower"]), Fraction(row["upper"])) for row in table(out)}
    assert log.read_text() == "solve\n"
    assert rows["AB"][0] == Fraction("0.49") and rows["BC"] == (Fraction("1.22"), Fraction("1.28"))
    assert rows["AC"][0] <= CLOSED["AC"] <= rows["AC"][1] and rows["AC"][0] > Fraction("0.7")


def test_a_routing_and_an_invalid_certificate_are_told(program: Program, tmp_path: Path):
    _, said = run(EXAMPLES / "triangle.net", EXAMPLES / "triangle.routing", "--failures", program=program, status=2)
    assert said == f"survey: {EXAMPLES / 'triangle.routing'}: a routing has no bound, so a certificate is wanted\n"
    _, said = run(EXAMPLES / "triangle.net", EXAMPLES / "triangle.cert", "--failures", "--gap", "5%", program=program, status=2)
    assert said == "survey: argument --gap: '5%' is no number (survey --help has the words)\n"
    # (also where no change has to be solved anew)
    for words in (("--gap", "x"), ("--phases", "0"), ("--step", "x")):
        _, said = run(EXAMPLES / "one-link.net", EXAMPLES / "one-link.cert", "--failures", *words, program=program, status=2)
        assert said.startswith(f"survey: argument {words[0]}: ")
    (tmp_path / "bad").write_text(load_text(EXAMPLES / "triangle.cert").replace("368", "369"))
    _, said = run(EXAMPLES / "triangle.net", tmp_path / "bad", "--failures", program=program, status=2)
    assert "mcf check says: invalid C2: " in said and said.count("\n") == 1


@pytest.mark.parametrize("words", [("--quick", "--gap", "0.1"), ("--quick", "--phases", "3"), ("--quick", "--step", "9"),
                                   ("--list", EXAMPLES / "triangle.script")])  # fmt: skip
def test_options_that_would_mean_nothing_are_refused(program: Program, words: tuple[str | Path, ...]):
    out, said = run(EXAMPLES / "triangle.net", EXAMPLES / "triangle.cert", "--failures", *words, program=program, status=2)
    assert not out and said.count("\n") == 1 and said.startswith(("survey: --gap, --phases and --step are for ", "survey: --list is for "))


def test_exact_surveys_are_certified(program: Program):
    pytest.importorskip("scipy")
    if not list(Path("/usr/lib").glob("*/libClp.so*")):
        pytest.skip("coinor-libclp1 is missing: tools/setup")
    out, _ = run(
        EXAMPLES / "triangle.net", EXAMPLES / "triangle.cert", "--failures", "--exact", "--csv", "-", program=program, status=1
    )
    for row in table(out):
        assert Fraction(row["lower"]) <= CLOSED[row["link"]] <= Fraction(row["upper"])
        assert Fraction(row["upper"]) - Fraction(row["lower"]) <= Fraction(3, 10**6)


def test_a_link_whose_capacity_cannot_be_doubled_is_named(program, tmp_path):
    """Twice 9,000,000.000001 is over the greatest capacity in millionths: the other links are doubled, and this one is named."""
    net, cert = tmp_path / "large.net", tmp_path / "large.cert"
    net.write_text(TRIANGLE.replace("AB ( A B ) 10 ", "AB ( A B ) 9000000.000001 "), "ascii")
    cert.write_text(program.solve(net), "ascii")
    out, _ = run(net, cert, "--double", "--html", tmp_path / "page.html", "--csv", tmp_path / "rows.csv", program=program, status=1)
    assert out.startswith("Of the links that can be doubled, ")
    assert out.endswith("AB (A – B) is not doubled: a capacity is at most 17592186044416 units of 0.000001.\n")
    assert {row["link"] for row in table((tmp_path / "rows.csv").read_text("ascii"))} == {"AC", "BC"}
    assert "AB is not doubled" in (tmp_path / "page.html").read_text("utf-8")
    answer = json.loads(run(net, cert, "--double", "--json", program=program, status=1)[0])
    assert answer["surveys"][0]["left"] == ["AB"]


def test_a_closed_and_a_doubled_link_in_a_script_and_in_a_network():
    link = Link("L", "A", "B", "1.5", "9", "8", "7", (Module("2.25", "1"), Module("4", "3")))
    net = read_network(TRIANGLE)
    ground = Ground(Program("none"), "net", "cert", triangle(), Judged("", ""))
    assert surveys._steps(ground, link, 2) == "set L 11 show set L 5.5\n"  # pylint: disable=protected-access
    assert surveys._steps(ground, link, 0) == "set L 0 show set L 5.5\n"  # pylint: disable=protected-access
    new = surveys.changed(net, 1, Fraction(25, 2))
    assert new.links[1] == Link("AC", "A", "C", "12.5") and new.links[0] == net.links[0] and new.demands == net.demands


def test_bounds_are_joined_and_divided():
    one, other = Range(Fraction(1, 2), Fraction(3, 4)), Range(Fraction(1, 4), Fraction(2, 3))
    assert one.both(other) == Range(Fraction(1, 2), Fraction(2, 3))
    assert one.divided(Fraction(2)) == Range(Fraction(1, 4), Fraction(3, 8))
    assert one.within(Fraction(1, 2)) and not one.within(Fraction(49, 100))


def test_sentences_of_surveys():
    assert sentence(of_values("failure", CLOSED)) == (
        "not all demands fit after 2 of 3 single failures. The worst is that of AB (A – B): 50.0 % to 50.0 % of every demand; without failures it is "
        "133.3 % to 133.4 % of every demand."
    )
    assert sentence(of_values("failure", {"AB": Fraction(2)})).startswith("all demands fit after each of 1 single failure. ")
    assert "AB (A – B): 216.6 % to 216.7 % of every demand with it" in sentence(of_values("double", DOUBLED, solver="none"))
    assert sentence(of_values("failure", CLOSED, Fraction(3, 2))).startswith("With all demands times 1.5: not all demands fit")
    base = Range(Fraction(4, 3), Fraction(7, 5))
    assert [growth for growth, _ in grown(base, [Fraction(1), Fraction(2)])] == [2, 1]
    assert (
        grown_sentence(Fraction(2), base.divided(Fraction(2)))
        == "With all demands times 2 they do not all fit: 66.6 % to 70.0 % of every demand."
    )


def test_the_table_rounds_lower_down_and_upper_up():
    rows = table(survey_table([of_values("failure", CLOSED)], [(Fraction(2), Range(Fraction(2, 3), Fraction(2, 3)))]))
    assert (rows[0]["change"], rows[0]["lower"], rows[0]["upper"], rows[0]["fits"]) == ("grow 2", "0.666666", "0.666667", "no")
    assert (rows[2]["link"], rows[2]["lower"], rows[2]["upper"], rows[2]["capacity"]) == (
        "AC",
        "0.833333",
        "0.833334",
        "6.000000",
    )


def test_thickness_is_how_much_a_change_matters():
    part = Part(of_values("failure", CLOSED))
    widths = {line.title.split()[0]: line.width for line in part.drawing().lines}
    assert widths == {"AB": round(2.5 + 11 * 0.625, 2), "AC": round(2.5 + 11 * 0.375, 2), "BC": round(2.5 + 11 * 0.0625, 2)}
    assert [Part(of_values("double", DOUBLED)).change(case) for case in of_values("double", DOUBLED).cases] == [
        Fraction(5, 8),
        Fraction(3, 8),
        0,
    ]


def test_a_routing_has_no_ground():
    figures = Figures(scale(read_network(TRIANGLE)), read_any(load_text(EXAMPLES / "triangle.routing")))
    with pytest.raises(TextError, match="a routing has no bound"):
        _ = Ground(Program("none"), "net", "cert", figures, Judged("", "feasible undirected none 4/3 1.333333")).base


@pytest.mark.parametrize("width", [400, 1600])
def test_pages_of_surveys_in_a_browser(tmp_path: Path, width: int):
    both = [of_values("failure", CLOSED), of_values("double", DOUBLED)]
    page = survey_page(
        "<script>window.top.hit=1</script>", triangle().scaled, both, [(Fraction(2), Range(Fraction(2, 3), Fraction(2, 3)))]
    )
    seen = browser.measured(page, width, tmp_path)
    assert seen["outside"] == [] and seen["lost"] == [] and seen["wide"] <= width
    assert seen["circles"] == 6 and sum(seen["strokes"].values()) == 6 and "none" not in seen["strokes"]
    assert seen["scripts"] == 0 and not seen["hit"] and "Not all demands fit after 2 of 3 single failures." in seen["text"]


def test_names_that_are_formulas_have_an_apostrophe() -> None:
    one = of_values("failure", CLOSED)
    case = one.cases[0]
    named = dataclasses.replace(case, link=dataclasses.replace(case.link, id="=1+1", source="@x", target="'-"))
    row = table(survey_table([dataclasses.replace(one, cases=(named,))], []))[0]
    assert (row["link"], row["source"], row["target"]) == ("'=1+1", "'@x", "''-")
