"""Each sentence and status of `tools/survey` beside what is so: solving each change exactly, by a program of its own."""

from __future__ import annotations

import contextlib
import io
import os
import re
import signal
import subprocess
import tempfile
import time
from fractions import Fraction
from pathlib import Path

import pytest

pytest.importorskip("hypothesis", reason="python3-hypothesis is missing: tools/setup --tests")

from hypothesis import given, settings  # noqa: E402
from hypothesis import strategies as st  # noqa: E402

from drawn import greatest, small_networks, with_capacity  # noqa: E402
from mcf import Demand, Link, Node, Program, save_text, scale, write_network  # noqa: E402
from mcf.certificate import Routing  # noqa: E402
from mcf.network import Network  # noqa: E402
from mcf.cli import survey as tool  # noqa: E402
from mcf.ranges import Range  # noqa: E402
from mcf.report.figures import Figures  # noqa: E402
from mcf.survey.cases import Case, Settings, Survey  # noqa: E402
from mcf.survey.words import sentence  # noqa: E402

ROOT = Path(__file__).resolve().parents[2]
SURVEY = ROOT / "tools/survey"
DATA = ROOT / "tools/tests/data/survey"
LONG = bool(os.environ.get("MCF_LONG") or os.environ.get("MCF_PROCESSES"))
DRAWN = 300 if LONG else 15
NEAR = 2e-6
WAYS = ((), ("--quick",), ("--gap", "0.5", "--phases", "2"))


def run(program: Program, *words: str | Path, **environment: str) -> subprocess.CompletedProcess[str]:
    """A run of the tool."""
    command = [str(SURVEY), *map(str, words), "--mcf", program.path, "--quiet"]
    return subprocess.run(command, capture_output=True, text=True, check=False, env={**os.environ, **environment})


def solved(program: Program, net: Path, room: Path) -> Path:
    """A certificate of a network."""
    save_text(room / "cert", program.solve(net, "--workers", "1"))
    return room / "cert"


def said(program: Program, net: Path, cert: Path, *words: str) -> tuple[str, int]:
    """The sentences and the status of the tool's words, without a process of its own."""
    asked = tool.options().parse_args([str(net), str(cert), *words, "--mcf", program.path, "--quiet", "--jobs", "1"])
    kinds = [kind for kind, wanted in (("failure", asked.failures), ("double", asked.double)) if wanted]
    with contextlib.redirect_stdout(io.StringIO()) as out:
        status = tool.run(asked, kinds)
    return out.getvalue(), status


# --- the cases that were found ---------------------------------------------------------------------------------------------------


@pytest.mark.parametrize("name", ["abilene", "cost266", "pdh"])
def test_a_certificate_alone_decides_nothing_of_these(program: Program, tmp_path: Path, name: str) -> None:
    """Of abilene 7 of 15 failures leave no room and one cuts a node off, of cost266 21 of 57; all of pdh fit."""
    net = DATA / f"{name}.net" if (DATA / f"{name}.net").exists() else ROOT / f"examples/{name}.net"
    done = run(program, net, solved(program, net, tmp_path), "--failures", "--quick")
    count = {"abilene": 15, "cost266": 57, "pdh": 34}[name]
    assert done.returncode == 1 and done.stderr == ""
    front = f"It is not decided whether all demands fit after {count} of {count} single failures. Which is the worst is not decided: it leaves at most "
    assert done.stdout.startswith(front) and done.stdout.count("\n") == 1


def test_the_worst_of_abilene_cuts_a_node_off(program: Program, tmp_path: Path) -> None:
    net = ROOT / "examples/abilene.net"
    done = run(program, net, solved(program, net, tmp_path), "--failures")
    assert done.returncode == 1
    assert "Not all demands fit after 7 of 15 single failures. The worst is that of ATLAM5_ATLAng " in done.stdout
    assert ": some demand has no way at all; without failures " in done.stdout


def alps(program: Program, room: Path) -> tuple[Path, Path]:
    """The network of docs/planner/hour.md with its certificate."""
    words = ["examples/alps.graphml", "examples/alps.csv", str(room / "alps.net"), "--unit", "Gbit", "--from-unit", "Gbit"]
    subprocess.run(["tools/convert", *words, "--capacity-default", "10G"], cwd=ROOT, capture_output=True, check=True)
    return room / "alps.net", solved(program, room / "alps.net", room)


def test_a_certificate_alone_names_no_worst_of_alps(program: Program, tmp_path: Path) -> None:
    """Its own bound falls most for Basel-Munich; solved anew, the worst is Milan-Verona."""
    done = run(program, *alps(program, tmp_path), "--failures", "--quick")
    assert done.returncode == 1 and "Basel" not in done.stdout and "Which is the worst is not decided" in done.stdout


def test_a_doubling_that_is_far_from_enough_is_no_success(program: Program, tmp_path: Path) -> None:
    done = run(program, *alps(program, tmp_path), "--double", "--grow", "100", "--quick")
    assert done.returncode == 1
    assert done.stdout.startswith("With all demands times 100: it is not decided whether doubling any one link gains anything, and none gains more than ")


def test_doublings_whose_ranges_overlap_are_all_named(program: Program, tmp_path: Path) -> None:
    net, cert = alps(program, tmp_path)
    done = run(program, net, cert, "--double")
    assert done.returncode == 0
    assert "one of 2, and not decided between them, which are Basel-Munich (Basel – Munich) and Zurich-St._Gallen (" in done.stdout


def test_no_winner_where_none_is_shown_to_gain(program: Program, tmp_path: Path) -> None:
    """Of pdh the doubling of L6 carries most by these solves; by exact ones that of L16, L26 and L32, all the same."""
    net = DATA / "pdh.net"
    cert = solved(program, net, tmp_path)
    done = run(program, net, cert, "--double")
    assert done.returncode == 0 and done.stdout.startswith("It is not decided whether doubling any one link gains anything, and none gains ")
    assert "L6" not in done.stdout
    if not LONG:
        return
    exact = run(program, net, cert, "--double", "--exact")
    assert exact.returncode == 0 and "are L16 (N3 – N8), L26 (N6 – N8) and L32 (N8 – N10), which are worth the same: " in exact.stdout


def test_many_links_are_counted_and_the_first_are_named(program: Program, tmp_path: Path) -> None:
    net = ROOT / "examples/germany50.net"
    done = run(program, net, solved(program, net, tmp_path), "--double", "--quick")
    assert done.returncode == 1 and "it is not decided whether doubling any one link gains anything" in done.stdout.lower()
    row = "".join(f"  L{number} ( A B ) 1 0 0 0 ( )\n" for number in range(9))
    head = "?SNDlib native format; type: network; version: 1.0\nNODES (\n  A\n  B\n)\n"
    (tmp_path / "net").write_text(f"{head}LINKS (\n{row})\nDEMANDS (\n  D ( A B ) 1 3 UNLIMITED\n)\n")
    done = run(program, tmp_path / "net", solved(program, tmp_path / "net", tmp_path), "--failures", "--exact")
    assert done.returncode == 0
    assert "The worst are those of L0 (A – B), L1 (A – B), L2 (A – B) and 6 others, which are equally bad: 266.6 % to 266.7 %" in done.stdout


def test_a_doubling_that_gains_nothing_is_told(program: Program, tmp_path: Path) -> None:
    """Two links in a row of the same capacity: either alone gains nothing."""
    head = "?SNDlib native format; type: network; version: 1.0\nNODES (\n  A\n  B\n  C\n)\n"
    net = tmp_path / "net"
    net.write_text(f"{head}LINKS (\n  L ( A B ) 2 0 0 0 ( )\n  M ( B C ) 2 0 0 0 ( )\n)\nDEMANDS (\n  D ( A C ) 1 1 UNLIMITED\n)\n")
    done = run(program, net, solved(program, net, tmp_path), "--double", "--exact")
    assert done.returncode == 0
    assert done.stdout == "Doubling any one link gains nothing: it is 200.0 % to 200.0 % of every demand with it and without.\n"


def test_a_solve_that_check_refuses_is_not_believed(program: Program, tmp_path: Path) -> None:
    """A program whose `solve` writes too good a lower fraction, on a network that `check` judges."""
    fake, net = tmp_path / "mcf", ROOT / "examples/triangle.net"
    fake.write_text(f'#!/bin/sh\n[ "$1" = sweepsolve ] && exit 3\n[ "$1" = solve ] && {{ {program.path} "$@" | sed "s/^lower .*/lower 9\\/1 9.000000/"; exit 0; }}\n'
                    f'exec {program.path} "$@"\n')
    fake.chmod(0o755)
    done = run(Program(str(fake)), net, ROOT / "examples/triangle.cert", "--failures")
    assert (done.returncode, done.stdout) == (2, "")
    assert done.stderr.startswith("survey: mcf check says: invalid C9: ") and done.stderr.count("\n") == 1


# --- each form of a sentence ------------------------------------------------------------------------------------------------------


def of_ranges(kind: str, base: tuple[str, str], **ends: tuple[str, str]) -> str:
    """The sentence on cases with these ranges."""
    figures = Figures(scale(TINY), Routing(2, "undirected", "largest", 0, 0, 1))
    cases = [Case(kind, Link(name, "A", "B", "1"), Fraction(1), to_range(*pair), to_range(*pair)) for name, pair in ends.items()]
    return sentence(Survey(figures, kind, to_range(*base), tuple(cases), Settings()))


def to_range(low: str, high: str) -> Range:
    """A range."""
    return Range(Fraction(low), Fraction(high))


TINY = Network((Node("A"), Node("B")), (Link("L", "A", "B", "1"),), (Demand("D", "A", "B", "1", "1"),))


@pytest.mark.parametrize("ends,said", [
    ({"K": ("1/2", "0.6"), "L": ("0.7", "2")}, "The worst is that of K (A – B): 50.0 % to 60.0 % of every demand"),
    ({"K": ("0", "0"), "L": ("0.7", "2")}, "The worst is that of K (A – B): some demand has no way at all"),
    ({"K": ("1/2", "1/2"), "L": ("1/2", "1/2"), "M": ("1", "1")}, "The worst are those of K (A – B) and L (A – B), which are equally bad: 50.0 % to 50.0 %"),
    ({"K": ("0", "0"), "L": ("0", "2"), "M": ("1", "1")}, "None is worse than that of K (A – B), and whether others are as bad is not decided: some demand"),
    ({"K": ("1/2", "0.8"), "L": ("0.7", "2"), "M": ("1", "2")},
     "The worst is one of 2, and not decided between them, which are those of K (A – B) and L (A – B): 50.0 % to 80.0 %"),
    ({"K": ("0", "0.8"), "L": ("0", "2")}, "Which is the worst is not decided: it leaves at most 80.0 % of every demand; "),
    ({"K": ("0", "0.8"), "L": ("0", "2"), "M": ("0", "2"), "N": ("0", "2"), "O": ("0", "2"), "P": ("1", "2")},
     "The worst is one of 5, and not decided between them, which are those of K (A – B), L (A – B), M (A – B) and 2 others: at most 80.0 % of"),
    ({"K": ("0.9999", "0.99996"), "L": ("1", "2")}, "not all demands fit after 1 of 2 single failures. The worst is that of K (A – B): 99.9 % to 99.996 %"),
])
def test_each_form_of_the_worst(ends: dict[str, tuple[str, str]], said: str) -> None:
    assert said in of_ranges("failure", ("2", "2"), **ends)


@pytest.mark.parametrize("base,ends,said", [
    (("1", "1.1"), {"K": ("2", "3"), "L": ("1", "1.5")}, "the link most worth doubling is K (A – B): 200.0 % to 300.0 % of every demand with it, and 100.0 %"),
    (("1", "1"), {"K": ("2", "2"), "L": ("2", "2")}, "the links most worth doubling, one of them alone, are K (A – B) and L (A – B), which are worth the same:"),
    (("1", "1"), {"K": ("2", "2"), "L": ("1", "2")}, "no link is more worth doubling than K (A – B), and whether others are worth as much is not decided: "),
    (("1", "1"), {"K": ("2", "3"), "L": ("1", "2")}, "some link is worth doubling, and which one most is not decided: 200.0 % to 300.0 % of"),
    (("1", "1"), {"K": ("2", "3"), "L": ("1", "2"), "M": ("1", "1")},
     "the link most worth doubling is one of 2, and not decided between them, which are K (A – B) and L (A – B): 200.0 % to 300.0 %"),
    (("0", "0"), {"K": ("0", "0")}, "doubling any one link gains nothing: some demand has no way at all with it and without."),
    (("1", "1"), {"K": ("1", "1"), "L": ("1", "1")}, "doubling any one link gains nothing: it is 100.0 % to 100.0 % of every demand with it and without."),
    (("1", "1.1"), {"K": ("1.1", "1.3"), "L": ("1", "1.2")},
     "it is not decided whether doubling any one link gains anything, and none gains more than 30.0 %: 110.0 % to 130.0 % of every demand with the "),
    (("0", "0"), {"K": ("1", "1"), "L": ("0", "0")}, "the link most worth doubling is K (A – B): 100.0 % to 100.0 % of every demand with it, and some demand"),
    (("0", "1"), {"K": ("0", "1")}, "it is not decided whether doubling any one link gains anything: at most 100.0 % of every demand with the best"),
])
def test_each_form_of_the_best(base: tuple[str, str], ends: dict[str, tuple[str, str]], said: str) -> None:
    assert said in of_ranges("double", base, **ends)


# --- all sentences on drawn networks ---------------------------------------------------------------------------------------------

PERCENT = r"([\d,]+\.\d+) %"


def named(text: str) -> list[str]:
    """The links that a part of a sentence names."""
    return re.findall(r"(L\d+) \(N", text)


def holds_between(text: str, value: float, growth: float) -> None:
    """`at most X` and `X to Y of every demand` hold for a fraction."""
    value /= growth
    if text.startswith("some demand has no way at all"):
        assert value <= NEAR
        return
    most = re.match(rf"at most {PERCENT} of every demand", text)
    both = re.match(rf"{PERCENT} to {PERCENT} of every demand", text)
    assert most or both, text
    ends = (0.0, float(most[1].replace(",", ""))) if most else tuple(float(word.replace(",", "")) for word in both.groups())  # type: ignore[union-attr]
    assert ends[0] / 100 - NEAR <= value <= ends[1] / 100 + NEAR, (text, value)


def failures_hold(text: str, values: dict[str, float], base: float, growth: float) -> None:
    """Every claim of the sentence on failures."""
    below = sum(value / growth < 1 - NEAR for value in values.values())
    above = sum(value / growth >= 1 + NEAR for value in values.values())
    every = len(values)
    if found := re.search(r"not all demands fit after (\d+) of (\d+) single failures?(?:, and after (\d+) it is not decided)?\. ", text, re.I):
        lost, left = int(found[1]), int(found[3] or 0)
    elif found := re.search(r"it is not decided whether all demands fit after (\d+) of (\d+) single failures?\. ", text, re.I):
        lost, left = 0, int(found[1])
    else:
        found = re.search(r"all demands fit after each of ((\d+)) single failures?\. ", text, re.I)
        lost, left = 0, 0
    assert found and int(found[2]) == every and lost <= every - above and below <= lost + left
    rest = text[found.end():]
    claim, without = re.split("; without failures (?:it is )?", rest)
    least = min(values.values())
    holds_between(without, base, growth)
    who, left_over = claim.split(": ", 1) if "it leaves" not in claim else (claim, claim[claim.index("it leaves ") + 10:])
    holds_between(left_over, least, growth)
    least_named(who, values, least, every)


def least_named(who: str, values: dict[str, float], least: float, every: int) -> None:
    """Whether those that are named as the worst are so."""
    links = named(who)
    if "Which is the worst is not decided" in who:
        assert not links and every > 1
    elif "is one of" in who:
        count = int(re.search(r"is one of (\d+)", who)[1])  # type: ignore[index]
        assert count < every and (len(links) < count or least >= min(values[link] for link in links) - NEAR)
    else:
        assert links and all(values[link] <= least + NEAR for link in links)


def doublings_hold(text: str, values: dict[str, float], base: float, growth: float) -> None:
    """Every claim of the sentence on doublings."""
    most = max(values.values())
    lower = text[0].lower() + text[1:]
    if "gains nothing" in lower:
        assert most <= base + NEAR
        holds_between(text.split("gains nothing: ")[1].removeprefix("it is ").replace(" with it and without", ""), base, growth)
        return
    claim, without = text.rsplit(", and ", 1)
    holds_between(without.replace(" without", ""), base, growth)
    holds_between(claim[claim.rindex(": ") + 2:].replace(" with it", "").replace(" with the best", ""), most, growth)
    if "is not decided whether" in lower:
        if limit := re.search(rf"none gains more than {PERCENT}", text):
            assert most <= base * (1 + float(limit[1].replace(",", "")) / 100) + NEAR
        return
    assert most >= base - NEAR and (base > NEAR or most > NEAR), "some link is worth doubling"
    links = named(claim)
    if "which one most is not decided" in claim:
        assert not links
    elif "is one of" in claim:
        count = int(re.search(r"is one of (\d+)", claim)[1])  # type: ignore[index]
        assert count < len(values) and (len(links) < count or most <= max(values[link] for link in links) + NEAR)
    else:
        assert links and all(values[link] >= most - NEAR for link in links)


@settings(max_examples=DRAWN)
@given(small_networks(), st.sampled_from(["undirected", "directed", "bidirected"]), st.sampled_from(["1", "0.5", "1.3"]))
def test_sentences_hold_on_drawn_networks(program: Program, network: Network, links: str, growth: str) -> None:
    with tempfile.TemporaryDirectory() as name:
        room = Path(name)
        net, cert = room / "net", room / "cert"
        save_text(net, write_network(network))
        save_text(cert, program.solve(net, "--workers", "1", "--links", links))
        base, times = greatest(network, links), float(Fraction(growth))
        for word, factor, check in (("--failures", 0, failures_hold), ("--double", 2, doublings_hold)):
            values = {link.id: greatest(with_capacity(network, at, factor), links) for at, link in enumerate(network.links)}
            for how in WAYS:
                text, status = said(program, net, cert, word, *(("--grow", growth) if growth != "1" else ()), *how)
                check(text.strip().removeprefix(f"With all demands times {growth}: ").removesuffix("."), values, base, times)
                if status == 0:
                    assert all(value / times >= 1 - NEAR for value in values.values())


# --- ends ------------------------------------------------------------------------------------------------------------------------


def slow_program(program: Program, room: Path) -> Program:
    """A program that solves for an hour."""
    fake = room / "mcf"
    fake.write_text(f'#!/bin/sh\ncase "$1" in\nsweepsolve) exit 3 ;;\nsolve) touch {room}/began; sleep 3600 ;;\n*) exec {program.path} "$@" ;;\nesac\n')
    fake.chmod(0o755)
    return Program(str(fake))


@pytest.mark.parametrize("number", [signal.SIGINT, signal.SIGTERM])
def test_a_signal_ends_all(program: Program, tmp_path: Path, number: signal.Signals) -> None:
    slow = slow_program(program, tmp_path)
    scratch = tmp_path / "scratch"
    scratch.mkdir()
    words = [str(SURVEY), str(ROOT / "examples/triangle.net"), str(ROOT / "examples/triangle.cert"), "--failures", "--csv", str(tmp_path / "out")]
    with subprocess.Popen([*words, "--mcf", slow.path, "--jobs", "2"], stdout=subprocess.PIPE, stderr=subprocess.PIPE, text=True,
                          env={**os.environ, "TMPDIR": str(scratch)}) as running:
        while not (tmp_path / "began").exists():
            assert running.poll() is None
            time.sleep(0.01)
        running.send_signal(number)
        out, told = running.communicate()
    assert (running.returncode, out) == (130, "") and told.startswith("survey: ") and told.count("\n") == 1, told
    assert list(scratch.iterdir()) == [] and not (tmp_path / "out").exists()
    listed = subprocess.run(["ps", "-eo", "args"], capture_output=True, text=True, check=True).stdout
    assert str(slow.path) not in listed


@pytest.mark.parametrize("how", [">&-", "> /dev/full", "| true"])
def test_an_output_that_cannot_be_written_is_trouble(program: Program, how: str) -> None:
    """The sentence and the table, on standard output."""
    for words in ("--grow 1", "--grow 1 --csv -"):
        line = f"set -o pipefail; {SURVEY} examples/triangle.net examples/triangle.cert {words} --mcf {program.path} {how}"
        done = subprocess.run(["bash", "-c", line], cwd=ROOT, capture_output=True, text=True, check=False)
        assert (done.returncode, done.stdout, done.stderr.count("\n")) == (2, "", 1), done.stderr


def test_another_locale(program: Program) -> None:
    environment = {"LC_ALL": "C", "PYTHONCOERCECLOCALE": "0", "PYTHONUTF8": "0"}
    done = run(program, ROOT / "examples/triangle.net", ROOT / "examples/triangle.cert", "--failures", "--quick", **environment)
    assert done.returncode == 1 and done.stderr == "" and done.stdout.count("\n") == 1


def test_a_network_without_links(program: Program, tmp_path: Path) -> None:
    head = "?SNDlib native format; type: network; version: 1.0\nNODES (\n  A\n  B\n)\n"
    net = tmp_path / "net"
    net.write_text(f"{head}LINKS (\n)\nDEMANDS (\n  D ( A B ) 1 1 UNLIMITED\n)\n")
    for word in ("--failures", "--double"):
        done = run(program, net, solved(program, net, tmp_path), word)
        assert (done.returncode, done.stdout) == (1, "The network has no links.\n")
