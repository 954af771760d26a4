"""Networks beyond the limits of mcf: tools and the API ask the program with wide limits, and say so once."""

from __future__ import annotations

import logging
import os
import re
import subprocess
import sys
from pathlib import Path

import pytest

import mcf
from mcf import Program, commands
from mcf.certificate import save_text
from mcf.desk.child import Held, Work
from mcf.desk.ground import Ground
from mcf.hints.hint import explained, hint
from mcf.limits import MAX_LINKS, NARROW, WIDE, limits_of
from mcf.network import read_network
from mcf.program import _tell_wide, wide_for
from mcf.scaled import scale
from mcf.studies import children

HEADER = "?SNDlib native format; type: network; version: 1.0\n"
NODES = 600
TOLD = "a file is beyond the limits of mcf, so mcf-wide is asked: "


def ring(nodes: int, demands: int = 1) -> str:
    """A ring of nodes, with demands of one unit between the first two."""
    rows = ["NODES (", *(f"  N{at}" for at in range(nodes)), ")", "LINKS ("]
    rows += [f"  L{at} ( N{at} N{(at + 1) % nodes} ) 10 0 0 0 ( )" for at in range(nodes)]
    rows += [")", "DEMANDS (", *(f"  D{at} ( N0 N1 ) 1 1 UNLIMITED" for at in range(demands)), ")"]
    return HEADER + "\n".join(rows) + "\n"


@pytest.fixture
def large(tmp_path: Path) -> Path:
    """A network of more nodes than mcf takes."""
    net = tmp_path / "large.net"
    save_text(net, ring(NODES))
    return net


@pytest.fixture(autouse=True)
def told_anew() -> None:
    """What is told once in a process is told once in each test."""
    _tell_wide.cache_clear()


def tool(root: Path, name: str, *words: str | Path, program: Program) -> subprocess.CompletedProcess[str]:
    """A run of a tool on the program."""
    env = {**os.environ, "MCF": program.path}
    return subprocess.run([str(root / "tools" / name), *map(str, words)], capture_output=True, text=True, env=env, check=False)


# -- which program answers

def test_within_the_limits_mcf_answers(program: Program, wide: Program, root: Path, caplog: pytest.LogCaptureFixture) -> None:
    answer = program.run("solve", str(root / "examples/triangle.net"), "--workers", "1")
    assert answer.status == 0 and answer.program == program.path and not caplog.records


def test_beyond_them_mcf_wide_answers_and_that_is_told_once(program: Program, wide: Program, large: Path,
                                                           caplog: pytest.LogCaptureFixture) -> None:
    for _ in range(2):
        assert program.run("solve", str(large), "--workers", "1").program == wide.path
    assert [record.getMessage() for record in caplog.records] == [f"{TOLD}{wide.path}"]
    assert all(record.name == "mcf" and record.levelno == logging.WARNING for record in caplog.records)


def test_the_answer_is_that_of_mcf_wide(program: Program, wide: Program, large: Path, tmp_path: Path) -> None:
    text = program.solve(large, "--workers", "1")
    assert text == wide.solve(large, "--workers", "1")
    save_text(tmp_path / "cert", text)
    assert program.check(large, tmp_path / "cert").text == wide.check(large, tmp_path / "cert").text
    assert len(program.network(large).nodes) == NODES


def test_more_demands_than_mcf_takes(program: Program, wide: Program, tmp_path: Path) -> None:
    save_text(tmp_path / "net", ring(3, NARROW.demands + 1))
    answer = program.run("solve", str(tmp_path / "net"), "--workers", "1", "--phases", "2")
    assert answer.program == wide.path and answer.line == "mcf-certificate 2"


def test_without_mcf_wide_the_refusal_stands_and_names_it(program: Program, large: Path) -> None:
    answer = program.run("solve", str(large))
    assert (answer.status, answer.line, answer.program) == (3, f"refused net N4 line {large.read_text().splitlines().index('  N512') + 1}", program.path)
    with pytest.raises(mcf.TextError, match=f"more than {NARROW.nodes} nodes.*mcf-wide takes 1,000 nodes, 4,096 links too, and 1,048,576 demands"):
        program.solve(large)


def test_an_mcf_wide_that_is_not_there_is_said(program: Program, large: Path, monkeypatch: pytest.MonkeyPatch) -> None:
    monkeypatch.setenv("MCF_WIDE", "/no/such/mcf-wide")
    with pytest.raises(mcf.TextError, match="^/no/such/mcf-wide: no such program; MCF_WIDE names the program with wide limits$"):
        program.solve(large)


def test_what_mcf_wide_refuses_is_told_with_its_limits(program: Program, wide: Program, tmp_path: Path) -> None:
    save_text(tmp_path / "net", ring(WIDE.nodes + 1))
    with pytest.raises(mcf.TextError) as caught:
        program.solve(tmp_path / "net")
    assert f"more than {WIDE.nodes:,} nodes, {MAX_LINKS:,} links or {WIDE.demands:,} demands" in str(caught.value)
    assert "mcf-wide takes" not in str(caught.value)


def test_other_refusals_are_those_of_mcf(program: Program, wide: Program, tmp_path: Path, caplog: pytest.LogCaptureFixture) -> None:
    save_text(tmp_path / "net", "no network\n")
    assert program.run("print", str(tmp_path / "net")).program == program.path
    assert wide_for(program.path, "refused work 2097153") is None and not caplog.records


def test_mcf_wide_does_not_ask_itself(wide: Program, tmp_path: Path) -> None:
    save_text(tmp_path / "net", ring(WIDE.nodes + 1))
    answer = wide.run("print", str(tmp_path / "net"))
    assert answer.status == 3 and answer.program == wide.path


# -- the API

def test_the_api_solves_checks_and_asks_what_if(program: Program, wide: Program, large: Path, monkeypatch: pytest.MonkeyPatch) -> None:
    monkeypatch.setenv("MCF", program.path)
    network = mcf.read(large)
    certificate = network.solve(workers=1, step=NARROW.step, gap=0.2)
    assert certificate.closed and certificate.lower <= 20 <= certificate.upper
    assert mcf.check(network, certificate)
    assert network.whatif(certificate, [("close", "L0")]).table()["upper"][0] < certificate.upper


def test_the_api_refuses_with_the_limits_of_the_program_that_refused(program: Program, wide: Program, tmp_path: Path,
                                                                     monkeypatch: pytest.MonkeyPatch) -> None:
    monkeypatch.setenv("MCF", program.path)
    texts = {"net": ring(WIDE.nodes + 1).encode()}
    with pytest.raises(mcf.Refused, match=f"more than {WIDE.nodes:,} nodes") as caught:
        commands.ask("print", texts)
    assert caught.value.kind == "N4"


def test_a_batch_with_more_demands_than_mcf_takes(program: Program, wide: Program, root: Path, monkeypatch: pytest.MonkeyPatch) -> None:
    monkeypatch.setenv("MCF", program.path)
    network = mcf.read(root / "examples/triangle.net")
    names = [node.id for node in network.rows.nodes]
    rows = "".join(f"  D{at} ( {names[0]} {names[1]} ) 1 1 UNLIMITED\n" for at in range(NARROW.demands + 1))
    ended = commands.ask("batch", {"net": network.data, "list": f"great (\n{rows})\n".encode()}, ["--phases", "2"])
    assert ended.line == "matrix great"


# -- studies and the desk

def test_workers_of_studies_and_the_desk_ask_mcf_wide(program: Program, wide: Program, large: Path, caplog: pytest.LogCaptureFixture) -> None:
    worker = children.Program(program.path)
    try:
        answer = worker.run("solve", ["--workers", "1", "--step", str(NARROW.step), "--gap", "0.2"], large.read_bytes())
    finally:
        worker.close()
    # (the one who asked for the study is told, and not each worker)
    assert (answer.status, answer.program) == (0, wide.path) and not caplog.records
    with Held(large.read_bytes()) as net:
        ended = Work().ask(program.path, "solve", {"net": net}, ["--workers", "1", "--step", str(NARROW.step), "--gap", "0.2"])
    assert ended.out == answer.data and len(caplog.records) == 1


@pytest.mark.parametrize(("nodes", "demands", "command"), [(NARROW.nodes, NARROW.demands, "mcf"), (NARROW.nodes + 1, 1, "mcf-wide"),
                                                           (3, NARROW.demands + 1, "mcf-wide")])
def test_the_desk_shows_commands_of_the_program_that_takes_the_network(nodes: int, demands: int, command: str) -> None:
    text = ring(nodes, demands)
    with Held(text.encode()) as held:
        ground = Ground("mcf", "ring.net", "ring", held, held, scale(read_network(text), "undirected", "largest"))
        assert ground.command == command


# -- the tools

def test_tools_say_it_once_under_their_name(program: Program, wide: Program, root: Path, large: Path, tmp_path: Path) -> None:
    cert = tmp_path / "large.cert"
    save_text(cert, wide.solve(large, "--workers", "1"))
    for name, words in (("show", (large, cert)), ("report", (large, cert, "--html", tmp_path / "page.html")),
                        ("route", (large, "--by", "hops", "--no-best", "--output", tmp_path / "routing"))):
        done = tool(root, name, *words, program=program)
        assert done.returncode in (0, 1) and done.stderr.splitlines().count(f"{name}: {TOLD}{wide.path}") == 1, (name, done.stderr)
    done = tool(root, "show", large, cert, "--json", program=program)
    assert done.stderr == "" and f'"notes": ["{TOLD}{wide.path}"]' in done.stdout


def test_the_second_checker_takes_the_same(wide: Program, root: Path, large: Path, tmp_path: Path) -> None:
    save_text(tmp_path / "cert", wide.solve(large, "--workers", "1"))
    done = subprocess.run([sys.executable, str(root / "tools/check_twice"), "--wide", str(large), str(tmp_path / "cert")],
                          capture_output=True, text=True, check=False)
    assert done.stdout == wide.check(large, tmp_path / "cert").text


# -- hints and help

def test_hints_tell_the_limits_of_the_program_that_wrote_the_line(large: Path) -> None:
    line, words = "refused net N4 line 3", ["print", str(large)]
    assert f"more than {NARROW.nodes} nodes" in explained(line, words) and "mcf-wide takes 1,000 nodes" in explained(line, words)
    assert f"more than {WIDE.nodes:,} nodes" in explained(line, words, WIDE) and "mcf-wide takes" not in explained(line, words, WIDE)
    assert (limits_of("/usr/bin/mcf"), limits_of("/usr/bin/mcf-wide")) == (NARROW, WIDE)
    assert "a whole number from 2 to 512 " in str(hint(2, "/usr/bin/mcf", ["gen", "1", "600", "600", "1"], 1))
    assert "a whole number from 2 to 1000 " in str(hint(2, "/usr/bin/mcf-wide", ["gen", "1", "1001", "1001", "1"], 1))


@pytest.mark.parametrize("page", ("solve", "gen", "batch", "hops", "sweepsolve", "throughput", "mcf", "check"))
def test_help_of_mcf_wide_has_its_name_and_its_limits(root: Path, page: str) -> None:
    words = ["sed", "-f", str(root / "python/mcf/hints/wide.sed"), str(root / f"python/mcf/hints/help/{page}.txt")]
    text = subprocess.run(words, capture_output=True, text=True, check=True).stdout
    plain = (root / f"python/mcf/hints/help/{page}.txt").read_text()
    for narrow, is_wide in ((f"[{NARROW.step}]", f"[{WIDE.step}]"), (str(NARROW.work), str(WIDE.work)), (f"2 to {NARROW.nodes},", f"2 to {WIDE.nodes},"),
                            (f"1 to {NARROW.demands}.", f"1 to {WIDE.demands}.")):
        assert narrow not in text and (narrow not in plain or is_wide in text)
    assert not re.search(r"\bmcf (?!-)", text) and ("mcf-wide " in text)
    assert ("mcf-certificate" in text) == ("mcf-certificate" in plain)
