"""Standard input in each tool, and one matrix of what batch wrote where a certificate is asked for."""

from __future__ import annotations

import subprocess
from pathlib import Path

import pytest

from mcf import Program, load_text, save_text
from mcf.matrices import answers, matrices, with_demands

ROOT = Path(__file__).resolve().parents[2]
NET, LIST_TEXT = ROOT / "examples/alps.net", "night ( D ( Zurich Milan ) 1 2 UNLIMITED )\nnoon (\n  D ( Zurich Milan ) 1 9 UNLIMITED\n)\n"
ROUTE, SURVEY, CERTIFY = (str(ROOT / "tools" / name) for name in ("route", "survey", "certify"))


def run(program: Program, given: str, *words: str | Path) -> tuple[int, str, str]:
    """The status of a tool with that text on standard input, and what it wrote."""
    done = subprocess.run([*map(str, words), "--mcf", program.path], input=given.encode("latin-1"), capture_output=True, check=False)
    return done.returncode, done.stdout.decode("latin-1"), done.stderr.decode()


@pytest.fixture
def files(tmp_path: Path, program: Program) -> tuple[Path, Path]:
    """A network of two cities and its certificate."""
    net = tmp_path / "two.net"
    rows = "NODES (\n  Zurich\n  Milan\n)\nLINKS (\n  A ( Zurich Milan ) 4 0 0 0 ( )\n  B ( Zurich Milan ) 3 0 0 0 ( )\n)\n"
    save_text(net, f"?SNDlib native format; type: network; version: 1.0\n{rows}DEMANDS (\n  D ( Zurich Milan ) 1 5 UNLIMITED\n)\n")
    save_text(tmp_path / "cert", program.solve(net, "--workers", "1", "--gap", "0.01"))
    return net, tmp_path / "cert"


def test_a_network_on_standard_input_is_as_its_file(program: Program, files: tuple[Path, Path]) -> None:
    net, cert = files
    for words, more in (((ROUTE,), ("--by", "ecmp")), ((SURVEY,), (cert, "--failures")), ((CERTIFY,), ("--gap", "0.001"))):
        of_file, of_input = (run(program, load_text(net), *words, name, *more) for name in (net, "-"))
        assert of_input == of_file and of_file[0] in (0, 1) and (of_file[1] or of_file[2])


def test_a_file_whose_name_is_no_utf8_is_read_as_any_other(program: Program, files: tuple[Path, Path]) -> None:
    net, _ = files
    odd = net.with_name("u\udcff.net")
    save_text(odd, load_text(net))
    for words, more in (((ROUTE,), ("--by", "ecmp")), ((CERTIFY,), ("--gap", "0.001"))):
        of_file, of_odd = (run(program, "", *words, name, *more) for name in (net, odd))
        assert of_odd == of_file and of_file[0] == 0
    save_text(odd, "no network")
    status, out, err = run(program, "", CERTIFY, odd)
    assert (status, out, err.count("\n")) == (2, "", 1) and "N1 line 1" in err and "/tmp/mcf-" not in err


def test_a_certificate_on_standard_input_is_as_its_file(program: Program, files: tuple[Path, Path]) -> None:
    net, cert = files
    of_file, of_input = (run(program, load_text(cert), SURVEY, net, name, "--double") for name in (cert, "-"))
    assert of_input == of_file and of_file[0] == 0


@pytest.mark.parametrize("words", [(ROUTE, "-", "--by", "hops"), (SURVEY, "-", "CERT", "--failures"), (CERTIFY, "-")])
def test_what_is_wrong_with_standard_input_is_said_of_it(program: Program, files: tuple[Path, Path], words: tuple[str, ...]) -> None:
    status, out, err = run(program, "no network", *(files[1] if word == "CERT" else word for word in words))
    assert (status, out, err.count("\n")) == (2, "", 1) and "N1 line 1" in err and "/tmp" not in err.replace(str(files[1]), "")


def test_standard_input_is_one_file_alone(program: Program) -> None:
    assert run(program, "", SURVEY, "-", "-", "--failures")[2].startswith("survey: standard input is one file alone")
    assert run(program, "", CERTIFY, "-", "--from", "-")[2].startswith("certify: standard input is one file alone")


def test_a_matrix_of_batch_is_surveyed_as_its_own_network(tmp_path: Path, program: Program, files: tuple[Path, Path]) -> None:
    net, _ = files
    day, made, own = tmp_path / "day.list", tmp_path / "day.certs", tmp_path / "noon.net"
    save_text(day, LIST_TEXT)
    save_text(made, program.ask("batch", str(net), str(day), statuses=(0, 1)))
    save_text(own, with_demands(load_text(net), matrices(LIST_TEXT)["noon"]))
    save_text(tmp_path / "noon.cert", answers(load_text(made))["noon"])
    of_batch = run(program, "", SURVEY, net, made, "--list", day, "--matrix", "noon", "--failures")
    assert of_batch == run(program, "", SURVEY, own, tmp_path / "noon.cert", "--failures") and of_batch[0] == 1
    night = run(program, "", SURVEY, net, made, "--list", day, "--matrix", "night", "--failures")
    assert night[0] == 0 and night[1] != of_batch[1]


@pytest.mark.parametrize(
    ("more", "said"),
    [
        ((), "day.certs: is of batch, which has an answer for each matrix: --matrix NAME takes one"),
        (("--matrix", "noon"), "day.certs: is of batch; --list LIST names the list of matrices that it was made of"),
        (("--list", "LIST", "--matrix", "dusk"), "there is no matrix dusk in the list"),
    ],
)
def test_what_batch_wrote_needs_its_list_and_a_name(
    tmp_path: Path, program: Program, files: tuple[Path, Path], more: tuple[str, ...], said: str
) -> None:
    day, made = tmp_path / "day.list", tmp_path / "day.certs"
    save_text(day, LIST_TEXT)
    save_text(made, program.ask("batch", str(files[0]), str(day), statuses=(0, 1)))
    status, out, err = run(program, "", SURVEY, files[0], made, "--failures", *(day if word == "LIST" else word for word in more))
    assert (status, out) == (2, "") and err.endswith(f"{said}\n") and err.count("\n") == 1
