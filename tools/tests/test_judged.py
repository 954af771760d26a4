"""`judged`: bounds are those of the program's own line, of the text that was judged."""

from __future__ import annotations

import pickle
from fractions import Fraction
from pathlib import Path

import pytest

from mcf import Program, TextError, load_text
from mcf.certificate import Certificate, HopCertificate, Routing, TotalCertificate
from mcf.judged import Judged, NotValid, judge, judge_file
from mcf.ranges import Range


def faked(room: Path, line: str, status: int = 0) -> Program:
    """A program that says one line of everything."""
    (room / "mcf").write_text(f"#!/bin/sh\nprintf '%s\\n' '{line}'\nexit {status}\n")
    (room / "mcf").chmod(0o755)
    return Program(str(room / "mcf"))


@pytest.mark.parametrize("name,certificate,kind,lower,upper", [
    ("triangle", "triangle.cert", Certificate, Fraction(480, 372), Fraction(43282433967267834, 32023741924084936)),
    ("detours", "detours.hops", HopCertificate, None, None), ("in-a-row", "in-a-row.throughput", TotalCertificate, None, None),
])
def test_certificates_of_all_kinds(program: Program, root: Path, name: str, certificate: str, kind: type[Certificate],
                                   lower: Fraction | None, upper: Fraction | None) -> None:
    found = judge_file(program, root / f"examples/{name}.net", root / f"examples/{certificate}")
    assert type(found.content) is kind and found.text == load_text(root / f"examples/{certificate}")
    content = found.content
    assert isinstance(content, Certificate)
    assert found.range == Range(Fraction(*content.lower), Fraction(*content.upper)) and found.lower == found.range.lower
    assert found.closed == (content.verdict == "closed")
    assert lower is None or found.range == Range(lower, upper or lower)


def test_a_routing_has_no_upper_end(program: Program, root: Path) -> None:
    found = judge_file(program, root / "examples/triangle.net", root / "examples/triangle.routing")
    assert type(found.content) is Routing and found.lower == Fraction(4, 3) and not found.closed
    with pytest.raises(TextError, match="a routing has no bound"):
        _ = found.range


def test_what_is_not_valid_is_not_spoken_of(program: Program, root: Path) -> None:
    text = load_text(root / "examples/triangle.cert")
    with pytest.raises(NotValid, match="mcf check says: invalid C2: the weights of a demand do not sum ") as told:
        judge(program, root / "examples/triangle.net", text.replace("368", "369"))
    assert told.value.said == "invalid C2"
    with pytest.raises(NotValid, match="refused cert"):
        judge(program, root / "examples/polska.net", text)
    with pytest.raises(NotValid, match="refused cert K1"):
        judge_file(program, root / "examples/detours.net", root / "examples/detours.hops", "check")


@pytest.mark.parametrize("line,status", [
    ("valid closed undirected largest lower 1/1 1.000000 upper 1/1 1.000000", 1), ("valid", 0), ("", 0), ("feasible", 0),
    ("valid closed undirected largest lower 1/0 1.000000 upper 1/1 1.000000", 0),
    ("valid closed undirected largest lower 1/1 1.000000 upper 1/1 1.000000 and more", 0),
    ("invalid C2", 1),
])
def test_other_lines_are_no_judgement(tmp_path: Path, line: str, status: int) -> None:
    with pytest.raises(NotValid):
        judge(faked(tmp_path, line, status), "net", "mcf-certificate 2\n")


def test_a_judge_that_is_killed_says_nothing(tmp_path: Path) -> None:
    """Whatever it wrote before, the text is not called invalid."""
    program = faked(tmp_path, "valid closed undirected largest lower 1/1 1.000000 upper 1/1 1.000000", 0)
    Path(program.path).write_text(Path(program.path).read_text().replace("exit 0", "kill -9 $$"))
    with pytest.raises(TextError, match="^mcf check: ended by SIGKILL$") as told:
        judge(program, "net", "mcf-certificate 2\n")
    assert not isinstance(told.value, NotValid) and told.value.kind == "program"
    with pytest.raises(TextError, match="^mcf solve: ended by SIGKILL$"):
        program.solve("net")


def test_what_is_not_valid_comes_out_of_another_process() -> None:
    told = pickle.loads(pickle.dumps(NotValid("check", "invalid C2", "what it means").at("a.cert", kind="invalid", code="C2")))
    assert (str(told), told.said, told.code, told.file) == ("mcf check says: what it means", "invalid C2", "C2", "a.cert")


def test_lines_that_contradict_themselves_are_refused() -> None:
    with pytest.raises(TextError, match="contradict"):
        _ = Judged("", "valid closed undirected largest lower 2/1 2.000000 upper 1/1 1.000000").range


def test_the_text_that_is_judged_is_the_one_that_is_kept(program: Program, root: Path, tmp_path: Path) -> None:
    """A file that is another one when it is read again."""
    good, file = load_text(root / "examples/triangle.cert"), tmp_path / "cert"
    file.write_text(good)
    (tmp_path / "mcf").write_text(f'#!/bin/sh\necho changed > {file}\nexec {program.path} "$@"\n')
    (tmp_path / "mcf").chmod(0o755)
    found = judge_file(Program(str(tmp_path / "mcf")), root / "examples/triangle.net", file)
    assert found.text == good and file.read_text() == "changed\n" and found.range.lower == Fraction(480, 372)
