"""The gate's own arithmetic, with an rt, cases, a setup and tests that only say what they are told to."""

from __future__ import annotations

import os
import shutil
import subprocess
from pathlib import Path

import pytest

PYTEST = "....\n{}"


def stub(file: Path, text: str, status: int = 0) -> None:
    """A program that writes a text and ends with a status."""
    file.parent.mkdir(parents=True, exist_ok=True)
    file.write_text(f"#!/bin/sh\ncat <<'EOT'\n{text}\nEOT\nexit {status}\n")
    file.chmod(0o755)


@pytest.fixture
def gate(root: Path, tmp_path: Path, monkeypatch: pytest.MonkeyPatch):
    """Runs the gate over stubs, and gives its status and lines."""
    top = tmp_path / "top"
    (top / ".ci").mkdir(parents=True)
    shutil.copy(root / ".ci/run", top / ".ci/run")
    stub(top / "crates/mcf/out/mcf", "usage", 2)
    stub(tmp_path / "bin/rt", "rt: low proved\n100 passed, 0 failed")
    stub(top / "cases/run", "10 passed, 0 failed")
    stub(top / "cases/solved", "20 passed, 0 failed")
    stub(top / "tools/setup", "")
    stub(top / "tools/test", PYTEST.format("7 passed in 3.21s"))
    monkeypatch.setenv("PATH", f"{tmp_path}/bin:/usr/bin:/bin")
    (tmp_path / "tmp").mkdir()
    monkeypatch.setenv("TMPDIR", str(tmp_path / "tmp"))

    def run(**stubs: tuple[str, int]) -> tuple[int, list[str]]:
        places = {"rt": tmp_path / "bin/rt", "cases": top / "cases/run", "solved": top / "cases/solved",
                  "setup": top / "tools/setup", "test": top / "tools/test"}
        for name, (text, status) in stubs.items():
            stub(places[name], text, status)
        ran = subprocess.run([str(top / ".ci/run")], capture_output=True, text=True, stdin=subprocess.DEVNULL)
        assert list((tmp_path / "tmp").iterdir()) == []
        return ran.returncode, ran.stdout.splitlines()
    run.top = top
    return run


def test_all_counts_are_added(gate) -> None:
    status, lines = gate()
    assert (status, lines[-1]) == (0, "137 passed, 0 failed")
    assert lines[0] == "rt: low proved" and "tools: 7 passed in 3.21s" in lines


@pytest.mark.parametrize("summary, ended, last", [
    ("1 failed, 6 passed in 3.21s", 1, "136 passed, 1 failed"),
    ("2 failed, 30 passed, 5 skipped, 1 warning in 65.30s (0:01:05)", 1, "160 passed, 2 failed"),
    ("6 passed, 1 error in 3.21s", 1, "136 passed, 1 failed"),
    ("12 failed, 6 passed, 3 errors in 3.21s", 1, "136 passed, 15 failed"),
    ("no tests ran in 0.01s", 5, "130 passed, 1 failed"),
    ("tools/test: python3-pytest is missing: run tools/setup", 2, "130 passed, 1 failed"),
    ("", 137, "130 passed, 1 failed"),
])
def test_a_python_test_that_fails_fails_the_gate(gate, summary: str, ended: int, last: str) -> None:
    status, lines = gate(test=(PYTEST.format(summary), ended))
    assert (status, lines[-1]) == (1, last)
    assert summary == "" or f"tools: {summary}" in lines


def test_passed_and_skipped_pass(gate) -> None:
    status, lines = gate(test=(PYTEST.format("70 passed, 5 skipped, 2 xfailed in 3.21s"), 0))
    assert (status, lines[-1]) == (0, "200 passed, 0 failed")


def test_packages_that_cannot_be_installed_fail_the_gate(gate) -> None:
    status, lines = gate(setup=("tools/setup: run it as root, or install sudo; these are missing: python3-scipy", 2),
                         test=(PYTEST.format("1 failed in 3.21s"), 1))
    assert (status, lines[-1]) == (1, "130 passed, 1 failed")
    said = [line for line in lines if line.startswith("tools: ")]
    assert said == ["tools: Debian's packages that the tests want are not installed: tools/setup: run it as root, or install sudo; these are "
                    "missing: python3-scipy", "tools: 0 passed, 1 failed"]


@pytest.mark.parametrize("part, last", [("cases", "127 passed, 3 failed"), ("solved", "117 passed, 3 failed")])
def test_a_case_that_fails_fails_the_gate(gate, part: str, last: str) -> None:
    status, lines = gate(**{part: ("FAIL x\n0 passed, 3 failed", 1)})
    assert (status, lines[-1]) == (1, last)


def test_proofs_that_fail_end_the_gate(gate) -> None:
    status, lines = gate(rt=("rt: low NOT PROVED\n3 passed, 1 failed", 1))
    assert (status, lines) == (1, ["rt: low NOT PROVED", "3 passed, 1 failed"])


def test_a_part_without_counts_fails_the_gate(gate) -> None:
    status, lines = gate(cases=("nothing", 0))
    assert (status, lines[-1]) == (2, "0 passed, 1 failed")


def test_tests_run_the_program_that_was_built(gate) -> None:
    stub(gate.top / "tools/test", "")
    (gate.top / "tools/test").write_text('#!/bin/sh\necho "$MCF" >at\necho "1 passed in 0.01s"\n')
    assert gate()[0] == 0
    assert (gate.top / "at").read_text() == f"{gate.top}/crates/mcf/out/mcf\n"


def test_the_program_is_copied_to_where_the_next_gate_leaves_it(gate) -> None:
    gate()
    built, kept = gate.top / "crates/mcf/out/mcf", gate.top / ".built/mcf"
    assert kept.read_bytes() == built.read_bytes() and os.access(kept, os.X_OK)
    assert kept.stat().st_mtime_ns == built.stat().st_mtime_ns


def test_plain_rt_ci_comes_first(root: Path) -> None:
    lines = [line.strip() for line in (root / ".ci/run").read_text().splitlines()]
    calls = [line for line in lines if line.startswith(("rt ", "cases/", "test_tools")) and not line.endswith("{")]
    assert calls[0] == "rt ci" and len([line for line in calls if line.startswith("rt ")]) == 1
