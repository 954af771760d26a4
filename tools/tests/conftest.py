"""What the tests share: the package under python/, the program, and the repository's examples."""

from __future__ import annotations

import os
import shutil
import signal
import subprocess
import sys
from pathlib import Path

import pytest

# (in the background of a shell interrupts are ignored, and whatever is started then would ignore them too)
for _number in (signal.SIGINT, signal.SIGTERM, signal.SIGHUP):
    if signal.getsignal(_number) == signal.SIG_IGN:
        signal.signal(_number, signal.default_int_handler if _number == signal.SIGINT else signal.SIG_DFL)

ROOT = Path(__file__).resolve().parents[2]
sys.path[:0] = [str(ROOT / "python"), str(ROOT / "bench")]

from mcf import Program, find_program  # noqa: E402

# (what is beyond the limits of mcf is refused in all tests but those that ask for the program with wide limits)
WIDE = os.environ.get("MCF_WIDE") or str(ROOT / ".built/mcf-wide")
os.environ["MCF_WIDE"] = ""

try:
    from hypothesis import settings
except ImportError:
    pass
else:
    # (the quick one draws the same inputs each time; the others draw others, of a seed that they tell)
    settings.register_profile("quick", max_examples=40, deadline=None, derandomize=True, database=None)
    settings.register_profile("long", max_examples=10_000, deadline=None, database=None, print_blob=True)
    settings.register_profile("processes", max_examples=300, deadline=None, database=None, print_blob=True)
    settings.load_profile("long" if os.environ.get("MCF_LONG") else "processes" if os.environ.get("MCF_PROCESSES") else "quick")


@pytest.fixture(scope="session")
def root() -> Path:
    """The top of the repository."""
    return ROOT


@pytest.fixture(scope="session")
def program() -> Program:
    """The program that was built; tests that need it are skipped where there is none. Never the starter, which would build."""
    path = os.environ.get("MCF") or str(ROOT / "crates/mcf/out/mcf")
    if not os.path.isfile(path):
        pytest.skip("mcf was not built, and MCF names none")
    return find_program(path)


@pytest.fixture
def wide(monkeypatch: pytest.MonkeyPatch) -> Program:
    """The program with wide limits, which tools then ask where mcf refuses; tests that need it are skipped where there is none."""
    if not os.path.isfile(WIDE):
        pytest.skip("mcf-wide was not built, and MCF_WIDE names none")
    monkeypatch.setenv("MCF_WIDE", WIDE)
    return Program(WIDE)


@pytest.fixture
def small_repository(root: Path, tmp_path: Path) -> Path:
    """A git repository with what releases are made of, and without crates, tests and most documents."""
    top = tmp_path / "repository"
    shutil.copytree(root / "python", top / "python", ignore=shutil.ignore_patterns("__pycache__", ".*"))
    for name in ("VERSION", "LICENSE-APACHE", "LICENSE-MIT", "docs/mcf.1", "docs/planner/guide.md", "examples/triangle.net", "tools/setup"):
        (top / name).parent.mkdir(exist_ok=True)
        shutil.copy(root / name, top / name)
    who = ["-c", "user.name=A", "-c", "user.email=a@b", "-c", "commit.gpgsign=false"]
    for words in (["init", "-q"], ["add", "."], [*who, "commit", "-q", "-m", "all"]):
        subprocess.run(["git", "-C", str(top), *words], check=True)
    return top
