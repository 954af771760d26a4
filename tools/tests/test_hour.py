"""docs/planner/hour.md: each line in it is run, and gives what stands below it."""

from __future__ import annotations

import os
import re
import subprocess
from pathlib import Path

import pytest

from mcf import Program

ROOT = Path(__file__).resolve().parents[2]
HOUR = ROOT / "docs/planner/hour.md"
BLOCK = re.compile(r"```text\n(.*?)```", re.DOTALL)


def room_of(program: Program, room: Path) -> Path:
    """A folder that is like the top of the repository, with the program in the starter's place."""
    for name, target in (("tools", ROOT / "tools"), ("python", ROOT / "python"), ("examples", ROOT / "examples"), ("mcf", Path(program.path))):
        (room / name).symlink_to(target)
    return room


def played(text: str, room: Path, program: Program) -> str:
    """The text with the outputs of all its lines made anew, one after the other."""

    def block(found: re.Match[str]) -> str:
        lines = [line for line in found[1].splitlines() if line.startswith("$ ")]
        return "```text\n" + "".join(f"{line}\n{output(line[2:], room, program)}" for line in lines) + "```"

    return BLOCK.sub(block, text)


def output(line: str, room: Path, program: Program) -> str:
    """What a line writes on both outputs."""
    environment = {**os.environ, "MCF": program.path, "LC_ALL": "C.UTF-8"}
    done = subprocess.run(
        ["bash", "-c", line], cwd=room, env=environment, stdout=subprocess.PIPE, stderr=subprocess.STDOUT, check=False
    )
    return done.stdout.decode("utf-8")


def test_the_hour_is_what_its_lines_give(tmp_path: Path, program: Program):
    if not list(Path("/usr/lib").glob("*/libClp.so*")):
        pytest.skip("coinor-libclp1 is missing: tools/setup")
    text = HOUR.read_text("utf-8")
    assert played(text, room_of(program, tmp_path), program) == text


def test_pictures_of_the_documents_are_there_and_small():
    for document in ROOT.glob("docs/**/*.md"):
        for name in re.findall(r"!\[[^\]]*\]\(([^)]+)\)", document.read_text("utf-8")):
            picture = (document.parent / name).read_bytes()
            assert picture.startswith(b"\x89PNG") and len(picture) < 150_000
