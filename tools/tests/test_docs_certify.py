"""Every line of docs/judge/certify.md that can be typed answers what the page says."""

from __future__ import annotations

import os
import re
import subprocess
from pathlib import Path

from mcf import Program


def typed(page: str) -> list[tuple[str, str]]:
    """The commands of a page's blocks, here-documents included, each with the output that stands below it."""
    found: list[tuple[str, str]] = []
    for block in re.findall(r"```text\n(.*?)```", page, re.DOTALL):
        lines = block.splitlines(keepends=True)
        while lines:
            command = lines.pop(0).removeprefix("$ ")
            if "<<'END'" in command:
                while lines[0] != "END\n":
                    command += lines.pop(0)
                command += lines.pop(0)
            output = ""
            while lines and not lines[0].startswith("$ "):
                output += lines.pop(0)
            found.append((command, output))
    return found


def test_the_page_says_what_happens(program: Program, root: Path, tmp_path: Path) -> None:
    for name in ("tools", "python", "examples"):
        (tmp_path / name).symlink_to(root / name)
    (tmp_path / "mcf").symlink_to(program.path)
    environment = {**os.environ, "MCF": program.path}
    commands = typed((root / "docs/judge/certify.md").read_text())
    assert len(commands) >= 10
    for command, output in commands:
        done = subprocess.run(["sh", "-c", command], cwd=tmp_path, env=environment, stdout=subprocess.PIPE, stderr=subprocess.STDOUT,
                              text=True, check=False)
        assert done.stdout == output, command
