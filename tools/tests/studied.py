"""What tests of studies share: runs of the tool, its tables, and networks to study."""

from __future__ import annotations

import csv
import io
import subprocess
from pathlib import Path

from mcf import Program

ROOT = Path(__file__).resolve().parents[2]
STUDY = ROOT / "tools/study"
EXAMPLES = ROOT / "examples"
HEAD = "?SNDlib native format; type: network; version: 1.0\n"
TRIANGLE = (
    f"{HEAD}NODES (\n  A\n  B\n  C\n)\nLINKS (\n  AB ( A B ) 10 0 0 0 ( )\n  AC ( A C ) 6 0 0 0 ( )\n  BC ( B C ) 6 0 0 0 ( )\n)\n"
    "DEMANDS (\n  A_to_B ( A B ) 1 8 UNLIMITED\n  A_to_C ( A C ) 1 4 UNLIMITED\n)\n"
)
# not the same from run to run
TIMES = ("seconds", "place")


def ran(room: Path, *words: str | Path, program: Program, status: int | None = None, jobs: int | None = 1) -> tuple[str, str]:
    """What a run of the tool in a folder writes on both outputs."""
    command = [STUDY, *words, "--mcf", program.path, *([] if jobs is None else ["--jobs", str(jobs)])]
    done = subprocess.run([str(word) for word in command], cwd=room, capture_output=True, text=True, check=False)
    assert status is None or done.returncode == status, done.stdout + done.stderr
    return done.stdout, done.stderr


def table(text: str) -> list[dict[str, str]]:
    """The rows of a table."""
    return list(csv.DictReader(io.StringIO(text)))


def rows(room: Path, *words: str | Path, program: Program, status: int | None = None, jobs: int | None = 1) -> list[dict[str, str]]:
    """The rows of a study."""
    return table(ran(room, *words, "--csv", "-", program=program, status=status, jobs=jobs)[0])


def timeless(some: list[dict[str, str]]) -> list[dict[str, str]]:
    """Rows but for their times."""
    return [{name: value for name, value in row.items() if name not in TIMES} for row in some]


def net_file(room: Path, text: str = TRIANGLE, name: str = "net.net") -> Path:
    """A network file."""
    file = room / name
    file.write_text(text)
    return file


def network(links: list[tuple[str, str, str, str]], demands: list[tuple[str, str, str, str]]) -> str:
    """A network text of links (id, source, target, capacity) and demands (id, source, target, amount)."""
    nodes = dict.fromkeys(end for _, source, target, _ in [*links, *demands] for end in (source, target))
    linked = "".join(f"  {name} ( {source} {target} ) {size} 0 0 0 ( )\n" for name, source, target, size in links)
    wanted = "".join(f"  {name} ( {source} {target} ) 1 {size} UNLIMITED\n" for name, source, target, size in demands)
    return f"{HEAD}NODES (\n{''.join(f'  {node}' + chr(10) for node in nodes)})\nLINKS (\n{linked})\nDEMANDS (\n{wanted})\n"
