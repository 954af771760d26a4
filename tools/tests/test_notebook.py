"""The notebook docs/study/notebook.ipynb: it runs, prints what stands in it, and its certificate is checked by others."""

from __future__ import annotations

import copy
import subprocess
from pathlib import Path
from typing import Any

import pytest

from mcf import Program

nbformat = pytest.importorskip("nbformat", reason="python3-nbclient is missing: tools/setup --tests")
nbclient = pytest.importorskip("nbclient", reason="python3-nbclient is missing: tools/setup --tests")
pytest.importorskip("ipykernel", reason="python3-ipykernel is missing: tools/setup --tests")

MOST_LINES = 30


def codes(notebook: Any) -> list[Any]:
    """The cells of code."""
    return [cell for cell in notebook.cells if cell.cell_type == "code"]


def shown(cell: Any) -> list[str]:
    """What a cell prints and shows as text."""
    return [out.text if out.output_type == "stream" else out.data["text/plain"] for out in cell.outputs]


@pytest.fixture
def stored(root: Path) -> Any:
    """The notebook as it stands."""
    return nbformat.read(root / "docs/study/notebook.ipynb", 4)


def test_it_has_few_lines_and_needs_the_package_alone(stored: Any) -> None:
    lines = [line for cell in codes(stored) for line in cell.source.splitlines() if line.strip()]
    assert 20 < len(lines) <= MOST_LINES and not any("sys.path" in line or ";" in line for line in lines)
    assert max(map(len, lines)) <= 140
    assert [line for line in lines if line.startswith(("import ", "from "))] == ["import mcf", "import networkx", "import pandas"]
    assert not [out for cell in codes(stored) for out in cell.outputs if out.output_type == "error" or out.get("name") == "stderr"]


def test_it_prints_what_stands_in_it(stored: Any, program: Program, root: Path, tmp_path: Path, monkeypatch: pytest.MonkeyPatch) -> None:
    monkeypatch.setenv("MCF", program.path)
    monkeypatch.setenv("PYTHONPATH", str(root / "python"))
    fresh = copy.deepcopy(stored)
    for cell in codes(fresh):
        cell.outputs = []
    nbclient.NotebookClient(fresh, timeout=600, kernel_name="python3", resources={"metadata": {"path": str(tmp_path)}}).execute()
    assert [shown(cell) for cell in codes(fresh)] == [shown(cell) for cell in codes(stored)]
    pictures = [out.data["image/png"] for cell in codes(fresh) for out in cell.outputs if "image/png" in out.get("data", {})]
    assert len(pictures) == 1 and pictures[0].startswith("iVBOR")
    files = [tmp_path / "nordic.net", tmp_path / "nordic.cert"]
    assert program.check(*files).line.startswith("valid closed undirected largest lower ")
    twice = subprocess.run([str(root / "tools/check_twice"), *map(str, files)], capture_output=True, text=True, check=False)
    assert (twice.returncode, twice.stdout.split(" ")[0]) == (0, "valid"), twice.stderr
