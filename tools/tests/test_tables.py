"""The tables beside the documents: what they name is there, and numbers of a page stand in its table; pictures are drawn of them."""

from __future__ import annotations

import csv
import re
import subprocess
import sys
from pathlib import Path

import pytest


def rows(root: Path, name: str) -> list[dict[str, str]]:
    """The rows of a table."""
    with (root / "docs" / name).open(encoding="utf-8", newline="") as file:
        return list(csv.DictReader(file, strict=True))


def test_forms_of_proof_name_files_that_are_there(root: Path) -> None:
    forms = rows(root, "proof-forms.csv")
    assert len(forms) >= 199 and len({form["form"] for form in forms}) == len(forms)
    assert [form["example"] for form in forms if form["example"] and not (root / form["example"]).exists()] == []
    subjects = {form["subject"] for form in forms}
    said = re.search(r"^Subjects: (.*?)\. ", (root / "docs/proofs.md").read_text(), re.M)
    assert said is not None and set(said[1].split("; ")) == subjects


def test_edits_that_guard_promises_are_there(root: Path) -> None:
    edits = rows(root, "promise-edits.csv")
    there = {(path.parents[1].name, path.stem) for place in ("must-fail", "wrong-bodies") for path in root.glob(f"crates/*/{place}/*")}
    assert len(edits) >= 183 and {(edit["crate"], edit["edit"]) for edit in edits} <= there


def test_definitions_and_wrong_bodies_name_what_is_there(root: Path) -> None:
    inside = rows(root, "definitions.csv")
    assert [file for row in inside for file in row["files"].split() if not (root / file).exists()] == []
    page = (root / "docs/definitions.md").read_text().replace("`", "")
    assert [row["names"] for row in inside if f"- {row['names']} (" in page] == []
    crates = {path.name for path in (root / "crates").iterdir()}
    assert {crate for row in rows(root, "wrong-bodies.csv") for crate in row["crate"].split(", ")} <= crates | {"several"}


def test_definitions_of_the_page_stand_in_their_files(root: Path) -> None:
    entries = re.findall(r"^- (.+?) \(((?:`[\w/.]+`(?:, )?)+)\): ", (root / "docs/definitions.md").read_text(), re.M)
    assert len(entries) >= 140
    for names, places in entries:
        crate, texts = "", ""
        for place in re.findall(r"`([^`]+)`", places):
            crate, file = place.split("/", 1) if "/" in place else (crate, place)
            path = root / "crates" / crate / (file if file.endswith(".rt") else f"specs/{file}.antt")
            texts += path.read_text()
        for name in re.findall(r"`(\w+)`", names):
            assert re.search(rf"\b{name}\b", texts), (name, places)


def test_numbers_of_the_tables_stand_in_the_table(root: Path) -> None:
    values = {word for row in rows(root, "performance.csv") for word in (row["value"], *row["row"].split(", "))}
    text = (root / "docs/performance.md").read_text()
    for table in re.findall(r"(?:^\|.*\n)+", text[:text.index("### Tightening certificates")], re.M):
        for line in table.splitlines()[2:]:
            for cell in (cell.strip().replace("`", "") for cell in line[1:-1].split("|")[1:]):
                bounds = [value for value in values if value.startswith(f"{cell} to ")]
                assert not cell or cell in values or bounds, (line, cell)


def test_plots_are_drawn_of_the_table(root: Path, tmp_path: Path) -> None:
    pytest.importorskip("matplotlib", reason="python3-matplotlib is missing: tools/setup")
    subprocess.run([sys.executable, str(root / "bench/plots"), str(tmp_path)], check=True)
    for name in ("performance-size.png", "performance-growth.png"):
        assert (tmp_path / name).read_bytes().startswith(b"\x89PNG") and (root / "docs" / name).exists()
