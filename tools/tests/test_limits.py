"""Limits stand once: those of the tools are those of the program, and every text that tells one tells this."""

from __future__ import annotations

import re
from pathlib import Path

import mcf.limits
from mcf.hints.words import RANGES, drawn
from mcf.limits import (DEFAULT_GAP, DEFAULT_PHASES, DEFAULT_STEP, DEFAULT_WORKERS, FEW_COMMODITIES, MAX_DEMANDS, MAX_GAP, MAX_LENGTH, MAX_LINKS,
                        MAX_NODES, MAX_PATH_CELLS, MAX_PHASES, MAX_STEP, MAX_UNITS, MAX_WORD_BYTES, MAX_WORK, MAX_WORKERS, NARROW)


def test_limits_are_those_of_the_program(root: Path) -> None:
    text = (root / "crates/mcf_limits/src/lib.rt").read_text()
    found = dict(re.findall(r"^pub const (\w+): \w+ = ([0-9_ <]+);", text, re.M))
    assert found and text.count("pub const") == len(found)
    there = {name: value for name, value in vars(mcf.limits).items() if name.isupper() and isinstance(value, int)}
    assert there == {name: _value(word) for name, word in found.items()}


def test_wide_limits_are_those_of_the_wide_program(root: Path) -> None:
    wide = dict(re.findall(r"^pub const (\w+): \w+ = ([0-9_ <]+);", (root / "crates/wide_limits/src/lib.rt").read_text(), re.M))
    others = {name: _value(word) for name, word in wide.items() if _value(word) != getattr(mcf.limits, name)}
    assert others == {name: value for name, value in vars(mcf.limits.Wide).items() if name.isupper()}


def _value(word: str) -> int:
    """The value of a constant, which is a number or one that is shifted."""
    number, _, shift = word.partition("<<")
    return int(number) << int(shift or 0)


def test_words_of_the_command_line_keep_the_limits() -> None:
    assert RANGES == {"--phases": (1, MAX_PHASES), "--workers": (1, MAX_WORKERS), "--step": (1, MAX_STEP)}
    assert {name: most for name, (_, most) in drawn(NARROW).items()} == {
        "SEED": 2**64 - 1, "NODES": MAX_NODES, "LINKS": MAX_LINKS, "DEMANDS": MAX_DEMANDS}  # fmt: skip


def test_help_tells_the_limits(root: Path) -> None:
    text = " ".join((root / "python/mcf/hints/help/solve.txt").read_text().split())
    for words in (
        f"0 to {MAX_GAP // 10**6}, at most six decimals [{DEFAULT_GAP / 10**6}]",
        f"1 to {MAX_PHASES}; in a phase",
        f"times phases are at most {MAX_WORK} [{DEFAULT_PHASES}, or as many as that allows]",
        f"1 to {MAX_WORKERS}; with 1",
        f"[1 for fewer than {FEW_COMMODITIES} demands, else {DEFAULT_WORKERS}]",
        f"1 to {MAX_STEP} [{DEFAULT_STEP}]",
    ):
        assert words in text
    drawn = " ".join((root / "python/mcf/hints/help/gen.txt").read_text().split())
    assert f"NODES 2 to {MAX_NODES}, LINKS from NODES to {MAX_LINKS}, DEMANDS 1 to {MAX_DEMANDS}." in drawn


def test_the_second_checker_keeps_the_limits(root: Path) -> None:
    text = (root / "tools/check_twice").read_text()
    assert f'SECTIONS = {{"NODES": {MAX_NODES}, "LINKS": {MAX_LINKS}, "DEMANDS": {MAX_DEMANDS}}}' in text
    assert f'"gap": {MAX_GAP // 10**6} * MILLION, "phases": {MAX_PHASES}, "room": 2**{MAX_UNITS.bit_length() - 1}' in text
    assert f'"load": 2**{MAX_LENGTH.bit_length() - 1}' in text and f"len(token) <= {MAX_WORD_BYTES}" in text
    assert MAX_PATH_CELLS + 2 == MAX_NODES + 1 and '2 <= len(row) <= SECTIONS["NODES"] + 1' in text
    wide = mcf.limits.Wide
    assert f'WIDE_SECTIONS = {{"NODES": {wide.MAX_NODES}, "LINKS": {MAX_LINKS}, "DEMANDS": {wide.MAX_DEMANDS}}}' in text
    assert f"{wide.MAX_NET_BYTES >> 20} << 20, 1 << {wide.MAX_CERT_BYTES.bit_length() - 1}" in text
