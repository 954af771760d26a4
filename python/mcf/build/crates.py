"""The crates below a program, from crates.txt, each with its size."""

from __future__ import annotations

import os
from dataclasses import dataclass


@dataclass(frozen=True)
class Crate:
    """A crate, and how many lines of code it has: its proofs take about so long."""

    name: str
    lines: int


def crates_below(top: str, name: str) -> list[Crate]:
    """The crates of the repository at `top` that a crate is built of, each behind those that it uses, itself the last."""
    uses = _uses(os.path.join(top, "crates.txt"))
    names: list[str] = []

    def add(one: str) -> None:
        for low in uses[one]:
            if low in uses and low not in names:
                add(low)
        names.append(one)

    add(name)
    return [Crate(one, _lines(os.path.join(top, "crates", one))) for one in names]


def _uses(file: str) -> dict[str, list[str]]:
    """What each crate of crates.txt uses."""
    uses = {}
    with open(file, encoding="utf-8") as text:
        for line in text:
            left, colon, right = line.partition("#")[0].partition(":")
            if colon:
                uses[left.split()[0]] = right.split()
    return uses


def _lines(folder: str) -> int:
    """The lines of a crate's code, of which none is in out/."""
    count = 0
    for at, folders, files in os.walk(folder):
        folders[:] = [one for one in folders if one != "out"]
        for file in files:
            if file.endswith(".rt"):
                with open(os.path.join(at, file), "rb") as text:
                    count += text.read().count(b"\n")
    return count
