"""A copy of the crates that a program is built of, and of nothing else, in which rt ci proves them side by side."""

from __future__ import annotations

import os
import shutil

from .crates import crates_below

LIMITS = "mcf_limits"
WIDE_LIMITS = "wide_limits"
NOT_COPIED = ("out", "must-fail", "wrong-bodies")


def copy_below(top: str, name: str, room: str) -> None:
    """Copies the crates that a crate of the repository at `top` is built of, without wrong bodies, and their lines of crates.txt."""
    names = {crate.name for crate in crates_below(top, name)}
    for one in names:
        _copy(top, one, os.path.join(room, "crates", one))
    with open(os.path.join(top, "crates.txt"), encoding="utf-8") as text:
        lines = [line for line in text if _crate_of(line) in names]
    with open(os.path.join(room, "crates.txt"), "w", encoding="utf-8") as text:
        text.writelines(lines)
    handles = os.path.join(top, "HANDLES")
    if os.path.exists(handles):
        shutil.copy(handles, room)


def copy_wide(top: str, name: str, room: str) -> None:
    """As `copy_below`, with the wide limits in place of the limits, under the name of their crate."""
    copy_below(top, name, room)
    folder = os.path.join(room, "crates", LIMITS)
    shutil.rmtree(folder)
    _copy(top, WIDE_LIMITS, folder)
    for at, _, files in os.walk(folder):
        for file in files:
            _rename(os.path.join(at, file))


def _copy(top: str, name: str, folder: str) -> None:
    """Copies a crate of the repository at `top`, without what was built and without wrong bodies."""
    shutil.copytree(os.path.join(top, "crates", name), folder, ignore=shutil.ignore_patterns(*NOT_COPIED))


def _rename(file: str) -> None:
    """Writes the name of the crate of limits in place of that of the wide limits."""
    with open(file, encoding="utf-8") as text:
        lines = text.read()
    with open(file, "w", encoding="utf-8") as text:
        text.write(lines.replace(f"Rattle.{WIDE_LIMITS}.", f"Rattle.{LIMITS}."))


def _crate_of(line: str) -> str:
    """The crate of a line of crates.txt."""
    words = line.partition("#")[0].partition(":")[0].split()
    return words[0] if words else ""
