"""The yardsticks that other programs here measure beside: `plain` and `tuned`, which work by the solver's rules, and `walks`.

They are those of bench/yardsticks, which cargo builds where they are missing or older than their sources. With `--yardstick FOLDER` they
are those of another folder, which is copied first: nothing is written there. There `fast` may stand for `tuned`.
"""

from __future__ import annotations

import os
import shutil
import subprocess
import sys

HERE = os.path.dirname(os.path.abspath(__file__))
OWN = os.path.join(HERE, "yardsticks")
NAMES = {"plain": ("plain",), "tuned": ("tuned", "fast"), "walks": ("walks",)}
OPTION = {"metavar": "FOLDER", "help": "the package of other yardsticks than bench/yardsticks; nothing is written there"}


def built(folder: str | None, work: str) -> dict[str, str]:
    """The programs by their names; those of another folder are built in a copy in `work`."""
    if folder is not None:
        place = os.path.join(work, "yardstick")
        shutil.copytree(folder, place, ignore=shutil.ignore_patterns("target"))
    else:
        place = OWN
    if shutil.which("cargo") is None:
        sys.exit("the yardsticks are built by cargo, which is not there")
    subprocess.run(["cargo", "build", "--release", "--offline", "--quiet"], cwd=place, check=True)
    release = os.path.join(place, "target", "release")
    found = {name: [os.path.join(release, file) for file in files if os.path.exists(os.path.join(release, file))] for name, files in NAMES.items()}
    return {name: files[0] for name, files in found.items() if files}


def told(program: str, *words: str) -> dict[str, str]:
    """What a run of a yardstick tells, by its names."""
    said = subprocess.run([program, *words], stdout=subprocess.PIPE, text=True, check=True).stdout.split()
    return {word: said[i + 1] for i, word in enumerate(said[:-1])}
