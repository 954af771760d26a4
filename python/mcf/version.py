"""The version, and the commit that it was built of.

A wheel, a Debian package and an archive have both in files of their own; in a checkout the commit is asked of git.
"""

from __future__ import annotations

import os
import re
import subprocess
from pathlib import Path

PACKAGE = Path(__file__).resolve().parent
TOP = PACKAGE.parents[1]
UNKNOWN = "unknown"
_OID = re.compile(r"# branch\.oid ([0-9a-f]{8})")
_CHANGED = re.compile(r"^[12u] ", re.MULTILINE)


def version() -> str:
    """What VERSION has: the file of an installed package, else that at the top of the repository or of an archive."""
    for file in (PACKAGE / "VERSION", TOP / "VERSION"):
        if file.is_file():
            return file.read_text("utf-8").strip()
    return UNKNOWN


def commit() -> str:
    """The first eight digits of the commit, with `-dirty` where files were changed after it; `unknown` where nothing tells it."""
    file = PACKAGE / "COMMIT"
    return file.read_text("utf-8").strip() if file.is_file() else commit_of(TOP)


def commit_of(top: Path) -> str:
    """The commit of a checkout, by git."""
    if not (top / ".git").exists():
        return UNKNOWN
    # (`describe --dirty` would lock the index, and leave the lock there where it is killed)
    words = ["git", "--no-optional-locks", "-C", str(top), "status", "--porcelain=v2", "--branch", "--untracked-files=no"]
    elsewhere = {name: value for name, value in os.environ.items() if not name.startswith("GIT_")}
    try:
        ran = subprocess.run(words, capture_output=True, text=True, check=False, env=elsewhere)
    except OSError:
        return UNKNOWN
    found = _OID.match(ran.stdout) if ran.returncode == 0 else None
    return UNKNOWN if found is None else f"{found[1]}{'-dirty' if _CHANGED.search(ran.stdout) else ''}"


def told() -> str:
    """Both in one: 1.2.3 (0123abcd)."""
    return f"{version()} ({commit()})"
