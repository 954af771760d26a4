"""The files of the repository that a release has: those that git knows, as they stand; without git all but hidden and compiled ones."""

from __future__ import annotations

import os
import subprocess
from collections.abc import Iterator
from pathlib import Path

from mcf.errors import TextError


# of the package, what is for the repository alone
FOR_THE_REPOSITORY = ("build/", "release/", "cli/release.py")


def package(root: Path) -> dict[str, Path]:
    """The files of the package that are for others too, each by its path in it."""
    inner = {name.removeprefix("python/mcf/"): file for name, file in sources(root, "python/mcf").items()}
    return {name: file for name, file in inner.items() if not name.startswith(FOR_THE_REPOSITORY)}


def sources(root: Path, *names: str) -> dict[str, Path]:
    """The files below folders, or by names or patterns, each by its path from the top of the repository."""
    known = _tracked(root)
    found = {str(file.relative_to(root)): file for name in names for file in _files(root, name)}
    return {name: found[name] for name in sorted(found) if (name in known if known is not None else _is_kept(name))}


def commit_seconds(root: Path) -> int:
    """The time that all files get: that of SOURCE_DATE_EPOCH, else that of the last commit."""
    given = os.environ.get("SOURCE_DATE_EPOCH")
    if given is None:
        given = _git(root, "log", "-1", "--format=%ct").strip()
        if not given:
            raise TextError("no git repository tells a time: set SOURCE_DATE_EPOCH to seconds since 1970")
    if not (given.isascii() and given.isdecimal() and len(given) < 20 and int(given) < 1 << 32):
        raise TextError(f"SOURCE_DATE_EPOCH: {given[:40]!r} is no number of seconds from 0 to {(1 << 32) - 1}, as archives hold them")
    return int(given)


def _files(root: Path, name: str) -> Iterator[Path]:
    """The files of a folder, or of a name or pattern."""
    found = (root / name).rglob("*") if (root / name).is_dir() else root.glob(name)
    return (file for file in found if file.is_file())


def _tracked(root: Path) -> set[str] | None:
    """The names that git knows, or nothing where there is no git repository."""
    listed = _git(root, "ls-files", "-z") if (root / ".git").exists() else ""
    return set(listed.split("\0")) if listed else None


def _git(root: Path, *words: str) -> str:
    """What git says, or nothing."""
    try:
        ran = subprocess.run(["git", "-C", str(root), *words], capture_output=True, check=False)
    except OSError:
        return ""
    return os.fsdecode(ran.stdout) if ran.returncode == 0 else ""


def _is_kept(name: str) -> bool:
    """Whether a file is neither hidden nor compiled."""
    parts = Path(name).parts
    return not any(part.startswith(".") for part in parts) and "__pycache__" not in parts
