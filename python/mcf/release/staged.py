"""A folder of its own for a build: the sources of the package, the program, version, commit and licences, each with a plain mode."""

from __future__ import annotations

import os
import tempfile
from dataclasses import dataclass
from pathlib import Path

from mcf.limits import WIDE_NAME
from mcf.version import commit_of

from .sources import sources

AT_TOP = ("VERSION", "LICENSE-APACHE", "LICENSE-MIT")


@dataclass(frozen=True)
class Release:
    """What a release is made of: the repository, the program that was built, and the one with wide limits, if it is shipped too; and the
    time that all files get."""

    root: Path
    program: Path
    seconds: int
    wide: Path | None = None

    @property
    def programs(self) -> dict[str, Path]:
        """The programs by their names."""
        return {"mcf": self.program, **({WIDE_NAME: self.wide} if self.wide else {})}

    @property
    def commit(self) -> str:
        """The commit that it is made of."""
        return commit_of(self.root)


def staged(release: Release, top: Path) -> None:
    """Lays the folder out as a source distribution has it, with the program as program/mcf, and program/mcf-wide if that is shipped too."""
    for name, file in sources(release.root, "python").items():
        place(top / Path(name).relative_to("python"), file.read_bytes())
    for name in AT_TOP:
        place(top / name, (release.root / name).read_bytes())
    place(top / "COMMIT", f"{release.commit}\n".encode())
    for name, program in release.programs.items():
        place(top / "program" / name, program.read_bytes(), 0o755)
    for name, data in kernel_in(release).items():
        place(top / "mcf" / name, data)


def kernel_in(release: Release) -> dict[str, bytes]:
    """The compiled kernel of mcf.trees by its path in the package; none where no compiler is, and then it is made at first use."""
    from mcf.trees.kernel import SOURCE, compiled, name
    with tempfile.TemporaryDirectory() as room:
        made = Path(room, name())
        known = SOURCE.read_bytes() == (release.root / "python/mcf/trees/kernel.c").read_bytes()
        return {f"trees/{name()}": made.read_bytes()} if known and compiled(made) else {}


def place(file: Path, data: bytes, mode: int = 0o644) -> None:
    """Writes a file of a mode, whatever the umask says, in folders that everybody may read."""
    for folder in [*reversed(file.parents)]:
        if not folder.exists():
            folder.mkdir()
            folder.chmod(0o755)
    file.write_bytes(data)
    file.chmod(mode)


def environment(release: Release) -> dict[str, str]:
    """What a build may see of the caller's environment: nothing that could change its bytes."""
    kept = {name: os.environ[name] for name in ("PATH", "HOME", "TMPDIR") if name in os.environ}
    return {**kept, "LC_ALL": "C.UTF-8", "TZ": "UTC", "SOURCE_DATE_EPOCH": str(release.seconds), "PYTHONDONTWRITEBYTECODE": "1"}


def last_line(text: str) -> str:
    """The last line that is not empty."""
    return ([line for line in text.splitlines() if line.strip()] or [""])[-1].strip()
