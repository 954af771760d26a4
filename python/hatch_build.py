"""What hatchling puts into a wheel or a source distribution beside the package: version, commit and licences; and into a wheel, where
`program/mcf` stands beside this file, the proved program, byte for byte as it was built, with man pages and completions; `program/mcf-wide`
likewise.

tools/release makes such a folder. Without a program the wheel is one for every system, and `mcf` is looked for on the path.
"""

from __future__ import annotations

import sys
import tempfile
from pathlib import Path
from typing import Any

from hatchling.builders.hooks.plugin.interface import BuildHookInterface

HERE = Path(__file__).resolve().parent
LICENCES = ("LICENSE-APACHE", "LICENSE-MIT")

sys.path.insert(0, str(HERE))
from mcf.release.elf import glibc  # noqa: E402
from mcf.version import commit_of  # noqa: E402


class Extras(BuildHookInterface):
    """The files beside the package, for both kinds of distributions."""

    def initialize(self, version: str, build_data: dict[str, Any]) -> None:
        """Adds the files, and says for which systems a wheel with a program is."""
        self.room = tempfile.TemporaryDirectory()
        if version == "editable":
            # (the package is then that of the checkout, which has git)
            return
        commit = Path(self.room.name, "COMMIT")
        commit.write_text(f"{commit_here()}\n")
        commit.chmod(0o644)
        inner = "mcf/" if self.target_name == "wheel" else ""
        files = {at_top("VERSION"): f"{inner}VERSION", commit: f"{inner}COMMIT"}
        programs = sorted((HERE / "program").glob("mcf*"))
        if self.target_name == "sdist":
            files |= {at_top(name): name for name in LICENCES}
        elif programs:
            data = f"{self.metadata.core.name.replace('-', '_')}-{self.metadata.version}.data"
            files |= {program: f"{data}/scripts/{program.name}" for program in programs}
            files |= {file: f"{data}/data/share/{file.relative_to(HERE / 'share')}" for file in sorted((HERE / "share").rglob("*")) if file.is_file()}
            build_data["pure_python"] = False
            build_data["tag"] = "py3-none-manylinux_{}_{}_x86_64".format(*max(glibc(program) for program in programs))
        build_data["force_include"] |= {str(file): name for file, name in files.items()}

    def finalize(self, version: str, build_data: dict[str, Any], artifact_path: str) -> None:
        """Lets go of what was made for the build."""
        self.room.cleanup()


def at_top(name: str) -> Path:
    """A file of the repository's top, or its copy beside this one in a source distribution."""
    return next(file for file in (HERE / name, HERE.parent / name) if file.is_file())


def commit_here() -> str:
    """The commit: that of the file COMMIT of a source distribution, else that of the checkout."""
    file = HERE / "COMMIT"
    return file.read_text().strip() if file.is_file() else commit_of(HERE.parent)
