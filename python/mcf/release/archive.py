"""What goes into a release, and the archive: the same bytes for the same files."""

from __future__ import annotations

import gzip
import hashlib
import io
import re
import subprocess
import tarfile
import tempfile
from pathlib import Path
from typing import IO, cast

from mcf import Program, TextError
from mcf.limits import WIDE_NAME
from mcf.program import is_old
from mcf.version import commit_of

from .pages import scripts, titled
from .sources import package, sources
from .staged import Release

# whole folders, and files by name, that are shipped as they stand, beside the package and the tools
SHIPPED = ("VERSION", "LICENSE-APACHE", "LICENSE-MIT", "docs", "examples", "tools/mcf_texts")
BESIDE_TOOLS = ("check_twice", "setup")


def version_of(root: Path) -> str:
    """The version, from the one file that has it."""
    version = (root / "VERSION").read_text().strip()
    if not re.fullmatch(r"[0-9]+\.[0-9]+\.[0-9]+(-[0-9A-Za-z.]+)?", version):
        raise TextError(f"VERSION has {version!r}, and 1.2.3 is its form")
    return version


def built_program(root: Path) -> Path:
    """The program that was built and is not older than any source; TextError where there is none."""
    for program in (root / "crates/mcf/out/mcf", root / ".built/mcf"):
        if program.is_file() and not is_old(program, root / "crates"):
            return program
    raise TextError("the program is missing or older than its sources: run ./mcf once, or name one by --mcf")


def built_wide_program(root: Path) -> Path | None:
    """The program with wide limits that was built and is not older than any source; None where there is none."""
    wide = root / ".built" / WIDE_NAME
    return wide if wide.is_file() and not is_old(wide, root / "crates") else None


def files_of(release: Release) -> dict[str, tuple[int, bytes]]:
    """Each file of the archive by its name there, with its mode."""
    root = release.root
    starter = (root / "python/mcf/release/starter.sh").read_bytes()
    files = {"README.md": (0o644, (root / "python/mcf/release/README.md").read_bytes())}
    for name, program in release.programs.items():
        files |= {name: (0o755, starter), f"program/{name}": (0o755, program.read_bytes())}
    files |= {name: (0o644, file.read_bytes()) for name, file in sources(root, *SHIPPED).items()}
    files |= {f"python/mcf/{name}": (0o644, file.read_bytes()) for name, file in package(root).items()}
    tools = [*(name.removeprefix("mcf-") for name in scripts(root)), *BESIDE_TOOLS]
    files |= {f"tools/{name}": (0o755, (root / "tools" / name).read_bytes()) for name in tools}
    files["python/mcf/COMMIT"] = (0o644, f"{commit_of(root)}\n".encode())
    files["docs/mcf.1"] = (0o644, titled(files["docs/mcf.1"][1].decode(), version_of(root)).encode())
    sums = "".join(f"{hashlib.sha256(files[name][1]).hexdigest()}  {name}\n" for name in sorted(files))
    return {**files, "SHA256SUMS": (0o644, sums.encode())}


def archive(release: Release) -> tuple[str, bytes]:
    """The archive's name, without its ending, and its bytes; all files in it have the release's time."""
    name, seconds = f"mcf-{version_of(release.root)}-x86_64-linux", release.seconds
    packed = io.BytesIO()
    with gzip.GzipFile(filename="", mode="wb", fileobj=packed, mtime=seconds) as zipped, \
            tarfile.open(fileobj=cast(IO[bytes], zipped), mode="w", format=tarfile.USTAR_FORMAT) as tar:
        for file, (mode, data) in sorted(files_of(release).items()):
            info = tarfile.TarInfo(f"{name}/{file}")
            info.size, info.mode, info.mtime, info.uname, info.gname = len(data), mode, seconds, "root", "root"
            tar.addfile(info, io.BytesIO(data))
    return name, packed.getvalue()


def try_archive(name: str, data: bytes, version: str) -> None:
    """Unpacks the archive and asks it a few questions; TextError where an answer is wrong."""
    with tempfile.TemporaryDirectory() as room:
        with tarfile.open(fileobj=io.BytesIO(data)) as tar:
            tar.extractall(room)
        top = Path(room, name)
        starter = Program(str(top / "mcf"))
        sums = subprocess.run(["sha256sum", "--quiet", "-c", "SHA256SUMS"], cwd=top, capture_output=True, check=False)
        net, certificate = str(top / "examples/polska.net"), str(top / "examples/polska.cert")
        wide = Program(str(top / WIDE_NAME)) if (top / WIDE_NAME).is_file() else None
        answers = {
            "checksums": sums.returncode == 0,
            "mcf --version": starter.ask("--version").startswith(f"mcf {version} ("),
            "mcf --help": starter.ask("--help").startswith("mcf - "),
            "mcf check": starter.check(net, certificate).text.startswith("valid closed undirected largest "),
            "mcf solve": starter.solve(net, "--workers", "1", seconds=60) == Path(certificate).read_text(),
            "tools/show --version": Program(str(top / "tools/show")).ask("--version").startswith(f"mcf {version} ("),
            "mcf-wide --version": wide is None or wide.ask("--version").startswith(f"mcf-wide {version} ("),
            "mcf-wide check": wide is None or wide.check(net, certificate).text.startswith("valid closed undirected largest "),
            "mcf-wide gen": wide is None or wide.ask("gen", "1", "1000", "1000", "1").startswith("?SNDlib native format"),
        }
    wrong = [what for what, is_right in answers.items() if not is_right]
    if wrong:
        raise TextError(f"the archive does not work: {', '.join(wrong)}")
