"""The wheel: the package, and the proved program as `mcf` among its scripts."""

from __future__ import annotations

import subprocess
import sys
import tempfile
from pathlib import Path

from mcf.errors import TextError

from .missing import require
from .pages import shared_files
from .staged import Release, environment, last_line, place, staged


def wheel(release: Release) -> tuple[str, bytes]:
    """The name and the bytes of the wheel, which hatchling makes."""
    require({"python3-hatchling": "hatchling"})
    with tempfile.TemporaryDirectory() as room:
        top, out = Path(room, "mcf"), Path(room, "out")
        staged(release, top)
        for name, text in shared_files(release, "site-functions").items():
            place(top / "share" / name, text.encode())
        words = [sys.executable, "-I", "-B", "-m", "hatchling", "build", "--target", "wheel", "--directory", str(out)]
        ran = subprocess.run(words, cwd=top, env=environment(release), capture_output=True, text=True, check=False)
        if ran.returncode != 0:
            raise TextError(f"hatchling: {last_line(ran.stdout + ran.stderr) or f'status {ran.returncode}'}")
        made, = out.iterdir()
        return made.name, made.read_bytes()
