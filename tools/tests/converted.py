"""`tools/convert` within the process of a test, or with `tools/test --processes` as one of its own: its status, what it wrote and said."""

from __future__ import annotations

import contextlib
import io
import os
import subprocess
import sys
from dataclasses import dataclass
from pathlib import Path
from unittest import mock

from mcf.cli.convert import run
from mcf.output import status_of

ROOT = Path(__file__).resolve().parents[2]
EXAMPLES = ROOT / "examples"
DATA = ROOT / "tools/tests/data/convert"


@dataclass(frozen=True)
class Converted:
    """The end of a run; `text` is None where nothing was written."""

    status: int
    text: str | None
    said: list[str]

    @property
    def why(self) -> str:
        """The one line of a refusal; nothing is written then."""
        assert self.status == 2 and self.text is None, self
        assert self.said[-1].startswith("convert: ")
        return self.said[-1].removeprefix("convert: ")

    def rows(self, section: str) -> list[str]:
        """The rows of a section of the network that was written."""
        assert self.status == 0 and self.text is not None, self.said
        lines = self.text.splitlines()
        first = lines.index(f"{section} (") + 1
        return [line.strip() for line in lines[first : lines.index(")", first)]]


def converted(room: Path, *words: str | Path, to: str = "net") -> Converted:
    """What the words make of files; names of files that were written in the room may stand alone."""
    target = room / "converted.out"
    target.unlink(missing_ok=True)
    full = [str(room / word) if isinstance(word, str) and (room / word).is_file() else str(word) for word in words]
    status, said = (_as_process if os.environ.get("MCF_PROCESSES") else _within)([*full, str(target), "--to", to])
    text = target.read_bytes().decode("utf-8", "surrogateescape") if target.exists() else None
    return Converted(status, text, said.replace(f"{room}/", "").splitlines())


def _within(words: list[str]) -> tuple[int, str]:
    """The status, and what is said, of the tool within this process."""
    said = io.StringIO()
    with mock.patch.object(sys, "argv", ["convert", *words]), contextlib.redirect_stderr(said):
        return status_of(run, "convert"), said.getvalue()


def _as_process(words: list[str]) -> tuple[int, str]:
    """The same of the tool as it is started by a user."""
    done = subprocess.run([ROOT / "tools/convert", *words], stdout=subprocess.DEVNULL, stderr=subprocess.PIPE, check=False)
    return done.returncode, done.stderr.decode("utf-8", "surrogateescape")


def made(room: Path, **files: str) -> Path:
    """The room with files of these texts; an underscore in a name stands for a point."""
    for name, text in files.items():
        (room / name.replace("_", ".")).write_text(text, "utf-8", newline="")
    return room
