"""How the API runs the program and the tools: by `children`, with texts that are read from memory, and each end as an error of its own.

Texts are handed over as files in memory (`memfd_create`), by their descriptors: nothing is written to a disk, so nothing stays there,
however a call ends.

The standard library alone.
"""

from __future__ import annotations

import contextlib
import math
import os
import signal
import subprocess
import sys
import tempfile
import threading
from collections.abc import Iterator, Sequence
from decimal import Decimal
from functools import lru_cache
from numbers import Real
from pathlib import Path

from . import children
from .children import BINARY, Ended
from .errors import McfError, NoProgram, Timeout

TOOL = """
import atexit, shutil, sys
parent, room, tool = sys.argv[1:4]
atexit.register(shutil.rmtree, room, True)
sys.path.insert(0, parent)
from mcf.output import main_of
from importlib import import_module
sys.argv[:] = [tool, *sys.argv[4:]]
main_of(import_module("mcf.cli." + tool).main, tool)
"""
_FRONT = 64
_LONGEST = 10**9
_KNOWN_SECONDS = 60.0


def run(words: Sequence[str], descriptors: Sequence[int] = (), timeout: float | None = None, *, name: str | None = None,
        environment: dict[str, str] | None = None, gently: bool = False) -> Ended:
    """Runs a program to its end, by `children.run`; NoProgram where it cannot be started.

    timeout: in seconds; Timeout where it is over, which calls the program by `name`, or by that of its file. ValueError where it is none.
    """
    try:
        return children.run(words, seconds_of(timeout), descriptors=descriptors, environment=environment, gently=gently)
    except subprocess.TimeoutExpired:
        raise Timeout(f"{name or Path(words[0]).name} was not done in {seconds_of(timeout):g} seconds") from None
    except OSError as error:
        raise NoProgram(f"{words[0]}: {error.strerror}") from None


def seconds_of(timeout: object) -> float | None:
    """The seconds of a timeout, None where it has no end; ValueError where it is no number from 0 on."""
    if timeout is None:
        return None
    if isinstance(timeout, (Real, Decimal)) and not isinstance(timeout, bool):
        try:
            seconds = float(timeout)
        except OverflowError:
            seconds = math.inf
        if seconds >= 0:
            return None if seconds > _LONGEST else seconds
    raise ValueError(f"timeout is a number of seconds from 0 on, or None, and not {timeout!r}")


@contextlib.contextmanager
def in_memory(texts: Sequence[bytes]) -> Iterator[list[int]]:
    """Files in memory that have these texts, as descriptors; they are gone behind the block."""
    with contextlib.ExitStack() as stack:
        files = []
        for text in texts:
            file = stack.enter_context(open(os.memfd_create("mcf"), "wb"))
            file.write(text)
            file.flush()
            files.append(file.fileno())
        yield files


def require_program(path: str) -> None:
    """NoProgram unless the file at a path may be run and answers as mcf does; asked once for each file as it stands."""
    try:
        there = os.stat(path)
        with open(path, "rb") as file:
            front = file.read(4)
    except OSError as error:
        raise NoProgram(f"{path}: {error.strerror}; MCF in the environment names the program mcf") from None
    if not os.access(path, os.X_OK) or not (front.startswith(b"#!") or front == BINARY):
        raise NoProgram(f"{path}: this is no program that may be run; MCF in the environment names the program mcf")
    _require_answer(path, front == BINARY, there.st_ino, there.st_size, there.st_mtime_ns)


@lru_cache(maxsize=64)
def _require_answer(path: str, is_binary: bool, *_: int) -> None:
    """NoProgram unless the program answers no words by `usage` and status 2, as mcf does; what the file was is there to tell files apart."""
    with children.started([path]) as child:
        late = threading.Event()
        # (the starter, a script, may have to build the program first)
        ending = threading.Timer(_KNOWN_SECONDS, _end_group, (child.pid, late))
        if is_binary:
            ending.start()
        try:
            # (no more than a front is read, since another program may write without end)
            front = child.stdout.read(_FRONT) if child.stdout else b""
            status = child.wait(1.0) if front in (b"usage\n", b"") else None
        except subprocess.TimeoutExpired:
            status = None
        finally:
            ending.cancel()
    if status is not None and status < 0 and not late.is_set():
        require_status(Ended(status, front, b""), path)
    if (front, status) != (b"usage\n", 2):
        raise NoProgram(f"{path}: this is another program than mcf, since it does not answer as mcf does")


def _end_group(group: int, late: threading.Event) -> None:
    """Kills a group that takes too long."""
    late.set()
    with contextlib.suppress(ProcessLookupError):
        os.killpg(group, signal.SIGKILL)


def run_tool(tool: str, words: Sequence[str], texts: Sequence[bytes], timeout: float | None) -> tuple[Ended, list[str]]:
    """Runs a tool of `mcf.cli` in a Python of its own; `{0}`, `{1}` among its words are the paths of the texts.

    What it writes into the folder for temporary files is gone when it ends, also where it is killed.
    """
    parent = str(Path(__file__).resolve().parents[1])
    with tempfile.TemporaryDirectory(prefix="mcf-") as room, in_memory(texts) as files:
        paths = [f"/proc/{os.getpid()}/fd/{number}" for number in files]
        given = [word.format(*paths) if word.startswith("{") else word for word in words]
        ended = run([sys.executable, "-P", "-B", "-c", TOOL, parent, room, tool, *given], timeout=timeout, name=tool,
                    environment={"TMPDIR": room}, gently=True)
    return ended, paths


def require_status(ended: Ended, path: str) -> None:
    """McfError where a program ended by a signal; NoProgram where it has a status that mcf has not."""
    if ended.status < 0:
        raise McfError(f"{path} was ended by {children.signal_name(-ended.status)}")
    if ended.status > 7:
        raise NoProgram(f"{path}: status {ended.status}, which mcf has not: {ended.trouble or ended.line}")
