"""The proved program as the children of a worker: texts in memory, nothing left on a disk, and no child outlives its worker.

All children are in the process group of a shell that waits for the end of its input. That comes when the worker ends, by whatever
signal, and then the shell ends the group. So a child is started without anything between, which costs half a millisecond.
"""

from __future__ import annotations

import contextlib
import os
import signal
import subprocess
import threading
from collections.abc import Iterator, Sequence
from dataclasses import dataclass
from typing import BinaryIO

from ..errors import TextError
from ..program import find_program, wide_for

_WATCH = "trap '' INT TERM HUP; read -r end; kill -s TERM 0; sleep 0.1; kill -s TERM 0"
_NULL = ((os.POSIX_SPAWN_OPEN, 0, os.devnull, os.O_RDONLY, 0), (os.POSIX_SPAWN_OPEN, 2, os.devnull, os.O_WRONLY, 0))
_DEFAULT = (signal.SIGINT, signal.SIGTERM, signal.SIGHUP, signal.SIGPIPE)
_REFUSED, _NO_MEMORY = 3, 6
_here = threading.local()


class Ended(Exception):
    """The program gave no answer: it was ended by a signal, or there was no memory; another try may give one."""


@dataclass(frozen=True)
class Answer:
    """The status of a command, what it wrote, and the path of the program that answered."""

    status: int
    data: bytes
    program: str = "mcf"

    @property
    def line(self) -> str:
        """The first line, at most 300 bytes of it."""
        return self.data[:300].split(b"\n", 1)[0].decode("latin-1")


class Program:
    """The proved program at a path, with the shell that ends what this thread runs."""

    def __init__(self, path: str) -> None:
        """Starts the shell."""
        self.path = path
        self._environment = {**os.environ, "MCF_HINTS": "0", "MCF_BUILD": "0"}
        self._watch = subprocess.Popen(["/bin/sh", "-c", _WATCH], stdin=subprocess.PIPE, stdout=subprocess.DEVNULL,
                                       stderr=subprocess.DEVNULL, process_group=0)

    def run(self, command: str, options: Sequence[str], *texts: bytes) -> Answer:
        """Runs a command on texts, which it reads as files; Ended where it gives no answer. What is beyond the limits of `mcf` is given to
        `mcf-wide`, if it is there."""
        answer = self._answer(self.path, command, options, texts)
        wide = wide_for(self.path, answer.line, tell=False) if answer.status == _REFUSED else None
        return self._answer(wide.path, command, options, texts) if wide else answer

    def _answer(self, path: str, command: str, options: Sequence[str], texts: Sequence[bytes]) -> Answer:
        """The answer of the program at a path."""
        with contextlib.ExitStack() as stack:
            out, *files = [stack.enter_context(in_memory(text)) for text in (b"", *texts)]
            status = self._status([path, command, *options, "--", *map(path_of, files)], out.fileno())
            out.seek(0)
            data = out.read()
        if status < 0:
            raise Ended(f"mcf {command} was ended by {signal.Signals(-status).name}")
        if status == _NO_MEMORY:
            raise Ended(f"mcf {command}: out of memory")
        return Answer(status, data, path)

    def _status(self, words: list[str], out: int) -> int:
        """The status of a run, or the negative number of the signal that ended it."""
        actions = (*_NULL, (os.POSIX_SPAWN_DUP2, out, 1))
        try:
            child = os.posix_spawn(words[0], words, self._environment, file_actions=actions, setpgroup=self._watch.pid, setsigdef=_DEFAULT)
        except OSError as fault:
            raise TextError(f"{words[0]}: {fault.strerror}") from None
        try:
            _, status = os.waitpid(child, 0)
        except BaseException:
            # (an interrupt may come when its end was just taken)
            with contextlib.suppress(ProcessLookupError, ChildProcessError):
                os.kill(child, signal.SIGKILL)
                os.waitpid(child, 0)
            raise
        return os.waitstatus_to_exitcode(status)

    @property
    def watched(self) -> bool:
        """Whether the shell is there."""
        return self._watch.poll() is None

    def close(self) -> None:
        """Ends the shell."""
        assert self._watch.stdin is not None
        self._watch.stdin.close()
        self._watch.wait()


@contextlib.contextmanager
def in_memory(text: bytes) -> Iterator[BinaryIO]:
    """A file in memory, which is gone behind the block."""
    with open(os.memfd_create("mcf"), "w+b") as file:
        file.write(text)
        file.flush()
        yield file


def path_of(file: BinaryIO) -> str:
    """The path by which another process of this user opens a file in memory."""
    return f"/proc/{os.getpid()}/fd/{file.fileno()}"


def program(path: str | None) -> Program:
    """The program at a path, or the one that this machine has, for this thread."""
    known: dict[str | None, Program] = _here.__dict__.setdefault("programs", {})
    found = known.get(path)
    if found is None or not found.watched:
        found = known[path] = Program(find_program(path).path)
    return found


def end_all() -> None:
    """Ends what watches over the children of this thread."""
    for found in _here.__dict__.pop("programs", {}).values():
        found.close()
