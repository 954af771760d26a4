"""What the desk starts: programs that can be ended from another thread, and that end with the desk, however it ends."""

from __future__ import annotations

import contextlib
import os
import signal
import subprocess
import sys
import tempfile
import threading
from collections.abc import Iterator, Sequence
from pathlib import Path

from ..children import PATIENCE, Ended, started
from ..commands import require_answer, wide_path
from ..errors import McfError, NoProgram
from ..running import TOOL, require_status

PARENT = str(Path(__file__).resolve().parents[2])


class Stopped(Exception):
    """The work was stopped by the user, or the desk ends."""


class Held:
    """A text in memory that children read by its path, as often as they like."""

    def __init__(self, data: bytes) -> None:
        """Keeps the bytes."""
        self.data = data
        self._file = open(os.memfd_create("mcf-desk"), "wb")
        self._file.write(data)
        self._file.flush()

    @property
    def number(self) -> int:
        """The descriptor."""
        return self._file.fileno()

    @property
    def path(self) -> str:
        """The path by which a child that has inherited nothing reads it."""
        return f"/proc/{os.getpid()}/fd/{self.number}"

    def __enter__(self) -> Held:
        """The text itself."""
        return self

    def __exit__(self, *_: object) -> None:
        """Lets go of it."""
        self._file.close()


class Work:
    """A piece of work and its children: stopped once, those that run are ended, and none begins any more."""

    def __init__(self) -> None:
        """Nothing runs."""
        self._lock = threading.Lock()
        self._running: dict[subprocess.Popen[bytes], bool] = {}
        self.stopped = False

    def run(self, words: Sequence[str], texts: Sequence[Held] = (), gently: bool = False, environment: dict[str, str] | None = None) -> Ended:
        """Runs a program to its end; Stopped where the work was stopped, NoProgram where it cannot be started."""
        try:
            with started(words, descriptors=[text.number for text in texts], environment=environment, gently=gently) as child, self._held(child, gently):
                out, err = child.communicate()
                ended = Ended(child.returncode, out, err)
        except OSError as error:
            raise NoProgram(f"{words[0]}: {error.strerror}") from None
        if self.stopped:
            raise Stopped
        return ended

    @contextlib.contextmanager
    def _held(self, child: subprocess.Popen[bytes], gently: bool) -> Iterator[None]:
        """Keeps a child while it runs, so that it can be ended; Stopped where the work was stopped before."""
        with self._lock:
            if self.stopped:
                raise Stopped
            self._running[child] = gently
        try:
            yield
        finally:
            with self._lock:
                del self._running[child]

    def stop(self) -> None:
        """Ends all children, those that tidy up themselves by SIGTERM; what is not done in time is killed."""
        with self._lock:
            self.stopped = True
            for child, gently in self._running.items():
                _signal(child, signal.SIGTERM if gently else signal.SIGKILL)
            late = [child for child, gently in self._running.items() if gently]
        if late:
            timer = threading.Timer(PATIENCE, self._kill, (late,))
            timer.daemon = True
            timer.start()

    def _kill(self, late: list[subprocess.Popen[bytes]]) -> None:
        """Kills those that still run."""
        with self._lock:
            for child in late:
                if child in self._running:
                    _signal(child, signal.SIGKILL)

    def ask(self, path: str, command: str, texts: dict[str, Held], options: Sequence[str] = ()) -> Ended:
        """Runs a command of the proved program, as `mcf.commands.ask` does, on texts that are held already."""
        words = [command, *options, "--", *(f"/proc/self/fd/{text.number}" for text in texts.values())]
        ended = self.run([path, *words], list(texts.values()))
        if wide := wide_path(path, ended):
            path = wide
            ended = self.run([path, *words], list(texts.values()))
        require_status(ended, path)
        require_answer(command, ended, path, words, {name: text.data for name, text in texts.items()})
        return ended

    def tool(self, tool: str, words: Sequence[str]) -> Ended:
        """Runs a tool of `mcf.cli` in a Python of its own, with a folder for temporary files; McfError with its line where it fails."""
        with folder() as room:
            command = [sys.executable, "-P", "-B", "-c", TOOL, PARENT, room, tool, *words]
            ended = self.run(command, gently=True, environment={"TMPDIR": room})
        if ended.status not in (0, 1):
            raise McfError(ended.trouble or f"{tool} ended with status {ended.status}")
        return ended


def folder() -> tempfile.TemporaryDirectory[str]:
    """A folder that is gone behind a block, also where a tool has removed it already."""
    return tempfile.TemporaryDirectory(prefix="mcf-desk-", ignore_cleanup_errors=True)


def _signal(child: subprocess.Popen[bytes], number: signal.Signals) -> None:
    """Sends a signal to a child's group while the child is there."""
    if child.returncode is None:
        with contextlib.suppress(ProcessLookupError, PermissionError):
            os.killpg(child.pid, number)
