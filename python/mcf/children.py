"""The one way in which programs are started: a child that ends with its caller, however that ends, with all that it has started itself.

A child has a process group of its own, which is ended where the call is interrupted or its time is over. It is ended too where the
caller dies, by whatever signal: `setpriv` of util-linux has the system do it then, and the shell between them sees whether that
happened before. No code of Python runs between the fork and the program, so calls are safe in threads.

The standard library alone.
"""

from __future__ import annotations

import contextlib
import errno
import os
import shutil
import signal
import subprocess
import threading
from collections.abc import Callable, Iterator, Sequence
from dataclasses import dataclass
from functools import lru_cache
from types import FrameType

PATIENCE = 10.0
"""How many seconds a child has to tidy up after SIGTERM."""

BINARY = b"\x7fELF"

_LONGEST = 2_000_000.0
"""How many seconds can be waited for; more are none that come to an end."""

_UNLESS_ORPHANED = '[ "$PPID" = "$0" ] && exec "$@"'
_running: set[subprocess.Popen[bytes]] = set()


@dataclass(frozen=True)
class Ended:
    """How a child ended: its status, or the number of a signal below 0, and what it wrote."""

    status: int
    out: bytes
    err: bytes

    @property
    def text(self) -> str:
        """What it wrote, one character for each byte."""
        return self.out.decode("latin-1")

    @property
    def lines(self) -> list[str]:
        """The lines of that; a byte of a name may be a character at which Python would end a line, so `splitlines` is no way to them."""
        return self.text.split("\n")[:-1]

    @property
    def line(self) -> str:
        """The first line of that, at most 300 bytes of it."""
        return self.out[:300].split(b"\n", 1)[0].decode("latin-1")

    @property
    def trouble(self) -> str:
        """The last line on standard error."""
        lines = self.err.decode("utf-8", "replace").strip().splitlines()
        return lines[-1] if lines else ""


def run(words: Sequence[str], seconds: float | None = None, *, descriptors: Sequence[int] = (), environment: dict[str, str] | None = None,
        gently: bool = False, errors: int | None = subprocess.PIPE) -> Ended:
    """Runs a program, which is named by its path, to its end, without input, and takes its output.

    seconds: TimeoutExpired where they are over. descriptors: what the child has beside its standard streams. environment: variables beside
    those of the caller. gently: it is ended by SIGTERM and may tidy up, and is killed where that takes long. errors: where its standard
    error goes; None leaves it that of the caller. OSError where it cannot be started.
    """
    with started(words, descriptors=descriptors, environment=environment, gently=gently, errors=errors) as child:
        output, told = child.communicate(timeout=None if seconds is None or seconds > _LONGEST else seconds)
        return Ended(child.returncode, output, told or b"")


@contextlib.contextmanager
def started(words: Sequence[str], *, descriptors: Sequence[int] = (), environment: dict[str, str] | None = None, gently: bool = False,
            errors: int | None = subprocess.PIPE) -> Iterator[subprocess.Popen[bytes]]:
    """A child that runs, and is ended behind the block, if it has not ended by then."""
    child = None
    # (an interrupt while it is started would lose it)
    signals = HeldSignals()
    try:
        child = start(words, descriptors, environment, gently, errors)
        _running.add(child)
        signals.let_go()
        yield child
    finally:
        signals.let_go()
        if child is not None:
            _running.discard(child)
            end(child, gently)


def start(words: Sequence[str], descriptors: Sequence[int] = (), environment: dict[str, str] | None = None, gently: bool = False,
          errors: int | None = subprocess.PIPE) -> subprocess.Popen[bytes]:
    """A child that runs, and ends with this process; who starts it ends it by `end`, and is in no main thread that may be interrupted."""
    _require_startable(words[0])
    # (the starter's hints are for a person who called it)
    return subprocess.Popen([*_tied(gently), *words], stdin=subprocess.DEVNULL, stdout=subprocess.PIPE, stderr=errors, pass_fds=descriptors,
                            process_group=0, env={**os.environ, **(environment or {}), "MCF_HINTS": "0"})


class HeldSignals:
    """Signals that Python code handles wait in the main thread, which alone takes them, until they are let go."""

    def __init__(self) -> None:
        """Holds them from now on."""
        self._came: list[int] = []
        self._handlers: dict[int, Callable[[int, FrameType | None], object]] = {}
        for number in (signal.SIGINT, signal.SIGTERM, signal.SIGHUP) if threading.current_thread() is threading.main_thread() else ():
            handler = signal.getsignal(number)
            if callable(handler):
                self._handlers[number] = handler
                signal.signal(number, lambda number, _: self._came.append(number))

    @property
    def came(self) -> bool:
        """Whether one waits."""
        return bool(self._came)

    def let_go(self) -> None:
        """Hands over those that came."""
        handlers, self._handlers = self._handlers, {}
        for number, handler in handlers.items():
            signal.signal(number, handler)
        came, self._came = self._came, []
        for number in came:
            signal.raise_signal(number)


def end(child: subprocess.Popen[bytes], gently: bool = False) -> None:
    """Ends a child that runs still, with its group, and closes what it wrote to."""
    try:
        if gently and child.returncode is None:
            _signal(child, signal.SIGTERM)
            with contextlib.suppress(subprocess.TimeoutExpired):
                child.wait(PATIENCE)
    finally:
        if child.returncode is None:
            _signal(child, signal.SIGKILL)
            child.wait()
        for stream in (child.stdout, child.stderr):
            if stream is not None:
                stream.close()


def signal_name(number: int) -> str:
    """What a signal is called."""
    return signal.Signals(number).name if number in set(signal.Signals) else f"signal {number}"


def end_all() -> None:
    """Asks all children that run now, of whichever thread, to end."""
    for child in tuple(_running):
        _signal(child, signal.SIGTERM)


def _signal(child: subprocess.Popen[bytes], number: signal.Signals) -> None:
    """Sends a signal to a child's group while the child is there."""
    if child.returncode is None:
        with contextlib.suppress(ProcessLookupError, PermissionError):
            os.killpg(child.pid, number)


def _require_startable(path: str) -> None:
    """OSError where a file is none that the system runs, which a shell would take for a script of its own."""
    if os.path.exists(path) and not os.access(path, os.X_OK):
        raise PermissionError(errno.EACCES, os.strerror(errno.EACCES), path)
    try:
        with open(path, "rb") as file:
            front = file.read(4)
    except PermissionError:
        # (a program need not be readable to be run)
        return
    if not (front.startswith(b"#!") or front == BINARY):
        raise OSError(errno.ENOEXEC, os.strerror(errno.ENOEXEC), path)


def _tied(gently: bool) -> list[str]:
    """The words in front of a program that is to end with this process; none where the system has no setpriv."""
    setpriv = _setpriv()
    return [setpriv, "--pdeathsig", "TERM" if gently else "KILL", "/bin/sh", "-c", _UNLESS_ORPHANED, str(os.getpid())] if setpriv else []


@lru_cache(maxsize=1)
def _setpriv() -> str | None:
    """The path of a setpriv that knows --pdeathsig."""
    found = shutil.which("setpriv", path="/usr/bin:/bin:/usr/sbin:/sbin")
    if found is None:
        return None
    tried = subprocess.run([found, "--pdeathsig", "KILL", "/bin/sh", "-c", ":"], capture_output=True, check=False)
    return found if tried.returncode == 0 else None
