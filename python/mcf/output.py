"""How a tool reads, writes and ends: a file is written whole or stays as it was, and each end is one line and a status.

A tool's script is `main_of(main)`; whatever `main` raises becomes its line. Import what takes long within `main`, so that an interrupt
meets `main_of` already. A traceback is seen where the environment has MCF_TRACEBACK.
"""

from __future__ import annotations

import atexit
import contextlib
import errno
import io
import logging
import os
import secrets
import signal
import stat
import sys
from collections.abc import Callable, Iterable, Iterator
from pathlib import Path
from types import FrameType
from typing import BinaryIO, NoReturn

from . import jsons
from .errors import McfError, TextError
from .errors import one_line as one_line

TROUBLE = 2
INTERRUPTED = 130
STANDARD = ("-", "/dev/stdout", "/dev/fd/1")
_PART = ".mcf-part-"
_SIGNALS = (signal.SIGINT, signal.SIGTERM, signal.SIGHUP)


def contents(path: str) -> bytes:
    """The bytes of a file; `-` is standard input."""
    try:
        with open(0 if path == "-" else path, "rb", closefd=path != "-") as file:
            return file.read()
    except OSError as fault:
        name = "standard input" if path == "-" else path
        raise TextError(f"{name}: {fault.strerror or fault}").at(name, kind="file") from None


@contextlib.contextmanager
def writing(path: str) -> Iterator[BinaryIO]:
    """A file for bytes, which takes its place once all is written; `-` is standard output, and devices and pipes are written directly.

    If the body or the writing fails or is interrupted, what had that name stays as it was, and nothing else is left.
    """
    try:
        with _opened(path) as file:
            yield file
    except OSError as fault:
        if fault.filename not in (None, path) and not Path(os.fsdecode(fault.filename)).name.startswith(_PART):
            raise
        raise _trouble(path, fault) from None


def write(path: str, data: bytes) -> None:
    """Writes a whole file by `writing`."""
    with writing(path) as file:
        file.write(data)


def require_output(path: str, sources: Iterable[str] = ()) -> None:
    """Refuses, before any work, an output that cannot be written, or that is one of the sources by whichever name or link.

    With --json standard output is no place for another one.
    """
    try:
        there = _status(path, 1)
        if not _is_direct(path, there):
            _require_place(Path(os.path.realpath(path)), path)
    except OSError as fault:
        raise _trouble(path, fault) from None
    if jsons.asked() and (path in STANDARD or _is_file("/dev/stdout", there)):
        raise TextError("with --json, standard output has the JSON object alone: name a file for the other output").at(kind="usage")
    same = next((source for source in sources if _is_file(source, there)), None)
    if same is not None:
        raise TextError(f"{path}: is read too{'' if same == path else f', as {same}'}: write to another file")


def require_outputs(outputs: Iterable[str | None], sources: Iterable[str] = ()) -> None:
    """Refuses by `require_output` each output that is named, and one that is written twice, by whichever name or link."""
    read, named = list(sources), [output for output in outputs if output]
    for at, output in enumerate(named):
        require_output(output, read)
        if any(_are_one(output, other) for other in named[:at]):
            raise TextError(f"{output}: is written twice").at(kind="usage")


def _are_one(output: str, other: str) -> bool:
    """Whether two outputs have one place; the null device keeps nothing, so it has room for all."""
    if output in STANDARD or other in STANDARD:
        return output in STANDARD and other in STANDARD
    place = os.path.realpath(output)
    return place == os.path.realpath(other) and place != os.devnull


def main_of(function: Callable[[], int], name: str | None = None) -> NoReturn:
    """Ends the process with the status of a tool's function, or with one line and status 2, or 130 where it was interrupted."""
    _open_closed_streams()
    # (the first that is registered is the last that is called; behind it Python itself would end by a signal)
    atexit.register(_ignore_signals)
    if not os.environ.get("MCF_TRACEBACK"):
        # (what an interrupt breaks off half made complains when it is let go)
        sys.unraisablehook = _unseen
    for number in _SIGNALS:
        if signal.getsignal(number) != signal.SIG_IGN:
            signal.signal(number, _interrupt)
    status = status_of(function, name or Path(sys.argv[0]).name)
    # (what was to be done is done, and a signal that comes now changes nothing of it: it ends the process at once, with that status)
    for number in _SIGNALS:
        signal.signal(number, lambda *_: os._exit(status))
    for stream, at in ((sys.stdout, 1), (sys.stderr, 2)):
        _drop_unwritten(stream, at)
    sys.exit(status)


def status_of(function: Callable[[], int], name: str) -> int:
    """The status of a tool's function; where it raises, one line on standard error under the tool's name, and 2 or 130.

    With --json among the words of the process all that it says is one JSON object on standard output.
    """
    jsons.begin(name, sys.argv[1:])
    try:
        try:
            with _noted(name):
                status = function()
        except SystemExit as end:
            # (argparse ends so, and has said why)
            status = end.code if isinstance(end.code, int) else 0 if end.code is None else TROUBLE
            jsons.drop()
        jsons.end(status)
        sys.stdout.flush()
        return status
    except BaseException as fault:
        if os.environ.get("MCF_TRACEBACK"):
            raise
        why, status = one_line(_why(fault)), INTERRUPTED if isinstance(fault, KeyboardInterrupt) else TROUBLE
        with contextlib.suppress(OSError):
            print(f"{name}: {why}", file=sys.stderr, flush=True)
        with contextlib.suppress(OSError, ValueError):
            jsons.fail(fault, status, why)
        return status


class _Notes(logging.Handler):
    """Tells what the package logs, as notes of a tool."""

    def __init__(self, tool: str) -> None:
        """For the tool of that name."""
        super().__init__()
        self._tool = tool.rpartition("/")[2]

    def emit(self, record: logging.LogRecord) -> None:
        """Tells one line."""
        jsons.note(one_line(record.getMessage()), self._tool)


@contextlib.contextmanager
def _noted(tool: str) -> Iterator[None]:
    """What the logger of the package is told within the block is a note of the tool."""
    notes, logger = _Notes(tool), logging.getLogger("mcf")
    logger.addHandler(notes)
    try:
        yield
    finally:
        logger.removeHandler(notes)


def _why(fault: BaseException) -> str:
    """What is said of an end."""
    if isinstance(fault, KeyboardInterrupt):
        return str(fault) or "interrupted"
    if isinstance(fault, (TextError, McfError)):
        return str(fault)
    if isinstance(fault, OSError):
        return f"{os.fsdecode(fault.filename) if isinstance(fault.filename, (str, bytes)) else 'output'}: {fault.strerror or fault}"
    if isinstance(fault, MemoryError):
        return "out of memory"
    return f"internal error: {type(fault).__name__}: {fault} (MCF_TRACEBACK=1 shows where)"


def _trouble(path: str, fault: OSError) -> TextError:
    """A fault of the output."""
    file = "standard output" if path in STANDARD else path
    return TextError(f"{file}: {fault.strerror or fault}").at(file, kind="file")


def _opened(path: str) -> contextlib.AbstractContextManager[BinaryIO]:
    """What the bytes for a path are written to."""
    if path in STANDARD:
        return _standard_output()
    if _is_direct(path, _status(path, 1)):
        return open(path, "wb")
    return _beside(Path(os.path.realpath(path)), path)


def _is_direct(path: str, there: os.stat_result | None) -> bool:
    """Whether a path is a stream, a device or a pipe, whose place nothing can take."""
    if path in STANDARD or path.startswith("/proc/"):
        return True
    return there is not None and not (stat.S_ISREG(there.st_mode) or stat.S_ISDIR(there.st_mode))


@contextlib.contextmanager
def _standard_output() -> Iterator[BinaryIO]:
    """Standard output, behind what was printed there before."""
    sys.stdout.flush()
    with open(1, "wb", closefd=False) as file:
        yield file


@contextlib.contextmanager
def _beside(place: Path, path: str) -> Iterator[BinaryIO]:
    """A new file in the same folder, which takes the place at the end, with the mode and the owner of what was there."""
    old = _require_place(place, path)
    part = place.with_name(f"{_PART}{secrets.token_hex(8)}")
    try:
        with open(part, "xb") as file:
            yield file
            if old is not None:
                os.fchmod(file.fileno(), stat.S_IMODE(old.st_mode))
                with contextlib.suppress(PermissionError):
                    os.fchown(file.fileno(), old.st_uid, old.st_gid)
        os.replace(part, place)
    finally:
        part.unlink(missing_ok=True)


def _require_place(place: Path, path: str) -> os.stat_result | None:
    """What stands at a place, if a file may be written there; else why it may not."""
    old = _status(str(place), 1)
    if path.endswith("/") or not path or (old is not None and stat.S_ISDIR(old.st_mode)):
        raise IsADirectoryError(errno.EISDIR, os.strerror(errno.EISDIR), path)
    if not os.path.isdir(place.parent):
        raise FileNotFoundError(errno.ENOENT, os.strerror(errno.ENOENT), path)
    if not os.access(place.parent, os.W_OK | os.X_OK) or (old is not None and not os.access(place, os.W_OK)):
        raise PermissionError(errno.EACCES, os.strerror(errno.EACCES), path)
    return old


def _status(path: str, standard: int) -> os.stat_result | None:
    """What a path is, or nothing; `-` is standard input, 0, or output, 1."""
    if path == "-" or (standard == 1 and path in STANDARD):
        return os.fstat(standard)
    try:
        return os.stat(path)
    except FileNotFoundError:
        return None


def _is_file(source: str, there: os.stat_result | None) -> bool:
    """Whether a source is that regular file."""
    if there is None or not stat.S_ISREG(there.st_mode):
        return False
    try:
        other = _status(source, 0)
    except OSError:
        return False
    return other is not None and os.path.samestat(there, other)


def _interrupt(number: int, _: FrameType | None) -> None:
    """Ends the work once; what is to be tidied up is not interrupted again."""
    for other in _SIGNALS:
        # (not SIG_IGN, which a child that is started just now would keep, so that it could not be ended)
        signal.signal(other, _go_on)
    raise KeyboardInterrupt("interrupted" if number == signal.SIGINT else f"ended by {signal.Signals(number).name}")


def _ignore_signals() -> None:
    """Lets the process end as it was about to."""
    for number in _SIGNALS:
        signal.signal(number, signal.SIG_IGN)


def _unseen(_: object) -> None:
    """Says nothing."""


def _go_on(_: int, __: FrameType | None) -> None:
    """Does nothing."""


def _open_closed_streams() -> None:
    """Opens what the caller closed: nothing else then gets its number; reading it and writing an answer to it fail; text always fits."""
    for at, flags in ((0, os.O_WRONLY), (1, os.O_RDONLY), (2, os.O_WRONLY)):
        try:
            os.fstat(at)
        except OSError:
            # (the least number that is free, which is this one)
            os.set_inheritable(os.open(os.devnull, flags), True)
    sys.stdin = sys.stdin or open(0, closefd=False)
    sys.stdout = sys.stdout or open(1, "w", closefd=False)
    sys.stderr = sys.stderr or open(2, "w", buffering=1, closefd=False)
    for stream in (sys.stdout, sys.stderr):
        if isinstance(stream, io.TextIOWrapper):
            stream.reconfigure(errors="backslashreplace")


def _drop_unwritten(stream: object, at: int) -> None:
    """Lets go of what cannot be written, which Python would try again at the end and complain."""
    try:
        stream.flush()  # type: ignore[attr-defined]
    except (OSError, ValueError):
        os.dup2(os.open(os.devnull, os.O_WRONLY), at)
