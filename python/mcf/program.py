"""The program `mcf`: where it is, and its commands with their answers."""

from __future__ import annotations

import errno
import logging
import os
import re
import shutil
import subprocess
import sysconfig
import tempfile
from collections.abc import Mapping, Sequence
from dataclasses import dataclass, field
from functools import cached_property, lru_cache
from pathlib import Path
from typing import TypeVar

from . import children
from .certificate import save_text
from .errors import TextError
from .hints.hint import explained, files_of
from .limits import WIDE_NAME, limits_of
from .network import Network, read_network

PACKAGES, ROOT = Path(__file__).resolve().parents[1:3]
BUILD = "./mcf there builds it, which takes from 20 minutes to an hour since all is proved first; or name one by --mcf, or by MCF"

_Fault = TypeVar("_Fault", bound=TextError)
REFUSED = re.compile(r"refused (\w+) (?:(\w+) line (\d+)|(TooLong)|(\d+))")
BEYOND = re.compile(r"refused (?:net N4 line \d+|net TooLong|cert2? TooLong|list M2 line \d+)")
"""The refusals of a text that is beyond the limits of `mcf`, and may be within those of `mcf-wide`."""
INVALID = re.compile(r"invalid2? (C\d+)")
TINY = ("?SNDlib native format; type: network; version: 1.0\nNODES (\n  A\n  B\n)\nLINKS (\n  L ( A B ) 1 0 0 0 ( )\n)\n"
        "DEMANDS (\n  D ( A B ) 1 1 UNLIMITED\n)\n")


@dataclass(frozen=True)
class Answer:
    """What a run of the program wrote, and its status; `program` is the path of the one that answered, `mcf` or `mcf-wide`."""

    status: int
    text: str
    program: str = field(default="mcf", repr=False, compare=False)

    @property
    def line(self) -> str:
        """The first line of the text."""
        return self.text.split("\n", 1)[0]


@dataclass(frozen=True)
class Program:
    """The program at a path."""

    path: str

    def run(self, *words: str, seconds: float | None = None) -> Answer:
        """Runs a command; TextError where the program cannot be started or takes longer than so many seconds.

        Where a file is beyond the limits of `mcf`, `mcf-wide` answers, if there is one; that is said once.
        """
        answer = self._run(words, seconds)
        wide = wide_for(self.path, answer.line)
        return wide.run(*words, seconds=seconds) if wide else answer

    def _run(self, words: Sequence[str], seconds: float | None) -> Answer:
        """Runs a command by this program alone."""
        if not os.access(self.path, os.X_OK):
            why = os.strerror(errno.EACCES if os.path.exists(self.path) else errno.ENOENT)
            raise TextError(f"{self.path}: {why}").at(self.path, kind="program")
        try:
            # (the hour in which the starter builds the program is for a person who called it)
            done = children.run([self.path, *words], seconds, environment={"MCF_BUILD": "0"}, errors=None)
        except OSError as error:
            raise TextError(f"{self.path}: {error.strerror}").at(self.path, kind="program") from error
        except subprocess.TimeoutExpired as error:
            raise TextError(f"mcf {words[0]} was not done in {seconds:.3g} seconds").at(kind="timeout") from error
        return Answer(done.status, done.text, self.path)

    def ask(self, *words: str, statuses: tuple[int, ...] = (0,), seconds: float | None = None) -> str:
        """The text that a command wrote; TextError, with its line and what that means, where the status is another one."""
        answer = self.run(*words, seconds=seconds)
        if answer.status not in statuses:
            raise _no_answer(words, answer)
        return answer.text

    def network(self, file: str | Path) -> Network:
        """The rows of any network file, by `mcf print`."""
        return read_network(self.ask("print", _word(file)))

    def solve(self, file: str | Path, *options: str, seconds: float | None = None, command: str = "solve") -> str:
        """The certificate of a network file, closed or open; the command may also be `hops` or `throughput`."""
        return self.ask(command, *options, "--", str(file), statuses=(0, 1), seconds=seconds)

    def check(self, file: str | Path, certificate: str | Path, seconds: float | None = None, command: str = "check") -> Answer:
        """What `mcf check` says of a certificate or routing; `checkhops` and `checkthroughput` judge the other kinds (`judge_of`)."""
        return self.run(command, _word(file), _word(certificate), seconds=seconds)

    @cached_property
    def form(self) -> int:
        """The form of the certificates that `mcf solve` writes, 1 or 2, seen by solving a tiny network."""
        with tempfile.TemporaryDirectory() as room:
            file = Path(room, "tiny.net")
            save_text(file, TINY)
            header = self.solve(file, "--workers", "1").split("\n", 1)[0]
        if header not in ("mcf-certificate 1", "mcf-certificate 2"):
            raise TextError(f"{self.path}: the certificate begins with {header!r}")
        return int(header[-1])


def _no_answer(words: Sequence[str], answer: Answer) -> TextError:
    """The error of a command that ended without an answer."""
    if answer.status < 0 or not answer.line:
        # (what a program wrote that was ended by a signal is a part of something)
        return TextError(f"mcf {words[0]}: {silent(answer.status)}").at(kind="program")
    why = explained(answer.line, [*words], limits_of(answer.program))
    return refused_at(TextError(f"mcf {words[0]}: {why}"), answer.line, files_of([*words]))


def refused_at(fault: _Fault, said: str, files: Mapping[str, str]) -> _Fault:
    """The error of a line by which the program refuses one of some files, or calls the certificate invalid, with what the line tells."""
    if refused := REFUSED.fullmatch(said):
        code = "work" if refused[5] else refused[4] or refused[2]
        return fault.at(files.get(refused[1]), int(refused[3]) if refused[3] else None, kind="refused", code=code)
    if invalid := INVALID.fullmatch(said):
        return fault.at(files.get("cert2" if said.startswith("invalid2") else "cert"), kind="invalid", code=invalid[1])
    if said == "read fault":
        return fault.at(next((file for file in files.values() if not os.access(file, os.R_OK)), None), kind="file")
    return fault.at(kind="memory" if said == "memory" else "program")


def find_program(path: str | None = None) -> Program:
    """The program: the path given, else that of the environment's MCF, else the one that was built; TextError where there is none.

    Nothing is built here: the starter `mcf` of the repository would first prove everything, which takes up to an hour.
    """
    found = path or os.environ.get("MCF") or built_program(ROOT)
    if not os.path.isfile(found):
        raise TextError(f"{found}: no such program; name it by --mcf, or by MCF in the environment").at(found, kind="program")
    return Program(os.path.abspath(found))


def find_wide_program(beside: Program) -> Program | None:
    """The program with wide limits: that of the environment's MCF_WIDE, else `mcf-wide` beside another program, else the one that was built
    in the repository; None where there is none, or MCF_WIDE is empty."""
    named = os.environ.get("MCF_WIDE")
    if named == "":
        return None
    if named and not os.path.isfile(named):
        raise TextError(f"{named}: no such program; MCF_WIDE names the program with wide limits").at(named, kind="program")
    built = ROOT / ".built" / WIDE_NAME
    places = [Path(named)] if named else [Path(beside.path).with_name(WIDE_NAME), *([built] if (ROOT / "crates").is_dir() else [])]
    found = next((place for place in places if place.is_file()), None)
    if found == built and is_old(built, ROOT / "crates"):
        raise TextError(f"{built} is older than its sources: ./mcf-wide in {ROOT} builds it anew; or name one by MCF_WIDE").at(kind="program")
    return Program(os.path.abspath(found)) if found else None


def wide_for(path: str, line: str, tell: bool = True) -> Program | None:
    """The program with wide limits, where the program at a path wrote that a text is beyond its own; None where the line says something
    else, or there is no other program. With `tell` that is told, once in a process, by the logger `mcf`."""
    if not BEYOND.fullmatch(line):
        return None
    wide = find_wide_program(Program(path))
    if wide is None or os.path.realpath(wide.path) == os.path.realpath(path):
        return None
    if tell:
        _tell_wide(wide.path)
    return wide


@lru_cache(maxsize=None)
def _tell_wide(path: str) -> None:
    """Tells that the program with wide limits is asked."""
    logging.getLogger("mcf").warning("a file is beyond the limits of mcf, so mcf-wide is asked: %s", path)


def built_program(root: Path) -> str:
    """The path of the program that was built in a repository, or lies in a release, or was installed with the package, or is on the path."""
    if not (root / "crates").is_dir():
        there = root / "program/mcf"
        found = str(there) if there.is_file() else installed_program(PACKAGES) or shutil.which("mcf")
        if found is None:
            why = "there is no program mcf here or on the path: name one by --mcf, or by MCF in the environment"
            raise TextError(why).at(kind="program")
        return found
    built = [file for file in (root / "crates/mcf/out/mcf", root / ".built/mcf") if file.is_file()]
    fresh = next((file for file in built if not is_old(file, root / "crates")), None)
    if fresh is None:
        why = "is older than its sources" if built else "was not built yet"
        raise TextError(f"the program in {root} {why}: {BUILD}").at(kind="program")
    return str(fresh)


def installed_program(packages: Path) -> str | None:
    """The program among the scripts that pip or Debian installs with the packages of a folder."""
    for scheme in sysconfig.get_scheme_names():
        places = sysconfig.get_paths(scheme)
        program = Path(places["scripts"], "mcf")
        if packages == Path(places["platlib"]).resolve() and program.is_file():
            return str(program)
    return None


def is_old(program: Path, crates: Path) -> bool:
    """Whether a source is newer than a program."""
    time = program.stat().st_mtime_ns
    sources = (file for kind in ("*.rt", "*.antt") for file in crates.rglob(kind) if "out" not in file.relative_to(crates).parts)
    return any(file.stat().st_mtime_ns > time for file in sources)


def silent(status: int) -> str:
    """What is said of an end without a line."""
    if status < 0:
        return f"ended by {children.signal_name(-status)}"
    return "it could not be started, or took no words that are not UTF-8: status 7" if status == 7 else f"status {status}"


def _word(file: str | Path) -> str:
    """A file's name as a word that is no option."""
    word = str(file)
    return f"./{word}" if word.startswith("-") and word != "-" else word
