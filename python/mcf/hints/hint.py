"""The hint for a run of the program that ended with a status from 1 to 7, but for want of memory."""

from __future__ import annotations

import os

from ..limits import NARROW, WIDE, Limits, limits_of
from .netfile import front_of, kind_of
from .table import Row, table
from .told import line_of
from .words import Misfit, Request, read, shown

UNKNOWN = "docs/judge/formats.md tells what is refused so, under this kind"
USAGE = "the words are not in the grammar: compare them with ./mcf help COMMAND"
UNWRITTEN = ("standard output took no more, mostly since the disk is full or a reader went away: what was written is cut off, "
             "and no answer")
# the part of the guide on what is wrong
WRONG = 10
_KINDS = ((b"mcf-routing ", "routing"), (b"mcf-hops ", "limited"), (b"mcf-throughput ", "total"))


def hint(status: int, program: str, words: list[str], output: int) -> str | None:
    """One line: what the program said, a sentence on it, and the part of the guide; None where there is nothing to say."""
    if status == 5:
        return _told("write fault", UNWRITTEN, WRONG)
    if status == 7:
        odd = next((word for word in words if not _is_text(word)), None)
        return None if odd is None else _told("no words", f"{shown(odd)} is not UTF-8, as each word has to be: rename the file", WRONG)
    try:
        request = read(words, limits_of(program))
    except Misfit as misfit:
        return _told("usage", str(misfit), misfit.part or WRONG) if status == 2 else None
    if status == 2:
        return _told("usage", USAGE, WRONG)
    if status == 4:
        return _told("read fault", _unreadable(request), WRONG)
    line = line_of(status, program, words, request, output)
    return _of_line(line, program, request)


def _told(line: str, sentence: str, part: int) -> str:
    """The hint's one line."""
    return f"hint: {line}: {sentence} (docs/planner/guide.md, part {part})"


def explained(line: str, words: list[str], limits: Limits = NARROW) -> str:
    """A line that the program with these limits wrote for words, with the sentence on it; files that are there are not named, since they
    may be temporary."""
    try:
        request = read(words, limits)
    except Misfit:
        return line
    if line == "refused net N1 line 1":
        return f"{line}: it {kind_of(front_of(request.words['NET']))}"
    if line == "read fault":
        return f"{line}: {_unreadable(request)}"
    row = _row_of(line, request, limits)
    return f"{line}: {row.sentence}" if row else line


def files_of(words: list[str]) -> dict[str, str]:
    """The files of a command's words, by the names that the program's lines have for them; none where the words are not in the grammar."""
    try:
        return {name.lower(): file for name, file in read(words, WIDE).words.items()}
    except Misfit:
        return {}


def _is_text(word: str) -> bool:
    """Whether a word is UTF-8, as it was given."""
    return not any("\udc80" <= letter <= "\udcff" for letter in word)


def _row_of(line: str, request: Request, limits: Limits) -> Row | None:
    """The row of the table for a line."""
    return _row(line, _kind_of_certificate(line, request), request.command, limits)


def _kind_of_certificate(line: str, request: Request) -> str:
    """What the second file is, or the third where the line is on that."""
    return _kind(front_of(request.words.get("CERT2" if line.startswith("refused cert2 ") else "CERT", ""), 16))


def _of_line(line: str, program: str, request: Request) -> str:
    """The hint for a line of a request that is in the grammar."""
    if line == "refused net N1 line 1":
        return _told(line, f"{shown(request.words['NET'])} {kind_of(front_of(request.words['NET']))}", 1)
    row = _row_of(line, request, limits_of(program))
    if row is None:
        return _told(line, UNKNOWN, WRONG)
    is_overfull = line == "invalid C3" and _kind_of_certificate(line, request) == "routing"
    found = _fullest(program, request) if is_overfull else None
    return _told(line, found or row.sentence, row.part)


def sentence_of(line: str, command: str, certificate: bytes, network: bytes, limits: Limits = NARROW) -> str:
    """The sentence on a line of a command of the program with these limits, for texts that begin with these bytes."""
    if line == "refused net N1 line 1":
        return f"the network {kind_of(network)}"
    row = _row(line, _kind(certificate), command, limits)
    return UNKNOWN if row is None else row.sentence


def _row(line: str, kind: str, command: str, limits: Limits) -> Row | None:
    """The row of the table for a line, of a command and with a second file of a kind."""
    return next((row for row in table(limits) if row.line.fullmatch(line) and row.of in ("", kind, command)), None)


def _kind(front: bytes) -> str:
    """What a second file is by its first word: a routing, a certificate with hop limits or of a total, or else a certificate."""
    return next((kind for word, kind in _KINDS if front.startswith(word)), "certificate")


def _fullest(program: str, request: Request) -> str | None:
    """The fullest link of a routing and the scale that fits, if both files can be read."""
    # (no other hint has to wait for the package)
    from mcf import TextError

    from .fullest import fullest
    try:
        return fullest(program, request.words["NET"], request.words["CERT"])
    except TextError:
        return None


def _unreadable(request: Request) -> str:
    """Which file cannot be read, and why as far as one sees."""
    for word in request.files:
        if not os.path.exists(word):
            standard = "; for standard input, write /dev/stdin" if word == "-" else ""
            return f"{shown(word)} does not exist{standard}"
        if os.path.isdir(word):
            return f"{shown(word)} is a folder"
        if not os.access(word, os.R_OK):
            return f"{shown(word)} may not be read by this user"
    return "a file could not be read to its end"
