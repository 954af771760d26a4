"""The demand matrices of a study: lists, SNDlib's dynamic files, tables, and folders and archives of them, in the order of their times."""

from __future__ import annotations

import bz2
import gzip
import lzma
import os
import re
import tarfile
import zipfile
import zlib
from collections import Counter
from collections.abc import Callable, Iterable, Iterator
from dataclasses import dataclass, field
from datetime import datetime
from io import BufferedIOBase, BytesIO, StringIO
from pathlib import Path, PurePath, PurePosixPath
from typing import IO

from ..convert import assemble, files, native
from ..convert.adjust import Changes, adjusted
from ..convert.model import Matrix as Read
from ..convert.model import Network as Written
from ..convert.model import Notes, Refused, Source, elsewhere
from ..convert.numbers import is_fine, plain
from ..convert.work import Task, in_one_unit, read_bytes
from ..errors import TextError
from ..given import name_of
from ..limits import MAX_DECIMALS
from ..network import Network
from ..report.shown import counted
from .scenarios import Matrix, demand_rows, digest_of

_STAMP = re.compile(r"(?<!\d)(\d{4})-?(\d{2})-?(\d{2})(?:[T_ -]?(\d{2})[:-]?(\d{2})(?:[:-]?(\d{2}))?)?(?!\d)")
_PART = re.compile(r"(\d+)")
_PACKED = (OSError, EOFError, zlib.error, lzma.LZMAError, tarfile.TarError, zipfile.BadZipFile, RuntimeError, NotImplementedError)


@dataclass(frozen=True)
class How:
    """How the numbers of files are read: the unit of those that say none, and to how many decimals amounts are rounded."""

    from_unit: str | None = None
    decimals: int | None = None


@dataclass
class Told:
    """What is said of all files together: a line for each sort of note, with how many there are and the first."""

    counts: Counter[str] = field(default_factory=Counter)
    first: dict[str, str] = field(default_factory=dict)

    def take(self, said: str) -> None:
        """Takes the lines of notes."""
        for line in said.splitlines():
            verb = line.partition(":")[0]
            self.counts[verb] += 1
            self.first.setdefault(verb, line)

    def lines(self) -> tuple[str, ...]:
        """The lines."""
        more = {verb: f" (and {count - 1:,} more)" if count > 1 else "" for verb, count in self.counts.items()}
        return tuple(line + more[verb] for verb, line in self.first.items())


    def take_limits(self, matrix: Matrix, rows: str) -> None:
        """Takes that demands have a longest path, if some have."""
        count = rows.count("\n") - rows.count(" UNLIMITED\n")
        of = f"matrix {name_of(matrix.name)}: " if matrix.name else ""
        have = counted(count, "demand has a longest path", "demands have a longest path")
        self.take(f"longest: {of}{have}, which no routing of a study keeps to\n" if count else "")


def own(network: Network) -> tuple[Matrix, str]:
    """The network's own demands as a matrix, and its rows."""
    rows = demand_rows(network.demands)
    return Matrix("", digest_of(rows)), rows


def read_matrices(paths: Iterable[str], net: bytes, how: How, keep: Callable[[str, str], None], told: Told) -> list[Matrix]:
    """The matrices of files, folders and archives in the order of their times, or as they stand where some has none.

    `keep` takes the hash and the rows of each, so that not all of them are in memory. TextError for a name that stands twice.
    """
    base = native.read_network("the network", net, Notes(quiet=True))
    found: list[Matrix] = []
    origin: dict[str, str] = {}
    for path, data, many in _all_files(paths):
        for matrix, rows in _of_file(path, data, many, base, how, told):
            if matrix.name in origin:
                raise TextError(f"matrix {matrix.name} stands in {origin[matrix.name]} and in {path}")
            origin[matrix.name] = path
            keep(matrix.digest, rows)
            found.append(matrix)
    if not found:
        raise TextError("there is no demand matrix in what --matrices names")
    return sorted(found, key=lambda matrix: matrix.time) if all(matrix.time for matrix in found) else found


def _all_files(paths: Iterable[str]) -> Iterator[tuple[str, bytes, bool]]:
    """The files of paths with their bytes, and whether they are among others in a folder or an archive."""
    for path in paths:
        if os.path.isdir(path):
            some = (file for file in Path(path).rglob("*") if file.is_file() and not _is_hidden(file.relative_to(path)))
            for file in sorted(some, key=lambda file: in_numbers(str(file))):
                yield from _members(str(file), True)
        else:
            yield from _members(path, False)


def _is_hidden(file: PurePath) -> bool:
    """Whether a file, or a folder that it lies in, is hidden, as copies that notebooks make are."""
    return any(part.startswith(".") and part != ".." for part in file.parts)


def _members(path: str, many: bool) -> Iterator[tuple[str, bytes, bool]]:
    """The members of an archive, or a file itself."""
    try:
        if path != "-" and os.path.isfile(path) and zipfile.is_zipfile(path):
            yield from _of_zip(path)
        elif path != "-" and os.path.isfile(path) and tarfile.is_tarfile(path):
            yield from _of_tar(path)
        else:
            yield path, files.contents(path), many
    except _PACKED as fault:
        raise TextError(f"{path}: {fault}") from None


def _of_zip(path: str) -> Iterator[tuple[str, bytes, bool]]:
    """The files of a zip."""
    with zipfile.ZipFile(path) as packed:
        for info in sorted(packed.infolist(), key=lambda info: in_numbers(info.filename)):
            if not info.is_dir() and not _is_hidden(PurePosixPath(info.filename)):
                with packed.open(info) as member:
                    yield f"{path}/{info.filename}", _unpacked(f"{path}/{info.filename}", member.read(files.MAX_BYTES + 1)), True


def _of_tar(path: str) -> Iterator[tuple[str, bytes, bool]]:
    """The files of a tar, packed or not, in the order in which they stand there."""
    with tarfile.open(path) as packed:
        for info in packed:
            member = None if _is_hidden(PurePosixPath(info.name)) else _opened(packed, info)
            if member is not None:
                yield f"{path}/{info.name}", _unpacked(f"{path}/{info.name}", member.read(files.MAX_BYTES + 1)), True
        _require_end(packed)


def _opened(packed: tarfile.TarFile, info: tarfile.TarInfo) -> IO[bytes] | None:
    """The file of a member, also where that is another name of one; None where it is no file. ReadError where what it names is not there."""
    if not (info.isfile() or info.islnk() or info.issym()):
        return None
    try:
        return packed.extractfile(info)
    except KeyError:
        raise tarfile.ReadError(f"{info.name} is a link to what is not in the archive") from None


def _require_end(packed: tarfile.TarFile) -> None:
    """ReadError where the archive has no mark of its end: Python takes any other front of a member, and none, for the end too."""
    assert packed.fileobj is not None
    packed.fileobj.seek(packed.offset)
    if packed.fileobj.read(tarfile.BLOCKSIZE) != bytes(tarfile.BLOCKSIZE):
        raise tarfile.ReadError("is cut short, or damaged: its members are not followed by the mark of its end")


def _unpacked(path: str, data: bytes) -> bytes:
    """The bytes of a member, those within where it is packed once more."""
    opened: BufferedIOBase | None = None
    if data.startswith(b"\x1f\x8b"):
        opened = gzip.GzipFile(fileobj=BytesIO(data))
    elif data.startswith(b"BZh"):
        opened = bz2.BZ2File(BytesIO(data))
    elif data.startswith(b"\xfd7zXZ"):
        opened = lzma.LZMAFile(BytesIO(data))
    data = opened.read(files.MAX_BYTES + 1) if opened else data
    if len(data) > files.MAX_BYTES:
        raise TextError(f"{path}: more than {files.MAX_BYTES >> 20} MiB")
    return data


def in_numbers(name: str) -> list[tuple[int, str]]:
    """A name's parts, so that numbers in names are in the order of their values."""
    return [(int(part), "") if part.isdigit() and part.isascii() else (-1, part) for part in _PART.split(name)]


def _of_file(path: str, data: bytes, many: bool, base: Source, how: How, told: Told) -> Iterator[tuple[Matrix, str]]:
    """The matrices of a file with their rows; options of the converter in a refusal are called so, since a study has them not."""
    try:
        yield from _read(path, data, many, base, how, told)
    except Refused as why:
        raise TextError(elsewhere(str(why))).at(why.file, why.line, kind=why.kind, code=why.code) from None


def _read(path: str, data: bytes, many: bool, base: Source, how: How, told: Told) -> Iterator[tuple[Matrix, str]]:
    """The matrices of a file with their rows; what is no matrix at all is left out where it is among others, which is said."""
    said = StringIO()
    notes = Notes(said)
    task = Task([path], "-", from_unit=how.from_unit)
    try:
        files.kind_of(path, files.without_mark(path, data, Notes(quiet=True)))
    except Refused as why:
        if not many:
            raise
        told.take(f"left out: {why}")
        return
    source = read_bytes(path, data, task, notes)
    time = source.meta.get("time", "")
    if not source.matrices:
        raise TextError(f"{path}: has no demands")
    base, source = in_one_unit([base, source], task, notes)
    network = assemble.together([source], [base], notes, True)
    network = adjusted(network, Changes(decimals=how.decimals), notes) if how.decimals is not None else network
    for matrix in network.matrices:
        rows = _rows(path, matrix)
        made = Matrix(_letters(matrix.name), digest_of(rows), _stamp(time) or _stamp(matrix.name))
        told.take_limits(made, rows)
        yield made, rows
    told.take("".join(f"{line}\n" for line in said.getvalue().splitlines() if not line.startswith(("dropped: " + path + ": META", "note: "))))


def _rows(path: str, matrix: Read) -> str:
    """The rows of a matrix; TextError where an amount has more decimals than networks have."""
    coarse = next((row for row in matrix.demands if not is_fine(row.value) or not is_fine(row.unit)), None)
    if coarse is not None:
        amount = plain(coarse.amount)
        raise TextError(f"{path}: demand {coarse.name} of {amount} has more than {MAX_DECIMALS} decimals (--round N rounds all amounts)")
    text = native.list_text(Written([], [], [matrix]))
    return _letters(text[text.index("(\n") + 2:].removesuffix(")\n"))


def _letters(text: str) -> str:
    """A text in the letters of network texts, one character for each byte."""
    return text.encode("utf-8", "surrogateescape").decode("latin-1")


def _stamp(name: str) -> str:
    """The time that stands in a name, in digits; nothing where none does."""
    for match in _STAMP.finditer(name):
        year, month, day, hour, minute, second = (int(part or 0) for part in match.groups())
        try:
            return datetime(year, month, day, hour, minute, second).strftime("%Y%m%d%H%M%S")
        except ValueError:
            continue
    return ""
