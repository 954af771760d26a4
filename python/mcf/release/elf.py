"""What a program for Linux on x86-64 asks of the system, from its ELF file: libraries, and their versions of symbols."""

from __future__ import annotations

import re
import struct
from collections.abc import Iterator
from dataclasses import dataclass
from pathlib import Path

from mcf.errors import TextError

# libraries that a manylinux wheel may count on
EVERYWHERE = frozenset({"libc.so.6", "libm.so.6", "libgcc_s.so.1", "libpthread.so.0", "libdl.so.2", "librt.so.1", "ld-linux-x86-64.so.2"})
DYNAMIC, VERSION_NEEDS = 6, 0x6FFFFFFE
NEEDED = 1
_HEADER = struct.Struct("<16sHHIQQQIHHHHHH")
_SECTION = struct.Struct("<IIQQQQIIQQ")
_GLIBC = re.compile(r"GLIBC_(\d+)\.(\d+)(?:\.\d+)?")


@dataclass(frozen=True)
class Section:
    """A section: its kind, where its bytes are, and the number of the section that has its strings."""

    kind: int
    offset: int
    size: int
    strings: int


def is_program(program: Path) -> bool:
    """Whether a file is a program for Linux on x86-64: its ELF header says 64 bits, low byte first, machine 62."""
    with open(program, "rb") as file:
        front = file.read(20)
    return front[:6] == b"\x7fELF\x02\x01" and front[18:20] == b"\x3e\x00"


def libraries(data: bytes) -> list[str]:
    """The libraries that a program is linked with."""
    found = []
    for part, strings in _parts(data, DYNAMIC):
        entries = struct.iter_unpack("<qQ", part)
        found += [_text(strings, value) for tag, value in entries if tag == NEEDED]
    return found


def symbol_versions(data: bytes) -> list[str]:
    """The versions of symbols that a program wants of its libraries, as GLIBC_2.34."""
    return [name for part, strings in _parts(data, VERSION_NEEDS) for name in _version_names(part, strings)]


def glibc(program: Path) -> tuple[int, int]:
    """The least C library that has all symbols of a program, as (2, 34); TextError where that cannot be said."""
    data = program.read_bytes()
    try:
        linked, wanted = libraries(data), symbol_versions(data)
    except (struct.error, IndexError):
        raise TextError(f"{program}: the ELF file is damaged") from None
    others = sorted(set(linked) - EVERYWHERE)
    if others:
        raise TextError(f"{program}: is linked with {', '.join(others)}, which not every system has")
    versions = [(int(match[1]), int(match[2])) for match in map(_GLIBC.fullmatch, wanted) if match]
    if not versions:
        raise TextError(f"{program}: names no version of the C library")
    return max(versions)


def _parts(data: bytes, kind: int) -> Iterator[tuple[bytes, bytes]]:
    """The bytes of each section of a kind, and of its strings."""
    sections = _sections(data)
    for one in sections:
        if one.kind == kind:
            yield _bytes(data, one), _bytes(data, sections[one.strings])


def _sections(data: bytes) -> list[Section]:
    """The table of sections."""
    header = _HEADER.unpack_from(data)
    start, size, count = header[6], header[11], header[12]
    rows = [_SECTION.unpack_from(data, start + size * at) for at in range(count)]
    return [Section(row[1], row[4], row[5], row[6]) for row in rows]


def _bytes(data: bytes, section: Section) -> bytes:
    """The bytes of a section."""
    return data[section.offset : section.offset + section.size]


def _version_names(part: bytes, strings: bytes) -> Iterator[str]:
    """The names in a table of needed versions: a row for each library, and for each of its versions one behind it."""
    for at, count, first in _libraries_of(part):
        row = at + first
        for _ in range(count):
            _, _, _, name, step = struct.unpack_from("<IHHII", part, row)
            yield _text(strings, name)
            row += step


def _libraries_of(part: bytes) -> Iterator[tuple[int, int, int]]:
    """Where the row of each library is, how many versions it has, and how far behind it the first of them is."""
    at, step = 0, 1
    while step:
        _, count, _, first, step = struct.unpack_from("<HHIII", part, at)
        yield at, count, first
        at += step


def _text(strings: bytes, at: int) -> str:
    """A string of a table."""
    return strings[at : strings.index(b"\0", at)].decode("ascii", "replace")
