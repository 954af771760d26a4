"""Files to texts and back: gzip, byte order marks, encodings, and which format a text has."""

from __future__ import annotations

import codecs
import gzip
import io
import re
import zlib
from pathlib import Path

from .. import output
from ..tokens import NATIVE
from .model import Notes, Refused, Spot, refused

MAX_BYTES = 1 << 28
MARKS = (
    (codecs.BOM_UTF8, "utf-8", "UTF-8"),
    (codecs.BOM_UTF32_LE, "utf-32-le", "UTF-32"),
    (codecs.BOM_UTF32_BE, "utf-32-be", "UTF-32"),
    (codecs.BOM_UTF16_LE, "utf-16-le", "UTF-16"),
    (codecs.BOM_UTF16_BE, "utf-16-be", "UTF-16"),
)
ROOT = re.compile(rb"<(?:[\w.-]+:)?([A-Za-z]\w*)[\s>/]")


def contents(path: str) -> bytes:
    """The bytes of a file, those within where it is a gzip; `-` is standard input."""
    try:
        with open(0 if path == "-" else path, "rb", closefd=path != "-") as file:
            data = file.read(MAX_BYTES + 1)
        if data.startswith(b"\x1f\x8b"):
            with gzip.open(io.BytesIO(data)) as packed:
                data = packed.read(MAX_BYTES + 1)
    except (OSError, EOFError, zlib.error) as fault:
        raise Refused(f"{label(path)}: {getattr(fault, 'strerror', None) or fault}").at(label(path)) from None
    if len(data) > MAX_BYTES:
        raise Refused(f"{label(path)}: more than {MAX_BYTES >> 20} MiB").at(label(path))
    return data


def label(path: str) -> str:
    """A file as it is told of."""
    return "standard input" if path == "-" else path


def without_mark(path: str, data: bytes, notes: Notes) -> bytes:
    """The bytes in UTF-8 where a byte order mark tells another encoding, and without the mark."""
    for mark, encoding, title in MARKS:
        if data.startswith(mark):
            notes.say("dropped", f"{path}: the byte order mark of {title}")
            try:
                return data[len(mark) :].decode(encoding).encode("utf-8")
            except UnicodeDecodeError:
                raise Refused(f"{path}: has the mark of {title}, and is none").at(path) from None
    return data


# a group of words alone in the first line, as in the head `capacity (Gbit/s),source,target`; those of lists have groups, or nothing
_FLAT = re.compile(rb"[^()#]*\(\s*[^()#\s][^()#]*\)")


def text_of(path: str, data: bytes, notes: Notes) -> str:
    """The text of bytes in UTF-8, or else in Windows-1252, which is said."""
    try:
        return data.decode("utf-8")
    except UnicodeDecodeError:
        notes.say("read", f"{path}: no UTF-8, so as Windows-1252")
    try:
        return data.decode("cp1252")
    except UnicodeDecodeError as fault:
        line = data.count(b"\n", 0, fault.start) + 1
        raise refused(Spot(path, line), "a byte that is neither UTF-8 nor Windows-1252") from None


def kind_of(path: str, data: bytes) -> str:
    """The format of a file's bytes: native, xml, graphml, graph, demands, list or csv."""
    if data.startswith(NATIVE):
        return "native"
    front = data.lstrip()
    if front.startswith(b"<"):
        return _kind_of_xml(path, data)
    if re.match(rb"NODES\s+\d+\s", front):
        return "graph"
    if re.match(rb"DEMANDS\s+\d+\s", front):
        return "demands"
    names = Path(path.removesuffix(".gz")).suffix.lower()
    if names in (".csv", ".tsv", ".tab"):
        return "csv"
    # (what follows comments tells a list, whose groups have groups or nothing, from a table, whose first row is refused where it is one)
    body = re.sub(rb"\A(#[^\n]*(\n\s*|\Z))*", b"", front) if front.startswith(b"#") else front
    first = body.split(b"\n", 1)[0]
    if names == ".list" or (front and not body) or (re.match(rb"[^\s()#,;]+\s*\(", body) and not _FLAT.match(first)):
        return "list"
    if any(mark in first for mark in (b",", b";", b"\t")):
        return "csv"
    raise Refused(f"{path}: no format that is known here (--from FORMAT says which it is)").at(path)


def _kind_of_xml(path: str, data: bytes) -> str:
    """The format of an XML text, by its root."""
    bare = re.sub(rb"<!--.*?-->|<\?.*?\?>|<![^>\[]*(\[.*?\])?\s*>", b"", data[:100_000], flags=re.DOTALL)
    root = ROOT.search(bare)
    kinds = {b"network": "xml", b"graphml": "graphml"}
    if not root or root.group(1) not in kinds:
        raise Refused(f"{path}: XML, but neither of SNDlib's <network> nor <graphml>").at(path)
    return kinds[root.group(1)]


def stem(path: str) -> str:
    """The name of a file without its folder and its last ending."""
    return Path(path.removesuffix(".gz")).stem


def write(path: str, text: str) -> None:
    """Writes a text, packed where the name ends with .gz; `-` is standard output."""
    data = text.encode("utf-8", "surrogateescape")
    output.write(path, gzip.compress(data, mtime=0) if path.endswith(".gz") else data)
