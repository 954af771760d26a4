"""What a file is that is no network text: told from its first bytes."""

from __future__ import annotations

import os

from ..tokens import NATIVE

MARK = b"\xef\xbb\xbf"
_CONVERT = "which tools/convert FROM TO makes a network file of"


def front_of(path: str, size: int = 4096) -> bytes:
    """The first bytes of a file; none where it is no plain file or cannot be read."""
    if not os.path.isfile(path):
        return b""
    try:
        with open(path, "rb") as file:
            return file.read(size)
    except OSError:
        return b""


def kind_of(front: bytes) -> str:
    """What a file with this front is, as part of a sentence; it does not begin with the header."""
    text = front.removeprefix(MARK).lstrip()
    if not front:
        return "is empty or no plain file"
    if front.startswith(b"\x1f\x8b"):
        return f"is gzip, {_CONVERT}"
    if front.startswith(b"PK\x03\x04"):
        return "is a zip archive: take the network out of it"
    if front.startswith((b"\xff\xfe", b"\xfe\xff")):
        return f"begins with a byte order mark of UTF-16, {_CONVERT}"
    if text.startswith(b"<"):
        return _markup(text)
    if front.startswith(MARK):
        return f"begins with a byte order mark, {_CONVERT}"
    if text.startswith((b"mcf-certificate", b"mcf-routing", b"mcf-hops", b"mcf-throughput")):
        return "is a certificate or routing, and the network's file stands first"
    if text.startswith(NATIVE):
        return "has a blank or an empty line before its header"
    if text.startswith(b"?SNDlib"):
        return "is of SNDlib, and no network in the native format, as its first line says"
    return f"does not begin with {NATIVE.decode()}"


def _markup(text: bytes) -> str:
    """What a file is that begins with a tag."""
    low = text.lower()
    if b"<graphml" in low:
        return f"is GraphML, {_CONVERT}"
    if low.startswith((b"<!doctype html", b"<html")):
        return "is a web page: save the file that it links to"
    return f"is XML, {_CONVERT}"
