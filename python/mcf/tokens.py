"""The tokens of SNDlib's native format, of which network files and lists of matrices are made, and the front of a network file.

The standard library alone.
"""

from __future__ import annotations

import re
from collections.abc import Iterator

NATIVE = b"?SNDlib native format; type: network;"
_TOKEN = re.compile(rb"#[^\n]*|[()]|[^ \t\r\n()#]+|\n")


def tokens(data: bytes, line: int = 1, start: int = 0) -> Iterator[tuple[bytes, int, int]]:
    """Each word, parenthesis and comment of a text from a place on, with its line, where that place is in this one, and its own place."""
    for match in _TOKEN.finditer(data, start):
        token = match[0]
        if token == b"\n":
            line += 1
        else:
            yield token, line, match.start()
