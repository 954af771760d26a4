"""How a network file means its links, where it says so: the one place for the tools that take `--links`.

A file says it in a comment behind its first line, as `# links = directed`, which `Network.save` writes, or else in its section META, as
`links = directed`, which `convert` writes. The program counts sections that it skips, and certificates have their number; comments are
not counted, so a certificate of a network is that of its file with the comment too.
"""

from __future__ import annotations

import re
from dataclasses import dataclass

from .convert import native
from .convert.model import Refused
from .errors import TextError
from .output import contents

_OF_ANSWER = re.compile(rb"^links (undirected|directed|bidirected)$", re.MULTILINE)
_COMMENT = re.compile(rb"^[ \t]*#[^\n]*", re.MULTILINE)
_USUAL = "undirected"


@dataclass(frozen=True)
class LinkMode:
    """How links are read, and the sentence that says so, where the file says, or mentions, another way than the usual one."""

    mode: str
    said: str | None = None


def link_mode(name: str, data: bytes) -> LinkMode:
    """How the links of a file are read where no option says it: as the file says, else undirected.

    A text that is no network file is left to whoever reads it whole.
    """
    try:
        said = native.links_of(name, data)
    except Refused:
        return LinkMode(_USUAL)
    if said is not None and said != _USUAL:
        return LinkMode(said, f"links are read as {said}, as {name} says")
    line, word = (0, _USUAL) if said else _mentioned(data)
    if word == _USUAL:
        return LinkMode(_USUAL)
    return LinkMode(_USUAL, f"links are read as {_USUAL}; a comment in line {line} of {name} says {word}: --links {word} reads them so")


def saying(data: bytes, mode: str) -> bytes:
    """The text of a network that says by itself how its links are read: as it is where it does, else with a comment behind its first line."""
    return data if link_mode("", data).mode == mode else native.saying(data, mode)


def otherwise(name: str, data: bytes, mode: str, by: str) -> str | None:
    """The sentence that a certificate or routing reads links otherwise than its network file says; none where the file does not say it."""
    try:
        said = native.links_of(name, data)
    except Refused:
        return None
    return None if said in (None, mode) else f"links are read as {mode}, as {by} says, and not as {said}, as {name} says"


def otherwise_of_files(net: str, net_path: str, answer: str, answer_path: str) -> str | None:
    """The same of files at paths under their names; what cannot be read, or is no certificate or routing, is left to the program."""
    try:
        found = _OF_ANSWER.search(contents(answer_path)[:4096])
        return otherwise(net, contents(net_path), found[1].decode(), answer) if found else None
    except TextError:
        return None


def link_mode_of_file(name: str, path: str) -> LinkMode:
    """The same of a file at a path; one that cannot be read is left to the program, which says why."""
    try:
        return link_mode(name, contents(path))
    except TextError:
        return LinkMode(_USUAL)


def _mentioned(data: bytes) -> tuple[int, str]:
    """The line of the first comment that has a word for how links are meant, and that word."""
    for comment in _COMMENT.finditer(data):
        found = native.MODE.search(comment[0])
        if found:
            return data.count(b"\n", 0, comment.start()) + 1, found[0].decode().lower()
    return 0, _USUAL
