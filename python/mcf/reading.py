"""Networks of files: of network files by the proved program, and of other formats by the converter."""

from __future__ import annotations

import io
import re
from dataclasses import replace
from typing import Any

from .commands import ask
from .convert.model import Notes, elsewhere
from .convert.model import Refused as NoNetwork
from .convert.numbers import UNITS
from .convert.work import Task, convert
from .errors import ReadFault, Refused, one_line, place_of
from .given import brief, number_of
from .limits import MAX_DECIMALS
from .linkmode import link_mode
from .network import read_network
from .networks import Network
from .running import in_memory
from .tokens import NATIVE

# options of `mcf.read`, and their names in the converter's task
_OPTIONS = {"capacity": "capacity", "capacity_default": "missing", "unit": "unit", "from_unit": "from_unit", "round": "decimals",
            "merge": "merge", "gravity": "gravity", "scale": "scale"}
_CHOICES = {"unit": (*UNITS, None), "from_unit": (*UNITS, None), "round": (*range(MAX_DECIMALS + 1), None), "merge": (True, False)}
_TOOL_WORD = re.compile(rf"--({'|'.join(name.replace('_', '-') for name in sorted(_OPTIONS, reverse=True))})\b( (?=[NX]\b))?")


def read_files(paths: list[str], options: dict[str, Any]) -> Network:
    """The network of files."""
    _require_options(options)
    data = _contents(paths[0])
    for path in paths[1:]:
        _require_readable(path)
    if len(paths) == 1 and not options and data.startswith(NATIVE):
        return _of_text(data, paths[0])
    data, notes, one_way = _converted(paths, options)
    network = _of_text(data, paths[0], converted=True)
    return replace(network, notes=notes, mode="directed" if one_way and network.mode == "undirected" else network.mode)


def _require_options(options: dict[str, Any]) -> None:
    """ValueError where there is no option of a name, or where a value is none of its own."""
    for name, value in options.items():
        if name not in _OPTIONS:
            raise ValueError(f"there is no option {name!r}; there are {', '.join(_OPTIONS)}")
        if name in _CHOICES and (value not in _CHOICES[name] or isinstance(value, bool) != (name == "merge")):
            raise ValueError(f"{name} is {' or '.join(map(str, _CHOICES[name]))}, and not {brief(value, repr)}")
        if name in ("capacity", "capacity_default") and not isinstance(value, (str, type(None))):
            raise ValueError(f"{name} is a str, and not {brief(value, repr)}")


def _require_readable(path: str) -> None:
    """ReadFault where a file cannot be opened."""
    try:
        with open(path, "rb"):
            pass
    except OSError as error:
        raise ReadFault(f"{path}: {error.strerror}") from None


def _contents(path: str) -> bytes:
    """The bytes of a file."""
    try:
        with open(path, "rb") as file:
            return file.read()
    except OSError as error:
        raise ReadFault(f"{path}: {error.strerror}") from None


def _of_text(data: bytes, path: str, converted: bool = False) -> Network:
    """The network of a network text, whose rows the proved program reads; what is refused is a line of that text."""
    try:
        rows = read_network(ask("print", {"net": data}).text)
    except Refused as refused:
        if converted:
            raise
        raise Refused(refused.kind, path, refused.line, refused.sentence, f"{path}: {refused.said}") from None
    return Network(rows, link_mode(path, data).mode, (), data)


def _by_options(sentence: str) -> str:
    """What the converter says, with the words of its command line as the options of `mcf.read`."""
    named = _TOOL_WORD.sub(lambda word: word[1].replace("-", "_") + ("=" if word[2] else ""), sentence)
    return elsewhere(named.replace(" (--from FORMAT says which it is)", ""))


def _converted(paths: list[str], options: dict[str, Any]) -> tuple[bytes, tuple[str, ...], bool]:
    """The network text of files of any format, what the converter says of it, and whether its links are one way."""
    said = io.StringIO()
    given = {name: value for name, value in options.items() if value is not None}
    asked = {_OPTIONS[name]: number_of(value, name) if name in ("gravity", "scale") else value for name, value in given.items()}
    with in_memory([b""]) as (number,):
        target = f"/proc/self/fd/{number}"
        try:
            made = convert(Task(paths, target, written="net", **asked), Notes(said))
        except NoNetwork as refused:
            sentence = one_line(str(refused))
            file, line = place_of(sentence, paths)
            raise Refused("convert", file or paths[0], line, _by_options(sentence), "") from None
        return _contents(target), tuple(said.getvalue().splitlines()), made.one_way
