"""What a tool says: sentences for people or, with --json, one JSON object for programs on standard output.

A tool says its sentences by `say`, what is told on standard error by `note`, and the values that both are made of by `put`. `output`
begins and ends the object, so each end of each tool has one. docs/study/json.md explains its properties, and `schema` has their grammar.

A fraction is an object of its exact string and of the nearest float; a `Range` one of `lower` and `upper`.
"""

from __future__ import annotations

import json
import re
import sys
from collections.abc import Callable, Mapping, Sequence
from dataclasses import dataclass, field
from enum import Enum
from fractions import Fraction
from pathlib import Path
from typing import Any

from . import version
from .errors import Invalid, Refused, TextError, kind_of, place_of
from .ranges import Range

OPTION = "--json"
SCHEMAS = Path(__file__).resolve().parent / "schemas"
_SHARED = ("common", "tables")
_OTHER_FILE = re.compile(r'"\w+\.json#/')


@dataclass
class Object:
    """What a run of a tool has said so far; `words` are those that it was called with."""

    tool: str
    words: tuple[str, ...]
    sentences: list[str] = field(default_factory=list)
    notes: list[str] = field(default_factory=list)
    values: dict[str, object] = field(default_factory=dict)


_begun: Object | None = None


def asked() -> bool:
    """Whether this run is to end with a JSON object, so standard output can have nothing else."""
    return _begun is not None


def say(sentence: str) -> None:
    """A sentence: a line on standard output, or one of the object's `sentences`."""
    if _begun is None:
        print(sentence, flush=True)
    else:
        _begun.sentences.append(sentence)


def note(line: str, tool: str = "") -> None:
    """What is told beside the answer: a line on standard error, behind the tool's name if it is given; or one of the object's `notes`."""
    if _begun is None:
        print(f"{tool}: {line}" if tool else line, file=sys.stderr)
    else:
        _begun.notes.append(line)


def put(**values: object | Callable[[], object]) -> None:
    """Properties of the object: whatever `plain` takes, or functions that make it, which are called only where the object is asked for."""
    if _begun is not None:
        _begun.values |= {name: value() if callable(value) else value for name, value in values.items()}


def plain(value: Any) -> Any:
    """A value as JSON has it: a fraction as its exact string and as a float, a range as its ends, names of files as strings."""
    if isinstance(value, Fraction):
        return {"exact": str(value), "float": float(value)}
    if isinstance(value, Range):
        return {"lower": plain(value.lower), "upper": plain(value.upper)}
    if isinstance(value, Mapping):
        return {str(name): plain(one) for name, one in value.items()}
    if isinstance(value, Enum):
        return plain(value.value)
    if isinstance(value, Path):
        return str(value)
    return [plain(one) for one in value] if isinstance(value, Sequence) and not isinstance(value, str) else value


def begin(tool: str, words: Sequence[str]) -> None:
    """Begins the object of a run, if the words ask for one."""
    global _begun
    options = words[: words.index("--")] if "--" in words else words
    _begun = Object(tool.rpartition("/")[2], tuple(words)) if OPTION in options else None


def drop() -> None:
    """Ends a run without its object, as one that was asked for help alone."""
    global _begun
    _begun = None


def end(status: int) -> None:
    """Writes the object of a run that ended with a status."""
    if _begun is not None:
        _write(_begun, status, _begun.values)


def fail(fault: BaseException, status: int, sentence: str) -> None:
    """Writes the object of a run that ended by a fault, which one sentence tells."""
    if _begun is not None:
        _write(_begun, status, {"error": error_of(fault, sentence, _begun.words)})


def _write(said: Object, status: int, values: Mapping[str, object]) -> None:
    """The object on standard output, as one line."""
    drop()
    whole: dict[str, object] = {"tool": said.tool, "version": version.version(), "commit": version.commit(), "status": status,
                                "sentences": said.sentences, "notes": said.notes}
    print(text_of({**whole, **values}), flush=True)


def text_of(value: object, indent: int | None = None) -> str:
    """The JSON text of whatever `plain` takes."""
    return json.dumps(plain(value), indent=indent, allow_nan=False)


def error_of(fault: BaseException, sentence: str, words: Sequence[str]) -> dict[str, object]:
    """What is known of a fault: its kind, the sentence, the code of a refusal, and the file and the line where it lies."""
    code, file, line = None, None, None
    if isinstance(fault, TextError):
        code, (file, line) = fault.code, (fault.file, fault.line) if fault.file else place_of(sentence, [*words, "standard input"])
    elif isinstance(fault, Refused):
        code, file, line = fault.kind, fault.file, fault.line
    elif isinstance(fault, Invalid):
        code = fault.condition
    elif isinstance(fault, OSError):
        file = fault.filename if isinstance(fault.filename, str) else None
    return {"kind": kind_of(fault), "code": code, "file": file, "line": line, "sentence": sentence}


def schema(name: str) -> dict[str, Any]:
    """The JSON schema of the object that a tool writes, by the tool's name, with all that it refers to."""
    made, *others = (json.loads(_OTHER_FILE.sub('"#/', (SCHEMAS / f"{one}.json").read_text("utf-8"))) for one in (name, *_SHARED))
    return {**made, "$defs": {word: defined for other in (*others, made) for word, defined in other.get("$defs", {}).items()}}
