"""Texts that are no files of their own, as standard input or one matrix of what batch wrote, each as a file for a while."""

from __future__ import annotations

import contextlib
import os
import tempfile
from collections.abc import Iterator
from pathlib import Path

from .errors import TextError
from .output import contents

STANDARD_INPUT = "standard input"


@contextlib.contextmanager
def as_files(*paths: str) -> Iterator[list[str]]:
    """The paths, with files of their own for `-`, which is standard input, and for names that are no UTF-8, which the program does not take;
    whatever is said of these files calls them by their names. TextError where two paths are `-`."""
    if paths.count("-") > 1:
        raise TextError(f"{STANDARD_INPUT} is one file alone")
    odd = [path for path in paths if path == "-" or not is_word(path)]
    with texts_as_files(*((STANDARD_INPUT if path == "-" else path, contents(path)) for path in odd)) as made:
        places = dict(zip(odd, made))
        yield [places.get(path, path) for path in paths]


def is_word(path: str) -> bool:
    """Whether a name is one that the program can be given as a word."""
    try:
        os.fsencode(path).decode("utf-8")
    except UnicodeDecodeError:
        return False
    return True


@contextlib.contextmanager
def texts_as_files(*texts: tuple[str, bytes]) -> Iterator[list[str]]:
    """Files of texts that are given with their names, in a folder for a while; whatever is said of the files calls them by these names."""
    with tempfile.TemporaryDirectory(prefix="mcf-input-") as room:
        names: dict[str, str] = {}
        for number, (name, text) in enumerate(texts):
            file = Path(room, f"text{number}")
            file.write_bytes(text)
            names[str(file)] = name
        try:
            yield [*names]
        except TextError as why:
            raise _renamed(why, names) from None


def _renamed(why: TextError, names: dict[str, str]) -> TextError:
    """The same trouble, with files called by their names."""
    text = str(why)
    for path, name in names.items():
        text = text.replace(path, name)
    return TextError(text).at(names.get(why.file or "", why.file), why.line, kind=why.kind, code=why.code)
