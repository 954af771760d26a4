"""Edits of links: a list with undo and redo, and its text as a script that `mcf whatif` reads."""

from __future__ import annotations

import re
from collections.abc import Mapping, Sequence
from dataclasses import dataclass, field, replace
from fractions import Fraction
from typing import Protocol

from ..errors import TextError
from ..given import decimal_word, name_of
from ..limits import MAX_SCRIPT_BYTES
from ..network import Network
from ..output import one_line

NAME_LENGTH = 200
_BLANKS = " \t\r"
_WORD = re.compile(f"[^{_BLANKS}]+")
_WORDS = {"set": 2, "add": 2, "sub": 2, "close": 1, "show": 0}


@dataclass(frozen=True)
class Edit:
    """A change of a link's capacity: what was done, and the capacity before and after it. `number` tells it from all others."""

    number: int
    link: int
    what: str
    before: Fraction
    after: Fraction
    name: str = ""


@dataclass
class History:
    """Edits that are done, and those that were undone and can be done again; a new edit drops the latter."""

    done: list[Edit] = field(default_factory=list)
    undone: list[Edit] = field(default_factory=list)
    _last: int = 0

    def add(self, link: int, what: str, before: Fraction, after: Fraction, name: str = "") -> Edit:
        """Does a new edit."""
        self._last += 1
        edit = Edit(self._last, link, what, before, after, name)
        self.done.append(edit)
        self.undone.clear()
        return edit

    def undo(self) -> None:
        """Takes the last edit back; TextError where there is none."""
        if not self.done:
            raise TextError("there is no edit to undo")
        self.undone.append(self.done.pop())

    def redo(self) -> None:
        """Does the edit again that was undone last; TextError where there is none."""
        if not self.undone:
            raise TextError("there is no edit to do again")
        self.done.append(self.undone.pop())

    def call(self, number: int, name: str) -> None:
        """Gives an edit a name; TextError where there is no such edit."""
        clean = one_line(" ".join(name.split()))
        for rows in (self.done, self.undone):
            for at, edit in enumerate(rows):
                if edit.number == number:
                    rows[at] = replace(edit, name=clean)
                    return
        raise TextError("there is no such edit any more")


def changed(edits: Sequence[Edit]) -> dict[int, Fraction]:
    """The capacities of the links that edits change."""
    return {edit.link: edit.after for edit in edits}


def same(edits: Sequence[Edit], others: Sequence[Edit]) -> bool:
    """Whether both are the same edits; names have no part in it."""
    return [edit.number for edit in edits] == [edit.number for edit in others]


def difference(network: Network, installed: Sequence[Fraction], old: Mapping[int, Fraction], new: Mapping[int, Fraction]) -> list[str]:
    """The commands that lead from some changed capacities to others, one for each link that differs."""
    rows = []
    for link in sorted({*old, *new}):
        before, after = (capacities.get(link, installed[link]) for capacities in (old, new))
        if before != after:
            rows.append(f"set {network.links[link].id} {decimal_word(after)}")
    return rows


def script(network: Network, edits: Sequence[Edit]) -> str:
    """The edits as a script with both bounds behind each; of more than a script may have, only the last one of each link."""
    text = "".join(f"{_command(network, edit)} show{f' # {_latin(edit.name)}' if edit.name else ''}\n" for edit in edits)
    if len(text) <= MAX_SCRIPT_BYTES:
        return text
    last = {edit.link: edit for edit in edits}
    return "".join(f"{_command(network, edit)}\n" for edit in last.values()) + "show\n"


def _command(network: Network, edit: Edit) -> str:
    """The command of an edit."""
    link = network.links[edit.link].id
    return f"close {link}" if edit.what == "close" else f"set {link} {decimal_word(edit.after)}"


def _latin(name: str) -> str:
    """A name as the core holds words, one character for each byte."""
    return name.encode("utf-8", "replace").decode("latin-1")


class Sizes(Protocol):
    """The capacities that the program takes for a network, each refused by a TextError where it does not."""

    @property
    def installed(self) -> tuple[Fraction, ...]:
        """Those of the file."""

    def capacity_of(self, word: str) -> Fraction:
        """That of a word."""

    def require_capacity(self, value: Fraction) -> None:
        """Refuses one that is too great."""


def read_script(text: str, network: Network, sizes: Sizes) -> History:
    """The edits of a script, named by the comments behind and before them. TextError, with the line, where the program would refuse it."""
    history, now = History(), {link.id: at for at, link in enumerate(network.links)}
    capacities = dict(enumerate(sizes.installed))
    words: list[str] = []
    comments: list[str] = []
    for number, line in enumerate(text.split("\n"), 1):
        front, _, comment = line.partition("#")
        count = len(history.done)
        words += _WORD.findall(front)
        while words and (command := _whole(words, number)):
            try:
                _apply(command, now, capacities, history, sizes)
            except TextError as why:
                raise TextError(f"line {number}: {why}") from None
        comments += [clean] if (clean := comment.strip(_BLANKS)) else []
        if len(history.done) > count:
            _name(history, comments)
    if words:
        raise TextError("the script ends inside a command")
    if history.done:
        _name(history, [history.done[-1].name.encode("utf-8").decode("latin-1"), *comments] if comments else [])
    return history


def _name(history: History, comments: list[str]) -> None:
    """Gives the last edit the name that comments spell, which are then used up: what a file has is not lost where it is written anew."""
    if comments:
        history.call(history.done[-1].number, "; ".join(filter(None, comments)).encode("latin-1").decode("utf-8", "replace"))
        comments.clear()


def _whole(words: list[str], line: int) -> list[str] | None:
    """The first command of words, which is taken from them; None where it is not whole yet."""
    if words[0] not in _WORDS:
        raise TextError(f"line {line}: {name_of(words[0])[:40]!r} is no command of a script: set, add, sub, close and show are")
    count = 1 + _WORDS[words[0]]
    if len(words) < count:
        return None
    command = words[:count]
    del words[:count]
    return command


def _apply(command: list[str], links: Mapping[str, int], capacities: dict[int, Fraction], history: History, sizes: Sizes) -> None:
    """Does a command of a script; TextError where the program would not."""
    what, *rest = command
    if what == "show":
        return
    if rest[0] not in links:
        raise TextError(f"the network has no link {name_of(rest[0])[:80]}")
    link = links[rest[0]]
    before = capacities[link]
    value = sizes.capacity_of(rest[1]) if len(rest) > 1 else Fraction(0)
    after = {"set": value, "add": before + value, "sub": before - value, "close": Fraction(0)}[what]
    if after < 0:
        raise TextError(f"sub of more than the capacity of {name_of(rest[0])[:80]}")
    sizes.require_capacity(after)
    capacities[link] = after
    history.add(link, "close" if after == 0 else "double" if after == 2 * before else "set", before, after)
