"""Names of other formats as words of network files."""

from __future__ import annotations

import re
from dataclasses import dataclass, field

from ..limits import MAX_WORD_BYTES
from .model import Notes

BLANKS = " \t\r\n"
UNFIT = re.compile(r"[ \t\r\n()#]+")
SHOWN = 60
# (room for a number behind the word)
MOST = MAX_WORD_BYTES - 8


def word_of(name: str) -> str:
    """The name without what no word may have: blanks, parentheses and # become _; and not too long."""
    return _cut(UNFIT.sub("_", name.strip(BLANKS)))


def _cut(word: str) -> str:
    """The longest front of whole characters that has few enough bytes."""
    data = word[:MOST].encode("utf-8", "surrogateescape")
    if len(data) <= MOST:
        return word[:MOST]
    # (a character has at most three bytes behind its first one)
    cut = next(at for at in range(MOST, MOST - 4, -1) if data[at] & 0xC0 != 0x80 or at == MOST - 3)
    return data[:cut].decode("utf-8", "surrogateescape")


def told(name: str) -> str:
    """A name in quotes for a line to read, not too long."""
    return repr(name) if len(name) <= SHOWN else f"{name[:SHOWN]!r}.."


@dataclass
class Words:
    """The words of one section: each of them once. Those that are made give way to those of the names that are given."""

    what: str
    notes: Notes
    keep: bool = False
    given: set[str] = field(default_factory=set)
    taken: set[str] = field(default_factory=set)
    counts: dict[str, int] = field(default_factory=dict)

    def word(self, name: str, spare: str = "") -> str:
        """A word for a name, which nobody else of the section has; spare is for a name of nothing."""
        own = name if self.keep else word_of(name)
        word = own if self.keep else self._free(own or word_of(spare) or self.what, set() if own else self.given)
        self.taken.add(word)
        if word != name and name:
            self.notes.say("renamed", f"{self.what} {told(name)} is {word}")
        return word

    def _free(self, first: str, others: set[str]) -> str:
        """The word, or the word with the least number behind it that is free, and none of the others."""
        word = first
        while word in self.taken or word in others:
            self.counts[first] = self.counts.get(first, 1) + 1
            word = f"{first}_{self.counts[first]}"
        return word
