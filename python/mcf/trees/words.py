"""Words of a text as places in it: which bytes they have, which numbers they are, and which of some names."""

from __future__ import annotations

from dataclasses import dataclass
from fractions import Fraction

import numpy as np

from mcf.lp.arrays import Array
from mcf.numbers import fraction_of

_SOME = 1 << 16
_DIGITS = 18
_MILLION = 10**6


@dataclass(frozen=True)
class Words:
    """Words of a text: where each begins, and where it ends."""

    text: Array
    first: Array
    end: Array

    def __len__(self) -> int:
        """How many words there are."""
        return len(self.first)

    def word(self, at: int) -> bytes:
        """The bytes of a word."""
        return self.text[self.first[at]:self.end[at]].tobytes()

    def some(self, which: Array | slice) -> Words:
        """Some of the words."""
        return Words(self.text, self.first[which], self.end[which])

    def table(self, width: int) -> Array:
        """A row of bytes for each word, filled up by blanks, which no word has; longer words are cut."""
        at = self.first[:, None] + np.arange(width)
        return np.where(at < self.end[:, None], self.text[np.minimum(at, len(self.text) - 1)], np.uint8(32))

    def keys(self, width: int) -> Array:
        """The same as one value a word, which sorts as the words do."""
        return np.ascontiguousarray(self.table(width)).view(f"S{width}").ravel()


def numbers_of(words: Words, names: Words) -> Array:
    """The number of each word among names, -1 where it is none of them."""
    width = int((names.end - names.first).max(initial=1))
    known = names.keys(width)
    order = np.argsort(known, kind="stable")
    found = np.empty(len(words), np.int32)
    for at in range(0, len(words), _SOME):
        part = words.some(slice(at, at + _SOME))
        keys = part.keys(width)
        place = np.minimum(np.searchsorted(known[order], keys), len(known) - 1)
        right = (known[order][place] == keys) & (part.end - part.first <= width)
        found[at:at + _SOME] = np.where(right, order[place], -1)
    return found


def repeated(words: Words) -> bool:
    """Whether a word stands there twice."""
    width = int((words.end - words.first).max(initial=1))
    keys = np.concatenate([words.some(slice(at, at + _SOME)).keys(width) for at in range(0, len(words), _SOME)] or [np.zeros(0, "S1")])
    keys.sort()
    return bool((keys[1:] == keys[:-1]).any())


def millionths_of(words: Words) -> Array:
    """The value of each word in millionths; ValueError where one is no number, no whole number of millionths, or too great for 64 bits."""
    found = np.empty(len(words), np.uint64)
    for at in range(0, len(words), _SOME):
        found[at:at + _SOME] = _millionths(words.some(slice(at, at + _SOME)))
    return found


def _millionths(words: Words) -> Array:
    """The same of some words: plain decimals of few digits at once, and others one by one."""
    width = int(min((words.end - words.first).max(initial=1), _DIGITS + 1))
    table = words.table(width)
    length = np.minimum(words.end - words.first, width + 1)
    inside = np.arange(width) < length[:, None]
    digit, point = (table >= 48) & (table <= 57), table == 46
    points, digits = (point & inside).sum(1), (digit & inside).sum(1)
    where = np.where(points == 1, point.argmax(1), length)
    behind = np.where(points == 1, length - 1 - where, 0)
    plain = (length <= width) & (points <= 1) & (digits + points == length) & (digits >= 1)
    plain &= (behind <= 6) & (digits + 6 - behind <= _DIGITS)
    value = np.zeros(len(words), np.uint64)
    for column in range(width):
        is_digit = digit[:, column] & inside[:, column]
        value = np.where(is_digit, value * np.uint64(10) + (table[:, column] - np.uint8(48)), value)
    value *= np.uint64(10) ** np.maximum(6 - behind, 0).astype(np.uint64)
    for at in np.flatnonzero(~plain):
        value[at] = _whole(fraction_of(words.word(int(at)).decode("latin-1")))
    return value


def _whole(value: Fraction) -> int:
    """A number in millionths."""
    whole = value * _MILLION
    if whole.denominator != 1 or whole.numerator >= 1 << 64:
        raise ValueError("no whole number of millionths in 64 bits")
    return whole.numerator


def products(units: Words, values: Array) -> Array:
    """Routing unit times value of each demand in millionths; ValueError where one is no whole number of them, or too great."""
    found = values.copy()
    width = int((units.end - units.first).max(initial=1))
    keys = np.concatenate([units.some(slice(at, at + _SOME)).keys(width) for at in range(0, len(units), _SOME)] or [np.zeros(0, "S1")])
    for key in np.unique(keys):
        if key == b"1":
            continue
        unit, of = fraction_of(key.decode("latin-1").rstrip(" ")), keys == key
        found[of] = [_whole(unit * Fraction(int(value), _MILLION)) for value in values[of]]
    return found
