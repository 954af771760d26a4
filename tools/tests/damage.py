"""Damages certificates, always in the same way for the same seed: most of them in ways that leave the form whole."""

from __future__ import annotations

import random
from typing import Callable

Change = Callable[[random.Random, list[str]], None]


def damaged(text: str, seed: int) -> str:
    """The text with one damage, or two; it may still be valid."""
    draw = random.Random(seed)
    lines = text.split("\n")[:-1]
    for _ in range(draw.choice((1, 1, 1, 2))):
        draw.choice(CHANGES)(draw, lines)
    end = "" if draw.random() < 0.02 else "\n"
    return "\n".join(lines) + end


def _line(draw: random.Random, lines: list[str], *keywords: str) -> int:
    """The number of a line with one of the keywords, or of any line where there is none."""
    found = [i for i, line in enumerate(lines) if line.split(" ")[0] in keywords]
    return draw.choice(found or range(len(lines)))


def _numbers(words: list[str]) -> list[int]:
    """The places of whole numbers among words."""
    return [i for i, word in enumerate(words) if word.isdigit()]


def change_number(draw: random.Random, lines: list[str]) -> None:
    """Another number in place of one, in any line."""
    at = draw.randrange(len(lines))
    words = lines[at].split(" ")
    places = _numbers(words)
    if places:
        place = draw.choice(places)
        value = int(words[place])
        words[place] = str(max(0, draw.choice((value + 1, value - 1, 2 * value, value + draw.randrange(10**6), 0))))
    lines[at] = " ".join(words)


def change_spelling(draw: random.Random, lines: list[str]) -> None:
    """A zero in front, a sign, a great number, a letter, a space or an empty word."""
    at = draw.randrange(len(lines))
    words = lines[at].split(" ")
    place = draw.randrange(len(words))
    word = words[place]
    words[place] = draw.choice(("0" + word, "+" + word, word + "9" * 30, word + "x", " " + word, "", word[:-1], word + "\r", word.upper()))
    lines[at] = " ".join(words)


def change_line_order(draw: random.Random, lines: list[str]) -> None:
    """Two lines changed with each other."""
    one, other = draw.randrange(len(lines)), draw.randrange(len(lines))
    lines[one], lines[other] = lines[other], lines[one]


def drop_line(draw: random.Random, lines: list[str]) -> None:
    """A line left out."""
    del lines[_line(draw, lines, draw.choice(("path", "length", "potential", "end", "gap")))]


def repeat_line(draw: random.Random, lines: list[str]) -> None:
    """A line twice."""
    at = _line(draw, lines, "path", "length", "potential", "lower")
    lines.insert(at, lines[at])


def move_weight(draw: random.Random, lines: list[str]) -> None:
    """Weight from one path to another of the same demand, where there is one: sums stay, loads do not."""
    at = _line(draw, lines, "path")
    words = lines[at].split(" ")
    others = [i for i, line in enumerate(lines) if i != at and line.startswith(" ".join(words[:2])) or line.split(" ")[:2] == words[:2]]
    others = [i for i in others if i != at and lines[i].split(" ")[0] == "path"]
    if not others or len(words) < 3 or not words[2].isdigit():
        return
    other = draw.choice(others)
    there = lines[other].split(" ")
    part = draw.choice((1, int(words[2]), int(words[2]) // 2))
    words[2], there[2] = str(max(0, int(words[2]) - part)), str(int(there[2]) + part)
    lines[at], lines[other] = " ".join(words), " ".join(there)


def swap_cells(draw: random.Random, lines: list[str]) -> None:
    """Cells of a path in another order, one left out, or one from another path."""
    at, other = _line(draw, lines, "path"), _line(draw, lines, "path")
    words, there = lines[at].split(" "), lines[other].split(" ")
    how = draw.randrange(3)
    if how == 0:
        words[3:] = words[:2:-1]
    elif how == 1:
        del words[-1]
    else:
        words += there[3:]
    lines[at] = " ".join(words)


def change_name(draw: random.Random, lines: list[str]) -> None:
    """The name of another row of the same kind."""
    kind = draw.choice(("path", "length", "potential"))
    at, other = _line(draw, lines, kind), _line(draw, lines, kind)
    words, there = lines[at].split(" "), lines[other].split(" ")
    if len(words) > 1 and len(there) > 1:
        words[1] = there[1]
    lines[at] = " ".join(words)


def change_sign(draw: random.Random, lines: list[str]) -> None:
    """Another sign in front of a cell, none, or one more."""
    at = _line(draw, lines, "path", "length")
    words = lines[at].split(" ")
    places = [i for i, word in enumerate(words) if i and word[:1] in ("+", "-", "=")]
    if places:
        place = draw.choice(places)
        words[place] = draw.choice(("+", "-", "=", "", "++", "-=")) + words[place][1:]
    lines[at] = " ".join(words)


def change_length(draw: random.Random, lines: list[str]) -> None:
    """A greater, smaller or vanishing length."""
    _scale(draw, lines, "length")


def change_potential(draw: random.Random, lines: list[str]) -> None:
    """Greater, smaller or vanishing potentials in a row."""
    _scale(draw, lines, "potential")


def _scale(draw: random.Random, lines: list[str], keyword: str) -> None:
    """Numbers of a row multiplied, or one of them changed by one."""
    at = _line(draw, lines, keyword)
    words = lines[at].split(" ")
    places = [i for i in _numbers(words) if i > 1]
    if places and draw.random() < 0.5:
        place = draw.choice(places)
        words[place] = str(max(0, int(words[place]) + draw.choice((-1, 1, 1000))))
    else:
        factor = draw.choice((0, 1, 2, 3))
        for place in places:
            words[place] = str(int(words[place]) * factor // 2)
    lines[at] = " ".join(words)


def flip_head(draw: random.Random, lines: list[str]) -> None:
    """Another verdict, mode, choice of modules, form, gap, number of phases, scale or bound."""
    old, new = draw.choice((("verdict closed", "verdict open"), ("verdict open", "verdict closed"), ("links undirected", "links directed"),
                            ("links directed", "links undirected"), ("links undirected", "links bidirected"), ("links bidirected", "links directed"),
                            ("modules largest", "modules none"), ("modules none", "modules sum"), ("certificate 1", "certificate 2"),
                            ("certificate 2", "certificate 1"), ("mcf-certificate", "mcf-routing"), ("gap 0.0", "gap 0.1"),
                            ("gap 0", "gap 1001"), ("phases ", "phases 1"), ("skipped ", "skipped 1")))
    lines[:] = [line.replace(old, new) if i < 8 else line for i, line in enumerate(lines)]


def scale_all(draw: random.Random, lines: list[str]) -> None:
    """All lengths and potentials doubled: the bound is the same, its parts are not."""
    for at, line in enumerate(lines):
        words = line.split(" ")
        if words[0] in ("length", "potential"):
            words[2:] = [str(2 * int(word)) if word.isdigit() else word for word in words[2:]]
            lines[at] = " ".join(words)


def no_lengths(draw: random.Random, lines: list[str]) -> None:
    """Every potential 0: no bound at all."""
    for at, line in enumerate(lines):
        words = line.split(" ")
        if words[0] == "potential":
            lines[at] = " ".join(words[:2] + ["0"] * (len(words) - 2))


CHANGES: tuple[Change, ...] = (change_number, change_number, change_spelling, change_line_order, drop_line, repeat_line, move_weight,
                               move_weight, swap_cells, change_name, change_sign, change_length, change_potential, flip_head, flip_head, scale_all,
                               no_lengths)
