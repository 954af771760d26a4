"""The words of the command line, as docs/judge/formats.md has them, and the first one that does not fit."""

from __future__ import annotations

import difflib
import re
from collections.abc import Callable, Iterator
from dataclasses import dataclass
from fractions import Fraction

from mcf.limits import MAX_DECIMALS, MAX_GAP, MAX_LINKS, MAX_PHASES, MAX_STEP, MAX_WORKERS, NARROW, Limits

MODES = {"--links": ("directed", "undirected", "bidirected"), "--modules": ("none", "largest", "sum")}
RANGES = {"--phases": (1, MAX_PHASES), "--workers": (1, MAX_WORKERS), "--step": (1, MAX_STEP)}
OPTIONS = ("--links", "--modules", "--gap", "--phases", "--workers", "--step")
ONE_WORKER_OPTIONS = tuple(option for option in OPTIONS if option != "--workers")
FILES = ("NET", "CERT", "SCRIPT")
READ_ORDER = ("NET", "CERT", "CERT2", "LIST", "SCRIPT")
HOP_OPTIONS = ("--hops", "--hop", "--hop-limit", "--max-hops", "--limit")
DRAWN = ("SEED", "NODES", "LINKS", "DEMANDS")
HELP_WORDS = ("--help", "-h", "--version", "help")
MOST_GAP = MAX_GAP // 10**MAX_DECIMALS

_NUMBER = re.compile(r"(?:[0-9]+\.?[0-9]*|\.[0-9]+)(?:[Ee][+-]?[0-9]{1,2})?")
_DIGITS = re.compile(r"[0-9]{1,20}")


@dataclass(frozen=True)
class Command:
    """What stands behind a command's word: names of positional words, options, and positional words that may be left out."""

    words: tuple[str, ...]
    options: tuple[str, ...] = ()
    spare: tuple[str, ...] = ()

    @property
    def places(self) -> tuple[str, ...]:
        """The names of all positional words that there may be."""
        return self.words + self.spare

    @property
    def taken(self) -> str:
        """The positional words, those that may be left out in brackets."""
        return " ".join([*self.words, *(f"[{name}]" for name in self.spare)])


COMMANDS = {
    "solve": Command(FILES[:1], OPTIONS),
    "check": Command(FILES[:2]),
    "whatif": Command(FILES),
    "upgrade": Command(FILES[:2]),
    "tighten": Command(FILES[:2], spare=("CERT2",)),
    "batch": Command(("NET", "LIST"), ONE_WORKER_OPTIONS),
    "sweep": Command(FILES[:2]),
    "sweepsolve": Command(FILES[:1], ONE_WORKER_OPTIONS),
    "hops": Command(FILES[:1], ONE_WORKER_OPTIONS),
    "checkhops": Command(FILES[:2]),
    "throughput": Command(FILES[:1], ONE_WORKER_OPTIONS),
    "checkthroughput": Command(FILES[:2]),
    "print": Command(FILES[:1]),
    "gen": Command(DRAWN),
    "trial": Command(DRAWN, OPTIONS),
}


@dataclass(frozen=True)
class Request:
    """Words that are in the grammar: the command, and its positional words by their names."""

    command: str
    words: dict[str, str]

    @property
    def files(self) -> list[str]:
        """The words that name files, in the order in which they are read."""
        return [self.words[name] for name in READ_ORDER if name in self.words]


class Misfit(Exception):
    """The first word that does not fit, and why, as part of a sentence; the part of the guide on it, if one is."""

    def __init__(self, why: str, part: int | None = None):
        super().__init__(why)
        self.part = part


def shown(word: str) -> str:
    """A word as it may be shown on a terminal: in backquotes, odd bytes as <1b>, and not too long."""
    safe = [letter if letter.isprintable() else f"<{letter.encode('utf-8', 'surrogateescape').hex()}>" for letter in word[:60]]
    return f"`{''.join(safe)}{'..' if len(word) > 60 else ''}`"


def listed(names: tuple[str, ...]) -> str:
    """Names as `a, b or c`."""
    return " or ".join([*([", ".join(names[:-1])] if names[1:] else []), *names[-1:]])


def drawn(limits: Limits) -> dict[str, tuple[int, int]]:
    """The ranges of the numbers by which a network is drawn."""
    return {"SEED": (0, 2**64 - 1), "NODES": (2, limits.nodes), "LINKS": (2, MAX_LINKS), "DEMANDS": (1, limits.demands)}


def read(words: list[str], limits: Limits = NARROW) -> Request:
    """The request of the words; Misfit at the first one with which no command line of the grammar goes on."""
    if not words:
        raise Misfit(f"a command has to stand there: {listed(tuple(COMMANDS))}; ./mcf --help explains them")
    name, rest = words[0], iter(words[1:])
    if name in HELP_WORDS:
        raise _misfit_of_help(words)
    if name not in COMMANDS:
        raise Misfit(f"{shown(name)} is no command{_nearest(name, tuple(COMMANDS))}")
    command, is_plain = COMMANDS[name], False
    found: dict[str, str] = {}
    seen: set[str] = set()
    for word in rest:
        if is_plain or word == "-" or not word.startswith("-"):
            _take_word(name, command, found, word, limits)
        elif word == "--":
            is_plain = True
        else:
            _take_option(name, command, seen, word, rest)
    if len(found) < len(command.words):
        missing = " and ".join(command.words[len(found):])
        raise Misfit(f"{missing} is missing at the end: {name} takes {command.taken}")
    return Request(name, found)


def _misfit_of_help(words: list[str]) -> Misfit:
    """What is wrong with words that begin as those of help, and are others than those that the starter answers."""
    known = [word for word in words[1:] if word in COMMANDS]
    if len(words) == 2 and not known and words[0] != "--version":
        return Misfit(f"{shown(words[1])} is no command{_nearest(words[1], tuple(COMMANDS))}")
    return Misfit(f"{shown(words[0])} is no command: help on one is ./mcf help {known[0] if known else 'COMMAND'}")


def _take_word(name: str, command: Command, found: dict[str, str], word: str, limits: Limits) -> None:
    """One more positional word."""
    if len(found) == len(command.places):
        quotes = ", and a name with a blank stands in quotes" if "NET" in command.words else ""
        raise Misfit(f"{shown(word)} is one word too many: {name} takes {command.taken}{quotes}")
    place = command.places[len(found)]
    if place in DRAWN:
        least, most = drawn(limits)[place]
        least = int(found["NODES"]) if place == "LINKS" else least
        if not _is_whole(word, least, most):
            raise Misfit(f"{shown(word)} is no {place}, a whole number from {least} to {most} in digits alone")
    found[place] = word


def _take_option(name: str, command: Command, seen: set[str], word: str, rest: Iterator[str]) -> None:
    """One more option, with its value."""
    option, equals, value = word.partition("=")
    if option in HELP_WORDS:
        raise Misfit(f"{shown(option)} is no option of {name}: help on it is ./mcf help {name}")
    if option in HOP_OPTIONS:
        raise Misfit(f"{shown(option)} is no option of {name}: the hop limit of a demand is the last word of its row in the network's file, "
                     "and hops keeps it", 8)
    if option not in command.options:
        named = listed(tuple(other for other in COMMANDS if COMMANDS[other].options)).replace(" or ", " and ")
        none = _nearest(option, command.options) if command.options else f", which takes none; they are those of {named}"
        raise Misfit(f"{shown(option)} is no option of {name}{none}")
    if option in seen:
        raise Misfit(f"{option} stands twice")
    seen.add(option)
    given: str | None = value
    if not equals:
        given = next(rest, None)
    if given is None:
        raise Misfit(f"the value of {option} is missing at the end")
    wanted, fits = _values_of(option)
    if not fits(given):
        raise Misfit(f"{shown(given)} is no value of {option}, which is {wanted}")


def _values_of(option: str) -> tuple[str, Callable[[str], bool]]:
    """What an option's value has to be, in words and as a test."""
    if option in MODES:
        return listed(MODES[option]), lambda value: value in MODES[option]
    if option in RANGES:
        least, most = RANGES[option]
        return f"a whole number from {least} to {most} in digits alone", lambda value: _is_whole(value, least, most)
    return f"a number from 0 to {MOST_GAP} with a point and at most six decimals, as 0.05", _is_gap


def _is_whole(word: str, least: int, most: int) -> bool:
    """Whether a word is a whole number of 1 to 20 digits within a range."""
    return _DIGITS.fullmatch(word) is not None and least <= int(word) <= most


def _is_gap(word: str) -> bool:
    """Whether a word is a number of network files, a whole number of millionths, up to the greatest gap."""
    if not _NUMBER.fullmatch(word):
        return False
    value = Fraction(word)
    return value <= MOST_GAP and (value * 10**MAX_DECIMALS).denominator == 1


def _nearest(word: str, names: tuple[str, ...]) -> str:
    """The name that is nearest to a word, as the end of a sentence; else all names."""
    near = difflib.get_close_matches(word, names, 1)
    return f"; perhaps {near[0]}" if near else f": they are {listed(names)}"
