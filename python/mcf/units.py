"""Units of rates: how many bits per second a word such as `G`, `Mbit/s`, `MB/s`, `OC-48` or `STM-16` stands for.

A prefix k, M, G or T, in either case, is a power of 1000. A lower-case b is a bit and an upper-case B a byte of eight bits; spelt out,
`bit` and `byte` may stand in either case. `MBPS` may be both, so it is neither.
"""

from __future__ import annotations

import re
from dataclasses import dataclass

PREFIXES = {"": 1, "k": 1000, "m": 1000**2, "g": 1000**3, "t": 1000**4}
BITS = ("", "b", "b/s", "bps")
BIT_WORDS = ("bit", "bits", "bit/s", "bits/s", "bitpersec", "bitspersec")
BYTES = ("B", "B/s", "Bps")
BYTE_WORDS = ("byte", "bytes", "byte/s", "bytes/s", "bytepersec", "bytespersec")
CARRIERS = {"OC": 51_840_000, "STM": 155_520_000}
KNOWN = "known are bit/s, b/s, bps and bit, with k, M, G or T in front or these alone, OC-n and STM-n"

_HEAD = re.compile(r"(.*?)[ _]*(?:\(([^()]*)\)|\[([^][]*)\]|(?:^|[ _])([A-Za-z/]+))")
_CARRIER = re.compile(r"(OC|STM)-?([1-9][0-9]{0,3})c?", re.IGNORECASE)


@dataclass(frozen=True)
class Rate:
    """A unit of rates: its bits per second, and whether it is one of bytes."""

    bits: int
    is_of_bytes: bool = False


def unit_of(word: str) -> Rate | None:
    """The unit that a word is, or none."""
    for front in (word[:1], "") if word[:1].lower() in PREFIXES else ("",):
        tail, size = word[len(front) :], PREFIXES[front.lower()]
        if word and (tail in BITS and (front or tail) or tail.lower() in BIT_WORDS):
            return Rate(size)
        if tail in BYTES or tail.lower() in BYTE_WORDS:
            return Rate(8 * size, True)
    return None


def of_head(head: str) -> tuple[str, str]:
    """The name and the unit of a column's head, as of `capacity (Gbit/s)`, `traffic [Mbps]` or `load_gbit`; nothing where it has no unit.

    A unit of one or two letters is none here, since `rate_b` may mean anything.
    """
    fitting = _HEAD.fullmatch(head.strip())
    unit = next(filter(None, fitting.groups()[1:]), "").strip() if fitting else ""
    if len(unit) < 3 or unit_of(unit) is None:
        return head, ""
    return fitting[1] if fitting else head, unit


def carrier_of(word: str) -> Rate | None:
    """The rate of a carrier of SONET or SDH, as `OC-48`, `OC-48c` and `STM-16`, or none."""
    fitting = _CARRIER.fullmatch(word)
    return Rate(CARRIERS[fitting[1].upper()] * int(fitting[2])) if fitting else None
