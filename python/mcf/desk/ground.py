"""What does not change while the desk is open: the network as it was read, its places on the map, and the program."""

from __future__ import annotations

from collections.abc import Mapping, Sequence
from dataclasses import dataclass, replace
from fractions import Fraction
from functools import cached_property

from ..errors import TextError
from ..given import decimal_word
from ..limits import MAX_UNITS, NARROW, WIDE_NAME
from ..network import Network, write_network
from ..numbers import fraction_of
from ..report.layout import Layout, layout
from ..report.shown import name
from ..scaled import ScaledNetwork
from .child import Held


@dataclass(frozen=True)
class Ground:
    """The program, the network's file by the name that the user gave, None where the program takes no such word, and what it has."""

    program: str
    net: str | None
    stem: str
    text: Held
    printed: Held
    scaled: ScaledNetwork

    @property
    def network(self) -> Network:
        """The rows of the network."""
        return self.scaled.network

    @cached_property
    def installed(self) -> tuple[Fraction, ...]:
        """The capacities of all links, with the modules that count."""
        return tuple(link.installed(self.scaled.modules) for link in self.network.links)

    @cached_property
    def places(self) -> Layout:
        """Where nodes stand."""
        return layout(self.scaled)

    @property
    def command(self) -> str:
        """The name of the program that takes the network: `mcf`, or `mcf-wide` where it is beyond the limits of the other."""
        network = self.network
        fits = len(network.nodes) <= NARROW.nodes and len(network.demands) <= NARROW.demands and len(self.text.data) <= NARROW.net_bytes
        return "mcf" if fits else WIDE_NAME

    @property
    def modes(self) -> list[str]:
        """The options by which links and modules are read."""
        return ["--links", self.scaled.links, "--modules", self.scaled.modules]

    def capacities(self, changed: Mapping[int, Fraction]) -> list[Fraction]:
        """All capacities, some of them changed."""
        return [changed.get(link, installed) for link, installed in enumerate(self.installed)]

    def edited(self, changed: Mapping[int, Fraction]) -> tuple[Held, Held]:
        """The text of the network with some capacities changed, and its canonical text; the file itself where none is."""
        if all(self.installed[link] == capacity for link, capacity in changed.items()):
            return self.text, self.printed
        links = tuple(replace(link, capacity=decimal_word(changed[at]), modules=()) if at in changed else link
                      for at, link in enumerate(self.network.links))
        held = Held(write_network(replace(self.network, links=links)).encode("latin-1"))
        return held, held

    def require_link(self, link: int) -> None:
        """TextError where there is no link of that number."""
        if not 0 <= link < len(self.installed):
            raise TextError("the network has no such link")

    def capacity_of(self, word: str) -> Fraction:
        """The capacity that a user wrote; TextError where the program would not take it for this network."""
        decimals, clean = self.scaled.decimals, word.strip()
        if "," in clean:
            raise TextError(f"{clean[:40]!r} is no number: write it with a point, and without commas")
        value = fraction_of(clean)
        self.require_capacity(value)
        if (value * 10**decimals).denominator != 1:
            few = "are whole" if decimals == 0 else f"have at most {decimals} decimals"
            raise TextError(f"{clean[:40]}: the numbers of this network {few}, and those of edits have to be so too")
        return value

    def require_capacity(self, value: Fraction) -> None:
        """TextError where a capacity is more than the program takes."""
        if value * 10**self.scaled.decimals > MAX_UNITS:
            raise TextError(f"a capacity may be at most {decimal_word(Fraction(MAX_UNITS, 10**self.scaled.decimals))} here")

    def title(self, link: int) -> str:
        """A link with its ends."""
        row = self.network.links[link]
        return f"{name(row.id)} ({name(row.source)} – {name(row.target)})"

    def commands(self, lines: Sequence[str]) -> str:
        """Commands of a script as a text."""
        return "".join(f"{line}\n" for line in lines)
