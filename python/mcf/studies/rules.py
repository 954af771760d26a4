"""Routings by a rule, as tools/route makes them, of a scenario's network."""

from __future__ import annotations

import time
from dataclasses import replace

from ..certificate import write_routing
from ..errors import TextError
from ..network import Network
from ..route.run import ruled
from .children import Program
from .scenarios import Asked
from .work import REFUSED, Found, judged, scaled_of, solved

_FORM = 2


def by_rule(mcf: Program, network: Network, text: bytes, asked: Asked, _: str, rule: str) -> Found:
    """What is known of the routing of a rule; refused as `mcf solve` does, or where the rule has none for this network."""
    scaled = scaled_of(network, asked)
    if scaled is None:
        return solved(mcf, text, asked)
    deadline = time.monotonic() + asked.seconds
    notes: list[str] = []
    try:
        routing = ruled(scaled, _FORM, rule, asked.lengths, asked.cost, asked.paths, deadline, notes, quiet=True)
    except TextError as why:
        return Found(REFUSED, f"there is no routing by {rule}: {why}")
    return replace(judged(mcf, text, write_routing(routing).encode("latin-1")), note="; ".join(notes))
