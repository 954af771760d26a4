"""What the tests of tools/certify share: requests, starts without a program, runs of the tool, and networks with limits of hops."""

from __future__ import annotations

import random
import subprocess
from dataclasses import replace
from fractions import Fraction
from pathlib import Path

from mcf import Program, ScaledNetwork
from mcf.certificate import Certificate, Routing
from mcf.network import Network
from mcf.lp.kinds import SOLVE, Kind
from mcf.lp.run import Begun, Request
from mcf.lp.start import Source


def asked(net: Path, **options: object) -> Request:
    """A request with defaults."""
    given: dict[str, object] = {"links": None, "modules": None, "gap": None, "seconds": 3600.0, "start": None}
    return Request(str(net), **{**given, **options})  # type: ignore[arg-type]


def bounds(certificate: Certificate) -> tuple[Fraction, Fraction]:
    """Lower and upper."""
    return Fraction(*certificate.lower), Fraction(*certificate.upper)


def command(root: Path, program: Program, *words: str) -> subprocess.CompletedProcess[str]:
    """A run of the tool itself."""
    done = [str(root / "tools/certify"), "--mcf", program.path, *words]
    return subprocess.run(done, capture_output=True, text=True, encoding="latin-1", check=False)


def unlimited(scaled: ScaledNetwork, form: int, kind: Kind = SOLVE) -> Begun:
    """A start without any paths."""
    routing = Routing(form, scaled.links, scaled.modules, 0, 0, 1)
    first = kind.certificate(form, scaled.links, scaled.modules, 0, 0, 1, counts=scaled.counts(0))
    source = Source(None, kind, "", scaled.links, scaled.modules)  # type: ignore[arg-type]
    return Begun(source, scaled, first, routing, True)


def with_limits(network: Network, seed: int, words: tuple[str, ...] = ("UNLIMITED", "2", "3", "4.9", "1e2")) -> Network:
    """The network with a longest path for each demand, drawn from some words."""
    draw = random.Random(seed)
    return replace(network, demands=tuple(replace(demand, longest=draw.choice(words)) for demand in network.demands))
