"""What the map is made of: load and length of each cell of a certificate, read in a process of its own, since large ones take long."""

from __future__ import annotations

import json
import sys
from dataclasses import dataclass
from fractions import Fraction

from ..certificate import Certificate, load_text, read_certificate
from ..errors import McfError
from ..network import read_network
from ..scaled import ScaledNetwork, scale
from ..values import lengths, loads
from .child import PARENT, Held, Work

_START = "import sys; sys.path.insert(0, sys.argv[1]); from mcf.desk.weights import main; main(*sys.argv[2:])"


@dataclass(frozen=True)
class Weights:
    """The load of each cell in units, where each demand is carried once, and its length."""

    loads: tuple[Fraction, ...]
    lengths: tuple[int, ...]


def nothing(scaled: ScaledNetwork) -> Weights:
    """Those of a network without a certificate."""
    return Weights((Fraction(0),) * len(scaled.cells), (0,) * len(scaled.cells))


def weights_of(work: Work, network: Held, certificate: Held) -> Weights:
    """The weights of a valid certificate on a canonical network text."""
    ended = work.run([sys.executable, "-P", "-B", "-c", _START, PARENT, network.path, certificate.path])
    if ended.status:
        raise McfError(ended.trouble or "the certificate could not be read for the map")
    found = json.loads(ended.out)
    phases = found["phases"]
    return Weights(tuple(Fraction(load, phases) if phases else Fraction(0) for load in found["loads"]), tuple(found["lengths"]))


def main(network: str, certificate: str) -> None:
    """Writes the weights of two files as JSON."""
    text = read_certificate(load_text(certificate))
    assert isinstance(text, Certificate)
    scaled = scale(read_network(load_text(network)), text.links, text.modules)
    print(json.dumps({"phases": text.phases, "loads": loads(scaled, text), "lengths": lengths(scaled, text)}))
