"""Maximum concurrent flows with certificates: which fraction of all its demands can a network carry at once, and what holds it back?

In a notebook:

    import mcf
    network = mcf.read("examples/polska.net")     # or Network.from_frames(links, demands), Network.from_networkx(graph, demands)
    certificate = network.solve()                 # paths, and a proof that no paths do much better
    certificate.lower, certificate.upper          # the fraction of every demand that is carried, and the one that none exceeds
    certificate.link_table()                      # a frame of pandas: link, capacity, load, utilisation, share of the bound
    certificate.plot()                            # the map
    certificate.save("polska.cert")               # for `mcf check`, by somebody else

Each certificate is handed out once the proved check has called it valid; one that was read from a file says that it is not judged until
`network.check(certificate)`. What else there is:

    help(mcf.Network)       made, changed and asked: solve, hops, throughput, certify, route, batch, sweep, sweepsolve, whatif, tighten
    help(mcf.Certificate)   bounds, tables, figures, JSON
    mcf.check(net, cert)    what the proved check says, as a value
    mcf.study(net, ..)      many scenarios, here or on a cluster: matrices, failures, growth, routings, as a frame
    mcf.McfError            above all errors of runs: Refused, Invalid, Usage, ReadFault, WriteFault, NoMemory, Timeout, NoProgram

Capacities and amounts are exact decimals in a unit of yours. The program is that of the environment's MCF, else the one that was
installed or built with this package.

The other names are the core's, on which all tools stand: rows of texts, and exact values of them. The core's own classes of networks and
certificates are those of the modules `mcf.network` and `mcf.certificate`. Its texts are strings with one character for each byte
(latin-1), so any bytes may stand in names.

A name is imported from its module when it is first asked for, so `import mcf` alone imports nothing; the modules `network`,
`certificate`, `numbers`, `scaled`, `values`, `program`, `running`, `commands`, `given` and `errors`, and the packages `hints` and `build`,
need the standard library alone.
"""

from __future__ import annotations

from importlib import import_module

# (as in typing, which would have to be imported)
TYPE_CHECKING = False
if TYPE_CHECKING:
    from .answers import Batch, Certificate, HopCertificate, Routing, Sweep, TotalCertificate, WhatIf
    from .certificate import (Layer, Length, Path, Potential, judge_of, load_text, read_any, read_certificate, read_hops, read_routing,
                              read_throughput, save_text, write_certificate, write_routing)
    from .commands import Judgement
    from .errors import Invalid, McfError, NoMemory, NoProgram, ReadFault, Refused, TextError, Timeout, Usage, WriteFault
    from .network import MODULES, Demand, Link, Module, Node, read_network, write_network
    from .networks import Network, certify, check, read, solve
    from .numbers import decimal_of, fraction_of, millionths_of, rounded_down, rounded_up, whole_of
    from .program import Answer, Program, find_program
    from .studies.frames import study
    from .scaled import LINK_MODES, Cell, Commodity, Counts, ScaledNetwork, scale
    from .values import (cells_of_path, excess, lengths, loads, lower, nodes_of_walk, routed, shares_of_bound, true_gap, upper, utilisation,
                         volume, weighted_distance)

__all__ = [
    "Answer", "Batch", "Cell", "Certificate", "Commodity", "Counts", "Demand", "HopCertificate", "Invalid", "Judgement", "LINK_MODES",
    "Layer", "Length", "Link", "MODULES", "McfError", "Module", "Network", "NoMemory", "NoProgram", "Node", "Path", "Potential", "Program",
    "ReadFault", "Refused", "Routing", "ScaledNetwork", "Sweep", "TextError", "Timeout", "TotalCertificate", "Usage", "WhatIf",
    "WriteFault", "cells_of_path", "certify", "check", "decimal_of", "excess", "find_program", "fraction_of", "judge_of", "lengths",
    "load_text", "loads", "lower", "millionths_of", "nodes_of_walk", "read", "read_any", "read_certificate", "read_hops", "read_network",
    "read_routing", "read_throughput", "rounded_down", "rounded_up", "routed", "save_text", "scale", "shares_of_bound", "solve", "study",
    "true_gap", "upper", "utilisation", "volume", "weighted_distance", "whole_of", "write_certificate", "write_network", "write_routing",
]

_MODULES = {
    "answers": "Batch Certificate HopCertificate Routing Sweep TotalCertificate WhatIf",
    "certificate": "Layer Length Path Potential judge_of load_text read_any read_certificate read_hops read_routing read_throughput "
                   "save_text write_certificate write_routing",
    "commands": "Judgement",
    "errors": "Invalid McfError NoMemory NoProgram ReadFault Refused TextError Timeout Usage WriteFault",
    "network": "MODULES Demand Link Module Node read_network write_network",
    "networks": "Network certify check read solve",
    "numbers": "decimal_of fraction_of millionths_of rounded_down rounded_up whole_of",
    "program": "Answer Program find_program",
    "studies.frames": "study",
    "scaled": "LINK_MODES Cell Commodity Counts ScaledNetwork scale",
    "values": "cells_of_path excess lengths loads lower nodes_of_walk routed shares_of_bound true_gap upper utilisation volume "
              "weighted_distance",
}
_HOME = {name: module for module, names in _MODULES.items() for name in names.split()}


def __getattr__(name: str) -> object:
    """A name of `__all__`, from its module."""
    if name not in _HOME:
        raise AttributeError(f"module {__name__!r} has no attribute {name!r}")
    value = getattr(import_module(f"{__name__}.{_HOME[name]}"), name)
    globals()[name] = value
    return value


def __dir__() -> list[str]:
    """What is here already, and what is imported when it is asked for."""
    return sorted({*globals(), *__all__})
