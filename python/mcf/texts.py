"""The names of the core in one module, as the old package `mcf_texts` had them: networks, certificates and routings as rows."""

from __future__ import annotations

import sys
from importlib import import_module

from .certificate import (
    Certificate, HopCertificate, Layer, Length, Path, Potential, Routing, TotalCertificate, judge_of, load_text, read_any,
    read_certificate, read_hops, read_routing, read_throughput, save_text, write_certificate, write_routing)
from .errors import TextError
from .network import MODULES, Demand, Link, Module, Network, Node, read_network, write_network
from .numbers import decimal_of, fraction_of, millionths_of, rounded_down, rounded_up, whole_of
from .program import Answer, Program, find_program
from .scaled import LINK_MODES, Cell, Commodity, Counts, ScaledNetwork, scale
from .values import (
    cells_of_path, excess, lengths, loads, lower, nodes_of_walk, routed, shares_of_bound, true_gap, upper, utilisation, volume,
    weighted_distance)

__all__ = [
    "Answer", "Cell", "Certificate", "Commodity", "Counts", "Demand", "HopCertificate", "LINK_MODES", "Layer", "Length", "Link",
    "MODULES", "Module", "Network", "Node", "Path", "Potential", "Program", "Routing", "ScaledNetwork", "TextError",
    "TotalCertificate", "cells_of_path", "decimal_of", "excess", "find_program", "fraction_of", "judge_of", "lengths",
    "load_text", "loads", "lower", "millionths_of", "nodes_of_walk", "read_any", "read_certificate", "read_hops",
    "read_network", "read_routing", "read_throughput", "rounded_down", "rounded_up", "routed", "save_text", "scale",
    "shares_of_bound", "true_gap", "upper", "utilisation", "volume", "weighted_distance", "whole_of", "write_certificate",
    "write_network", "write_routing",
]

MODULES_OF_TEXTS = ("certificate", "errors", "network", "numbers", "program", "scaled", "values")


def name_modules(package: str) -> None:
    """Gives the modules of the core second names, in another package that is imported already."""
    for name in MODULES_OF_TEXTS:
        module = import_module(f"mcf.{name}")
        sys.modules[f"{package}.{name}"] = module
        setattr(sys.modules[package], name, module)
