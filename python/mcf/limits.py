"""The limits within which texts, networks and certificates lie: the names and numbers of `crates/mcf_limits/src/lib.rt`.

A test compares both. Whatever a tool says of a limit, it takes from here. `Wide` has those that the program with wide limits has
otherwise: the ones of `crates/wide_limits/src/lib.rt`.
"""

from __future__ import annotations

import os
from dataclasses import dataclass
from typing import Final

# texts, in bytes
MAX_NET_BYTES: Final = 64 << 20
MAX_CERT_BYTES: Final = 1 << 30
MAX_SCRIPT_BYTES: Final = 1 << 20
MAX_LIST_BYTES: Final = 64 << 20
MAX_WORD_BYTES: Final = 255

# networks
MAX_NODES: Final = 512
MAX_LINKS: Final = 4096
MAX_CELLS: Final = 8192
MAX_DEMANDS: Final = 32_768
MAX_MATRICES: Final = 64

# numbers: any one, and the sum of all amounts, in units; the decimals of a unit
MAX_UNITS: Final = 1 << 44
MAX_TOTAL: Final = 1 << 46
MAX_DECIMALS: Final = 6

# runs; the gap in millionths
MAX_PHASES: Final = 65_536
MAX_WORK: Final = 2_097_152
MAX_WORKERS: Final = 16
MAX_GAP: Final = 1_000_000_000
MAX_STEP: Final = 1 << 20

# certificates
MAX_LENGTH: Final = 1 << 62
MAX_PATH_CELLS: Final = 511
MAX_HOPS: Final = 64

# what a run takes where nothing is asked
DEFAULT_GAP: Final = 50_000
DEFAULT_PHASES: Final = 1000
DEFAULT_WORKERS: Final = 4
FEW_COMMODITIES: Final = 4000
DEFAULT_STEP: Final = 8192


class Wide:
    """The limits of the program with wide limits, as far as they are others."""

    MAX_NET_BYTES: Final = 256 << 20
    MAX_CERT_BYTES: Final = 1 << 31
    MAX_NODES: Final = 1000
    MAX_DEMANDS: Final = 1_048_576
    MAX_WORK: Final = 1 << 30
    MAX_PATH_CELLS: Final = 999
    DEFAULT_STEP: Final = 524_288


@dataclass(frozen=True)
class Limits:
    """The limits of one of the two programs, as far as they differ.

    nodes, demands: how many a network has at most. net_bytes, cert_bytes: how many bytes a text has at most. work: the most demands times
    phases. path_cells: how many links a path has at most. step: the step where none is asked.
    """

    nodes: int
    demands: int
    net_bytes: int
    cert_bytes: int
    work: int
    path_cells: int
    step: int


NARROW = Limits(MAX_NODES, MAX_DEMANDS, MAX_NET_BYTES, MAX_CERT_BYTES, MAX_WORK, MAX_PATH_CELLS, DEFAULT_STEP)
WIDE = Limits(Wide.MAX_NODES, Wide.MAX_DEMANDS, Wide.MAX_NET_BYTES, Wide.MAX_CERT_BYTES, Wide.MAX_WORK, Wide.MAX_PATH_CELLS, Wide.DEFAULT_STEP)
WIDE_NAME = "mcf-wide"


def limits_of(program: str) -> Limits:
    """The limits of the program at a path: the wide ones where its file is called `mcf-wide`, or MCF_WIDE in the environment names it."""
    named = os.environ.get("MCF_WIDE")
    is_named = bool(named) and os.path.abspath(named or "") == os.path.abspath(program)
    return WIDE if is_named or os.path.basename(program) == WIDE_NAME else NARROW
