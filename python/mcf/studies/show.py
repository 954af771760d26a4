"""The certificate of a scenario, out of the file of a study."""

from __future__ import annotations

import zlib
from dataclasses import dataclass

from ..certificate import read_any
from ..errors import TextError
from ..linkmode import saying
from ..network import Network, write_network
from .run import network_of
from .store import Store


@dataclass(frozen=True)
class Shown:
    """A certificate, or a routing, the line of its judge, and the rows of its network."""

    key: str
    judged: str
    certificate: bytes
    rows: Network

    @property
    def network(self) -> bytes:
        """The text of the network, which says how its links are read."""
        return saying(write_network(self.rows).encode("latin-1"), read_any(self.certificate.decode("latin-1")).links)


def certificate_of(path: str, front: str, rest: bool) -> Shown:
    """The certificate of the scenario whose key begins so; TextError where there is none, or not one."""
    store = Store(path, create=False)
    try:
        keys = store.keys(front)
        if len(keys) != 1:
            raise TextError(f"{path}: {'several keys begin' if keys else 'no key begins'} with {front!r}")
        kept = store.rows(keys, certificates=True)[keys[0]]
        found = kept.row.rest if rest else kept.row.found
        if found is None or found.certificate is None:
            why = "it has no others: each of its demands has a way, or --without-cut was not given" if rest and found is None else \
                f"its certificate was not kept ({found.line or found.verdict}): the same command with --keep keeps it" if found else ""
            raise TextError(f"{path}: scenario {keys[0]}: {why}")
        changed = network_of(store, kept.network, kept.matrix, kept.change)
        network = changed.without(kept.row.cut) if rest else changed.network
        return Shown(keys[0], found.line, zlib.decompress(found.certificate), network)
    finally:
        store.close()
