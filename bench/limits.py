"""Networks whose demands have limits of hops: some links more than their shortest path has."""

from __future__ import annotations

import sys
from collections import deque
from dataclasses import replace
from pathlib import Path

sys.path.insert(0, str(Path(__file__).resolve().parents[1] / "python"))

from mcf.network import Network  # noqa: E402


def with_few_more(network: Network, more: int) -> Network:
    """The network with each demand limited to so many links more than its shortest path has, over links that are used both ways."""
    after: dict[str, set[str]] = {node.id: set() for node in network.nodes}
    for link in network.links:
        after[link.source].add(link.target)
        after[link.target].add(link.source)
    steps = {source: fewest(after, source) for source in {demand.source for demand in network.demands}}
    return replace(network, demands=tuple(replace(demand, longest=str(steps[demand.source].get(demand.target, 0) + more))
                                          for demand in network.demands))


def fewest(after: dict[str, set[str]], source: str) -> dict[str, int]:
    """The fewest steps from a node to all that it reaches."""
    steps, queue = {source: 0}, deque([source])
    while queue:
        node = queue.popleft()
        for other in after[node] - steps.keys():
            steps[other] = steps[node] + 1
            queue.append(other)
    return steps
