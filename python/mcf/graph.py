"""A network as a graph of networkx."""

from __future__ import annotations

import networkx

from .scaled import ScaledNetwork


def graph_of(scaled: ScaledNetwork) -> networkx.MultiGraph | networkx.MultiDiGraph:
    """The graph: an undirected one where links are undirected, else one with an edge for each cell, in its way.

    Nodes are ids, with `position`; the key of an edge is its cell's name in form 2, and it has `link`, `cell` (its number),
    `capacity` (in units) and the `routing_cost` word.
    """
    graph = networkx.MultiGraph() if scaled.links == "undirected" else networkx.MultiDiGraph()
    nodes = scaled.network.nodes
    for node in nodes:
        graph.add_node(node.id, position=node.position)
    for number, (cell, word) in enumerate(zip(scaled.cells, scaled.words(2))):
        link = scaled.network.links[cell.link]
        graph.add_edge(nodes[cell.tail].id, nodes[cell.head].id, key=word, link=link.id, cell=number, capacity=cell.capacity,
                       routing_cost=link.routing_cost)
    return graph
