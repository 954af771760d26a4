"""What a certificate or routing says of a network, in exact fractions: loads, utilisation, both bounds and shares of the upper one."""

from __future__ import annotations

from fractions import Fraction

from .certificate import Certificate, HopCertificate, Path, Routing, TotalCertificate
from .errors import TextError
from .scaled import ScaledNetwork


def cells_of_path(scaled: ScaledNetwork, form: int, path: Path) -> list[int]:
    """The numbers of a path's cells."""
    cell_of = scaled.cell_of(form)
    try:
        return [cell_of[word] for word in path.cells]
    except KeyError as error:
        raise TextError(f"the network has no link {error.args[0]}") from error


def nodes_of_walk(scaled: ScaledNetwork, start: int, cells: list[int]) -> list[int]:
    """The nodes that cells join one after another from a node; each cell has to begin where the one before ended."""
    nodes = [start]
    for number in cells:
        cell = scaled.cells[number]
        if cell.tail == nodes[-1]:
            nodes.append(cell.head)
        elif cell.both and cell.head == nodes[-1]:
            nodes.append(cell.tail)
        else:
            raise TextError(f"cell {number} does not begin at node {scaled.network.nodes[nodes[-1]].id}")
    return nodes


def loads(scaled: ScaledNetwork, text: Routing) -> list[int]:
    """The load of each cell: the weights of all paths, each as often as the path has the cell. Not multiplied by the scale."""
    cell_of = scaled.cell_of(text.form)
    total = [0] * len(scaled.cells)
    try:
        for path in text.paths:
            for word in path.cells:
                total[cell_of[word]] += path.weight
    except KeyError as error:
        raise TextError(f"the network has no link {error.args[0]}") from error
    return total


def routed(scaled: ScaledNetwork, text: Routing) -> list[Fraction]:
    """What flows over each cell, in the file's own unit: its load times the scale."""
    factor = Fraction(text.scale_capacity, text.scale_load)
    return [scaled.in_file_unit(load * factor) for load in loads(scaled, text)]


def utilisation(scaled: ScaledNetwork, text: Routing) -> list[Fraction | None]:
    """What flows over each cell as a share of its capacity, 1 where it is full; None where it has no capacity."""
    factor = Fraction(text.scale_capacity, text.scale_load)
    pairs = zip(loads(scaled, text), scaled.cells)
    return [load * factor / cell.capacity if cell.capacity else None for load, cell in pairs]


def lower(text: Routing) -> Fraction:
    """The fraction of every demand that the paths carry, phases times the scale; of a total, all weights times the scale."""
    carried = sum(path.weight for path in text.paths) if isinstance(text, TotalCertificate) else text.phases
    return Fraction(carried * text.scale_capacity, text.scale_load)


def lengths(scaled: ScaledNetwork, certificate: Certificate) -> list[int]:
    """The length of each cell, in the order of cells."""
    by_name = {row.cell: row.length for row in certificate.lengths}
    try:
        return [by_name[word] for word in scaled.words(certificate.form)]
    except KeyError as error:
        raise TextError(f"the certificate has no length of {error.args[0]}") from error


def volume(scaled: ScaledNetwork, certificate: Certificate) -> int:
    """Capacity times length, over all cells: what is above in line 10."""
    return sum(cell.capacity * length for cell, length in zip(scaled.cells, lengths(scaled, certificate)))


def weighted_distance(scaled: ScaledNetwork, certificate: Certificate) -> int:
    """Amount times distance, over all commodities: what is below in line 10. Without a limit of hops it is the potential difference."""
    pairs = zip(scaled.commodities, _distances(scaled, certificate))
    return sum(commodity.amount * max(0, distance) for commodity, distance in pairs)


def excess(scaled: ScaledNetwork, certificate: TotalCertificate) -> int:
    """Amount times what the threshold has above the potential difference, over all commodities: the rest of what is above in line 10."""
    pairs = zip(scaled.commodities, _distances(scaled, certificate))
    return sum(commodity.amount * max(0, certificate.threshold - max(0, distance)) for commodity, distance in pairs)


def _distances(scaled: ScaledNetwork, certificate: Certificate) -> list[int]:
    """The potential difference of each commodity, or what its layers have, where the certificate keeps its limit of hops."""
    limits = scaled.limits if isinstance(certificate, HopCertificate) else (None,) * len(scaled.commodities)
    layers = {(row.node, row.index): row.values for row in certificate.layers} if isinstance(certificate, HopCertificate) else {}
    rows = {row.node: row.values for row in certificate.potentials}
    found = []
    for commodity, limit in zip(scaled.commodities, limits):
        name = scaled.network.nodes[commodity.source].id
        try:
            first, last = (rows[name],) * 2 if limit is None else (layers[name, 0], layers[name, limit])
        except KeyError as error:
            raise TextError(f"the certificate has no {'potentials' if limit is None else 'layers'} of {name}") from error
        found.append(last[commodity.target] - first[commodity.source])
    return found


def upper(scaled: ScaledNetwork, certificate: Certificate) -> Fraction:
    """The bound: no routing of the kind carries more than this fraction of every demand, or than this total."""
    if isinstance(certificate, TotalCertificate):
        return Fraction(volume(scaled, certificate) + excess(scaled, certificate), certificate.threshold)
    return Fraction(volume(scaled, certificate), weighted_distance(scaled, certificate))


def shares_of_bound(scaled: ScaledNetwork, certificate: Certificate) -> list[Fraction]:
    """The share of each cell in the bound: its capacity times its length, of the volume. All 0 where the volume is 0."""
    parts = [cell.capacity * length for cell, length in zip(scaled.cells, lengths(scaled, certificate))]
    whole = sum(parts)
    return [Fraction(part, whole) if whole else Fraction(0) for part in parts]


def true_gap(lower_bound: Fraction, upper_bound: Fraction) -> Fraction | None:
    """By what part upper is above lower; 0 where both are equal, None where lower alone is 0."""
    if upper_bound == lower_bound:
        return Fraction(0)
    return upper_bound / lower_bound - 1 if lower_bound else None
