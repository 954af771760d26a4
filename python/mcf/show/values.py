"""What is shown, as values for JSON, and as rows of a CSV."""

from __future__ import annotations

from collections.abc import Iterable

from ..given import name_of
from ..names import cell_of
from ..network import Demand, Link, Node
from ..ranges import fits
from ..report.shown import decimal
from ..report.tables import links_table, table
from ..report.values import names_of, side_values
from .lines import Case
from .work import Found


def values(found: Found) -> dict[str, object]:
    """The properties of what was found."""
    network, shown = found.network, found.shown
    said: dict[str, object] = {
        "what": found.kind, "net": found.net.name, "file": found.file and found.file.name, "unit": found.unit, "judged": found.judged,
        "condition": found.condition, "counts": {"nodes": len(network.nodes), "links": len(network.links), "demands": len(network.demands)}}
    if found.kind == "network":
        said["network"] = {"nodes": list(map(_node, network.nodes)), "links": list(map(_link, network.links)),
                           "demands": list(map(_demand, network.demands))}
    if shown is not None:
        said["side"] = side_values(shown.figures, shown.said, shown.unit)
    if found.kind in ("batch", "sweep", "sweepsolve", "whatif"):
        said["cases"] = list(map(_case, found.cases))
    return said


def _node(node: Node) -> dict[str, object]:
    """A node."""
    return {"node": name_of(node.id), "place": node.place and names_of(node.place)}


def _link(link: Link) -> dict[str, object]:
    """A link of a network alone."""
    return {"link": name_of(link.id), "source": name_of(link.source), "target": name_of(link.target), "capacity": link.installed("none"),
            "with_largest": link.installed("largest"),
            "modules": [{"capacity": module.capacity, "cost": module.cost} for module in link.modules]}


def _demand(demand: Demand) -> dict[str, object]:
    """A demand of a network alone."""
    return {"demand": name_of(demand.id), "source": name_of(demand.source), "target": name_of(demand.target), "amount": demand.amount,
            "limit": demand.hops}


def _case(case: Case) -> dict[str, object]:
    """A line or a matrix."""
    bounds = case.bounds
    return {"case": name_of(case.name), "said": case.said, "closed": case.closed, "phases": case.phases, "judged": case.judged,
            "condition": case.condition, "bounds": bounds, "fits": bounds and fits(bounds)}


def csv_of(found: Found) -> str:
    """The table of what was found: links, or the lines or matrices; nothing of what is not valid."""
    if found.shown is not None:
        return links_table([found.shown.figures])
    if found.kind == "network":
        rows: Iterable[list[str]] = (
            [*map(cell_of, (link.id, link.source, link.target)), decimal(link.installed("none")), decimal(link.installed("largest"))]
            for link in found.network.links)
        return table(("link", "source", "target", "capacity", "with_largest"), rows)
    head = ("case", "said_lower", "said_upper", "closed", "phases", "judged", "condition")
    return table(head, map(_row, found.cases))


def _row(case: Case) -> list[str]:
    """A row of a line or a matrix; both ends are exact."""
    words = ["" if word is None else str(word).lower() for word in (case.closed, case.phases)]
    return [cell_of(case.name), str(case.said.lower), str(case.said.upper), *words, "yes" if case.figures else "no", case.condition or ""]
