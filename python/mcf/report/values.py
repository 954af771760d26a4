"""Figures as values for JSON."""

from __future__ import annotations

from collections.abc import Iterable

from ..given import name_of
from ..ranges import fits
from .figures import DemandFigures, Figures, LinkFigures
from .sentences import verdict
from .summary import Summary

COMMANDS = {"check": "solve", "checkhops": "hops", "checkthroughput": "throughput"}


def names_of(words: Iterable[str]) -> list[str]:
    """The names that words spell."""
    return list(map(name_of, words))


def side_values(figures: Figures, said: str, unit: str) -> dict[str, object]:
    """A certificate or a routing: what the check said of it, both fractions or totals, and its tables."""
    text = figures.text
    return {
        "kind": COMMANDS[text.judge] if figures.is_certificate else "routing", "judged": said, "sentence": verdict(figures), "unit": unit,
        "links_mode": text.links, "modules": text.modules, "phases": text.phases, "lower": figures.lower, "upper": figures.upper,
        "total": figures.total, "links": list(map(link_values, figures.links)), "demands": list(map(demand_values, figures.demands)),
        "bottleneck": [{"link": name_of(row.link), "way": row.way, "share": row.share} for row in figures.bottleneck]}


def link_values(row: LinkFigures) -> dict[str, object]:
    """A link, or one way of it."""
    return {"link": name_of(row.link), "way": row.way, "source": name_of(row.source), "target": name_of(row.target),
            "capacity": row.capacity, "load": row.load, "load_at_lower": row.load_at_lower, "utilisation": row.utilisation,
            "utilisation_at_lower": row.utilisation_at_lower, "headroom": row.headroom, "share": row.share}


def demand_values(row: DemandFigures) -> dict[str, object]:
    """A demand with its paths."""
    return {"demand": name_of(row.demand), "source": name_of(row.source), "target": name_of(row.target), "amount": row.amount,
            "carried": row.carried, "limit": row.limit,
            "paths": [{"part": path.part, "links": names_of(path.links)} for path in row.paths]}


def matrix_values(row: Summary) -> dict[str, object]:
    """A matrix of what batch answered."""
    full, narrow = row.fullest, row.narrowest
    return {"matrix": name_of(row.matrix), "judged": row.said, "demands": len(row.figures.demands), "amount": row.figures.total,
            "bounds": row.range, "fits": fits(row.range), "fullest": full and {"link": name_of(full.link), "utilisation": full.utilisation},
            "bottleneck": narrow and {"link": name_of(narrow.link), "share": narrow.share}}
