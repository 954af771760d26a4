"""Figures as CSV, for programs."""

from __future__ import annotations

import csv
import io
from collections.abc import Iterable
from fractions import Fraction

from mcf.names import cell_of
from mcf.numbers import decimal_of, rounded_down, rounded_up

from .figures import Figures, LinkFigures
from .shown import decimal
from .summary import Summary

LINK_COLUMNS = ("capacity", "load", "load_at_lower", "utilisation", "utilisation_at_lower", "headroom", "share")


def links_table(sides: list[Figures]) -> str:
    """Links in the order of the file; of a second certificate the same columns with _after behind their names."""
    rows: dict[tuple[str, str], list[LinkFigures | None]] = {}
    for at, figures in enumerate(sides):
        for row in figures.links:
            rows.setdefault((row.link, row.way), [None] * len(sides))[at] = row
    head = ["link", "way", "source", "target", *LINK_COLUMNS]
    head += [f"{column}_after" for column in LINK_COLUMNS] if len(sides) > 1 else []
    return table(head, (_link_row(pair) for pair in rows.values()))


def paths_table(figures: Figures) -> str:
    """A row for each path: its demand, its part of it, what flows, its number of links, and its links."""
    head = ["demand", "source", "target", "amount", "part", "flow", "hops", "links"]
    rows = []
    for demand in figures.demands:
        for path in demand.paths:
            numbers = [decimal(demand.amount), decimal(path.part), decimal(path.part * demand.amount), str(len(path.links))]
            rows.append([*map(cell_of, (demand.demand, demand.source, demand.target)), *numbers, cell_of(" ".join(path.links))])
    return table(head, rows)


def batch_table(rows: Iterable[Summary]) -> str:
    """A row for each matrix that batch answered: its bounds, whether all fits, and the links that matter most."""
    head = ["matrix", "demands", "amount", "lower", "upper", "fits", "utilisation", "most_utilised", "share", "bottleneck"]
    return table(head, map(_batch_row, rows))


def _batch_row(row: Summary) -> list[str]:
    """A row of a matrix: the lower fraction is rounded down, the upper one up."""
    low, high = row.range.lower, row.range.upper
    bounds = [decimal_of(rounded_down(*low.as_integer_ratio())), decimal_of(rounded_up(*high.as_integer_ratio()))]
    full, narrow = row.fullest, row.narrowest
    used = [_word(full.utilisation), cell_of(full.link)] if full else ["", ""]
    share = [_word(narrow.share), cell_of(narrow.link)] if narrow else ["", ""]
    return [cell_of(row.matrix), str(len(row.figures.demands)), decimal(row.figures.total), *bounds, row.fits, *used, *share]


def _link_row(pair: list[LinkFigures | None]) -> list[str]:
    """A row of a link."""
    first = next(row for row in pair if row)
    words = [cell_of(first.link), first.way, cell_of(first.source), cell_of(first.target)]
    for row in pair:
        words += [_word(getattr(row, column)) if row else "" for column in LINK_COLUMNS]
    return words


def _word(value: Fraction | None) -> str:
    """A number, or nothing where there is none."""
    return "" if value is None else decimal(value)


def table(head: Iterable[str], rows: Iterable[Iterable[str]]) -> str:
    """The text of a table."""
    out = io.StringIO()
    writer = csv.writer(out, lineterminator="\n")
    writer.writerow(head)
    writer.writerows(rows)
    return out.getvalue()
