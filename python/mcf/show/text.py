"""What is shown, as lines for people: sentences, and tables whose columns are aligned."""

from __future__ import annotations

from collections.abc import Iterator, Sequence
from fractions import Fraction

from ..linkmode import link_mode
from ..network import Network
from ..numbers import decimal_of, rounded_down, rounded_up
from ..output import one_line
from ..ranges import Answer, Range, fits
from ..report.figures import Figures
from ..report.sentences import growth, verdict
from ..report.shown import amount, amount_carried, counted, name, percent
from .lines import Case
from .work import Found

UNJUDGED = "the program's own lines, and not judged here"
KINDS = {"certificate": "a certificate of solve", "hops": "a certificate of hops", "throughput": "a certificate of throughput",
         "routing": "a routing"}
Table = tuple[Sequence[str], Sequence[Sequence[str]]]


def sentences(found: Found) -> list[str]:
    """What the files are, a sentence each."""
    said = [_about(found)]
    if found.kind == "network" or found.file is None:
        mode = link_mode(found.net.name, found.net.text.encode("latin-1")).mode
        return said if mode == "undirected" else [f"{said[0]}; links are {mode}, as it says"]
    front = found.file.name
    if found.condition is not None:
        return [*said, f"{front}: {KINDS[found.kind]}, and not valid: {(found.why or '').removeprefix(f'{front} on {found.net.name}: ')}"]
    if found.shown is None:
        return [*said, f"{front}: {_about_cases(found)}"]
    figures = found.shown.figures
    text = figures.text
    modes = f"links {text.links}, modules {text.modules}, {counted(text.phases, 'phase')}"
    return [*said, f"{front}: {KINDS[found.kind]}, {modes}; {found.judged}",
            *filter(None, [verdict(figures), growth(figures) if figures.is_certificate else ""])]


def _about(found: Found) -> str:
    """What the network is."""
    network = found.network
    counts = [counted(len(rows), what) for rows, what in ((network.nodes, "node"), (network.links, "link"), (network.demands, "demand"))]
    total = amount(sum((demand.amount for demand in network.demands), Fraction(0)))
    return f"{found.net.name}: {', '.join(counts)}, {total}{f' {found.unit}' if found.unit else ''} in all"


def _about_cases(found: Found) -> str:
    """What the lines or matrices are, and what was judged of them."""
    cases = found.cases
    if found.kind != "batch":
        return f"{counted(len(cases), 'line')} of {found.kind}: {UNJUDGED}"
    matrices = counted(len(cases), "matrix", "matrices")
    if all(case.judged is None for case in cases):
        return f"{matrices} of batch: {UNJUDGED}; --list LIST has each certificate judged"
    invalid = [one_line(name(case.name)) for case in cases if case.condition]
    if invalid:
        some = counted(len(invalid), "certificate is", "certificates are")
        return f"{matrices} of batch, of which {some} not valid: {', '.join(invalid)}"
    found_of = [fits(bounds) for bounds in (case.bounds for case in cases) if bounds]
    yes, no, left = (found_of.count(answer) for answer in (Answer.YES, Answer.NO, Answer.OPEN))
    fit = f"all demands fit in {yes}, not in {no}, and in {left} it is not decided"
    return f"{matrices} of batch, each certificate valid by mcf check: {fit}"


def tables(found: Found) -> Iterator[tuple[str, Table]]:
    """The tables with their titles."""
    if found.kind == "network":
        yield "links", _network_links(found.network)
        yield "demands", _network_demands(found.network)
    elif found.shown is not None:
        figures = found.shown.figures
        if figures.bottleneck:
            yield "bottleneck", _bottleneck(figures)
        yield "links, the most utilised first", _links(figures)
        yield "demands, the greatest first", _demands(figures)
    elif found.cases:
        yield "matrices" if found.kind == "batch" else "cases", _cases(found)


def lines_of(title: str, table: Table, most: int) -> Iterator[str]:
    """The lines of a table, up to so many rows: numbers stand to the right, names to the left."""
    head, rows = table
    kept = rows[:most]
    widths = [max(len(row[at]) for row in (head, *kept)) for at in range(len(head))]
    right = [all(_is_number(row[at]) for row in kept) and bool(kept) for at in range(len(head))]
    yield f"{title}{f', {len(kept)} of {len(rows):,}' if len(kept) < len(rows) else ''}:"
    for row in (head, *kept):
        words = (word.rjust(width) if flag else word.ljust(width) for word, width, flag in zip(row, widths, right))
        yield f"  {'  '.join(words)}".rstrip()


def _is_number(word: str) -> bool:
    """Whether a cell is a number, or has none."""
    return word in ("", "–") or word[0].isdigit() or (word[0] == "-" and word[1:2].isdigit())


def _shown(word: str) -> str:
    """A name that a terminal can show."""
    return one_line(name(word))


def _network_links(network: Network) -> Table:
    """The links of a network alone."""
    rows = [[_shown(link.id), _shown(link.source), _shown(link.target), amount(link.installed("none")),
             amount(link.installed("largest")), str(len(link.modules))] for link in network.links]  # fmt: skip
    return ("link", "source", "target", "capacity", "with largest module", "modules"), rows


def _network_demands(network: Network) -> Table:
    """The demands of a network alone, the greatest first."""
    rows = [[_shown(one.id), _shown(one.source), _shown(one.target), amount(one.amount), "–" if one.hops is None else str(one.hops)]
            for one in sorted(network.demands, key=lambda one: -one.amount)]
    return ("demand", "source", "target", "amount", "hops"), rows


def _bottleneck(figures: Figures) -> Table:
    """The links with a share of the bound."""
    rows = [[f"{_shown(row.link)}{'' if row.way == '=' else row.way}", percent(row.share or Fraction(0)), amount(row.capacity)]
            for row in figures.bottleneck]
    return ("link", "share of the bound", "capacity"), rows


def _links(figures: Figures) -> Table:
    """The links of a certificate or a routing."""
    rows = []
    for row in figures.by_utilisation:
        used = "–" if row.utilisation is None else percent(row.utilisation)
        rows.append([f"{_shown(row.link)}{'' if row.way == '=' else row.way}", _shown(row.source), _shown(row.target), amount(row.capacity),
                     amount(row.load), used])
    return ("link", "source", "target", "capacity", "load", "utilisation"), rows


def _demands(figures: Figures) -> Table:
    """The demands of a certificate or a routing: what is carried within all capacities."""
    part = Fraction(1) if figures.is_total else figures.lower
    rows = [[_shown(one.demand), _shown(one.source), _shown(one.target), amount(one.amount), amount_carried(one.amount * one.carried * part),
             str(len(one.paths)), str(one.most_links)] for one in figures.demands]  # fmt: skip
    return ("demand", "source", "target", "amount", "carried", "paths", "most links"), rows


def _cases(found: Found) -> Table:
    """The lines or the matrices: bounds that were judged, or else those that the lines say."""
    head = {"batch": "matrix", "whatif": "show"}.get(found.kind, "link")
    rows = [[_shown(case.name), *_ends(case.bounds or case.said), _state(case), str(case.phases or "–"), _judged(case)]
            for case in found.cases]
    return (head, "lower", "upper", "gap", "phases", "judged"), rows


def _ends(bounds: Range) -> tuple[str, str]:
    """Both ends with six decimals, the lower one rounded down and the upper one up."""
    low, high = bounds.lower, bounds.upper
    return decimal_of(rounded_down(low.numerator, low.denominator)), decimal_of(rounded_up(high.numerator, high.denominator))


def _state(case: Case) -> str:
    """Whether the gap was met, as the program says."""
    return "–" if case.closed is None else "closed" if case.closed else "open"


def _judged(case: Case) -> str:
    """What the check says."""
    if case.condition is not None:
        return f"invalid {case.condition}"
    return "not judged" if case.judged is None else "valid"
