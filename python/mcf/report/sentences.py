"""The verdict in sentences for people."""

from __future__ import annotations

from fractions import Fraction

from ..ranges import Answer, Range, fits, fits_by, spare
from .figures import Figures
from .shown import amount_down, amount_up, counted, name, percent, percent_down, percent_up

OPTIMUM = "this is the exact optimum"


def verdict(figures: Figures) -> str:
    """What holds, in a sentence: lower fractions are rounded down, upper ones up."""
    if figures.is_total:
        return _total(Range(figures.lower, figures.total if figures.upper is None else figures.upper), figures.total)
    text = _fraction(figures)
    return text.replace("no routing", "no routing within the hop limits") if figures.keeps_limits else text


def _fraction(figures: Figures) -> str:
    """Where all demands are carried by the same fraction."""
    if not figures.lower:
        return _nothing(figures)
    if figures.upper is None:
        return f"{_front(figures.lower)}; whether other paths carry more is not known, since a routing has no bound."
    bounds = Range(figures.lower, figures.upper)
    return _certified(bounds) if figures.is_certificate else _routed(bounds)


def _certified(bounds: Range) -> str:
    """What a certificate shows."""
    low, high, answer = bounds.lower, bounds.upper, fits(bounds)
    if answer is Answer.YES:
        most = f", and no routing gives more: {OPTIMUM}" if bounds.exact else f"; no routing gives more than {percent_up(high - 1)} to spare"
        return f"Every demand fits{_spare(low)}{most}."
    if answer is Answer.NO:
        most = f"more: {OPTIMUM}" if bounds.exact else f"more than {percent_up(high)}"
        return f"Not every demand fits: {_carried(low, 'each')}, and no routing carries {most}."
    closer = "A smaller gap or more phases bring both closer."
    return f"Not decided: {_carried(low)}, and no routing carries more than {percent_up(high)}. {closer}"


def _carried(low: Fraction, what: str = "every demand") -> str:
    return f"these paths carry {percent_down(low)} of {what}"


def _spare(low: Fraction) -> str:
    left = spare(low)
    return f" with {percent_down(left)} to spare" if left else " with nothing to spare"


def _front(low: Fraction) -> str:
    """What paths carry by themselves."""
    if fits_by(low) is Answer.YES:
        return f"Every demand fits{_spare(low)} on these paths"
    return f"These paths carry {percent_down(low)} of every demand"


def _routed(bounds: Range) -> str:
    """What paths show beside the bound of a certificate of the same network."""
    high = bounds.upper
    most = f"gives more than {percent_up(high - 1)} to spare" if fits(bounds) is Answer.YES else f"carries more than {percent_up(high)}"
    return f"{_front(bounds.lower)}; no routing {most}."


def _nothing(figures: Figures) -> str:
    """Where the fraction is 0."""
    lost = figures.without_way
    if not lost:
        return "These paths carry nothing of some demand."
    some, greatest = counted(len(lost), "demand has", "demands have"), name(lost[0].demand)
    limit = " within their hop limits" if figures.keeps_limits else ""
    return f"{some} no way over links with capacity{limit}, the greatest of them {greatest}: no part of every demand can be carried."


def _total(bounds: Range, total: Fraction) -> str:
    """Where each demand is carried in part: the total is rounded down, its bound up."""
    low, high = bounds.lower, bounds.upper
    answer = fits(bounds.divided(total)) if total else Answer.YES
    if answer is Answer.YES:
        return f"Every demand is carried whole, {amount_down(total)} in all."
    # (a sum of demands has six decimals at most, so nothing of it is rounded)
    front = f"{amount_down(low)} of {amount_down(total)} in all ({percent_down(low / total) if low else '0.0 %'})"
    if answer is Answer.OPEN:
        return f"Not decided whether every demand fits: these paths carry {front}."
    most = f"more: {OPTIMUM}" if bounds.exact else f"more than {amount_up(high)} ({percent_up(high / total)})"
    return f"Not every demand fits: these paths carry {front}, and no routing carries {most}."


def growth(figures: Figures) -> str:
    """What the bottleneck says: which links make up the bound, and how far doubling the first of them can lift it."""
    shares: dict[str, Fraction] = {}
    for row in figures.bottleneck:
        shares[row.link] = shares.get(row.link, Fraction(0)) + (row.share or 0)
    if not shares or figures.upper is None:
        return ""
    ordered = sorted(shares.items(), key=lambda pair: -pair[1])
    first, share = ordered[0]
    count, together = _most_of(list(shares.values()))
    weight = f"{counted(count, 'link makes', 'links make')} up {percent(together)} of the bound"
    higher = figures.upper * (1 + share)
    most = f"{amount_up(min(higher, figures.total))} in all" if figures.is_total else f"{percent_up(higher)} of every demand"
    routing = "no routing within the hop limits" if figures.keeps_limits else "no routing"
    return f"{weight}. With twice the capacity on {name(first)} alone, {routing} would carry more than {most}."


def _most_of(shares: list[Fraction]) -> tuple[int, Fraction]:
    """How many of the greatest shares make up nine tenths of all of them, and what these make up."""
    count, together = 0, Fraction(0)
    ordered, enough = sorted(shares, reverse=True), sum(shares, Fraction(0)) * Fraction(9, 10)
    while together < enough:
        together += ordered[count]
        count += 1
    return count, together


def peak(figures: Figures) -> str:
    """The maximum link utilisation, where all demands are carried."""
    row = figures.most_utilised
    return percent(row.utilisation or Fraction(0)) if row else "0.0 %"
