"""Pages of a report: one file of HTML each, which needs nothing else."""

from __future__ import annotations

from dataclasses import dataclass
from fractions import Fraction
from functools import cache
from pathlib import Path
from typing import Any

import jinja2

from mcf import ScaledNetwork, version

from ..ranges import fits_by, spare
from . import sentences, shown
from .drawing import CLASSES, CLOSED, OVER, UNUSED, Drawing, drawing
from .extremes import TONES
from .figures import DemandFigures, Figures, LinkFigures
from .layout import layout
from .summary import Summary

COLOURS = ("#4393c3", "#92c5de", "#e6c34a", "#f4a05c", "#d6604d", "#8e0f24", "#4d004b")
LEGEND = (
    *((str(at), colour, words) for at, (colour, (_, words)) in enumerate(zip(COLOURS, (*CLASSES, *OVER)))),
    (UNUSED, "#c2cad2", "unused"),
    (CLOSED, "#9aa5b1", "without capacity"),
)


@dataclass(frozen=True)
class Side:
    """What a page says of one certificate or routing."""

    figures: Figures
    heading: str
    drawing: Drawing
    checked: str
    unit: str
    rows: int

    @property
    def suffix(self) -> str:
        """What stands behind the headings of its tables."""
        return f": {self.heading.lower()}" if self.heading else ""

    @property
    def bound(self) -> bool:
        """Whether shares are known."""
        return self.figures.is_certificate

    @property
    def about(self) -> str:
        """What the network is."""
        return about(self.figures.scaled)

    @property
    def verdict(self) -> str:
        """The sentence."""
        return shown.joined(sentences.verdict(self.figures))

    @property
    def tone(self) -> str:
        """The colour of the sentence."""
        low, high = self.figures.lower, self.figures.upper
        all_of_it = Fraction(self.figures.total if self.figures.is_total else 1)
        return TONES[fits_by(low, high, all_of_it)]

    @property
    def growth(self) -> str:
        """What more capacity would do."""
        return shown.joined(sentences.growth(self.figures))

    @property
    def cards(self) -> list[tuple[str, str]]:
        """The figures at the top."""
        low, high = self.figures.lower, self.figures.upper
        if self.figures.is_total:
            return self._total_cards(low, self.figures.total if high is None else high)
        cards = [("Carried of every demand", shown.percent_down(low) if low else "0.0 %")]
        if high is not None:
            within = " within the hop limits" if self.figures.keeps_limits else ""
            cards.append((f"No routing{within} carries more than", shown.percent_up(high)))
        left = spare(low)
        if left is not None:
            cards.append(("Headroom of all demands", shown.percent_down(left)))
        cards.append(("Maximum link utilisation", sentences.peak(self.figures) if self.figures.text.phases else "–"))
        cards.append(("All demands together", f"{shown.amount(self.figures.total)} {self.unit}".strip()))
        return cards

    def _total_cards(self, low: Fraction, high: Fraction) -> list[tuple[str, str]]:
        """The figures at the top, of a total."""
        total = self.figures.total
        return [
            ("Carried in all", f"{shown.amount_down(low)} {self.unit}".strip()),
            ("Of all demands together", shown.percent_down(low / total) if low else "0.0 %"),
            ("No routing carries more than", f"{shown.amount_up(min(high, total))} {self.unit}".strip()),
            ("Maximum link utilisation", sentences.peak(self.figures)),
            ("All demands together", f"{shown.amount(total)} {self.unit}".strip()),
        ]

    @property
    def load(self) -> str:
        """At which load links are shown in tables."""
        return "as the total is carried" if self.figures.is_total else "all demands carried once"

    @property
    def most(self) -> Fraction:
        """The greatest utilisation, but at least 1: what bars are measured by."""
        row = self.figures.most_utilised
        return max(Fraction(1), (row.utilisation if row else None) or Fraction(0))

    @property
    def cut(self) -> tuple[DemandFigures, ...]:
        """The demands without a way."""
        return self.figures.without_way[: self.rows]

    @property
    def demands(self) -> tuple[DemandFigures, ...]:
        """The demands that are shown."""
        return self.figures.demands[: self.rows]

    @property
    def more(self) -> int:
        """How many demands are not shown."""
        return max(0, len(self.figures.demands) - self.rows)


@dataclass(frozen=True)
class Change:
    """A link before and after, where it is there."""

    before: LinkFigures | None
    after: LinkFigures | None

    @property
    def any(self) -> LinkFigures:
        """The link that is there."""
        return self.after or self.before  # type: ignore[return-value]

    @property
    def used_before(self) -> Fraction | None:
        """The utilisation before."""
        return self.before.utilisation if self.before else None

    @property
    def used_after(self) -> Fraction | None:
        """The utilisation after."""
        return self.after.utilisation if self.after else None

    @property
    def share_before(self) -> Fraction | None:
        """The share before."""
        return self.before.share if self.before else None

    @property
    def share_after(self) -> Fraction | None:
        """The share after."""
        return self.after.share if self.after else None

    @property
    def difference(self) -> Fraction:
        """The change of utilisation."""
        return (self.used_after or Fraction(0)) - (self.used_before or Fraction(0))

    @property
    def change(self) -> str:
        """The same for people."""
        sign = "+" if self.difference > 0 else "−" if self.difference < 0 else "±"
        return sign + shown.percent(abs(self.difference)).removesuffix(" %")

    @property
    def capacity_before(self) -> str:
        """The capacity before."""
        return shown.amount(self.before.capacity) if self.before else "–"

    @property
    def capacity_after(self) -> str:
        """The capacity after."""
        return shown.amount(self.after.capacity) if self.after else "–"


def changes(before: Figures, after: Figures) -> list[Change]:
    """All links of both, the greatest change of utilisation first."""
    old = {(row.link, row.way): row for row in before.links}
    new = {(row.link, row.way): row for row in after.links}
    rows = [Change(old.get(key), new.get(key)) for key in {**old, **new}]
    return sorted(rows, key=lambda row: -abs(row.difference))


def sides_of(both: list[tuple[Figures, str, str]], rows: int) -> list[Side]:
    """The sides of a page from figures, what was said of them, and units; the same nodes stand at the same places."""
    headings = ["Before", "After"] if len(both) > 1 else [""]
    places = layout(both[0][0].scaled)
    done = []
    for (figures, checked, unit), heading in zip(both, headings):
        same = [node.id for node in figures.scaled.network.nodes] == [node.id for node in both[0][0].scaled.network.nodes]
        done.append(Side(figures, heading, drawing(figures, places if same else layout(figures.scaled)), checked, unit, rows))
    return done


def report_page(title: str, sides: list[Side]) -> str:
    """The page of one certificate, or of two side by side."""
    rows = changes(sides[0].figures, sides[1].figures) if len(sides) > 1 else []
    return render("report.html", title=title, sides=sides, changes=rows, most=max(one.most for one in sides))


def batch_page(title: str, rows: list[Summary], sentence: str, unit: str) -> str:
    """The page of many matrices on one network."""
    network = about(rows[0].figures.scaled, demands=False) if rows else ""
    most = max([Fraction(1), *((row.fullest.utilisation or Fraction(0)) for row in rows if row.fullest)])
    return render("batch.html", title=title, rows=rows, sentence=shown.joined(sentence), about=network, unit=unit, most=most)


def render(template: str, **values: Any) -> str:
    """A page of a template, which names the version and the commit that made it."""
    return _templates().get_template(template).render(colours=LEGEND, made_by=version.told(), **values)


def about(scaled: ScaledNetwork, demands: bool = True) -> str:
    """A network in a line."""
    network = scaled.network
    parts = [shown.counted(len(network.nodes), "node"), shown.counted(len(network.links), "link")]
    parts += [shown.counted(len(scaled.commodities), "demand")] if demands else []
    modes = {
        "undirected": "both ways of a link share its capacity",
        "directed": "links are one way",
        "bidirected": "each way of a link has its whole capacity",
    }
    return f"{', '.join(parts)}; {modes[scaled.links]}; modules: {scaled.modules}."


def bar(value: Fraction, most: Fraction | int = 1) -> int:
    """The width of a bar in pixels, 100 for the greatest value of its table."""
    return min(100, round(float(value / most) * 100)) if most else 0


def tenths(value: Fraction) -> str:
    """A number with one decimal."""
    return f"{float(value):.1f}"


@cache
def _templates() -> jinja2.Environment:
    """The templates, in which every text is escaped."""
    loader = jinja2.FileSystemLoader(Path(__file__).parent / "templates")
    found = jinja2.Environment(
        loader=loader, autoescape=True, undefined=jinja2.StrictUndefined, trim_blocks=True, lstrip_blocks=True
    )
    found.globals |= {
        "name": shown.name,
        "percent": shown.percent,
        "percent_up": shown.percent_up,
        "down": lambda value: shown.percent_down(value) if value else "0.0 %",
        "amount": shown.amount,
        "counted": shown.counted,
        "bar": bar,
        "tenths": tenths,
    }
    return found
