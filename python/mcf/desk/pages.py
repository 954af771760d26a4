"""The desk's page and its fragments, rendered from the state by templates that escape every text."""

from __future__ import annotations

from collections.abc import Callable, Mapping
from dataclasses import dataclass
from functools import cached_property
from importlib.resources import files
from typing import Any, Protocol

import jinja2
from markupsafe import Markup

from ..errors import TextError
from ..matrices import unit_of
from ..ranges import Ranged, fits
from ..report import shown
from ..report.page import LEGEND, about
from ..survey.words import grown, grown_sentence, growth_of
from .bounds import SHORT, Bounds
from .links import SORTS
from .maps import FAILURE_LEGEND, FEW, Button
from .maps import Ground as Places
from .outs import Out, Outs
from .state import Desk, Key
from .works import METHODS, Works

MOST_ROWS = 100
MOST_GROWTHS = 50
MOST_BITS = 10_000
DARK = {"f0": "#6cb6e8", "f5": "#ff6b81", "f6": "#d79bff", "fn": "#6b7a88", "fc": "#8a97a3", "x4": "#ff6b81", "xc": "#8a97a3"}
COLOURS = [(key, light, DARK.get(key, "")) for key, light, _ in ((f"f{key}", light, words) for key, light, words in LEGEND)]
COLOURS += [(key, light, DARK.get(key, "")) for key, light, _ in FAILURE_LEGEND]


@dataclass(frozen=True)
class Page:
    """What a page that asks has chosen: a link, the map that it shows, and a growth."""

    link: str = ""
    map: str = ""
    x: str = "1.1"
    times: str = "5"

    @classmethod
    def of(cls, fields: Mapping[str, str]) -> Page:
        """The page of a request's fields."""
        defaults = {"link": "", "map": "", "x": "1.1", "times": "5"}
        return cls(*(fields.get(f"page_{name}", default)[:100] for name, default in defaults.items()))


class Pages:
    """Renders a desk."""

    def __init__(self, desk: Desk, works: Works) -> None:
        """The state, and what was computed of it."""
        self.desk, self.works, self.ground = desk, works, desk.ground
        self.places = Places(self.ground.scaled, self.ground.places)
        self.unit = unit_of(self.ground.text.data.decode("latin-1"))
        self._shown: dict[str, tuple[list[int], set[int]]] = {}

    # -- whole pages

    def page(self) -> str:
        """The whole page."""
        with self.desk.lock:
            page = Page()
            parts = {**self._parts(page), "rows": self.rows("share", "")}
            key = self._map_key(page)
            return _templates().get_template("page.html").render(
                title=self.ground.stem, about=about(self.ground.scaled), fragments=parts, map_key=key, revision=self.desk.revision,
                sorts=SORTS, methods=METHODS, x=page.x, times=page.times)

    def style(self) -> str:
        """The style sheet."""
        return _templates().get_template("desk.css").render(colours=COLOURS)

    # -- fragments

    def fragments(self, page: Page) -> str:
        """All that may have changed, each in an element of its place's id."""
        with self.desk.lock:
            parts, key = self._parts(page), self._map_key(page)
        attributes = {"map": f' data-map="{key}"'}
        return "".join(f'<div id="{name}"{attributes.get(name, "")}>{text}</div>' for name, text in parts.items())

    def one(self, name: str, text: str) -> str:
        """One fragment."""
        return f'<div id="{name}">{text}</div>'

    def _parts(self, page: Page) -> dict[str, Markup]:
        """All fragments by their places; the map as a whole only where the page shows another one."""
        found, title = self.works.found, self.ground.title
        parts = {
            "bounds": self.bounds(), "edits": self.edits(), "job": self.job(), "link": self.link(page.link),
            "certificates": self._certificates(), "growth": self.growth(page), "out": self.out(),
            "failures": _part("failures", found.failures, self._is_now(found.failures), MOST_ROWS, title),
            "doublings": _part("doublings", found.doublings, self._is_now(found.doublings), MOST_ROWS, title),
            "routes": _part("routes", found.routes, self._is_now(found.routes)),
        }
        wanted = self._map_key(page)
        parts["changes"] = Markup() if wanted != page.map or wanted.startswith("x") else _part("changes", self._changes())
        return parts if wanted == page.map else {"map": self.map(wanted), **parts}

    def _is_now(self, found: Keyed | None) -> bool:
        """Whether something was computed of the state of now."""
        return found is not None and found.key == self.desk.key

    def bounds(self) -> Markup:
        """Both bounds in large."""
        desk = self.desk
        first = next((one for one in desk.certificates.values() if not one.edits), None)
        count = len(desk.steps) if desk.certificate else 0
        words = shown.counted(count, "changed link") if count else ""
        return _part("bounds", desk.shown, desk.certificate, words, first, desk.unsaved, self.limited)

    @cached_property
    def limited(self) -> str:
        """How many demands have a longest path in the file, in words."""
        count = sum(self.ground.network.demands[one.demand].hops is not None for one in self.ground.scaled.commodities)
        return shown.counted(count, "demand has a longest path", "demands have a longest path") if count else ""

    def edits(self) -> Markup:
        """The list of edits, the last one first."""
        done = self.desk.history.done
        return _part("edits", done[::-1][:MOST_ROWS], max(0, len(done) - MOST_ROWS), self.desk.history.undone, self.ground.title)

    def job(self) -> Markup:
        """The long piece of work."""
        return _part("job", self.desk.job)

    def link(self, word: str) -> Markup:
        """The chosen link."""
        if not word:
            return _part("link", None, None, 0, "")
        link = number_of(word)
        self.ground.require_link(link)
        return _part("link", self.desk.links().link(link), self.ground.installed[link], self.ground.scaled.decimals, self.unit)

    def rows(self, sort: str, wanted: str) -> Markup:
        """The list of links."""
        with self.desk.lock:
            links = self.desk.links()
        found = links.rows(sort, wanted)
        return _part("rows", found[:MOST_ROWS], len(found))

    def growth(self, page: Page) -> Markup:
        """What becomes of the bounds where demands grow."""
        now = self.desk.shown
        if not isinstance(now, Bounds):
            return _part("growth", "", None)
        try:
            growth, times = growth_of(page.x), number_of(page.times)
            if not 1 <= times <= MOST_GROWTHS:
                raise TextError(f"so many times: 1 to {MOST_GROWTHS}")
            if (growth.numerator.bit_length() + growth.denominator.bit_length()) * times > MOST_BITS:
                raise TextError("that number is too long to be taken so many times")
            words: Any = [shown.joined(grown_sentence(*one)) for one in grown(now.range, [growth**at for at in range(1, times + 1)])][::-1]
            words = words[::-1] if growth < 1 else words
        except TextError as why:
            words = str(why)
        return _part("growth", words, now)

    def _certificates(self) -> Markup:
        """The table of certificates, the last one first."""
        return _part("certificates", [*self.desk.certificates.values()][::-1], self.desk.active)

    # -- the map

    def _map_key(self, page: Page) -> str:
        """Which map a page is to show: failures if it shows them and they are still those of now, else utilisation."""
        failures = self.works.found.failures
        if page.map.startswith("x") and failures is not None and failures.key == self.desk.key:
            return f"x:{self.works.found.number}"
        return f"f:{self.desk.active or 'none'}"

    def failure_page(self, page: Page) -> Page:
        """The same page as it shows failures."""
        return Page(page.link, "x", page.x, page.times)

    def plain_page(self, page: Page) -> Page:
        """The same page as it shows utilisation."""
        return Page(page.link, "f", page.x, page.times)

    def map(self, key: str) -> Markup:
        """The map."""
        links, failures = self.desk.links(), self.works.found.failures
        few = len(self.ground.scaled.cells) <= FEW
        if key.startswith("x") and failures is not None:
            found = {one.link: one.range for one in failures.cases}
            drawing = self.places.failures(links, found, failures.base.range)
            legend = [(name, words) for name, _, words in FAILURE_LEGEND]
            words = "The fraction of every demand falls at least by"
            return _part("map", drawing, "Map of failures: each link is a button", legend, words, few)
        legend = [(f"f{name}", words) for name, _, words in LEGEND]
        self._moved(self.places.buttons(links))
        return _part("map", self.places.used(links), "Map of the network: each link is a button", legend, "Utilisation", few)

    def _changes(self) -> list[Button]:
        """The buttons that a page may show otherwise: an edit changes the share of the bound of each link."""
        buttons = self.places.buttons(self.desk.links())
        return [buttons[cell] for cell in sorted(self._moved(buttons))]

    def _moved(self, buttons: list[Button]) -> set[int]:
        """The cells whose buttons were ever shown otherwise on this map than when it was shown first."""
        marks = [hash((button.title, button.at_full, button.width)) for button in buttons]
        first, moved = self._shown.setdefault(self.desk.active or "", (marks, set()))
        moved |= {cell for cell, mark in enumerate(marks) if mark != first[cell]}
        return moved

    # -- out

    def out(self) -> Markup:
        """What can be taken away."""
        one = self.desk.certificate
        return _part("out", Outs(self.desk).rows(one) if one else [Out("No certificate yet: solve first.")])


class Keyed(Protocol):
    """What is of a state of the desk."""

    @property
    def key(self) -> Key:
        """The state."""


def number_of(word: str) -> int:
    """A whole number of a request; TextError where it is none."""
    if not (word.isascii() and word.isdigit() and len(word) < 10):
        raise TextError(f"{word[:40]!r} is no whole number")
    return int(word)


def _part(name: str, *values: object) -> Markup:
    """A fragment of a macro's name."""
    macro: Callable[..., Any] = getattr(_macros(), name)
    return Markup(str(macro(*values)).strip())


def _short(of: Ranged) -> str:
    """Whether all demands fit, in a word."""
    return SHORT[fits(of.range)]


_ENVIRONMENT: list[jinja2.Environment] = []


def _templates() -> jinja2.Environment:
    """The templates, read once from the package; every text in them is escaped."""
    if not _ENVIRONMENT:
        folder = files(__package__).joinpath("templates")
        texts = {file.name: file.read_text("utf-8") for file in folder.iterdir() if file.name.endswith((".html", ".css"))}
        made = jinja2.Environment(loader=jinja2.DictLoader(texts), autoescape=lambda name: not (name or "").endswith(".css"),
                                  undefined=jinja2.StrictUndefined, trim_blocks=True, lstrip_blocks=True)
        made.globals |= {"amount": shown.amount, "percent": shown.percent, "counted": shown.counted, "short": _short}
        made.filters |= {"lower_first": lambda text: text[:1].lower() + text[1:], "upper_first": lambda text: text[:1].upper() + text[1:]}
        _ENVIRONMENT.append(made)
    return _ENVIRONMENT[0]


def _macros() -> Any:
    """The macros of fragments."""
    return _templates().get_template("parts.html").module
