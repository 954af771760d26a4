"""`ranges`: whatever is said of ranges holds for all values that lie in them."""

from __future__ import annotations

import ast
from dataclasses import dataclass
from fractions import Fraction
from pathlib import Path

import pytest

pytest.importorskip("hypothesis", reason="python3-hypothesis is missing: tools/setup --tests")

from hypothesis import given  # noqa: E402
from hypothesis import strategies as st  # noqa: E402

from mcf.errors import TextError  # noqa: E402
from mcf.ranges import (  # noqa: E402
    Answer, Range, best, fits, gains, in_order, least_gain, least_loss, most_gain, shortfall, status, worst,
)


@dataclass(frozen=True)
class Named:
    """A case with a name and a range; `value` is the true one, which the answers do not know."""

    name: str
    range: Range
    value: Fraction


def of(**ends: tuple[object, object]) -> list[Named]:
    """Cases by their names."""
    return [Named(name, Range(Fraction(low), Fraction(high)), Fraction(low)) for name, (low, high) in ends.items()]


def names(cases: tuple[Named, ...]) -> str:
    """The names of cases."""
    return "".join(case.name for case in cases)


# Few values, so that ends meet often: at 1, and of one case at those of another one.
fractions = st.integers(0, 12).map(lambda number: Fraction(number, 6))


@st.composite
def ranged(draw: st.DrawFn) -> Named:
    """A case with a true value in its range."""
    low, value, high = sorted(draw(st.tuples(fractions, fractions, fractions)))
    return Named("", Range(low, high), value)


def test_fits_by_hand() -> None:
    for low, high, answer in ((1, 1, Answer.YES), (1, 2, Answer.YES), (0, Fraction(99, 100), Answer.NO), (Fraction(1, 2), 1, Answer.OPEN),
                              (0, 3, Answer.OPEN)):
        assert fits(Range(Fraction(low), Fraction(high))) is answer


def test_worst_and_best_by_hand() -> None:
    apart = of(a=(1, 2), b=(3, 4), c=(5, 6))
    assert worst(apart).alone and names(worst(apart).cases) == "a" and worst(apart).range == Range(Fraction(1), Fraction(2))
    assert best(apart).alone and names(best(apart).cases) == "c" and best(apart).range == Range(Fraction(5), Fraction(6))
    meet = of(a=(1, 2), b=(2, 4), c=(5, 6))
    assert names(worst(meet).cases) == "ab" and not worst(meet).alone and not worst(meet).equal and not worst(meet).is_open
    assert worst(meet).range == Range(Fraction(1), Fraction(2))
    quick = of(a=(0, 2), b=(0, 4), c=(0, 6))
    assert worst(quick).is_open and not worst(quick).alone and worst(quick).range == Range(Fraction(0), Fraction(2))
    assert names(best(of(a=(1, 9), b=(2, 3), c=(0, 1))).cases) == "ab"
    alone = of(a=(0, 9))
    assert worst(alone).alone and best(alone).alone and not worst(alone).is_open


def test_equal_values_by_hand() -> None:
    both = worst(of(a=(2, 2), b=(2, 2), c=(3, 4)))
    assert both.equal and names(both.sure) == "ab" and not both.alone and not both.is_open
    one = worst(of(a=(0, 0), b=(0, 5), c=(0, 6)))
    assert names(one.sure) == "a" and names(one.cases) == "abc" and not one.equal and not one.alone and not one.is_open
    assert not worst(of(a=(1, 2), b=(1, 1))).alone, "b may be as great as a"
    assert worst(of(a=(1, 1), b=(1, 2))).sure and best(of(a=(2, 2), b=(1, 2))).sure


def test_gains_by_hand() -> None:
    base = Range(Fraction(2), Fraction(3))
    assert gains(Range(Fraction(4), Fraction(5)), base) is Answer.YES
    assert gains(Range(Fraction(3), Fraction(5)), base) is Answer.OPEN
    assert gains(Range(Fraction(1), Fraction(2)), base) is Answer.NO
    assert most_gain(Range(Fraction(3), Fraction(5)), base) == Fraction(3, 2) and least_gain(Range(Fraction(4), Fraction(5)), base) == Fraction(1, 3)
    assert least_loss(Range(Fraction(1, 2), Fraction(1)), base) == Fraction(1, 2)
    nothing = Range(Fraction(0), Fraction(0))
    assert most_gain(base, nothing) is None and least_gain(base, nothing) == 1 and least_gain(nothing, nothing) == 0
    assert least_loss(nothing, nothing) == 0 and gains(nothing, nothing) is Answer.NO


def test_shortfall_by_hand() -> None:
    assert shortfall(Fraction(3), Range(Fraction(4), Fraction(4))) == Range(Fraction(1, 4), Fraction(1, 4))
    assert shortfall(Fraction(3), Range(Fraction(2), Fraction(4))) == Range(Fraction(0), Fraction(1, 4))
    assert shortfall(Fraction(0), Range(Fraction(0), Fraction(0))) == Range(Fraction(0), Fraction(0))
    with pytest.raises(TextError, match="contradict"):
        shortfall(Fraction(5), Range(Fraction(2), Fraction(4)))


def test_bounds_that_contradict_each_other_are_refused() -> None:
    for low, high in ((2, 1), (-1, 1)):
        with pytest.raises(TextError, match="contradict"):
            Range(Fraction(low), Fraction(high))
    with pytest.raises(TextError, match="contradict"):
        Range(Fraction(1), Fraction(2)).both(Range(Fraction(3), Fraction(4)))


def test_order_by_hand() -> None:
    cases = of(a=(2, 3), b=(1, 9), c=(2, 2), d=(1, 9))
    assert names(in_order(cases)) == "bdca" and names(in_order(cases, greatest_first=True)) == "acbd"


@given(st.lists(ranged(), max_size=5))
def test_the_status_is_0_only_if_all_fit(cases: list[Named]) -> None:
    if status(case.range for case in cases) == 0:
        assert all(case.value >= 1 for case in cases)
    else:
        assert any(case.range.lower < 1 for case in cases)


@given(ranged())
def test_fits_holds(case: Named) -> None:
    assert fits(case.range) in ((Answer.YES, Answer.OPEN) if case.value >= 1 else (Answer.NO, Answer.OPEN))
    assert (fits(case.range) is Answer.OPEN) == (case.range.lower < 1 <= case.range.upper)


@given(st.lists(ranged(), min_size=1, max_size=6))
def test_worst_and_best_hold(cases: list[Named]) -> None:
    for found, value in ((worst(cases), min(case.value for case in cases)), (best(cases), max(case.value for case in cases))):
        having = [case for case in cases if case.value == value]
        assert all(case in found.cases for case in having), "each that has it is named"
        assert found.range.lower <= value <= found.range.upper and found.of == len(cases)
        assert all(case.value == value for case in found.sure)
        if found.alone:
            assert having == list(found.cases)
        if found.equal:
            assert all(case.value == value for case in found.cases) and len(having) == len(found.cases)


@given(st.lists(ranged(), min_size=1, max_size=6))
def test_nobody_is_named_who_cannot_be_it(cases: list[Named]) -> None:
    for case in worst(cases).cases:
        assert all(case.range.lower <= other.range.upper for other in cases), "it is the least where it is at its lower end"
    for case in best(cases).cases:
        assert all(case.range.upper >= other.range.lower for other in cases)


@given(ranged(), ranged())
def test_gains_and_losses_hold(new: Named, base: Named) -> None:
    answer = gains(new.range, base.range)
    if answer is not Answer.OPEN:
        assert (new.value > base.value) == (answer is Answer.YES)
    most = most_gain(new.range, base.range)
    if base.value:
        change = new.value / base.value - 1
        assert least_gain(new.range, base.range) <= max(0, change) and least_loss(new.range, base.range) <= max(0, -change)
        assert most is None or change <= most
    else:
        assert least_loss(new.range, base.range) == 0 and most is None
        assert least_gain(new.range, base.range) == 0 or new.value > 0


@given(fractions, ranged())
def test_shortfall_holds(carried: Fraction, best_of_all: Named) -> None:
    if carried > best_of_all.value:
        return
    found = shortfall(carried, best_of_all.range)
    true = 1 - carried / best_of_all.value if best_of_all.value else Fraction(0)
    assert found.lower <= true <= found.upper


@given(ranged(), ranged(), fractions)
def test_ranges_are_joined_and_divided(one: Named, other: Named, growth: Fraction) -> None:
    try:
        both = one.range.both(other.range)
    except TextError:
        assert one.value != other.value
    else:
        assert one.value != other.value or both.lower <= one.value <= both.upper
    if growth:
        grown = one.range.divided(growth)
        assert grown.lower <= one.value / growth <= grown.upper
    assert not one.range.within(growth) or one.range.upper <= one.value * (1 + growth)
    assert not one.range.exact or one.value == one.range.lower


# -- nothing else compares bounds

BOUNDS = {"lower", "upper", "low", "high", "bounds", "carried", "range"}
WITHOUT = ("build", "convert", "hints", "lp", "release", "trees")
"""What says nothing of bounds to people: the linear programs look for them, and the rest has none."""


def names_in(node: ast.expr) -> set[str]:
    """The names and attributes of an expression."""
    found = {one.id for one in ast.walk(node) if isinstance(one, ast.Name)}
    return found | {one.attr for one in ast.walk(node) if isinstance(one, ast.Attribute)}


def compared(file: Path) -> list[str]:
    """The places of a module where something is compared by its size or its value with a bound."""
    tree = ast.parse(file.read_text())
    by_value = (ast.Lt, ast.LtE, ast.Gt, ast.GtE, ast.Eq, ast.NotEq)
    found = [one for one in ast.walk(tree) if isinstance(one, ast.Compare) and any(isinstance(op, by_value) for op in one.ops)]
    return [f"{file.name} line {one.lineno}: {ast.unparse(one)}" for one in found if names_in(one) & BOUNDS]


def test_the_search_finds_a_comparison(tmp_path: Path) -> None:
    (tmp_path / "x.py").write_text("def f(a, low):\n    return a.upper is None or low >= 1\n")
    assert compared(tmp_path / "x.py") == ["x.py line 2: low >= 1"]


def test_no_other_module_compares_bounds() -> None:
    package = Path(__file__).resolve().parents[2] / "python/mcf"
    modules = [file for file in package.rglob("*.py") if file.relative_to(package).parts[0] not in (*WITHOUT, "ranges.py")]
    assert len(modules) > 80
    assert [place for file in modules for place in compared(file)] == []
