"""Studies for notebooks: `mcf.study`, which gives a frame."""

from __future__ import annotations

import math
import os
import tempfile
from collections.abc import Iterable, Mapping, Sequence
from fractions import Fraction
from typing import TYPE_CHECKING, Any, TypeVar

from ..commands import program_path
from ..given import Number, decimal_word, name_of, number_of, word_of
from ..limits import MAX_DECIMALS
from ..needs import needed
from ..network import Network as Rows
from ..network import MODULES
from ..networks import Network, Path, of
from ..route.lengths import COSTS, LENGTHS
from ..scaled import LINK_MODES
from .changes import FAILURES, Fibres, all_changes, capacities, groups
from .scenarios import MOST_PATHS, ROUTINGS, Asked, Change, Ground, Matrix, Plan, demand_rows, digest_of

if TYPE_CHECKING:
    import pandas

    from .store import Store

_Value = TypeVar("_Value")


def study(network: Network | Path, matrices: Mapping[str, Any] | Sequence[Path] | Path = (), *, failures: Iterable[str] | str = (),
          groups: Mapping[str, Iterable[str]] | None = None, changes: Mapping[str, Mapping[str, Number]] | None = None,
          fibres: bool = False, intact: bool = False, grow: Iterable[Number] = (1,), routing: Iterable[str] | str = ("best",),
          without_cut: bool = False, gap: Number | None = None, phases: int | None = None, step: int | None = None,
          links: str | None = None, modules: str = "largest", lengths: str = "hops", cost: str = "routing", paths: int = 4,
          seconds: float = 300.0, from_unit: str | None = None, round: int | None = None, store: Path | None = None,
          jobs: int | None = None,
          scheduler: str | None = None, keep: bool = False, recheck: bool = False, progress: bool = True, exact: bool = False) -> pandas.DataFrame:
    """Many scenarios, matrices × changes × routings × growths, as a frame with a row for each; each was solved and judged.

    matrices: {name: what `Network.with_demands` takes}, or paths of lists, SNDlib's XML, tables, folders and archives; without them the
    network's own demands. failures: some of `links`, `nodes` and `pairs`. groups: {name: links and nodes that fail together}. changes:
    {name: {link: capacity}}. fibres: both arcs of a fibre change together. intact: the network as it is too. grow: all demands times
    each. routing: some of `best`, `exact`, `ecmp`, `hops`, `capacity`, `cost` and `k-paths`. without_cut: where demands have no way, the
    others too. from_unit, round: the unit of matrices of files that say none, and to how many decimals their amounts are rounded.

    gap, phases, step, links, modules: as `Network.solve` has them. lengths, cost, paths: of the rules, as `Network.route` has them.
    seconds: the time of a scenario for `exact` and `k-paths`.

    store: the file that keeps what is done, so that the same call goes on where it was; without it nothing is kept. jobs: processes of
    this machine (one for each processor; 1 starts none). scheduler: that of a cluster of Dask, in place of processes of this machine.
    keep, recheck: keep certificates; judge them here again. exact: bounds as Fractions in place of the nearest floats, which may lie
    on either side.

    ValueError for an unknown name, a table or a number that cannot be; McfError where the program or a cluster fails.
    """
    with needed():
        from .tool import done
    ground = of(network)
    mode = links or ground.mode
    for what, given, known in (("lengths", lengths, LENGTHS), ("cost", cost, COSTS), ("modules", modules, MODULES), ("links", mode, LINK_MODES)):
        _known(given, known, what)
    _require_numbers(paths, seconds, round, jobs, scheduler)
    asked = Asked(mode, modules, None if gap is None else decimal_word(number_of(gap, "gap")), _word(phases), _word(step), lengths, cost,
                  paths, seconds)
    with tempfile.TemporaryDirectory(prefix="mcf-study-") as room:
        kept = _store(os.fspath(store) if store is not None else os.path.join(room, "study.db"))
        try:
            plan = Plan(Ground.of(ground.rows), _matrices(ground, matrices, from_unit, round, kept), _changes(ground, asked.links, failures, groups, changes, fibres, intact),
                        _known(routing, ROUTINGS, "routing"), asked, list(dict.fromkeys(map(_growth, grow))))
            done(plan, kept, keep or recheck, without_cut, recheck, jobs, scheduler, program_path(), not progress)
            return _frame(plan, kept, exact)
        finally:
            kept.close()


def _require_numbers(paths: int, seconds: float, decimals: int | None, jobs: int | None, scheduler: str | None) -> None:
    """ValueError where a number is out of its range, or means nothing beside a scheduler."""
    if not 1 <= paths <= MOST_PATHS:
        raise ValueError(f"paths: {paths} is not from 1 to {MOST_PATHS}")
    if not 0 < seconds < math.inf:
        raise ValueError(f"seconds: {seconds} is no number of seconds above 0")
    if decimals not in (None, *range(MAX_DECIMALS + 1)):
        raise ValueError(f"round: {decimals} is not from 0 to {MAX_DECIMALS}")
    if jobs is not None and jobs < 1:
        raise ValueError(f"jobs: {jobs} is less than 1")
    if jobs is not None and scheduler is not None:
        raise ValueError("jobs: they are of this machine, and a scheduler has its own workers")


def _word(number: int | None) -> str | None:
    """A number as a word."""
    return None if number is None else str(int(number))


def _growth(number: Number) -> str:
    """The word of a growth."""
    value = number_of(number, "grow")
    if not value:
        raise ValueError("grow: 0 leaves no demands")
    return decimal_word(value)


def _known(given: Iterable[str] | str, known: Sequence[str], what: str) -> list[str]:
    """Some of the known words; ValueError for another one."""
    words = [given] if isinstance(given, str) else list(given)
    other = next((word for word in words if word not in known), None)
    if other is not None or not words and what == "routing":
        raise ValueError(f"{what}: {other!r} is none of {', '.join(known)}")
    return list(dict.fromkeys(words))


def _store(path: str) -> Store:
    """The store at a path."""
    from .store import Store
    return Store(path)


def _matrices(network: Network, given: Mapping[str, Any] | Sequence[Path] | Path, from_unit: str | None, decimals: int | None,
              store: Store) -> list[Matrix]:
    """The matrices, whose texts are kept in the store."""
    from .matrices import How, Told
    from .tool import own_demands, read, tell
    if not given:
        return own_demands(network, store)
    if not isinstance(given, Mapping):
        paths = [given] if isinstance(given, (str, os.PathLike)) else given
        return read([os.fspath(path) for path in paths], network, How(from_unit, decimals), store)
    found, told = [], Told()
    for word, demands in _by_word(given, "matrix").items():
        try:
            rows = demand_rows(network.with_demands(demands).rows.demands)
        except ValueError as why:
            raise ValueError(f"matrix {name_of(word)!r}: {why}") from None
        found.append(Matrix(word, digest_of(rows)))
        told.take_limits(found[-1], rows)
        store.keep_texts([(found[-1].digest, rows)])
    tell(told)
    return found


def _by_word(given: Mapping[str, _Value], what: str) -> dict[str, _Value]:
    """What is given by names, by their words; ValueError where two names have one."""
    found: dict[str, _Value] = {}
    for name, value in given.items():
        word = word_of(name, what)
        if word in found:
            raise ValueError(f"{what} {name!r}: another one has that name too")
        found[word] = value
    return found


def _changes(network: Network, mode: str, failures: Iterable[str] | str, together: Mapping[str, Iterable[str]] | None,
             other: Mapping[str, Mapping[str, Number]] | None, fibres: bool, intact: bool) -> list[Change]:
    """All changes."""
    rows, pairs = network.rows, Fibres(network.rows, fibres)
    pairs.require(mode)
    more = groups(rows, {word: _members(rows, name_of(word), members) for word, members in _by_word(together or {}, "group").items()}, pairs)
    for word, sizes in _by_word(other or {}, "change").items():
        known = network._numbers(sizes, [link.id for link in rows.links], "link")
        more.append(capacities("change", word, {link: size for first, size in known.items() for link in pairs.all_of([first])}))
    return all_changes(rows, _known(failures, FAILURES, "failures"), more, pairs, intact)


def _members(rows: Rows, name: str, members: Iterable[str]) -> tuple[list[str], list[str]]:
    """The links and nodes of a group; ValueError for a name that is neither, or both."""
    links, nodes = {link.id for link in rows.links}, {node.id for node in rows.nodes}
    found: tuple[list[str], list[str]] = ([], [])
    for member in [members] if isinstance(members, str) else members:
        word = word_of(member, f"group {name!r}")
        if (word in links) == (word in nodes):
            raise ValueError(f"group {name!r}: {member!r} is {'both a link and a node' if word in links else 'no link and no node'}")
        found[word in nodes].append(word)
    return found


def _frame(plan: Plan, store: Store, exact: bool) -> pandas.DataFrame:
    """The frame of all cases."""
    import pandas

    from .answers import COLUMNS, cases, record
    names = [name for name in COLUMNS if not name.endswith("_decimal")]
    rows = [record(case) for case in cases(plan, store)]
    made = pandas.DataFrame({name: pandas.Series([row[name] for row in rows], dtype=object) for name in names}, columns=names)
    if not exact:
        for name in ("growth", "lower", "upper", "rest_lower", "rest_upper"):
            made[name] = [float(value) if isinstance(value, Fraction) else float("nan") for value in made[name]]
    made["seconds"] = made["seconds"].astype(float)
    return made
