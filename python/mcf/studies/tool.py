"""The tool: from its words to the study, and from what that found to its tables, pages, sentences and status."""

from __future__ import annotations

import logging
import os
from collections.abc import Sequence
from pathlib import Path

from .. import jsons, output
from ..convert import native
from ..convert.model import Notes
from ..convert.numbers import UNITS, Unit
from ..errors import McfError, TextError
from ..linkmode import link_mode
from ..networks import Network
from ..networks import read as read_file
from . import answers
from .asked import Words
from .changes import Fibres, all_changes, groups, read_changes, read_groups
from .matrices import How, Told, own, read_matrices
from .run import Place, run
from .scenarios import Asked, Ground, Matrix, Plan
from .store import Store, Wanted
from .words import sentences


def study(words: Words, program: str) -> int:
    """Makes the study that words ask for, and says the status."""
    # (asyncio tells of what nobody waited for when it is let go, which may be behind the end of all work)
    logging.getLogger("asyncio").setLevel(logging.CRITICAL + 1)
    store = Store(words.store)
    try:
        plan = planned(words, _network(words.net, program), store)
        # (workers of another machine have a program of their own, unless one is named)
        place = Place(words.jobs, words.scheduler, words.mcf if words.scheduler else program, program, words.quiet)
        run(plan, store, Wanted(words.keep or words.recheck, words.without_cut, words.recheck), place, say)
        return told(words, plan, store, program)
    finally:
        store.close()


def done(plan: Plan, store: Store, keep: bool, without_cut: bool, recheck: bool, jobs: int | None, scheduler: str | None, program: str,
         quiet: bool) -> None:
    """Does what is left of a plan, for a notebook."""
    for name, routing in plan.asked.unused(plan.routings):
        say(f"{name} means nothing for the routing {routing}")
    wanted = Wanted(keep, without_cut, recheck)
    run(plan, store, wanted, Place(jobs or len(os.sched_getaffinity(0)), scheduler, None if scheduler else program, program, quiet), say)


def say(line: str) -> None:
    """A line beside what is written."""
    jsons.note(output.one_line(line), "study")


def _network(path: str, program: str) -> Network:
    """The network of a file, in any format that is read."""
    os.environ["MCF"] = program
    try:
        return read_file(path)
    except McfError as why:
        raise TextError(str(why)) from None


def planned(words: Words, network: Network, store: Store) -> Plan:
    """The plan that words ask for; the matrices are kept in the store."""
    mode = words.links or network.mode
    if words.links is None:
        _tell_links(words.net, network)
    fibres = Fibres(network.rows, words.fibres)
    fibres.require(mode)
    more = groups(network.rows, read_groups(words.groups, network.rows), fibres) if words.groups else []
    if words.changes:
        more += read_changes(words.changes, network.rows, _unit(network), fibres)
    changes = all_changes(network.rows, words.failures, more, fibres, words.intact)
    matrices = _matrices(words, network, store)
    phases, step = (None if number is None else str(number) for number in (words.phases, words.step))
    asked = Asked(mode, words.modules, words.gap, phases, step, words.lengths, words.cost, words.paths, words.seconds)
    for name, routing in asked.unused(words.routing):
        say(f"--{name} means nothing for the routing {routing}")
    return Plan(Ground.of(network.rows), matrices, changes, words.routing, asked, words.grow)


def _tell_links(path: str, network: Network) -> None:
    """Says how links are read, where the file says another way than the usual one, or a comment of it mentions one."""
    said = link_mode(path, network.data).said
    if said:
        say(said)


def _matrices(words: Words, network: Network, store: Store) -> list[Matrix]:
    """The matrices, which go into the store; the network's own demands where no others are asked for."""
    if not words.matrices:
        return own_demands(network, store)
    return read(words.matrices, network, How(words.from_unit, words.round), store)


def own_demands(network: Network, store: Store) -> list[Matrix]:
    """The network's own demands, whose text goes into the store."""
    told = Told()
    matrix, rows = own(network.rows)
    told.take_limits(matrix, rows)
    store.keep_texts([(matrix.digest, rows)])
    tell(told)
    return [matrix]


def tell(told: Told) -> None:
    """Says what is noted of matrices."""
    for line in told.lines():
        say(line)


def read(paths: Sequence[str], network: Network, how: How, store: Store) -> list[Matrix]:
    """The matrices of files, whose texts go into the store; what is noted of them is said."""
    if how.from_unit is not None and how.from_unit not in UNITS:
        raise TextError(f"from-unit: {how.from_unit!r} is none of {', '.join(UNITS)}")
    told = Told()
    found = read_matrices(paths, network.data, how, lambda key, rows: store.keep_texts([(key, rows)]), told)
    tell(told)
    return found


def _unit(network: Network) -> Unit:
    """The unit of the network, in which plain numbers of tables are too."""
    return Unit(native.read_network("the network", network.data, Notes(quiet=True)).bits, True)


def told(words: Words, plan: Plan, store: Store, program: str) -> int:
    """Writes what is asked for, and says the sentences; the status."""
    if words.csv:
        with output.writing(words.csv) as file:
            for line in answers.table(answers.cases(plan, store)):
                file.write(line.encode("utf-8"))
    found = answers.summaries(plan, store)
    status = answers.status_of(found)
    if words.html:
        from .page import study_page
        output.write(words.html, study_page(words.title, Path(os.fsencode(words.net).decode("utf-8", "replace")).stem, plan, store, found, program).encode("utf-8", "replace"))
    said = sentences(plan, found)
    for sentence in said if words.csv != "-" and words.html != "-" else ():
        jsons.say(sentence)
    jsons.put(store=words.store, outputs=[*filter(None, (words.csv, words.html))], parts=lambda: [answers.part_values(part) for part in found],
              scenarios=lambda: [answers.case_values(case) for case in answers.cases(plan, store)])
    return status
