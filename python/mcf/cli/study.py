"""A study: matrices × failures and other changes × growth × routing, each scenario with both bounds, here or on a cluster."""

from __future__ import annotations

import argparse
import os
import sys
from multiprocessing import current_process
from pathlib import Path
from typing import NoReturn

from mcf import LINK_MODES, MODULES, TextError, find_program, fraction_of, jsons
from mcf.arguments import Arguments
from mcf.asked import millionths, seconds
from mcf.limits import MAX_PHASES, MAX_STEP
from mcf.needs import needed
from mcf.output import STANDARD, main_of, require_outputs, write
from mcf.route.lengths import COSTS, LENGTHS

EXAMPLES = """
examples:
  study polska.net                                               the network as it is
  study polska.net --failures links,nodes --csv failures.csv     each single link and each single node fails
  study polska.net --failures pairs --html pairs.html            each two links, with a page
  study abilene.net --matrices day.tgz --failures links          288 matrices of a day, each with each link closed
  study polska.net --groups conduits.csv --grow 1,1.1,1.21       links that fail together, and growth
  study polska.net --failures links --routing best,ecmp,hops     today's routing beside the best
  study big.net --failures pairs --scheduler tcp://head:8786     on a cluster of Dask, which docs/study/studies.md shows how to make
  study show 3f2a --network worst.net > worst.cert               the certificate of a scenario that was kept by --keep

What is done is kept in the file of --store as it comes; the same command goes on where it was, whatever ended it, and a wider one
does what is new. Each scenario is solved by `mcf solve` with one worker and its own whole budget, and judged by `mcf check`.

tables: --groups has the columns group, and link, node or both; --changes has scenario, link, capacity
matrices: lists as `batch` reads them, SNDlib's XML, tables of demands; folders and archives of these, in the order of their times
routings: best (mcf solve), exact (to a millionth, as tools/certify), and the rules ecmp, hops, capacity, cost, k-paths of tools/route

A node that fails takes its links, and its own demands are left out (column left_out). Where a demand has no way the fraction is 0
and the demand is named (without_way); --without-cut tells the fraction of the rest too. Growth divides both bounds; nothing is solved
for it. Of a rule the certificate shows what it carries, and not that it can carry no more: its fits is yes or undecided, unless a
demand has no way. The column note says where its shares were rounded, or the time was too short for its best split.

status: 0 all demands fit in each scenario; 1 in some they do not, or it is not decided; 2 no answer; 130 interrupted
"""
SHOW = """
examples:
  study show 3f2a8c > one.cert                     the certificate of the scenario whose key begins so
  study show 3f2a8c --network one.net > one.cert   its network too: mcf check one.net one.cert judges it
  study show 3f2a8c --rest --network rest.net      of a scenario where some demand has no way: the others
"""


def options() -> Arguments:
    """The grammar of the words."""
    parser = Arguments("study", __doc__, EXAMPLES)
    parser.add_argument("net", metavar="NET", help="the network")
    _add_scenarios(parser)
    _add_solves(parser)
    run = parser.add_argument_group("how it runs")
    run.add_argument("--store", default="study.db", metavar="FILE", help="where all that is done is kept (study.db)")
    run.add_argument("--jobs", type=int, metavar="N", help="processes of this machine (one for each processor); 1 starts none")
    run.add_argument("--scheduler", metavar="ADDRESS", help="a scheduler of Dask, as tcp://head:8786, whose workers do the work")
    run.add_argument("--keep", action="store_true", help="keep the certificates, for `study show KEY`")
    run.add_argument("--recheck", action="store_true", help="judge each certificate here again; keeps them too")
    run.add_argument("--quiet", action="store_true", help="no progress bar")
    run.add_argument("--mcf", metavar="PATH", help="the program; without it that of the environment's MCF, else ./mcf of the repository")
    out = parser.add_argument_group("what it writes")
    out.add_argument("--csv", metavar="OUT", help="write the table there; - is standard output")
    out.add_argument("--html", metavar="OUT", help="write the page there")
    out.add_argument("--title", help="the page's title")
    return parser


def _add_scenarios(parser: Arguments) -> None:
    """The words for what is changed."""
    what = parser.add_argument_group("the scenarios")
    what.add_argument("--matrices", nargs="+", default=[], metavar="FILE", help="demand matrices in place of the network's own demands")
    what.add_argument("--from-unit", metavar="UNIT", help="the unit of matrices that say none, as Mbit")
    what.add_argument("--round", type=int, choices=range(7), metavar="N", help="round the matrices' amounts to so many decimals")
    what.add_argument("--failures", type=_list, default=[], metavar="KINDS", help="links, nodes, pairs: a list with commas")
    what.add_argument("--groups", metavar="FILE", help="a table of links and nodes that fail together")
    what.add_argument("--changes", metavar="FILE", help="a table of other capacities")
    what.add_argument("--fibres", action="store_true", help="both arcs of a fibre, which are directed links, change together")
    what.add_argument("--intact", action="store_true", help="the network as it is too, beside its changes")
    what.add_argument("--grow", type=_list, default=["1"], metavar="X,..", help="all demands times each of these (1)")
    what.add_argument("--routing", type=_list, default=["best"], metavar="R,..", help="best, exact, ecmp, hops, capacity, cost, k-paths (best)")
    what.add_argument("--without-cut", action="store_true", help="where demands have no way, solve for the others too")


def _add_solves(parser: Arguments) -> None:
    """The words for each solve."""
    how = parser.add_argument_group("each scenario")
    how.add_argument("--links", choices=LINK_MODES, help="how links are read (as the file says, else undirected)")
    how.add_argument("--modules", choices=MODULES, default="largest", help="which modules count (largest)")
    how.add_argument("--gap", metavar="G", help="the gap of each solve; that of the program without it")
    how.add_argument("--phases", type=int, metavar="N", help="the phases of each solve")
    how.add_argument("--step", type=int, metavar="N", help="the step of each solve")
    how.add_argument("--lengths", choices=LENGTHS, default="hops", help="the lengths for the rules ecmp and k-paths (hops)")
    how.add_argument("--cost", choices=COSTS, default="routing", help="which cost of a link counts, for lengths by cost (routing)")
    how.add_argument("--paths", type=int, default=4, metavar="K", help="how many paths of each pair, for the rule k-paths (4)")
    how.add_argument("--seconds", type=seconds, default=300.0, metavar="N", help="the time of a scenario for exact and k-paths (300)")


def show_options() -> Arguments:
    """The grammar of `study show`."""
    parser = Arguments("study show", "The certificate of a scenario of a study, for `mcf check`.", SHOW)
    parser.add_argument("key", metavar="KEY", help="the key of the scenario, or how it begins")
    parser.add_argument("--store", default="study.db", metavar="FILE", help="the file of the study (study.db)")
    parser.add_argument("--network", metavar="FILE", help="write the scenario's network there too")
    parser.add_argument("--rest", action="store_true", help="of the demands that have a way, where some have none")
    parser.add_argument("--output", default="-", metavar="FILE", help="write the certificate there (standard output)")
    return parser


def _list(word: str) -> list[str]:
    """The words between commas, each once."""
    found = word.split(",")
    if not all(found) or len(set(found)) < len(found):
        raise argparse.ArgumentTypeError(f"{word!r} is no list of different words")
    return found


def main() -> NoReturn:
    """Runs the words, and ends the process; a worker never studies, though Python may run its parent's script where that is interrupted."""
    if current_process().name != "MainProcess":
        sys.exit(2)
    main_of(studied, "study")


def studied() -> int:
    """The status of the words that the process has."""
    if sys.argv[1:2] == ["show"]:
        return shown()
    parser = options()
    words = parser.parse_args()
    _require(parser, words)
    with needed():
        from mcf.studies.asked import Words
        from mcf.studies.tool import study
    return study(Words(**{name: getattr(words, name) for name in Words.__dataclass_fields__}), find_program(words.mcf).path)


def _require(parser: Arguments, words: argparse.Namespace) -> None:
    """Refuses words that cannot be, before anything is done."""
    from mcf.studies.changes import FAILURES
    from mcf.studies.scenarios import MOST_PATHS, ROUTINGS
    for option, given, known in (("--failures", words.failures, FAILURES), ("--routing", words.routing, ROUTINGS)):
        other = next((word for word in given if word not in known), None)
        if other is not None:
            parser.error(f"{option}: {other!r} is none of {', '.join(known)}")
    growths = [fraction_of(word) for word in words.grow]
    if not all(growths):
        raise TextError("--grow is more than 0")
    if len(set(growths)) < len(growths):
        parser.error(f"--grow: {','.join(words.grow)} has a number twice")
    if words.gap is not None:
        try:
            millionths(words.gap)
        except argparse.ArgumentTypeError as why:
            parser.error(f"--gap: {why}")
    for option, number, most in (("--phases", words.phases, MAX_PHASES), ("--step", words.step, MAX_STEP)):
        if number is not None and not 1 <= number <= most:
            parser.error(f"{option} is from 1 to {most}")
    if not 1 <= words.paths <= MOST_PATHS:
        parser.error(f"--paths is from 1 to {MOST_PATHS}")
    if words.jobs is not None and words.jobs < 1:
        parser.error("--jobs is at least 1")
    if words.jobs is not None and words.scheduler is not None:
        parser.error("--jobs is for this machine, and --scheduler has its own workers")
    if words.jobs is None:
        words.jobs = len(os.sched_getaffinity(0))
    if words.store in STANDARD:
        parser.error(f"--store is a file, and {words.store} is none")
    sources = [words.net, *words.matrices, *filter(None, [words.groups, words.changes])]
    require_outputs([words.csv, words.html], [*sources, *([words.store] if Path(words.store).exists() else [])])
    # (behind the store are the files of the database that stand beside it while it is open)
    require_outputs([words.csv, words.html, words.store, *(f"{words.store}{end}" for end in ("-wal", "-shm", "-journal"))], sources)


def shown() -> int:
    """Hands out a certificate."""
    words = show_options().parse_args(sys.argv[2:])
    outputs: list[str | None] = [words.output, words.network]
    require_outputs(outputs, [words.store])
    from mcf.studies.show import certificate_of
    found = certificate_of(words.store, words.key, words.rest)
    if words.network:
        write(words.network, found.network)
    write(words.output, found.certificate)
    jsons.put(key=found.key, judged=found.judged, outputs=[*filter(None, outputs)])
    return 0


if __name__ == "__main__":
    main()
