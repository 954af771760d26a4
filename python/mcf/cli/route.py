"""Writes the routing that a network really has, as a routing text, which mcf check judges.

Methods: the shortest path of each demand by hops, by one over the capacity of links, or by a cost of the file; equal-cost multipath,
where each node sends equal shares over all links that begin a shortest path; and the best split over k shortest paths. Of equal
single paths the one over the first links of the file is taken. The longest path of a demand has no effect.

Standard output has the routing, or the file of --output; what it carries, and how far that is below the best, is told on standard
error. To tell that, tools/certify looks for the best, unless --no-best says not to. Status 0, 2 with the trouble in one line, or 130
where it is interrupted.

Examples:
  tools/route examples/germany50.net --by hops > germany50.routing
  tools/route examples/geant.net --by ecmp --lengths capacity --output geant.routing
  tools/route examples/polska.net --by k-paths --paths 3
  tools/route examples/polska.net --by cost --cost setup
  tools/route examples/ta2.net --by hops --no-best                without the best beside it, which takes most of the time
"""

from __future__ import annotations

import argparse
from typing import NoReturn

from mcf import LINK_MODES, MODULES, find_program, jsons
from mcf.arguments import Arguments
from mcf.asked import seconds
from mcf.inputs import STANDARD_INPUT, as_files
from mcf.linkmode import LinkMode, link_mode_of_file
from mcf.needs import needed
from mcf.output import main_of, require_output, write
from mcf.ranges import shortfall
from mcf.route.lengths import COSTS, LENGTHS, METHODS


def options() -> Arguments:
    """The grammar of the words."""
    parser = Arguments("route", __doc__)
    parser.add_argument("net", metavar="NET", help="a network file")
    parser.add_argument("--by", choices=METHODS, required=True, help="the method")
    parser.add_argument("--lengths", choices=LENGTHS, default="hops", help="the lengths for ecmp and k-paths (hops)")
    parser.add_argument("--cost", choices=COSTS, default="routing", help="which cost of a link counts, for lengths by cost (routing)")
    parser.add_argument("--paths", type=int, default=4, metavar="K", help="how many paths of each pair, for k-paths (4)")
    parser.add_argument("--links", choices=LINK_MODES, help="how links are read (as the file says, else undirected)")
    parser.add_argument("--modules", choices=MODULES, default="largest", help="which modules count (largest)")
    parser.add_argument("--seconds", type=seconds, default=300.0, metavar="N", help="the time for the split, and again for the best (300)")
    parser.add_argument("--no-best", action="store_true", help="do not look for the best routing, to say how far below it this one is")
    parser.add_argument("--output", metavar="FILE", help="write there, and only once the routing is feasible")
    parser.add_argument("--mcf", metavar="PATH", help="the program mcf (the environment's MCF, else mcf of this repository)")
    return parser


def words() -> argparse.Namespace:
    """The words of the command line."""
    parser = options()
    given = parser.parse_args()
    if not 1 <= given.paths <= 1000:
        parser.error("--paths is from 1 to 1000")
    return given


def unused(given: argparse.Namespace) -> list[str]:
    """The options that are given, and have no part in the routing that is asked for."""
    used = {"cost": {"cost"}, "ecmp": {"lengths"}, "k-paths": {"lengths", "paths", "seconds"}}.get(given.by, set())
    used |= {"cost"} if "lengths" in used and given.lengths == "cost" else set()
    used |= set() if given.no_best else {"seconds"}
    default = options().get_default
    return [name for name in ("lengths", "cost", "paths", "seconds") if name not in used and getattr(given, name) != default(name)]


def main() -> NoReturn:
    """One run, which ends the process."""
    main_of(routed, "route")


def routed() -> int:
    """The status of the words that the process has."""
    given = words()
    output = given.output or "-"
    require_output(output, [given.net])
    for option in unused(given):
        jsons.note(f"--{option} means nothing for --by {given.by}{' --no-best' if option == 'seconds' else ''}", "route")
    with needed():
        from mcf.route.run import Question, route
    program = find_program(given.mcf)
    name = STANDARD_INPUT if given.net == "-" else given.net
    with as_files(given.net) as (net,):
        read = LinkMode(given.links) if given.links else link_mode_of_file(name, net)
        if read.said:
            jsons.note(read.said, "route")
        question = Question(net, given.by, read.mode, given.modules, given.lengths, given.cost, given.paths, given.seconds, not given.no_best)
        found = route(program, question)
    write(output, found.text.encode("latin-1"))
    for note in [found.line, *found.notes]:
        jsons.note(note, "route")
    jsons.put(by=given.by, output=output, judged=found.line, carried=found.judged.lower, best=found.best,
              shortfall=lambda: found.best and shortfall(found.judged.lower, found.best))
    return 0


if __name__ == "__main__":
    main()
