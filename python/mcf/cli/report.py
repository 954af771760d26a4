"""What a certificate or routing says of a network, as one HTML page or as CSV."""

from __future__ import annotations

import argparse
import os
from collections.abc import Callable
from pathlib import Path
from typing import NoReturn

from mcf import jsons
from mcf.arguments import Arguments
from mcf.errors import TextError
from mcf.output import STANDARD, main_of, require_outputs

EXAMPLES = """
examples:
  report polska.net polska.cert                             the sentence alone
  report polska.net polska.cert --html polska.html          one page: verdict, map, bottleneck, utilisation, paths
  report polska.net polska.cert --csv links.csv             a row for each link; - is standard output
  report polska.net today.routing polska.cert --html x.html today's routes and the best ones side by side
  report old.net old.cert new.cert --net2 new.net --html x.html
  report polska.net day.certs --list day.list --html x.html a row for each matrix that batch answered
  report polska.net day.certs --list day.list --matrix noon --html x.html

certificates are those of solve, hops and throughput, and what batch wrote; - is standard input

columns of --csv: link; way (= both, + from source to target, - back); source, target; capacity; load (all demands
carried once) and load_at_lower (at the lower fraction, within every capacity; of a total both are the load as it is
carried); utilisation of each, load over capacity; headroom, capacity less load; share of the bound, capacity times
length over the sum of all, to which the demands of a total add theirs
columns of --paths: demand, source, target, amount; part of the demand; flow; hops; links in their order
columns of --csv for all matrices: matrix, demands, amount; lower and upper fraction; fits (yes, no, not decided);
utilisation of the most_utilised link; share of the bottleneck's first link
Names that a spreadsheet takes as formulas, as =1+1, have an apostrophe in front.

Each text is judged by check, checkhops or checkthroughput first; what is not valid is not shown.

status: 0 done; 2 not done, and why in one line; 130 interrupted
"""


def options() -> Arguments:
    """The grammar of the words."""
    parser = Arguments("report", __doc__, EXAMPLES)
    parser.add_argument("net", metavar="NET", help="the network")
    parser.add_argument("certificate", metavar="CERT", help="a certificate or routing of it, or what batch wrote")
    parser.add_argument("second", metavar="CERT2", nargs="?", help="another one, to be seen as what comes after")
    parser.add_argument("--net2", metavar="NET2", help="the network of CERT2, where it is another one")
    parser.add_argument("--list", metavar="LIST", help="the list of matrices that batch answered")
    parser.add_argument("--matrix", metavar="NAME", help="the matrix to show; all of them in a table without it")
    parser.add_argument("--html", metavar="OUT", help="write the page there")
    parser.add_argument("--csv", metavar="OUT", help="write the table of links, or of matrices, there")
    parser.add_argument("--paths", metavar="OUT", help="write the table of the (last) certificate's paths there")
    parser.add_argument("--title", help="the page's title; the network's file name without it")
    parser.add_argument("--rows", type=int, default=300, metavar="N", help="how many demands a page shows (300)")
    parser.add_argument("--quiet", action="store_true", help="say nothing but errors")
    parser.add_argument("--mcf", metavar="PATH", help="the program; without it that of the environment's MCF, else the one that was built")
    return parser


def run() -> int:
    """Runs the words."""
    parser = options()
    words = parser.parse_intermixed_args()
    if words.rows < 0:
        parser.error("--rows is at least 0")
    if words.net2 and not words.second:
        parser.error("--net2 is the network of a second certificate")
    _require_files(words)
    from mcf.needs import needed

    with needed():
        from mcf.report.work import write_report
    from mcf.program import find_program

    title = words.title or ("network" if words.net == "-" else Path(os.fsencode(words.net).decode("utf-8", "replace")).stem)
    write_report(find_program(words.mcf), words, title, _say(words))
    return 0


def _require_files(words: argparse.Namespace) -> None:
    """Refuses, before any work, outputs that cannot be written, or that are read or written twice."""
    sources = [name for name in (words.net, words.certificate, words.second, words.net2, words.list) if name]
    if sources.count("-") > 1:
        raise TextError("standard input is one file alone").at(kind="usage")
    require_outputs([words.html, words.csv, words.paths], sources)


def _say(words: argparse.Namespace) -> Callable[[str], None]:
    """Where sentences go: nowhere, if standard output has a file, or nothing is to be said."""
    taken = words.quiet or any(name in STANDARD for name in (words.html, words.csv, words.paths))

    def say(text: str) -> None:
        """Prints a sentence."""
        if not taken or jsons.asked():
            jsons.say(text)

    return say


def main() -> NoReturn:
    """The tool, which ends in one line and a status."""
    main_of(run, "report")


if __name__ == "__main__":
    main()
