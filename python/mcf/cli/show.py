"""Shows what a file of mcf is and says: a network alone, a certificate of any kind, a routing, or what batch, sweep, sweepsolve or whatif
wrote. A certificate or routing is judged first, by check, checkhops or checkthroughput, and bounds are those that the check confirms.

What batch wrote has a certificate for each matrix, which --list LIST has judged. Lines of sweep, sweepsolve and whatif have no
certificate in them: they are shown as the program's own lines, which are not judged.

Examples:
  tools/show examples/polska.net                          a network alone
  tools/show examples/polska.net examples/polska.cert     bounds, bottleneck, links and demands
  tools/show NET CERT --rows 1000                         with more rows of each table
  tools/show NET day.certs --list day.list                a row for each matrix
  mcf sweep NET CERT | tools/show NET -                   - is standard input
  tools/show NET CERT --json                              all of it for programs (docs/study/json.md)

Status: 0 shown; 1 a certificate or routing is not valid, and why is told; 2 trouble, told in one line; 130 interrupted
"""

from __future__ import annotations

from typing import NoReturn

from mcf import TextError, find_program, jsons
from mcf.arguments import Arguments
from mcf.needs import needed
from mcf.output import STANDARD, main_of, one_line, require_output, write


def options() -> Arguments:
    """The grammar of the words."""
    parser = Arguments("show", __doc__)
    parser.add_argument("net", metavar="NET", help="a network file; - is standard input")
    parser.add_argument("file", metavar="FILE", nargs="?", help="a certificate, a routing, or lines of the program, for that network")
    parser.add_argument("--list", metavar="LIST", help="the list of matrices that batch answered")
    parser.add_argument("--rows", type=int, default=10, metavar="N", help="how many rows of each table are shown (10)")
    parser.add_argument("--csv", metavar="OUT", help="write the table of links, or of lines or matrices, there; - is standard output")
    parser.add_argument("--mcf", metavar="PATH", help="the program; without it that of the environment's MCF, else the one that was built")
    return parser


def main() -> NoReturn:
    """The tool, which ends in one line and a status."""
    main_of(shown, "show")


def shown() -> int:
    """The status of the words that the process has."""
    parser = options()
    words = parser.parse_intermixed_args()
    if words.rows < 0:
        parser.error("--rows is at least 0")
    sources = [name for name in (words.net, words.file, words.list) if name]
    if sources.count("-") > 1:
        raise TextError("standard input is one file alone").at(kind="usage")
    if words.csv:
        require_output(words.csv, sources)
    with needed():
        from mcf.show.text import lines_of, sentences, tables
        from mcf.show.values import csv_of, values
        from mcf.show.work import Question, show
    found = show(find_program(words.mcf), Question(words.net, words.file, words.list))
    if words.csv:
        write(words.csv, csv_of(found).encode("latin-1", "replace"))
    if words.csv not in STANDARD:
        for sentence in sentences(found):
            jsons.say(one_line(sentence))
    if words.csv is None and not jsons.asked():
        for title, table in tables(found) if words.rows else ():
            print("", *lines_of(title, table, words.rows), sep="\n")
    jsons.put(output=words.csv, **(values(found) if jsons.asked() else {}))
    return 0 if found.is_sound else 1


if __name__ == "__main__":
    main()
