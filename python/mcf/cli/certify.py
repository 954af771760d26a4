"""Writes an exact, certified optimum of a network: mcf solve finds paths, a linear program over them finds the best split and prices,
both are made whole numbers, and the certificate is written only when mcf check calls it valid.

Other kinds of certificates are asked for by the command of mcf that writes them: --kind hops keeps the limits of hops of the demands,
--kind throughput carries the greatest total, each demand in part; mcf checkhops and mcf checkthroughput judge them.

Large networks with demands between most pairs of nodes have another linear program, whose columns are trees of a source in place of
paths of a demand: it is taken where it has a sixteenth of the rows, which is said, or by --form. Networks beyond the limits of mcf are
judged by the program with wide limits: MCF_WIDE names it, or it lies beside mcf as mcf-wide.

Standard output has the certificate, or the file of --output. Status: 0 the gap that is asked for is reached, which is 0.000001
unless --gap says otherwise; 1 it is not, and one line says how far it came and why it stopped; 2 trouble, told in one line; 130
interrupted. The certificate holds in any case. Where the linear program fails, the best certificate of mcf solve, hops or throughput
is handed out, and the reason told on standard error.

Examples:
  tools/certify examples/polska.net > polska.cert                 the optimum; status 0 at a gap of at most 0.000001
  tools/certify examples/polska.net --gap 0.01 --output polska.cert
  tools/certify NET --links directed --modules none --seconds 60
  tools/certify NET --from CERT                                   begins from the paths of a certificate or routing
  tools/certify examples/detours.net --kind hops > best.hops      the greatest fraction within the limits of hops
  tools/certify examples/nobel-us.net --kind throughput > best.throughput
                                                                  the greatest total, in units
"""

from __future__ import annotations

import argparse
import shutil
import sys
import tempfile
import time
from dataclasses import astuple
from fractions import Fraction
from pathlib import Path
from typing import TYPE_CHECKING, NoReturn

from mcf import LINK_MODES, MODULES, Program, TextError, find_program, jsons, true_gap
from mcf.arguments import Arguments
from mcf.asked import millionths, seconds
from mcf.inputs import STANDARD_INPUT, as_files
from mcf.linkmode import link_mode_of_file, otherwise_of_files
from mcf.needs import needed
from mcf.output import main_of, require_output, write, writing

if TYPE_CHECKING:
    from mcf.lp.run import Request, Result
    from mcf.trees.problem import Problem

COMMANDS = ("solve", "hops", "throughput")


def options() -> Arguments:
    """The grammar of the words."""
    parser = Arguments("certify", __doc__)
    parser.add_argument("net", metavar="NET", help="a network file")
    parser.add_argument("--kind", choices=COMMANDS, default="solve", help="the command whose kind of certificate is made (solve)")
    parser.add_argument("--links", choices=LINK_MODES, help="how links are read (as that of --from, or as the file says, else undirected)")
    parser.add_argument("--modules", choices=MODULES, help="which modules count (largest)")
    parser.add_argument("--form", choices=("trees", "paths"), help="the columns of the linear program (whichever has fewer rows by far)")
    parser.add_argument("--gap", type=millionths, metavar="G", help="the gap that is asked for (0.000001)")
    parser.add_argument("--seconds", type=seconds, default=300.0, metavar="N", help="stop then with the best so far (300)")
    parser.add_argument("--from", dest="start", metavar="CERT", help="a certificate, of any kind, or routing whose paths are begun from")
    parser.add_argument("--output", metavar="FILE", help="write there, and only once the certificate is valid")
    parser.add_argument("--mcf", metavar="PATH", help="the program mcf (the environment's MCF, else mcf of this repository)")
    return parser


def main() -> NoReturn:
    """One run, which ends the process."""
    main_of(certified, "certify")


def certified() -> int:
    """The status of the words that the process has."""
    given = options().parse_args()
    output = given.output or "-"
    require_output(output, [given.net, *filter(None, [given.start])])
    if given.form == "trees" and (given.start or given.kind != "solve"):
        raise TextError("--form trees is for --kind solve alone, and begins from no paths")
    program = find_program(given.mcf)
    name, begun = (STANDARD_INPUT if path == "-" else path for path in (given.net, given.start))
    with as_files(given.net, *filter(None, [given.start])) as files:
        given.net, given.start = files[0], files[1] if given.start else None
        if given.start:
            _tell_otherwise(name, given.net, begun, given.start)
        elif not given.links:
            given.links = _links(name, given.net)
        result = _result(program, given, output)
    jsons.put(kind=given.kind, output=output, judged=result.line, closed=result.closed, bounds=result.judged.range,
              gap=lambda: true_gap(*astuple(result.judged.range)), wanted=Fraction(result.wanted, 10**6), trouble=result.trouble,
              left=None if result.closed else result.left)
    return 0 if result.closed else 1


def _links(name: str, net: str) -> str:
    """How links are read where nothing was asked: as the file says, which is told."""
    read = link_mode_of_file(name, net)
    if read.said:
        jsons.note(read.said, "certify")
    return read.mode


def _tell_otherwise(name: str, net: str, begun: str, start: str) -> None:
    """Says that what is begun from reads links otherwise than the file says, since the new certificate reads them so too."""
    said = otherwise_of_files(name, net, begun, start)
    if said:
        jsons.note(said, "certify")


def _result(program: Program, given: argparse.Namespace, output: str) -> Result:
    """A certificate that is valid, written, with what is said of it."""
    with needed():
        from mcf.lp.kinds import KINDS
        from mcf.lp.run import Request, certify
        from mcf.trees.form import chosen
    begun = time.monotonic()
    request = Request(given.net, given.links, given.modules, given.gap, given.seconds, given.start, KINDS[given.kind])
    found = chosen(program, given.net, given.links or "undirected", given.modules or "largest", given.form,
                   given.kind == "solve" and not given.start)
    if found.said and _tells(output):
        jsons.note(found.said, "certify")
    if found.problem is not None:
        return _by_trees(found.program, request, found.problem, output, begun + given.seconds)
    result = certify(found.program, request)
    write(output, result.text.encode("latin-1"))
    _note(result, output)
    return result


def _by_trees(program: Program, request: Request, problem: Problem, output: str, deadline: float) -> Result:
    """A certificate by trees, which is copied from a folder of its own once it is valid."""
    with needed():
        from mcf.trees.run import certify_by_trees
    with tempfile.TemporaryDirectory(prefix="mcf-certify-") as room:
        result = certify_by_trees(program, request, problem, Path(room), deadline)
        with open(result.file, "rb") as source, writing(output) as target:
            shutil.copyfileobj(source, target, 1 << 20)
    if result.columns and _tells(output):
        jsons.note(f"{result.columns:,} trees in {result.rounds} rounds; the paths are those of {result.kept:,}", "certify")
    _note(result, output)
    return result


def _tells(output: str) -> bool:
    """Whether lines that are no trouble are told too."""
    return output != "-" or sys.stderr.isatty() or jsons.asked()


def _note(result: Result, output: str) -> None:
    """Tells what is said of a certificate."""
    for line in told(result, _tells(output)):
        jsons.note(line, "certify")


def told(result: Result, line: bool) -> list[str]:
    """What is said of a certificate: why it is not as close as was asked for, or not the linear program's, and its judge's line."""
    said = [result.line] if line else []
    if not result.closed:
        said.append(result.left)
    elif result.trouble:
        said.append(result.trouble)
    return said


if __name__ == "__main__":
    main()
