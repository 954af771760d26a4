"""What becomes of a network where one link fails, where one link is doubled, or where all demands grow."""

from __future__ import annotations

import argparse
import os
from fractions import Fraction
from pathlib import Path
from typing import TYPE_CHECKING, NoReturn

from mcf import TextError, find_program, fraction_of, jsons
from mcf.arguments import Arguments
from mcf.asked import counted, gap
from mcf.inputs import STANDARD_INPUT, texts_as_files
from mcf.limits import MAX_PHASES, MAX_STEP
from mcf.needs import needed
from mcf.output import main_of, require_outputs, write
from mcf.ranges import status

if TYPE_CHECKING:
    from mcf import Program
    from mcf.report.work import Source
    from mcf.survey.cases import Settings

EXAMPLES = """
examples:
  survey polska.net polska.cert --failures                      one sentence; status 1 where some failure takes it below 1
  survey polska.net polska.cert --failures --csv failures.csv   a row for each link, that after which least is carried first
  survey polska.net polska.cert --double --html double.html     which link is worth doubling, with a map
  survey polska.net polska.cert --failures --grow 1.3           failures where all demands are 1.3 times as great
  survey polska.net polska.cert --grow 1.2 --grow 1.5           growth alone
  survey big.net big.cert --failures --quick                    what the certificate alone says, in a moment
  survey polska.net polska.cert --failures --exact              which of two failures that are nearly the same is worse
  survey polska.net day.certs --list day.list --matrix noon --failures    a matrix that batch answered; - is standard input

Each change is routed anew by `mcf solve`, with the certificate's links and modules, unless --quick says not to; `mcf check`
judges each certificate before its bounds are used. The fraction is of every demand: at 1 or more all of them fit. For nodes,
pairs, links that fail together, many matrices and many machines there is tools/study.

What is known of each change is a range: a fraction that is carried, and one that no routing exceeds. A failure is called the
worst, or a link the most worth doubling, where its range does not overlap any other one; else all that may be it are named, or it
is said that nothing is decided. A doubling gains where its range is above that of the network as it is. A smaller --gap, or
--exact, decides more; --quick decides little.

columns of --csv: change; link, source, target, capacity; lower and upper fraction where all is routed anew;
kept_lower and kept_upper, what the certificate's own paths and bound are still worth; fits: yes, no or open
rows are by their lower and then by their upper fraction: the least first, and of doublings the greatest

status: 0 all demands fit after each change; 1 after some they do not, or it is not decided, as of a link that can't be doubled;
2 no answer; 130 interrupted
"""


def options() -> Arguments:
    """The grammar of the words."""
    parser = Arguments("survey", __doc__, EXAMPLES)
    parser.add_argument("net", metavar="NET", help="the network")
    parser.add_argument("certificate", metavar="CERT", help="a certificate of it, or what batch wrote")
    parser.add_argument("--list", metavar="LIST", help="the list of matrices that batch answered")
    parser.add_argument("--matrix", metavar="NAME", help="the matrix of it that is surveyed")
    parser.add_argument("--failures", action="store_true", help="each single link closed")
    parser.add_argument("--double", action="store_true", help="each single link with twice its capacity")
    parser.add_argument(
        "--grow",
        action="append",
        default=[],
        metavar="X",
        help="all demands times X; with --failures or --double in all of their cases",
    )
    parser.add_argument("--csv", metavar="OUT", help="write the table there; - is standard output")
    parser.add_argument("--html", metavar="OUT", help="write the page there")
    parser.add_argument("--title", help="the page's title")
    parser.add_argument(
        "--quick", action="store_true", help="do not solve: what the certificate's own paths and bound are still worth"
    )
    parser.add_argument("--exact", action="store_true", help="solve by tools/certify: exact to some millionths, and slower")
    parser.add_argument("--gap", type=gap, metavar="G", help="the gap of each solve; that of the program without it")
    parser.add_argument("--phases", type=counted(MAX_PHASES), metavar="N", help="the phases of each solve")
    parser.add_argument("--step", type=counted(MAX_STEP), metavar="N", help="the step of each solve")
    parser.add_argument(
        "--jobs",
        type=int,
        default=len(os.sched_getaffinity(0)),
        metavar="N",
        help="how many solves run at a time (one for each processor)",
    )
    parser.add_argument("--quiet", action="store_true", help="no progress bar")
    parser.add_argument(
        "--mcf", metavar="PATH", help="the program; without it that of the environment's MCF, else ./mcf of the repository"
    )
    return parser


def main() -> NoReturn:
    """Runs the words, and ends the process."""
    main_of(surveyed, "survey")


def surveyed() -> int:
    """The status of the words that the process has."""
    parser = options()
    words = parser.parse_args()
    kinds = [kind for kind, asked in (("failure", words.failures), ("double", words.double)) if asked]
    if not kinds and not words.grow:
        parser.error("nothing to do: give --failures, --double or --grow")
    if kinds and len(words.grow) > 1:
        parser.error("one growth at a time with --failures or --double")
    if words.quick and words.exact:
        parser.error("--quick does not solve, so it is not exact")
    if words.quick and (words.gap or words.phases or words.step):
        parser.error("--gap, --phases and --step are for solves, and --quick does not solve")
    if words.exact and (words.phases or words.step):
        parser.error("--phases and --step are for `mcf solve`, which --exact does not ask")
    if words.jobs < 1:
        parser.error("--jobs is at least 1")
    inputs = [words.net, words.certificate, *filter(None, [words.list])]
    if inputs.count("-") > 1:
        parser.error(f"{STANDARD_INPUT} is one file alone")
    require_outputs([words.csv, words.html], inputs)
    return run(words, kinds)


def run(words: argparse.Namespace, kinds: list[str]) -> int:
    """Makes the surveys of a network and its certificate, or of a matrix and the one that batch wrote for it."""
    with needed():
        from mcf.report.work import Reader, answered, listed_in, require_batch
    program = find_program(words.mcf)
    reader = Reader(program)
    given = reader.source(words.net), reader.source(words.certificate)
    require_batch(given[1], words)
    listed = listed_in(reader.source(words.list)) if words.list else None
    texts = [(one.name, one.text.encode("latin-1")) for one in answered(given, listed, words.matrix)]
    with texts_as_files(*texts) as (net, certificate):
        return surveys_of(words, kinds, program, net, certificate, given)


def _growths(words: list[str]) -> list[Fraction]:
    """The growths that are asked for."""
    from mcf.survey.words import growth_of
    try:
        return [growth_of(word) for word in words]
    except TextError as why:
        raise why.led("--grow: ").at(kind="usage") from None


def surveys_of(words: argparse.Namespace, kinds: list[str], program: Program, net: str, certificate: str, given: tuple[Source, Source]) -> int:
    """Makes the surveys of two files, whose texts are of those that were given, writes them, and says the status."""
    with needed():
        from mcf.report.work import judged_figures, tell_links
        from mcf.survey.cases import Ground, based, survey
        from mcf.survey.page import survey_page
        from mcf.survey.values import growth_values, survey_values
        from mcf.survey.words import grown, grown_sentence, sentence, survey_table
    growths = _growths(words.grow)
    figures, judgement = judged_figures(program, net, certificate)
    tell_links(*given, figures, "survey")
    ground = Ground(program, net, certificate, figures, judgement)
    settings = settings_of(words, growths[0] if kinds and growths else Fraction(1))
    base = based(ground, settings) if kinds or words.gap or words.exact else ground.base
    alone = [] if kinds else grown(base, growths)
    surveys = [survey(ground, kind, settings, base) for kind in kinds]
    if words.csv:
        write(words.csv, survey_table(surveys, alone).encode("latin-1", "replace"))
    if words.html:
        title = words.title or words.matrix or ("network" if words.net == "-" else Path(os.fsencode(words.net).decode("utf-8", "replace")).stem)
        write(words.html, survey_page(title, figures.scaled, surveys, alone).encode("utf-8", "replace"))
    if words.csv != "-" and words.html != "-":
        for text in [*(sentence(one) for one in surveys), *(grown_sentence(*one) for one in alone)]:
            jsons.say(text[0].upper() + text[1:])
    jsons.put(judged=judgement.line, base=base, outputs=[*filter(None, (words.csv, words.html))],
              surveys=lambda: [survey_values(one) for one in surveys], growths=lambda: [growth_values(*one) for one in alone])
    if any(one.left for one in surveys):
        return 1
    # (a network without links has no changes; then it counts whether all demands fit as it is)
    return status([case.range for one in surveys for case in one.cases] + [bounds for _, bounds in alone] or [base])


def settings_of(words: argparse.Namespace, growth: Fraction) -> Settings:
    """How each change is looked at."""
    with needed():
        from mcf.survey.cases import Settings
    given = [word for name in ("gap", "phases", "step") if getattr(words, name) for word in (f"--{name}", getattr(words, name))]
    solver = "none" if words.quick else "certify" if words.exact else "solve"
    return Settings(growth, solver, words.jobs, tuple(given), words.quiet, fraction_of(words.gap) if words.gap else None)


if __name__ == "__main__":
    main()
