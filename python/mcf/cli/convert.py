"""Networks and demands of other formats into network files and lists of matrices, and back."""

from __future__ import annotations

import argparse
from collections.abc import Sequence
from typing import TYPE_CHECKING, Any, NoReturn

from mcf import jsons
from mcf.arguments import Arguments
from mcf.output import main_of

if TYPE_CHECKING:
    from mcf.convert.model import Network

EXAMPLES = """
formats read (told by their contents, also within gzip): SNDlib native and XML (networks, and single files of
dynamic matrices), lists of matrices, GraphML (Topology Zoo, networkx, Gephi), REPETITA graphs and demands, CSV of
links (source, target, capacity), of demands (source, target, amount, or a square) and of places (node, x, y)

formats written, by the name of TO (.gz packs each): .net .txt a network; .list a list of matrices; .graphml;
.csv links, .demands.csv, .nodes.csv

units of numbers in CSV and GraphML: bit/s, b/s, bps, bit, with k, M, G or T in front, or k, M, G, T alone, as 10G; OC-n
and STM-n; B/s, Bps and byte with --bytes. Any other is refused. The head of a column of capacities or amounts, or the
corner of a square, may have the unit of the plain numbers, as capacity (Gbit/s) or traffic_mbps.

examples:
  convert germany50.xml germany50.net                       SNDlib's XML to a network file
  convert Abilene.graph Abilene.0000.demands abilene.net    REPETITA: links are one way there
  convert links.csv demands.csv places.csv office.net       three tables to one network
  convert Geant.graphml demands.csv --unit Mbit --capacity-default 10G geant.net
  convert demandMatrix-*.xml.gz --round 3 day.list          many matrices to one list
  convert polska.net polska.graphml                         for Gephi and the like
  convert polska.net new.net --capacity-of Link_0_2 622 --close Link_0_10 --times-demand Gdansk_Krakow 1.5

Whatever is dropped, renamed, merged, added or changed is said on standard error, one line each, and what is rounded in one. Names that a
spreadsheet takes as formulas, as =1+1, stand in a CSV with an apostrophe in front, which reading takes off.

status: 0 written; 2 not written, and why in one line; 130 interrupted
"""

class _Edit(argparse.Action):
    """Keeps the changes in one list, with their options."""

    def __call__(
        self, parser: argparse.ArgumentParser, namespace: argparse.Namespace, values: str | Sequence[Any] | None, option: str | None = None
    ) -> None:
        words = [values] if isinstance(values, str) else list(values or ())
        namespace.edits = [*(namespace.edits or ()), (option, *words)]


def options() -> Arguments:
    """The grammar of the words."""
    from mcf.convert.work import FORMATS, TARGETS
    from mcf.scaled import LINK_MODES

    parser = Arguments("convert", __doc__, EXAMPLES)
    parser.add_argument("sources", nargs="+", metavar="FROM", help="files of one network, or of matrices; - is standard input")
    parser.add_argument("target", metavar="TO", help="the file to write; - is standard output")
    parser.add_argument("--net", action="append", default=[], metavar="NET",
                        help="a network whose nodes the demands name; its own demands are not taken")  # fmt: skip
    parser.add_argument("--from", dest="kind", choices=FORMATS, help="the format of all FROM, where their contents do not tell it")
    parser.add_argument("--to", dest="written", choices=TARGETS, help="what to write, where the name of TO does not tell it")
    parser.add_argument("--links", choices=LINK_MODES, help="how links are meant, where no file says it; written with the network")
    _add_numbers(parser)
    _add_changes(parser)
    parser.add_argument("--gravity", default="0", metavar="X", help="make up demands of X in all, where no file has any")
    parser.add_argument("--capacity", metavar="NAME", help="the attribute of GraphML that has the capacity")
    parser.add_argument("--capacity-default", dest="missing", metavar="X",
                        help="the capacity of links that have none; 10G has its own unit")  # fmt: skip
    parser.add_argument("--columns", action="append", default=[], metavar="[FILE:]ROLE=NAME,..",
                        help="which column of a CSV has which role, as source=A,target=B,capacity=C,amount=D, in the file that is "
                        "named, or else in each table that has it; may be given for each file")  # fmt: skip
    parser.add_argument("--decimal-comma", dest="comma", action="store_true", help="1,5 in a CSV is 1.5")
    parser.add_argument("--quiet", action="store_true", help="say nothing but errors")
    return parser


def _add_numbers(parser: Arguments) -> None:
    """The words for units and rounding."""
    from mcf.convert.numbers import UNITS

    parser.add_argument("--unit", choices=UNITS, help="write all numbers in this unit (bit per second, ..)")
    parser.add_argument("--from-unit", choices=UNITS, help="the unit of plain numbers in files that do not say it")
    parser.add_argument("--bytes", action="store_true", help="read MB/s and the like, a byte as eight bits")
    parser.add_argument("--round", dest="decimals", type=int, choices=range(7), metavar="N",
                        help="round to N decimals, 0 to 6; without it nothing is rounded")  # fmt: skip


def _add_changes(parser: Arguments) -> None:
    """The words for changes of links and demands."""
    parser.add_argument("--scale", default="1", metavar="X", help="all demands times X")
    for option, what, text in (
        ("--capacity-of", "LINK", "the link gets the capacity X, without modules; 40G has its own unit"),
        ("--times-capacity", "LINK", "the capacity of the link, and of its modules, times X"),
        ("--times-demand", "DEMAND", "the demand times X"),
    ):
        parser.add_argument(option, action=_Edit, dest="edits", nargs=2, metavar=(what, "X"), help=f"{text}; may be repeated")
    parser.add_argument("--close", action=_Edit, dest="edits", metavar="LINK",
                        help="the link stays and gets the capacity 0, without modules; may be repeated")  # fmt: skip
    parser.add_argument("--fibres", action="store_true",
                        help="what changes a directed link changes its one arc back too")  # fmt: skip
    parser.add_argument("--merge", action="store_true", help="demands from the same source to the same target become one")
    parser.add_argument("--merge-both", action="store_true",
                        help="and so do those of both directions (the same for undirected links; refused for others)")  # fmt: skip


def run() -> int:
    """Runs the words."""
    words = vars(options().parse_intermixed_args())
    from mcf.convert.edits import Edit
    from mcf.convert.model import Notes
    from mcf.convert.numbers import number
    from mcf.convert.tables import columns_of
    from mcf.convert.work import Task, convert, target_of

    notes = Notes(quiet=words.pop("quiet") or jsons.asked())
    words["base"] = words.pop("net")
    words["columns"] = columns_of(words["columns"], [*words["base"], *words["sources"]])
    words["edits"] = [Edit(*edit) for edit in words["edits"] or ()]
    words |= {name: number(words[name], f"--{name}") for name in ("scale", "gravity")}
    task = Task(**words)
    try:
        network = convert(task, notes)
    finally:
        for verb, text in notes.said if jsons.asked() else ():
            jsons.note(f"{verb}: {text}")
    jsons.put(output=task.target, format=task.written or target_of(task.target),
              changes=[{"change": verb, "text": text} for verb, text in notes.said], **_about(network))
    return 0


def _about(network: Network) -> dict[str, object]:
    """What the network is, for the JSON object."""
    return {"links_mode": network.links_mode or "undirected", "bits": network.bits,
            "nodes": len(network.nodes), "links": len(network.links),
            "matrices": [{"matrix": matrix.name, "demands": len(matrix.demands)} for matrix in network.matrices]}


def main() -> NoReturn:
    """The tool, which ends in one line and a status."""
    main_of(run, "convert")


if __name__ == "__main__":
    main()
