"""Opens a network on a page of this machine: a map whose links can be closed, doubled or given a capacity, and bounds that follow.

The page is served to this machine alone, to the browser that opens the address which is shown. Each edit has its bounds at once by
mcf whatif; what is solved again is judged by mcf check; single failures, growth, doublings and today's routes are a click away. All can
be taken away as files, with the commands that judge them. Without a certificate the network is solved first.

Examples:
  tools/desk alps.net alps.cert
  tools/desk alps.net                                     solves first
  tools/desk alps.net alps.cert --save plan.script        keeps the edits there, and goes on with those that are there already
  tools/desk alps.net alps.cert --no-browser --port 8080  shows the address alone, as for a tunnel from another machine

An address lets one browser in; opened once more it is refused, and the terminal shows a new one, for a second browser. Ctrl-C ends the
desk and all that it has started; the last line has the edits as a script, or the file of --save that has them.

Status: 130 it was interrupted, which is its end; 2 it could not begin, and why in one line.
"""

from __future__ import annotations

import argparse
import os
from typing import NoReturn

from mcf.arguments import Arguments
from mcf.asked import gap
from mcf.errors import TextError
from mcf.needs import needed
from mcf.output import main_of

LINKS = ("undirected", "directed", "bidirected")
MODULES = ("largest", "none", "sum")


def port(word: str) -> int:
    """A port; 0 is any that is free."""
    if not (word.isascii() and word.isdigit() and int(word[:6]) <= 65535):
        raise argparse.ArgumentTypeError(f"{word!r} is no port from 0 to 65535")
    return int(word)


def options() -> Arguments:
    """The grammar of the words."""
    parser = Arguments("desk", __doc__)
    parser.add_argument("net", metavar="NET", help="a network file")
    parser.add_argument("cert", metavar="CERT", nargs="?", help="a certificate of it, as mcf solve and tools/certify write it")
    parser.add_argument("--save", metavar="FILE", help="keep the edits there, as a script of mcf whatif; go on with those that it has")
    parser.add_argument("--links", choices=LINKS, help="how links are read, where the network is solved first (as the file says, else undirected)")
    parser.add_argument("--modules", choices=MODULES, help="which modules count, likewise (largest)")
    parser.add_argument("--gap", type=gap, metavar="G", help="the gap of the first solve; that of the program without it")
    parser.add_argument("--port", type=port, default=0, metavar="N", help="the port (one that is free)")
    parser.add_argument("--no-browser", action="store_true", help="do not open the address in a browser")
    parser.add_argument("--title", help="the page's title; the network's file name without it")
    parser.add_argument("--quiet", action="store_true", help="show no address where a browser opens it")
    parser.add_argument("--mcf", metavar="PATH", help="the program; without it that of the environment's MCF, else the one that was built")
    return parser


def run() -> int:
    """Runs the words."""
    parser = options()
    words = parser.parse_args()
    if words.quiet and words.no_browser:
        parser.error("--quiet and --no-browser together show the address nowhere")
    if "-" in (words.net, words.cert, words.save):
        raise TextError("a desk reads files, and neither standard input nor output: name them").at(kind="usage")
    if words.mcf:
        os.environ["MCF"] = words.mcf
    with needed():
        from mcf.desk.opening import Request, opened
        from mcf.desk.serve import Ways, serve
    desk, works = opened(Request(words.net, words.cert, words.save, words.links, words.modules, words.gap, words.title))
    return serve(desk, works, Ways(words.port, not words.no_browser, words.quiet))


def main() -> NoReturn:
    """The tool, which ends in one line and a status."""
    main_of(run, "desk")


if __name__ == "__main__":
    main()
