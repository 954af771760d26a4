"""What a desk begins with: files read and judged, or refused in one line."""

from __future__ import annotations

import os
from collections.abc import Callable
from dataclasses import dataclass
from pathlib import Path
from typing import TypeVar

from .. import jsons
from ..commands import ask, program_path
from ..errors import Invalid, McfError, Refused, TextError, kind_of
from ..inputs import is_word
from ..linkmode import LinkMode, link_mode, otherwise
from ..network import read_network
from ..output import contents, require_output
from ..report.shown import name
from ..scaled import ScaledNetwork, scale
from .child import Held, Work
from .edits import History, read_script
from .ground import Ground
from .state import Desk
from .works import Works


@dataclass(frozen=True)
class Request:
    """What the words of the command line ask for."""

    net: str
    cert: str | None
    save: str | None
    links: str | None
    modules: str | None
    gap: str | None
    title: str | None


_Value = TypeVar("_Value")


def _said(of: str, question: Callable[[], _Value], **files: str) -> _Value:
    """The answer to a question on files; TextError, which names them, where there is none."""
    try:
        return question()
    except TextError as why:
        raise why.led(f"{of}: ") from None
    except Refused as why:
        raise TextError(f"{of}: {why}").at(files.get(why.file), why.line, kind=kind_of(why), code=why.kind) from None
    except Invalid as why:
        raise TextError(f"{of}: {why}").at(files.get("cert"), kind=kind_of(why), code=why.condition) from None
    except McfError as why:
        raise TextError(f"{of}: {why}").at(kind=kind_of(why)) from None


def opened(request: Request) -> tuple[Desk, Works]:
    """The desk of a request; TextError, in one line, where a file is none, or the certificate is of another network."""
    program = program_path()
    net = contents(request.net)
    printed = _said(request.net, lambda: ask("print", {"net": net}).out, net=request.net)
    cert = contents(request.cert) if request.cert is not None else None
    links, modules = _modes(request, net, cert)
    try:
        scaled = scale(read_network(printed.decode("latin-1")), links, modules)
    except TextError as why:
        raise why.led(f"{request.net}: ") from None
    if cert is None:
        _require_demands(request.net, scaled)
    stem = request.title or name(Path(os.fsencode(request.net).decode("latin-1")).stem)
    ground = Ground(program, request.net if is_word(request.net) else None, stem, Held(net), Held(printed), scaled)
    desk = Desk(ground, _history(request, ground), request.save)
    works = Works(desk, request.gap)
    if cert is not None and request.cert is not None:
        data, made = cert, _shown(request.cert)
        files = {"net": request.net, "cert": request.cert}
        desk.add(_said(f"{request.cert} on {request.net}", lambda: works.judged(Work(), made, "given", works.edited(), data), **files))
        if said := otherwise(request.net, net, links, made):
            jsons.note(said, "desk")
    return desk, works


def _require_demands(net: str, scaled: ScaledNetwork) -> None:
    """TextError where there is nothing to solve, since a desk changes capacities alone."""
    if not scaled.commodities:
        raise TextError(f"{net}: no demand is left, since each has amount 0 or ends in its own node, or there is none: a desk solves for "
                        "demands, and changes capacities alone (tools/convert NET DEMANDS.csv NEW.net gives the network others)").at(net)


def _shown(file: str) -> str:
    """The name of a file as a page can show it: bytes that are no text are replaced."""
    return os.fsencode(file).decode("utf-8", "replace")


def _modes(request: Request, net: bytes, cert: bytes | None) -> tuple[str, str]:
    """How links and modules are read: as the certificate says, else as the words do, else as the network's file does, which is told."""
    if cert is None:
        read = LinkMode(request.links) if request.links else link_mode(request.net, net)
        if read.said:
            jsons.note(read.said, "desk")
        return read.mode, request.modules or "largest"
    if request.links or request.modules or request.gap:
        raise TextError("--links, --modules and --gap are for the first solve, and a certificate is given: it says how links and modules "
                        "are read").at(kind="usage")
    lines = [line.split(" ") for line in cert[:4096].decode("latin-1").split("\n")[2:4]]
    words = [line[1] if len(line) == 2 else "" for line in lines] + ["", ""]
    # (what is none of the modes is told by check, with its line)
    return (words[0] if words[0] in ("undirected", "directed", "bidirected") else "undirected",
            words[1] if words[1] in ("largest", "none", "sum") else "largest")


def _history(request: Request, ground: Ground) -> History:
    """The edits that were saved."""
    if request.save is None:
        return History()
    require_output(request.save, [file for file in (request.net, request.cert) if file])
    if not Path(request.save).exists():
        return History()
    try:
        return read_script(contents(request.save).decode("latin-1"), ground.network, ground)
    except TextError as why:
        raise why.led(f"{request.save}: ") from None
