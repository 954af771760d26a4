"""From files to a file: what the words of the command line ask for."""

from __future__ import annotations

import io
from dataclasses import dataclass, field, replace
from fractions import Fraction

from ..limits import NARROW, WIDE_NAME
from ..needs import needed
from ..output import require_output
from . import assemble, files, native, repetita, tables
from .adjust import Changes, adjusted, in_unit, require_fit
from .edits import TIMES_DEMAND, Edit, edited
from .gravity import with_gravity
from .model import Network, Notes, Refused, Source
from .numbers import UNITS, Form, Unit

FORMATS = ("native", "list", "xml", "graphml", "graph", "demands", "csv")
TARGETS = ("net", "list", "graphml", "links", "nodes", "demands")
META_UNITS = {"bit": "BITPERSEC", "kbit": "KBITPERSEC", "Mbit": "MBITPERSEC", "Gbit": "GBITPERSEC", "Tbit": "TBITPERSEC"}


@dataclass
class Task:
    """What is asked for; columns are those of each file, and of all files under no name."""

    sources: list[str]
    target: str
    base: list[str] = field(default_factory=list)
    kind: str | None = None
    written: str | None = None
    unit: str | None = None
    from_unit: str | None = None
    bytes: bool = False
    links: str | None = None
    scale: Fraction = Fraction(1)
    edits: list[Edit] = field(default_factory=list)
    fibres: bool = False
    decimals: int | None = None
    merge: bool = False
    merge_both: bool = False
    capacity: str | None = None
    missing: str | None = None
    columns: dict[str, dict[str, str]] = field(default_factory=dict)
    comma: bool = False
    gravity: Fraction = Fraction(0)


def target_of(path: str) -> str:
    """What a file of that name is to have."""
    name = path.removesuffix(".gz").lower()
    for ending, kind in (
        (".nodes.csv", "nodes"),
        (".demands.csv", "demands"),
        (".csv", "links"),
        (".graphml", "graphml"),
        (".list", "list"),
    ):
        if name.endswith(ending):
            return kind
    if name.endswith((".net", ".txt")):
        return "net"
    raise Refused(
        f"{path}: ends with none of .net, .txt, .list, .graphml, .csv, .demands.csv, .nodes.csv (--to says what to write)"
    )


def convert(task: Task, notes: Notes) -> Network:
    """Reads the files, and writes the one; the network that was written, of which a list or a table has a part."""
    kind = task.written or target_of(task.target)
    _require_files(task)
    _require_use(task, kind)
    sources = in_one_unit(_read_all(task, notes), task, notes)
    base, sources = sources[: len(task.base)], sources[len(task.base) :]
    many = kind == "list" or (kind == "demands" and all(not s.links for s in sources))
    network = assemble.together(sources, base, notes, many)
    _require_shared(task, network)
    if task.gravity:
        network = with_gravity(network, task.gravity, notes)
    network = edited(network, task.edits, task.fibres, notes)
    network = adjusted(network, Changes(task.scale, task.merge, task.merge_both, task.decimals), notes)
    if task.unit:
        network.meta["unit"] = META_UNITS[task.unit]
    if network.links_mode and (network.links_mode != "undirected" or "links" in network.meta):
        network.meta["links"] = network.links_mode
    require_fit(network, kind in ("net", "graphml", "links"), kind in ("net", "list"))
    text = _text(network, kind, notes)
    _tell(network, kind, notes)
    _tell_size(network, kind, notes)
    _tell_meta(sources, kind, notes)
    files.write(task.target, text)
    return network


def _tell_size(network: Network, kind: str, notes: Notes) -> None:
    """Says where only the program with wide limits takes what is written."""
    demands = sum(len(matrix.demands) for matrix in network.matrices)
    if kind in ("net", "list") and (len(network.nodes) > NARROW.nodes or demands > NARROW.demands):
        notes.say("note", f"{len(network.nodes):,} nodes and {demands:,} demands are beyond the limits of mcf, {NARROW.nodes:,} and "
                          f"{NARROW.demands:,}: {WIDE_NAME} takes them")


def _read_all(task: Task, notes: Notes) -> list[Source]:
    """What all files have; how their links are read is said before anything else."""
    later = Notes(io.StringIO())
    try:
        sources = [_as_meant(read(path, task, later), task.links) for path in [*task.base, *task.sources]]
        _tell_links(sources, task, notes)
    finally:
        notes.take(later)
    if task.capacity and not any(source.kind == "graphml" for source in sources):
        raise Refused("--capacity names an attribute of GraphML, and no file is one (--columns capacity=NAME names a column)")
    tables.require_columns({file and files.label(file): named for file, named in task.columns.items()}, sources)
    return sources


def _require_files(task: Task) -> None:
    """That the target may be written and is none of the files that are read, and that standard input is read once."""
    paths = [*task.base, *task.sources]
    require_output(task.target, paths)
    if paths.count("-") > 1:
        raise Refused("standard input is read once, and - stands there twice")


def _require_use(task: Task, kind: str) -> None:
    """Refuses changes of what is not written."""
    written = {"links": ("net", "graphml", "links"), "demands": ("net", "list", "demands")}
    for edit in task.edits:
        part = "demands" if edit.option == TIMES_DEMAND else "links"
        if kind not in written[part]:
            raise Refused(f"{edit} changes {part}, and what is written has none")
    if task.scale != 1 and kind not in written["demands"]:
        raise Refused("--scale changes demands, and what is written has none")
    if task.fibres and not any(edit.option != TIMES_DEMAND for edit in task.edits):
        raise Refused("--fibres says how links change, and no change of a link is asked for")


def _require_shared(task: Task, network: Network) -> None:
    """Refuses to make one demand of those of both directions where these do not share the capacity of links."""
    if task.merge_both and network.links_mode not in (None, "undirected"):
        raise Refused(f"--merge-both is for undirected links, and these are {network.links_mode}: a demand there is none back (--merge merges "
                      "those of one direction)")


def _as_meant(source: Source, mode: str | None) -> Source:
    """The source with its links as the command line says; refused where its file says otherwise."""
    if mode is None or not source.links:
        return source
    if source.links_mode not in (None, mode):
        raise Refused(f"{source.path} says that its links are {source.links_mode}, and --links says {mode}").at(source.path)
    return replace(source, links_mode=mode)


def _tell_links(sources: list[Source], task: Task, notes: Notes) -> None:
    """Says how links are read, where that was asked for, or a file says or mentions another way than the usual one."""
    source = next((source for source in sources if source.links), None)
    if source is None:
        if task.links:
            raise Refused("--links says how links are meant, and no file has links")
        return
    mode, mentioned = source.links_mode or "undirected", source.mentioned
    if task.links:
        notes.say("links", f"{mode}, as --links says")
    elif source.links_mode not in (None, "undirected"):
        notes.say("links", f"{mode}, as {source.path} says")
    elif source.links_mode is None and mentioned and mentioned[1] != mode:
        line, word = mentioned
        notes.say("links", f"{mode}; a comment in line {line} of {source.path} says {word}: --links {word} reads them so")


def in_one_unit(sources: list[Source], task: Task, notes: Notes) -> list[Source]:
    """All numbers in the unit that is asked for, or else in that of the links, or of the first file that says one."""
    given = Fraction(UNITS[task.from_unit]) if task.from_unit else None
    linked = next((s for s in sources if s.links), None)
    if given:
        _require_unsaid([s for s in sources if s.links or s.matrices], given, notes)
    sources = [replace(s, bits=given) if s.bits is None and given and not _is_of(s, linked) else s for s in sources]
    numbers = [s for s in sources if s.links or s.matrices]
    own = next((s.bits for s in numbers if s.links), None)
    asked = Fraction(UNITS[task.unit]) if task.unit else None
    wanted = asked or own or next((s.bits for s in numbers if s.bits), None)
    if wanted is None:
        if len(numbers) > 1 and any(s.kind in ("links", "demands") for s in numbers):
            odd = next((f"a unit that is known ({s.path} has {s.meta['unit']})" for s in numbers if s.meta.get("unit")), "its unit")
            notes.say("note", f"no file says {odd}: all numbers are taken to be in the same one")
        return sources
    for source in numbers if not task.unit else ():
        if source.bits not in (None, wanted):
            notes.say("note", f"{source.path}: its numbers are written in the unit of {'the links' if own else 'the first file that says one'}")
    return [_in_unit(s, wanted, own, linked, notes) if s in numbers else s for s in sources]


def _require_unsaid(sources: list[Source], given: Fraction, notes: Notes) -> None:
    """Refuses a unit for files that say none, or says that it means nothing, where all files say theirs, and one another unit."""
    if all(source.said or _says_unit(source) for source in sources):
        other = next((source for source in sources if source.bits != given), None)
        if other and other.said:
            raise Refused(f"{other.path}: {other.said} says its unit, and --from-unit another one").at(other.path)
        if other:
            notes.say("note", f"{other.path} says its unit, so --from-unit means nothing")


def _says_unit(source: Source) -> bool:
    """Whether a file of one of the formats that are no tables says its unit, or its format has one."""
    return source.bits is not None and (source.kind in ("native", "xml", "graph") or source.by_number)


def _is_of(source: Source, linked: Source | None) -> bool:
    """Whether a file is a list of matrices beside a network, whose numbers are in the unit of the network."""
    return source.kind == "list" and linked is not None


def _in_unit(source: Source, wanted: Fraction, own: Fraction | None, linked: Source | None, notes: Notes) -> Source:
    """What a file has, in a unit."""
    if linked is not None and _is_of(source, linked):
        notes.say("note", f"{source.path}: its numbers are in the unit of {linked.path}, since a list is made for a network")
        source = replace(source, bits=own)
    return in_unit(source, wanted)


def _tell(network: Network, kind: str, notes: Notes) -> None:
    """What else a reader of the new file has to know."""
    if kind == "list" and network.links:
        notes.say("dropped", f"{len(network.nodes)} nodes and {len(network.links)} links: a list has demands alone")
    if kind == "net" and network.one_way:
        notes.say("note", "links are one way: solve with --links directed")
    if kind == "net" and network.links_mode == "bidirected":
        notes.say("note", "links have their whole capacity each way: solve with --links bidirected")
    if kind == "net" and not any(d.amount for m in network.matrices for d in m.demands):
        notes.say("note", "no demands: give a file of demands behind the network's, or have them made up by --gravity X")


def _tell_meta(sources: list[Source], kind: str, notes: Notes) -> None:
    """Says of which files META has no place in the new one."""
    for source in sources:
        kept = kind == "net" and bool(source.links)
        if source.meta and not kept:
            notes.say("dropped", f"{source.path}: META: {', '.join(source.meta)}")


def _text(network: Network, kind: str, notes: Notes) -> str:
    """The text of that kind."""
    if kind == "net":
        return native.network_text(network)
    if kind == "list":
        return native.list_text(network)
    if kind == "graphml":
        with needed():
            from . import graphml
        return graphml.text(network, notes)
    return tables.text(network, kind, notes)


def read(path: str, task: Task, notes: Notes) -> Source:
    """What a file has, in whichever format."""
    return read_bytes(files.label(path), files.contents(path), task, notes, _form(path, task))


def read_bytes(path: str, raw: bytes, task: Task, notes: Notes, form: Form | None = None) -> Source:
    """What the bytes of a file have; the path is for people, and by its ending tells tables."""
    form = form or _form(path, task)
    data = files.without_mark(path, raw, notes)
    kind = task.kind or files.kind_of(path, data)
    if kind == "xml":
        with needed():
            from . import sndlib
        return sndlib.read(path, raw, notes)
    if kind == "graphml":
        with needed():
            from . import graphml
        return graphml.read(path, raw, notes, form)
    if kind == "native":
        return native.read_network(path, data, notes)
    if kind == "list":
        return native.read_list(path, data)
    text = files.text_of(path, data, notes)
    if kind == "graph":
        return repetita.read_graph(path, text, notes)
    if kind == "demands":
        return repetita.read_demands(path, text, notes)
    return tables.read(path, text, notes, form)


def _form(path: str, task: Task) -> Form:
    """How open numbers are read: held in the unit that plain ones have, or else in the one asked for."""
    name = task.from_unit or task.unit
    unit = Unit(Fraction(UNITS[name]) if name else None, bool(task.from_unit), task.bytes)
    return Form(unit, task.columns.get("", {}) | task.columns.get(path, {}), task.comma, task.capacity, task.missing)
