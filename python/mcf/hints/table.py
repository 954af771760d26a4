"""The table of hints: for each line of the program, what it means, what mostly causes it, and the part of the guide."""

from __future__ import annotations

import re
from dataclasses import dataclass
from functools import lru_cache

from ..limits import MAX_HOPS, MAX_LINKS, MAX_MATRICES, MAX_TOTAL, MAX_UNITS, MAX_WORD_BYTES, WIDE, WIDE_NAME, Limits


@dataclass(frozen=True)
class Row:
    """A sentence for lines of one form.

    `of` limits it to a command, or to a kind of second file: `routing`, `limited` (a certificate with hop limits), `total` (one of a
    total), or else `certificate`.
    """

    line: re.Pattern[str]
    sentence: str
    part: int = 10
    of: str = ""


def _row(line: str, sentence: str, part: int = 10, of: str = "") -> Row:
    """A row of the table; a line is written with N for its number."""
    return Row(re.compile(line.replace(" line N", " line [0-9]+").replace(" W", " [0-9]+")), sentence, part, of)


_UNITS, _TOTAL = f"2^{MAX_UNITS.bit_length() - 1}", f"2^{MAX_TOTAL.bit_length() - 1}"
_OTHER = "mostly since the network's file was changed after the certificate was made: make a new one"
_EDITED = "mostly in a file that was edited by hand or cut off"
_GREATER = " (if the work limit leaves few phases, a greater --step closes sooner)"

TABLE = (
    _row("refused net N2 line N", f"a word has more than {MAX_WORD_BYTES} bytes, mostly in a file that is no text or has lost its blanks"),
    _row("refused net N3 line N",
         "the text cannot go on as this line does; mostly the line before lacks its `( )` of modules, the sections stand in "
         "another order, or the file is cut off"),
    _row("refused net N5 line N",
         "an id stands twice among the nodes, the links or the demands, mostly in a row that was copied; the line is that of "
         "the second"),
    _row("refused net N6 line N",
         "an end of a link or demand is no node, mostly by a misspelt name or a comma that sticks to it"),
    _row("refused net N7 line N",
         "a word that has to be a number is none, mostly by a sign, a decimal comma or a unit behind it"),
    _row("refused net N8 line N",
         "a number is finer than a millionth, mostly one that was computed: round it, or write the file in a smaller unit"),
    _row("refused net N9 line N",
         f"a number is over {_UNITS} units or all amounts together over {_TOTAL}, mostly of bits in place of Gbit, or of large numbers "
         "with many decimals: write the file in a greater unit, or round"),
    _row("refused net N10 line N",
         "no demand is left, since each has amount 0 or ends in its own node, mostly in a file that has links alone"),
    _row("refused net N11 line N",
         f"the longest path of a demand limits its paths to more than {MAX_HOPS} links: write {MAX_HOPS} or less, or UNLIMITED; a number "
         "that is not less than the nodes less one is no limit", 8),
    _row("refused cert K1 line 1",
         "this is no certificate with hop limits: mostly one of solve, which check judges, one of a total, which checkthroughput judges, "
         "or line ends as on Windows, which sed 's/\\r$//' mends", 8, "checkhops"),
    _row("refused cert K1 line 1",
         "this is no certificate of a total: mostly one of solve, which check judges, one with hop limits, which checkhops judges, or line "
         "ends as on Windows, which sed 's/\\r$//' mends", 9, "checkthroughput"),
    _row("refused cert2? K1 line 1",
         "this is a certificate with hop limits, which checkhops judges and no other command reads", 8, "limited"),
    _row("refused cert2? K1 line 1",
         "this is a certificate of a total, which checkthroughput judges and no other command reads", 9, "total"),
    _row("refused cert K1 line 1",
         "this is no certificate: another file, a routing, which whatif does not take, or line ends as on Windows, which sed "
         "'s/\\r$//' mends", of="whatif"),
    _row("refused cert K1 line 1",
         "this is no certificate: another file, a routing, which upgrade does not take, or line ends as on Windows, which sed "
         "'s/\\r$//' mends", of="upgrade"),
    _row("refused cert2? K1 line 1",
         "this is no certificate: another file, a routing, which tighten does not take, or line ends as on Windows, which sed "
         "'s/\\r$//' mends", of="tighten"),
    _row("refused cert K1 line 1",
         "this is no certificate: another file, a routing, which sweep does not take, or line ends as on Windows, which sed "
         "'s/\\r$//' mends", of="sweep"),
    _row("refused cert K1 line 1",
         "this is no certificate and no routing: mostly another file, or line ends as on Windows, which sed 's/\\r$//' mends"),
    _row("refused cert2? K2 line N", f"the line has not the form that is due there, {_EDITED}"),
    _row("refused cert2? K3 line N",
         "the network has no demand, link or node of that name, mostly since it is another network; in form 2 a sign stands "
         "before each link's id, one that the links have (a demand of amount 0 is left out)"),
    _row("refused cert2? K4 line N", f"a word is no number of a certificate's form, as one with a zero in front, {_EDITED}"),
    _row("refused cert2 K6 line [34]",
         "the second certificate reads links or modules otherwise than the first: solve with the same --links and --modules"),
    _row("refused cert2? K6 line 5",
         "the certificate's counts are not those of this network; mostly it is another network, or rows or sections were added "
         "or taken away"),
    _row("refused script S1 line N",
         "a command has to stand there: set, add, sub, close or show, with a link and a number; mostly a word is missing"),
    _row("refused script S2 line N", "the network has no such link, mostly by a misspelt id, or with a sign, which scripts do not take"),
    _row("refused script S3 line N", "a word that has to be a number is none, as +20% or 0,5"),
    _row("refused script S4 line N",
         "a number has more decimals than the certificate's line 5 tells, mostly one that was computed: round it"),
    _row("refused script S5 line N", f"a capacity is over {_UNITS} units, mostly by a number in a smaller unit than the network's"),
    _row("refused script S6 line N", "sub takes more than the link has at that point, mostly after an earlier edit of it"),
    _row("refused script TooLong", "the script is over 1 MiB: cut it in two"),
    _row("invalid C1",
         "a path is no walk from its demand's source to its target, mostly by links out of order, or against their way where "
         "links are directed or a cell goes one way", 3, "routing"),
    _row("invalid C1",
         "a path is no walk from its demand's source to its target, or has more links than the demand's longest path allows", 8,
         "checkhops"),
    _row("invalid2? C1", f"a path is no walk from its demand's source to its target, {_OTHER}"),
    _row("invalid C2",
         "the weights of a demand do not sum to phases times its amount in whole units, mostly by a path that is missing or by "
         "rounding", 3, "routing"),
    _row("invalid C2",
         "the weights of a demand, times the scale, come to more than its amount, mostly by a scale that is too great", 9, "checkthroughput"),
    _row("invalid2? C2", f"the weights of a demand do not sum to phases times its amount, {_OTHER}"),
    _row("invalid C3",
         "a link carries more than its capacity at this scale, mostly by a scale that is too great", 3, "routing"),
    _row("invalid2? C3", f"a link carries more than its capacity at this scale, {_OTHER}"),
    _row("invalid C4", "the second number of the scale is 0, and has to be a load above 0", 3, "routing"),
    _row("invalid2? C4", f"the second number of the scale is 0, {_EDITED}"),
    _row("invalid2? C5", f"a link, or one way of it, has no length or has two, {_EDITED}"),
    _row("invalid C6",
         "a row is missing, stands twice or is one too many: a source of demands without a limit has one row of potentials, and one of "
         "demands with a limit has layers from 0 to the greatest of their limits", 8, "checkhops"),
    _row("invalid2? C6", f"a source of demands has no row of potentials or two, or another node has one, {_EDITED}"),
    _row("invalid C7",
         "a link raises a potential by more than its length, or a layer is above the one before it, at a node or by more than the length of "
         "a link that leads there", 8, "checkhops"),
    _row("invalid2? C7", f"a link raises a potential by more than its length, {_OTHER}"),
    _row("invalid C8", f"no demand has a distance above 0, by its potentials or by its layers, {_EDITED}", 8, "checkhops"),
    _row("invalid C8", "the threshold of line 11 is 0", 9, "checkthroughput"),
    _row("invalid2? C8", f"no demand has a potential that rises from its source to its target, {_EDITED}"),
    _row("invalid2? C9", f"the fractions of lines 9 and 10 are not those of the rows, {_OTHER}"),
    _row("invalid2? C10", f"the verdict is not that of the gap and of both fractions, {_EDITED}"),
    _row("refused list M1 line N",
         "the list cannot go on as this line does; mostly a matrix lacks its name or its `( )`, or the file is no list"),
    _row("refused list M3 line N",
         "two matrices have one name, or an id stands twice in one matrix, mostly in rows that were copied; the line is that of the second"),
    _row("refused list M4 line N", "an end of a demand is no node of the network, mostly by a misspelt name"),
    _row("refused list M5 line N", "a word that has to be a number is none, mostly by a sign, a decimal comma or a unit behind it"),
    _row("refused list M6 line N", "a number is finer than a millionth, mostly one that was computed: round it, as tools/convert --round does"),
    _row("refused list M7 line N",
         f"a number is over {_UNITS} units or all amounts of a matrix together over {_TOTAL}; each matrix has its own decimals, and with many of them "
         "the capacities of the network count more units: round, or write all in a greater unit"),
    _row("refused list M8 line N", "no demand of the matrix is left, since each has amount 0 or ends in its own node; the line is that of its name"),
    _row("refused list TooLong", "the list is over its limit of bytes: cut it into several"),
    _row("some matrix open",
         "for some matrix the phases were spent before both fractions came within the gap; both fractions of each hold all the same, and more "
         f"--phases, another --step or a greater --gap may close it{_GREATER}; for one matrix alone, tighten its certificate, or take "
         "tools/certify", 5),
    _row("best open",
         "both fractions hold, and no cut of this kind brings them within the gap: solve with another --step and tighten both, or "
         "ask tools/certify", 5),
    _row("verdict open",
         "the phases were spent before both fractions came within the gap; both hold, and more --phases, another --step or a "
         "greater --gap may close it, as tools/certify --kind hops does by a linear program", 8, "hops"),
    _row("verdict open",
         "the phases were spent before both fractions came within the gap; both hold, and tighten, more --phases, another --step or "
         "a greater --gap may close it, as tools/certify does by a linear program", 5),
    _row("some link open",
         "without some link the phases were spent before both fractions came within the gap; all of them hold, and more --phases, "
         f"another --step or a greater --gap may close it{_GREATER}; for one link alone, solve the network without it and tighten the "
         "certificate, or take tools/certify", 4),
    _row("total open",
         "both totals hold; more --phases close the gap only if nearly all demand fits, and if it does not, tools/certify --kind "
         "throughput does by a linear program", 9),
    _row("status 1", "a condition of the certificate fails; the line on standard output names the first one"),
    _row("status 3", "a file is refused; the line on standard output names the kind of the fault and its line"),
)


@lru_cache(maxsize=None)
def table(limits: Limits) -> tuple[Row, ...]:
    """All rows, for the program with these limits."""
    return TABLE + _texts_beyond(limits) + _work_beyond(limits) + _paths_beyond(limits)


def _texts_beyond(limits: Limits) -> tuple[Row, ...]:
    """The rows on texts that are beyond the program's limits; of `mcf` they name those of the other program."""
    is_wide = limits == WIDE
    counts = "" if is_wide else f"; {WIDE_NAME} takes {WIDE.nodes:,} nodes, {MAX_LINKS:,} links too, and {WIDE.demands:,} demands"
    size = "" if is_wide else f", or take {WIDE_NAME}, which reads {WIDE.net_bytes >> 20} MiB"
    longer = "" if is_wide else f"; {WIDE_NAME} reads {WIDE.cert_bytes >> 30} GiB"
    return (
        _row("refused net N4 line N",
             f"there are more than {limits.nodes:,} nodes, {MAX_LINKS:,} links or {limits.demands:,} demands, mostly since demands of the "
             f"same ends are not merged{counts}"),
        _row("refused net TooLong",
             f"the network file is over {limits.net_bytes >> 20} MiB, mostly by sections that are skipped anyway: take them out{size}"),
        _row("refused cert2? TooLong",
             f"the certificate is over {limits.cert_bytes >> 30} GiB, mostly of very many phases: ask for a greater gap, or for fewer "
             f"phases{longer}"),
        _row("refused list M2 line N",
             f"there are more than {MAX_MATRICES} matrices, or more than {limits.demands:,} demands in all: cut the list into several"),
    )


def _work_beyond(limits: Limits) -> tuple[Row, ...]:
    """The rows on work that is beyond the program's limit."""
    return (
        _row("refused work W",
             f"links times demands times phases are over {limits.work:,}, so --phases has to be less, or left out; if it is, the network is "
             "too large to be solved once for each link, and sweep tells what a certificate is worth without each", 4, "sweepsolve"),
        _row("refused work W",
             f"demands of all matrices times phases are over {limits.work:,}, so --phases has to be less, or left out, or the list cut into "
             "several", 7, "batch"),
        _row("refused work W",
             f"demands times phases are over {limits.work:,}, so with so many demands --phases has to be less, or left out", 5),
    )


def _paths_beyond(limits: Limits) -> tuple[Row, ...]:
    """The rows on numbers and paths that are beyond those of a certificate."""
    return (
        _row("refused cert K5 line N",
             f"a number is over its limit, as a layer's index over {MAX_HOPS}, or a path has more than {limits.path_cells} links, {_EDITED}",
             10, "checkhops"),
        _row("refused cert2? K5 line N", f"a number is over its limit or a path has more than {limits.path_cells} links, {_EDITED}"),
    )
