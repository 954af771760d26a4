"""Hints: the words, the files that are no networks, the table, the fullest link; and each case of cases/ through the starter."""

from __future__ import annotations

import gzip
import os
import random
import re
import subprocess
from pathlib import Path

import pytest

from mcf import Program
from mcf.hints.hint import USAGE, hint
from mcf.hints.netfile import kind_of
from mcf.hints.table import table
from mcf.hints.words import COMMANDS, ONE_WORKER_OPTIONS, OPTIONS, Command, Misfit, read, shown
from mcf.limits import NARROW, WIDE, Limits

HEADER = b"?SNDlib native format; type: network; version: 1.0\n"
NET = HEADER + b"""NODES (
  A
  B
)
LINKS (
  L1 ( A B ) 10 0 0 0 ( )
  L2 ( B A ) 0 0 0 0 ( 2.5 1 )
)
DEMANDS (
  D1 ( A B ) 1 4 UNLIMITED
)
"""


# -- words

MISFITS = [
    ("", "a command has to stand there: solve, check, whatif, upgrade, tighten, batch, sweep, sweepsolve, hops, "
     "checkhops, throughput, checkthroughput, print, gen or trial"),
    ("slove n", "`slove` is no command; perhaps solve"),
    ("Solve n", "`Solve` is no command; perhaps solve"),
    ("help slove", "`slove` is no command; perhaps solve"),
    ("help solve check", "`help` is no command"),
    ("--help solve", "`--help` is no command: help on one is ./mcf help solve"),
    ("-h solve n", "`-h` is no command: help on one is ./mcf help solve"),
    ("--help", "`--help` is no command: help on one is ./mcf help COMMAND"),
    ("--version solve", "`--version` is no command: help on one is ./mcf help solve"),
    ("solve n --help", "`--help` is no option of solve: help on it is ./mcf help solve"),
    ("solve --gap 0.1 -h", "`-h` is no option of solve: help on it is ./mcf help solve"),
    ("check n c --version", "`--version` is no option of check: help on it is ./mcf help check"),
    ("solve", "NET is missing at the end"),
    ("check n", "CERT is missing at the end: check takes NET CERT"),
    ("whatif n", "CERT and SCRIPT is missing"),
    ("upgrade n", "CERT is missing at the end: upgrade takes NET CERT"),
    ("upgrade a b --links=bidirected", "`--links` is no option of upgrade, which takes none"),
    ("tighten n", "CERT is missing at the end: tighten takes NET CERT [CERT2]"),
    ("tighten a b c d", "`d` is one word too many: tighten takes NET CERT [CERT2]"),
    ("tighten a b --gap 0.1", "`--gap` is no option of tighten, which takes none"),
    ("sweep n", "CERT is missing at the end: sweep takes NET CERT"),
    ("sweep a b --gap 0.1", "`--gap` is no option of sweep, which takes none"),
    ("batch n", "LIST is missing at the end: batch takes NET LIST"),
    ("batch a b c", "`c` is one word too many: batch takes NET LIST"),
    ("batch a b --workers 2", "`--workers` is no option of batch"),
    ("sweepsolve", "NET is missing at the end: sweepsolve takes NET"),
    ("sweepsolve a b", "`b` is one word too many: sweepsolve takes NET"),
    ("sweepsolve a --workers 1", "`--workers` is no option of sweepsolve"),
    ("hops", "NET is missing at the end: hops takes NET"),
    ("hops a b", "`b` is one word too many: hops takes NET"),
    ("hops a --workers 4", "`--workers` is no option of hops"),
    ("hops a --gap=1000.000001", "`1000.000001` is no value of --gap"),
    ("hops -h", "`-h` is no option of hops"),
    ("checkhops n", "CERT is missing at the end: checkhops takes NET CERT"),
    ("checkhops a b c", "`c` is one word too many: checkhops takes NET CERT"),
    ("checkhops a b --links directed", "`--links` is no option of checkhops, which takes none"),
    ("check-hops a b", "`check-hops` is no command; perhaps checkhops"),
    ("throughput", "NET is missing at the end: throughput takes NET"),
    ("throughput a --workers 1", "`--workers` is no option of throughput"),
    ("throughput a --step 1048577", "`1048577` is no value of --step"),
    ("throughputs a", "`throughputs` is no command; perhaps throughput"),
    ("checkthroughput n", "CERT is missing at the end: checkthroughput takes NET CERT"),
    ("checkthroughput a b c", "`c` is one word too many: checkthroughput takes NET CERT"),
    ("checkthroughput a b --gap 0", "`--gap` is no option of checkthroughput, which takes none"),
    ("Checkthroughput a b", "`Checkthroughput` is no command; perhaps checkthroughput"),
    ("gen 1 2 2", "DEMANDS is missing at the end"),
    ("solve a b", "`b` is one word too many"),
    ("print a --links directed", "`--links` is no option of print, which takes none"),
    ("check a b --gap=1", "`--gap` is no option of check"),
    ("solve n --gaps 0.1", "`--gaps` is no option of solve; perhaps --gap"),
    ("solve n -g 0.1", "`-g` is no option of solve"),
    ("solve n --gap 0.1 --gap=0.2", "--gap stands twice"),
    ("solve n --gap", "the value of --gap is missing at the end"),
    ("solve n --gap 5%", "`5%` is no value of --gap, which is a number from 0 to 1000"),
    ("solve n --gap 0,05", "`0,05` is no value of --gap"),
    ("solve n --gap 0.0000001", "`0.0000001` is no value of --gap"),
    ("solve n --gap 1000.1", "`1000.1` is no value of --gap"),
    ("solve n --gap -1", "`-1` is no value of --gap"),
    ("solve n --gap=", "`` is no value of --gap"),
    ("solve n --phases 1e3", "`1e3` is no value of --phases, which is a whole number from 1 to 65536"),
    ("solve n --phases 0", "`0` is no value of --phases"),
    ("solve n --workers 17", "`17` is no value of --workers, which is a whole number from 1 to 16"),
    ("solve n --step 1048577", "`1048577` is no value of --step"),
    ("solve n --links both", "`both` is no value of --links, which is directed, undirected or bidirected"),
    ("solve n --links --gap", "`--gap` is no value of --links"),
    ("solve n --modules --", "`--` is no value of --modules, which is none, largest or sum"),
    ("solve -- --gap 0.1", "`0.1` is one word too many"),
    ("gen 18446744073709551616 2 2 1", "`18446744073709551616` is no SEED"),
    ("gen 1 513 513 1", "`513` is no NODES, a whole number from 2 to 512"),
    ("gen 1 5 4 1", "`4` is no LINKS, a whole number from 5 to 4096"),
    ("gen x 5 4 1", "`x` is no SEED"),
    ("trial 1 2 2 32769", "`32769` is no DEMANDS"),
    ("trial 1 2 2 1 1", "`1` is one word too many: trial takes SEED NODES LINKS DEMANDS"),
]
FITS = [
    "solve n", "solve -", "solve -- --gap", "solve -- -- ", "solve --gap 0.05 n", "solve n --gap=1e3 --phases=0001 --workers 16",
    "solve n --gap 5e-6", "print x", "whatif a b c", "gen 18446744073709551615 2 2 1", "gen 007 512 4096 32768",
    "trial 1 2 2 1 --step 1048576 --links=directed --modules sum", "solve n --links bidirected", "upgrade a b", "tighten a b", "tighten a b c",
    "sweep a b", "sweep -- -- -", "batch n l", "batch --gap 0.1 n l", "sweepsolve n --phases=7 --links bidirected", "sweepsolve --gap 0.1 --step 65536 --modules sum n",
    "hops n --links=directed", "hops --gap 0.1 --phases 7 n", "throughput --links=directed -- n", "throughput n --step 1 --modules none",
    "checkhops a b", "checkhops -- -h -", "checkthroughput a b", "checkthroughput - --  --gap",
]


@pytest.mark.parametrize("line, said", MISFITS)
def test_first_word_that_does_not_fit(line: str, said: str) -> None:
    with pytest.raises(Misfit) as misfit:
        read(line.split())
    assert str(misfit.value).startswith(said)
    told = hint(2, "/nothing", line.split(), 99)
    assert told is not None and told.startswith(f"hint: usage: {said}") and told.endswith(" (docs/planner/guide.md, part 10)")


@pytest.mark.parametrize("line", ["solve n --hops 3", "solve --hops=3 n", "hops n --hops 3", "hops n --max-hops 3", "checkhops a b --hop 3",
                                  "throughput n --hop-limit=3", "sweepsolve n --limit 3", "gen --hops 3"])
def test_a_hop_limit_is_told_to_be_a_word_of_a_demand(line: str) -> None:
    option = next(word for word in line.replace("=", " ").split() if word.startswith("--"))
    told = hint(2, "/nothing", line.split(), 99)
    assert told == (f"hint: usage: `{option}` is no option of {line.split()[0]}: the hop limit of a demand is the last word of its row in the "
                    "network's file, and hops keeps it (docs/planner/guide.md, part 8)")


@pytest.mark.parametrize("line", FITS)
def test_words_that_fit(line: str) -> None:
    assert read(line.split()).command == line.split()[0]


def test_usage_of_words_that_fit_here_is_told_without_a_word() -> None:
    assert hint(2, "/nothing", ["print", "x"], 99) == f"hint: usage: {USAGE} (docs/planner/guide.md, part 10)"


GOOD = {
    "--links": ["directed", "undirected", "bidirected"], "--modules": ["none", "largest", "sum"], "--workers": ["1", "16"],
    "--step": ["1", "1048576"], "--gap": ["0.05", "1e3", "0", ".5", "5.", "1E+2", "1e-6"],
    "--phases": ["1", "65536", "00000000000000000001"],
}
ODD = ["1001", "1e-7", "5%", "", "--", "-", "both", "65537", "17", "1048577", "000000000000000000001", ".", "1e100", "0x1", "+1",
       "\u0661", "no.file"]


def words_drawn(draw: random.Random) -> list[str]:
    """Words of a command line that is right or nearly so; every file in them is missing."""
    name = draw.choice([*COMMANDS] * 4 + ["help", "--help", ""])
    words = ["no.file"] * len(COMMANDS[name].words if name in COMMANDS and draw.random() < 0.9 else "x" * draw.randrange(5))
    for option in draw.sample(OPTIONS, draw.randrange(4) if name in COMMANDS and COMMANDS[name].options else draw.randrange(10) // 9):
        value = draw.choice(GOOD[option] if draw.random() < 0.85 else ODD)
        place = draw.randrange(len(words) + 1)
        words[place:place] = draw.choice([[option, value], [f"{option}={value}"]])
    if draw.random() < 0.2:
        words.insert(draw.randrange(len(words) + 1), draw.choice(["--", "-", "--gaps", "-g", "--gap=", "--step", *ODD]))
    return [name, *words]


def test_words_are_judged_as_by_the_program(program: Program, tmp_path: Path) -> None:
    draw, counts = random.Random(47), {True: 0, False: 0}
    lines = [line.split() for line, _ in MISFITS] + [line.split() for line in FITS] + [words_drawn(draw) for _ in range(1000)]
    for words in lines:
        try:
            fits = bool(read(words))
        except Misfit:
            fits = False
        if fits and words[0] in ("gen", "trial"):
            continue
        status = subprocess.run([program.path, *words], cwd=tmp_path, stdout=subprocess.DEVNULL).returncode
        assert (status != 2) == fits, (words, status)
        counts[fits] += 1
    assert min(counts.values()) > 100


def test_commands_and_options_are_those_of_the_formats(root: Path) -> None:
    text = (root / "docs/judge/formats.md").read_text()
    part = text[text.index("## Words of the command line"):text.index("## Answers")]
    options = {"none": (), "those below": OPTIONS, "those below but `--workers`": ONE_WORKER_OPTIONS}
    rows = re.findall(r"^\| `(\w+)` \| ([A-Z0-9\[\] ]+) \| (none|those below.*) \|$", part, re.M)
    found = {name: Command(tuple(re.findall(r"(?<!\[)\b[A-Z]+\b(?!\])", words)), options[said], tuple(re.findall(r"\[(\w+)\]", words)))
             for name, words, said in rows}
    assert found == COMMANDS
    assert tuple(re.findall(r"^\| `(--\w+)` \|", part, re.M)) == OPTIONS


def test_help_pages_have_all_commands_and_options(root: Path) -> None:
    pages = {file.stem: file.read_text() for file in (root / "python/mcf/hints/help").iterdir()}
    assert set(pages) == {"mcf", *COMMANDS}
    for name, command in COMMANDS.items():
        assert pages[name].startswith(f"usage: mcf {name} {command.taken}"), name
        assert re.search(rf"^  {name} {re.escape(command.taken)}  ", pages["mcf"], re.M), name
    assert re.findall(r"^  (--\w+) [A-Z]+  ", pages["solve"], re.M) == list(OPTIONS)
    assert max(len(line) for page in pages.values() for line in page.splitlines()) <= 80


def test_words_are_shown_safely() -> None:
    assert shown("a\x1b[31m\udcff\u202eb") == "`a<1b>[31m<ff><e280ae>b`"
    assert len(shown("x" * 500)) < 80


# -- files in the network's place

KINDS = [
    (b"", "is empty"), (b"\xef\xbb\xbf" + NET, "begins with a byte order mark, which tools/convert"),
    (b"\xff\xfe?\0S\0", "begins with a byte order mark of UTF-16, which tools/convert"),
    (gzip.compress(NET, mtime=0), "is gzip, which tools/convert"),
    (b'<?xml version="1.0"?>\n<network xmlns="http://sndlib.zib.de/network">', "is XML, which tools/convert"),
    (b"\xef\xbb\xbf<?xml version='1.0'?>\n<network>", "is XML, which tools/convert"),
    (b'<?xml version="1.0"?>\n<graphml xmlns="http://graphml.graphdrawing.org/xmlns">', "is GraphML, which tools/convert"),
    (b"\n <GraphML>", "is GraphML"), (b"<!DOCTYPE html>\n<html>", "is a web page"), (b"PK\x03\x04abc", "is a zip archive"),
    (b"mcf-certificate 1\nverdict", "is a certificate or routing"), (b"mcf-routing 2\n", "is a certificate or routing"),
    (b"mcf-hops 1\nverdict", "is a certificate or routing"), (b"mcf-throughput 1\n", "is a certificate or routing"),
    (b"\n" + NET, "has a blank or an empty line"),
    (b"?SNDlib native format; type: solution; version: 1.0\n", "is of SNDlib, and no network"),
    (b"NODES (\n", "does not begin with ?SNDlib native format; type: network;"),
]


@pytest.mark.parametrize("front, said", KINDS)
def test_kind_of_file(front: bytes, said: str) -> None:
    assert kind_of(front).startswith(said)


@pytest.mark.parametrize("front, said", KINDS)
def test_program_refuses_such_files_by_their_header(program: Program, tmp_path: Path, front: bytes, said: str) -> None:
    (tmp_path / "file").write_bytes(front)
    words = ["print", str(tmp_path / "file")]
    answer = program.run(*words)
    assert (answer.status, answer.text) == (3, "refused net N1 line 1\n")
    with open(tmp_path / "out", "wb") as out:
        told = hint(3, program.path, words, out.fileno())
    assert told is not None and told.startswith("hint: refused net N1 line 1: `") and said in told


# -- the table

def says(folder: Path, line: str, status: int) -> str:
    """A program that says one line."""
    file = folder / "says"
    file.write_text(f"#!/bin/sh\necho '{line}'\nexit {status}\n")
    file.chmod(0o755)
    return str(file)


LINES = [tuple(map(str.strip, row.split("|"))) for row in """\
solve net         | 3 | refused net N2 line 3   | 255 bytes
solve net         | 3 | refused net N3 line 17  | sections
solve net         | 3 | refused net N4 line 600 | 512 nodes
print net         | 3 | refused net N5 line 8   | an id stands twice
check net cert    | 3 | refused net N6 line 7   | is no node
whatif net cert s | 3 | refused net N7 line 7   | decimal comma
solve net         | 3 | refused net N8 line 9   | finer than a millionth
solve net         | 3 | refused net N9 line 9   | 2^44
solve net         | 3 | refused net N10 line 16 | no demand is left
solve net         | 3 | refused net TooLong     | 64 MiB
solve net         | 3 | refused work 2129920    | 2,097,152
trial 1 2 2 1     | 3 | refused work 2129920    | 2,097,152
check net cert    | 3 | refused cert K1 line 1  | no certificate and no routing
whatif net cert s | 3 | refused cert K1 line 1  | whatif does not take
upgrade net cert  | 3 | refused cert K1 line 1  | upgrade does not take
sweep net cert    | 3 | refused cert K1 line 1  | sweep does not take
tighten net cert  | 3 | refused cert K1 line 1  | tighten does not take
tighten net cert cert | 3 | refused cert2 K1 line 1 | tighten does not take
tighten net cert cert | 3 | refused cert2 K6 line 3 | otherwise than the first
tighten net cert cert | 3 | refused cert2 K6 line 5 | counts
tighten net cert cert | 1 | invalid2 C10        | verdict
tighten net cert  | 1 | mcf-certificate 2       | another --step
batch net list    | 3 | refused list M1 line 1  | the list cannot go on
batch net list    | 3 | refused list M2 line 9  | 64 matrices
batch net list    | 3 | refused list M3 line 2  | second
batch net list    | 3 | refused list M4 line 2  | no node
batch net list    | 3 | refused list M5 line 2  | decimal comma
batch net list    | 3 | refused list M6 line 2  | --round
batch net list    | 3 | refused list M7 line 2  | 2^44
batch net list    | 3 | refused list M8 line 2  | no demand of the matrix
batch net list    | 3 | refused list TooLong     | limit of bytes
batch net list    | 1 | matrix m1               | both fractions of each
batch net list    | 1 | matrix m1               | more --phases, another --step or a greater --gap may close it
batch net list    | 1 | matrix m1               | a greater --step closes sooner
batch net list    | 1 | matrix m1               | tighten its certificate, or take tools/certify
batch net list    | 3 | refused work 2129920    | demands of all matrices
sweepsolve net    | 3 | refused work 2129920    | links times demands
checkhops net limited  | 3 | refused net N11 line 7  | 64 or less
hops net          | 3 | refused net N11 line 7  | 64 or less
hops net          | 3 | refused work 2129920    | 2,097,152
throughput net    | 3 | refused work 2129920    | 2,097,152
hops net          | 1 | mcf-hops 1              | more --phases
throughput net    | 1 | mcf-throughput 1        | linear program
checkhops net cert     | 3 | refused cert K1 line 1  | which check judges, one of a total
checkhops net total    | 3 | refused cert K1 line 1  | which check judges, one of a total
checkthroughput net cert | 3 | refused cert K1 line 1 | which check judges, one with hop limits
check net limited | 3 | refused cert K1 line 1  | which checkhops judges
check net total   | 3 | refused cert K1 line 1  | which checkthroughput judges
upgrade net limited | 3 | refused cert K1 line 1 | which checkhops judges
tighten net cert limited | 3 | refused cert2 K1 line 1 | which checkhops judges
tighten net cert total | 3 | refused cert2 K1 line 1 | which checkthroughput judges
checkhops net limited  | 3 | refused cert K5 line 20 | index over 64
checkthroughput net total | 3 | refused cert K5 line 20 | 511 links
checkhops net limited  | 1 | invalid C1              | longest path
checkhops net limited  | 1 | invalid C2              | phases times its amount
checkhops net limited  | 1 | invalid C6              | layers from 0
checkhops net limited  | 1 | invalid C7              | a layer is above
checkhops net limited  | 1 | invalid C8              | by its layers
checkthroughput net total | 1 | invalid C1           | changed after
checkthroughput net total | 1 | invalid C2           | more than its amount
checkthroughput net total | 1 | invalid C6           | a source of demands
checkthroughput net total | 1 | invalid C8           | threshold
checkthroughput net total | 1 | invalid C9           | lines 9 and 10
check net cert    | 3 | refused cert K2 line 4  | form that is due
check net cert    | 3 | refused cert K3 line 11 | another network
upgrade net cert  | 3 | refused cert K3 line 11 | a sign stands
check net cert    | 3 | refused cert K4 line 11 | zero in front
check net cert    | 3 | refused cert K5 line 11 | 511 links
check net cert    | 3 | refused cert K6 line 5  | counts
check net cert    | 3 | refused cert TooLong    | 1 GiB
whatif net cert s | 3 | refused script S1 line 2| set, add, sub, close or show
whatif net cert s | 3 | refused script S2 line 2| no such link
whatif net cert s | 3 | refused script S3 line 2| +20%
whatif net cert s | 3 | refused script S4 line 2| decimals
whatif net cert s | 3 | refused script S5 line 2| 2^44
whatif net cert s | 3 | refused script S6 line 2| sub takes more
whatif net cert s | 3 | refused script TooLong  | 1 MiB
check net cert    | 1 | invalid C1              | changed after
check net routing | 1 | invalid C1              | against their way
check net cert    | 1 | invalid C2              | changed after
check net routing | 1 | invalid C2              | a path that is missing
check net cert    | 1 | invalid C3              | changed after
whatif net cert s | 1 | invalid C3              | changed after
check net cert    | 1 | invalid C4              | by hand
check net routing | 1 | invalid C4              | above 0
check net cert    | 1 | invalid C5              | length
upgrade net cert  | 1 | invalid C6              | potentials
check net cert    | 1 | invalid C6              | potentials
check net cert    | 1 | invalid C7              | more than its length
check net cert    | 1 | invalid C8              | rises
check net cert    | 1 | invalid C9              | lines 9 and 10
check net cert    | 1 | invalid C10             | verdict
solve net         | 1 | mcf-certificate 2       | more --phases
trial 1 2 2 1     | 1 | trial nodes             | more --phases
sweepsolve net    | 1 | sweep L1 open           | without some link
sweepsolve net    | 1 | sweep L1 open           | a greater --step closes sooner
sweepsolve net    | 1 | sweep L1 open           | without it and tighten the certificate, or take tools/certify
check net cert    | 3 | refused cert X9 line 1  | docs/judge/formats.md tells
check net cert    | 1 | something else          | names the first one
check net cert    | 3 | something else          | names the kind
""".splitlines()]


@pytest.mark.parametrize("words, ended, line, said", LINES)
@pytest.mark.parametrize("to_file", [True, False])
def test_line_has_its_hint(tmp_path: Path, monkeypatch: pytest.MonkeyPatch, words: str, ended: str, line: str, said: str,
                           to_file: bool) -> None:
    status = int(ended)
    monkeypatch.chdir(tmp_path)
    for name, text in (("net", NET), ("cert", b"mcf-certificate 1\n"), ("routing", b"mcf-routing 1\n"), ("s", b"show\n"), ("list", b""),
                       ("limited", b"mcf-hops 1\n"), ("total", b"mcf-throughput 1\n")):
        Path(name).write_bytes(text)
    program = says(tmp_path, line, status)
    reader, writer = os.pipe()
    with open("out", "w+b") as out:
        out.write(b"before\n" + line.encode() + b"\n" if to_file else b"")
        out.flush()
        told = hint(status, program, words.split(), out.fileno() if to_file else writer)
    os.close(reader)
    os.close(writer)
    others = {"mcf-certificate 2": "verdict open", "trial nodes": "verdict open", "sweep L1 open": "some link open", "matrix m1": "some matrix open",
              "something else": f"status {status}"}
    others |= {"mcf-hops 1": "verdict open", "mcf-throughput 1": "total open"}
    named = "best open" if words.startswith("tighten") and line in others else others.get(line, line)
    assert told is not None and re.fullmatch(rf"hint: {named}: [^\n]+ \(docs/planner/guide\.md, part (?:[1-9]|10)\)", told)
    assert said in told


def test_every_row_of_the_table_is_reached() -> None:
    for row in table(NARROW):
        lines = {line for _, _, line, _ in LINES} | {"verdict open", "some link open", "some matrix open", "best open", "total open", "status 1",
                                                 "status 3"}
        assert any(row.line.fullmatch(line) for line in lines), row.line.pattern


@pytest.mark.parametrize("limits", (NARROW, WIDE))
def test_every_refusal_and_condition_of_the_formats_has_a_row(root: Path, limits: Limits) -> None:
    text = (root / "docs/judge/formats.md").read_text()
    kinds = re.findall(r"^\| `([NKSCM][0-9]+)` \|", text, re.M)
    assert len(kinds) == len(set(kinds)) == 41 and {kind[0] for kind in kinds} == set("NKSCM")
    of = {"N": "refused net {} line 1", "K": "refused cert {} line 1", "S": "refused script {} line 1", "M": "refused list {} line 1", "C": "invalid {}"}
    for kind in set(kinds) - {"N1"}:
        line = of[kind[0]].format(kind) if kind != "K6" else "refused cert K6 line 5"
        assert any(row.line.fullmatch(line) for row in table(limits)), kind


def test_parts_of_the_guide_are_there(root: Path) -> None:
    parts = {int(number) for number in re.findall(r"^## ([0-9]+)\. ", (root / "docs/planner/guide.md").read_text(), re.M)}
    assert {row.part for row in table(NARROW)} | {1, 10} <= parts


def test_a_pipe_is_not_read_again(tmp_path: Path) -> None:
    os.mkfifo(tmp_path / "pipe")
    program = tmp_path / "program"
    program.write_text(f"#!/bin/sh\ntouch {tmp_path}/ran\necho refused net N6 line 7\nexit 3\n")
    program.chmod(0o755)
    told = hint(3, str(program), ["solve", str(tmp_path / "pipe")], 99)
    assert told is not None and told.startswith("hint: status 3: ")
    assert not (tmp_path / "ran").exists()


def test_a_second_run_that_ends_otherwise_is_not_believed(tmp_path: Path) -> None:
    told = hint(3, says(tmp_path, "refused net N6 line 7", 0), ["solve", "no.file"], 99)
    assert told is not None and told.startswith("hint: status 3: ")


def test_a_second_run_has_a_time_limit(tmp_path: Path, monkeypatch: pytest.MonkeyPatch) -> None:
    monkeypatch.setattr("mcf.hints.told.SECONDS", 0.2)
    program = tmp_path / "program"
    program.write_text("#!/bin/sh\nexec sleep 30\n")
    program.chmod(0o755)
    told = hint(1, str(program), ["check", "a", "b"], 99)
    assert told is not None and told.startswith("hint: status 1: a condition of the certificate fails; the line on standard output")


@pytest.mark.parametrize("words, said", [
    (["solve", "-"], "`-` does not exist; for standard input, write /dev/stdin"), (["solve", "no.net"], "`no.net` does not exist"),
    (["check", "net", "folder"], "`folder` is a folder"), (["whatif", "net", "net", "no.script"], "`no.script` does not exist"),
    (["print", "net"], "a file could not be read to its end"),
])
def test_a_file_that_cannot_be_read_is_named(tmp_path: Path, monkeypatch: pytest.MonkeyPatch, words: list[str], said: str) -> None:
    monkeypatch.chdir(tmp_path)
    Path("net").write_bytes(NET)
    Path("folder").mkdir()
    assert hint(4, "/nothing", words, 99) == f"hint: read fault: {said} (docs/planner/guide.md, part 10)"


def test_tools_that_call_the_starter_get_no_hints(tmp_path: Path, monkeypatch: pytest.MonkeyPatch) -> None:
    monkeypatch.setenv("MCF_HINTS", "1")
    program = tmp_path / "program"
    program.write_text("#!/bin/sh\necho $MCF_HINTS\n")
    program.chmod(0o755)
    assert Program(str(program)).ask("solve") == "0\n"


# -- the fullest link

ROUTINGS = [
    ("scale 10 3", "path D1 40 L1",
     "`L1` is the fullest, with 13.333333 on a capacity of 10; the greatest scale that fits is 100 40, which carries 2.5 "),
    ("scale 3 1", "path D1 10 L1\npath D1 30 L2",
     "`L2` is the fullest, with 9 on a capacity of 2.5; the greatest scale that fits is 25 30, which carries 0.833333 "),
    ("scale 1 0", "path D1 40 L1",
     "the second number of the scale is 0; link `L1` is the fullest, and the greatest scale that fits is 100 40 "),
]


@pytest.mark.parametrize("scale, paths, said", ROUTINGS)
def test_fullest_link_of_a_routing(program: Program, tmp_path: Path, scale: str, paths: str, said: str) -> None:
    net, routing = tmp_path / "net", tmp_path / "routing"
    net.write_bytes(NET)
    # (in tenths, by the module of L2)
    text = f"mcf-routing 1\nlinks undirected\nmodules largest\nphases 1\n{scale}\n{paths}\nend\n"
    routing.write_text(text)
    words = ["check", str(net), str(routing)]
    assert program.run(*words).text == "invalid C3\n"
    told = hint(1, program.path, words, 99)
    assert told is not None and told.startswith("hint: invalid C3: ") and said in told
    fit = re.search(r"fits is (\d+) (\d+)", told)
    assert fit is not None
    routing.write_text(text.replace(scale, f"scale {fit[1]} {fit[2]}"))
    assert program.run(*words).text.startswith("feasible ")
    routing.write_text(text.replace(scale, f"scale {int(fit[1]) + 1} {fit[2]}"))
    assert program.run(*words).text == "invalid C3\n"


@pytest.mark.parametrize("scale, path, said", [
    ("scale 10 3", "path D1 40 +L1", "link `L1` along its direction is the fullest, with 13.333333 on a capacity of 10; the greatest"),
    ("scale 3 1", "path D1 40 -L2", "link `L2` against its direction is the fullest, with 12 on a capacity of 2.5; the greatest"),
])
def test_fullest_way_of_a_link(program: Program, tmp_path: Path, scale: str, path: str, said: str) -> None:
    (tmp_path / "net").write_bytes(NET)
    (tmp_path / "routing").write_text(f"mcf-routing 2\nlinks bidirected\nmodules largest\nphases 1\n{scale}\n{path}\nend\n")
    words = ["check", str(tmp_path / "net"), str(tmp_path / "routing")]
    assert program.run(*words).text == "invalid C3\n"
    told = hint(1, program.path, words, 99)
    assert told is not None and said in told


def test_a_link_without_capacity_is_named(program: Program, tmp_path: Path) -> None:
    (tmp_path / "net").write_bytes(NET)
    (tmp_path / "routing").write_text("mcf-routing 1\nlinks undirected\nmodules none\nphases 1\nscale 1 4\npath D1 4 L2\nend\n")
    told = hint(1, program.path, ["check", str(tmp_path / "net"), str(tmp_path / "routing")], 99)
    assert told is not None and "link `L2` has no capacity and paths go over it" in told


# -- all cases, through the starter

CASES = Path(__file__).resolve().parents[2] / "cases"


@pytest.mark.parametrize("to_file", [True, False])
def test_cases_through_the_starter(program: Program, root: Path, tmp_path: Path, to_file: bool) -> None:
    starter = tmp_path / "starter"
    starter.write_text(f'#!/bin/sh\nhere={root}\n. "$here/python/mcf/hints/starter.sh"\nprogram={program.path}\nrun_program "$@"\n')
    starter.chmod(0o755)
    env = {**os.environ, "MCF_HINTS": "1", "examples": str(root / "examples")}
    hinted = 0
    for args in sorted(CASES.glob("*/*/args")):
        case, room = args.parent, tmp_path / "room" / args.parent.name
        room.mkdir(parents=True)
        if (case / "data").is_dir():
            subprocess.run(["cp", "-R", f"{case}/data/.", str(room)], check=True)
        if (case / "make").exists():
            subprocess.run(["sh", "-e", str(case / "make")], cwd=room, env=env, check=True)
        words = args.read_bytes().split(b"\n")
        words = words[:-1] if words[-1] == b"" else words
        with open(tmp_path / "out", "w+b") as out:
            ran = subprocess.run([str(starter), *words], cwd=room, env=env, stdin=subprocess.DEVNULL,
                                 stdout=out if to_file else subprocess.PIPE, stderr=subprocess.PIPE)
            out.seek(0)
            wrote = out.read() if to_file else ran.stdout
        subprocess.run(["rm", "-rf", str(room)], check=True)
        assert str(ran.returncode) in (case / "status").read_text().split(), case
        if (case / "stdout").exists():
            assert wrote == (case / "stdout").read_bytes(), case
        hinted += judged(case, ran.returncode, wrote.decode("latin-1"), ran.stderr.decode())
    assert hinted > 100


def judged(case: Path, status: int, wrote: str, said: str) -> int:
    """Whether a hint was given, which has to be right. A case lies in the folder of its command."""
    if status not in (1, 2, 3, 4):
        assert said == "", case
        return 0
    line = wrote.rstrip("\n")
    if status == 1 and not wrote.startswith("invalid"):
        opens = {"batch": "some matrix open", "sweepsolve": "some link open", "tighten": "best open", "throughput": "total open"}
        line = opens.get(case.parent.name, "verdict open")
    assert re.fullmatch(rf"hint: {re.escape(line)}: [^\n]+ \(docs/planner/guide\.md, part (?:[1-9]|10)\)\n", said), (case, line, said)
    assert USAGE not in said and "docs/judge/formats.md tells" not in said, (case, said)
    return 1
