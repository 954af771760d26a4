"""The second checker says what the program says: of the examples, of damaged certificates, and of networks at their limits."""

from __future__ import annotations

import os
import re
import signal
import subprocess
import sys
import time
from collections import Counter
from pathlib import Path
from typing import Any

import pytest

from damage import damaged
from mcf import Program, judge_of, limits, load_text, save_text

NET = """?SNDlib native format; type: network; version: 1.0
META ( a ( b ) )
NODES (
  A ( 1 2 )
  B
  C ( )
)
LINKS (
  L1 ( A B ) 1.5 0 0 0 ( 2 1 4 1 )
  L2 ( B C ) 3 0 0 0 ( )
  L3 ( C A ) 2.25 0 0 0 ( 1 1 )
  L4 ( B B ) 1 0 0 0 ( )
  L5 ( A C ) 0 0 0 0 ( )
)
DEMANDS (
  D1 ( A C ) 1 4 UNLIMITED
  D2 ( C B ) 0.5 3 2
  D3 ( B B ) 1 1 UNLIMITED
  D4 ( A B ) 1 0 UNLIMITED
)
TAIL ( )
"""
SPLIT = NET.replace("L1 ( A B ) 1.5", "L1 ( A A ) 1.5")


def twice(root: Path, net: Path, cert: Path) -> str:
    """What the second checker says."""
    done = subprocess.run([str(root / "tools/check_twice"), str(net), str(cert)], capture_output=True, text=True, encoding="latin-1", check=False)
    assert done.stderr == "", done.stderr
    assert done.returncode == {"valid": 0, "feasible": 0, "invalid": 1, "refused": 3}[done.stdout.split()[0]]
    return done.stdout


def alike(first: str, second: str) -> bool:
    """Whether two lines say the same; of a refusal the file has to agree, and the kind need not."""
    return first == second or first.split(" ")[0] == "refused" and first.split()[:2] == second.split()[:2]


@pytest.fixture(scope="module")
def bases(program: Program, root: Path, tmp_path_factory: pytest.TempPathFactory) -> list[tuple[Path, str]]:
    """Networks with certificates and routings, of several modes, modules, verdicts and forms; one is a cut."""
    room = tmp_path_factory.mktemp("bases")
    mixed, split = room / "mixed.net", room / "split.net"
    save_text(mixed, NET)
    save_text(split, SPLIT)
    found = [(root / "examples" / f"{name}.net", load_text(root / "examples" / f"{name}.{kind}"))
             for name, kind in (("triangle", "cert"), ("triangle", "routing"), ("polska", "cert"), ("one-link", "routing"),
                                ("one-link", "cert"), ("both-ways", "cert"))]
    for file, options in ((mixed, ("--modules", "sum")), (mixed, ("--links", "directed", "--modules", "none", "--phases", "3", "--gap", "0")),
                          (mixed, ("--gap", "0.01")), (split, ("--links", "directed")), (root / "examples/nobel-us.net", ("--gap", "0.3")),
                          (mixed, ("--links", "bidirected", "--gap", "0.02")), (split, ("--links", "bidirected"))):
        found.append((file, program.solve(file, "--workers", "1", *options)))
    return found + [(net, in_form_1(text)) for net, text in found if "links bidirected" not in text]


def in_form_1(text: str) -> str:
    """A text of form 2 in form 1, in which links stand without signs."""
    lines = text.replace(" 2\n", " 1\n", 1).split("\n")
    for at, line in enumerate(lines):
        words = line.split(" ")
        if words[0] in ("path", "length"):
            cells = {"path": slice(3, None), "length": slice(1, 2)}[words[0]]
            words[cells] = [word.lstrip("+=") for word in words[cells]]
        lines[at] = " ".join(words)
    return "\n".join(lines)


def judged(program: Program, root: Path, room: Path, net: Path, text: str) -> tuple[str, str]:
    """What both say of a text, the program by the command of its kind."""
    cert = room / "cert"
    save_text(cert, text)
    return program.check(net, cert, command=judge_of(text)).text, twice(root, net, cert)


def test_whole_texts_are_judged_alike(program: Program, root: Path, bases: list[tuple[Path, str]], tmp_path: Path) -> None:
    for net, text in bases:
        first, second = judged(program, root, tmp_path, net, text)
        assert first == second
        assert first.split(" ")[0] in ("valid", "feasible")


def test_damaged_texts_are_judged_alike(program: Program, root: Path, bases: list[tuple[Path, str]], tmp_path: Path) -> None:
    seen: Counter[str] = Counter()
    texts: set[str] = set()
    seed = 0
    while len(texts) < 220:
        net, text = bases[seed % len(bases)]
        changed = damaged(text, seed)
        seed += 1
        if changed in texts or changed == text:
            continue
        texts.add(changed)
        first, second = judged(program, root, tmp_path, net, changed)
        assert alike(first, second), f"seed {seed - 1}: mcf says {first.strip()}, check_twice {second.strip()}"
        words = first.split()
        seen[words[1] if words[0] == "invalid" else words[0]] += 1
    assert set(seen) >= {"valid", "refused", "C1", "C2", "C3", "C5", "C6", "C7", "C8", "C9", "C10"}, seen
    assert seen["refused"] < 160, "most of the damages would be those of form"


@pytest.mark.parametrize("old,new", [
    ("META ( a ( b ) )", "META ( a ( b )"), ("META ( a ( b ) )", "META a"), ("META ( a ( b ) )", "( a )"), ("TAIL ( )", "LINKS ( )"),
    ("TAIL ( )", "TAIL"), ("A ( 1 2 )", "A ( 1 ( 2 ) )"), ("  B\n", "  B B\n"), ("  B\n", "  ( )\n"), ("  B\n", ""), ("L2 (", "L1 ("),
    ("D2 (", "D1 ("), ("L2 ( B C )", "L2 ( B D )"), ("L2 ( B C )", "L2 ( B )"), ("L2 ( B C )", "L2 ( B C A )"),
    ("( 2 1 4 1 )", "( 2 1 4 )"), ("( 2 1 4 1 )", ""), ("( 2 1 4 1 )", "( 2 1 4,0 1 )"), ("( 2 1 4 1 )", "( 2 x 4 y )"),
    ("1.5", "-1.5"), ("1.5", "1.5e0"), ("1.5", "0.0000001"), ("1.5", "17592186044417"), ("1.5", "1" * 256), ("1.5", "x"),
    ("D1 ( A C ) 1 4 UNLIMITED", "D1 ( A C ) 1 4 x"), ("D1 ( A C ) 1 4 UNLIMITED", "D1 ( A C ) 1 4 7"), ("0.5 3 2", "0.0001 0.0001 2"),
    ("0.5 3 2", "17592186044416 5 2"), ("D3 ( B B ) 1 1", "D3 ( B B ) 17592186044417 1"), ("D3 ( B B ) 1 1", "D3 ( B B ) 17592186044416 9"),
    ("D4 ( A B ) 1 0", "D4 ( A B ) 1 0.0000001"), ("D3 ( B B ) 1 1", "D3 ( B B ) 0.001 0.0001"), ("?SNDlib", " ?SNDlib"),
    ("NODES", "# NODES\nNODES"), ("NODES", "NODES#"), ("  B\n", "  B#x\n"), ("A ( 1 2 )", "A ( 1 2 "), ("DEMANDS", "demands"),
    ("version: 1.0", "version: ( ( ("), ("L3 ( C A ) 2.25 0 0 0", "L3 ( C A ) 2.25 ( 0 0"), ("L3 ( C A ) 2.25 0 0", "L3 ( C A ) 2.25 0"),
    ("1 4 UNLIMITED\n", "1 4 UNLIMITED )\n"), ("D2 ( C B )", "D2 C B"), ("4 1 )", "0.0000001 1 )"), ("2.25", "2.2500000"),
])
def test_networks_are_read_alike(program: Program, root: Path, tmp_path: Path, old: str, new: str) -> None:
    net = tmp_path / "net"
    assert old in NET
    for options in (("--links", "undirected", "--modules", "none"), ("--links", "directed", "--modules", "largest"),
                    ("--links", "bidirected", "--modules", "sum")):
        save_text(net, NET)
        text = program.solve(net, "--workers", "1", "--phases", "2", *options)
        save_text(net, NET.replace(old, new, 1))
        first, second = judged(program, root, tmp_path, net, text)
        assert alike(first, second), f"mcf says {first.strip()}, check_twice {second.strip()}"


@pytest.mark.parametrize("nodes,links,demands", [(512, 512, 10), (513, 513, 1), (2, 4096, 1), (2, 4097, 1), (2, 2, 32768), (2, 2, 32769)])
def test_sizes_at_the_limits(program: Program, root: Path, tmp_path: Path, nodes: int, links: int, demands: int) -> None:
    net = tmp_path / "net"
    save_text(net, "?SNDlib native format; type: network; version: 1.0\nNODES (\n" + "".join(f"N{i}\n" for i in range(nodes)) + ")\nLINKS (\n"
              + "".join(f"L{i} ( N{i % nodes} N{(i + 1) % nodes} ) 9 0 0 0 ( )\n" for i in range(links)) + ")\nDEMANDS (\n"
              + "".join(f"D{i} ( N0 N1 ) 1 1 UNLIMITED\n" for i in range(demands)) + ")\n")
    whole = nodes <= 512 and links <= 4096 and demands <= 32768
    text = program.solve(net, "--workers", "1", "--phases", "1", "--gap", "1000") if whole else "mcf-certificate 1\n"
    first, second = judged(program, root, tmp_path, net, text)
    assert alike(first, second)
    assert first.startswith("valid" if whole else "refused net N4")


def test_form_2_is_judged(root: Path, tmp_path: Path) -> None:
    net, cert = tmp_path / "net", tmp_path / "cert"
    save_text(net, "?SNDlib native format; type: network; version: 1.0\nNODES (\nA\nB\n)\nLINKS (\nL1 ( A B ) 10 0 0 0 ( )\n)\n"
              "DEMANDS (\nD1 ( A B ) 1 5 UNLIMITED\nD2 ( B A ) 1 5 UNLIMITED\n)\n")
    text = ("mcf-certificate 2\nverdict closed\nlinks bidirected\nmodules largest\n"
            "net nodes 2 cells 2 commodities 2 decimals 0 skipped 0 left 0 hops 0\ngap 0.050000\nphases 1\nscale 10 5\nlower 10/5 2.000000\n"
            "upper 20/10 2.000000\npath D1 5 +L1\npath D2 5 -L1\nlength +L1 1\nlength -L1 1\npotential A 0 1\npotential B 1 0\nend\n")
    for old, new, line in (("", "", "valid closed bidirected largest lower 10/5 2.000000 upper 20/10 2.000000\n"),
                           ("path D1 5 +L1", "path D1 5 -L1", "invalid C1\n"), ("path D1 5 +L1", "path D1 5 =L1", "refused cert\n"),
                           ("path D1 5 +L1", "path D1 5 L1", "refused cert\n"), ("certificate 2", "certificate 1", "refused cert\n"),
                           ("length -L1 1", "length +L1 1", "invalid C5\n"), ("length -L1 1", "length -L1 0", "invalid C7\n")):
        save_text(cert, text.replace(old, new, 1))
        assert twice(root, net, cert) == line


LIMITED = """?SNDlib native format; type: network; version: 1.0
NODES (
  A
  B
  C
  D
)
LINKS (
  AB ( A B ) 3 0 0 0 ( )
  BC ( B C ) 4 0 0 0 ( )
  CD ( C D ) 5 0 0 0 ( )
  DA ( D A ) 2 0 0 0 ( )
  BD ( B D ) 0 0 0 0 ( 1 1 )
  CC ( C C ) 1 0 0 0 ( )
)
DEMANDS (
  one ( A C ) 1 3 2
  two ( A C ) 1 2 UNLIMITED
  three ( B A ) 0.5 3 1.99
  four ( D B ) 1 2 7
)
"""


@pytest.fixture(scope="module")
def others(program: Program, root: Path, tmp_path_factory: pytest.TempPathFactory) -> list[tuple[Path, str]]:
    """Networks with certificates with hop limits, and of totals, of all three modes; some are cuts, some open."""
    room = tmp_path_factory.mktemp("others")
    limited, cut = room / "limited.net", room / "cut.net"
    save_text(limited, LIMITED)
    save_text(cut, LIMITED.replace("AB ( A B ) 3", "AB ( A B ) 0"))
    found = [(root / "examples/detours.net", load_text(root / "examples/detours.hops")),
             (root / "examples/in-a-row.net", load_text(root / "examples/in-a-row.throughput"))]
    for command in ("hops", "throughput"):
        for net, options in ((limited, ("--gap", "0.2")), (limited, ("--links", "bidirected", "--modules", "none")),
                             (limited, ("--links", "directed", "--phases", "3", "--gap", "0")), (cut, ("--links", "bidirected"))):
            found.append((net, program.solve(net, *options, command=command)))
    return found


def test_whole_texts_of_the_other_kinds_are_judged_alike(program: Program, root: Path, others: list[tuple[Path, str]], tmp_path: Path) -> None:
    for net, text in others:
        first, second = judged(program, root, tmp_path, net, text)
        assert first == second and first.startswith("valid ")


def names_of(root: Path) -> dict[str, Any]:
    """The names of the second checker, read in this process, whose signals stay as they were."""
    names: dict[str, Any] = {"__name__": "check_twice"}
    before = {number: signal.getsignal(number) for number in (signal.SIGINT, signal.SIGTERM, signal.SIGHUP)}
    exec(compile(load_text(root / "tools/check_twice"), "check_twice", "exec"), names)
    for number, handler in before.items():
        signal.signal(number, handler)
    return names


def test_damaged_texts_of_the_other_kinds_are_judged_alike(program: Program, root: Path, others: list[tuple[Path, str]], tmp_path: Path) -> None:
    judge, cert = names_of(root)["judge"], tmp_path / "cert"
    seen: Counter[str] = Counter()
    texts: set[str] = set()
    seed = 0
    while len(texts) < 260:
        net, text = others[seed % len(others)]
        changed = damaged(text, seed)
        seed += 1
        if changed in texts or changed == text:
            continue
        texts.add(changed)
        save_text(cert, changed)
        first, second = program.check(net, cert, command=judge_of(changed)).text, f"{judge(load_text(net), changed)[0]}\n"
        assert alike(first, second), f"seed {seed - 1}: mcf says {first.strip()}, check_twice {second.strip()}"
        words = first.split()
        seen[words[1] if words[0] == "invalid" else words[0]] += 1
    assert set(seen) >= {"valid", "refused", "C1", "C2", "C3", "C5", "C6", "C7", "C9", "C10"}, seen
    assert seen["refused"] < 190, "most of the damages would be those of form"


BEHIND = [("mcf-", "mcf", "cert"), ("verdict ", "verdict un", "cert"), ("links ", "links un", "cert"), ("modules ", "modules  ", "cert"),
          ("modules largest\n", "modules largest", "cert"), ("\nnet ", "\nnets ", "net"), ("phases ", "phases x", "net"),
          ("\nlower ", "\nlower 9", "net"), ("path D2 ", "path D3 ", "net"), ("path D2 ", "path  D2 ", "net"), ("\nend\n", "\nend", "net")]


@pytest.mark.parametrize("command", ["solve", "hops", "throughput"])
@pytest.mark.parametrize("changed", ["0.0000001 3 2", "17592186044417 3 2", "0.5 3 65"])
def test_a_refused_network_goes_before_all_behind_the_options(program: Program, root: Path, tmp_path: Path, command: str, changed: str) -> None:
    judge, net, cert = names_of(root)["judge"], tmp_path / "net", tmp_path / "cert"
    save_text(net, NET)
    text = program.solve(net, "--phases", "2", command=command)
    nodes = "".join(f"  N{at}\n" for at in range(80))
    save_text(net, NET.replace("  C ( )\n", f"  C ( )\n{nodes}").replace("0.5 3 2", changed, 1))
    for old, new, file in BEHIND:
        assert old in text
        save_text(cert, text.replace(old, new, 1))
        due = "cert" if "65" in changed and command != "hops" else file
        assert program.check(net, cert, command=judge_of(load_text(cert))).text.startswith(f"refused {due} ")
        assert judge(load_text(net), load_text(cert)) == (f"refused {due}", 3)


@pytest.mark.parametrize("old,new", [
    ("potential A 0", "potential A 9"), ("threshold ", "threshold 1"), ("threshold ", "threshold x"), ("threshold ", "threshold 0\nthreshold "),
    ("phases ", "phases 7"), ("mcf-throughput 1", "mcf-throughput 2"), ("mcf-throughput 1", "mcf-certificate 2"),
])
def test_totals_line_by_line(program: Program, root: Path, others: list[tuple[Path, str]], tmp_path: Path, old: str, new: str) -> None:
    for net, text in others:
        if judge_of(text) == "checkthroughput":
            first, second = judged(program, root, tmp_path, net, text.replace(old, new, 1))
            assert alike(first, second), f"mcf says {first.strip()}, check_twice {second.strip()}"


def test_an_excess_is_at_most_the_threshold(program: Program, root: Path, tmp_path: Path) -> None:
    net = tmp_path / "net"
    save_text(net, "?SNDlib native format; type: network; version: 1.0\nNODES (\nA\nB\n)\nLINKS (\nL ( A B ) 4 0 0 0 ( )\n)\n"
              "DEMANDS (\nD ( A B ) 1 3 UNLIMITED\n)\n")
    text = ("mcf-throughput 1\nverdict open\nlinks directed\nmodules largest\nnet nodes 2 cells 1 commodities 1 decimals 0 skipped 0 left 0 hops 0\n"
            "gap 0.050000\nphases 1\nscale 1 1\nlower 3/1 3.000000\nupper 16/4 4.000000\nthreshold 4\npath D 3 +L\nlength +L 1\n"
            "potential A 2 0\nend\n")
    assert judged(program, root, tmp_path, net, text) == ("valid open directed largest lower 3/1 3.000000 upper 16/4 4.000000\n",) * 2
    assert judged(program, root, tmp_path, net, text.replace("16/4 4.000000", "22/4 5.500000")) == ("invalid C9\n",) * 2


@pytest.mark.parametrize("longest,changed", [
    ("1.99", "1"), ("1.99", "0.5"), ("1.99", "1e0"), ("1.99", "64.99"), ("1.99", "65"), ("1.99", "1e99"), ("1.99", "9" * 255), ("1.99", "UNLIMITED"),
    ("1 2 7", "1 2 2"), ("1 3 2", "1 3 1"), ("1 3 2", "1 3 x"), ("0.5 3 1.99", "0 3 65"),
])
def test_hop_limits_are_read_alike(program: Program, root: Path, tmp_path: Path, longest: str, changed: str) -> None:
    net = tmp_path / "net"
    assert longest in LIMITED
    save_text(net, LIMITED)
    text = program.solve(net, command="hops")
    save_text(net, LIMITED.replace(longest, changed, 1))
    first, second = judged(program, root, tmp_path, net, text)
    assert alike(first, second), f"mcf says {first.strip()}, check_twice {second.strip()}"
    long = tmp_path / "long"
    save_text(long, LIMITED.replace(")\nLINKS", "".join(f"  N{at}\n" for at in range(80)) + ")\nLINKS").replace(longest, changed, 1))
    answer = program.run("hops", str(long))
    if answer.status in (0, 1):
        first, second = judged(program, root, tmp_path, long, answer.text)
        assert first == second and first.startswith("valid ")


def test_its_limits_are_those_of_the_program(root: Path) -> None:
    scope = names_of(root)
    sections, most = scope["SECTIONS"], scope["MOST"]
    assert sections == {"NODES": limits.MAX_NODES, "LINKS": limits.MAX_LINKS, "DEMANDS": limits.MAX_DEMANDS}
    assert [scope[name] for name in ("NET_BYTES", "CERT_BYTES", "UNITS", "TOTAL", "HOPS")] == [
        limits.MAX_NET_BYTES, limits.MAX_CERT_BYTES, limits.MAX_UNITS, limits.MAX_TOTAL, limits.MAX_HOPS]
    assert f"len(token) <= {limits.MAX_WORD_BYTES}" in load_text(root / "tools/check_twice")
    assert '2 <= len(row) <= SECTIONS["NODES"] + 1 ' in load_text(root / "tools/check_twice") and limits.MAX_NODES == 1 + limits.MAX_PATH_CELLS
    assert [most[name] for name in ("gap", "phases", "room", "load", "threshold")] == [
        limits.MAX_GAP, limits.MAX_PHASES, limits.MAX_UNITS, limits.MAX_LENGTH, limits.MAX_LENGTH]


def test_its_wide_limits_are_those_of_the_wide_program(root: Path) -> None:
    scope, wide = names_of(root), limits.Wide
    scope["widen"]()
    assert scope["SECTIONS"] == {"NODES": wide.MAX_NODES, "LINKS": limits.MAX_LINKS, "DEMANDS": wide.MAX_DEMANDS}
    assert (scope["NET_BYTES"], scope["CERT_BYTES"], wide.MAX_NODES) == (wide.MAX_NET_BYTES, wide.MAX_CERT_BYTES, 1 + wide.MAX_PATH_CELLS)


def test_it_stands_alone_and_is_short(root: Path) -> None:
    source = load_text(root / "tools/check_twice")
    # (three kinds of certificates, two sets of limits, and its own ends)
    assert source.count("\n") < 350
    imported = set(re.findall(r"^\s*(?:from|import) (\w+)", source, re.M))
    assert imported <= sys.stdlib_module_names and "sys.path" not in source


def test_missing_file_is_one_line(root: Path) -> None:
    done = subprocess.run([str(root / "tools/check_twice"), "/nonexistent/net", "/nonexistent/cert"], capture_output=True, text=True, check=False)
    assert (done.returncode, done.stdout, done.stderr.count("\n")) == (2, "", 1)


TRIANGLE = "examples/triangle.net", "examples/triangle.cert"


def ended(root: Path, *words: str, shell: str = "", given: bytes = b"", **environment: str) -> tuple[int, bytes, bytes]:
    """Status and both outputs, by a shell that may redirect them."""
    done = subprocess.run(["bash", "-c", f'"$0" "$@" {shell}', str(root / "tools/check_twice"), *words], cwd=root, input=given, capture_output=True,
                          env={**os.environ, **environment}, check=False)
    return done.returncode, done.stdout, done.stderr


@pytest.mark.parametrize("words,shell,said", [
    (TRIANGLE, ">/dev/full", "standard output: No space left on device"), (TRIANGLE, ">&-", "standard output: Bad file descriptor"),
    (("--help",), ">/dev/full", "standard output: No space left on device"), (("-", TRIANGLE[1]), "<&-", "standard input: Bad file descriptor"),
    (("examples", TRIANGLE[1]), "", "examples: Is a directory"), (("no\nwhere", "x"), "", "no\\nwhere: No such file or directory"),
    (("-", "-"), "", "standard input is one file alone (check_twice --help has the words)"), (("x",), "", "the following arguments are required"),
    ((*TRIANGLE, "z"), "", "unrecognized arguments: z"), (("--quie", *TRIANGLE), "", "unrecognized arguments: --quie"),
    (("--", "-x"), "", "the following arguments are required"),
    (("--", "--quiet", "x"), "", "./--quiet: No such file"), (TRIANGLE, "> >(exec <&- >&-; exit 0)", ""),
])
def test_each_trouble_is_one_line(root: Path, words: tuple[str, ...], shell: str, said: str) -> None:
    status, out, told = ended(root, *words, shell=shell)
    if said:
        assert (status, out, told.count(b"\n")) == (2, b"", 1) and told.decode().startswith(f"check_twice: {said}")
    else:
        assert told in (b"", b"check_twice: standard output: Broken pipe\n")


def test_files_behind_two_dashes_may_begin_with_a_dash(root: Path, tmp_path: Path) -> None:
    line = ended(root, *TRIANGLE)[1]
    for name, file in zip(("-x.net", "--quiet"), TRIANGLE):
        (tmp_path / name).write_bytes((root / file).read_bytes())
    for words, said in ((("--", "-x.net", "--quiet"), line), (("--quiet", "--", "-x.net", "--quiet"), b""), ((f"{tmp_path}/-x.net", "--", "--quiet"), line),
                        ((f"{tmp_path}/-x.net", "--quiet", "--", "--quiet"), b"")):
        done = subprocess.run([root / "tools/check_twice", *words], cwd=tmp_path, capture_output=True, check=False)
        assert (done.returncode, done.stdout, done.stderr) == (0, said, b"")


def test_standard_input_quiet_and_the_forms(root: Path) -> None:
    line = ended(root, *TRIANGLE)[1]
    assert ended(root, TRIANGLE[0], "-", given=(root / TRIANGLE[1]).read_bytes()) == (0, line, b"")
    assert ended(root, *TRIANGLE, "--quiet") == (0, b"", b"")
    assert ended(root, TRIANGLE[0], TRIANGLE[0], "--quiet") == (3, b"", b"")
    assert b"mcf-hops 1" in ended(root, "--version")[1]
    assert ended(root, *TRIANGLE, LC_ALL="POSIX", PYTHONUTF8="0", HOME="/nonexistent") == (0, line, b"")


@pytest.mark.parametrize("number", [signal.SIGINT, signal.SIGTERM, signal.SIGHUP])
def test_a_signal_is_one_line(root: Path, number: signal.Signals) -> None:
    run = subprocess.Popen([str(root / "tools/check_twice"), str(root / TRIANGLE[0]), "-"], stdin=subprocess.PIPE, stderr=subprocess.PIPE,
                           preexec_fn=lambda: [signal.signal(one, signal.SIG_DFL) for one in (signal.SIGINT, signal.SIGHUP)])
    while not _heeds_signals(run.pid):
        time.sleep(0.01)
    run.send_signal(number)
    _, told = run.communicate(timeout=60)
    assert (run.returncode, told) == (130, b"check_twice: interrupted\n")


def _heeds_signals(pid: int) -> bool:
    """Whether a process has set what it does at SIGTERM."""
    found = re.search(r"^SigCgt:\s*(\w+)$", Path(f"/proc/{pid}/status").read_text(), re.M)
    return found is not None and bool(int(found[1], 16) & 1 << signal.SIGTERM - 1)


@pytest.mark.parametrize("word", ["phases 48", "scale 10", "path A_to_B 368", "length =AB ", "lower 480"])
def test_numbers_of_five_thousand_digits_are_refused(root: Path, tmp_path: Path, word: str) -> None:
    text = load_text(root / TRIANGLE[1])
    assert word in text
    save_text(tmp_path / "cert", text.replace(word, word + "9" * 5000, 1))
    assert twice(root, root / TRIANGLE[0], tmp_path / "cert") == "refused cert\n"
    net = load_text(root / TRIANGLE[0])
    assert " 10 " in net
    save_text(tmp_path / "net", net.replace(" 10 ", " 1" + "0" * 5000 + " ", 1))
    assert twice(root, tmp_path / "net", root / TRIANGLE[1]) == "refused net\n"
