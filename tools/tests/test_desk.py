"""`tools/desk`: edits and their bounds, certificates, failures, and how a desk ends; with the real program, by requests."""

from __future__ import annotations

import contextlib
import json
import os
import random
import re
import shutil
import signal
import subprocess
import threading
import time
import urllib.parse
from pathlib import Path

import pytest

from desks import DESK, EXAMPLES, Running, alive, as_shown, descendants, desk, part, refused, shown, wait
from mcf import Program, TextError
from mcf.desk import opening, serve
from mcf.desk.opening import Request, opened
from mcf.network import read_network
from mcf.scaled import scale

NET, CERT = EXAMPLES / "triangle.net", EXAMPLES / "triangle.cert"
AB, AC, BC = 0, 1, 2


def ask(program: Program, *words: str | Path) -> str:
    """The last line of a command, which is an answer."""
    done = subprocess.run([program.path, *map(str, words)], capture_output=True, text=True, check=False)
    assert done.returncode in (0, 1), done.stdout
    return done.stdout.splitlines()[-1]


def written(room: Path, running: Running, **names: str) -> list[Path]:
    """Downloads as files."""
    files = []
    for name, path in names.items():
        status, text = running.get(f"/out/{path}")
        assert status == 200, text
        (room / name).write_bytes(text.encode("latin-1"))
        files.append(room / name)
    return files


def test_bounds_are_those_of_the_command_line_byte_for_byte(program: Program, tmp_path: Path):
    with desk(program, NET, CERT) as running:
        assert shown(running.enter()) == as_shown(ask(program, "check", NET, CERT))
        for link, what, capacity in ((AB, "close", ""), (AC, "double", ""), (AB, "set", "7"), (BC, "double", "")):
            status, text = running.post("/edit", link=link, what=what, capacity=capacity)
            script, = written(tmp_path, running, script="script")
            assert status == 200 and shown(text) == as_shown(ask(program, "whatif", NET, CERT, script))
        assert script.read_text() == "close AB show\nset AC 12 show\nset AB 7 show\nset BC 12 show\n"
        says = part(running.news(), "out")
        assert f"mcf whatif {NET} triangle-given.cert triangle-edits.script" in says and ask(program, "whatif", NET, CERT, script) in says


def test_edits_are_undone_done_again_and_named(program: Program):
    with desk(program, NET, CERT) as running:
        first = shown(running.enter())
        running.post("/edit", link=AB, what="close")
        closed = running.bounds()
        running.post("/edit", link=AC, what="double")
        running.post("/undo")
        assert running.bounds() == closed and "1 edit is undone: AC (A – C)" in part(running.news(), "edits")
        running.post("/undo")
        assert running.bounds() == first and running.post("/undo") == (400, "there is no edit to undo\n")
        running.post("/redo")
        assert running.bounds() == closed
        running.post("/name", edit=1, name="digging  at <A>\n")
        assert "digging at <A>" in part(running.news(), "edits") and running.get("/out/script")[1] == "close AB show # digging at <A>\n"
        running.post("/edit", link=BC, what="close")
        assert running.post("/redo") == (400, "there is no edit to do again\n")
        assert running.post("/name", edit=77, name="x") == (400, "there is no such edit any more\n")


@pytest.mark.parametrize("fields, line", [
    ({"link": 3, "what": "close"}, "the network has no such link"), ({"link": "x", "what": "close"}, "'x' is no whole number"),
    ({"link": AB, "what": "burn"}, "an edit closes or doubles a link, sets its capacity, or restores it"),
    ({"link": AB, "what": "set", "capacity": "1,5"}, "'1,5' is no number: write it with a point, and without commas"),
    ({"link": AB, "what": "set", "capacity": "-1"}, "'-1' is no number"), ({"link": AB, "what": "set", "capacity": ""}, "'' is no number"),
    ({"link": AB, "what": "set", "capacity": "1.5"}, "1.5: the numbers of this network are whole, and those of edits have to be so too"),
    ({"link": AB, "what": "set", "capacity": "1E14"}, "a capacity may be at most 17592186044416 here")])
def test_an_edit_that_cannot_be_is_refused_in_one_line(three: Running, fields: dict[str, object], line: str):
    before = three.news()
    assert three.post("/edit", **fields) == (400, f"{line}\n")
    assert three.news() == before


def buttons(text: str, changes: bool = False) -> dict[str, tuple[str, str, str]]:
    """What is said of each cell on the map of a page, or in the changes of it: words, class and width."""
    if changes:
        found = re.findall(r'<li data-cell="(\d+)" data-class="([^"]*)" data-width="([^"]*)">([^<]*)</li>', text)
        return {cell: (words, kind, width) for cell, kind, width, words in found}
    found = re.findall(r'<g role="button" id="m(\d+)"[^>]*? class="([^"]*)" aria-label="([^"]*)">.*?stroke-width="([^"]*)"', text)
    return {cell: (words, kind, width) for cell, kind, words, width in found}


def test_each_link_of_a_map_that_is_open_says_what_it_says_on_a_new_page(program: Program):
    """An edit changes the share of the bound of all links, not of its own alone; also on a page that was opened between two edits."""
    with desk(program, EXAMPLES / "polska.net", EXAMPLES / "polska.cert") as running:
        pages = [buttons(running.enter())]
        assert len(pages[0]) == 18
        for path, fields in (("/edit", {"link": 0, "what": "double"}), ("/edit", {"link": 3, "what": "close"}), ("/undo", {}), ("/undo", {})):
            text = running.post(path, **fields, page_map="f:given")[1]
            pages = [page | buttons(text, True) for page in pages]
            new = buttons(running.get("/")[1])
            assert all(page == new for page in pages)
            pages.append(new)


def test_an_answer_tells_which_state_it_is_of(program: Program):
    """A page that was given one part of a newer state still asks for the rest."""
    with desk(program, NET, CERT) as running:
        seen = re.search(r'data-revision="(\d+)"', running.enter())
        assert seen is not None
        running.post("/edit", link=AB, what="close")
        for path in ("/link?page_link=1", "/links?sort=name", "/growth"):
            with running.client.open(running.base + path) as answer:
                assert answer.headers["Desk-Revision"] is None and int(answer.headers["Desk-Part"]) > int(seen[1])
        with running.client.open(f"{running.base}/news?seen={seen[1]}") as answer:
            assert int(answer.headers["Desk-Revision"]) > int(seen[1]) and shown(answer.read().decode())[0] == "0.000000"


def test_what_is_without_edits_has_none(program: Program, tmp_path: Path):
    """Where edits were saved before and the network is solved first, the first certificate is of the edited network."""
    (tmp_path / "plan.script").write_text("set AB 20 show\n")
    with desk(program, NET, "--save", tmp_path / "plan.script") as running:
        running.enter()
        assert "Without edits" not in running.done()
        assert "Without edits" not in running.post("/edit", link=AC, what="double")[1]


def test_a_certificate_that_was_chosen_stays_while_it_fits(program: Program):
    with desk(program, NET, CERT) as running:
        running.enter()
        running.post("/edit", link=AB, what="double")
        running.post("/solve", kind="solve")
        assert "By the certificate solve-1" in part(running.done(), "bounds")
        running.post("/choose", name="given")
        assert "By the certificate given" in part(running.post("/edit", link=AC, what="double")[1], "bounds")
        running.post("/solve", kind="solve")
        assert "By the certificate solve-2" in part(running.done(), "bounds")
        running.post("/undo")
        assert "By the certificate solve-1" in part(running.news(), "bounds")


def test_bounds_are_asked_for_again_once_what_was_in_the_way_is_gone(program: Program, tmp_path: Path):
    file = tmp_path / "mcf"
    file.write_text(f'#!/bin/sh\n[ "$1" = whatif ] && [ -e {tmp_path}/kill ] && kill -9 $$\nexec {program.path} "$@"\n')
    file.chmod(0o755)
    with desk(str(file), NET, CERT) as running:
        running.enter()
        (tmp_path / "kill").touch()
        assert part(running.post("/edit", link=AB, what="double")[1], "bounds").endswith("mcf was ended by SIGKILL")
        (tmp_path / "kill").unlink()
        running.post("/undo")
        assert part(running.post("/redo")[1], "bounds").startswith("All demands fit: ")


def test_longest_paths_that_the_bounds_do_not_keep_to_are_told(program: Program, tmp_path: Path):
    (tmp_path / "a.net").write_text(NET.read_text().replace("UNLIMITED", "1", 1))
    with desk(program, tmp_path / "a.net") as running:
        running.enter()
        assert "Over paths of any length: 1 demand has a longest path in the file" in part(running.done(), "bounds")
    with desk(program, NET, CERT) as running:
        assert "longest path" not in running.enter()


@pytest.mark.parametrize("word", ["1.1", ".5", "5.", "1e1", "1e60", " 2 ", "0", "0.0", "-1", "+2", "1,1", "1/3", "x", "", "nan", "1e-9", "1_0", "9" * 90])
def test_growth_has_one_grammar(program: Program, three: Running, word: str):
    """That of `tools/survey --grow`."""
    words = [DESK.parent / "survey", NET, CERT, f"--grow={word}", "--mcf", program.path]
    done = subprocess.run(words, capture_output=True, text=True, check=False)
    three.post("/undo")
    said = part(three.get(f"/growth?{urllib.parse.urlencode({'page_x': word, 'page_times': 1})}")[1], "growth").partition(" not decided. ")[2]
    assert said == (done.stdout.strip() or done.stderr.strip().removeprefix("survey: --grow: "))


@pytest.fixture(scope="module")
def three(program: Program):
    """A desk of the triangle."""
    with desk(program, NET, CERT) as running:
        running.enter()
        yield running


def counting(program: Program, room: Path) -> tuple[str, Path]:
    """A program that is the real one and notes each command."""
    log, file = room / "commands", room / "mcf"
    file.write_text(f'#!/bin/sh\necho "$1" >> {log}\nexec {program.path} "$@"\n')
    file.chmod(0o755)
    return str(file), log


def test_of_a_hundred_edits_a_second_none_is_lost_and_only_the_newest_waits(program: Program, tmp_path: Path):
    path, log = counting(program, tmp_path)
    with desk(path, NET, CERT) as running:
        running.enter()
        log.write_text("")
        answers: list[tuple[int, str]] = []

        def edit(at: int) -> None:
            answers.append(running.post("/edit", link=at % 3, what="set", capacity=at + 5))

        threads = [threading.Thread(target=edit, args=(at,)) for at in range(100)]
        for thread in threads:
            thread.start()
            time.sleep(0.008)
        for thread in threads:
            thread.join()
        assert len(answers) == 100 and {status for status, _ in answers} <= {200, 202}
        bounds, script = running.bounds(), running.get("/out/script")[1]
        names = ("AB", "AC", "BC")
        assert script.count("show") == 100 and {f"set {names[at % 3]} {at + 5} show" for at in range(100)} == set(script.splitlines())
        (tmp_path / "script").write_text(script)
        assert bounds == as_shown(ask(program, "whatif", NET, CERT, tmp_path / "script"))
        assert log.read_text().split().count("whatif") <= sum(status == 200 for status, _ in answers) + 1


def test_what_was_before_stays_beside_a_new_certificate(program: Program, tmp_path: Path):
    with desk(program, NET, CERT) as running:
        first = shown(running.enter())
        running.post("/edit", link=AC, what="double")
        kept = running.bounds()
        assert running.post("/solve", kind="solve", gap="0.01")[0] == 200
        text = running.done()
        names = {"net": "network", "cert": "certificate", "edited": "edited"}
        net, cert, edited = written(tmp_path, running, **names)
        assert shown(text) == as_shown(ask(program, "check", net, cert)) and net.read_bytes() == edited.read_bytes()
        assert f"Before solving again, the same network: {kept[0]} to {kept[2]}" in part(text, "bounds")
        assert f"given {CERT} 0 {first[0]} {first[2]}" in part(text, "certificates") and "solve-1" in part(text, "certificates")
        running.post("/edit", link=BC, what="close")
        script, = written(tmp_path, running, script="script")
        assert running.bounds() == as_shown(ask(program, "whatif", net, cert, script)) and script.read_text() == "close BC show\n"
        running.post("/undo")
        running.post("/undo")
        assert running.bounds() == first
        running.post("/redo")
        assert running.bounds() == shown(text)
        running.post("/choose", name="given")
        assert running.bounds() == kept and running.post("/choose", name="none") == (400, "there is no such certificate\n")


def test_a_network_without_a_certificate_is_solved_first(program: Program):
    with desk(program, NET, "--gap", "0.02") as running:
        running.enter()
        text = running.done()
        assert "mcf solve NET --links undirected --modules largest --gap 0.02" in part(text, "certificates") and shown(text)[0]


def test_failures_at_once_and_solved(program: Program):
    with desk(program, NET, CERT) as running:
        running.enter()
        assert running.post("/failures")[0] == 200
        words = part(running.news(), "failures")
        for line in subprocess.run([program.path, "sweep", NET, CERT], capture_output=True, text=True, check=True).stdout.splitlines():
            assert f"{as_shown(line)[0]} {as_shown(line)[2]}" in words
        running.post("/sweepsolve")
        words = part(running.done(), "failures")
        lines = subprocess.run([program.path, "sweepsolve", NET], capture_output=True, text=True, check=True).stdout.splitlines()
        order = sorted(lines, key=lambda line: as_shown(line)[0])
        at = [words.index(f"{as_shown(line)[0]} {as_shown(line)[2]}") for line in order]
        assert at == sorted(at) and "The worst is that of AB (A – B)" in words
        running.post("/edit", link=AB, what="close")
        assert "of the network before the last change" in part(running.news(), "failures")
        running.post("/failures")
        assert f"{running.bounds()[0]} {running.bounds()[2]}" in part(running.news(), "failures")


def test_edits_are_kept_in_a_file_and_gone_on_with(program: Program, tmp_path: Path):
    file = tmp_path / "plan.script"
    with desk(program, NET, CERT, "--save", file) as running:
        running.enter()
        running.post("/edit", link=AB, what="double")
        running.post("/name", edit=1, name="more")
        running.post("/edit", link=BC, what="close")
        bounds = running.bounds()
        assert running.end(signal.SIGINT) == (130, f"desk: interrupted; the edits are in {file}\n")
    assert file.read_text() == "set AB 20 show # more\nclose BC show\n"
    with desk(program, NET, CERT, "--save", file) as running:
        running.enter()
        assert running.bounds() == bounds and "doubled, 10 to 20 – more" in part(running.news(), "edits")
    file.write_text("set AB 20 show\nset XY 3\n")
    assert refused(program, NET, CERT, "--save", file) == (2, "", f"desk: {file}: line 2: the network has no link XY\n")
    for word, why in (("1.5", "1.5: the numbers of this network are whole, and those of edits have to be so too"),
                      ("17592186044416", "a capacity may be at most 17592186044416 here"), ("0,5", "'0,5' is no number")):
        file.write_text(f"set AB 20 show\nadd AB {word}\n")
        assert f": line 2: {why}" in refused(program, NET, CERT, "--save", file)[2]


def test_comments_of_a_saved_file_are_not_lost(program: Program, tmp_path: Path):
    """Those on lines of their own name the edit behind them, and the last ones the last edit; none is cut."""
    file, long = tmp_path / "plan.script", "x" * 300
    file.write_text(f"# Zürich,\n\n# spring\nclose AB show # digging\nset AC 7\nshow # {long}\nsub BC 1 set AB 3 show\n# end\n")
    with desk(program, NET, CERT, "--save", file) as running:
        running.enter()
        running.post("/edit", link=AB, what="double")
    assert file.read_text() == (f"close AB show # Zürich,; spring; digging\nset AC 7 show\nset BC 5 show\nset AB 3 show # {long}; end\n"
                                "set AB 6 show\n")


def test_names_that_are_not_ascii_are_told_as_they_are(program: Program, tmp_path: Path):
    (tmp_path / "a.net").write_text(NET.read_text().replace(" AB ", " Zürich "))
    with desk(program, tmp_path / "a.net") as running:
        running.enter()
        running.done()
        running.post("/edit", link=AB, what="double")
        assert running.end() == (130, "desk: ended by SIGTERM; the edits, as a script of mcf whatif: set Zürich 20 show\n")
    (tmp_path / "script").write_text("set Züri 20 show\n")
    line = f"desk: {tmp_path}/script: line 1: the network has no link Züri\n"
    assert refused(program, tmp_path / "a.net", "--save", tmp_path / "script") == (2, "", line)


def test_names_have_bytes_that_are_blanks_and_ends_of_lines_elsewhere(program: Program, tmp_path: Path):
    """The last byte of à is a blank of Latin-1, and that of Å ends a line there."""
    net, file = tmp_path / "a.net", tmp_path / "plan.script"
    net.write_text(NET.read_text().replace(" AB ", " Malà ").replace(" AC ", " Å "))
    with desk(program, net, "--save", file) as running:
        running.enter()
        running.done()
        running.post("/edit", link=AB, what="double")
        running.post("/name", edit=1, name="pour là")
        assert all(running.bounds())
        running.post("/failures")
        assert "Å" in part(running.news(), "failures") and "Malà" in part(running.news(), "failures")
    assert file.read_text() == "set Malà 20 show # pour là\n"
    with desk(program, net, "--save", file) as running:
        running.enter()
        running.done()
        assert "doubled, 10 to 20 – pour là" in part(running.news(), "edits") and all(running.bounds())


def test_files_whose_names_are_no_text(program: Program, tmp_path: Path):
    """The program takes no such word, so the commands beside what is taken away name the download of the network."""
    net, cert = Path(os.fsdecode(bytes(tmp_path) + b"/a\xff.net")), tmp_path / "a.cert"
    shutil.copy(NET, net)
    with desk(program, net, CERT) as running:
        running.enter()
        running.post("/edit", link=AB, what="double")
        says = part(running.news(), "out")
        assert "mcf whatif a.net a-given.cert a-edits.script" in says and "The network as it was read" in says and "( a.net )" in says
        written(tmp_path, running, **{"a.net": "read", "a-given.cert": "certificate", "a-edits.script": "script"})
        assert as_shown(ask(program, "whatif", *(tmp_path / name for name in ("a.net", "a-given.cert", "a-edits.script")))) == running.bounds()
    words = [DESK, net, NET, "--no-browser", "--json", "--mcf", program.path]
    cert.write_text(CERT.read_text()[:60])
    for other, code, line in ((NET, "K1", 1), (cert, "K2", 4)):
        words[2] = other
        done = subprocess.run(words, capture_output=True, check=False)
        error = json.loads(done.stdout)["error"]
        assert (done.returncode, error["kind"], error["code"], error["file"], error["line"]) == (2, "refused", code, str(other), line)
    words[1] = Path(os.fsdecode(bytes(tmp_path) + b"/none\xff.net"))
    assert json.loads(subprocess.run(words, capture_output=True, check=False).stdout)["error"]["file"] == str(words[1])


def test_a_title_may_begin_with_a_line(program: Program):
    with desk(program, NET, CERT, "--title=--x") as running:
        assert "<h1>--x</h1>" in running.enter() and "--html x-given.html --title=--x" in part(running.news(), "out")
        assert "<title>--x</title>" in running.get("/out/report")[1]


@pytest.mark.parametrize("seed", range(6))
def test_drawn_edits_have_the_bounds_of_the_command_line(program: Program, tmp_path: Path, monkeypatch: pytest.MonkeyPatch, seed: int):
    """Lists of edits, undone and done again, byte for byte as mcf whatif of their script and of the file of --save says."""
    monkeypatch.setenv("MCF", program.path)
    drawn = random.Random(seed)
    modes = ["--links", drawn.choice(["undirected", "directed", "bidirected"]), "--modules", drawn.choice(["largest", "none", "sum"])]
    net, cert, save = EXAMPLES / drawn.choice(["polska.net", "triangle.net", "both-ways.net"]), tmp_path / "cert", tmp_path / "save"
    cert.write_bytes(subprocess.run([program.path, "solve", net, *modes], capture_output=True, check=False).stdout)
    state, _ = opened(Request(str(net), str(cert), str(save), None, None, None, None))
    for _ in range(40):
        what = drawn.choice(["close", "double", "set", "set", "restore", "undo", "undo", "redo"])
        with contextlib.suppress(TextError):
            if what in ("undo", "redo"):
                getattr(state, what)()
            else:
                state.edit(drawn.randrange(len(state.ground.installed)), what, drawn.choice(["0", "7", "1e3", ".5", "3.25", "12.000001", " 4 "]))
        if drawn.random() < 0.2 and state.script():
            (tmp_path / "script").write_text(state.script())
            said = ask(program, "whatif", net, cert, tmp_path / "script")
            assert state.settle() and said == ask(program, "whatif", net, cert, save)
            # (edits that cancel each other leave the line of check, which has the same bounds)
            assert as_shown(state.bounds.line) == as_shown(said)


def test_without_a_file_the_last_line_has_the_edits(program: Program):
    with desk(program, NET, CERT) as running:
        running.enter()
        running.post("/edit", link=AB, what="double")
        assert running.end() == (130, "desk: ended by SIGTERM; the edits, as a script of mcf whatif: set AB 20 show\n")
    with desk(program, NET, CERT) as running:
        assert running.end(signal.SIGINT) == (130, "desk: interrupted\n")


@pytest.mark.parametrize("words, line", [
    (["polska.net", "triangle.cert"], "polska.net: mcf check: "), (["triangle.net", "polska.cert"], "on triangle.net: refused cert K"),
    (["triangle.net", "triangle.routing"], "it is a routing, which has no bound"),
    (["triangle.cert"], "triangle.cert: refused net N1 line 1"),
    (["none.net"], "none.net: No such file"), (["triangle.net", "triangle.cert", "--gap", "0.1"], "are for the first solve"),
    (["-"], "a desk reads files")])
def test_what_is_no_network_or_certificate_of_it_is_refused_at_the_start(program: Program, words: list[str], line: str):
    status, out, err = refused(program, *(EXAMPLES / word if "." in word and word[0] not in "-0" else word for word in words))
    assert (status, out, err.count("\n")) == (2, "", 1) and err.startswith("desk: ")
    assert line.rpartition("/")[2] in err.replace(f"{EXAMPLES}/", "") or words == ["polska.net", "triangle.cert"]


WITHOUT_DEMANDS = "a.net: no demand is left, since each has amount 0 or ends in its own node, or there is none: a desk solves for demands, and "\
    "changes capacities alone (tools/convert NET DEMANDS.csv NEW.net gives the network others)"


@pytest.mark.parametrize("demands", ["", "  D ( A B ) 1 0 UNLIMITED\n", "  D ( A A ) 1 5 UNLIMITED\n"])
def test_a_network_without_demands_is_told_apart(demands: str):
    text = f"?SNDlib native format; type: network; version: 1.0\nNODES (\n  A\n  B\n)\nLINKS (\n  L ( A B ) 1 0 0 0 ( )\n)\nDEMANDS (\n{demands})\n"
    with pytest.raises(TextError) as why:
        opening._require_demands("a.net", scale(read_network(text)))
    assert str(why.value) == WITHOUT_DEMANDS
    opening._require_demands("a.net", scale(read_network(text.replace("DEMANDS (\n", "DEMANDS (\n  E ( A B ) 1 1 UNLIMITED\n"))))


def test_a_network_without_demands_is_refused_before_a_port_is_opened(program: Program, tmp_path: Path):
    (tmp_path / "a.net").write_text(re.sub(r"DEMANDS \([^$]*", "DEMANDS (\n)\n", NET.read_text()))
    assert refused(program, tmp_path / "a.net", "--port", "1") == (2, "", f"desk: {tmp_path}/{WITHOUT_DEMANDS}\n")


@pytest.fixture(scope="module")
def slow(program: Program, tmp_path_factory: pytest.TempPathFactory) -> Path:
    """A network that takes long to solve."""
    file = tmp_path_factory.mktemp("slow") / "slow.net"
    file.write_bytes(subprocess.run([program.path, "gen", "5", "100", "600", "9000"], capture_output=True, check=True).stdout)
    return file


@pytest.mark.parametrize("kind, number", [
    ("solve", signal.SIGINT), ("solve", signal.SIGKILL), ("certify", signal.SIGTERM), ("certify", signal.SIGKILL)])
def test_children_end_with_the_desk(program: Program, slow: Path, kind: str, number: signal.Signals):
    with desk(program, slow, "--gap", "0.000001") as running:
        running.enter()
        wait(lambda: "<progress" in running.news() and len(descendants(running.process.pid)) > 0)
        if kind == "certify":
            assert running.post("/stop")[0] == 200
            assert "stopped; nothing was changed" in part(running.done(), "job")
            running.post("/solve", kind="certify")
            wait(lambda: any("mcf" in Path(f"/proc/{one}/comm").read_text() for one in alive(descendants(running.process.pid))))
        children = descendants(running.process.pid)
        assert running.post("/solve", kind="solve")[1].startswith("this is still under way: ")
        status, told = running.end(number)
        assert status == (-9 if number == signal.SIGKILL else 130) and told.count("\n") <= 1
        wait(lambda: not alive(children), 20)


def test_with_json_the_end_is_one_object(program: Program):
    words = [DESK, NET, CERT, "--no-browser", "--json", "--mcf", program.path]
    process = subprocess.Popen(words, stdout=subprocess.PIPE, stderr=subprocess.PIPE, text=True)
    assert process.stderr is not None and process.stderr.readline().startswith("desk: http://127.0.0.1:")
    process.send_signal(signal.SIGINT)
    out, err = process.communicate(timeout=60)
    assert (process.returncode, err) == (130, "desk: interrupted\n") and out.count("\n") == 1
    assert json.loads(out)["error"] == {"kind": "interrupted", "code": None, "file": None, "line": None, "sentence": "interrupted"}


@pytest.mark.parametrize("word, why", [("x", "'x' is no number"), ("1001", "1001 is no whole number of millionths up to 1000"), ("0,1", "'0,1' is no number")])
def test_a_gap_that_is_none_is_refused_before_anything_is_shown(program: Program, word: str, why: str):
    assert refused(program, NET, "--gap", word) == (2, "", f"desk: argument --gap: {why} (desk --help has the words)\n")


def test_a_port_that_is_taken_is_told_in_one_line(program: Program):
    with desk(program, NET, CERT) as running:
        status, out, err = refused(program, NET, CERT, "--port", str(running.port))
        assert (status, out, err) == (2, "", f"desk: port {running.port} of 127.0.0.1: Address already in use\n")


def test_the_end_of_a_desk_is_no_fault_of_its_server() -> None:
    """Its socket is closed while the server waits at it."""
    class Closed:
        """A server whose socket was closed, and the desk that it is of."""

        closed = True

        def run(self) -> None:
            """Waits at the socket."""
            raise OSError(9, "Bad file descriptor")

    serve._run(Closed(), Closed())  # type: ignore[arg-type]
    Closed.closed = False
    with pytest.raises(OSError, match="Bad file descriptor"):
        serve._run(Closed(), Closed())  # type: ignore[arg-type]
