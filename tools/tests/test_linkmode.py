"""How links are read where no option says it: as the file says, and said before anything else, by each tool that takes `--links`."""

from __future__ import annotations

import subprocess
from pathlib import Path

import pytest

from desks import desk
from mcf import Program
from mcf.linkmode import LinkMode, link_mode, otherwise, otherwise_of_files, saying

HEAD = "?SNDlib native format; type: network; version: 1.0\n"
BOTH_WAYS = (
    "NODES (\n  A\n  B\n)\nLINKS (\n  L ( A B ) 10 1 1 1 ( )\n)\n"
    "DEMANDS (\n  there ( A B ) 1 5 UNLIMITED\n  back ( B A ) 1 5 UNLIMITED\n)\n"
)


def meta(word: str) -> str:
    """A network whose section META has a word for its links."""
    return f"{HEAD}META (\n  links = {word}\n)\n{BOTH_WAYS}"


@pytest.mark.parametrize(("text", "mode", "said"), [
    (meta("bidirected"), "bidirected", "links are read as bidirected, as a.net says"),
    (meta("undirected"), "undirected", None),
    (meta("odd"), "undirected", None),
    (HEAD + BOTH_WAYS, "undirected", None),
    (HEAD + "# all links are Directed\n" + BOTH_WAYS, "undirected",
     "links are read as undirected; a comment in line 2 of a.net says directed: --links directed reads them so"),
    (meta("undirected") + "# directed\n", "undirected", None),
    (f"{HEAD}{BOTH_WAYS}META ( links = bidirected )\n", "bidirected", "links are read as bidirected, as a.net says"),
    (f"{HEAD}# directed\n{BOTH_WAYS.replace('LINKS', 'META ( links = bidirected ) LINKS')}", "bidirected",
     "links are read as bidirected, as a.net says"),
    (HEAD + BOTH_WAYS.replace("  A\n", "  A#directed\n"), "undirected", None),
    (f"{HEAD}# links = directed\n{BOTH_WAYS}", "directed", "links are read as directed, as a.net says"),
    (f"{HEAD}#links=bidirected \r\n{BOTH_WAYS}", "bidirected", "links are read as bidirected, as a.net says"),
    (f"{HEAD}# links = undirected\n# directed\n{BOTH_WAYS}", "undirected", None),
    (f"{HEAD}# links = directed\nMETA ( links = bidirected )\n{BOTH_WAYS}", "directed", "links are read as directed, as a.net says"),
    (f"{HEAD}# so:\n# links = directed\n{BOTH_WAYS}", "undirected",
     "links are read as undirected; a comment in line 3 of a.net says directed: --links directed reads them so"),
    (f"{HEAD}# links = directed, some\n{BOTH_WAYS}", "undirected",
     "links are read as undirected; a comment in line 2 of a.net says directed: --links directed reads them so"),
    ("no network", "undirected", None),
    (HEAD + "META ( links", "undirected", None),
])
def test_what_a_file_says(text: str, mode: str, said: str | None) -> None:
    assert link_mode("a.net", text.encode("ascii")) == LinkMode(mode, said)


@pytest.mark.parametrize("text", [HEAD + BOTH_WAYS, meta("bidirected"), meta("directed"), f"{HEAD}# links = directed\n{BOTH_WAYS}"])
@pytest.mark.parametrize("mode", ["undirected", "directed", "bidirected"])
def test_a_text_is_made_to_say_how_links_are_read(text: str, mode: str) -> None:
    """By a comment alone, and only where it does not say it."""
    data = text.encode("ascii")
    made = saying(data, mode)
    assert (link_mode("a.net", made).mode, saying(made, mode)) == (mode, made)
    assert (made == data) == (link_mode("a.net", data).mode == mode)
    assert [line for line in made.splitlines() if not line.startswith(b"#")] == [line for line in data.splitlines() if not line.startswith(b"#")]
    other = "directed" if mode == "undirected" else "undirected"
    if made != data:
        assert otherwise("a.net", made, other, "a.cert") == f"links are read as {other}, as a.cert says, and not as {mode}, as a.net says"


def test_the_comment_changes_nothing_of_what_is_counted(root: Path, tmp_path: Path) -> None:
    """A certificate that was made before stays valid, which it would not with a section META."""
    data = (root / "examples/triangle.net").read_bytes()
    ends = []
    for text in (data, saying(data, "directed"), data.replace(b"NODES", b"META ( links = directed )\nNODES", 1)):
        (tmp_path / "a.net").write_bytes(text)
        words = [root / "tools/check_twice", tmp_path / "a.net", root / "examples/triangle.cert"]
        ends.append(subprocess.run(words, capture_output=True, text=True, check=False).stdout)
    assert ends[0] == ends[1] and ends[0].startswith("valid closed undirected ") and ends[2].startswith("refused")


def test_convert_reads_the_comment_too(root: Path, tmp_path: Path) -> None:
    (tmp_path / "a.net").write_text(f"{HEAD}# links = directed\n{BOTH_WAYS}", "ascii")
    done = subprocess.run([root / "tools/convert", "a.net", "b.net"], cwd=tmp_path, capture_output=True, text=True, check=True)
    assert done.stderr.splitlines()[0] == "links: directed, as a.net says"
    assert link_mode("b.net", (tmp_path / "b.net").read_bytes()) == LinkMode("directed", "links are read as directed, as b.net says")
    done = subprocess.run([root / "tools/convert", "a.net", "b.csv"], cwd=tmp_path, capture_output=True, text=True, check=True)
    assert "that links are directed, which a table does not say: --links directed says it again" in done.stderr
    done = subprocess.run([root / "tools/convert", "--links", "undirected", "a.net", "b.net"], cwd=tmp_path, capture_output=True, text=True, check=False)
    assert (done.returncode, done.stderr) == (2, "convert: a.net says that its links are directed, and --links says undirected\n")


def test_what_convert_writes_says_what_it_has_read(root: Path, tmp_path: Path) -> None:
    for comment, word in (("undirected", "directed"), ("directed", "undirected"), ("bidirected", "directed")):
        (tmp_path / "a.net").write_text(meta(word).replace("META", f"# links = {comment}\nMETA"), "ascii")
        subprocess.run([root / "tools/convert", "a.net", "b.net"], cwd=tmp_path, capture_output=True, check=True)
        assert [link_mode(name, (tmp_path / name).read_bytes()).mode for name in ("a.net", "b.net")] == [comment, comment]


def test_files_whose_links_differ_are_told_apart(tmp_path: Path) -> None:
    net, cert = str(tmp_path / "a.net"), str(tmp_path / "a.cert")
    Path(net).write_text(meta("directed"), "ascii")
    Path(cert).write_text("mcf-routing 2\nlinks undirected\n", "ascii")
    said = "links are read as undirected, as a.cert says, and not as directed, as a.net says"
    assert otherwise_of_files("a.net", net, "a.cert", cert) == said
    Path(cert).write_text("mcf-certificate 2\nverdict closed\nlinks directed\n", "ascii")
    assert otherwise_of_files("a.net", net, "a.cert", cert) is None
    assert otherwise_of_files("a.net", net, "a.cert", f"{cert}2") is None and otherwise_of_files("a.net", net, "a.cert", net) is None


def test_a_certificate_that_is_begun_from_may_read_links_otherwise(program: Program, root: Path, tmp_path: Path) -> None:
    net, cert = tmp_path / "a.net", tmp_path / "a.cert"
    net.write_text(meta("bidirected"), "ascii")
    for mode, count in (("undirected", 1), ("bidirected", 0)):
        cert.write_text(program.solve(net, "--links", mode), "ascii")
        done = subprocess.run([root / "tools/certify", net, "--from", cert, "--mcf", program.path, "--output", tmp_path / "out"], capture_output=True,
                              text=True, check=False)
        said = f"certify: links are read as undirected, as {cert} says, and not as bidirected, as {net} says\n"
        assert done.returncode == 0 and done.stderr.startswith(said * count) and done.stderr.count("links are read") == count


@pytest.mark.parametrize("words", [("route", "--by", "hops", "--no-best"), ("certify",), ("study", "--store", "STORE")])
def test_tools_read_links_as_the_file_says(program: Program, root: Path, tmp_path: Path, words: tuple[str, ...]) -> None:
    """Both demands of 5 fit through a link of 10 twice over where each way has its whole capacity, and once where both share it."""
    net = tmp_path / "a.net"
    net.write_text(meta("bidirected"), "ascii")
    tool, *more = (word.replace("STORE", str(tmp_path / "study.db")) for word in words)
    for asked, fits, told in (((), "2", True), (("--links", "undirected"), "1", False)):
        done = subprocess.run([root / "tools" / tool, net, *more, *asked, "--mcf", program.path, *([] if tool == "study" else ["--output", tmp_path / "out"])],
                              capture_output=True, text=True, check=False)
        assert done.returncode == 0, done.stderr
        assert (f"links are read as bidirected, as {net} says" in done.stderr) == told
        if tool != "study":
            assert f"\nlinks {'bidirected' if told else 'undirected'}\n" in (tmp_path / "out").read_text("ascii")
            assert done.stderr.splitlines()[0].endswith("says") == told
        assert f"{fits}.000000" in done.stderr + done.stdout or f"{fits}00" in done.stdout


@pytest.mark.parametrize(("asked", "fits", "said"), [((), "2.", "desk: links are read as bidirected, as {} says\n"), (("--links", "undirected"), "1.", "")])
def test_a_desk_reads_links_as_the_file_says(program: Program, tmp_path: Path, asked: tuple[str, ...], fits: str, said: str) -> None:
    net = tmp_path / "a.net"
    net.write_text(meta("bidirected"), "ascii")
    with desk(program, net, *asked) as running:
        running.enter()
        running.done()
        bounds, told = running.bounds(), running.end()[1]
    assert bounds[0].startswith(fits) and told.startswith(said.format(net))


def test_answers_that_read_links_otherwise_than_the_file_are_told(program: Program, root: Path, tmp_path: Path) -> None:
    net, cert = tmp_path / "a.net", tmp_path / "a.cert"
    net.write_text(meta("bidirected"), "ascii")
    said = f"links are read as undirected, as {cert} says, and not as bidirected, as {net} says"
    for mode, count in (("undirected", 1), ("bidirected", 0)):
        cert.write_text(program.solve(net, "--links", mode), "ascii")
        for tool, *more in (("report",), ("show",), ("survey", "--grow", "0.1")):
            done = subprocess.run([root / "tools" / tool, net, cert, *more, "--mcf", program.path], capture_output=True, text=True, check=False)
            assert (done.returncode, done.stderr) == (0, f"{tool}: {said}\n" * count)
        with desk(program, net, cert) as running:
            told = running.end()[1]
            assert told.startswith(f"desk: {said}\n" * count) and told.count("links are read") == count
    cert.write_text(program.solve(net), "ascii")
    done = subprocess.run([root / "tools/report", net, cert, "--quiet", "--mcf", program.path], capture_output=True, text=True, check=False)
    assert (done.returncode, done.stdout, done.stderr) == (0, "", "")
