"""What the documents show is what comes: every command of a text block is run, and its output compared."""

from __future__ import annotations

import re
import subprocess
from pathlib import Path

import pytest

from mcf import Program
from mcf.hints.words import COMMANDS as WORDS
from mcf.hints.words import OPTIONS

STARTER = '#!/bin/sh\nhere={root}\n. "$here/python/mcf/hints/starter.sh"\nanswer_help "$@"\nprogram={program}\nrun_program "$@"\n'


def sessions(text: str) -> list[tuple[str, str]]:
    """The commands of all text blocks in their order, each with the output that is shown behind it."""
    found = []
    for block in re.findall(r"^```text\n(.*?)^```$", text, re.M | re.S):
        found += re.findall(r"^\$ (.*)\n((?:(?!\$ ).*\n)*)", block, re.M)
    return found


@pytest.fixture
def room(program: Program, root: Path, tmp_path: Path) -> Path:
    """A folder as the top of the repository, with a starter that builds nothing."""
    for name in ("examples", "python", "tools", "docs", "VERSION"):
        (tmp_path / name).symlink_to(root / name)
    (tmp_path / "mcf").write_text(STARTER.format(root=root, program=program.path))
    (tmp_path / "mcf").chmod(0o755)
    return tmp_path


def pages(root: Path) -> list[Path]:
    """All documents."""
    return [root / "README.md", root / "CONTRIBUTING.md", *(root / name / "README.md" for name in ("bench", "bench/yardsticks", "cases", "examples")),
            *sorted((root / "docs").rglob("*.md"))]


COMMANDS = ("batch", "check", "checkhops", "checkthroughput", "gen", "hops", "print", "solve", "sweep", "sweepsolve", "throughput", "tighten",
            "trial", "upgrade", "whatif")


def test_each_command_has_a_page(root: Path) -> None:
    assert sorted(page.stem for page in (root / "docs/judge/formats").glob("*.md")) == sorted(["README", *COMMANDS])


def test_the_manual_has_all_commands_and_options(root: Path) -> None:
    text = (root / "docs/mcf.1").read_text()
    synopsis, rest = text[text.index(".SH SYNOPSIS"):].split(".SH DESCRIPTION")
    description, options = rest[:rest.index(".SH HELP")].split(".SH OPTIONS")
    found = re.findall(r"^\.B mcf (\w+)\n\.I ([A-Z0-9 ]+)\n(?:\.RI \[ (\w+) \]\n)?", synopsis, re.M)
    assert {name: (tuple(words.split()), (spare,) if spare else ()) for name, words, spare in found} == {
        name: (command.words, command.spare) for name, command in WORDS.items()}
    assert re.findall(r"^\.TP\n\.B (\w+)$", description, re.M) == list(dict.fromkeys(re.findall(r"^\.B mcf (\w+)$", synopsis, re.M)))
    assert [option.replace("\\-", "-") for option in re.findall(r"^\.TP\n\.B[RI]+ (\S+)", options, re.M)] == list(OPTIONS)


@pytest.mark.parametrize("document, least", [("README.md", 5), ("docs/planner/guide.md", 60), ("docs/study/json.md", 1), ("docs/judge/show.md", 4),
                                             *((f"docs/judge/formats/{name}.md", 1) for name in COMMANDS)])
def test_commands_give_what_is_shown(room: Path, root: Path, program: Program, monkeypatch: pytest.MonkeyPatch, document: str,
                                     least: int) -> None:
    monkeypatch.setenv("MCF", program.path)
    monkeypatch.delenv("MCF_HINTS", raising=False)
    commands = sessions((root / document).read_text())
    assert len(commands) >= least
    for command, shown in commands:
        file = re.fullmatch(r"cat (\S+)", command)
        if file and not (room / file[1]).exists():
            # (a file that the reader is to write)
            (room / file[1]).write_text(shown)
            continue
        ran = subprocess.run(["bash", "-c", f"exec 2>&1; {command}"], cwd=room, stdout=subprocess.PIPE, text=True, timeout=900)
        assert ran.stdout == shown, command


def test_links_of_the_documents_lead_somewhere(root: Path) -> None:
    for document in pages(root):
        for target in re.findall(r"\]\(([^)#:]+)(?:#[^)]*)?\)", document.read_text()):
            assert (document.parent / target).exists(), (document.name, target)


def test_anchors_of_the_documents_are_there(root: Path) -> None:
    for document in pages(root):
        for target, anchor in re.findall(r"\]\(([^)#:]*)#([^)]+)\)", document.read_text()):
            other = document.parent / target if target else document
            titles = re.findall(r"^#+ (.+)$", other.read_text(), re.M)
            anchors = {re.sub(r"[^\w\- ]", "", title.lower()).replace(" ", "-") for title in titles}
            assert anchor in anchors, (document.name, target, anchor)
