"""Man pages and completions: each has every option of its tool's parser, and shells and man take them."""

from __future__ import annotations

import argparse
import re
import shutil
import subprocess
from pathlib import Path

import pytest

from mcf.hints.words import COMMANDS
from mcf.release.pages import parsers, scripts, shared_files
from mcf.release.staged import Release

for module, package in (("shtab", "python3-shtab"), ("build_manpages", "python3-argparse-manpage")):
    pytest.importorskip(module, reason=f"{package} is missing: tools/setup --tests")

TOOLS = tuple(scripts(Path(__file__).resolve().parents[2]))
EPOCH = 1_700_000_000


@pytest.fixture(scope="module")
def files(root: Path) -> dict[str, str]:
    """All pages and completions by their names."""
    return shared_files(Release(root, Path("/bin/true"), EPOCH, Path("/bin/true")), "site-functions")


def options_of(parser: argparse.ArgumentParser) -> list[str]:
    """All long options of a parser."""
    return [option for action in parser._actions for option in action.option_strings if option.startswith("--")]


def test_each_tool_has_a_page_and_completions(files: dict[str, str]) -> None:
    names = ("mcf", "mcf-wide", *TOOLS)
    assert set(files) == {file for name in names for file in (
        f"man/man1/{name}.1", f"bash-completion/completions/{name}", f"zsh/site-functions/_{name}")}


@pytest.mark.parametrize("name", TOOLS)
def test_each_option_is_in_page_and_completions(files: dict[str, str], root: Path, name: str) -> None:
    options = options_of(parsers(root)[name])
    assert {"--help", "--version"} <= set(options) and len(options) > 3
    page = files[f"man/man1/{name}.1"].replace("\\-", "-")
    for option in options:
        # (--help is in the synopsis alone)
        assert option == "--help" or re.search(rf"^\\fB{option}\\fR", page, re.M), option
        assert f"'{option}'" in files[f"bash-completion/completions/{name}"], option
        assert re.search(rf'"[^"]*{option}[\]"\[,}}]', files[f"zsh/site-functions/_{name}"]), option
    assert page.startswith(f'.TH "{name.upper()}" 1 "2023-11-14" "mcf ')
    assert ".SH NAME" in page and f"\n{name} - " in page and "[-h] [--version]" in page and "tools/" not in page


def test_the_programs_completion_has_its_commands_and_options(files: dict[str, str]) -> None:
    for name, command in COMMANDS.items():
        for text in (files["bash-completion/completions/mcf"], files["zsh/site-functions/_mcf"]):
            assert re.search(rf"\b{name}\b", text) and all(option in text for option in command.options)


@pytest.mark.parametrize("name", ("mcf", *TOOLS))
def test_man_takes_the_page(files: dict[str, str], tmp_path: Path, name: str) -> None:
    if shutil.which("man") is None:
        pytest.skip("man-db is missing")
    (tmp_path / "page.1").write_text(files[f"man/man1/{name}.1"])
    ran = subprocess.run(["man", "--warnings=mac,syntax,escape,missing", "-l", str(tmp_path / "page.1")], capture_output=True, text=True, check=False)
    assert (ran.returncode, ran.stderr) == (0, "") and "NAME" in ran.stdout


@pytest.mark.parametrize("name", ("mcf", *TOOLS))
@pytest.mark.parametrize("shell, place", [("bash", "bash-completion/completions/"), ("zsh", "zsh/site-functions/_")])
def test_shells_take_the_completion(files: dict[str, str], tmp_path: Path, name: str, shell: str, place: str) -> None:
    if shutil.which(shell) is None:
        pytest.skip(f"{shell} is missing: tools/setup --tests")
    (tmp_path / "completion").write_text(files[place + name])
    ran = subprocess.run([shell, "-n", str(tmp_path / "completion")], capture_output=True, text=True, check=False)
    assert (ran.returncode, ran.stdout, ran.stderr) == (0, "", "")


@pytest.mark.parametrize("name, words, found", [
    ("mcf-certify", ["--kind", ""], {"solve", "hops", "throughput"}),
    ("mcf-certify", ["--se"], {"--seconds"}),
    ("mcf-report", ["pol"], {"polska.net"}),
    ("mcf-report", ["polska.net", "polska.cert", "--html", "pol"], {"polska.net"}),
    ("mcf", ["check"], {"check", "checkhops", "checkthroughput"}),
    ("mcf", ["solve", "--links", "d"], {"directed"}),
    ("mcf", ["check", "pol"], {"polska.net"}),
])
def test_bash_completes_words(files: dict[str, str], tmp_path: Path, name: str, words: list[str], found: set[str]) -> None:
    (tmp_path / "completion").write_text(files[f"bash-completion/completions/{name}"])
    (tmp_path / "polska.net").write_text("")
    line = " ".join(f"'{word}'" for word in [name, *words])
    code = f"""
. ./completion
COMP_WORDS=({line}) COMP_CWORD={len(words)} COMPREPLY=()
function=$(complete -p {name} | sed 's/.*-F \\([^ ]*\\) .*/\\1/')
"$function"
printf '%s\\n' "${{COMPREPLY[@]}}"
"""
    ran = subprocess.run(["bash", "--norc", "-c", code], cwd=tmp_path, capture_output=True, text=True, check=False)
    assert ran.stderr == "" and set(ran.stdout.split()) == found
