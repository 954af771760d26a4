"""The version and the commit: of a checkout, of a release, without git; and that tools, the starter and CITATION.cff agree."""

from __future__ import annotations

import re
import shutil
import subprocess
import tomllib
from pathlib import Path

import pytest

from mcf.version import commit_of

STARTER = 'here={top}\n. "$here/python/mcf/hints/starter.sh"\nanswer_help --version\n'
TOLD = "from mcf.version import told; print('mcf', told())"


def both(top: Path) -> tuple[str, str]:
    """What the starter and what the package in a folder say."""
    starter = subprocess.run(["sh", "-c", STARTER.format(top=top)], capture_output=True, text=True, check=True)
    package = ["/usr/bin/python3", "-I", "-S", "-B", "-c", f"import sys; sys.path.insert(0, {str(top / 'python')!r})\n{TOLD}"]
    told = subprocess.run(package, capture_output=True, text=True, check=True)
    assert (starter.stderr, told.stderr) == ("", "")
    return starter.stdout, told.stdout


def head(top: Path) -> str:
    """The commit, as git says it."""
    return subprocess.run(["git", "-C", str(top), "rev-parse", "--short=8", "HEAD"], capture_output=True, text=True, check=True).stdout.strip()


def test_a_checkout_has_the_commit_and_says_what_was_changed(small_repository: Path, monkeypatch: pytest.MonkeyPatch) -> None:
    version, commit = (small_repository / "VERSION").read_text().strip(), head(small_repository)
    assert re.fullmatch("[0-9a-f]{8}", commit)
    assert both(small_repository) == (f"mcf {version} ({commit})\n",) * 2
    subprocess.run(["git", "-C", str(small_repository), "tag", "v9"], check=True)
    (small_repository / "untracked").write_text("")
    assert both(small_repository) == (f"mcf {version} ({commit})\n",) * 2
    (small_repository / "LICENSE-MIT").write_text("")
    assert both(small_repository) == (f"mcf {version} ({commit}-dirty)\n",) * 2
    monkeypatch.setenv("GIT_DIR", "/nowhere")
    assert both(small_repository) == (f"mcf {version} ({commit}-dirty)\n",) * 2


def test_a_lock_of_git_is_neither_needed_nor_made(small_repository: Path) -> None:
    commit, lock = head(small_repository), small_repository / ".git/index.lock"
    (small_repository / "LICENSE-MIT").touch()
    lock.write_text("")
    assert commit_of(small_repository) == commit
    lock.unlink()
    index = (small_repository / ".git/index").stat().st_mtime_ns
    assert both(small_repository)[1].endswith(f"({commit})\n") and (small_repository / ".git/index").stat().st_mtime_ns == index


def test_without_git_the_commit_is_unknown(small_repository: Path, monkeypatch: pytest.MonkeyPatch) -> None:
    version = (small_repository / "VERSION").read_text().strip()
    monkeypatch.setenv("PATH", "")
    assert commit_of(small_repository) == "unknown"
    monkeypatch.undo()
    # (a copy within another repository is not of that one)
    inner = small_repository / "inner"
    shutil.copytree(small_repository / "python", inner / "python")
    shutil.copy(small_repository / "VERSION", inner)
    assert both(inner) == (f"mcf {version} (unknown)\n",) * 2


def test_a_release_has_its_commit_in_a_file(small_repository: Path) -> None:
    (small_repository / "python/mcf/COMMIT").write_text("01234567\n")
    assert both(small_repository) == (f"mcf {(small_repository / 'VERSION').read_text().strip()} (01234567)\n",) * 2


@pytest.mark.parametrize("tool", ["certify", "convert", "release", "report", "route", "show", "survey"])
def test_each_tool_tells_version_and_commit_without_any_package(root: Path, tool: str) -> None:
    words = ["/usr/bin/python3", "-I", "-S", "-B", str(root / "tools" / tool), "--version"]
    ran = subprocess.run(words, capture_output=True, text=True, check=False)
    assert (ran.returncode, ran.stderr) == (0, "")
    assert ran.stdout == f"mcf {(root / 'VERSION').read_text().strip()} ({commit_of(root)})\n"


def test_pages_name_version_and_commit(root: Path) -> None:
    page = pytest.importorskip("mcf.report.page", reason="python3-jinja2 is missing: tools/setup")
    text = page.render("survey.html", title="x", surveyed=[], grown=[], about="y")
    assert f"<footer>Made by mcf {(root / 'VERSION').read_text().strip()} ({commit_of(root)}).</footer>" in text


def test_the_citation_has_the_version(root: Path) -> None:
    yaml = pytest.importorskip("yaml", reason="python3-yaml is missing: tools/setup --tests")
    text = (root / "CITATION.cff").read_text()
    cited = yaml.safe_load(text)
    assert cited["version"] == (root / "VERSION").read_text().strip() and cited["cff-version"] == "1.2.0"
    assert {"message", "title", "authors", "license", "date-released"} <= set(cited)
    assert re.fullmatch(r"20[0-9]{2}-[01][0-9]-[0-3][0-9]", cited["date-released"])
    project = tomllib.loads((root / "python/pyproject.toml").read_text())["project"]
    assert " OR ".join(cited["license"]) == project["license"]
