"""The wheel: its name and what is in it, that the same files give the same bytes, and that it works where it is all there is."""

from __future__ import annotations

import json
import os
import shutil
import subprocess
import sys
import zipfile
from dataclasses import dataclass
from io import BytesIO
from pathlib import Path

import pytest

from mcf import Program
from mcf.release.elf import glibc
from mcf.release.pages import scripts
from mcf.release.staged import Release
from mcf.trees.kernel import name as kernel_name
from mcf.version import commit_of

for module, package in (("hatchling", "python3-hatchling"), ("shtab", "python3-shtab"), ("build_manpages", "python3-argparse-manpage")):
    pytest.importorskip(module, reason=f"{package} is missing: tools/setup --tests")
from mcf.release.wheel import wheel  # noqa: E402

STANDS_IN = Path("/bin/true")
TOOLS = tuple(scripts(Path(__file__).resolve().parents[2]))
EPOCH = 1_700_000_000


@dataclass(frozen=True)
class Installed:
    """A virtual environment that has the wheel, and a folder with examples; nothing of the repository is on any path."""

    python: Path
    room: Path
    version: str

    def run(self, name: str, *words: str) -> subprocess.CompletedProcess[str]:
        """Runs a script of the environment."""
        return subprocess.run([str(self.python.parent / name), *words], cwd=self.room, env={"PATH": "/usr/bin:/bin"}, capture_output=True,
                              text=True, encoding="latin-1", check=False)

    def said(self, name: str, *words: str) -> str:
        """What a script writes that has to end with status 0 and say nothing more."""
        ran = self.run(name, *words)
        assert (ran.returncode, ran.stderr) == (0, ""), (name, words, ran.stderr)
        return ran.stdout


@pytest.fixture(scope="module")
def made(root: Path, program: Program) -> tuple[str, bytes]:
    """The wheel of the program."""
    return wheel(Release(root, Path(program.path), EPOCH))


@pytest.fixture(scope="module")
def installed(made: tuple[str, bytes], root: Path, tmp_path_factory: pytest.TempPathFactory) -> Installed:
    """The wheel in a fresh virtual environment, installed without any index."""
    room = tmp_path_factory.mktemp("wheel")
    python = room / "venv/bin/python"
    subprocess.run(["/usr/bin/python3", "-m", "venv", "--system-site-packages", str(room / "venv")], check=True)
    (room / made[0]).write_bytes(made[1])
    words = [str(python), "-m", "pip", "install", "-q", "--no-index", "--disable-pip-version-check", str(room / made[0])]
    subprocess.run(words, check=True, cwd=room)
    for name in ("triangle.net", "triangle.cert", "polska.net", "polska.cert"):
        shutil.copy(root / "examples" / name, room)
    with zipfile.ZipFile(BytesIO(made[1])) as zipped:
        version, commit = (zipped.read(f"mcf/{name}").decode().strip() for name in ("VERSION", "COMMIT"))
    return Installed(python, room, f"{version} ({commit})")


def test_the_wheel_has_the_program_and_the_package(root: Path) -> None:
    name, data = wheel(Release(root, STANDS_IN, EPOCH))
    version = (root / "VERSION").read_text().strip()
    assert name == f"mcf_certified_flow-{version}-py3-none-manylinux_{'_'.join(map(str, glibc(STANDS_IN)))}_x86_64.whl"
    with zipfile.ZipFile(BytesIO(data)) as zipped:
        files = {info.filename: info for info in zipped.infolist()}
        assert zipped.read(f"mcf_certified_flow-{version}.data/scripts/mcf") == STANDS_IN.read_bytes()
        assert zipped.read("mcf/VERSION").decode() == f"{version}\n"
        assert zipped.read("mcf/COMMIT").decode() == f"{commit_of(root)}\n"
        entries = zipped.read(f"mcf_certified_flow-{version}.dist-info/entry_points.txt").decode()
        assert "Root-Is-Purelib: false" in zipped.read(f"mcf_certified_flow-{version}.dist-info/WHEEL").decode()
    assert files[f"mcf_certified_flow-{version}.data/scripts/mcf"].external_attr >> 16 & 0o777 == 0o755
    assert tuple(line.partition(" ")[0] for line in entries.splitlines()[1:]) == TOOLS and "mcf-report" in TOOLS
    for file in ("mcf/__init__.py", "mcf/py.typed", "mcf/report/templates/report.html", "mcf/hints/help/solve.txt"):
        assert file in files
    licences = {Path(file).name for file in files if "/licenses/" in file}
    assert licences == {"LICENSE-APACHE", "LICENSE-MIT"}
    others = [file for file in files if file.startswith(("mcf/build", "mcf/release", "mcf/cli/release"))]
    assert not others and not [file for file in files if "__pycache__" in file]


def test_each_module_and_file_of_the_package_is_in_the_wheel(root: Path) -> None:
    listed = subprocess.run(["git", "-C", str(root), "ls-files", "python/mcf"], capture_output=True, text=True, check=False)
    if listed.returncode != 0:
        pytest.skip("no git repository")
    names = {name.removeprefix("python/") for name in listed.stdout.splitlines()}
    left = {name for name in names if not name.startswith(("mcf/build/", "mcf/release/")) and name != "mcf/cli/release.py"}
    with zipfile.ZipFile(BytesIO(wheel(Release(root, STANDS_IN, EPOCH))[1])) as zipped:
        assert {name for name in zipped.namelist() if name.startswith("mcf/")} == left | {"mcf/VERSION", "mcf/COMMIT", f"mcf/trees/{kernel_name()}"}


def test_the_same_files_give_the_same_bytes(small_repository: Path) -> None:
    release = Release(small_repository, STANDS_IN, EPOCH)
    first = wheel(release)
    (small_repository / "python/mcf/__pycache__").mkdir()
    for leftover in ("mcf/left_over.py", "mcf/__pycache__/x.cpython-311.pyc", "mcf/.part", "left_over.py", "mcf/COMMIT"):
        (small_repository / "python" / leftover).write_text("1\n")
    for file in (small_repository / "python/mcf").glob("*.py"):
        file.chmod(0o600)
        os.utime(file, (1, 1))
    old = os.umask(0o077)
    try:
        assert wheel(release) == first
    finally:
        os.umask(old)


def test_the_wheel_solves_and_checks(installed: Installed, program: Program, root: Path) -> None:
    assert (installed.python.parent / "mcf").read_bytes() == Path(program.path).read_bytes()
    assert installed.said("mcf", "solve", "triangle.net", "--workers", "1") == (root / "examples/triangle.cert").read_text()
    assert installed.said("mcf", "check", "polska.net", "polska.cert").startswith("valid closed undirected largest ")


def test_the_wheel_reports(installed: Installed) -> None:
    said = installed.said("mcf-report", "polska.net", "polska.cert", "--html", "polska.html", "--csv", "polska.csv")
    assert said.startswith("Not every demand fits: ") and said.count("\n") == 1
    assert (installed.room / "polska.html").read_text().startswith("<!DOCTYPE html>")
    assert len((installed.room / "polska.csv").read_text().splitlines()) == 19


def test_the_wheel_certifies(installed: Installed) -> None:
    (installed.room / "best.cert").write_text(installed.said("mcf-certify", "triangle.net"))
    assert installed.said("mcf", "check", "triangle.net", "best.cert").startswith("valid closed undirected largest ")


def test_an_exact_survey_finds_certify_without_the_repository(installed: Installed) -> None:
    ran = installed.run("mcf-survey", "triangle.net", "triangle.cert", "--failures", "--exact", "--quiet")
    assert (ran.returncode, ran.stderr) in ((0, ""), (1, "")) and ran.stdout.count("\n") == 1


def test_the_package_of_the_wheel_finds_its_program(installed: Installed) -> None:
    code = "import mcf, sys; from mcf.version import told; print(mcf.find_program().path, told(), mcf.__file__, sep='\\n')"
    path, told, file = installed.said("python", "-I", "-c", code).splitlines()
    assert path == str(installed.python.parent / "mcf")
    assert told == installed.version
    assert file.startswith(str(installed.room))


def test_the_lines_of_the_notebook_need_nothing_but_the_wheel(installed: Installed, root: Path) -> None:
    cells = json.loads((root / "docs/study/notebook.ipynb").read_text())["cells"]
    code = "\n".join("".join(cell["source"]) for cell in cells if cell["cell_type"] == "code")
    said = installed.said("python", "-I", "-c", f"import matplotlib; matplotlib.use('Agg')\n{code}")
    assert "judged valid" in said and said.splitlines()[-1] == "valid"


@pytest.mark.parametrize("tool", TOOLS)
def test_each_tool_of_the_wheel_tells_its_version(installed: Installed, tool: str) -> None:
    assert installed.said(tool, "--version") == f"mcf {installed.version}\n"
    assert installed.said(tool, "--help").startswith("usage: ")
    assert (installed.python.parents[1] / f"share/man/man1/{tool}.1").is_file()


def test_missing_packages_are_said_as_pip_installs_them(installed: Installed) -> None:
    place = next((installed.python.parents[1] / "lib").glob("python*/site-packages"))
    code = f"import sys; sys.path.insert(0, {str(place)!r}); sys.argv = ['show', 'triangle.net']; from mcf.cli.show import main; main()"
    ran = installed.run("python", "-I", "-S", "-B", "-c", code)
    assert (ran.returncode, ran.stdout) == (2, "") and ran.stderr.count("\n") == 1 and "tools/setup" not in ran.stderr
    assert ran.stderr.startswith("show: packages of Python are missing: pip install ") and "apt-get install python3-" in ran.stderr


def test_an_editable_installation_is_the_checkout(small_repository: Path, root: Path, tmp_path: Path) -> None:
    python = tmp_path / "venv/bin/python"
    subprocess.run(["/usr/bin/python3", "-m", "venv", "--system-site-packages", str(tmp_path / "venv")], check=True)
    words = [str(python), "-m", "pip", "install", "-q", "--no-index", "--no-build-isolation", "--disable-pip-version-check", "-e"]
    done = subprocess.run([*words, str(small_repository / "python")], capture_output=True, text=True, check=False)
    assert done.returncode == 0, done.stdout + done.stderr
    where = subprocess.run([str(python), "-I", "-c", "import mcf; print(mcf.__file__)"], capture_output=True, text=True, check=True).stdout
    assert where == f"{small_repository}/python/mcf/__init__.py\n"
    told = subprocess.run([str(python.parent / "mcf-show"), "--version"], capture_output=True, text=True, check=True).stdout
    assert told.startswith(f"mcf {(root / 'VERSION').read_text().strip()} ({commit_of(small_repository)}")


def test_a_source_distribution_builds_the_wheel_for_every_system(root: Path, tmp_path: Path) -> None:
    pytest.importorskip("build", reason="python3-build is missing: tools/setup --tests")
    words = [sys.executable, "-m", "build", "--no-isolation", "--skip-dependency-check", "--outdir", str(tmp_path), str(root / "python")]
    ran = subprocess.run(words, capture_output=True, text=True, env={**os.environ, "SOURCE_DATE_EPOCH": str(EPOCH)}, check=False)
    assert ran.returncode == 0, ran.stdout + ran.stderr
    version = (root / "VERSION").read_text().strip()
    names = [f"mcf_certified_flow-{version}-py3-none-any.whl", f"mcf_certified_flow-{version}.tar.gz"]
    assert sorted(file.name for file in tmp_path.iterdir()) == names
    with zipfile.ZipFile(tmp_path / names[0]) as zipped:
        assert zipped.read("mcf/COMMIT").decode() == f"{commit_of(root)}\n"
