"""The package mcf: what it imports, what it exports, its old name, and that tools/ has no code beside it."""

from __future__ import annotations

import importlib
import importlib.util
import re
import subprocess
import sys
import tomllib
from pathlib import Path

import pytest

import mcf
from mcf.cli import certify
from mcf.needs import PACKAGES, needed

TOOLS = ("certify", "convert", "desk", "release", "report", "route", "show", "study", "survey")
OLD = ("certificate", "errors", "network", "numbers", "program", "scaled", "values")
CORE = (*OLD, "children", "commands", "given", "jsons", "limits", "output", "running", "tokens")
API = ("answers", "asking", "frames", "networks", "plots", "reading")
# names that mcf has of the API now, and mcf_texts of the core; errors that the old name never had
MOVED = ("Certificate", "HopCertificate", "Network", "Routing", "TotalCertificate")
NEW_ERRORS = ("Invalid", "McfError", "NoMemory", "NoProgram", "ReadFault", "Refused", "Timeout", "Usage", "WriteFault")
LAUNCHER = """#!/usr/bin/python3 -B
import sys
from pathlib import Path
sys.path.insert(0, str(Path(__file__).resolve().parents[1] / "python"))
from mcf.cli.{name} import main  # noqa: E402
sys.exit(main())
"""


def alone(folder: Path, code: str) -> list[str]:
    """The lines that code prints in a Python without any package, with a folder first on the path."""
    start = [sys.executable, "-I", "-S", "-B", "-c", f"import sys; sys.path.insert(0, {str(folder)!r})\n{code}"]
    done = subprocess.run(start, capture_output=True, text=True, check=False)
    assert (done.returncode, done.stderr) == (0, "")
    return done.stdout.splitlines()


def modules_of(root: Path, package: str) -> list[str]:
    """The modules of a package within mcf, by their whole names."""
    return [f"mcf.{package}.{file.stem}" for file in sorted((root / "python/mcf" / package).glob("*.py")) if not file.stem.startswith("_")]


def test_the_core_stands_on_the_standard_library_alone(root: Path) -> None:
    modules = [f"mcf.{name}" for name in CORE] + modules_of(root, "hints") + modules_of(root, "build")
    assert len(modules) > 12
    code = "".join(f"import {name}\n" for name in modules) + "print(*{name.split('.')[0] for name in sys.modules}, sep='\\n')"
    loaded = {name for name in alone(root / "python", code) if name != "__main__"}
    assert "mcf" in loaded and loaded - {"mcf"} <= sys.stdlib_module_names


def test_importing_the_package_imports_none_of_its_modules(root: Path) -> None:
    code = "before = set(sys.modules)\nimport mcf\nprint(*set(sys.modules) - before, sep='\\n')"
    loaded = alone(root / "python", code)
    assert [name for name in loaded if name.startswith("mcf")] == ["mcf"]
    assert {name.split(".")[0] for name in loaded} <= {"mcf", "__future__", "importlib", "warnings"}


def test_a_name_imports_its_own_module_first(root: Path) -> None:
    code = "import mcf\nmcf.fraction_of\nprint(*(name for name in sys.modules if name.startswith('mcf')), sep='\\n')"
    assert sorted(alone(root / "python", code)) == ["mcf", "mcf.errors", "mcf.numbers"]


def test_each_exported_name_is_there() -> None:
    assert sorted(mcf._HOME) == sorted(mcf.__all__) and len(set(mcf.__all__)) == len(mcf.__all__)
    for name, module in mcf._HOME.items():
        assert getattr(mcf, name) is getattr(importlib.import_module(f"mcf.{module}"), name)
    assert set(mcf.__all__) <= set(dir(mcf))
    with pytest.raises(AttributeError, match="module 'mcf' has no attribute 'nothing'"):
        getattr(mcf, "nothing")


def test_the_old_name_has_the_same_names_and_modules(root: Path) -> None:
    code = f"""
import mcf_texts
from mcf_texts import *
import mcf
modules = [__import__("mcf." + name, fromlist=["x"]) for name in {OLD!r}]
for name in mcf_texts.__all__:
    assert globals()[name] is getattr(mcf_texts, name) and any(getattr(module, name, None) is globals()[name] for module in modules)
core = [name for name, module in mcf._HOME.items() if module in {OLD!r} and name not in {NEW_ERRORS!r}]
assert set(mcf_texts.__all__) == {{*core, *{MOVED!r}}} and not {{"pandas", "numpy", "mcf.networks"}} & set(sys.modules)
for name in {OLD!r}:
    module = __import__("mcf_texts." + name, fromlist=["x"])
    assert module is sys.modules["mcf." + name] is getattr(mcf_texts, name)
print("same")
"""
    assert alone(root / "tools", code) == ["same"]
    code = f"import sys; sys.path.insert(0, {str(root / 'tools')!r})\nfrom mcf_texts.graph import graph_of\nprint(graph_of.__module__)"
    done = subprocess.run([sys.executable, "-B", "-c", code], capture_output=True, text=True, check=False)
    assert (done.stdout, done.stderr) == ("mcf.graph\n", "")


def test_tools_has_launchers_and_no_code(root: Path) -> None:
    found = {file.name for file in (root / "tools").iterdir()} - {"__pycache__"}
    assert found == {*TOOLS, "check_twice", "setup", "test", "tests", "mcf_texts"}
    for name in TOOLS:
        assert (root / "tools" / name).read_text() == LAUNCHER.format(name=name)
        assert (root / "tools" / name).stat().st_mode & 0o111
    shim = {file.name: file.read_text() for file in (root / "tools/mcf_texts").glob("*") if file.is_file()}
    assert set(shim) == {"__init__.py", "graph.py"}
    assert not [text for text in shim.values() if re.search(r"^\s*(def|class) ", text, re.M)]


def test_each_tool_is_a_module_with_a_main(root: Path) -> None:
    assert modules_of(root, "cli") == [f"mcf.cli.{name}" for name in TOOLS]
    assert all(callable(importlib.import_module(f"mcf.cli.{name}").main) for name in TOOLS)
    project = tomllib.loads((root / "python/pyproject.toml").read_text("utf-8"))["project"]
    # (a release is made in the repository alone)
    assert project["scripts"] == {f"mcf-{name}": f"mcf.cli.{name}:main" for name in TOOLS if name != "release"}
    project = tomllib.loads((root / "python/pyproject.toml").read_text())["project"]
    for name, entry in project["scripts"].items():
        module, _, function = entry.partition(":")
        assert name == f"mcf-{module.rpartition('.')[2]}" and callable(getattr(importlib.import_module(module), function))


@pytest.mark.parametrize("name", TOOLS)
def test_help_needs_no_package(root: Path, name: str) -> None:
    tool = str(root / "tools" / name)
    without = subprocess.run([sys.executable, "-I", "-S", "-B", tool, "--help"], capture_output=True, text=True, check=False)
    having = subprocess.run([tool, "--help"], capture_output=True, text=True, check=False)
    assert (without.returncode, without.stderr) == (0, "") and without.stdout == having.stdout and without.stdout.startswith("usage: ")


@pytest.mark.parametrize("name, words", [
    ("certify", ["triangle.net"]), ("convert", ["triangle.net", "none.graphml"]), ("desk", ["triangle.net"]),
    ("report", ["triangle.net", "triangle.cert", "--csv", "-"]), ("route", ["triangle.net", "--by", "hops"]), ("show", ["triangle.net"]),
    ("study", ["triangle.net", "--store", "/tmp/none.db"]),
    ("survey", ["triangle.net", "triangle.cert", "--failures"])])
def test_missing_packages_are_named_in_one_line(root: Path, name: str, words: list[str]) -> None:
    done = subprocess.run([sys.executable, "-I", "-S", "-B", str(root / "tools" / name), *words], cwd=root / "examples", capture_output=True,
                          text=True, check=False)
    assert (done.returncode, done.stdout) == (2, "")
    assert done.stderr == f"{name}: Debian's packages are missing: {', '.join(PACKAGES.values())}; tools/setup installs them\n"
    assert not (root / "examples/none.graphml").exists()


def test_an_import_of_another_kind_is_no_missing_package() -> None:
    with pytest.raises(ModuleNotFoundError, match="nothing_has_this_name"), needed():
        importlib.import_module("nothing_has_this_name")


def test_setup_installs_what_is_needed(root: Path) -> None:
    assert set(PACKAGES.values()) <= set(re.findall(r"[a-z0-9-]+", (root / "tools/setup").read_text()))


def test_kinds_of_certify_are_those_of_the_linear_program() -> None:
    assert certify.COMMANDS == tuple(importlib.import_module("mcf.lp.kinds").KINDS)


def test_types_are_right(root: Path, tmp_path: Path) -> None:
    if importlib.util.find_spec("mypy") is None:
        pytest.skip("mypy is missing: tools/setup --tests")
    words = ["--cache-dir", str(tmp_path), "-p", "mcf"]
    done = subprocess.run([sys.executable, "-m", "mypy", "--strict", *words], cwd=root / "python", capture_output=True, text=True, check=False)
    assert done.returncode == 0, done.stdout + done.stderr


def test_the_version_is_that_of_the_repository(root: Path) -> None:
    spec = importlib.util.spec_from_file_location("hatch_version", root / "python/hatch_version.py")
    assert spec is not None and spec.loader is not None
    module = importlib.util.module_from_spec(spec)
    spec.loader.exec_module(module)
    assert module.__version__ == (root / "VERSION").read_text().strip()
