"""The release: what is in the archive, that it is the same for the same files, and that it works."""

from __future__ import annotations

import hashlib
import io
import os
import re
import shutil
import subprocess
import tarfile
from pathlib import Path

import pytest

from mcf import Program, TextError
from mcf.release.archive import archive, built_program, built_wide_program, files_of, try_archive, version_of
from mcf.release.elf import glibc, is_program, libraries, symbol_versions
from mcf.release.pages import scripts
from mcf.release.sources import commit_seconds, sources
from mcf.release.staged import Release
from mcf.version import commit_of

STANDS_IN = Path("/bin/true")
WITHOUT = "tools/release: without mcf-wide, which was not built of these sources: ./mcf-wide builds it, or --wide names one"


def said_without(root: Path) -> str:
    """What is said where the program with wide limits was not built of these sources."""
    return "" if built_wide_program(root) else f"{WITHOUT}\n"


def unpacked(data: bytes, folder: Path) -> Path:
    """The archive's one folder, unpacked."""
    with tarfile.open(fileobj=io.BytesIO(data)) as tar:
        tar.extractall(folder)
    top, = folder.iterdir()
    return top


def test_archive_has_what_a_receiver_needs(root: Path, tmp_path: Path) -> None:
    name, data = archive(Release(root, STANDS_IN, 1_000_000_000))
    top = unpacked(data, tmp_path)
    assert top.name == name == f"mcf-{version_of(root)}-x86_64-linux"
    for file in ("mcf", "program/mcf", "docs/mcf.1", "docs/planner/guide.md", "docs/judge/formats.md", "LICENSE-APACHE", "LICENSE-MIT", "README.md",
                 "VERSION", "SHA256SUMS", "python/mcf/hints/starter.sh", "python/mcf/hints/help/solve.txt",
                 "python/mcf/hints/__main__.py", "python/mcf/__init__.py", "python/mcf/network.py", "python/mcf/graph.py", "python/mcf/COMMIT",
                 "tools/mcf_texts/__init__.py", "tools/mcf_texts/graph.py", "examples/polska.net", "examples/polska.cert"):
        assert (top / file).is_file(), file
    assert (top / "program/mcf").read_bytes() == STANDS_IN.read_bytes()
    programs = {str(file.relative_to(top)) for file in top.rglob("*") if file.is_file() and file.stat().st_mode & 0o111}
    tools = {f"tools/{name.removeprefix('mcf-')}" for name in scripts(root)}
    assert programs == {"mcf", "program/mcf", *tools, "tools/check_twice", "tools/setup"} and "tools/show" in tools
    assert not list(top.rglob("__pycache__"))
    package = {str(file.relative_to(root / "python/mcf")) for file in sources(root, "python/mcf").values()}
    here = {str(file.relative_to(top / "python/mcf")) for file in (top / "python/mcf").rglob("*") if file.is_file()}
    assert here == {name for name in package if not name.startswith(("build/", "release/")) and name != "cli/release.py"} | {"COMMIT"}


def test_archive_has_the_program_with_wide_limits_where_it_is_given(root: Path, tmp_path: Path) -> None:
    top = unpacked(archive(Release(root, STANDS_IN, 0, Path("/bin/false")))[1], tmp_path)
    assert (top / "program/mcf").read_bytes() == STANDS_IN.read_bytes() and (top / "program/mcf-wide").read_bytes() == Path("/bin/false").read_bytes()
    for name, status in (("mcf", 0), ("mcf-wide", 1)):
        said = subprocess.run([str(top / name), "--version"], capture_output=True, text=True, check=True).stdout
        assert said.startswith(f"{name} {version_of(root)} (")
        assert subprocess.run([str(top / name), "solve", "net"], check=False, capture_output=True).returncode == status
    helped = subprocess.run([str(top / "mcf-wide"), "help", "gen"], capture_output=True, text=True, check=True).stdout
    assert helped.startswith("usage: mcf-wide gen ") and "NODES 2 to 1000," in helped


def test_checksums_are_of_every_other_file(root: Path, tmp_path: Path) -> None:
    top = unpacked(archive(Release(root, STANDS_IN, 0))[1], tmp_path)
    sums = {line.split("  ", 1)[1]: line.split("  ", 1)[0] for line in (top / "SHA256SUMS").read_text().splitlines()}
    files = {str(file.relative_to(top)) for file in top.rglob("*") if file.is_file()}
    assert set(sums) == files - {"SHA256SUMS"}
    assert all(hashlib.sha256((top / file).read_bytes()).hexdigest() == digest for file, digest in sums.items())
    assert subprocess.run(["sha256sum", "--quiet", "-c", "SHA256SUMS"], cwd=top).returncode == 0


def test_the_same_files_give_the_same_bytes(root: Path) -> None:
    one, other = archive(Release(root, STANDS_IN, 7)), archive(Release(root, STANDS_IN, 7))
    assert one == other
    with tarfile.open(fileobj=io.BytesIO(one[1])) as tar:
        assert {(member.mtime, member.uid, member.gid, member.uname) for member in tar} == {(7, 0, 0, "root")}


@pytest.mark.parametrize("word", ["4294967296", "-5", "", "1" * 5000, "１２", "now"])
def test_a_time_that_archives_cannot_hold_is_refused(root: Path, monkeypatch: pytest.MonkeyPatch, word: str) -> None:
    monkeypatch.setenv("SOURCE_DATE_EPOCH", word)
    with pytest.raises(TextError, match="SOURCE_DATE_EPOCH: .* is no number of seconds from 0 to 4294967295"):
        commit_seconds(root)
    monkeypatch.setenv("SOURCE_DATE_EPOCH", "4294967295")
    assert commit_seconds(root) == 4294967295


def test_version_stands_in_one_file(root: Path) -> None:
    version = version_of(root)
    files = files_of(Release(root, STANDS_IN, 0))
    assert files["docs/mcf.1"][1].decode().startswith(f'.TH MCF 1 "2026" "mcf {version}" "User commands"\n')
    word = re.compile(rb"(?<![\w.])" + re.escape(version.encode()) + rb"(?![\w.])")
    listed = [name for name, (_, data) in files.items() if word.search(data) and not name.startswith("examples/")]
    assert sorted(listed) == ["VERSION", "docs/mcf.1"]
    assert version not in (root / "README.md").read_text() + (root / "docs/mcf.1").read_text()


def test_starter_of_the_release_has_help_and_no_build(root: Path, tmp_path: Path) -> None:
    top = unpacked(archive(Release(root, STANDS_IN, 0))[1], tmp_path)
    assert Program(str(top / "mcf")).ask("--version") == f"mcf {version_of(root)} ({commit_of(root)})\n"
    assert Program(str(top / "mcf")).ask("help", "check").startswith("usage: mcf check")
    assert Program(str(top / "mcf")).run("solve").status == 0


@pytest.mark.parametrize("version", ["", "1", "1.2", "v1.2.3", "1.2.3\n4", "1.2.3/.."])
def test_a_version_of_another_form_is_refused(tmp_path: Path, version: str) -> None:
    (tmp_path / "VERSION").write_text(version)
    with pytest.raises(TextError):
        version_of(tmp_path)


def test_a_program_older_than_a_source_is_not_shipped(tmp_path: Path) -> None:
    with pytest.raises(TextError, match="run ./mcf once"):
        built_program(tmp_path)
    (tmp_path / "crates/mcf/out").mkdir(parents=True)
    (tmp_path / "crates/mcf/src").mkdir()
    source, program = tmp_path / "crates/mcf/src/main.rt", tmp_path / "crates/mcf/out/mcf"
    source.write_text("")
    program.write_text("")
    (tmp_path / "crates/mcf/out/later.rt").write_text("")
    os.utime(source, (100, 100))
    os.utime(program, (100, 100))
    assert built_program(tmp_path) == program
    os.utime(source, (101, 101))
    with pytest.raises(TextError, match="older than its sources"):
        built_program(tmp_path)


def test_kind_of_program() -> None:
    assert is_program(STANDS_IN) == (os.uname().machine == "x86_64")
    assert not is_program(Path(__file__))


def test_an_archive_that_does_not_work_is_not_kept(root: Path, tmp_path: Path) -> None:
    name, data = archive(Release(root, STANDS_IN, 0))
    with pytest.raises(TextError, match=r"mcf check, mcf solve$"):
        try_archive(name, data, version_of(root))
    words = [str(root / "tools/release"), "archive", "--mcf", str(STANDS_IN), "--to", str(tmp_path / "dist")]
    ran = subprocess.run(words, capture_output=True, text=True)
    assert (ran.returncode, ran.stdout) == (2, "") and ran.stderr.count("\n") == 1
    assert not (tmp_path / "dist").exists()


def test_the_c_library_is_read_from_the_program(tmp_path: Path) -> None:
    data = STANDS_IN.read_bytes()
    told = subprocess.run(["readelf", "--wide", "--dynamic", "--version-info", str(STANDS_IN)], capture_output=True, text=True, check=True).stdout
    assert libraries(data) == re.findall(r"\(NEEDED\).*\[(.*)\]", told)
    assert sorted(symbol_versions(data)) == sorted(re.findall(r"Name: (\S+)  Flags", told))
    versions = [tuple(map(int, one)) for one in re.findall(r"Name: GLIBC_(\d+)\.(\d+)", told)]
    assert glibc(STANDS_IN) == max(versions)
    with pytest.raises(TextError, match="is linked with libtinfo"):
        glibc(Path("/bin/bash"))
    (tmp_path / "cut").write_bytes(data[:5000])
    with pytest.raises(TextError, match="damaged|no version"):
        glibc(tmp_path / "cut")


def test_an_unknown_kind_is_refused(root: Path) -> None:
    ran = subprocess.run([str(root / "tools/release"), "rpm"], capture_output=True, text=True, check=False)
    assert (ran.returncode, ran.stdout, ran.stderr.count("\n")) == (2, "", 1) and "archive, wheel, deb" in ran.stderr


def test_what_cannot_be_made_is_said_in_one_line(program: Program, root: Path, tmp_path: Path) -> None:
    words = ["/usr/bin/python3", "-I", "-B", "-c", f"""
import sys
sys.path.insert(0, {str(root / 'python')!r})
sys.modules["hatchling"] = None
from mcf.cli.release import main
sys.argv = ["release", "archive", "wheel", "--mcf", {program.path!r}, "--to", {str(tmp_path)!r}]
main()
"""]
    ran = subprocess.run(words, capture_output=True, text=True, check=False)
    version = version_of(root)
    assert (ran.returncode, ran.stdout) == (1, f"{tmp_path}/mcf-{version}-x86_64-linux.tar.gz\n")
    missing = "tools/release: no wheel: Debian's packages are missing: python3-hatchling; tools/setup --tests installs them\n"
    assert ran.stderr == said_without(root) + missing


@pytest.mark.parametrize("words", [["--mcf", "/no/where"], ["--mcf", "/etc/passwd"]])
def test_errors_are_one_line(root: Path, words: list[str]) -> None:
    ran = subprocess.run([str(root / "tools/release"), *words], capture_output=True, text=True)
    assert ran.returncode == 2 and re.fullmatch(r"tools/release: [^\n]+ is no program for Linux on x86-64\n", ran.stderr)


def require_tools_work(top: Path, room: Path) -> None:
    """That the tools of an archive run with its own program and package, from any folder, and say what they stand on."""
    env = {"PATH": "/usr/bin:/bin"}
    net, cert = str(top / "examples/triangle.net"), str(top / "examples/triangle.cert")
    for tool, words in (("show", [net, cert]), ("report", [net, cert, "--html", "a.html"]), ("survey", [net, cert, "--grow", "1.1"]),
                        ("convert", [net, "a.net"]), ("certify", [net, "--output", "best.cert"]), ("route", [net, "--by", "hops", "--no-best"]),
                        ("check_twice", [net, cert])):
        ran = subprocess.run([str(top / "tools" / tool), *words], cwd=room, env=env, capture_output=True, text=True, check=False)
        assert ran.returncode == 0, (tool, ran.stderr)
    alone = subprocess.run(["/usr/bin/python3", "-I", "-S", "-B", str(top / "tools/show"), net], capture_output=True, text=True, check=False)
    assert alone.returncode == 2 and alone.stderr.endswith("; tools/setup installs them\n")


def test_release_of_the_program_works_where_it_is_unpacked(program: Program, root: Path, tmp_path: Path) -> None:
    to = tmp_path / "dist"
    ran = subprocess.run([str(root / "tools/release"), "archive", "--mcf", program.path, "--to", str(to)], capture_output=True, text=True)
    assert (ran.returncode, ran.stderr) == (0, said_without(root))
    file = Path(ran.stdout.rstrip("\n"))
    assert subprocess.run(["sha256sum", "--quiet", "-c", f"{file.name}.sha256"], cwd=to).returncode == 0
    (tmp_path / "a folder").mkdir()
    subprocess.run(["tar", "xzf", str(file), "-C", str(tmp_path / "a folder")], check=True)
    top, = (tmp_path / "a folder").iterdir()
    starter = Program(str(top / "mcf"))
    certificate = starter.solve(root / "examples/triangle.net", "--workers", "1")
    assert certificate == (root / "examples/triangle.cert").read_text()
    require_tools_work(top, tmp_path)
    (tmp_path / "bin").mkdir()
    (tmp_path / "bin/mcf").symlink_to(top / "mcf")
    env = {**os.environ, "PATH": f"{tmp_path}/bin:{os.environ['PATH']}", "MCF_HINTS": "1"}
    said = subprocess.run(["mcf", "solve", "none.net"], env=env, cwd=tmp_path, capture_output=True, text=True)
    assert (said.returncode, said.stdout) == (4, "read fault\n")
    assert said.stderr == "hint: read fault: `none.net` does not exist (docs/planner/guide.md, part 10)\n"
    shutil.copy(root / "examples/triangle.routing", tmp_path / "r")
    text = (tmp_path / "r").read_text().replace("scale 2 3", "scale 1 1")
    (tmp_path / "r").write_text(text)
    words = ["mcf", "check", str(root / "examples/triangle.net"), "r"]
    said = subprocess.run(words, env=env, cwd=tmp_path, capture_output=True, text=True)
    assert (said.returncode, said.stdout) == (1, "invalid C3\n")
    assert "the greatest scale that fits is 10 15" in said.stderr


@pytest.mark.parametrize(("place", "why"), [("file", "Not a directory"), ("file/dist", "Not a directory"), ("lost", "No such file or directory"),
                                            ("/proc/dist", None)])
def test_a_folder_that_cannot_be_written_is_told_before_the_work(root: Path, tmp_path: Path, place: str, why: str | None) -> None:
    (tmp_path / "file").touch()
    (tmp_path / "lost").symlink_to("nowhere")
    # (a program that is none would be told otherwise)
    done = subprocess.run([root / "tools/release", "--to", tmp_path / place, "--mcf", "/no/where"], capture_output=True, text=True, check=False)
    assert (done.returncode, done.stdout) == (2, "") and done.stderr.startswith(f"tools/release: {tmp_path / place}: {why or ''}"), done.stderr
    assert sorted(file.name for file in tmp_path.iterdir()) == ["file", "lost"]


def test_a_folder_that_is_not_there_yet_is_no_trouble(root: Path, tmp_path: Path) -> None:
    done = subprocess.run([root / "tools/release", "--to", tmp_path / "a/b", "--mcf", "/no/where"], capture_output=True, text=True, check=False)
    assert done.stderr == "tools/release: /no/where is no program for Linux on x86-64\n" and not [*tmp_path.iterdir()]
