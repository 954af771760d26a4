"""The starter of the repository: when it builds, what it tells meanwhile, and the copy that the gate does not move."""

from __future__ import annotations

import os
import pty
import shutil
import subprocess
import sys
import threading
import time
from pathlib import Path

import pytest

from mcf.build.copying import copy_below, copy_wide
from mcf.build.crates import Crate, crates_below
from mcf.build.progress import Progress

FAKE = """#!/bin/sh
echo "$*: $(echo $(cat crates.txt | tr -d '\\n')), $(echo $(ls crates))" >>"$RT_CALLS"
pwd -P >/dev/null
[ -n "$RT_FAILS" ] && { echo "rt: the library low did not build" >&2; echo "1 passed, 1 failed"; exit 1; }
echo "== mcf_limits"
echo "rt: chose --jobs 2 for mcf_limits" >&2
echo "fn mcf_limits::limits: proved"
echo "rt: mcf_limits proved"
echo "== mcf"
echo "rt: mcf proved"
mkdir -p crates/mcf/out
printf '#!/bin/sh\\necho built "$@"\\n' >crates/mcf/out/mcf
chmod +x crates/mcf/out/mcf
echo "2 passed, 0 failed"
"""


@pytest.fixture
def clone(tmp_path: Path, root: Path, monkeypatch: pytest.MonkeyPatch) -> Path:
    """A repository of two small crates with the starter, and an rt on the path that makes a program of one line."""
    top = tmp_path / "clone"
    shutil.copytree(root / "python", top / "python", ignore=shutil.ignore_patterns("__pycache__"))
    for name in ("mcf", "mcf-wide"):
        shutil.copy(root / name, top / name)
    shutil.copy(root / "VERSION", top / "VERSION")
    (top / "crates.txt").write_text("# two, and one that no program needs\nmcf_limits:\nmcf: mcf_limits clap\ncases: mcf_limits\n")
    for name in ("mcf_limits", "wide_limits", "mcf", "cases"):
        (top / f"crates/{name}/src").mkdir(parents=True)
        (top / f"crates/{name}/src/lib.rt").write_text("fn main() {}\n")
    (tmp_path / "bin").mkdir()
    (tmp_path / "bin/rt").write_text(FAKE)
    (tmp_path / "bin/rt").chmod(0o755)
    monkeypatch.setenv("PATH", f"{tmp_path}/bin:/usr/bin:/bin")
    monkeypatch.setenv("RT_CALLS", str(tmp_path / "calls"))
    monkeypatch.delenv("MCF_HINTS", raising=False)
    for name in ("TMPDIR", "RT_FAILS"):
        monkeypatch.delenv(name, raising=False)
    (tmp_path / "tmp").mkdir()
    monkeypatch.setenv("TMPDIR", str(tmp_path / "tmp"))
    return top


def run(clone: Path, *words: str) -> tuple[int, str, str]:
    """Status, output and standard error of the starter."""
    ran = subprocess.run([str(clone / "mcf"), *words], capture_output=True, text=True, cwd=clone.parent)
    return ran.returncode, ran.stdout, ran.stderr


def calls(clone: Path) -> list[str]:
    """The calls of rt so far."""
    file = clone.parent / "calls"
    return file.read_text().splitlines() if file.exists() else []


def set_time(file: Path, seconds: float) -> None:
    """Gives a file a time, in seconds from now."""
    new = time.time() + seconds
    os.utime(file, (new, new))


def test_first_run_builds_and_says_so(clone: Path) -> None:
    status, out, err = run(clone, "solve", "x")
    assert (status, out) == (0, "built solve x\n")
    lines = err.splitlines()
    assert lines[0].startswith("mcf: building the program; every crate is proved first")
    assert lines[1].startswith("mcf: 1 of 2 crates are proved; ")
    assert lines[2].startswith("mcf: 2 of 2 crates are proved; ")
    assert len(lines) == 3
    assert calls(clone) == ["ci: mcf_limits:mcf: mcf_limits clap, mcf mcf_limits"]
    assert list((clone.parent / "tmp").iterdir()) == []


def test_later_runs_start_at_once(clone: Path) -> None:
    run(clone)
    assert run(clone, "a", "b c") == (0, "built a b c\n", "")
    assert len(calls(clone)) == 1


def test_help_and_version_build_nothing(clone: Path) -> None:
    assert run(clone, "--help")[0] == 0
    assert run(clone, "--version")[1].startswith("mcf ")
    assert calls(clone) == []


def test_a_newer_source_builds_again(clone: Path) -> None:
    run(clone)
    set_time(clone / "crates/mcf_limits/src/lib.rt", 10)
    status, _, err = run(clone)
    assert status == 0 and "building the program" in err and len(calls(clone)) == 2


def test_files_below_out_are_no_sources(clone: Path) -> None:
    run(clone)
    (clone / "crates/mcf/out/made.rt").write_text("")
    set_time(clone / "crates/mcf/out/made.rt", 10)
    assert run(clone) == (0, "built\n", "")


def test_the_copy_serves_while_the_gate_has_the_program(clone: Path) -> None:
    run(clone)
    (clone / "crates/mcf/out").rename(clone / "crates/mcf/aside")
    assert run(clone, "x") == (0, "built x\n", "")
    assert len(calls(clone)) == 1
    assert (clone / ".built/mcf").exists()


def test_a_copy_that_is_older_than_a_source_is_not_used(clone: Path) -> None:
    run(clone)
    (clone / ".built/mcf").write_text("#!/bin/sh\necho old\n")
    set_time(clone / ".built/mcf", -1000)
    assert run(clone) == (0, "built\n", "")
    assert (clone / ".built/mcf").read_text() == (clone / "crates/mcf/out/mcf").read_text()


def test_what_was_built_elsewhere_is_copied(clone: Path) -> None:
    (clone / "crates/mcf/out").mkdir()
    shutil.copy(clone.parent / "bin/rt", clone / "crates/mcf/out/mcf")
    (clone / "crates/mcf/out/mcf").write_text("#!/bin/sh\necho by the gate\n")
    assert run(clone) == (0, "by the gate\n", "")
    assert (clone / ".built/mcf").stat().st_mtime_ns == (clone / "crates/mcf/out/mcf").stat().st_mtime_ns
    assert calls(clone) == []


def test_where_no_copy_can_be_made_the_program_itself_runs(clone: Path) -> None:
    (clone / ".built").write_text("in the way")
    assert run(clone, "x")[:2] == (0, "built x\n")
    assert run(clone, "y") == (0, "built y\n", "")


def test_a_build_that_fails_leaves_no_older_program(clone: Path, monkeypatch: pytest.MonkeyPatch) -> None:
    run(clone)
    set_time(clone / "crates/mcf/src/lib.rt", 10)
    monkeypatch.setenv("RT_FAILS", "1")
    for _ in range(2):
        status, out, err = run(clone, "x")
        assert (status, out) == (7, "")
        assert "rt: the library low did not build" in err and err.endswith("mcf: the program was not built\n")
    assert list((clone.parent / "tmp").iterdir()) == []


def as_nobody(clone: Path, *words: str) -> tuple[int, str, str]:
    """A run of a user who may read the clone alone."""
    front = ["setpriv", "--reuid=65534", "--regid=65534", "--clear-groups"] if os.geteuid() == 0 else []
    for folder in (clone, *clone.parents):
        if folder.is_relative_to("/tmp/") or folder.name.startswith("pytest"):
            folder.chmod(folder.stat().st_mode | 0o055)
    ran = subprocess.run([*front, str(clone / "mcf"), *words], capture_output=True, text=True, cwd="/")
    return ran.returncode, ran.stdout, ran.stderr


def test_no_proof_is_begun_for_a_user_who_cannot_keep_it(clone: Path, monkeypatch: pytest.MonkeyPatch) -> None:
    run(clone)
    assert as_nobody(clone, "x") == (0, "built x\n", "")
    set_time(clone / "crates/mcf/src/lib.rt", 10)
    folder = clone / "crates/mcf/out"
    folder.chmod(0o555)
    status, out, err = as_nobody(clone, "x")
    assert (status, out) == (7, "") and err == f"mcf: the program is older than its sources, and this user cannot put another one into {folder}\n"
    shutil.rmtree(clone / ".built")
    folder.chmod(0o755)
    shutil.rmtree(folder)
    folder.parent.chmod(0o555)
    assert as_nobody(clone, "x") == (7, "", f"mcf: the program was not built yet, and this user cannot put another one into {folder}\n")
    folder.parent.chmod(0o755)
    assert len(calls(clone)) == 1


def test_no_proof_is_begun_where_a_folder_is_in_the_way(clone: Path) -> None:
    (clone / "crates/mcf/out/mcf").mkdir(parents=True)
    set_time(clone / "crates/mcf/src/lib.rt", 10)
    status, out, err = run(clone, "x")
    assert (status, out) == (7, "") and err.count("\n") == 1 and "cannot put another one into" in err and calls(clone) == []


def test_a_tool_never_builds(clone: Path, monkeypatch: pytest.MonkeyPatch) -> None:
    words = [sys.executable, "-c", f"import sys; sys.path.insert(0, {str(clone / 'python')!r})\n"
             "from mcf import TextError, find_program\ntry:\n    print(find_program().run('x').text or find_program().run('x'))\n"
             "except TextError as why:\n    print(why)\n"]
    monkeypatch.delenv("MCF", raising=False)
    done = lambda: subprocess.run(words, capture_output=True, text=True).stdout  # noqa: E731
    assert done().startswith(f"the program in {clone} was not built yet: ./mcf there builds it, which takes from 20 minutes to an hour")
    assert calls(clone) == []
    monkeypatch.setenv("MCF", str(clone / "mcf"))
    assert done() == "Answer(status=7, text='')\n" and calls(clone) == []
    monkeypatch.delenv("MCF")
    run(clone)
    assert done() == "built x\n\n"
    (clone / "crates/mcf/out").rename(clone / "crates/mcf/aside")
    assert done() == "built x\n\n"
    set_time(clone / "crates/mcf/src/lib.rt", 10)
    assert done().startswith(f"the program in {clone} is older than its sources: ") and len(calls(clone)) == 1


def test_without_the_toolchain_one_line_says_so(clone: Path, monkeypatch: pytest.MonkeyPatch) -> None:
    monkeypatch.setenv("PATH", "/usr/bin:/bin")
    status, out, err = run(clone)
    assert (status, out) == (7, "") and err.count("\n") == 1 and "rt is not on the path" in err


def test_the_wide_program_is_built_of_the_same_crates_beside_the_other(clone: Path) -> None:
    run(clone, "solve", "x")
    wide = subprocess.run([str(clone / "mcf-wide"), "solve", "y"], capture_output=True, text=True, cwd=clone.parent)
    assert (wide.returncode, wide.stdout) == (0, "built solve y\n")
    assert wide.stderr.startswith("mcf-wide: building the program; ")
    assert calls(clone) == ["ci: mcf_limits:mcf: mcf_limits clap, mcf mcf_limits"] * 2
    again = [subprocess.run([str(clone / name), "z"], capture_output=True, text=True) for name in ("mcf", "mcf-wide")]
    assert [(one.returncode, one.stdout, one.stderr) for one in again] == [(0, "built z\n", "")] * 2
    assert len(calls(clone)) == 2
    version = subprocess.run([str(clone / "mcf-wide"), "--version"], capture_output=True, text=True)
    assert version.stdout == f"mcf-wide {(clone / 'VERSION').read_text().strip()} (unknown)\n"


def test_a_link_to_the_starter_serves(clone: Path) -> None:
    (clone.parent / "link").symlink_to(clone / "mcf")
    ran = subprocess.run([str(clone.parent / "link"), "x"], capture_output=True, text=True)
    assert (ran.returncode, ran.stdout) == (0, "built x\n")


def test_progress_that_fails_does_not_stop_the_build(clone: Path) -> None:
    (clone / "python/mcf/build/progress.py").write_text("def Progress(*words):\n    raise SystemExit(1)\n")
    status, out, err = run(clone, "x")
    assert (status, out, err.count("\n")) == (0, "built x\n", 1)


def test_on_a_terminal_one_line_is_rewritten(clone: Path) -> None:
    master, terminal = pty.openpty()
    ran = subprocess.Popen([str(clone / "mcf"), "x"], stdout=subprocess.PIPE, stderr=terminal)
    os.close(terminal)
    parts: list[bytes] = []

    def collect() -> None:
        try:
            while part := os.read(master, 4096):
                parts.append(part)
        except OSError:
            pass
    reader = threading.Thread(target=collect)
    reader.start()
    assert ran.communicate()[0] == b"built x\n"
    reader.join()
    os.close(master)
    said = b"".join(parts)
    assert said.count(b"\n") == 1 and b"\r\x1b[Kmcf: 2 of 2 crates are proved; " in said and said.endswith(b"\r\x1b[K")


# -- how far the build is

THREE = [Crate("low", 100), Crate("mid", 300), Crate("top", 600)]


def test_crates_below_stand_behind_what_they_use(root: Path) -> None:
    crates = crates_below(str(root), "mcf")
    names = [crate.name for crate in crates]
    assert len(names) == len(set(names)) > 30 and names[-1] == "mcf" and names[0] == "mcf_base"
    lines = [line.split(":") for line in (root / "crates.txt").read_text().splitlines() if ":" in line]
    uses = {left.split()[0]: right.split() for left, right in lines}
    for place, name in enumerate(names):
        assert set(uses[name]) & set(uses) <= set(names[:place])
    assert all(crate.lines > 10 for crate in crates)


def test_how_long_a_build_takes() -> None:
    progress = Progress(THREE, 0.0)
    assert progress.text(0.0) == "mcf: 0 of 3 crates are proved; about 22 minutes left"
    assert not progress.see("fn low::x: proved", 10.0)
    assert not progress.see("rt: chose --jobs 2 for low", 10.0)
    assert progress.text(60.0) == "mcf: 0 of 3 crates are proved; about 21 minutes left"
    assert progress.see("rt: low proved", 132.0)
    assert progress.text(132.0) == "mcf: 1 of 3 crates are proved; about 20 minutes left"
    assert progress.see("rt: mid proved", 528.0)
    assert progress.text(528.0) == "mcf: 2 of 3 crates are proved; about 13 minutes left"
    assert progress.text(9999.0) == "mcf: 2 of 3 crates are proved; less than a minute left"


def test_a_slow_machine_is_noticed() -> None:
    progress = Progress(THREE, 0.0)
    progress.see("rt: low proved", 700.0)
    # 100 lines took 700 seconds, and 100 more count as usual, at 1.32 seconds each
    assert progress.left(700.0) == pytest.approx((700 + 132) / 200 * 900)


def test_lines_of_crates_side_by_side() -> None:
    progress = Progress(THREE, 0.0)
    assert progress.see("rt: mid proved", 396.0)
    assert not progress.see("rt: mid proved", 451.0)
    assert progress.see("rt: low proved", 528.0)
    assert progress.text(528.0) == "mcf: 2 of 3 crates are proved; about 13 minutes left"
    assert progress.see("rt: top is kept: an earlier run on this machine proved the same files", 610.0)
    assert progress.text(610.0) == "mcf: 3 of 3 crates are proved; less than a minute left"
    assert not progress.see("rt: stranger proved", 620.0)
    assert not progress.see("rt: low: its tests are proved", 620.0)


# -- the copy that is built in


def test_the_copy_has_what_the_program_is_built_of(root: Path, tmp_path: Path) -> None:
    copy_below(str(root), "mcf", str(tmp_path / "room"))
    below = {crate.name for crate in crates_below(str(root), "mcf")}
    lines = (root / "crates.txt").read_text().splitlines()
    assert (tmp_path / "room/crates.txt").read_text().splitlines() == [line for line in lines if line.split(":")[0].split(" ")[0] in below]
    assert {path.name for path in (tmp_path / "room/crates").iterdir()} == below
    assert (tmp_path / "room/HANDLES").read_text() == (root / "HANDLES").read_text()
    made = {str(path.relative_to(tmp_path / "room")) for path in (tmp_path / "room/crates").rglob("*") if path.is_file()}
    there = {
        str(path.relative_to(root))
        for name in below
        for path in (root / "crates" / name).rglob("*")
        if path.is_file() and not {"out", "must-fail", "wrong-bodies"} & set(path.relative_to(root).parts)
    }
    assert made == there


def test_the_copy_of_the_wide_program_has_other_limits_alone(root: Path, tmp_path: Path) -> None:
    copy_below(str(root), "mcf", str(tmp_path / "room"))
    copy_wide(str(root), "mcf", str(tmp_path / "wide"))
    names = {str(path.relative_to(tmp_path / "room")) for path in (tmp_path / "room").rglob("*") if path.is_file()}
    assert names == {str(path.relative_to(tmp_path / "wide")) for path in (tmp_path / "wide").rglob("*") if path.is_file()}
    other = {name for name in names if (tmp_path / "room" / name).read_bytes() != (tmp_path / "wide" / name).read_bytes()}
    assert other == {"crates/mcf_limits/src/lib.rt", "crates/mcf_limits/src/laws.rt"}
    assert "pub const MAX_NODES: u16 = 1000;" in (tmp_path / "wide/crates/mcf_limits/src/lib.rt").read_text()
    assert "wide_limits" not in (tmp_path / "wide/crates/mcf_limits/src/laws.rt").read_text()
