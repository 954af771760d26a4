"""`tools/study` on several processes: the same answers as alone, whatever is killed, and no port that is open to others."""

from __future__ import annotations

import random
import signal
import sqlite3
import subprocess
import sys
import time
from pathlib import Path
from types import SimpleNamespace

import pytest

from clusters import Cluster, below, cluster, command_of, kill, listening, workers_of
from mcf import Program
from mcf.studies import engine
from studied import EXAMPLES, STUDY, net_file, ran, rows, table, timeless

pytest.importorskip("distributed")

POLSKA = EXAMPLES / "polska.net"
SMALL = ("--failures", "links,nodes", "--gap", "0.2")
LONG = ("--failures", "pairs,nodes", "--gap", "0.1", "--without-cut")
SEED = 20261201


@pytest.fixture(scope="module")
def alone(program: Program, tmp_path_factory: pytest.TempPathFactory) -> list[dict[str, str]]:
    """The long study in one process."""
    return timeless(rows(tmp_path_factory.mktemp("alone"), POLSKA, *LONG, program=program))


def count(room: Path) -> int:
    """How many rows a store has, also while it is made."""
    try:
        with sqlite3.connect(room / "study.db") as base:
            return int(base.execute("SELECT count(*) FROM rows").fetchone()[0])
    except sqlite3.OperationalError:
        return 0


def started(room: Path, program: Program, *words: str) -> subprocess.Popen[str]:
    """A run of the long study, which goes on beside the test."""
    command = [str(word) for word in (STUDY, POLSKA, *LONG, *words, "--mcf", program.path)]
    return subprocess.Popen(command, cwd=room, stdout=subprocess.PIPE, stderr=subprocess.PIPE, text=True)


def until(room: Path, least: int, child: subprocess.Popen[str]) -> None:
    """Waits until a store has so many rows."""
    while count(room) < least:
        assert child.poll() is None, child.communicate()
        time.sleep(0.02)


def require_once(room: Path, found: list[dict[str, str]], alone: list[dict[str, str]]) -> None:
    """That a table is that of one process, and that each row is there once."""
    assert timeless(found) == alone and count(room) == len({row["key"] for row in alone})


def test_local_workers_and_separate_ones_give_the_same_table(tmp_path: Path, program: Program, alone: list[dict[str, str]]) -> None:
    (tmp_path / "local").mkdir()
    require_once(tmp_path / "local", rows(tmp_path / "local", POLSKA, *LONG, program=program, jobs=4), alone)
    with cluster(tmp_path, program, 2) as made:
        require_once(tmp_path, rows(tmp_path, POLSKA, *LONG, "--scheduler", made.address, program=program, jobs=None), alone)


def test_a_cluster_of_this_machine_is_open_to_nobody_else(tmp_path: Path, program: Program) -> None:
    child = started(tmp_path, program, "--jobs", "2")
    until(tmp_path, 1, child)
    found = listening([child.pid, *below(child.pid)])
    child.send_signal(signal.SIGINT)
    _, why = child.communicate()
    assert found == {"127.0.0.1"} and (child.returncode, why) == (130, "study: interrupted\n")
    assert not [pid for pid in below(child.pid)]


def test_workers_that_are_killed_at_ten_moments_change_nothing(tmp_path: Path, program: Program, alone: list[dict[str, str]]) -> None:
    draw, child = random.Random(SEED), started(tmp_path, program, "--jobs", "4", "--csv", "t.csv")
    until(tmp_path, 1, child)
    for _ in range(10):
        time.sleep(draw.uniform(0.05, 0.5))
        there = workers_of(child.pid)
        if there:
            kill(draw.choice(there))
    out, why = child.communicate()
    assert child.returncode == 1 and why == "", out + why
    require_once(tmp_path, table((tmp_path / "t.csv").read_text()), alone)


def test_workers_that_are_killed_while_they_start_change_nothing(tmp_path: Path, program: Program) -> None:
    """Dask's nanny of one that dies before it was ready ends, and starts no other one."""
    command = [STUDY, POLSKA, *SMALL, "--jobs", "2", "--csv", "t.csv", "--mcf", program.path]
    child = subprocess.Popen([str(word) for word in command], cwd=tmp_path, stdout=subprocess.PIPE, stderr=subprocess.PIPE, text=True)
    killed: set[int] = set()
    end = time.monotonic() + 120
    while len(killed) < 6 and time.monotonic() < end and child.poll() is None:
        for pid in {pid for pid in below(child.pid) if "multiprocessing.spawn" in command_of(pid)} - killed:
            kill(pid)
            killed.add(pid)
        time.sleep(0.01)
    out, why = child.communicate()
    assert child.returncode == 1 and why == "" and len(killed) >= 2, (child.returncode, out, why, killed)
    assert count(tmp_path) == 30 == len(table((tmp_path / "t.csv").read_text()))


def test_a_worker_that_is_away_for_long_gives_way_to_another_one(monkeypatch: pytest.MonkeyPatch) -> None:
    clock, replaced = [100.0], []  # type: tuple[list[float], list[list[object]]]
    monkeypatch.setattr(engine.time, "monotonic", lambda: clock[0])
    there = {"a": {"name": 0}}
    fake = SimpleNamespace(worker_spec={0: {}, 1: {}}, scheduler_info={"workers": there}, sync=lambda _, lost: replaced.append(lost))
    staff = engine.Staff(fake, 2, patience=30.0)
    for moment, others, said in ((100, (), []), (120, (), []), (125, (1,), []), (126, (), []), (130, (), []), (155, (), []), (162, (), [[1]]), (180, (), [[1]]),
                                 (215, (), [[1]]), (250, (), [[1], [1]])):
        clock[0] = float(moment)
        there.update({str(name): {"name": name} for name in others})
        staff.mend()
        for name in others:
            del there[str(name)]
        assert replaced == said, moment


def test_rules_on_several_processes_say_nothing_but_what_was_found(tmp_path: Path, program: Program) -> None:
    out, why = ran(tmp_path, net_file(tmp_path), "--failures", "links", "--routing", "ecmp,hops", program=program, status=1, jobs=2)
    assert out.count("\n") == 2 and why == ""


def test_a_client_that_is_killed_goes_on_where_it_was(tmp_path: Path, program: Program, alone: list[dict[str, str]]) -> None:
    child = started(tmp_path, program, "--jobs", "2")
    until(tmp_path, 5, child)
    others = below(child.pid)
    child.kill()
    child.communicate()
    done = count(tmp_path)
    assert 5 <= done < len(alone)
    for _ in range(600):
        others = [pid for pid in others if Path(f"/proc/{pid}").exists() and Path(f"/proc/{pid}/stat").read_text().rpartition(")")[2].split()[0] != "Z"]
        if not others:
            break
        time.sleep(0.05)
    assert not others
    require_once(tmp_path, rows(tmp_path, POLSKA, *LONG, program=program), alone)


def test_a_scheduler_that_is_killed_is_one_line(tmp_path: Path, program: Program, alone: list[dict[str, str]]) -> None:
    with cluster(tmp_path, program, 2) as made:
        child = started(tmp_path, program, "--scheduler", made.address)
        until(tmp_path, 5, child)
        made.scheduler.kill()
        out, why = child.communicate()
        *lines, last = why.splitlines()
        assert (child.returncode, out) == (2, "") and last == f"study: the scheduler at {made.address} is gone; what was done stands in study.db"
        assert set(lines) <= {f"study: no workers yet at {made.address}: waiting for one"}
    assert 5 <= count(tmp_path) < len(alone)
    require_once(tmp_path, rows(tmp_path, POLSKA, *LONG, program=program, jobs=2), alone)


def test_a_worker_that_comes_late_or_goes_is_no_trouble(tmp_path: Path, program: Program) -> None:
    made = Cluster(tmp_path, program)
    try:
        command = [STUDY, net_file(tmp_path), "--failures", "links", "--scheduler", made.address, "--mcf", program.path]
        child = subprocess.Popen(command, cwd=tmp_path, stdout=subprocess.PIPE, stderr=subprocess.PIPE, text=True)
        assert child.stderr is not None and child.stderr.readline() == f"study: no workers yet at {made.address}: waiting for one\n"
        made.worker()
        out, _ = child.communicate()
        assert child.returncode == 1 and out.startswith("Not all demands fit in 2 of 3 scenarios.")
    finally:
        made.end()


def test_a_worker_without_the_program_is_one_line(tmp_path: Path, program: Program) -> None:
    with cluster(tmp_path, Program("/nowhere/mcf"), 1) as made:
        command = [STUDY, net_file(tmp_path), "--scheduler", made.address]
        done = subprocess.run(command, cwd=tmp_path, capture_output=True, text=True, check=False, env={"MCF": program.path, "PATH": "/usr/bin:/bin"})
        assert done.returncode == 2 and "/nowhere/mcf: no such program" in done.stderr.splitlines()[-1]


def test_a_scheduler_that_is_not_there_is_one_line(tmp_path: Path, program: Program) -> None:
    _, why = ran(tmp_path, net_file(tmp_path), "--scheduler", "tcp://127.0.0.1:1", program=program, status=2, jobs=None)
    assert why.startswith("study: there is no scheduler at tcp://127.0.0.1:1") and why.count("\n") == 1


def test_a_script_that_studies_is_not_run_again_by_its_workers(tmp_path: Path, program: Program) -> None:
    """Processes that Python spawns run the script anew where it has no guard."""
    script = tmp_path / "script.py"
    script.write_text(f"import sys\nsys.path.insert(0, {str(EXAMPLES.parent / 'python')!r})\nimport mcf\nprint('begun')\n"
                      f"print(len(mcf.study({str(net_file(tmp_path))!r}, failures='links', jobs=2, progress=False)))\n")
    done = subprocess.run([sys.executable, script], capture_output=True, text=True, check=False, env={"MCF": program.path, "PATH": "/usr/bin:/bin"})
    assert (done.stdout, done.stderr) == ("begun\n3\n", "")
