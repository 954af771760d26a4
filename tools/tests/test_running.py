"""How the API runs the program: side by side, ended where the caller ends, and errors for whatever stands in its place."""

from __future__ import annotations

import os
import signal
import subprocess
import sys
import time
from collections.abc import Callable
from concurrent.futures import ThreadPoolExecutor
from fractions import Fraction
from pathlib import Path

import pytest

import mcf
from mcf import Network, Program, children
from mcf.running import in_memory, run, run_tool

LONG = """
import sys
sys.path.insert(0, {python!r})
import mcf
network = mcf.read({net!r})
print("ready", flush=True)
try:
    {call}
except KeyboardInterrupt:
    print("interrupted", flush=True)
"""
CALLS = {"solve": "network.solve(gap=0, phases=1000, step=1, workers=1)", "certify": "network.certify(gap=0, seconds=500, progress=False)"}


@pytest.fixture(autouse=True)
def found(monkeypatch: pytest.MonkeyPatch, request: pytest.FixtureRequest) -> None:
    """The program of the tests, where one is built."""
    if "program" in request.fixturenames:
        monkeypatch.setenv("MCF", request.getfixturevalue("program").path)


def until(holds: Callable[[], object], seconds: float = 120.0) -> object:
    """What a call gives once it is true."""
    deadline = time.monotonic() + seconds
    while not (value := holds()):
        assert time.monotonic() < deadline
        time.sleep(0.01)
    return value


def below(parent: int) -> set[int]:
    """The children of a process, and theirs, that are no zombies."""
    rows = {}
    for folder in Path("/proc").glob("[0-9]*"):
        try:
            rows[int(folder.name)] = (folder / "stat").read_text().rpartition(")")[2].split()[:2]
        except OSError:
            continue
    found, fresh = set(), {parent}
    while fresh:
        fresh = {number for number, (state, above) in rows.items() if int(above) in fresh and state not in "ZX"} - found
        found |= fresh
    return found


def runs(number: int, program: Program) -> bool:
    """Whether a process runs the program."""
    try:
        return os.readlink(f"/proc/{number}/exe") == os.path.realpath(program.path)
    except OSError:
        return False


def begun(root: Path, tmp_path: Path, program: Program, call: str) -> tuple[subprocess.Popen[str], set[int]]:
    """A Python that waits for the program, and what runs below it by then."""
    code = LONG.format(python=str(root / "python"), net=str(root / "examples/ta2.net"), call=CALLS[call])
    python = subprocess.Popen([sys.executable, "-B", "-c", code], stdout=subprocess.PIPE, text=True,
                              env={**os.environ, "MCF": program.path, "TMPDIR": str(tmp_path)})
    assert python.stdout is not None and python.stdout.readline() == "ready\n"
    until(lambda: any(runs(number, program) for number in below(python.pid)))
    return python, below(python.pid)


@pytest.mark.parametrize("call", CALLS)
@pytest.mark.parametrize("by", [signal.SIGKILL, signal.SIGINT, signal.SIGTERM])
def test_the_program_ends_with_its_caller_and_nothing_is_left(root: Path, tmp_path: Path, program: Program, call: str, by: signal.Signals) -> None:
    python, children = begun(root, tmp_path, program, call)
    python.send_signal(by)
    out, _ = python.communicate()
    assert out == ("interrupted\n" if by == signal.SIGINT else "")
    until(lambda: not any(Path(f"/proc/{number}").exists() and runs(number, program) for number in children))
    until(lambda: not list(tmp_path.iterdir()))


TOOLS = {"certify": ["ta2.net", "--output", "out"], "route": ["ta2.net", "--by", "hops", "--output", "out"],
         "survey": ["germany50.net", "germany50.cert", "--failures", "--exact", "--jobs", "2"]}


@pytest.mark.parametrize("tool", TOOLS)
def test_programs_and_tools_that_a_tool_started_end_with_it_when_it_is_killed(root: Path, tmp_path: Path, program: Program, tool: str) -> None:
    for name in ("ta2.net", "germany50.net"):
        (tmp_path / name).symlink_to(root / "examples" / name)
    if tool == "survey":
        (tmp_path / "germany50.cert").write_text(program.solve(tmp_path / "germany50.net", "--phases", "1"))
    words = [str(root / "tools" / tool), *TOOLS[tool], "--mcf", program.path]
    running = subprocess.Popen(words, cwd=tmp_path, stdout=subprocess.DEVNULL, stderr=subprocess.DEVNULL)
    # (of survey, the program that a certify runs)
    least = 3 if tool == "survey" else 1
    until(lambda: len(below(running.pid)) >= least and any(runs(number, program) for number in below(running.pid)))
    children = below(running.pid)
    running.kill()
    assert running.wait() == -signal.SIGKILL
    until(lambda: not any(Path(f"/proc/{number}").exists() for number in children))


def test_a_timeout_ends_the_program(root: Path, program: Program, tmp_path: Path, monkeypatch: pytest.MonkeyPatch) -> None:
    monkeypatch.setenv("TMPDIR", str(tmp_path))
    network, before = mcf.read(root / "examples/ta2.net"), below(os.getpid())
    with pytest.raises(mcf.Timeout, match="was not done in 0.05 seconds"):
        network.solve(gap=0, phases=1000, step=1, timeout=0.05)
    with pytest.raises(TimeoutError):
        network.certify(gap=0, timeout=0.05, progress=False)
    until(lambda: below(os.getpid()) <= before)
    assert not list(tmp_path.iterdir())


def test_twenty_solves_at_once(program: Program) -> None:
    def fraction(amount: int) -> tuple[object, object]:
        """What one network carries."""
        certificate = Network.from_rows(network.rows).with_demands({("A", "B"): amount}).solve(gap=0.01)
        return certificate.lower <= Fraction(10, amount) <= certificate.upper, certificate.judged
    network = Network.from_frames({"source": ["A"], "target": ["B"], "capacity": [10]}, {("A", "B"): 1})
    files = len(os.listdir("/proc/self/fd"))
    with ThreadPoolExecutor(20) as pool:
        found = list(pool.map(fraction, range(1, 61)))
    assert all(fits and judged for fits, judged in found) and len(os.listdir("/proc/self/fd")) <= files


def test_an_interrupt_of_a_thread_pool_leaves_nothing(root: Path, tmp_path: Path, program: Program) -> None:
    code = (f"import sys; sys.path.insert(0, {str(root / 'python')!r}); import mcf\nfrom concurrent.futures import ThreadPoolExecutor\n"
            f"network = mcf.read({str(root / 'examples/ta2.net')!r})\nprint('ready', flush=True)\n"
            f"list(ThreadPoolExecutor(4).map(lambda at: {CALLS['solve']}, range(4)))\n")
    python = subprocess.Popen([sys.executable, "-B", "-c", code], stdout=subprocess.PIPE, env={**os.environ, "TMPDIR": str(tmp_path)})
    until(lambda: sum(runs(number, program) for number in below(python.pid)) == 4)
    children = below(python.pid)
    python.kill()
    python.communicate()
    until(lambda: not any(runs(number, program) for number in children))
    assert not list(tmp_path.iterdir())


# -- what stands in the program's place


def script(tmp_path: Path, text: str, mode: int = 0o755) -> str:
    """A program of a test."""
    file = tmp_path / "program"
    file.write_text(text)
    file.chmod(mode)
    return str(file)


@pytest.mark.parametrize("path, said", [
    ("/nonexistent/mcf", "no such program"), ("/", "no such program"), ("/etc/passwd", "no program that may be run"),
    ("/bin/true", "another program"), ("/bin/false", "another program"), ("/bin/cat", "another program"), ("/usr/bin/yes", "another program"),
    ("/bin/echo", "another program"), (sys.executable, "another program")])
def test_another_program_is_none(monkeypatch: pytest.MonkeyPatch, path: str, said: str) -> None:
    monkeypatch.setenv("MCF", path)
    network = Network.from_frames({"source": ["A"], "target": ["B"], "capacity": [10]}, {("A", "B"): 1})
    for ask in (network.solve, network.certify, network.route):
        with pytest.raises(mcf.NoProgram, match=said):
            ask()


@pytest.mark.parametrize("answer, error, said", [
    ("echo usage; exit 2", mcf.Usage, "the words are not in the grammar"), ("echo read fault; exit 4", mcf.ReadFault, "could not be read"),
    ("exit 5", mcf.WriteFault, "could not be written"), ("echo memory; exit 6", mcf.NoMemory, "out of memory"),
    ("echo refused net N5 line 3; exit 3", mcf.Refused, "an id stands twice"), ("kill -9 $$", mcf.McfError, "was ended by SIGKILL"),
    ("echo mcf-certificate 2", mcf.TextError, "line 2"), ("echo hello", mcf.NoProgram, "another program"), ("exit 0", mcf.NoProgram, "another program"),
    ("exit 9", mcf.NoProgram, "status 9"), ("echo mcf-certificate 2; exit 3", mcf.NoProgram, "another program"), ("sleep 100", mcf.Timeout, "not done")])
def test_each_end_is_an_error_of_its_own(tmp_path: Path, monkeypatch: pytest.MonkeyPatch, answer: str, error: type[Exception], said: str) -> None:
    monkeypatch.setenv("MCF", script(tmp_path, f"#!/bin/sh\n[ $# = 0 ] && echo usage && exit 2\n{answer}\n"))
    network = Network.from_frames({"source": ["A"], "target": ["B"], "capacity": [10]}, {("A", "B"): 1})
    with pytest.raises(error, match=said) as caught:
        network.solve(timeout=20 if answer != "sleep 100" else 0.5)
    assert "\n" not in str(caught.value)


@pytest.mark.parametrize("number", [9, 11, 34])
def test_a_program_that_is_killed_is_no_other_program(tmp_path: Path, monkeypatch: pytest.MonkeyPatch, root: Path, number: int) -> None:
    (tmp_path / "mcf").write_text(f"#!/bin/sh\nkill -{number} $$\n")
    (tmp_path / "mcf").chmod(0o755)
    monkeypatch.setenv("MCF", str(tmp_path / "mcf"))
    with pytest.raises(mcf.McfError, match=f"{tmp_path}/mcf was ended by (SIGKILL|SIGSEGV|SIGRTMIN|signal 34)$") as told:
        mcf.read(root / "examples/triangle.net")
    assert not isinstance(told.value, mcf.NoProgram)


@pytest.mark.parametrize("timeout", [-1, "1", float("nan"), True, [1], 1j])
def test_a_timeout_is_a_number_of_seconds(program: Program, root: Path, timeout: object) -> None:
    with pytest.raises(ValueError, match="timeout is a number of seconds from 0 on, or None, and not "):
        mcf.read(root / "examples/triangle.net").solve(timeout=timeout)  # type: ignore[arg-type]


@pytest.mark.parametrize("timeout", [float("inf"), 1e20, pytest.param(10**400, id="long"), Fraction(200, 1), None])
def test_a_timeout_may_be_long(program: Program, root: Path, timeout: float | None) -> None:
    assert mcf.read(root / "examples/triangle.net").solve(timeout=timeout).judged


def test_a_certificate_that_is_not_valid_is_not_handed_out(tmp_path: Path, monkeypatch: pytest.MonkeyPatch, root: Path, program: Program) -> None:
    (tmp_path / "wrong").write_text((root / "examples/triangle.cert").read_text().replace("scale 10 ", "scale 11 "))
    monkeypatch.setenv("MCF", script(tmp_path, f"#!/bin/sh\n[ \"$1\" = solve ] && exec cat {tmp_path}/wrong\nexec {program.path} \"$@\"\n"))
    with pytest.raises(mcf.Invalid, match="invalid C3"):
        mcf.solve(root / "examples/triangle.net")


# -- the way itself


def test_texts_in_memory_are_read_by_their_descriptors() -> None:
    with in_memory([b"one", b"", b"x" * 300_000]) as files:
        sizes = [len(run(["/bin/cat", f"/proc/self/fd/{number}"], files).out) for number in files]
    assert sizes == [3, 0, 300_000]
    assert run(["/bin/sh", "-c", "ls /proc/self/fd | wc -l"]).line == "4"


def test_what_no_system_runs_is_told_and_not_taken_for_a_script(tmp_path: Path) -> None:
    marked = tmp_path / "marked"
    (tmp_path / "text").write_text(f"touch {marked}\n")
    with pytest.raises(mcf.NoProgram, match="Permission denied"):
        run([str(tmp_path / "text")])
    (tmp_path / "text").chmod(0o755)
    with pytest.raises(mcf.NoProgram, match="Exec format error"):
        run([str(tmp_path / "text")])
    with pytest.raises(mcf.TextError, match="Exec format error"):
        Program(str(tmp_path / "text")).run("print")
    assert not marked.exists()


def test_an_interrupt_while_a_child_is_started_ends_it(monkeypatch: pytest.MonkeyPatch) -> None:
    real, started = subprocess.Popen, []

    def interrupted(*words: object, **options: object) -> object:
        """Starts a child, and is interrupted before it hands the child out."""
        started.append(real(*words, **options))  # type: ignore[call-overload]
        os.kill(os.getpid(), signal.SIGINT)
        return started[0]
    monkeypatch.setattr("mcf.children.subprocess.Popen", interrupted)
    before = signal.getsignal(signal.SIGINT)
    with pytest.raises(KeyboardInterrupt):
        run(["/bin/sleep", "100"])
    assert started[0].returncode == -signal.SIGKILL and signal.getsignal(signal.SIGINT) is before


def test_who_is_ended_gently_may_tidy_up(tmp_path: Path) -> None:
    tidy = f"trap 'echo tidy > {tmp_path}/end; exit 3' TERM; touch {tmp_path}/began; while :; do sleep 0.05; done"
    with pytest.raises(mcf.Timeout):
        run(["/bin/sh", "-c", tidy], timeout=2, gently=True)
    assert (tmp_path / "began").exists() and (tmp_path / "end").read_text() == "tidy\n"


def test_what_ended_is_told() -> None:
    assert run(["/bin/sh", "-c", "echo a; echo b; echo c >&2; exit 3"]) == type(run(["/bin/true"]))(3, b"a\nb\n", b"c\n")
    assert run(["/bin/sh", "-c", "kill -15 $$"]).status == -15
    with pytest.raises(mcf.Timeout):
        run(["/bin/sh", "-c", "sleep 100 & sleep 100"], timeout=0.2)


@pytest.mark.parametrize("seconds", [3e6, 1e300])
def test_what_is_waited_for_may_take_longer_than_the_system_counts(seconds: float) -> None:
    assert run(["/bin/true"], timeout=seconds).status == 0
    assert children.run(["/bin/true"], seconds).status == 0


def test_where_there_is_no_setpriv_a_program_runs_all_the_same(monkeypatch: pytest.MonkeyPatch) -> None:
    monkeypatch.setattr("mcf.children._setpriv", lambda: None)
    assert run(["/bin/echo", "yes"]).line == "yes"
    with pytest.raises(mcf.NoProgram, match="No such file"):
        run(["/nonexistent"])


def test_a_tool_runs_in_a_python_of_its_own(program: Program, root: Path, tmp_path: Path, monkeypatch: pytest.MonkeyPatch) -> None:
    monkeypatch.chdir(tmp_path)
    (tmp_path / "numpy.py").write_text("raise SystemExit('the wrong numpy')")
    ended, _ = run_tool("certify", ["{0}", "--mcf", program.path], [(root / "examples/triangle.net").read_bytes()], None)
    assert ended.status == 0 and ended.line == "mcf-certificate 2" and [file.name for file in tmp_path.iterdir()] == ["numpy.py"]
