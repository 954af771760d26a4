"""The starter: help and version, and runs whose output, status, signals and files stay those of the program."""

from __future__ import annotations

import os
import pty
import signal
import subprocess
import sys
import time
from pathlib import Path

import pytest

from mcf import Program
from mcf.version import commit_of

RUN = '#!/bin/sh\nhere={root}\n. "$here/python/mcf/hints/starter.sh"\nanswer_help "$@"\nprogram={program}\nrun_program "$@"\n'
HINTS = {"0": {"MCF_HINTS": "0"}, "1": {"MCF_HINTS": "1"}}


def script(folder: Path, name: str, text: str) -> Path:
    """A program of a few lines."""
    file = folder / name
    file.write_text(text)
    file.chmod(0o755)
    return file


@pytest.fixture
def starter(tmp_path: Path, root: Path):
    """Makes a starter of a program whose text is given."""
    def make(text: str) -> str:
        program = script(tmp_path, "program", text)
        return str(script(tmp_path, "starter", RUN.format(root=root, program=program)))
    return make


def run(words: list[str], hints: str, **how) -> subprocess.CompletedProcess:
    """A run to its end, with hints or without."""
    return subprocess.run(words, env={**os.environ, **HINTS[hints]}, capture_output=True, timeout=60, **how)


def heed_signals() -> None:
    """Lets the signals of a terminal end what is started, though the tests themselves run behind `nohup` or `&`."""
    for number in (signal.SIGINT, signal.SIGHUP, signal.SIGQUIT):
        signal.signal(number, signal.SIG_DFL)


def begun(words: list[str], hints: str) -> subprocess.Popen:
    """A run that has written its first line."""
    run = subprocess.Popen(words, env={**os.environ, **HINTS[hints]}, stdout=subprocess.PIPE, stderr=subprocess.DEVNULL,
                           start_new_session=True, preexec_fn=heed_signals)
    assert run.stdout is not None and run.stdout.readline() == b"begun\n"
    return run


@pytest.mark.parametrize("words, page", [
    (["--help"], "mcf"), (["-h"], "mcf"), (["help"], "mcf"), (["help", "solve"], "solve"), (["check", "--help"], "check"),
    (["whatif", "-h"], "whatif"), (["help", "gen"], "gen"),
])
def test_help_is_the_page(starter, root: Path, words: list[str], page: str) -> None:
    ran = run([starter("#!/bin/sh\nexit 9\n"), *words], "0")
    assert (ran.returncode, ran.stderr) == (0, b"")
    assert ran.stdout == (root / f"python/mcf/hints/help/{page}.txt").read_bytes()


def test_version_is_that_of_the_one_file_with_the_commit(starter, root: Path) -> None:
    ran = run([starter("#!/bin/sh\nexit 9\n"), "--version"], "0")
    assert (ran.returncode, ran.stdout.decode()) == (0, f"mcf {(root / 'VERSION').read_text().strip()} ({commit_of(root)})\n")


@pytest.mark.parametrize("words", [
    ["help", "nothing"], ["help", "../help/solve"], ["help", ""], ["help", "solve", "check"], ["--version", "x"], ["-help"], [],
    ["solve", "--help", "x"], ["nothing", "--help"],
])
def test_other_words_are_the_programs(starter, words: list[str]) -> None:
    ran = run([starter('#!/bin/sh\necho "$#"\nexit 2\n'), *words], "0")
    assert (ran.returncode, ran.stdout.decode(), ran.stderr) == (2, f"{len(words)}\n", b"")


def test_without_hints_the_starter_becomes_the_program(starter) -> None:
    run = subprocess.Popen([starter("#!/bin/sh\necho $$\n")], env={**os.environ, "MCF_HINTS": "0"}, stdout=subprocess.PIPE)
    assert int(run.communicate()[0]) == run.pid


@pytest.mark.parametrize("status", range(8))
def test_status_and_output_stay(starter, status: int) -> None:
    words = [starter(f"#!/bin/sh\nprintf 'one\\0two\\377 %s|' \"$@\"\nexit {status}\n"), "a b", "", "--", "*", "\\n", "\udcff"]
    plain, hinted = run(words, "0"), run(words, "1")
    assert plain.returncode == hinted.returncode == status
    assert plain.stdout == hinted.stdout and plain.stdout.count(b"|") == 6
    assert plain.stderr == b""
    # (one of the words is not UTF-8, which is why the program has status 7)
    assert (hinted.stderr != b"") == (status in (2, 5, 7)) and hinted.stderr.count(b"\n") <= 1


@pytest.mark.parametrize("status, words, said", [
    (5, ["gen"], "write fault: standard output took no more, mostly since the disk is full or a reader went away"),
    (5, ["nothing"], "write fault: "), (7, ["solve", "\udcff.net"], "no words: `<ff>.net` is not UTF-8, as each word has to be: rename the file"),
    (7, ["solve", "x.net"], None), (6, ["solve", "x.net"], None),
    (2, ["solve", "x", "--help"], "usage: `--help` is no option of solve: help on it is ./mcf help solve"),
    (2, ["--help", "solve"], "usage: `--help` is no command: help on one is ./mcf help solve"),
])
def test_hints_on_help_on_full_disks_and_on_words_that_are_no_text(starter, status: int, words: list[str], said: str | None) -> None:
    ran = run([starter(f"#!/bin/sh\nexit {status}\n"), *words], "1")
    assert ran.returncode == status and ran.stdout == b""
    assert ran.stderr.decode().startswith(f"hint: {said}") and ran.stderr.count(b"\n") == 1 if said else ran.stderr == b""


@pytest.mark.parametrize("hints", HINTS)
def test_hints_come_behind_what_the_program_wrote(starter, hints: str) -> None:
    made = starter("#!/bin/sh\necho usage\nexit 2\n")
    ran = subprocess.run([made, "solve"], env={**os.environ, **HINTS[hints]}, stdout=subprocess.PIPE, stderr=subprocess.STDOUT)
    assert ran.returncode == 2
    lines = ran.stdout.decode().splitlines()
    assert lines[0] == "usage" and len(lines) == 1 + (hints == "1")


@pytest.mark.parametrize("value", ["", "0", "2", "yes"])
def test_no_hint_but_by_1_where_standard_error_is_no_terminal(starter, value: str) -> None:
    ran = subprocess.run([starter("#!/bin/sh\necho usage\nexit 2\n")], env={**os.environ, "MCF_HINTS": value}, capture_output=True)
    assert (ran.returncode, ran.stdout, ran.stderr) == (2, b"usage\n", b"")


@pytest.mark.parametrize("value, is_hinted", [(None, True), ("0", False), ("1", True)])
def test_hint_where_standard_error_is_a_terminal(starter, value: str | None, is_hinted: bool) -> None:
    env = {name: word for name, word in os.environ.items() if name != "MCF_HINTS"}
    env |= {} if value is None else {"MCF_HINTS": value}
    master, terminal = pty.openpty()
    ran = subprocess.run([starter("#!/bin/sh\necho usage\nexit 2\n"), "slove"], env=env, stdout=subprocess.PIPE, stderr=terminal)
    os.close(terminal)
    try:
        said = os.read(master, 4096).decode()
    except OSError:
        said = ""
    os.close(master)
    assert (ran.returncode, ran.stdout) == (2, b"usage\n")
    assert said.startswith("hint: usage: `slove` is no command; perhaps solve") == is_hinted and bool(said) == is_hinted


@pytest.mark.parametrize("was", ["/usr/bin/python3", "setpriv"])
def test_without_python_or_setpriv_there_is_no_hint(starter, root: Path, tmp_path: Path, was: str) -> None:
    made = Path(starter("#!/bin/sh\necho usage\nexit 2\n"))
    other = tmp_path / "other"
    (other / "python/mcf/hints").mkdir(parents=True)
    text = (root / "python/mcf/hints/starter.sh").read_text()
    assert was in text
    (other / "python/mcf/hints/starter.sh").write_text(text.replace(was, "/nothing/is/here"))
    made.write_text(made.read_text().replace(f"here={root}", f"here={other}"))
    ran = run([str(made), "solve"], "1")
    assert (ran.returncode, ran.stdout, ran.stderr) == (2, b"usage\n", b"")


def test_a_broken_python_gives_no_hint_and_no_error(starter, root: Path, tmp_path: Path) -> None:
    made = Path(starter("#!/bin/sh\necho usage\nexit 2\n"))
    other = tmp_path / "other"
    (other / "python/mcf/hints").mkdir(parents=True)
    (other / "python/mcf/hints/starter.sh").write_text((root / "python/mcf/hints/starter.sh").read_text())
    (other / "python/mcf/hints/__main__.py").write_text("raise RuntimeError('broken')\n")
    made.write_text(made.read_text().replace(f"here={root}", f"here={other}"))
    ran = run([str(made), "solve"], "1")
    assert (ran.returncode, ran.stdout, ran.stderr) == (2, b"usage\n", b"")


@pytest.mark.parametrize("hints", HINTS)
@pytest.mark.parametrize("descriptor", [3, 9])
def test_files_of_the_caller_are_handed_on(starter, tmp_path: Path, hints: str, descriptor: int) -> None:
    (tmp_path / "given").write_text("given\n")
    made = starter(f"#!/bin/sh\n[ -e /proc/$$/fd/9 ] && echo nine\ncat <&{descriptor}\n")
    ran = run(["sh", "-c", f"exec {made} x {descriptor}<{tmp_path}/given"], hints)
    assert (ran.returncode, ran.stdout.decode()) == (0, "nine\n" * (descriptor == 9) + "given\n")


@pytest.mark.parametrize("hints", HINTS)
def test_standard_input_is_handed_on(starter, hints: str) -> None:
    ran = run([starter("#!/bin/sh\ncat\n")], hints, input=b"of the caller\n")
    assert (ran.returncode, ran.stdout) == (0, b"of the caller\n")


@pytest.mark.parametrize("hints", HINTS)
@pytest.mark.parametrize("closed", ["<&-", ">&-", "2>&-", "<&- >&- 2>&-"])
def test_closed_files_are_the_programs_matter(starter, hints: str, closed: str) -> None:
    made = starter("#!/bin/sh\n[ -e /proc/$$/fd/0 ] || s=1\n[ -e /proc/$$/fd/1 ] || t=2\nexit $((${s-0} + ${t-0} + 4))\n")
    ran = run(["sh", "-c", f"{made} x {closed}"], hints)
    assert ran.returncode == 4 + ("<" in closed) + 2 * (" >" in f" {closed}")
    assert ran.stdout == b""


@pytest.mark.parametrize("hints", HINTS)
def test_a_reader_that_stops_stops_the_program(starter, hints: str) -> None:
    made = starter(f"#!{sys.executable}\nimport signal\nsignal.signal(signal.SIGPIPE, signal.SIG_DFL)\nprint('begun', flush=True)\n"
                   "while True:\n    print('x' * 4000)\n")
    run = begun([made], hints)
    run.stdout.close()
    assert run.wait(timeout=20) == -signal.SIGPIPE


@pytest.mark.parametrize("hints", HINTS)
def test_a_reader_that_stops_is_seen_by_a_program_that_looks(starter, hints: str) -> None:
    made = starter(f"#!{sys.executable}\nimport os\nprint('begun', flush=True)\ntry:\n    while True:\n"
                   "        os.write(1, b'x' * 4096)\nexcept BrokenPipeError:\n    os._exit(5)\n")
    run = begun([made], hints)
    run.stdout.close()
    assert run.wait(timeout=20) == 5


def test_a_great_output_comes_whole_and_as_fast(starter) -> None:
    made = starter(f"#!{sys.executable}\nimport os\nblock = bytes(range(256)) * 4096\nfor i in range(200):\n"
                   "    at = 0\n    while at < len(block):\n        at += os.write(1, block[at:])\nos._exit(1)\n")
    times = {hints: [] for hints in HINTS}
    # (other work on the machine may slow any one run)
    for _ in range(4):
        for hints in HINTS:
            start = time.monotonic()
            env = {**os.environ, **HINTS[hints]}
            with subprocess.Popen([made, "solve", "x"], env=env, stdout=subprocess.PIPE, stderr=subprocess.DEVNULL) as run:
                size = sum(len(part) for part in iter(lambda: run.stdout.read(1 << 20), b""))
            times[hints].append(time.monotonic() - start)
            assert (size, run.returncode) == (200 << 20, 1)
        if min(times["1"]) < 2 * min(times["0"]) + 1:
            break
    assert min(times["1"]) < 2 * min(times["0"]) + 1, times


@pytest.mark.parametrize("hints", HINTS)
@pytest.mark.parametrize("to_group", [False, True])
@pytest.mark.parametrize("sent", ["INT", "TERM", "HUP", "QUIT", "USR1", "ALRM", "KILL"])
def test_a_signal_ends_starter_and_program(starter, hints: str, to_group: bool, sent: str) -> None:
    run = begun([starter(f"#!{sys.executable}\nimport os, signal, time\nsignal.signal(signal.SIGINT, signal.SIG_DFL)\n"
                         "print('begun', flush=True)\nprint(os.getpid(), flush=True)\ntime.sleep(60)\n")], hints)
    child = int(run.stdout.readline())
    number = signal.Signals[f"SIG{sent}"]
    (os.killpg if to_group else os.kill)(run.pid, number)
    assert run.wait(timeout=20) == -number
    assert is_gone(child)


def is_gone(pid: int) -> bool:
    """Whether a process has ended, or does so within twenty seconds; its parent need not have taken note."""
    for _ in range(2000):
        try:
            state = Path(f"/proc/{pid}/stat").read_text().rpartition(")")[2].split()[0]
        except (FileNotFoundError, ProcessLookupError):
            return True
        if state == "Z":
            return True
        time.sleep(0.01)
    return False


@pytest.mark.parametrize("hints", HINTS)
@pytest.mark.parametrize("sent", ["TERM", "KILL", "SEGV", "ABRT"])
def test_a_program_that_is_killed_is_seen_so(starter, hints: str, sent: str) -> None:
    ran = run([starter(f"#!/bin/sh\nulimit -c 0\nkill -{sent} $$\n")], hints)
    assert (ran.returncode, ran.stderr) == (-signal.Signals[f"SIG{sent}"], b"")


# -- the program itself, beside its starter with hints

@pytest.fixture
def both(program: Program, tmp_path: Path, root: Path) -> list[list[str]]:
    """The program, and a starter of it with hints."""
    made = script(tmp_path, "starter", RUN.format(root=root, program=program.path))
    return [[program.path], ["env", "MCF_HINTS=1", str(made)]]


LINES = [
    "gen 7 100 4000 20000 >&-", "gen 7 100 4000 20000 >/dev/full", "solve no.net >&-", "x >&-", "x >/dev/full",
    "gen 7 100 4000 20000 | head -c 5", "gen 7 100 4000 20000 | tail -c 50", "gen 7 4 5 2 <&-",
    "print /dev/stdin <examples/polska.net", "print /dev/fd/3 3<examples/polska.net", "print <(cat examples/geant.net)", "print <(printf x) 2>&-",
    "check examples/polska.net <(cat examples/triangle.cert)",
]


@pytest.mark.parametrize("line", LINES)
def test_output_and_status_are_the_programs(both: list[list[str]], root: Path, line: str) -> None:
    seen = []
    for words in both:
        text = f'"$@" {line}; echo "status ${{PIPESTATUS[0]}}"'
        seen.append(subprocess.run(["bash", "-c", text, "bash", *words], cwd=root, capture_output=True).stdout)
    assert seen[0] == seen[1] and b"status " in seen[0]


def test_a_reader_that_stops_early_gives_one_status(both: list[list[str]]) -> None:
    ended = []
    for words in both:
        run = subprocess.Popen([*words, "gen", "7", "512", "4096", "32768"], stdout=subprocess.PIPE, stderr=subprocess.DEVNULL)
        assert run.stdout is not None and run.stdout.read(10) == b"?SNDlib na"
        run.stdout.close()
        ended.append(run.wait(timeout=60))
    assert ended[0] == ended[1] != 0
