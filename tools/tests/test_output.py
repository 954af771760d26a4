"""`output`: files come whole or stay, and each end of a tool is one line and a status."""

from __future__ import annotations

import os
import signal
import stat
import subprocess
import sys
import tempfile
from collections.abc import Sequence
from pathlib import Path

import pytest

from mcf.errors import TextError
from mcf.output import one_line, require_output, require_outputs, write, writing
from mcf.version import commit_of

ROOT = Path(__file__).resolve().parents[2]
FRONT = f"""
import os, signal, sys, time
sys.path.insert(0, {str(ROOT / 'python')!r})
from mcf.errors import TextError
from mcf.output import contents, main_of, require_output, write, writing
"""
END = "\nmain_of(main, 'tool')\n"


def tool(
    body: str, *, out: int | None = subprocess.PIPE, shell: str = "", front: Sequence[str] = (), **environment: str
) -> subprocess.CompletedProcess[bytes]:
    """What a tool does whose `main` has that body; a shell may redirect it, and words stand in front of it."""
    text = FRONT + "def main():\n" + "".join(f"    {line}\n" for line in body.splitlines()) + END
    command = [*front, sys.executable, "-c", text]
    if shell:
        command = ["bash", "-c", f'"$0" "$@" {shell}', *command]
    return subprocess.run(
        command, stdout=out, stderr=subprocess.PIPE, stdin=subprocess.DEVNULL, env={**os.environ, **environment}, check=False
    )


def test_a_file_is_written_whole_and_nothing_else_is_left(tmp_path: Path) -> None:
    write(str(tmp_path / "a"), b"one")
    write(str(tmp_path / "a"), b"two")
    assert (tmp_path / "a").read_bytes() == b"two" and os.listdir(tmp_path) == ["a"]


def test_what_fails_half_way_leaves_the_old_file(tmp_path: Path) -> None:
    (tmp_path / "a").write_bytes(b"old")
    with pytest.raises(ZeroDivisionError):
        with writing(str(tmp_path / "a")) as file:
            file.write(b"new" * 100_000)
            1 / 0  # noqa: B018
    assert (tmp_path / "a").read_bytes() == b"old" and os.listdir(tmp_path) == ["a"]


def test_mode_and_links_stay(tmp_path: Path) -> None:
    (tmp_path / "a").write_bytes(b"old")
    (tmp_path / "a").chmod(0o640)
    (tmp_path / "link").symlink_to("a")
    write(str(tmp_path / "link"), b"new")
    assert (tmp_path / "link").is_symlink() and (tmp_path / "a").read_bytes() == b"new"
    assert stat.S_IMODE((tmp_path / "a").stat().st_mode) == 0o640
    (tmp_path / "far").symlink_to("b")
    write(str(tmp_path / "far"), b"there")
    assert (tmp_path / "b").read_bytes() == b"there"


def test_a_new_file_has_the_mode_that_the_mask_leaves(tmp_path: Path) -> None:
    mask = os.umask(0o027)
    try:
        write(str(tmp_path / "a"), b"")
    finally:
        os.umask(mask)
    assert stat.S_IMODE((tmp_path / "a").stat().st_mode) == 0o640


@pytest.mark.parametrize("name", ["", "no/where", "folder", "folder/", "a/", "a/b", "loop"])
def test_what_cannot_be_an_output_is_told_before_the_work(tmp_path: Path, monkeypatch: pytest.MonkeyPatch, name: str) -> None:
    monkeypatch.chdir(tmp_path)
    Path("folder").mkdir()
    Path("a").write_bytes(b"old")
    Path("loop").symlink_to("loop")
    for action in (lambda: require_output(name), lambda: write(name, b"new")):
        with pytest.raises(TextError, match="^" + name) as told:
            action()
        assert "\n" not in str(told.value)
    assert sorted(os.listdir()) == ["a", "folder", "loop"] and Path("a").read_bytes() == b"old"


def test_a_folder_that_may_not_be_written() -> None:
    if tool("return 0", front=_as_nobody()).returncode:
        pytest.skip("nobody else may read this repository")
    with tempfile.TemporaryDirectory() as room:
        os.chmod(room, 0o555)
        done = tool(f"write({room + '/a'!r}, b'new')\nreturn 0", front=_as_nobody())
        assert (done.returncode, os.listdir(room)) == (2, [])
    assert done.stderr.decode() == f"tool: {room}/a: Permission denied\n"


def _as_nobody() -> list[str]:
    """The words that give up root."""
    return ["setpriv", "--reuid=65534", "--regid=65534", "--clear-groups"] if os.geteuid() == 0 else []


@pytest.mark.parametrize("how", ["itself", "spelling", "link", "hard link"])
def test_an_output_that_is_read_is_refused(tmp_path: Path, how: str) -> None:
    source, other = tmp_path / "a", tmp_path / "b"
    source.write_bytes(b"old")
    if how == "link":
        other.symlink_to(source)
    elif how == "hard link":
        other.hardlink_to(source)
    else:
        other = source if how == "itself" else tmp_path / ".." / tmp_path.name / "a"
    with pytest.raises(TextError, match="is read too"):
        require_output(str(other), [str(tmp_path / "c"), str(source)])
    require_output(str(tmp_path / "c"), [str(source)])


def test_an_output_that_is_written_twice_is_refused(tmp_path: Path) -> None:
    one, link = tmp_path / "one", tmp_path / "link"
    link.symlink_to(one)
    for other in (one, link, tmp_path / ".." / tmp_path.name / "one"):
        with pytest.raises(TextError, match="is written twice"):
            require_outputs([str(one), None, str(other)])
    with pytest.raises(TextError, match="is written twice"):
        require_outputs(["/dev/stdout", "-"])
    require_outputs(["-", str(one), None, str(tmp_path / "two"), "/dev/null", "/dev/null"])


def test_standard_streams_are_files_too(tmp_path: Path) -> None:
    (tmp_path / "a").write_bytes(b"old")
    same = tool("require_output('-', ['-'])\nwrite('-', b'new')\nreturn 0", shell=f"< {tmp_path}/a >> {tmp_path}/a")
    assert same.returncode == 2 and same.stderr.count(b"\n") == 1 and (tmp_path / "a").read_bytes() == b"old"
    copy = tool("require_output('-', ['-'])\nwrite('-', contents('-') + b'er')\nreturn 1", shell=f"< {tmp_path}/a")
    assert (copy.returncode, copy.stdout, copy.stderr) == (1, b"older", b"")


def test_devices_are_written_directly(tmp_path: Path) -> None:
    write("/dev/null", b"gone")
    require_output("/dev/null", ["/dev/null"])
    with pytest.raises(TextError, match="^/dev/full: No space left on device$"):
        write("/dev/full", b"too much")


@pytest.mark.parametrize(
    ("body", "status", "line"),
    [
        ("return 0", 0, ""),
        ("print('x')\nreturn 1", 1, ""),
        ("raise TextError('a\\nb')", 2, "tool: a\\nb"),
        ("return 1 // 0", 2, "tool: internal error: ZeroDivisionError: integer division or modulo by zero (MCF_TRACEBACK=1 shows where)"),
        ("int('9' * 5000)", 2, "tool: internal error: ValueError: Exceeds the limit (4300 digits) for integer string conversion: value has "
                               "5000 digits; use sys.set_int_max_str_digits() to increase the limit (MCF_TRACEBACK=1 shows where)"),
        ("raise MemoryError", 2, "tool: out of memory"),
        ("open('/no/where')", 2, "tool: /no/where: No such file or directory"),
        ("contents('/no/where')", 2, "tool: /no/where: No such file or directory"),
        ("sys.exit(3)", 3, ""),
        ("os.kill(os.getpid(), signal.SIGINT)\ntime.sleep(9)", 130, "tool: interrupted"),
        ("os.kill(os.getpid(), signal.SIGTERM)\ntime.sleep(9)", 130, "tool: ended by SIGTERM"),
        ("os.kill(os.getpid(), signal.SIGHUP)\ntime.sleep(9)", 130, "tool: ended by SIGHUP"),
    ],
)  # fmt: skip
def test_each_end_is_one_line_and_its_status(body: str, status: int, line: str) -> None:
    done = tool(body)
    assert (done.returncode, done.stderr.decode()) == (status, line and line + "\n")


@pytest.mark.parametrize("many", [1, 100_000])
@pytest.mark.parametrize("body", ["print('x' * many)", "write('-', b'x' * many)"])
@pytest.mark.parametrize(
    ("shell", "said"),
    [
        (">/dev/full", "No space left on device"),
        (">&-", "Bad file descriptor"),
        ("> >(exec >&- <&-; exit 0); sleep 0.5", None),
    ],
)
def test_an_output_that_takes_nothing_is_trouble(many: int, body: str, shell: str, said: str | None) -> None:
    done = tool(f"many = {many}\n" + ("time.sleep(0.3)\n" if said is None else "") + f"{body}\nreturn 0", shell=shell)
    if said is None:
        assert done.stderr.decode().splitlines() in ([], ["tool: output: Broken pipe"], ["tool: standard output: Broken pipe"])
        return
    assert done.returncode == 2
    assert done.stderr.decode() in (f"tool: output: {said}\n", f"tool: standard output: {said}\n")


def test_a_closed_pipe_is_trouble() -> None:
    for body in ("print('x' * 100_000)", "write('-', b'x')", "print('x')"):
        reading, writing_end = os.pipe()
        os.close(reading)
        done = tool(f"{body}\nreturn 0", out=writing_end)
        os.close(writing_end)
        assert done.returncode == 2 and done.stderr.count(b"\n") == 1 and b"Broken pipe" in done.stderr


def test_a_closed_standard_error_hides_nothing_on_the_output() -> None:
    done = tool("print('told', file=sys.stderr)\nwrite('-', b'data')\nreturn 0", shell="2>&-")
    assert (done.returncode, done.stdout) == (0, b"data")
    done = tool("raise TextError('x')", shell="2>/dev/full")
    assert (done.returncode, done.stdout, done.stderr) == (2, b"", b"")


@pytest.mark.parametrize("environment", [{"LC_ALL": "C"}, {"LC_ALL": "POSIX", "PYTHONUTF8": "0"}, {"PYTHONIOENCODING": "ascii"}])
def test_any_locale_takes_any_sentence(environment: dict[str, str]) -> None:
    done = tool("print('K\\u00f6ln')\nraise TextError('K\\u00f6ln \\udcff')", **environment)
    assert done.returncode == 2 and b"Traceback" not in done.stderr and done.stderr.startswith(b"tool: K")


def test_an_interrupt_leaves_the_old_file(tmp_path: Path) -> None:
    (tmp_path / "a").write_bytes(b"old")
    body = f"""with writing({str(tmp_path / 'a')!r}) as file:
    file.write(b'new' * 100000)
    os.kill(os.getpid(), signal.SIGTERM)
    time.sleep(9)"""
    assert tool(body).returncode == 130
    assert (tmp_path / "a").read_bytes() == b"old" and os.listdir(tmp_path) == ["a"]


def test_a_second_interrupt_does_not_stop_the_tidying(tmp_path: Path) -> None:
    body = f"""with writing({str(tmp_path / 'a')!r}) as file:
    try:
        os.kill(os.getpid(), signal.SIGINT)
        time.sleep(9)
    finally:
        os.kill(os.getpid(), signal.SIGINT)
        time.sleep(0.1)"""
    assert tool(body).returncode == 130 and os.listdir(tmp_path) == []


def test_a_signal_that_is_ignored_stays_ignored() -> None:
    before = signal.signal(signal.SIGHUP, signal.SIG_IGN)
    try:
        assert tool("os.kill(os.getpid(), signal.SIGHUP)\nreturn 0").returncode == 0
    finally:
        signal.signal(signal.SIGHUP, before)


def test_lines_are_one_line() -> None:
    assert one_line("a\nb\r\x1b[31m\u2028\udcffö") == "a\\nb\\r\\x1b[31m\\u2028\\udcffö"


ARGUMENTS = """from mcf.arguments import Arguments
parser = Arguments('tool', 'what it does')
parser.add_argument('--unit', choices=('a', 'b'))
parser.add_argument('--more', action='append')
parser.add_argument('files', nargs='*')
print(parser.parse_intermixed_args(WORDS))
return 0"""


@pytest.mark.parametrize(("words", "files"), [
    (["a", "--unit", "b", "c"], "['a', 'c']"), (["--", "--unit", "-c"], "['--unit', '-c']"), (["a", "--unit", "b", "--", "--", "-c"], "['a', '--', '-c']"),
])
def test_behind_two_dashes_there_are_no_options(words: list[str], files: str) -> None:
    done = tool(ARGUMENTS.replace("WORDS", repr(words)))
    assert done.returncode == 0 and f"files={files}" in done.stdout.decode(), done.stderr


@pytest.mark.parametrize(
    ("words", "line"),
    [
        (["--unit", "a", "--unit", "a"], "tool: --unit is given twice (tool --help has the words)"),
        (["--unit", "c"], "tool: argument --unit: invalid choice: 'c' (choose from 'a', 'b') (tool --help has the words)"),
        (["--uni", "a"], "tool: unrecognized arguments: --uni (tool --help has the words)"),
    ],
)
def test_wrong_words_are_one_line(words: list[str], line: str) -> None:
    done = tool(ARGUMENTS.replace("WORDS", repr(words)))
    assert (done.returncode, done.stdout, done.stderr.decode()) == (2, b"", line + "\n")


def test_right_words_and_the_version() -> None:
    done = tool(ARGUMENTS.replace("WORDS", "['x', '--unit', 'a', 'y', '--more', '1', '--more', '2']"))
    assert done.stdout == b"Namespace(unit='a', more=['1', '2'], files=['x', 'y'])\n" and not done.stderr
    done = tool(ARGUMENTS.replace("WORDS", "['--version']"))
    assert (done.returncode, done.stdout.decode()) == (0, f"mcf {(ROOT / 'VERSION').read_text().strip()} ({commit_of(ROOT)})\n")
    assert tool(ARGUMENTS.replace("WORDS", "['--help']")).returncode == 0


@pytest.mark.parametrize("number, why", [(signal.SIGINT, "interrupted"), (signal.SIGTERM, "ended by SIGTERM"), (signal.SIGHUP, "ended by SIGHUP")])
@pytest.mark.parametrize("script", ["/a/tools/show", "/usr/bin/mcf-show"])
def test_a_signal_while_a_tool_is_imported_is_one_line(number: signal.Signals, why: str, script: str) -> None:
    """Where the process is a tool: in any other one signals do what they did."""
    text = "import mcf.cli, os, time; os.kill(os.getpid(), number); time.sleep(60)"
    for name, end, line in ((script, 130, f"{Path(script).name.removeprefix('mcf-')}: {why}\n"), ("/a/notebook", -number, "")):
        code = f"import signal, sys; sys.path.insert(0, {str(ROOT / 'python')!r}); sys.argv = [{name!r}]; number = {number}\n"
        code += "signal.signal(signal.SIGINT, signal.SIG_DFL)\n" + text
        done = subprocess.run([sys.executable, "-c", code], capture_output=True, text=True, check=False)
        assert (done.returncode, done.stderr) == (end, line)


def test_a_signal_waits_for_the_end_of_imports() -> None:
    """A package that is broken off amid its import says that it is missing, or damaged."""
    done = tool("from mcf.needs import needed\nwith needed():\n    os.kill(os.getpid(), signal.SIGINT)\n    time.sleep(0.1)\n    print('whole', flush=True)\n"
                "print('more', flush=True)")
    assert (done.returncode, done.stdout, done.stderr) == (130, b"whole\n", b"tool: interrupted\n")
