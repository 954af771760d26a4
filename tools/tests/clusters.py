"""A cluster of Dask of separate processes on this machine, as somebody makes one by hand, for tests."""

from __future__ import annotations

import os
import signal
import subprocess
import sys
import time
from collections.abc import Iterator
from contextlib import contextmanager
from pathlib import Path

from mcf import Program

ROOT = Path(__file__).resolve().parents[2]
_QUIET = ["--dashboard-address", "127.0.0.1:0", "--no-dashboard"]


class Cluster:
    """A scheduler, and workers with their nannies, each a process of its own."""

    def __init__(self, room: Path, program: Program) -> None:
        """Starts the scheduler."""
        self._room, self._children = room, []  # type: tuple[Path, list[subprocess.Popen[bytes]]]
        # (what the wheel would install)
        self._environment = {**os.environ, "PYTHONPATH": str(ROOT / "python"), "MCF": program.path, "DASK_DISTRIBUTED__WORKER__MEMORY__TERMINATE": "False"}
        self.scheduler = self._started("dask_scheduler", "--host", "127.0.0.1", "--port", "0", "--scheduler-file", str(room / "scheduler.json"))
        self.address = self._address()

    def _started(self, module: str, *words: str) -> subprocess.Popen[bytes]:
        """A process of Dask."""
        command = [sys.executable, "-m", f"distributed.cli.{module}", *words, *_QUIET]
        child = subprocess.Popen(command, cwd=self._room, env=self._environment, stdout=subprocess.DEVNULL, stderr=subprocess.DEVNULL)
        self._children.append(child)
        return child

    def _address(self) -> str:
        """The address that the scheduler wrote."""
        import json
        file = self._room / "scheduler.json"
        for _ in range(1200):
            if file.is_file() and file.read_text().strip().endswith("}"):
                return str(json.loads(file.read_text())["address"])
            assert self.scheduler.poll() is None
            time.sleep(0.05)
        raise AssertionError("the scheduler did not start")

    def worker(self) -> subprocess.Popen[bytes]:
        """A worker more."""
        return self._started("dask_worker", self.address, "--nthreads", "1", "--host", "127.0.0.1", "--local-directory", str(self._room))

    def end(self) -> None:
        """Ends all."""
        for child in reversed(self._children):
            for pid in [*below(child.pid), child.pid]:
                kill(pid)
            child.wait()


@contextmanager
def cluster(room: Path, program: Program, workers: int) -> Iterator[Cluster]:
    """A cluster of so many workers."""
    made = Cluster(room, program)
    try:
        for _ in range(workers):
            made.worker()
        yield made
    finally:
        made.end()


def kill(pid: int) -> None:
    """Ends a process by force, if it is there."""
    try:
        os.kill(pid, signal.SIGKILL)
    except ProcessLookupError:
        pass


def below(pid: int) -> list[int]:
    """The processes that a process started, and those that these started."""
    parents: dict[int, list[int]] = {}
    for folder in Path("/proc").glob("[0-9]*"):
        try:
            parents.setdefault(int((folder / "stat").read_text().rpartition(")")[2].split()[1]), []).append(int(folder.name))
        except (OSError, ValueError):
            continue
    found: list[int] = []
    todo = [pid]
    while todo:
        more = parents.get(todo.pop(), [])
        found += more
        todo += more
    return found


def workers_of(pid: int) -> list[int]:
    """The processes below a process that do scenarios: those of Python that have none of Python below them."""
    pythons = [other for other in below(pid) if "python" in command_of(other) and "resource_tracker" not in command_of(other)]
    return [other for other in pythons if not set(below(other)) & set(pythons)]


def command_of(pid: int) -> str:
    """The words of a process."""
    try:
        return Path(f"/proc/{pid}/cmdline").read_bytes().replace(b"\0", b" ").decode("latin-1")
    except OSError:
        return ""


def listening(pids: list[int]) -> set[str]:
    """The addresses on which processes wait for others, as ss tells."""
    said = subprocess.run(["ss", "-ltnpH"], capture_output=True, text=True, check=True).stdout
    lines = [line for line in said.splitlines() if any(f"pid={pid}," in line for pid in pids)]
    return {line.split()[3].rpartition(":")[0] for line in lines}
