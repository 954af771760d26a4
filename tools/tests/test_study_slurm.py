"""`tools/study` on Slurm: its own daemons, from Debian's packages, with workers that `sbatch` starts, as docs/study/studies.md says."""

from __future__ import annotations

import os
import shutil
import socket
import subprocess
import time
from collections.abc import Iterator
from contextlib import contextmanager, suppress
from pathlib import Path

import pytest

from clusters import ROOT, Cluster, below, command_of, kill
from mcf import Program
from studied import EXAMPLES, rows, timeless

pytest.importorskip("distributed")

DAEMONS = ("munged", "slurmctld", "slurmd", "sbatch", "scancel", "sinfo")
CONFIGURATION = """ClusterName=test
SlurmctldHost={host}(127.0.0.1)
SlurmUser=root
AuthType=auth/munge
AuthInfo=socket={room}/munge/socket
ProctrackType=proctrack/linuxproc
TaskPlugin=task/none
AccountingStorageType=accounting_storage/none
JobAcctGatherType=jobacct_gather/none
SlurmctldPort={ports[0]}
SlurmdPort={ports[1]}
StateSaveLocation={room}/state
SlurmdSpoolDir={room}/spool
SlurmctldPidFile={room}/slurmctld.pid
SlurmdPidFile={room}/slurmd.pid
SlurmctldLogFile={room}/slurmctld.log
SlurmdLogFile={room}/slurmd.log
ReturnToService=2
SelectType=select/cons_tres
SelectTypeParameters=CR_CPU
NodeName={host} NodeAddr=127.0.0.1 CPUs={cpus} State=UNKNOWN
PartitionName=all Nodes=ALL Default=YES State=UP
"""


def free_ports(count: int) -> list[int]:
    """Ports that are free now."""
    found = [socket.create_server(("127.0.0.1", 0)) for _ in range(count)]
    ports = [one.getsockname()[1] for one in found]
    for one in found:
        one.close()
    return ports


@contextmanager
def slurm(room: Path) -> Iterator[dict[str, str]]:
    """Slurm's daemons; what runs commands of it by the environment that is given. All that was started is ended."""
    host = socket.gethostname().partition(".")[0]
    for name in ("munge", "state", "spool"):
        (room / name).mkdir(mode=0o711)
    for folder in [room, *room.parents][: len(room.parts) - 2]:
        # (the daemon of munge is no root)
        folder.chmod(folder.stat().st_mode | 0o011)
    (room / "munge.key").write_bytes(os.urandom(1024))
    (room / "munge.key").chmod(0o400)
    (room / "cgroup.conf").write_text("CgroupPlugin=cgroup/v1\n")
    (room / "slurm.conf").write_text(CONFIGURATION.format(host=host, room=room, ports=free_ports(2), cpus=os.cpu_count()))
    for file in (room / "munge.key", room / "munge"):
        shutil.chown(file, "munge", "munge")
    environment = {**os.environ, "SLURM_CONF": str(room / "slurm.conf")}
    as_munge = ["setpriv", "--reuid", "munge", "--regid", "munge", "--clear-groups"]
    munged = [*as_munge, "munged", "--force", "--foreground", *(f"--{name}={room}/{file}" for name, file in (
        ("socket", "munge/socket"), ("key-file", "munge.key"), ("log-file", "munge/log"), ("pid-file", "munge/pid"), ("seed-file", "munge/seed")))]
    children: list[subprocess.Popen[bytes]] = []
    try:
        for command in (munged, ["slurmctld", "-D"], ["slurmd", "-D"]):
            log = open(room / f"{len(children)}.log", "wb")
            children.append(subprocess.Popen(command, env=environment, stdout=log, stderr=log, cwd=room))
            log.close()
            if command is munged:
                _await(lambda: (room / "munge/socket").exists())
        _await(lambda: "idle" in _said(["sinfo", "-h"], environment))
        yield environment
    finally:
        with suppress(subprocess.TimeoutExpired):
            subprocess.run(["scancel", "--state=RUNNING", "-u", "root"], env=environment, capture_output=True, check=False, timeout=10)
            subprocess.run(["scancel", "--state=PENDING", "-u", "root"], env=environment, capture_output=True, check=False, timeout=10)
            _await(lambda: not _said(["squeue", "-h"], environment).strip(), 10)
        # (jobs are no children of the daemons; all of them name the folder)
        for pid in [int(folder.name) for folder in Path("/proc").glob("[0-9]*")]:
            if str(room) in command_of(pid):
                for other in [*below(pid), pid]:
                    kill(other)
        for child in reversed(children):
            for pid in [*below(child.pid), child.pid]:
                kill(pid)
            child.wait()


def _said(command: list[str], environment: dict[str, str]) -> str:
    """What a command writes."""
    return subprocess.run(command, env=environment, capture_output=True, text=True, check=False, timeout=30).stdout


def _await(is_so, seconds: float = 60.0) -> None:  # type: ignore[no-untyped-def]
    """Waits until something is so."""
    end = time.monotonic() + seconds
    while not is_so() and time.monotonic() < end:
        time.sleep(0.1)
    assert is_so()


@pytest.mark.skipif(os.geteuid() != 0 or not all(map(shutil.which, DAEMONS)), reason="Slurm's daemons want root, and slurm-wlm and munge")
def test_workers_of_slurm_give_the_same_table(tmp_path: Path, program: Program) -> None:
    words = (EXAMPLES / "polska.net", "--failures", "links", "--gap", "0.2")
    (tmp_path / "alone").mkdir()
    alone = timeless(rows(tmp_path / "alone", *words, program=program))
    room = tmp_path / "slurm"
    room.mkdir()
    made = Cluster(tmp_path, program)
    try:
        with slurm(room) as environment:
            worker = f"dask-worker {made.address} --nthreads 1 --host 127.0.0.1 --dashboard-address 127.0.0.1:0 --no-dashboard --local-directory {room}"
            job = ["sbatch", "--array=1-2", "--ntasks=1", f"--output={room}/out-%a", f"--chdir={room}", f"--wrap={worker}"]
            subprocess.run(job, env={**environment, "PYTHONPATH": str(ROOT / "python"), "MCF": program.path}, check=True, capture_output=True)
            found = rows(tmp_path, *words, "--scheduler", made.address, program=program, jobs=None)
            assert timeless(found) == alone and len(found) == 18
    finally:
        made.end()
    # (what is ended takes a while to go)
    _await(lambda: not _running(room), 20)


def _running(room: Path) -> list[str]:
    """The processes that name a folder, and Slurm's controller."""
    lines = subprocess.run(["ps", "-eo", "args"], capture_output=True, text=True, check=True).stdout.splitlines()
    return [line for line in lines if str(room) in line or "slurmctld -D" in line]
