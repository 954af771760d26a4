"""Samples of a run by the processor's clock, as `perf` takes them, which needs root."""

from __future__ import annotations

import os
import shutil
import subprocess
import sys
import tempfile

RATE = 20_000


def samples(words: list[str], rate: int) -> list[tuple[int, float, str]]:
    """The thread, the time and the function of each sample of a run, so many of them a second."""
    if shutil.which("perf") is None:
        sys.exit(f"{sys.argv[0]}: perf is not installed")
    with tempfile.TemporaryDirectory() as folder:
        data = os.path.join(folder, "samples")
        record = ["perf", "record", "-q", "-e", "cpu-clock", "-F", str(rate), "-o", data, *words]
        done = subprocess.run(record, stdout=subprocess.DEVNULL, stderr=subprocess.PIPE, text=True)
        # 1 is the program's status where the gap stays open
        if done.returncode not in (0, 1) or not os.path.exists(data):
            said = done.stderr.strip().splitlines() or ["nothing was said"]
            sys.exit(f"{sys.argv[0]}: perf record ended with {done.returncode}: {said[-1]}")
        script = ["perf", "script", "-i", data, "-F", "tid,time,ip,sym"]
        lines = subprocess.run(script, stdout=subprocess.PIPE, stderr=subprocess.DEVNULL, text=True).stdout
    found = (line.split(None, 3) for line in lines.splitlines())
    return [(int(fields[0]), float(fields[1].rstrip(":")), fields[3]) for fields in found if len(fields) == 4]


def kind_of(symbol: str, kinds: list[tuple[str, tuple[str, ...]]], otherwise: str) -> str:
    """The first kind one of whose words is in the function's name."""
    return next((kind for kind, words in kinds if any(word in symbol for word in words)), otherwise)
