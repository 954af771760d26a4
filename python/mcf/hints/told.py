"""The line with which the program ended: from the file that its output went to, or by asking it once more."""

from __future__ import annotations

import os
import re
import stat
import subprocess

from .words import Request

SECONDS = 10.0
_LINES = {1: re.compile(r"invalid2? C[0-9]+"), 3: re.compile(r"refused [a-z0-9]+ [A-Za-z0-9 ]+")}


def line_of(status: int, program: str, words: list[str], request: Request, output: int) -> str:
    """The line, or `status S` where it cannot be known. Output is a descriptor of the program's standard output."""
    if status == 1 and request.command in ("solve", "hops", "trial"):
        return "verdict open"
    if status == 1 and request.command == "throughput":
        return "total open"
    if status == 1 and request.command == "sweepsolve":
        return "some link open"
    if status == 1 and request.command == "batch":
        return "some matrix open"
    line = _last_line(output) or _asked_again(status, program, words, request)
    if status == 1 and request.command == "tighten" and line in ("end", "mcf-certificate 2"):
        return "best open"
    return line if line and _LINES[status].fullmatch(line) else f"status {status}"


def _last_line(output: int) -> str | None:
    """The line that ends where the output stands now, if that is a file which may be read."""
    try:
        if not stat.S_ISREG(os.fstat(output).st_mode):
            return None
        end = os.lseek(output, 0, os.SEEK_CUR)
        with open(f"/proc/self/fd/{output}", "rb") as file:
            file.seek(max(0, end - 256))
            lines = file.read(min(end, 256)).split(b"\n")
    except OSError:
        return None
    return lines[-2].decode("latin-1") if len(lines) > 1 and not lines[-1] else None


def _asked_again(status: int, program: str, words: list[str], request: Request) -> str | None:
    """The line of a second run, which has to end alike; none where a file may be read only once, or it takes too long."""
    if any(os.path.exists(file) and not os.path.isfile(file) for file in request.files):
        return None
    try:
        ran = subprocess.run([program, *words], stdout=subprocess.PIPE, stderr=subprocess.DEVNULL, close_fds=False, timeout=SECONDS,
                             check=False)
    except (OSError, subprocess.TimeoutExpired):
        return None
    return ran.stdout[:256].decode("latin-1").split("\n", 1)[0] if ran.returncode == status else None
