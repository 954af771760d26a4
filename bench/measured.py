"""Runs a command with its output in a file, and prints what it took: seconds by the clock, seconds of the processor, megabytes at most,
each with what the command started, and its status.

Words: the output's file, then the command. It is a program of its own because the greatest memory of a process is never told as less
than that of the process which it was forked from, so one that has grown cannot measure a smaller one.
"""

from __future__ import annotations

import os
import subprocess
import sys
import time


def main() -> None:
    """Runs the command."""
    begun = time.monotonic()
    with open(sys.argv[1], "wb") as file:
        child = subprocess.Popen(sys.argv[2:], stdout=file, stderr=subprocess.DEVNULL)
        _, status, usage = os.wait4(child.pid, 0)
    child.returncode = os.waitstatus_to_exitcode(status)
    print(time.monotonic() - begun, usage.ru_utime + usage.ru_stime, usage.ru_maxrss / 1024, child.returncode)


if __name__ == "__main__":
    main()
