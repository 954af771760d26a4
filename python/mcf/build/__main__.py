"""Copies what rt writes from standard input into LOG, and tells on one line of standard error how far the build is; or, with the word
`copy`, copies the crates that a crate is built of into a folder, with `copy-wide` those of the program with wide limits.

usage: python3 python/mcf/build copy TOP CRATE ROOM             with the repository at TOP; copy-wide TOP CRATE ROOM
       rt ci 2>&1 | python3 python/mcf/build LOG TOP CRATE
"""

import os
import select
import signal
import sys
import time
from collections.abc import Iterator

sys.path.insert(0, os.path.dirname(os.path.dirname(os.path.dirname(os.path.abspath(__file__)))))

from mcf.build.copying import copy_below, copy_wide  # noqa: E402
from mcf.build.crates import crates_below  # noqa: E402
from mcf.build.progress import Progress  # noqa: E402


def lines_of(source: int, seconds: float) -> Iterator[bytes | None]:
    """Lines as they come, and None where none came for so many seconds."""
    rest = b""
    while True:
        if not select.select([source], [], [], seconds)[0]:
            yield None
            continue
        data = os.read(source, 65536)
        if not data:
            break
        *lines, rest = (rest + data).split(b"\n")
        yield from (line + b"\n" for line in lines)
    yield rest


def tell(log: str, top: str, crate: str) -> None:
    """On a terminal the line is rewritten; elsewhere each crate has a line of its own."""
    is_terminal = sys.stderr.isatty()
    progress = Progress(crates_below(top, crate), time.monotonic())
    shown = 0.0
    with open(log, "wb", buffering=0) as kept:
        for line in lines_of(0, 5.0):
            now = time.monotonic()
            kept.write(line or b"")
            is_new = line is not None and progress.see(line.decode("utf-8", "replace").rstrip("\n"), now)
            if is_terminal and (is_new or now - shown >= 5):
                shown = now
                print(f"\r\x1b[K{progress.text(now)}", end="", file=sys.stderr, flush=True)
            elif is_new:
                print(progress.text(now), file=sys.stderr, flush=True)
    if is_terminal:
        print("\r\x1b[K", end="", file=sys.stderr, flush=True)


def main() -> None:
    signal.signal(signal.SIGINT, signal.SIG_DFL)
    if sys.argv[1] == "copy":
        copy_below(*sys.argv[2:])
    elif sys.argv[1] == "copy-wide":
        copy_wide(*sys.argv[2:])
    else:
        tell(*sys.argv[1:])


main()
