"""Writes the hint for a run that has ended.

usage: python3 python/mcf/hints STATUS PROGRAM WORD..      with the program's standard output as descriptor 9
"""

import os
import sys

sys.path.insert(0, os.path.dirname(os.path.dirname(os.path.dirname(os.path.abspath(__file__)))))

from mcf.hints.hint import hint  # noqa: E402

OUTPUT = 9


def main() -> None:
    """The hint on standard output, where there is one."""
    status, program, *words = sys.argv[1:]
    found = hint(int(status), program, words, OUTPUT)
    if found is not None:
        print(found)


main()
