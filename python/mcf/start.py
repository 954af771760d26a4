"""What a tool begins with, before it imports what takes long: a signal that comes meanwhile is one line and status 130 too.

Nothing has to be tidied up then. `output.main_of` takes the signals over once the tool is imported.
"""

from __future__ import annotations

import os
import signal
import sys
from types import FrameType

_CLI = os.path.join(os.path.dirname(os.path.abspath(__file__)), "cli")
_SIGNALS = (signal.SIGINT, signal.SIGTERM, signal.SIGHUP)


def begin() -> None:
    """Has signals end the process, where that is a tool; in any other one nothing is changed."""
    if os.path.isfile(os.path.join(_CLI, f"{_name()}.py")):
        for number in _SIGNALS:
            if signal.getsignal(number) != signal.SIG_IGN:
                signal.signal(number, _end)


def _name() -> str:
    """The name of the tool, by that of its script."""
    return os.path.basename(sys.argv[0] if sys.argv else "").removeprefix("mcf-")


def _end(number: int, _: FrameType | None) -> None:
    """Ends the process."""
    why = "interrupted" if number == signal.SIGINT else f"ended by {signal.Signals(number).name}"
    try:
        os.write(2, f"{_name()}: {why}\n".encode())
    finally:
        os._exit(130)
