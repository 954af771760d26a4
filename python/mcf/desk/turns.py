"""Work beside requests: of questions that come while one is asked only the newest counts, and one long piece of work runs at a time."""

from __future__ import annotations

import threading
import time
from collections.abc import Callable

from ..errors import McfError, TextError
from ..output import one_line
from .child import Stopped, Work


class Newest:
    """Asks one question at a time; whoever waits lets go when somebody comes later."""

    def __init__(self) -> None:
        """Nobody asks."""
        self._turn = threading.Condition()
        self._last = 0
        self._busy = False

    def ask(self, question: Callable[[], None]) -> bool:
        """Asks, once nobody else does; False, and nothing is asked, where somebody came later."""
        with self._turn:
            self._last += 1
            mine = self._last
            self._turn.notify_all()
            while self._busy and mine == self._last:
                self._turn.wait()
            if mine != self._last:
                return False
            self._busy = True
        try:
            question()
            return True
        finally:
            with self._turn:
                self._busy = False
                self._turn.notify_all()


class Job:
    """A long piece of work in a thread of its own: what it is, since when it runs, and how it ended."""

    def __init__(self, title: str, run: Callable[[Work], str], ended: Callable[[], None]) -> None:
        """Begins at once; `run` returns what is said at its end."""
        self.title, self.work, self.said, self.trouble = title, Work(), "", ""
        self.running = True
        self._began = time.monotonic()
        self._took = 0.0
        self._run, self._ended = run, ended
        self.thread = threading.Thread(target=self._go, daemon=True)

    def begin(self) -> None:
        """Begins."""
        self.thread.start()

    @property
    def seconds(self) -> int:
        """How long it has been running, or ran."""
        return int(time.monotonic() - self._began if self.running else self._took)

    def stop(self) -> None:
        """Ends its children, and so the work."""
        self.work.stop()

    def _go(self) -> None:
        """Runs to the end, whatever that is."""
        try:
            self.said = self._run(self.work)
        except Stopped:
            self.trouble = "stopped; nothing was changed"
        except (McfError, TextError, OSError, MemoryError) as why:
            self.trouble = one_line(str(why) or "out of memory")
        except Exception as why:
            self.trouble = one_line(f"internal error: {type(why).__name__}: {why}")
        finally:
            self._took = time.monotonic() - self._began
            self.running = False
            self._ended()
