"""How far a build is, told from the lines that rt writes."""

from __future__ import annotations

import re
from dataclasses import dataclass, field

from .crates import Crate

# what all proofs take on four quiet processors, in seconds; taken until there is something to go by
USUAL = 22 * 60.0
_ENDS = re.compile(r"rt: (\S+) (?:proved$|is kept\b)")


@dataclass
class Progress:
    """The crates of a build, which are proved side by side, and what was seen of them so far; times in seconds."""

    crates: list[Crate]
    since: float
    done: set[str] = field(default_factory=set)
    proved_lines: int = 0
    proved_seconds: float = 0.0

    def see(self, line: str, now: float) -> bool:
        """Takes a line of rt into account, and returns whether it told something new: that one crate more is proved."""
        ends = _ENDS.match(line)
        if ends is None or ends[1] in self.done or ends[1] not in [crate.name for crate in self.crates]:
            return False
        self.done.add(ends[1])
        # the crate's lines, and the time since the last one, are what proofs take here
        self.proved_lines += self._lines({ends[1]})
        self.proved_seconds += now - self.since
        self.since = now
        return True

    def _lines(self, names: set[str]) -> int:
        """The lines of crates."""
        return sum(crate.lines for crate in self.crates if crate.name in names)

    def left(self, now: float) -> float:
        """About how many seconds are left: as many a line as so far, beside the usual time for a tenth of all lines."""
        every = max(1, sum(crate.lines for crate in self.crates))
        a_line = (USUAL / 10 + self.proved_seconds) / (every / 10 + self.proved_lines)
        waiting = self._lines({crate.name for crate in self.crates} - self.done)
        return max(0.0, a_line * waiting - (now - self.since))

    def text(self, now: float) -> str:
        """The line for the user."""
        return f"mcf: {len(self.done)} of {len(self.crates)} crates are proved; {_minutes(self.left(now))} left"


def _minutes(seconds: float) -> str:
    """A time as a person says it."""
    minutes = round(seconds / 60)
    return "less than a minute" if minutes < 1 else f"about {minutes} minute{'s' if minutes > 1 else ''}"
