"""The errors of the package: what a text may have wrong, and how a run of the program may end without an answer.

`TextError` is a `ValueError`: a text, a name or a number is not what was expected. All others are an `McfError`. The message of each
is one line for people.
"""

from __future__ import annotations

import re

# (as in typing, which would have to be imported)
TYPE_CHECKING = False
if TYPE_CHECKING:
    from collections.abc import Iterable
    from typing import Self

_PLACE = re.compile(r"(?P<file>.+?):? line (?P<line>\d+): ")


def one_line(text: str) -> str:
    """The text as one line: control characters, line ends and bytes that are no text are escaped."""
    return "".join(c if c.isprintable() else c.encode("unicode_escape", "surrogatepass").decode("ascii") for c in text)


def place_of(sentence: str, files: Iterable[str]) -> tuple[str | None, int | None]:
    """The file that a line for people begins with, if it is one of these, as it was named, and the line of it that is told behind it."""
    shown = {one_line(file): file for file in files if file}
    found = _PLACE.match(sentence)
    if found and found["file"] in shown:
        return shown[found["file"]], int(found["line"])
    return next((file for name, file in shown.items() if sentence.startswith(f"{name}: ")), None), None


class TextError(ValueError):
    """A text, a name or a program that is not what was expected; the message is one line for the user.

    kind: a word for what sort of trouble it is, as docs/study/json.md lists them. code: that of a refusal or of a failed condition, as
    `N4` or `C3`. file, line: where it lies. Each of these is None where it is not known.
    """

    kind: str = "text"
    code: str | None = None
    file: str | None = None
    line: int | None = None

    def at(self, file: str | None = None, line: int | None = None, *, kind: str | None = None, code: str | None = None) -> Self:
        """The same, with what is known of it beside the message."""
        self.file, self.line, self.code, self.kind = file, line, code, kind or self.kind
        return self

    def led(self, front: str, names: dict[str | None, str] | None = None) -> TextError:
        """The same behind some words; `names` are those of files that have others here, as temporary ones."""
        file = (names or {}).get(self.file, self.file)
        return TextError(f"{front}{self}").at(file, self.line, kind=self.kind, code=self.code)


class McfError(Exception):
    """A run that gave no answer; above all errors of runs."""


class NoProgram(McfError):
    """There is no program at that path, or it may not be run, or it does not answer as mcf does."""


class Usage(McfError):
    """Status 2: an option has a value that the program does not take. The message names the first one and what it may be."""


class Refused(McfError):
    """Status 3: a text is refused for its first fault, or more work is asked for than is taken.

    kind: `N1` to `N11`, `K1` to `K6`, `S1` to `S6`, `M1` to `M8` or `TooLong`, as docs/judge/formats.md lists them; `work`; or `convert`, if
        a file of another format could not be made a network.
    file: which text: `net`, `cert`, `cert2`, `script`, `list` or `work`; the path, if a file was read.
    line: the line of that text, from 1; None where the kind has none.
    sentence: what the kind means and what mostly causes it.
    said: the program's own line.
    """

    def __init__(self, kind: str, file: str, line: int | None, sentence: str, said: str) -> None:
        """All that is known of the refusal."""
        super().__init__(kind, file, line, sentence, said)
        self.kind, self.file, self.line, self.sentence, self.said = kind, file, line, sentence, said

    def __str__(self) -> str:
        """The program's line, and the sentence."""
        return f"{self.said}: {self.sentence}" if self.said else self.sentence


class Invalid(McfError):
    """A certificate or routing that the proved check calls invalid, where a valid one is needed.

    condition: the first condition that fails, `C1` to `C10`.
    said: the program's own line.
    """

    def __init__(self, condition: str, sentence: str, said: str) -> None:
        """The condition, what it means, and the program's line."""
        super().__init__(condition, sentence, said)
        self.condition, self.sentence, self.said = condition, sentence, said

    def __str__(self) -> str:
        """The program's line, and the sentence."""
        return f"{self.said}: {self.sentence}"


class ReadFault(McfError):
    """Status 4: a file could not be read."""


class WriteFault(McfError):
    """Status 5: the program could not write its answer."""


class NoMemory(McfError):
    """Status 6: the program ran out of memory."""


class Timeout(McfError, TimeoutError):
    """The time of `timeout=` was over; the program was ended, and nothing of it is left."""


_KINDS: tuple[tuple[type[BaseException], str], ...] = (
    (KeyboardInterrupt, "interrupted"), (Refused, "refused"), (Invalid, "invalid"), (Usage, "usage"), (ReadFault, "file"),
    (WriteFault, "file"), (NoMemory, "memory"), (MemoryError, "memory"), (Timeout, "timeout"), (McfError, "program"), (OSError, "file"))


def kind_of(fault: BaseException) -> str:
    """The word for what sort of trouble a fault is."""
    return fault.kind if isinstance(fault, TextError) else next((kind for of, kind in _KINDS if isinstance(fault, of)), "internal")
