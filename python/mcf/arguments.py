"""The words of a tool: what is wrong with them is one line, and an option that has one value is given once."""

from __future__ import annotations

import argparse
import sys
from collections.abc import Sequence
from typing import Any, NoReturn

from . import jsons, version
from .errors import TextError


class Arguments(argparse.ArgumentParser):
    """A tool's words, with --version and --json; names of options are not cut short."""

    def __init__(self, prog: str, description: str | None, examples: str = ""):
        form = argparse.RawDescriptionHelpFormatter
        self._behind: dict[str, str] = {}
        super().__init__(prog=prog, description=description, epilog=examples, formatter_class=form, allow_abbrev=False)
        self.register("action", None, _Once)
        self.register("action", "store", _Once)
        self.add_argument("--version", action=_Version, help="the version and the commit that it was built of, and nothing else")
        # (`jsons` looks for it among the words before they are read, since what is wrong with them is told in the object too)
        self.add_argument(jsons.OPTION, action=_Nothing, nargs=0, help="say all as one JSON object on standard output (docs/study/json.md)")

    def parse_intermixed_args(self, args: Sequence[str] | None = None, namespace: argparse.Namespace | None = None) -> argparse.Namespace:
        """Options may stand among the words; behind `--`, which Python's way of mixing them does not know, there are none."""
        words = [*(sys.argv[1:] if args is None else args)]
        at = words.index("--") if "--" in words else len(words)
        # (each word behind it stands under a name that no option and no word of a command line has)
        self._behind = {f"\0{place}\0": word for place, word in enumerate(words[at + 1 :])}
        found = super().parse_intermixed_args([*words[:at], *self._behind], namespace)
        for name, value in vars(found).items():
            if isinstance(value, list):
                setattr(found, name, [self._behind.get(word, word) if isinstance(word, str) else word for word in value])
            elif isinstance(value, str):
                setattr(found, name, self._behind.get(value, value))
        return found

    def error(self, message: str) -> NoReturn:
        """Ends with one line."""
        for name, word in self._behind.items():
            message = message.replace(name, word)
        raise TextError(f"{message} ({self.prog} --help has the words)").at(kind="usage")


class _Once(argparse.Action):
    """Keeps the value of a word that may stand once."""

    given = False

    def __call__(
        self, parser: argparse.ArgumentParser, namespace: argparse.Namespace, values: str | Sequence[Any] | None, option: str | None = None
    ) -> None:
        if self.given and option is not None:
            parser.error(f"{option} is given twice")
        self.given = option is not None
        setattr(namespace, self.dest, values)


class _Nothing(argparse.Action):
    """Keeps nothing of an option."""

    def __init__(self, option_strings: Sequence[str], dest: str, nargs: int, help: str) -> None:
        super().__init__(option_strings, argparse.SUPPRESS, nargs=nargs, default=argparse.SUPPRESS, help=help)

    def __call__(self, *_: object) -> None:
        pass


class _Version(argparse._VersionAction):
    """Tells the version and the commit, which is asked for only then."""

    def __call__(
        self, parser: argparse.ArgumentParser, namespace: argparse.Namespace, values: str | Sequence[Any] | None, option: str | None = None
    ) -> None:
        print(f"mcf {version.told()}")
        parser.exit()
