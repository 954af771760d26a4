"""Man pages and completions of the tools, made from their parsers, and a completion of the program from the table of its words."""

from __future__ import annotations

import argparse
import re
import textwrap
import time
import tomllib
from importlib import import_module
from pathlib import Path

from mcf.errors import TextError
from mcf.hints.words import COMMANDS, MODES
from mcf.needs import needed
from mcf.version import version

from .missing import require
from .staged import Release

TITLE = '.TH MCF 1 "2026" "mcf"'
_FILES = frozenset({"NET", "NET2", "CERT", "CERT2", "LIST", "SCRIPT", "FILE", "OUT", "PATH", "FROM", "TO"})
_NAMES = re.compile(r"\btools/([a-z]+)")
_HEADINGS = {"examples": "EXAMPLES", "status": "EXIT STATUS"}


def scripts(root: Path) -> dict[str, str]:
    """The tools that a release installs, each with its module and function, as the project's file has them."""
    project = tomllib.loads((root / "python/pyproject.toml").read_text("utf-8"))["project"]
    return dict(sorted(project["scripts"].items()))


def parsers(root: Path) -> dict[str, argparse.ArgumentParser]:
    """The parser of each tool, under the name that it is installed by."""
    with needed():
        found = {name: import_module(entry.partition(":")[0]).options() for name, entry in scripts(root).items()}
    for name, parser in found.items():
        parser.prog = name
    return found


def program_parser(name: str) -> argparse.ArgumentParser:
    """The words of the proved program, or of that with wide limits, as its hints know them, for completion alone."""
    parser = argparse.ArgumentParser(prog=name, add_help=False)
    commands = parser.add_subparsers(dest="command", metavar="COMMAND")
    for name, command in COMMANDS.items():
        words = commands.add_parser(name, add_help=False, help=command.taken)
        for place in command.words:
            words.add_argument(place, metavar=place)
        for place in command.spare:
            words.add_argument(place, metavar=place, nargs="?")
        for option in command.options:
            words.add_argument(option, choices=MODES.get(option))
    return parser


def shared_files(release: Release, zsh: str) -> dict[str, str]:
    """The files below share/ by their names there: pages, and completions of bash and zsh, the latter in a folder of that name."""
    require({"python3-argparse-manpage": "build_manpages", "python3-shtab": "shtab"})
    import shtab

    tools = parsers(release.root)
    files = {f"man/man1/{name}.1": page(parser, release.seconds) for name, parser in tools.items()}
    files |= {f"man/man1/{name}.1": ".so man1/mcf.1\n" for name in release.programs}
    files["man/man1/mcf.1"] = titled((release.root / "docs/mcf.1").read_text("utf-8"), version())
    for name, parser in {**{name: program_parser(name) for name in release.programs}, **tools}.items():
        _prepare(parser, shtab.FILE, shtab.DIRECTORY)
        files[f"bash-completion/completions/{name}"] = _with_all_choices(shtab.complete(parser, "bash"))
        files[f"zsh/{zsh}/_{name}"] = shtab.complete(parser, "zsh")
    return files


def page(parser: argparse.ArgumentParser, seconds: int) -> str:
    """The man page of a tool."""
    from build_manpages.manpage import Manpage

    texts = _sections(f"{parser.description or ''}\n\n{parser.epilog or ''}", parser.prog)
    first = texts["DESCRIPTION"].partition("\n\n")[0]
    sentence = re.split(r"[.:;](?:\s|$)", " ".join(first.split()))[0]
    parser.man_short_description = sentence[:1].lower() + sentence[1:]  # type: ignore[attr-defined]
    parser.description, parser.epilog = None, None
    made = Manpage(parser)
    made.synopsis = parser.format_usage().removeprefix("usage: ").split()
    day = time.strftime("%Y-%m-%d", time.gmtime(seconds))
    title = f'.TH "{parser.prog.upper()}" 1 "{day}" "mcf {version()}" "User commands"\n'
    head, mark, options = _NAMES.sub(r"mcf\\-\1", str(made)).partition("\n")[2].partition(".SH OPTIONS\n")
    parts = {name: f".SH {name}\n{_roff(text)}" for name, text in texts.items() if text}
    return title + head + parts.pop("DESCRIPTION") + mark + options + "".join(parts.values())


def titled(text: str, version: str) -> str:
    """The program's man page with the version in its title."""
    if not text.startswith(TITLE):
        raise TextError(f"docs/mcf.1 does not begin with {TITLE}")
    return TITLE[:-1] + f' {version}"' + text[len(TITLE) :]


def _sections(text: str, prog: str) -> dict[str, str]:
    """The paragraphs of a text by the headings of a man page; tools have the names that they are installed by."""
    named = _NAMES.sub(r"mcf-\1", text)
    named = re.sub(rf"^(\s+){prog.removeprefix('mcf-')}(?= )", rf"\1{prog}", named, flags=re.M)
    found = {"DESCRIPTION": "", **dict.fromkeys(_HEADINGS.values(), "")}
    for paragraph in re.split(r"\n\s*\n", named.strip("\n")):
        word, colon, rest = paragraph.partition(":")
        heading = _HEADINGS.get(word.strip().lower()) if colon else None
        body = paragraph if heading is None else rest.lstrip(" ").removeprefix("\n")
        found[heading or "DESCRIPTION"] += f"{textwrap.dedent(body)}\n\n"
    return found


def _roff(text: str) -> str:
    """Paragraphs for man: filled, or line by line where one is indented or is a table."""
    return "".join(_paragraph(one) for one in re.split(r"\n\s*\n", text.strip("\n")))


def _paragraph(text: str) -> str:
    """One paragraph."""
    lines = [line.replace("\\", "\\e").replace("-", "\\-") for line in text.splitlines()]
    is_table = any(re.search(r"^\s|\S {2,}\S", line) for line in lines)
    shown = lines if is_table else [" ".join(lines)]
    body = "".join(f"\\&{line}\n" if line[:1] in (".", "'") else f"{line}\n" for line in shown)
    return f".PP\n.nf\n{body}.fi\n" if is_table else f".PP\n{body}"


def _with_all_choices(completion: str) -> str:
    """A completion for bash with all choices of a word in place of the first, which is all that this version of shtab takes."""
    every = completion.replace('_choices_var="${current_action}_choices"', '_choices_var="${current_action}_choices[@]"')
    return every.replace('"${!current_action_choices_var}"', """"$(printf '%s\\n' "${!current_action_choices_var}")\"""")


def _prepare(parser: argparse.ArgumentParser, file: dict[str, str], folder: dict[str, str]) -> None:
    """Makes a parser fit for shtab: choices are a list, and words that name files are completed by names of files."""
    for action in parser._actions:
        if isinstance(action, argparse._SubParsersAction):
            for child in action.choices.values():
                _prepare(child, file, folder)
        elif action.choices is not None:
            action.choices = [str(choice) for choice in action.choices]
        elif action.metavar in _FILES:
            action.complete = file  # type: ignore[attr-defined]
        elif action.metavar == "FOLDER":
            action.complete = folder  # type: ignore[attr-defined]
