"""What can be taken away from a desk, each file beside the commands that judge it as it stands."""

from __future__ import annotations

import shlex
from dataclasses import dataclass

from .bounds import Bounds
from .state import Certificate, Desk


@dataclass(frozen=True)
class Out:
    """A file that can be taken away, and the commands that judge it."""

    words: str
    file: str = ""
    path: str = ""
    commands: tuple[str, ...] = ()
    says: str = ""


class Outs:
    """The files of a desk as it is now."""

    def __init__(self, desk: Desk) -> None:
        """The state."""
        self.desk, self.ground = desk, desk.ground

    def rows(self, one: Certificate) -> list[Out]:
        """The files, each with the commands that judge it."""
        desk, first = self.desk, next(iter(self.desk.certificates.values()))
        net, cert, command = self.net_file(one), self.cert_file(one), self.ground.command
        modes = " ".join(self.ground.modes)
        now = desk.shown
        rows = []
        steps = desk.steps
        if steps:
            says = f"show {_pair(now)}" if isinstance(now, Bounds) else ""
            rows.append(Out("The script of the edits", f"{self.stem}-edits.script", "/out/script",
                            (f"{command} whatif {net} {cert} {self.stem}-edits.script",), says))
        if desk.history.done:
            rows.append(Out("The edited network", f"{self.stem}-edited.net", "/out/edited", (f"{command} solve {self.stem}-edited.net {modes}",)))
        rows.append(Out(f"The certificate {one.name}", cert, "/out/certificate", (f"{command} check {net} {cert}",), one.bounds.line))
        if self.ground.net is None:
            rows.append(Out("The network as it was read, whose name is no text that the program takes", self.read_file, "/out/read",
                            (f"{command} print {self.read_file}",)))
        if one.network is not self.ground.text:
            rows.append(Out(f"The network that {one.name} is of", net, "/out/network", (f"{command} print {net}",)))
        page = f"{self.stem}-{one.name}.html"
        rows.append(Out(f"The report page of {one.name}" + (", without the edits behind it" if steps else ""), page, "/out/report",
                        (f"tools/report {net} {cert} --html {page} {self.title}",)))
        if one is not first:
            both = f"{self.stem}-before-after.html"
            words = f"{self.net_file(first)} {self.cert_file(first)} {cert} --net2 {net}"
            rows.append(Out(f"The report page of {first.name} and {one.name} side by side", both, "/out/both",
                            (f"tools/report {words} --html {both} {self.title}",)))
        return rows

    @property
    def stem(self) -> str:
        """The front of the names of files: letters, digits and lines alone."""
        clean = "".join(c if c.isascii() and (c.isalnum() or c in "-_") else "-" for c in self.ground.stem).strip("-")
        return clean[:60] or "network"

    @property
    def read_file(self) -> str:
        """The file that was read, as a word of a shell; where the program takes no such name, that of its download."""
        return f"{self.stem}.net" if self.ground.net is None else _quoted(self.ground.net)

    @property
    def title(self) -> str:
        """The option of the title."""
        return f"--title{'=' if self.ground.stem.startswith('-') else ' '}{shlex.quote(self.ground.stem)}"

    def net_file(self, one: Certificate) -> str:
        """The network file of a certificate, as a word of a shell."""
        return self.read_file if one.network is self.ground.text else f"{self.stem}-{one.name}.net"

    def cert_file(self, one: Certificate) -> str:
        """The file of a certificate, likewise."""
        return f"{self.stem}-{one.name}.cert"


def _quoted(path: str) -> str:
    """A path as a word of a shell that is no option."""
    return shlex.quote(f"./{path}" if path.startswith("-") and path != "-" else path)


def _pair(bounds: Bounds) -> str:
    """Both bounds as the program's lines have them."""
    return f"lower {bounds.lower} {bounds.lower_decimal} upper {bounds.upper} {bounds.upper_decimal}"
