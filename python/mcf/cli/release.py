"""Makes of the program that was built what others install without a toolchain, each with its checksum:

  archive   mcf-VERSION-x86_64-linux.tar.gz: the program with help and hints, the tools, documents and examples
  wheel     mcf_certified_flow-VERSION-py3-none-manylinux_X_Y_x86_64.whl: the program as mcf, the tools and the Python package, for pip
  deb       mcf_VERSION_amd64.deb: all that for Debian, which installs what the tools stand on
"""

from __future__ import annotations

import hashlib
import os
import tempfile
from pathlib import Path
from typing import NoReturn

from mcf import TextError, jsons
from mcf.arguments import Arguments
from mcf.limits import WIDE_NAME
from mcf.output import main_of, write
from mcf.release.archive import built_program, built_wide_program, try_archive, version_of
from mcf.release.archive import archive as pack
from mcf.release.deb import deb
from mcf.release.elf import is_program
from mcf.release.missing import MissingPackages
from mcf.release.sources import commit_seconds
from mcf.release.staged import Release
from mcf.release.wheel import wheel

ROOT = Path(__file__).resolve().parents[3]
KINDS = ("archive", "wheel", "deb")
EXAMPLES = """
examples:
  tools/release
  tools/release wheel --to /tmp/dist
  tools/release archive --mcf /somewhere/mcf

The program has to be built (./mcf once); the one with wide limits goes along where ./mcf-wide built it. The archive is unpacked and tried before anything is kept. The same files and the same last
commit give the same bytes; SOURCE_DATE_EPOCH stands for the time of the commit. Of the sources those are taken that git knows.

status: 0 all is made; 1 something is not, for which a package of Debian is missing; 2 no more is made than is named
"""


def options() -> Arguments:
    """The grammar of the words."""
    parser = Arguments("release", __doc__, EXAMPLES)
    parser.add_argument("kinds", nargs="*", metavar="KIND", help=f"what is made: {', '.join(KINDS)} [all]")
    parser.add_argument("--mcf", metavar="PATH", type=Path, help="the program to ship, in place of the one that was built here")
    parser.add_argument("--wide", metavar="PATH", type=Path, help="the program with wide limits to ship beside it, likewise")
    parser.add_argument("--to", metavar="FOLDER", type=Path, default=ROOT / "dist", help="where the files go [dist]")
    return parser


def archive(release: Release) -> tuple[str, bytes]:
    """The name and the bytes of the archive."""
    name, data = pack(release)
    return f"{name}.tar.gz", data


def release_of(program: Path | None, wide: Path | None) -> Release:
    """What is released: the programs given or built here, which work in an archive."""
    found, wide = program or built_program(ROOT), wide or built_wide_program(ROOT)
    for file in (found, wide):
        if file and not (file.is_file() and is_program(file)):
            raise TextError(f"{file} is no program for Linux on x86-64").at(str(file), kind="program")
    release = Release(ROOT, found, commit_seconds(ROOT), wide)
    try_archive(*pack(release), version_of(ROOT))
    if wide is None:
        jsons.note(f"without {WIDE_NAME}, which was not built of these sources: ./{WIDE_NAME} builds it, or --wide names one", "tools/release")
    return release


def require_folder(folder: Path) -> None:
    """Refuses, before any work, a folder in which no file can be made, or that cannot be made itself."""
    there = next(place for place in (folder.absolute(), *folder.absolute().parents) if os.path.lexists(place))
    try:
        with tempfile.TemporaryFile(dir=there):
            pass
    except OSError as why:
        raise TextError(f"{folder}: {why.strerror}").at(str(folder), kind="file") from None


def keep(folder: Path, name: str, data: bytes) -> Path:
    """Writes a file and its checksum."""
    folder.mkdir(parents=True, exist_ok=True)
    write(str(folder / name), data)
    write(str(folder / f"{name}.sha256"), f"{hashlib.sha256(data).hexdigest()}  {name}\n".encode())
    return folder / name


def released() -> int:
    """The status of the words that the process has; the names of the files are told on standard output."""
    parser = options()
    words = parser.parse_args()
    others = [kind for kind in words.kinds if kind not in KINDS]
    if others:
        parser.error(f"{others[0]} is not made: the kinds are {', '.join(KINDS)}")
    require_folder(words.to)
    release = release_of(words.mcf, words.wide)
    makers = {"archive": archive, "wheel": wheel, "deb": deb}
    made: list[dict[str, object]] = []
    missing: list[dict[str, object]] = []
    for kind in [kind for kind in KINDS if kind in (words.kinds or KINDS)]:
        try:
            name, data = makers[kind](release)
        except MissingPackages as why:
            jsons.note(f"no {kind}: {why}", "tools/release")
            missing.append({"kind": kind, "why": str(why)})
        else:
            file = keep(words.to, name, data)
            jsons.say(str(file))
            made.append({"kind": kind, "file": file, "bytes": len(data), "sha256": hashlib.sha256(data).hexdigest()})
    jsons.put(files=made, missing=missing)
    return 1 if missing else 0


def main() -> NoReturn:
    """One run, which ends the process."""
    main_of(released, "tools/release")


if __name__ == "__main__":
    main()
