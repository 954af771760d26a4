"""The Debian package: the proved program as /usr/bin/mcf, byte for byte as it was built, the tools, the Python package and their pages."""

from __future__ import annotations

import re
import subprocess
import tempfile
import time
import tomllib
from pathlib import Path

from mcf.errors import TextError

from .archive import version_of
from .missing import require
from .pages import scripts, shared_files
from .sources import package, sources
from .staged import Release, environment, kernel_in, last_line, place, staged

_TESTS = "python3-pytest"
_DOCUMENTS = ("docs/planner", "docs/study", "docs/judge")
_SCRIPT = "#!/usr/bin/python3\nimport sys\n\nfrom {module} import {function}\n\nsys.exit({function}())\n"
_CHANGES = "mcf ({version}) unstable; urgency=medium\n\n  * Built of commit {commit}.\n\n -- {maintainer}  {time}\n"
_INSTALL = """program/* usr/bin
bin/* usr/bin
package/mcf usr/lib/python3/dist-packages
share/* usr/share
docs usr/share/doc/mcf
examples usr/share/doc/mcf
"""


def deb(release: Release) -> tuple[str, bytes]:
    """The name and the bytes of the Debian package, which debhelper makes."""
    require({}, {"debhelper": "dh", "dh-python": "dh_python3", "dpkg-dev": "dpkg-shlibdeps", "make": "make"})
    with tempfile.TemporaryDirectory() as room:
        top = Path(room, "mcf")
        lay_out(release, top)
        words = ["make", "-f", "debian/rules", "binary"]
        ran = subprocess.run(words, cwd=top, env=_environment(release), capture_output=True, text=True, check=False, umask=0o022)
        if ran.returncode != 0:
            raise TextError(f"debhelper: {_trouble(ran.stdout + ran.stderr) or f'status {ran.returncode}'}")
        made, = Path(room).glob("*.deb")
        return made.name, made.read_bytes()


def lay_out(release: Release, top: Path) -> None:
    """The folder that debhelper works in."""
    staged(release, top)
    for name, file in package(release.root).items():
        place(top / "package/mcf" / name, file.read_bytes())
    for name, data in kernel_in(release).items():
        place(top / "package/mcf" / name, data)
    for name in ("VERSION", "COMMIT"):
        place(top / "package/mcf" / name, (top / name).read_bytes())
    for name, entry in scripts(release.root).items():
        module, _, function = entry.partition(":")
        place(top / "bin" / name, _SCRIPT.format(module=module, function=function).encode(), 0o755)
    for name, text in shared_files(release, "vendor-completions").items():
        place(top / "share" / name, text.encode())
    for name, file in sources(release.root, *_DOCUMENTS, "examples").items():
        place(top / name, file.read_bytes())
    for name, text in _debian(release).items():
        place(top / "debian" / name, text.encode(), 0o755 if name == "rules" else 0o644)


def debian_version(version: str) -> str:
    """The version as Debian compares it: 1.2.3-rc.1 is before 1.2.3, as 1.2.3~rc.1."""
    return version.replace("-", "~", 1)


def depends(root: Path) -> list[str]:
    """The packages that tools/setup installs, but for that of tests, and Python as the project wants it."""
    listed = re.search(r'^packages="([^"]*)"', (root / "tools/setup").read_text("utf-8"), re.M)
    if listed is None:
        raise TextError("tools/setup has no list of packages")
    least = tomllib.loads((root / "python/pyproject.toml").read_text("utf-8"))["project"]["requires-python"].removeprefix(">=")
    return [f"python3 (>= {least})", *sorted(set(listed[1].split()) - {"python3", _TESTS})]


def _debian(release: Release) -> dict[str, str]:
    """The files of the folder debian."""
    kept = Path(__file__).parent / "debian"
    control, rules, rights = ((kept / name).read_text("utf-8") for name in ("control", "rules", "copyright"))
    maintainer = re.findall(r"^Maintainer: (.*)$", control, re.M)[0]
    when = time.strftime("%a, %d %b %Y %H:%M:%S +0000", time.gmtime(release.seconds))
    licence = (release.root / "LICENSE-MIT").read_text("utf-8").strip()
    return {
        "control": control.replace("@DEPENDS@", ", ".join(depends(release.root))),
        "rules": rules,
        "copyright": rights + "".join(f" {line or '.'}\n" for line in licence.splitlines()),
        "changelog": _CHANGES.format(version=debian_version(version_of(release.root)), commit=release.commit, maintainer=maintainer, time=when),
        "install": _INSTALL,
    }


def _environment(release: Release) -> dict[str, str]:
    """One thread packs, so that the bytes don't depend on the number of processors."""
    return {**environment(release), "DEB_RULES_REQUIRES_ROOT": "no", "DPKG_DEB_THREADS_MAX": "1"}


def _trouble(told: str) -> str:
    """The line of debhelper that says what is wrong."""
    errors = [line for line in told.splitlines() if "error" in line and not line.startswith("make")]
    return errors[-1] if errors else last_line(told)
