"""The Debian package: what is in it, that the same files give the same bytes, and that it works in a fresh root."""

from __future__ import annotations

import hashlib
import os
import re
import shutil
import subprocess
from dataclasses import dataclass
from pathlib import Path

import pytest

from mcf import Program
from mcf.release.deb import deb, debian_version, depends
from mcf.release.missing import MissingPackages, require
from mcf.release.pages import scripts
from mcf.release.staged import Release

for module, package in (("shtab", "python3-shtab"), ("build_manpages", "python3-argparse-manpage")):
    pytest.importorskip(module, reason=f"{package} is missing: tools/setup --tests")
if not all(map(shutil.which, ("dh", "dh_python3", "dpkg-shlibdeps", "dpkg", "make"))):
    pytest.skip("debhelper, dh-python, dpkg-dev or make is missing: tools/setup --tests", allow_module_level=True)

STANDS_IN = Path("/bin/true")
EPOCH = 1_700_000_000
TOOLS = tuple(scripts(Path(__file__).resolve().parents[2]))


@dataclass(frozen=True)
class Root:
    """A root of its own with the package unpacked by dpkg, and a folder with examples; nothing of the repository is on any path."""

    top: Path
    room: Path
    file: Path

    def said(self, name: str, *words: str) -> str:
        """What a program of the root writes, which has to end with status 0 and say nothing more."""
        env = {"PATH": f"{self.top}/usr/bin:/usr/bin:/bin", "PYTHONPATH": f"{self.top}/usr/lib/python3/dist-packages", "PYTHONDONTWRITEBYTECODE": "1"}
        ran = subprocess.run([str(self.top / "usr/bin" / name), *words], cwd=self.room, env=env, capture_output=True, text=True,
                             encoding="latin-1", check=False)
        assert (ran.returncode, ran.stderr) == (0, ""), (name, words, ran.stderr)
        return ran.stdout

    def field(self, name: str) -> str:
        """A field of the package."""
        return subprocess.run(["dpkg-deb", "-f", str(self.file), name], capture_output=True, text=True, check=True).stdout.strip()


@pytest.fixture(scope="module")
def fresh(root: Path, program: Program, tmp_path_factory: pytest.TempPathFactory) -> Root:
    """The package of the program in a fresh root."""
    room = tmp_path_factory.mktemp("deb")
    name, data = deb(Release(root, Path(program.path), EPOCH))
    (room / name).write_bytes(data)
    top = room / "root"
    for folder in ("info", "updates", "triggers", "parts"):
        (top / "var/lib/dpkg" / folder).mkdir(parents=True)
    (top / "var/lib/dpkg/status").write_text("")
    words = ["dpkg", f"--root={top}", "--force-depends", "--force-not-root", "--log=/dev/null", "--unpack", str(room / name)]
    subprocess.run(words, check=True, capture_output=True)
    for example in ("triangle.net", "polska.net", "polska.cert"):
        shutil.copy(root / "examples" / example, room)
    return Root(top, room, room / name)


def test_the_package_names_what_it_stands_on(fresh: Root, root: Path) -> None:
    assert fresh.file.name == f"mcf_{debian_version((root / 'VERSION').read_text().strip())}_amd64.deb"
    wanted = fresh.field("Depends").split(", ")
    assert set(depends(root)) <= set(wanted) and any(re.fullmatch(r"libc6 \(>= 2\.[0-9]+\)", one) for one in wanted)
    setup = re.search(r'^packages="([^"]*)"', (root / "tools/setup").read_text(), re.M)
    assert setup is not None
    assert {one.partition(" ")[0] for one in depends(root)} == set(setup[1].split()) - {"python3-pytest"}


def test_the_package_has_program_tools_pages_and_completions(fresh: Root, program: Program) -> None:
    assert (fresh.top / "usr/bin/mcf").read_bytes() == Path(program.path).read_bytes()
    for name in ("mcf", *TOOLS):
        for file in (f"bin/{name}", f"share/man/man1/{name}.1.gz", f"share/bash-completion/completions/{name}",
                     f"share/zsh/vendor-completions/_{name}"):
            assert (fresh.top / "usr" / file).is_file(), file
    package = fresh.top / "usr/lib/python3/dist-packages/mcf"
    assert (package / "report/templates/report.html").is_file() and (package / "py.typed").is_file()
    assert not [left for left in ("build", "release", "cli/release.py", "__pycache__") if (package / left).exists()]
    assert {file.name for file in (fresh.top / "usr/bin").iterdir()} == {"mcf", *TOOLS}
    assert all(file.stat().st_mode & 0o777 == 0o755 for file in (fresh.top / "usr/bin").iterdir())


def test_the_package_solves_and_checks(fresh: Root, root: Path) -> None:
    assert fresh.said("mcf", "solve", "triangle.net", "--workers", "1") == (root / "examples/triangle.cert").read_text()
    assert fresh.said("mcf", "check", "polska.net", "polska.cert").startswith("valid closed undirected largest ")


def test_the_package_reports_and_certifies(fresh: Root) -> None:
    assert fresh.said("mcf-report", "polska.net", "polska.cert", "--html", "polska.html").startswith("Not every demand fits: ")
    assert (fresh.room / "polska.html").read_text().startswith("<!DOCTYPE html>")
    (fresh.room / "best.cert").write_text(fresh.said("mcf-certify", "triangle.net"))
    assert fresh.said("mcf", "check", "triangle.net", "best.cert").startswith("valid closed undirected largest ")


def test_each_tool_of_the_package_tells_its_version(fresh: Root) -> None:
    package = fresh.top / "usr/lib/python3/dist-packages/mcf"
    version, commit = ((package / name).read_text().strip() for name in ("VERSION", "COMMIT"))
    assert {fresh.said(tool, "--version") for tool in TOOLS} == {f"mcf {version} ({commit})\n"}


def test_missing_packages_are_said_as_debian_installs_them(fresh: Root) -> None:
    place = fresh.top / "usr/lib/python3/dist-packages"
    code = f"import sys; sys.path.insert(0, {str(place)!r}); sys.argv = ['show', 'x.net']; from mcf.cli.show import main; main()"
    ran = subprocess.run(["/usr/bin/python3", "-I", "-S", "-B", "-c", code], capture_output=True, text=True, check=False)
    assert (ran.returncode, ran.stdout) == (2, "")
    assert ran.stderr.startswith("show: Debian's packages are missing: apt-get install python3-") and "tools/setup" not in ran.stderr


def test_the_package_is_installed_and_purged_without_a_trace(fresh: Root) -> None:
    room = fresh.room / "layers"
    code = """
set -e
mkdir -p "$1" && mount -t tmpfs tmpfs "$1" && mkdir "$1/up" "$1/work" "$1/root"
mount -t overlay overlay -o "lowerdir=/,upperdir=$1/up,workdir=$1/work" "$1/root" && mount -t tmpfs tmpfs "$1/root/tmp"
mkdir "$1/root/tmp/room" && cp "$2" "$3"/polska.* "$1/root/tmp/room" || exit 77
exec chroot "$1/root" sh -e -c '
    cd /tmp/room
    find /usr /etc /var/lib/dpkg/info -path "*mcf*" | sort >../before
    dpkg -i ./*.deb >../log 2>&1 || { cat ../log; exit 1; }
    command -v mcf && command -v mcf-report && mcf check polska.net polska.cert
    mcf-report polska.net polska.cert --html polska.html && test -s polska.html
    mcf-certify polska.net --gap 0.05 --seconds 60 | head -n 1
    test -d /usr/lib/python3/dist-packages/mcf/__pycache__ && dpkg -V mcf
    dpkg --purge mcf >../log 2>&1 || { cat ../log; exit 1; }
    find /usr /etc /var/lib/dpkg/info -path "*mcf*" | sort >../after && diff ../before ../after && echo clean'
"""
    probe = ["unshare", "-m", "sh", "-c", 'mkdir -p "$1" && mount -t tmpfs tmpfs "$1" && mkdir "$1/u" "$1/w" "$1/m" && mount -t overlay overlay '
             '-o "lowerdir=/,upperdir=$1/u,workdir=$1/w" "$1/m" && chroot "$1/m" true', "sh", str(room)]
    if os.geteuid() != 0 or subprocess.run(probe, capture_output=True, check=False).returncode != 0:
        pytest.skip("layers of a file system, for a root of its own, are for root where the system allows them")
    words = ["unshare", "-m", "sh", "-c", code, "sh", str(room), str(fresh.file), str(fresh.room)]
    env = {"PATH": "/usr/sbin:/usr/bin:/sbin:/bin", "DEBIAN_FRONTEND": "noninteractive"}
    ran = subprocess.run(words, capture_output=True, text=True, env=env, check=False)
    assert (ran.returncode, ran.stderr) == (0, ""), ran.stdout + ran.stderr
    lines = ran.stdout.splitlines()
    assert lines[:2] == ["/usr/bin/mcf", "/usr/bin/mcf-report"] and lines[2].startswith("valid closed ")
    assert lines[3].startswith("Not every demand fits: ") and lines[4:] == ["mcf-certificate 2", "clean"]


def test_the_same_files_give_the_same_bytes(small_repository: Path) -> None:
    release = Release(small_repository, STANDS_IN, EPOCH)
    name, data = deb(release)
    (small_repository / "python/mcf/__pycache__").mkdir()
    for leftover in ("mcf/left_over.py", "mcf/__pycache__/x.cpython-311.pyc", "mcf/COMMIT"):
        (small_repository / "python" / leftover).write_text("1\n")
    for file in (small_repository / "python/mcf").glob("*.py"):
        file.chmod(0o600)
        os.utime(file, (1, 1))
    old = os.umask(0o077)
    try:
        again = deb(release)
    finally:
        os.umask(old)
    assert (again[0], hashlib.sha256(again[1]).hexdigest()) == (name, hashlib.sha256(data).hexdigest())


def test_versions_are_ordered_as_debian_orders_them() -> None:
    assert debian_version("1.2.3") == "1.2.3" and debian_version("1.2.3-rc.1") == "1.2.3~rc.1"
    assert subprocess.run(["dpkg", "--compare-versions", "1.2.3~rc.1", "lt", "1.2.3"], check=False).returncode == 0


def test_missing_packages_are_named_in_one_line() -> None:
    with pytest.raises(MissingPackages) as why:
        require({"python3-nothing": "nothing_of_this_name", "python3": "sys"}, {"nothing": "nothing-of-this-name", "dpkg": "dpkg"})
    assert str(why.value) == "Debian's packages are missing: python3-nothing, nothing; tools/setup --tests installs them"
