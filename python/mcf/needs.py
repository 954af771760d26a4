"""The packages of Debian that hold what the tools import beside Python's own library."""

from __future__ import annotations

from collections.abc import Iterator, Sequence
from contextlib import contextmanager
from importlib.util import find_spec

from .children import HeldSignals
from .errors import TextError
from .version import PACKAGE, TOP

HAS_SETUP = (TOP / "tools/setup").is_file()
IS_DEBIANS = PACKAGE.parent.name == "dist-packages" and PACKAGE.parent.parts[:3] != ("/", "usr", "local")

PACKAGES = {
    "dask": "python3-dask", "defusedxml": "python3-defusedxml", "distributed": "python3-distributed", "flask": "python3-flask",
    "jinja2": "python3-jinja2", "matplotlib": "python3-matplotlib", "networkx": "python3-networkx", "numpy": "python3-numpy",
    "pandas": "python3-pandas", "scipy": "python3-scipy", "tqdm": "python3-tqdm", "waitress": "python3-waitress",
}


@contextmanager
def needed() -> Iterator[None]:
    """Around imports alone: where one of these packages is missing, a TextError that names all that are missing.

    A signal waits for their end: some packages, broken off, say that they are missing or damaged, or go on without a part.
    """
    try:
        signals = HeldSignals()
        try:
            yield
        finally:
            signals.let_go()
    except ModuleNotFoundError as error:
        if (error.name or "").partition(".")[0] not in PACKAGES:
            raise
        raise TextError(sentence([module for module in PACKAGES if find_spec(module) is None])).at(kind="packages") from None


def sentence(modules: Sequence[str]) -> str:
    """Which packages are missing, and what installs them where this package is: in a checkout or an archive, as Debian's, or by pip."""
    debian = [PACKAGES[module] for module in modules]
    if HAS_SETUP:
        return f"Debian's packages are missing: {', '.join(debian)}; tools/setup installs them"
    by_debian = f"apt-get install {' '.join(debian)}"
    if IS_DEBIANS:
        return f"Debian's packages are missing: {by_debian}"
    return f"packages of Python are missing: pip install {' '.join(modules)}, or on Debian {by_debian}"
