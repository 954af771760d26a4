"""What cannot be made for want of Debian's packages."""

from __future__ import annotations

import shutil
from importlib.util import find_spec

from mcf.errors import TextError


class MissingPackages(TextError):
    """Packages that a build stands on are not there."""

    def __init__(self, packages: list[str]) -> None:
        """Their names."""
        super().__init__(f"Debian's packages are missing: {', '.join(packages)}; tools/setup --tests installs them")


def require(modules: dict[str, str], commands: dict[str, str] | None = None) -> None:
    """MissingPackages unless a module or command of each package is there."""
    missing = [package for package, module in modules.items() if not _is_there(module)]
    missing += [package for package, command in (commands or {}).items() if shutil.which(command) is None]
    if missing:
        raise MissingPackages(missing)


def _is_there(module: str) -> bool:
    """Whether a module can be imported."""
    try:
        return find_spec(module) is not None
    except ValueError:
        # (what stands for it in sys.modules is no module)
        return False
