"""The old name of the package `mcf` in the folder python, kept for one release: the names of its core, and the same modules."""
import sys
from pathlib import Path as _Folder
sys.path.insert(0, str(_Folder(__file__).resolve().parents[2] / "python"))
from mcf.texts import *  # noqa: E402,F401,F403
from mcf.texts import __all__, name_modules as _name_modules  # noqa: E402,F401
_name_modules(__name__)
