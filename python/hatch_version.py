"""The version, for hatchling: that of the file VERSION at the top of the repository, whose copy stands beside in a source distribution."""

from pathlib import Path

HERE = Path(__file__).resolve().parent
__version__ = next(file for file in (HERE / "VERSION", HERE.parent / "VERSION") if file.is_file()).read_text().strip()
