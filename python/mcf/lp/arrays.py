"""Names of arrays of numbers, for types alone."""

from typing import Any

import numpy.typing as npt

Array = npt.NDArray[Any]
"""Numbers of any kind, whole or not; what a function wants of them its docstring says."""
