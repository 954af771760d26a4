"""CLP, the linear-programming solver, by its C interface."""

from __future__ import annotations

import ctypes
import threading
from ctypes import POINTER, c_double, c_int, c_void_p
from typing import Callable, Sequence

import numpy as np
from scipy.sparse import csc_matrix

from mcf import TextError
from mcf.needs import HAS_SETUP

from .arrays import Array

LIBRARIES = ("libClp.so.1", "libClp.so")

BASIC, AT_UPPER, AT_LOWER = 1, 2, 3

_FUNCTIONS: dict[str, tuple[object, Sequence[object]]] = {
    "newModel": (c_void_p, ()),
    "deleteModel": (None, (c_void_p,)),
    "loadProblem": (None, (c_void_p, c_int, c_int) + (c_void_p,) * 8),
    "setLogLevel": (None, (c_void_p, c_int)),
    "setMaximumSeconds": (None, (c_void_p, c_double)),
    "setPrimalTolerance": (None, (c_void_p, c_double)),
    "setDualTolerance": (None, (c_void_p, c_double)),
    "copyinStatus": (None, (c_void_p, c_void_p)),
    "statusArray": (c_void_p, (c_void_p,)),
    "primal": (c_int, (c_void_p, c_int)),
    "dual": (c_int, (c_void_p, c_int)),
    "initialSolve": (c_int, (c_void_p,)),
    "status": (c_int, (c_void_p,)),
    "objectiveValue": (c_double, (c_void_p,)),
    "primalColumnSolution": (POINTER(c_double), (c_void_p,)),
    "dualRowSolution": (POINTER(c_double), (c_void_p,)),
}


def load_clp() -> ctypes.CDLL:
    """CLP's library with its calls declared; TextError where it is missing."""
    for name in LIBRARIES:
        try:
            library = ctypes.CDLL(name)
        except OSError:
            continue
        for function, (result, arguments) in _FUNCTIONS.items():
            call = getattr(library, f"Clp_{function}")
            call.restype, call.argtypes = result, list(arguments)
        return library
    raise TextError(f"CLP is missing: {'run tools/setup, or install coinor-libclp1' if HAS_SETUP else 'install coinor-libclp1, as by apt-get'}")


class Model:
    """A linear program: least cost, with columns from 0 to upper bounds, and bounds of rows."""

    def __init__(self, library: ctypes.CDLL) -> None:
        """An empty program."""
        self._clp = library
        self._model = library.Clp_newModel()
        if not self._model:
            raise TextError("CLP has no memory")
        library.Clp_setLogLevel(self._model, 0)
        self._runs = False

    def __enter__(self) -> Model:
        """The program itself."""
        return self

    def __exit__(self, *_: object) -> None:
        """Gives the memory back, which a method that still runs keeps to the end of the process."""
        if not self._runs:
            self._clp.Clp_deleteModel(self._model)

    def load(self, matrix: csc_matrix, cost: Array, upper: Array, row_upper: Array,
             row_lower: Array | None = None) -> None:
        """The program: columns from 0 to `upper`, rows up to `row_upper`, and from `row_lower` where that is given."""
        self._rows, self._columns = matrix.shape
        lower = np.full(self._rows, -np.inf) if row_lower is None else row_lower
        places = [np.ascontiguousarray(array, np.int32) for array in (matrix.indptr, matrix.indices)]
        numbers = (matrix.data, np.zeros(self._columns), upper, cost, lower, row_upper)
        arrays: list[Array] = [*places, *(np.ascontiguousarray(array, np.float64) for array in numbers)]
        self._clp.Clp_loadProblem(self._model, self._columns, self._rows, *(array.ctypes.data for array in arrays))

    def set_tolerances(self, primal: float, dual: float) -> None:
        """What counts as zero in rows and bounds, and in prices."""
        self._clp.Clp_setPrimalTolerance(self._model, primal)
        self._clp.Clp_setDualTolerance(self._model, dual)

    def set_status(self, columns: Array, rows: Array) -> None:
        """The basis to begin from."""
        status = np.ascontiguousarray(np.concatenate([columns, rows]), np.uint8)
        self._clp.Clp_copyinStatus(self._model, status.ctypes.data)

    def status_arrays(self) -> tuple[Array, Array]:
        """The basis of columns and rows as it stands."""
        raw = ctypes.string_at(self._clp.Clp_statusArray(self._model), self._columns + self._rows)
        status = np.frombuffer(raw, np.uint8) & 7
        return status[:self._columns].copy(), status[self._columns:].copy()

    def primal(self, seconds: float) -> bool:
        """Primal simplex for at most so many seconds; whether it ended with an optimum."""
        return self._ended(seconds, self._clp.Clp_primal, 0)

    def dual(self, seconds: float) -> bool:
        """Dual simplex, likewise."""
        return self._ended(seconds, self._clp.Clp_dual, 0)

    def solve_anew(self, seconds: float) -> bool:
        """The method that CLP chooses, from nothing, likewise."""
        return self._ended(seconds, self._clp.Clp_initialSolve)

    def _ended(self, seconds: float, method: Callable[..., int], *words: int) -> bool:
        """Runs a method in a thread of its own, so that a signal ends the wait for it; whether it ended with an optimum."""
        self._clp.Clp_setMaximumSeconds(self._model, max(seconds, 0.0))
        thread = threading.Thread(target=method, args=(self._model, *words), daemon=True)
        self._runs = True
        thread.start()
        thread.join()
        self._runs = False
        return bool(self._clp.Clp_status(self._model) == 0)

    @property
    def cost(self) -> float:
        """The cost as it stands."""
        return float(self._clp.Clp_objectiveValue(self._model))

    def solution(self) -> Array:
        """The value of each column."""
        return np.ctypeslib.as_array(self._clp.Clp_primalColumnSolution(self._model), (self._columns,)).copy()

    def row_prices(self) -> Array:
        """The price of each row."""
        return np.ctypeslib.as_array(self._clp.Clp_dualRowSolution(self._model), (self._rows,)).copy()
