"""The compiled part, `kernel.c`: where it is found or made, and its calls on arrays."""

from __future__ import annotations

import ctypes
import os
import shutil
import subprocess
import tempfile
from collections.abc import Iterator
from hashlib import sha256
from pathlib import Path

import numpy as np

from mcf.lp.arrays import Array

from .network import Graph
from .words import Words

SOURCE = Path(__file__).with_name("kernel.c")
FLAGS = ("-O3", "-shared", "-fPIC")
_ROOM = 1 << 23


class Kernel:
    """The calls of a compiled kernel; all arrays are in rows, one behind the other."""

    def __init__(self, library: ctypes.CDLL) -> None:
        """The calls of a library."""
        self._library = library

    def passes(self, graph: Graph, room: Array, sources: Array, wanted: Array, passes: int, steep: float, growth: float
               ) -> tuple[Array, Array, Array]:
        """Trees of each pass and source, which part of each source's flow is on each, and the flow of each source in each cell."""
        before = np.empty((passes, len(sources), graph.nodes), np.int16)
        parts = np.zeros((passes, len(sources)))
        flows = np.zeros((len(sources), graph.cells))
        self._call("mcf_passes", graph.nodes, graph.cells, *_arcs(graph), room, len(sources), sources, wanted, passes, steep, growth,
                   before, parts, flows)
        return before, parts, flows

    def trees(self, graph: Graph, price: Array, sources: Array, wanted: Array) -> tuple[Array, Array]:
        """The shortest tree of each source, and what its targets cost."""
        before, cost = np.empty((len(sources), graph.nodes), np.int16), np.empty(len(sources))
        self._call("mcf_trees", graph.nodes, graph.cells, *_arcs(graph), price, len(sources), sources, wanted, before, cost)
        return before, cost

    def distances(self, graph: Graph, length: Array, sources: Array) -> Array:
        """Distances from each source to all nodes, in whole numbers."""
        far = np.empty((len(sources), graph.nodes), np.int64)
        self._call("mcf_distances", graph.nodes, graph.cells, *_arcs(graph), length, len(sources), sources, far)
        return far

    def loads(self, graph: Graph, before: Array, of_source: Array, wanted: Array, row: Array, rows: int) -> Array:
        """The loads of trees in the cells that have a row."""
        loads = np.empty((len(before), rows))
        self._call("mcf_loads", graph.nodes, graph.tail, graph.cell, row, rows, ctypes.c_int64(len(before)), before, of_source, wanted,
                   loads)
        return loads

    def lines(self, graph: Graph, words: list[bytes], before: Array, ids: Words, tree: Array, node: Array, turned: Array, weight: Array
              ) -> Iterator[bytes]:
        """The lines of paths in a certificate: each row has its tree, its end that is not the root, whether it goes to the root, its weight
        and the id of its demand."""
        library = self._library
        library.mcf_lines.restype = ctypes.c_int64
        word = np.concatenate([[0], np.cumsum([len(name) for name in words])])
        names, room = np.frombuffer(b"".join(words), np.uint8), np.empty(_ROOM, np.uint8)
        columns = [np.ascontiguousarray(column, kind) for column, kind in (
            (tree, np.int32), (node, np.int32), (turned, np.uint8), (weight, np.int64), (ids.first, np.int64), (ids.end, np.int64))]
        done, size = 0, np.zeros(1, np.int64)
        while done < len(tree):
            left = [column[done:] for column in columns]
            given = (graph.nodes, graph.tail, graph.cell, before, names, word, ids.text, ctypes.c_int64(len(left[0])), *left, room,
                     ctypes.c_int64(_ROOM), size)
            count = library.mcf_lines(*map(_word, given))
            if count <= 0:
                raise MemoryError
            done += count
            yield room[:size[0]].tobytes()

    def _call(self, name: str, *given: object) -> None:
        """Calls a function of the kernel; MemoryError where it had none."""
        words = [_word(value) for value in given]
        if getattr(self._library, name)(*words):
            raise MemoryError


def _arcs(graph: Graph) -> tuple[Array, Array, Array, Array]:
    """The arrays of a graph in the order of the kernel's calls."""
    return graph.first, graph.head, graph.tail, graph.cell


def _word(value: object) -> object:
    """A value as the kernel takes it."""
    if isinstance(value, np.ndarray):
        assert value.flags.c_contiguous
        return ctypes.c_void_p(value.ctypes.data)
    return ctypes.c_double(value) if isinstance(value, float) else value


def kernel() -> Kernel | None:
    """The compiled kernel; None where it is not there and nothing can compile it."""
    for path in (SOURCE.with_name(name()), _cache() / name()):
        if path.is_file() or (path.parent == _cache() and compiled(path)):
            try:
                return Kernel(ctypes.CDLL(str(path)))
            except OSError:
                continue
    return None


def name() -> str:
    """The name of the compiled file, which tells of which source it is made."""
    return f"kernel-{sha256(SOURCE.read_bytes()).hexdigest()[:16]}.so"


def compiled(path: Path) -> bool:
    """Compiles the kernel to a path; whether that was possible."""
    compiler = shutil.which("cc") or shutil.which("gcc") or shutil.which("clang")
    if compiler is None:
        return False
    try:
        path.parent.mkdir(parents=True, exist_ok=True)
        with tempfile.TemporaryDirectory(dir=path.parent) as room:
            made = Path(room, path.name)
            subprocess.run([compiler, *FLAGS, str(SOURCE), "-o", str(made), "-lm"], check=True, capture_output=True)
            os.replace(made, path)
    except (OSError, subprocess.CalledProcessError):
        return False
    return True


def _cache() -> Path:
    """The folder where compiled files of this user are kept."""
    return Path(os.environ.get("XDG_CACHE_HOME") or Path.home() / ".cache") / "mcf"
