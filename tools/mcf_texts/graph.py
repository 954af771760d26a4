"""The old name of `mcf.graph`."""

from mcf.graph import graph_of  # noqa: F401
