"""The tools as they are called from a shell: one module a tool, with its words and `main`, which returns the status."""

from ..start import begin

begin()
