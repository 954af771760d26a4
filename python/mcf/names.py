"""Names as cells of a table that a spreadsheet opens.

A spreadsheet takes a cell that begins with `=`, `+`, `-`, `@`, a tab or a carriage return as a formula. Such a cell is written with an
apostrophe in front, and so is one that has apostrophes before such a beginning: `=1+1` as `'=1+1`, and `'=1+1` as `''=1+1`. Reading
takes one apostrophe off exactly the cells that writing puts one on, so each text comes back as it was. Numbers stay as they are.
"""

from __future__ import annotations

import re

_NUMBER = re.compile(r"-?[0-9]+(?:\.[0-9]+)?")
_FORMULA = re.compile(r"'*[=+\-@\t\r]")
_WRITTEN = re.compile(r"'+[=+\-@\t\r]")


def cell_of(text: str) -> str:
    """The cell of a text, which no spreadsheet takes as a formula."""
    return f"'{text}" if _FORMULA.match(text) and not _NUMBER.fullmatch(text) else text


def text_of(cell: str) -> str:
    """The text of a cell that `cell_of` wrote; any other cell is its own text."""
    return cell[1:] if _WRITTEN.match(cell) else cell
