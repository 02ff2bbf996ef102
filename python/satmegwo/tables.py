"""Whole tables of an S-box as lists of lists: LAT, DDT, autocorrelation, and the distance of each component function.

The rows come from the library, one call for each. All tables begin with 0, so that an index is a mask or a difference: `lat[c][w]`. Row 0,
which no figure looks at, is that of the constant function 0, or of the input difference 0.
"""
from __future__ import annotations

from typing import TYPE_CHECKING

from . import functions
from .sweeping import Question

if TYPE_CHECKING:
    from .box import Box

MOST_OUTPUTS = 16  # of a box whose tables are given whole; a table of 17 outputs has 2^25 values at 8 inputs

Table = list[list[int]]


class TooWide(ValueError):
    """A table of a box with more outputs than those of which a whole table is given."""


def _must_be_given(box: Box, what: str, instead: str) -> None:
    if box.m > MOST_OUTPUTS:
        raise TooWide(f"{what} is given whole up to {MOST_OUTPUTS} outputs, and this box has {box.m}: {instead}")


def lat(box: Box) -> Table:
    """The LAT: see `Box.lat`."""
    one_row = "one row of it is the spectrum of a combination (in the command spectrum --combination C)"
    _must_be_given(box, "the linear approximation table", one_row)
    return [functions.spectrum(2**box.n * [0]), *(box.spectrum(c) for c in range(1, 2**box.m))]


def ddt(box: Box) -> Table:
    """The DDT: see `Box.ddt`."""
    largest = "its largest cells are listed for every box (in the command cells)"
    _must_be_given(box, "the XOR table (DDT)", largest)
    return [[2**box.n] + (2**box.m - 1) * [0], *(box.xor_row(a) for a in range(1, 2**box.n))]


def autocorrelation_table(box: Box) -> Table:
    """The autocorrelation table: see `Box.autocorrelation_table`."""
    largest = "its largest magnitude is the autocorrelation on the sheet"
    _must_be_given(box, "the autocorrelation table", largest)
    return [2**box.n * [2**box.n], *(_autocorrelations(box, c) for c in range(1, 2**box.m))]


def _autocorrelations(box: Box, c: int) -> list[int]:
    """r(s) of combination c, for s from 0: as a box of one output, its XOR row for s counts where it stays the same and where it changes."""
    from .box import Box

    component = Box(box.combination(c), box.n, 1)
    counts = (component.xor_row(s) for s in range(1, 2**box.n))
    return [2**box.n, *(staying - changing for staying, changing in counts)]


def distances(box: Box) -> list[int]:
    """The nonlinearity of each component function: see `Box.distances`."""
    few = "the nonlinearity is the least of them within a limit"
    _must_be_given(box, "the distance of each combination", few)
    question = Question("nonlinearity", (box,), box.m)
    return [0, *(question.between(c, c)[1] for c in range(1, 2**box.m))]
