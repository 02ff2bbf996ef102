"""Satmegwo from Python: the figures of S-boxes (substitution boxes), each proved to equal its definition, and the counts behind them.

The field's names beside ours: combination: component function (output mask c); column: coordinate function; spectrum: Walsh spectrum, halved;
`Box.lat`: LAT, its rows being output masks; `Box.ddt`: DDT, the XOR table; `Box.largest_cell`: differential uniformity; 2^n - 2d for the
nonlinearity d: linearity; `Box.autocorrelation`: absolute indicator; `Box.degree`: the least algebraic degree over the component functions.

    >>> from satmegwo import Box
    >>> box = Box([3, 1, 4, 0, 2, 5, 6, 7], n=3, m=3)
    >>> box.nonlinearity()
    Nonlinearity(figure=0, witness=Pair(c=7, w=7, b=0), limit=3)
    >>> print(box.explain("nonlinearity"))
    nonlinearity 0: c = 7, w = 7, b = 0, limit 3
    ...

A refused call raises `Refusal`, with what was wrong, and the number (error code) and the sentence of the documents.
"""
from .answers import (
    Autocorrelation,
    Cell,
    Change,
    Combination,
    Degree,
    Distance,
    LargestCell,
    Nonlinearity,
    Pair,
    Shift,
    SumNonlinearity,
    SumPair,
    Swap,
)
from .box import Box, sheet
from .explaining import Contradiction, Explanation
from .functions import bent_function, enlarge_column, inverse_spectrum, normal_form, spectrum
from .keeping import Catalogue, Design, Record, Server
from .library import MissingLibrary, version
from .reading import Unreadable
from .refusals import Refusal
from .states import UnusableState
from .sums import sum_nonlinearity
from .tables import TooWide

__version__ = "1.0.0"
__all__ = [
    "Autocorrelation",
    "Box",
    "Catalogue",
    "Cell",
    "Change",
    "Combination",
    "Contradiction",
    "Degree",
    "Design",
    "Distance",
    "Explanation",
    "LargestCell",
    "MissingLibrary",
    "Nonlinearity",
    "Pair",
    "Record",
    "Refusal",
    "Server",
    "Shift",
    "SumNonlinearity",
    "SumPair",
    "Swap",
    "TooWide",
    "Unreadable",
    "UnusableState",
    "bent_function",
    "enlarge_column",
    "inverse_spectrum",
    "normal_form",
    "sheet",
    "spectrum",
    "sum_nonlinearity",
    "version",
]
