"""What the calls of the library answer: a figure with its witness, where it is reached.

A combination c is a component function of the S-box, and c its output mask; w is an input mask. The limit of a figure is the number of
outputs up to which it covers the component functions.
"""
from __future__ import annotations

from typing import NamedTuple


class Pair(NamedTuple):
    """The component function of the output mask c and the affine function w·x XOR b of the input mask w."""

    c: int
    w: int
    b: int


class Cell(NamedTuple):
    """A cell of the DDT (XOR table): the input difference a and the output difference beta."""

    a: int
    beta: int


class Shift(NamedTuple):
    """The component function c and the input change s of an autocorrelation."""

    c: int
    s: int


class Change(NamedTuple):
    """The component function c and the flipped input bits d of a dynamic distance."""

    c: int
    d: int


class Combination(NamedTuple):
    """The component function c, that is combination c of the outputs."""

    c: int


class Nonlinearity(NamedTuple):
    """The nonlinearity d, which makes the linearity (the largest Walsh value) 2^n - 2d, and the first pair that reaches it.

    It is the least number of inputs in which a component function within the limit differs from an affine function.
    """

    figure: int
    witness: Pair
    limit: int


class LargestCell(NamedTuple):
    """The differential uniformity: the largest cell of the DDT (XOR table), and the first that reaches it."""

    figure: int
    witness: Cell


class Autocorrelation(NamedTuple):
    """The absolute indicator: the largest |r(s)| of a component function within the limit, and the first that reaches it."""

    figure: int
    witness: Shift
    limit: int


class Distance(NamedTuple):
    """The dynamic distance, doubled, of component functions within the limit under at most so many flips, and the first that reaches it."""

    figure: int
    witness: Change
    limit: int
    flips: int


class Degree(NamedTuple):
    """The least algebraic degree of a component function within the limit (Sage's min_degree), and the first that has it."""

    figure: int
    witness: Combination
    limit: int


class Swap(NamedTuple):
    """The two inputs whose rows are swapped, and the nonlinearity that this leads to."""

    lower: int
    higher: int
    figure: int


class SumPair(NamedTuple):
    """The component function c of a sum of S-boxes, the input mask of each box from box 1 on, and b."""

    c: int
    masks: tuple[int, ...]
    b: int


class SumNonlinearity(NamedTuple):
    """The nonlinearity of a sum of S-boxes, over all their inputs together, and the first pair that reaches it."""

    figure: int
    witness: SumPair
    limit: int
