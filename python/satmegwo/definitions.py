"""The definitions of documents 01 and 02, word for word, for the counts that are made again beside a figure. No figure comes from here."""
from __future__ import annotations

from typing import Sequence


def ones(mask: int) -> int:
    """The number of ones."""
    return bin(mask).count("1")


def parity(mask: int) -> int:
    """The parity of the ones."""
    return ones(mask) % 2


def combination(rows: Sequence[int], c: int) -> list[int]:
    """Combination c: the parity of the ones in (row AND c), for each input."""
    return [parity(row & c) for row in rows]


def affine(n: int, w: int, b: int) -> list[int]:
    """The affine function w·x XOR b, for each input."""
    return [parity(w & x) ^ b for x in range(2**n)]


def flipped(values: Sequence[int], change: int) -> list[int]:
    """The values at x XOR change, for each input x."""
    return [values[x ^ change] for x in range(len(values))]


def unlike(one: Sequence[int], other: Sequence[int]) -> list[int]:
    """The inputs at which two functions give unlike values."""
    return [x for x in range(len(one)) if one[x] != other[x]]


def ones_within(values: Sequence[int], u: int) -> int:
    """At how many x, whose ones lie within u, the function is 1; the coefficient at u of its normal form is the parity of this number."""
    return sum(values[x] for x in range(len(values)) if x & u == x)
