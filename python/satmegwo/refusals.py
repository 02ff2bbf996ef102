"""The numbered refusals (error codes) of documents 01 and 02 as an exception."""
from __future__ import annotations

import contextlib
import operator
from typing import Callable, Iterator, NamedTuple, SupportsIndex

# The sentences of include/satmegwo.h.
SENTENCES: dict[int, str] = {
    1: "n is not 1 to 8 (in the two enlargements not 1 to 7, in the bent form not 2, 4, 6 or 8)",
    2: "m is not 1 to 32 (for a row of the XOR table and on a server not 1 to 16, for the raising swap not 1 to 8)",
    3: "an array that is read does not have 2^n elements (in the bent form 2^(n/2); packed columns and parts have their own length)",
    4: "a row is not below 2^m, or a truth value is above 1",
    5: "the permutation of the bent form is not a permutation",
    6: "c, w, a, b, k, i, j, an end of a part, or an input or mark of a design is outside its range",
    7: "an output array (other than a list) is not exactly as long as the result",
    8: "no function has this spectrum",
    9: "a list is shorter than the number of its cells or pairs",
    10: "a box file has a wrong length",
    11: "the number of boxes in a sum is not 1 to 4",
    12: "the boxes of a sum have different numbers of outputs",
    13: "a catalogue breaks one of its rules",
    14: "a catalogue has no gap that is long enough, or has 64 records",
    15: "a catalogue has no record of this index",
    16: "an unused bit of a packed column is set",
    17: "a mark of a design was never set",
    18: "the place of a server is not 1 to 8",
    19: "the place is taken on putting, or empty on asking or withdrawing",
}


class Refusal(Exception):
    """A call was refused: the document's `number` and `sentence`, and in `detail` what met the condition, where that is known."""

    def __init__(self, number: int, detail: str = "") -> None:
        self.number = number
        self.sentence = SENTENCES[number]
        self.detail = detail
        super().__init__(number, detail)

    def __str__(self) -> str:
        if self.detail:
            return f"{self.detail} (refused {self.number}: {self.sentence})"
        return f"{self.sentence} (refused {self.number})"


@contextlib.contextmanager
def detailed(detail: Callable[[int], str]) -> Iterator[None]:
    """Meanwhile a refusal that says nothing of its own is told with what `detail` says of its number."""
    try:
        yield
    except Refusal as refusal:
        if refusal.detail:
            raise
        raise Refusal(refusal.number, detail(refusal.number)) from None


class Argument(NamedTuple):
    """An argument of a call: what it is, the value that is given, and the range in which it must be."""

    name: str
    value: SupportsIndex
    least: int
    most: int


def outside(number: int, *arguments: Argument) -> str:
    """Of refusal 6: the first argument that is outside its range, and the range."""
    for name, value, least, most in arguments:
        given = operator.index(value)
        if number == 6 and not least <= given <= most:
            return f"{name} is {given}, and must be " + (f"{least} to {most}" if least < most else f"{least}")
    return ""


def ranged(*arguments: Argument) -> contextlib.AbstractContextManager[None]:
    """Meanwhile refusal 6 is told with the argument that is outside its range."""
    return detailed(lambda number: outside(number, *arguments))
