"""What met the condition of a refusal: which row, byte, width or argument it was, and what it must be.

The library gives a number alone. These functions look for what the number speaks of, once the library has refused it.
"""
from __future__ import annotations

from typing import TYPE_CHECKING, Sequence

from . import reading
from .library import MOST_INPUTS, MOST_OUTPUTS
from .refusals import Argument, outside

if TYPE_CHECKING:
    from .box import Box


def counted(count: int, what: str) -> str:
    """So many of something."""
    return f"{count} {what}" + ("" if count == 1 else "s")


def of_box(number: int, n: int, m: int, rows: Sequence[int]) -> str:
    """Of a refused box."""
    if number == 1:
        return f"n is {n}, and must be 1 to {MOST_INPUTS}"
    if number == 2:
        return f"m is {m}, and must be 1 to {MOST_OUTPUTS}"
    if number == 3:
        given = "1 row is" if len(rows) == 1 else f"{len(rows)} rows are"
        return f"{given} given, and {counted(n, 'input')} need{'s' if n == 1 else ''} {2**n}"
    place = next(place for place, row in enumerate(rows) if not 0 <= row < 2**m)
    return f"the row for input {place} is {rows[place]}, and {counted(m, 'output')} end at {2**m - 1}"


def of_file(number: int, data: bytes) -> str:
    """Of a refused box file."""
    if reading.looks_like_text(data):
        return "the bytes are a text and no box file"
    if number == 10:
        needed = f", and a box file of {counted(data[0], 'input')} has {2 + 4 * 2 ** data[0]}" if len(data) > 1 else ""
        return f"it has {counted(len(data), 'byte')}{needed}"
    rows = [int.from_bytes(data[at : at + 4], "little") for at in range(2, len(data), 4)]
    return of_box(number, data[0], data[1], rows)


def of_columns(number: int, n: int, m: int, packed: bytes) -> str:
    """Of refused packed columns."""
    if number in (1, 2):
        return of_box(number, n, m, [])
    if number == 3:
        needed = counted(m * max(1, 2**n // 8), "byte")
        return f"it has {counted(len(packed), 'byte')}, and {counted(m, 'column')} of {counted(n, 'input')} need {needed}"
    column = next(j for j, byte in enumerate(packed, 1) if byte >= 2 ** 2**n)
    return f"the byte of column {column} is {packed[column - 1]}, and only its lowest {2**n} bits may be set"


def of_sum(number: int, boxes: Sequence[Box], i: int) -> str:
    """Of a refused sum of boxes."""
    if number == 11:
        return f"{len(boxes)} boxes are given, and must be 1 to 4"
    if number == 12:
        return f"the boxes have {', '.join(str(box.m) for box in boxes)} outputs, and must have equally many"
    return outside(number, Argument("the limit i", i, 1, boxes[0].m))
