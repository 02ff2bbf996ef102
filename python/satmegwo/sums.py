"""The sum of S-boxes: the outputs of one to four boxes added by XOR, each box fed by its own input bits."""
from __future__ import annotations

import operator
import os
from concurrent.futures import Executor
from typing import Iterable, Optional, SupportsIndex, Union

from . import details
from .answers import SumNonlinearity, SumPair
from .box import Box
from .library import number
from .refusals import detailed
from .sweeping import Question, Told, swept


def sum_nonlinearity(
    boxes: Iterable[Box],
    i: Optional[SupportsIndex] = None,
    *,
    executor: Optional[Executor] = None,
    progress: Union[None, bool, Told] = None,
    state: Union[None, str, os.PathLike[str]] = None,
    workers: Optional[int] = None,
) -> SumNonlinearity:
    """The nonlinearity of one to four S-boxes added by XOR, each fed by its own input bits, box 1 by the lowest.

    In parts as `Box.nonlinearity`.
    """
    if isinstance(boxes, Box):
        raise TypeError("a sum is of a list of boxes, and this is one box")
    boxes = tuple(boxes)
    asked = boxes[0].limit if boxes and i is None else operator.index(i or 0)
    limit = number(asked)

    def shown(figure: int, c: int, *masks_and_b: int) -> SumNonlinearity:
        return SumNonlinearity(figure, SumPair(c, masks_and_b[:-1], masks_and_b[-1]), limit)

    with detailed(lambda refused: details.of_sum(refused, boxes, asked)):
        return swept(Question("sum", boxes, limit), shown, executor, progress, state, workers)
