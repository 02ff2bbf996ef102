"""Boolean functions as truth tables: Walsh spectrum and the way back, algebraic normal form, enlargement of a coordinate function, bent form."""
from __future__ import annotations

import collections.abc
import operator
from typing import Iterable, Optional, SupportsIndex

from .library import BYTES, MOST_INPUTS, SIGNED, call, lent, number, room
from .refusals import Argument, ranged


def width(count: int) -> int:
    """The number of inputs that so many values belong to. Where it is no power of two, the number with which the call refuses it by 3."""
    return (count - 1).bit_length() if count else 1


def _must_have_an_order(values: Iterable[SupportsIndex]) -> None:
    """Turns down what does not give one value after the other in the order of the inputs: a mapping gives its keys or has an order of its
    own, and so has a set; a table of several dimensions gives its lines, or, in pandas, the names of its columns.
    """
    kind = type(values).__name__
    if isinstance(values, (collections.abc.Mapping, collections.abc.MappingView)):
        raise TypeError(
            f"a {kind} does not say the order of the inputs: give a list in that order, such as [d[x] for x in range(2 ** n)]"
        )
    if isinstance(values, collections.abc.Set):
        raise TypeError(f"a {kind} has no order, and has equal values once: give a list in the order of the inputs")
    if getattr(values, "ndim", 1) != 1:
        raise TypeError(f"a {kind} of {getattr(values, 'ndim')} dimensions is no list: give one list in the order of the inputs")


def wholes(values: Iterable[SupportsIndex], what: str) -> list[int]:
    """Values that are whole numbers, in order: a float or a text is none, whatever it looks like."""
    _must_have_an_order(values)
    found = []
    for place, value in enumerate(values):
        try:
            found.append(operator.index(value))
        except TypeError:
            raise TypeError(f"{what} {place} is no whole number: {value!r}") from None
    return found


def truth_values(values: Iterable[SupportsIndex]) -> list[int]:
    """A truth table for the library. A value that no byte holds is handed over as 255, which is refused as any other above 1."""
    return [value if 0 <= value < 256 else 255 for value in wholes(values, "the value for input")]


def _size(n: int) -> int:
    return 1 << n if 1 <= n <= MOST_INPUTS else 0


def _inputs(n: Optional[SupportsIndex], count: int) -> int:
    return number(width(count) if n is None else n)


def spectrum(table: Iterable[SupportsIndex], n: Optional[int] = None) -> list[int]:
    """Half the Walsh spectrum of a truth table, for w from 0: the inputs where it equals w·x, less 2^(n-1).

    These are its linear approximation values; the Walsh value is twice as much.
    """
    values = truth_values(table)
    inputs = _inputs(n, len(values))
    out = room(SIGNED, _size(inputs))
    call("spectrum", inputs, lent(BYTES, values), out)
    return list(out)


def inverse_spectrum(values: Iterable[SupportsIndex], n: Optional[int] = None) -> list[int]:
    """The inverse of the Walsh spectrum: the truth table that has these halves of it; refused by 8 where no function has them."""
    # No function has a value above 128, so one that does not fit 32 bits is handed over as another that no function has.
    fitting = [value if -(2**31) <= value < 2**31 else 2**31 - 1 for value in wholes(values, "the value at w")]
    inputs = _inputs(n, len(fitting))
    table = room(BYTES, _size(inputs))
    call("inverse_spectrum", inputs, lent(SIGNED, fitting), table)
    return list(table)


def normal_form(table: Iterable[SupportsIndex], n: Optional[int] = None) -> list[int]:
    """The algebraic normal form (ANF) of a truth table: its coefficients, for u from 0; of coefficients, the truth table."""
    values = truth_values(table)
    inputs = _inputs(n, len(values))
    out = room(BYTES, _size(inputs))
    call("normal_form", inputs, lent(BYTES, values), out)
    return list(out)


def enlarge_column(
    table: Iterable[SupportsIndex], k: SupportsIndex, a: SupportsIndex, n: Optional[int] = None
) -> list[int]:
    """A coordinate function with one more input (document 000): the table, and behind it the table with input k flipped, XOR a."""
    values = truth_values(table)
    inputs = _inputs(n, len(values))
    out = room(BYTES, 2 * _size(inputs))
    with ranged(Argument("the input k", k, 1, inputs), Argument("the constant a", a, 0, 1)):
        call("enlarge_column", inputs, lent(BYTES, values), number(k), number(a, 2), out)
    return list(out)


def bent_function(
    permutation: Iterable[SupportsIndex], table: Iterable[SupportsIndex], n: Optional[int] = None
) -> list[int]:
    """The bent function of Maiorana and McFarland: input x * 2^h + y gives permutation[x]·y XOR table[x], h being half of n."""
    # No entry may be above 15, so one that no byte holds is handed over as 255, which is no part of a permutation either.
    entries = [value if 0 <= value < 256 else 255 for value in wholes(permutation, "the entry of the permutation at")]
    inputs = number(2 * width(len(entries)) if n is None else n)
    out = room(BYTES, _size(inputs))
    call("bent_function", inputs, lent(BYTES, entries), lent(BYTES, truth_values(table)), out)
    return list(out)
