"""An S-box (substitution box) and its figures. Every figure, list and made box comes from the proved library."""
from __future__ import annotations

import hashlib
import operator
import os
import pathlib
from concurrent.futures import Executor
from typing import TYPE_CHECKING, Any, Iterable, Iterator, Optional, SupportsIndex, Union

from . import details, functions, reading, tables, workbook
from .answers import (
    Autocorrelation,
    Cell,
    Change,
    Combination,
    Degree,
    Distance,
    LargestCell,
    Nonlinearity,
    Pair,
    Shift,
    Swap,
)
from .library import (
    BYTES,
    CELLS,
    COUNTS,
    MOST_CELLS,
    SHEET_BYTES,
    SIGNED,
    WORD,
    WORDS,
    call,
    lent,
    number,
    room,
)
from .refusals import Argument, Refusal, detailed, outside, ranged
from .sweeping import Question, Told, swept

if TYPE_CHECKING:
    from .explaining import Explanation

__all__ = [
    "Autocorrelation", "Box", "Cell", "Change", "Combination", "Degree", "Distance", "LargestCell", "Nonlinearity", "Pair", "Shift",
    "Swap", "sheet", "sheet_limit",
]  # fmt: skip

FIRST_ROOM = 2**16  # of a list of pairs, which is made longer as long as it is too short


def sheet_limit(m: int) -> int:
    """The limit of document 02: all m outputs up to 16, and 4 above."""
    return m if m <= 16 else 4


def _accepted(n: int, m: int, rows: list[int]) -> Any:
    """The rows as an array of the library, or the refusal 1, 2, 3 or 4 that is met first."""
    fits = all(0 <= row < WORD for row in rows)
    # With 32 outputs every row that fits is accepted; so one that does not is refused here, once the library has found nothing else.
    words = lent(WORDS, [row if 0 <= row < WORD else (WORD - 1 if m < 32 else 0) for row in rows])
    with detailed(lambda refused: details.of_box(refused, n, m, rows)):
        call("check_box", number(n), number(m), words)
        if not fits:
            raise Refusal(4)
    return words


class Box:
    """An S-box (substitution box) of n inputs and m outputs, whose rows[x] is the output for input x. It never changes.

    `box[x]` is rows[x], `len(box)` the number of rows, 2^n, and `list(box)` the rows. Column j of the rows, from 1, is a coordinate
    function; combination c, from 1 to 2^m - 1, is a component function, the XOR of the coordinate functions whose bits are 1 in c.

    n and m are always stated. Half of a table would be a box of one input less where n is taken from the number of rows; and an output
    that is 0 everywhere is a weak output, and would be lost where m is taken from the largest row.
    """

    def __init__(self, rows: Iterable[SupportsIndex], n: SupportsIndex, m: SupportsIndex, name: str = "") -> None:
        """The rows are in the order of the inputs. Refused by 1, 2, 3 or 4; TypeError where they have no order or are no whole numbers."""
        whole = functions.wholes(rows, "the row for input")
        self._n, self._m = operator.index(n), operator.index(m)
        self._words = _accepted(self._n, self._m, whole)
        self._rows = tuple(whole)
        self.name = name

    @classmethod
    def from_bytes(cls, data: bytes, name: str = "") -> Box:
        """The box of a box file's bytes."""
        inputs = data[0] if data and data[0] <= 8 else 0
        rows, widths = room(WORDS, 2**inputs), room(WORDS, 2)
        with detailed(lambda refused: details.of_file(refused, data)):
            call("read_box", lent(BYTES, data), rows, widths)
        return cls(rows, widths[0], widths[1], name)

    @classmethod
    def from_text(
        cls,
        text: str,
        n: int,
        m: int,
        name: str = "",
        *,
        base: Optional[int] = None,
        pairs: Optional[bool] = None,
        lines: bool = False,
        heading: bool = False,
        column: Union[None, int, str] = None,
    ) -> Box:
        """The box of a table of numbers, read as `reading.rows_of_text` says."""
        return cls(reading.rows_of_text(text, base, pairs, lines, heading, column), n, m, name)

    @classmethod
    def from_file(
        cls,
        path: Union[str, pathlib.Path],
        n: Optional[int] = None,
        m: Optional[int] = None,
        *,
        base: Optional[int] = None,
        pairs: Optional[bool] = None,
        lines: bool = False,
        heading: bool = False,
        column: Union[None, int, str] = None,
        sheet: Optional[str] = None,
    ) -> Box:
        """The box of a box file, which states its widths, or of a table of numbers or a workbook, whose n and m must be stated.

        A table is read as `reading.rows_of_text` says, and a workbook as `workbook.rows_of_workbook`.
        """
        data, name = reading.bytes_of_file(path), pathlib.Path(path).name
        return cls.from_data(data, n, m, name, base=base, pairs=pairs, lines=lines, heading=heading, column=column, sheet=sheet)

    @classmethod
    def from_data(
        cls,
        data: bytes,
        n: Optional[int] = None,
        m: Optional[int] = None,
        name: str = "",
        *,
        base: Optional[int] = None,
        pairs: Optional[bool] = None,
        lines: bool = False,
        heading: bool = False,
        column: Union[None, int, str] = None,
        sheet: Optional[str] = None,
    ) -> Box:
        """As `from_file`, of what a file holds. It is a box file where it is named so, or cannot be a text."""
        if not data and not name.endswith(".box"):
            raise reading.Unreadable("there is nothing in it")
        if name.endswith(".box") or not reading.looks_like_text(data):
            box = cls.from_bytes(data, name)
            for letter, stated, found in (("n", n, box.n), ("m", m, box.m)):
                if stated not in (None, found):
                    raise reading.Unreadable(f"{letter} is stated as {stated}, and the box file says {found}")
            return box
        if n is None or m is None:
            letter, word = ("n", "inputs") if n is None else ("m", "outputs")
            raise reading.Unreadable(
                f"a table of numbers does not say how many {word} the box has: state it (in the command -{letter} or --{word})"
            )
        return cls(workbook.rows_of_data(data, base, pairs, lines, heading, column, sheet), n, m, name)

    @classmethod
    def from_packed(cls, packed: bytes, n: int, m: int, name: str = "") -> Box:
        """The box of its coordinate functions (columns), packed for the mask."""
        rows = room(WORDS, 2**n if 0 <= n <= 8 else 0)
        with detailed(lambda refused: details.of_columns(refused, n, m, packed)):
            call("unpack_columns", number(n), number(m), lent(BYTES, packed), rows)
        return cls(rows, n, m, name)

    @property
    def n(self) -> int:
        """The number of inputs."""
        return self._n

    @property
    def m(self) -> int:
        """The number of outputs."""
        return self._m

    @property
    def rows(self) -> tuple[int, ...]:
        """The output for each input."""
        return self._rows

    @property
    def limit(self) -> int:
        """The limit on combinations with which the sheet asks: all outputs up to 16, and 4 above."""
        return sheet_limit(self._m)

    @property
    def sha256(self) -> str:
        """The SHA-256 of the box file's bytes: two boxes have the same exactly where they have the same widths and rows."""
        return hashlib.sha256(self.to_bytes()).hexdigest()

    def __call__(self, x: SupportsIndex) -> int:
        given = operator.index(x)
        if not 0 <= given < 2**self._n:
            raise IndexError(f"input {given} is not 0 to {2**self._n - 1}")
        return self._rows[given]

    def __getitem__(self, x: SupportsIndex) -> int:
        return self(x)

    def __len__(self) -> int:
        return len(self._rows)

    def __iter__(self) -> Iterator[int]:
        return iter(self._rows)

    def __eq__(self, other: object) -> bool:
        return isinstance(other, Box) and (self._n, self._m, self._rows) == (other._n, other._m, other._rows)

    def __hash__(self) -> int:
        return hash((self._n, self._m, self._rows))

    def __reduce__(self) -> tuple[Any, ...]:
        """What pickle keeps, so that a box can be handed to another process."""
        return Box, (self._rows, self._n, self._m, self.name)

    def __repr__(self) -> str:
        return f"Box([{', '.join(map(str, self._rows))}], n={self._n}, m={self._m})"

    def arguments(self) -> tuple[int, int, Any]:
        """The box as the arguments of a call."""
        return self._n, self._m, self._words

    def _write(self, name: str, out: Any, *parameters: int) -> Any:
        call(name, *self.arguments(), *parameters, out)
        return out

    def _limit(self, i: Optional[SupportsIndex]) -> Argument:
        return Argument("the limit i", self.limit if i is None else operator.index(i), 1, self._m)

    def _combination(self, c: SupportsIndex) -> Argument:
        return Argument("the combination c", c, 1, 2**self._m - 1)

    # ---- other forms

    def to_bytes(self) -> bytes:
        """The box file."""
        return bytes(self._write("write_box", room(BYTES, 2 + 4 * 2**self._n)))

    def packed(self) -> bytes:
        """The coordinate functions (columns), packed for the mask."""
        return bytes(self._write("pack_columns", room(BYTES, self._m * max(1, 2**self._n // 8))))

    def sheet(self) -> str:
        """The nine lines of the sheet, the proved text."""
        return sheet(self.to_bytes())

    # ---- nonlinearity

    def combination(self, c: SupportsIndex) -> list[int]:
        """The truth table of the component function c (combination c): the parity of the ones in (row AND c)."""
        return functions.inverse_spectrum(self.spectrum(c), self._n)

    def spectrum(self, c: SupportsIndex) -> list[int]:
        """Half the Walsh spectrum of the component function c, for input masks w from 0: the inputs where it equals w·x, less 2^(n-1).

        These are the linear approximation values: a row of `lat()`.
        """
        with ranged(self._combination(c)):
            return list(self._write("component_spectrum", room(SIGNED, 2**self._n), number(c)))

    def lat(self) -> tables.Table:
        """The LAT (linear approximation table), up to 16 outputs: `lat()[c][w]` for the output mask c and the input mask w.

        A value is the number of inputs where the component function c equals w·x, less 2^(n-1): half of the Walsh value. A row is an
        output mask and a column an input mask; Sage and the textbooks have input masks as rows, so that their table is this one with
        rows and columns exchanged: `list(zip(*box.lat()))`. Above 16 outputs `tables.TooWide` is raised.
        """
        return tables.lat(self)

    def distances(self) -> list[int]:
        """The nonlinearity of each component function, up to 16 outputs: `distances()[c]`; that of c = 0, the constant function, is 0."""
        return tables.distances(self)

    def nonlinearity(
        self,
        i: Optional[SupportsIndex] = None,
        *,
        executor: Optional[Executor] = None,
        progress: Union[None, bool, Told] = None,
        state: Union[None, str, os.PathLike[str]] = None,
        workers: Optional[int] = None,
    ) -> Nonlinearity:
        """The nonlinearity d over the component functions of at most i outputs, so that the linearity within them is 2^n - 2d.

        Without i it is that within the sheet's limit.

        Where there are many combinations they are swept in parts of about a second, and Ctrl-C is heard: on all cores, or on `workers`
        threads, or by any `executor` of concurrent.futures, of processes or of a cluster. `progress` is True for a line on standard error,
        or is called with the number done, the number of all, the best so far and the seconds left. `state` names a file that keeps what
        was done, from which the same call goes on.
        """
        asked = self._limit(i)
        limit = number(asked.value)

        def shown(figure: int, *witness: int) -> Nonlinearity:
            return Nonlinearity(figure, Pair(*witness), limit)

        with ranged(asked):
            return swept(Question("nonlinearity", (self,), limit), shown, executor, progress, state, workers)

    def nearest_pairs(self, i: Optional[SupportsIndex] = None, most: Optional[int] = None) -> list[Pair]:
        """All pairs of component and affine function that reach the nonlinearity within the limit: fewest outputs first, then c, w, b.

        With `most` the call is refused by 9 where there are more pairs than that; without it the list grows as far as it must.
        """
        asked = self._limit(i)
        length = FIRST_ROOM if most is None else most
        while True:
            pairs, count = room(CELLS, length), room(CELLS, 1)
            try:
                with ranged(asked):
                    call("nearest_pairs", *self.arguments(), number(asked.value), pairs, count)
                return [Pair(coded // 512, coded % 512 // 2, coded % 2) for coded in pairs[: count[0]]]
            except Refusal as refusal:
                if refusal.number != 9 or most is not None:
                    raise
                length *= 16

    def add_to_column(self, j: SupportsIndex, w: SupportsIndex, b: SupportsIndex) -> Box:
        """The box with w·x XOR b added to the coordinate function j (column j). Its nonlinearity is the same."""
        column, mask = Argument("the column j", j, 1, self._m), Argument("the mask w", w, 0, 2**self._n - 1)
        with ranged(column, mask, Argument("the constant b", b, 0, 1)):
            out = self._write(
                "add_to_column", room(WORDS, 2**self._n), number(j), number(w, WORD - 1), number(b, WORD - 1)
            )
        return Box(out, self._n, self._m, self.name)

    def raising_swap(self) -> Optional[Swap]:
        """The smallest swap of two unlike rows that raises the nonlinearity over all combinations, or None; up to eight outputs."""
        with detailed(lambda refused: f"the box has {self._m} outputs, and raising swaps are looked for up to 8"):
            found, *swap = self._write("raising_swap", room(WORDS, 4))
        return Swap(*swap) if found else None

    # ---- XOR table (DDT)

    def xor_row(self, a: SupportsIndex) -> list[int]:
        """One row of the DDT (difference distribution table, XOR table) of a box of at most 16 outputs."""
        asked = Argument("the input difference a", a, 1, 2**self._n - 1)
        wide = f"the box has {self._m} outputs, and a row of the XOR table is given up to 16"
        with detailed(lambda refused: wide if refused == 2 else outside(refused, asked)):
            return list(self._write("xor_row", room(COUNTS, 2**self._m if self._m <= 16 else 0), number(a)))

    def ddt(self) -> tables.Table:
        """The DDT (difference distribution table, XOR table), up to 16 outputs: `ddt()[a][beta]`, the input difference a being the row.

        A value is the number of inputs x with S(x) XOR S(x XOR a) = beta, both x and x XOR a counted, as in Sage and the textbooks.
        Above 16 outputs `tables.TooWide` is raised.
        """
        return tables.ddt(self)

    def largest_cell(self) -> LargestCell:
        """The differential uniformity: the largest cell of the DDT (XOR table)."""
        figure, *witness = self._write("largest_cell", room(WORDS, 3))
        return LargestCell(figure, Cell(*witness))

    def largest_cells(self) -> list[Cell]:
        """All cells of the DDT that reach the differential uniformity, by ascending a, then beta."""
        cells, count = room(CELLS, MOST_CELLS), room(WORDS, 1)
        call("largest_cells", *self.arguments(), cells, count)
        return [Cell(*divmod(coded, WORD)) for coded in cells[: count[0]]]

    # ---- autocorrelation and dynamic distance

    def autocorrelation(
        self,
        i: Optional[SupportsIndex] = None,
        *,
        executor: Optional[Executor] = None,
        progress: Union[None, bool, Told] = None,
        state: Union[None, str, os.PathLike[str]] = None,
        workers: Optional[int] = None,
    ) -> Autocorrelation:
        """The absolute indicator over the component functions of at most i outputs; without i with the sheet's limit.

        It is the largest magnitude of an autocorrelation r(s), s not 0. In parts as `nonlinearity`.
        """
        asked = self._limit(i)
        limit = number(asked.value)

        def shown(figure: int, *witness: int) -> Autocorrelation:
            return Autocorrelation(figure, Shift(*witness), limit)

        with ranged(asked):
            return swept(Question("autocorrelation", (self,), limit), shown, executor, progress, state, workers)

    def autocorrelation_table(self) -> tables.Table:
        """The autocorrelation table, up to 16 outputs: `autocorrelation_table()[c][s]` for the component function c and the input change s.

        A value r(s) is the number of inputs where the component function stays the same between x and x XOR s, less those where it
        changes. A row is an output mask; Sage has input changes as rows. Above 16 outputs `tables.TooWide` is raised.
        """
        return tables.autocorrelation_table(self)

    def dynamic_distance(
        self,
        i: SupportsIndex,
        j: SupportsIndex,
        *,
        executor: Optional[Executor] = None,
        progress: Union[None, bool, Told] = None,
        state: Union[None, str, os.PathLike[str]] = None,
        workers: Optional[int] = None,
    ) -> Distance:
        """The dynamic distance of order (i, j), doubled: at most i outputs, at most j flipped inputs. In parts as `nonlinearity`."""
        limit, flips = number(i), number(j)

        def shown(figure: int, *witness: int) -> Distance:
            return Distance(figure, Change(*witness), limit, flips)

        with ranged(self._limit(i), Argument("the number j of flipped inputs", j, 1, self._n)):
            return swept(Question("distance", (self,), limit, flips), shown, executor, progress, state, workers)

    def sac(self) -> Distance:
        """The dynamic distance of order (1, 1): 0 exactly where the strict avalanche criterion holds."""
        return self.dynamic_distance(1, 1)

    def bic(self) -> Distance:
        """The dynamic distance of order (2, 1): 0 exactly where the bit independence criterion of document 01 holds.

        It is no correlation of avalanche variables, as Webster and Tavares have it. Refused by 6 with one output.
        """
        return self.dynamic_distance(2, 1)

    # ---- degree, completeness, bijectivity

    def normal_form(self, c: SupportsIndex) -> list[int]:
        """The algebraic normal form (ANF) of the component function c: its coefficients, for u from 0."""
        return functions.normal_form(self.combination(c), self._n)

    def degree(self, i: Optional[SupportsIndex] = None) -> Degree:
        """The least algebraic degree over the component functions of at most i outputs (Sage's min_degree), and not the largest.

        Without i with the sheet's limit.
        """
        asked = self._limit(i)
        limit = number(asked.value)
        with ranged(asked):
            figure, c = self._write("degree", room(WORDS, 2), limit)
        return Degree(figure, Combination(c), limit)

    def complete(self) -> bool:
        """Whether every input changes every output somewhere."""
        return bool(self._write("complete", room(WORDS, 1))[0])

    def bijective(self) -> bool:
        """Whether the S-box is a permutation: there are as many inputs as outputs, and no two rows are equal."""
        return bool(self._write("bijective", room(WORDS, 1))[0])

    # ---- made from it

    def enlarge(self, table: Iterable[SupportsIndex], k: SupportsIndex) -> Box:
        """A box of one more input and output (document 000) from one with as many inputs as outputs, a truth table and an input k."""
        if self._m != self._n:
            raise ValueError(
                f"only a box with as many inputs as outputs is enlarged, and this one is {self._n} by {self._m}"
            )
        out = room(WORDS, 2 ** (self._n + 1))
        with ranged(Argument("the input k", k, 1, self._n)):
            call("enlarge_box", self._n, self._words, lent(BYTES, functions.truth_values(table)), number(k), out)
        return Box(out, self._n + 1, self._m + 1, self.name)

    def swapped(self, x: SupportsIndex, y: SupportsIndex) -> Box:
        """The box with the rows of the inputs x and y exchanged."""
        from .keeping import Design

        last = 2**self._n - 1
        with ranged(Argument("the input x", x, 0, last), Argument("the input y", y, 0, last)):
            return Design(self).swap(x, y).box

    def explain(self, figure: str = "nonlinearity", *, i: Optional[int] = None, j: Optional[int] = None) -> Explanation:
        """The count behind a figure's witness: see `explaining`."""
        from . import explaining

        return explaining.explain(self, figure, i=i, j=j)


def sheet(data: bytes) -> str:
    """The sheet of a box file's bytes: nine lines, or the line 'refused' with a number."""
    text, length = room(BYTES, SHEET_BYTES), room(WORDS, 1)
    call("sheet", lent(BYTES, data), text, length)
    return bytes(text[: length[0]]).decode("ascii")
