"""What holds boxes: a catalogue in one buffer, a design with marks, a server with boxes under analysis."""
from __future__ import annotations

from typing import Any, Iterator, NamedTuple, Optional, SupportsIndex, Union

from .box import Box, Nonlinearity, Pair
from .library import BYTES, CATALOGUE_MOST, DESIGN_MARKS, WORD, WORDS, call, lent, number, room
from .refusals import Refusal


class Record(NamedTuple):
    """Where a record lies in its catalogue."""

    offset: int
    length: int


class Catalogue:
    """Up to 64 box files in one buffer. An index counts the records from 0, in the order of their places."""

    def __init__(self, buffer: Union[int, bytes] = CATALOGUE_MOST) -> None:
        """An empty catalogue of so many bytes, or the catalogue in these bytes, which are copied."""
        if isinstance(buffer, int):
            # A longer buffer is refused as one of 65,536 bytes is, and one of a negative length as an empty one.
            self._buffer = room(BYTES, min(max(buffer, 0), CATALOGUE_MOST + 1))
        else:
            self._buffer = lent(BYTES, buffer)
        len(self)

    def _figures(self, name: str, count: int, *arguments: Any) -> list[int]:
        figures = room(WORDS, count)
        call(name, self._buffer, *arguments, figures)
        return list(figures)

    def __len__(self) -> int:
        return self._figures("check_catalogue", 1)[0]

    def __bytes__(self) -> bytes:
        return bytes(self._buffer)

    def __iter__(self) -> Iterator[Box]:
        return (self[index] for index in range(len(self)))

    def __getitem__(self, index: SupportsIndex) -> Box:
        offset, length = self.place(index)
        return Box.from_bytes(bytes(self._buffer[offset : offset + length]))

    def add(self, box: Union[Box, bytes]) -> int:
        """Adds a box, or a box file, at the start of the lowest gap; gives its index. Records behind it have an index one higher."""
        file = box.to_bytes() if isinstance(box, Box) else box
        return self._figures("add_record", 1, lent(BYTES, file))[0]

    def place(self, index: SupportsIndex) -> Record:
        """Where a record lies."""
        return Record(*self._figures("fetch_record", 2, number(index, WORD - 1)))

    def remove(self, index: SupportsIndex) -> None:
        """Removes a record: its bytes are cleared, and the records behind it have an index one lower."""
        call("remove_record", self._buffer, number(index, WORD - 1))

    def compact(self) -> None:
        """Moves the records down, so that there are no gaps."""
        call("compact_catalogue", self._buffer)


class Design:
    """One box that is tuned, with marks 1 to 16 to go back to. A refused operation changes nothing."""

    def __init__(self, box: Box) -> None:
        self._name = box.name
        self._take(call("design_begin", *box.arguments()))

    def _take(self, outcome: Any) -> Design:
        if outcome.status:
            raise Refusal(outcome.status)
        self._state = outcome.design
        return self

    @property
    def box(self) -> Box:
        """The box of this moment."""
        rows, widths = room(WORDS, 2**self._state.n), room(WORDS, 2)
        call("design_read", self._state, rows, widths)
        return Box(rows, widths[0], widths[1], self._name)

    @property
    def marks(self) -> list[int]:
        """The marks that are set."""
        return [k + 1 for k in range(DESIGN_MARKS) if self._state.marks[k].taken]

    def swap(self, x: SupportsIndex, y: SupportsIndex) -> Design:
        """Exchanges the rows of the inputs x and y."""
        return self._take(call("design_swap", self._state, number(x, WORD - 1), number(y, WORD - 1)))

    def add(self, j: SupportsIndex, w: SupportsIndex, b: SupportsIndex) -> Design:
        """Adds w·x XOR b to column j."""
        return self._take(call("design_add", self._state, number(j), number(w, WORD - 1), number(b, WORD - 1)))

    def mark(self, k: SupportsIndex) -> Design:
        """Sets mark k: it keeps the box of this moment."""
        return self._take(call("design_mark", self._state, number(k)))

    def return_to(self, k: SupportsIndex) -> Design:
        """Brings back the box of the moment when mark k was last set."""
        return self._take(call("design_return", self._state, number(k)))


class Server:
    """Up to eight boxes of at most 16 outputs on places 1 to 8, examined in turns, one combination a step."""

    def __init__(self) -> None:
        self._state = call("server_begin")

    def _take(self, outcome: Any) -> Server:
        if outcome.status:
            raise Refusal(outcome.status)
        self._state = outcome.server
        return self

    @property
    def last(self) -> int:
        """The place that was served last; 0 at the start."""
        return int(self._state.last)

    def put(self, place: SupportsIndex, box: Box) -> Server:
        """Puts a box on a place."""
        return self._take(call("server_put", self._state, number(place), *box.arguments()))

    def withdraw(self, place: SupportsIndex) -> Server:
        """Takes the box off a place."""
        return self._take(call("server_withdraw", self._state, number(place)))

    def step(self) -> Server:
        """One step."""
        self._state = call("server_step", self._state)
        return self

    def run(self, steps: Optional[int] = None) -> Server:
        """So many steps; without a number as many as there are to do."""
        if steps is not None and steps < 0:
            raise ValueError(f"{steps} steps cannot be made")
        # No server has more than 8 * 65,535 steps to do.
        self._state = call("server_run", self._state, WORD - 1 if steps is None else number(steps, WORD - 1))
        return self

    def ask(self, place: SupportsIndex) -> Optional[Nonlinearity]:
        """The nonlinearity over all combinations of the box on a place, or None while it is unfinished."""
        asked, figures = number(place), room(WORDS, 5)
        call("server_ask", self._state, asked, figures)
        finished, figure, *witness = figures
        return Nonlinearity(figure, Pair(*witness), self._state.places[asked - 1].m) if finished else None
