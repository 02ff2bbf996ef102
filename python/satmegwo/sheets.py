"""The commands that show sheets: of one box, of several, and of two side by side."""
from __future__ import annotations

import argparse
import contextlib
import signal
from typing import Any, Iterator, NamedTuple, Optional, Sequence, Union

from . import sweeping
from .box import Box
from .progress import Progress
from .refusals import Refusal
from .results import Given, Result, line, said

ALL = "all"  # the limit of as many outputs as the box has
REFUSED, UNREADABLE, STOPPED = 1, 2, 130  # the exit statuses other than 0
# The lines of a sheet, and the names of their fields.
FIELDS: dict[str, tuple[str, ...]] = {
    "box": ("n", "m"),
    "nonlinearity": ("figure", "c", "w", "b", "limit"),
    "xor": ("figure", "a", "beta"),
    "autocorrelation": ("figure", "c", "s", "limit"),
    "sac": ("figure", "c", "d"),
    "bic": ("figure", "c", "d"),
    "degree": ("figure", "c", "limit"),
    "complete": (),
    "bijective": (),
}
LINES = tuple(FIELDS)


# ---- figures within any limit


@contextlib.contextmanager
def ctrl_c_is_heard() -> Iterator[None]:
    """Meanwhile Ctrl-C raises KeyboardInterrupt, so that a sweep keeps what was done; `run` lets it end the program at once."""
    before = signal.signal(signal.SIGINT, signal.default_int_handler)
    try:
        yield
    finally:
        signal.signal(signal.SIGINT, before)


def limit_of(word: Union[None, str, int], box: Box) -> int:
    """The limit that a word of the command means for a box; without a word that of the sheet."""
    return box.limit if word is None else box.m if word == ALL else int(word)


def how(name: str, args: argparse.Namespace, progress: Progress) -> dict[str, Any]:
    """How a sweep is run, as the words of the command have it."""

    def tell(done: int, total: int, best: Any, left: float) -> None:
        progress.share(name, done, total, best, left)

    return {"progress": tell, "state": getattr(args, "state", None), "workers": args.jobs}


def _limited_line(word: str, box: Box, limit: int, args: argparse.Namespace, progress: Progress) -> str:
    """The line of a figure that has a limit."""
    progress.say(f"{word} of {box.n} by {box.m} within {limit} outputs")
    if word == "degree":
        degree = sweeping.heard(lambda: box.degree(limit))  # it has no parts
        return line(word, degree.figure, *degree.witness, degree.limit)
    ask = box.nonlinearity if word == "nonlinearity" else box.autocorrelation
    figure, witness, _ = ask(limit, **how(word, args, progress))
    return line(word, figure, *witness, limit)


# ---- a sheet


class Sheet(NamedTuple):
    """The lines of a box's sheet that were asked for, by their words."""

    given: Given
    lines: dict[str, str]

    def members(self) -> dict[str, Any]:
        """The box and its figures, for JSON; of a box of one output the member bic is None."""
        return said("sheet", box=self.given.members(), **{word: _fields(text) for word, text in self.lines.items() if word != "box"})


def _fields(text: str) -> Union[None, bool, dict[str, int]]:
    """The fields of a line, by their names."""
    word, *values = text.split()
    if values == ["none"]:
        return None
    if not FIELDS[word]:
        return values == ["yes"]
    return dict(zip(FIELDS[word], map(int, values)))


def sheet_of(given: Given, args: argparse.Namespace, progress: Progress) -> Sheet:
    """The sheet: the lines of the proved text, or with a limit the same lines with the figures within that limit."""
    box = given.box
    lines = dict(zip(LINES, box.sheet().splitlines(keepends=True)))
    limit = limit_of(args.limit, box)
    asked = [word for word in LINES if args.only is None or word in args.only]
    with ctrl_c_is_heard():
        for word in ("nonlinearity", "autocorrelation", "degree"):
            if word in asked and limit != box.limit:
                lines[word] = _limited_line(word, box, limit, args, progress)
    return Sheet(given, {word: lines[word] for word in asked})


# ---- several boxes


class Outcome(NamedTuple):
    """What became of one file of several: its sheet, or why there is none."""

    file: str
    sheet: Optional[Sheet]
    error: Optional[Exception] = None
    reason: str = ""

    @property
    def status(self) -> int:
        """The exit status that this file alone would give."""
        return 0 if self.error is None else REFUSED if isinstance(self.error, Refusal) else UNREADABLE

    @property
    def word(self) -> str:
        """The status as a word."""
        return f"refused {self.error.number}" if isinstance(self.error, Refusal) else "unreadable" if self.error else "accepted"

    def text(self) -> str:
        """The status and the file's name, and below it the sheet."""
        return line(self.word, self.file) + ("".join(self.sheet.lines.values()) if self.sheet else "")

    def members(self) -> dict[str, Any]:
        """The sheet for JSON, or what went wrong."""
        if self.sheet:
            return self.sheet.members()
        refused = self.error.number if isinstance(self.error, Refusal) else None
        return said("sheet", error={"file": self.file, "status": self.status, "refused": refused, "message": self.reason})


def _cells(text: Optional[str], word: str) -> list[object]:
    """The fields of a line in CSV; where there is no line, or no figure in it, as many empty cells."""
    _, *values = text.split() if text else ("",)
    return list(values) if values and values != ["none"] else [""] * max(1, len(FIELDS[word]))


def _names(word: str) -> list[str]:
    """The headings of a line's fields in CSV."""
    return [name if word == "box" else f"{word}.{name}" for name in FIELDS[word]] or [word]


def _table(outcomes: Sequence[Outcome], asked: Sequence[str]) -> Iterator[list[object]]:
    """One line of CSV for each file."""
    yield ["file", "status", *(name for word in asked for name in _names(word))]
    for outcome in outcomes:
        lines = outcome.sheet.lines if outcome.sheet else {}
        yield [outcome.file, outcome.word, *(cell for word in asked for cell in _cells(lines.get(word), word))]


def sheets(outcomes: Sequence[Outcome], args: argparse.Namespace) -> Result:
    """The sheets of several files, each with a line of status; the exit status is the worst."""
    asked = [word for word in LINES if args.only is None or word in args.only]
    return Result(
        lambda: "".join(outcome.text() for outcome in outcomes),
        lambda: _table(outcomes, asked),
        lambda: [outcome.members() for outcome in outcomes],
        status=max(outcome.status for outcome in outcomes),
    )


def sheet(given: Sequence[Given], args: argparse.Namespace, progress: Progress) -> Result:
    """The sheet of one box."""
    found = sheet_of(given[0], args, progress)
    outcome = Outcome(given[0].file, found)
    return Result(
        lambda: "".join(found.lines.values()), lambda: _table([outcome], list(found.lines)), lambda: found.members()
    )


# ---- two boxes side by side


def _difference(one: str, other: str) -> str:
    """What is unlike in two lines of the same word."""
    if one == other:
        return ""
    first, second = _fields(one), _fields(other)
    if not isinstance(first, dict) or not isinstance(second, dict) or "figure" not in first:
        return "differs"
    if first["figure"] != second["figure"]:
        return "differs"
    return "other limit" if first.get("limit") != second.get("limit") else "other witness"


def _beside(one: Sheet, other: Sheet) -> str:
    """Both sheets as text, each line with what is unlike in it."""
    columns = [["", one.given.file, other.given.file, ""]]
    for word, text in one.lines.items():
        against = other.lines[word]
        columns.append([word, text.split(" ", 1)[1].strip(), against.split(" ", 1)[1].strip(), _difference(text, against)])
    wide = [max(len(row[at]) for row in columns) for at in range(3)]
    shown = ["  ".join([*(f"{cell:<{wide[at]}}" for at, cell in enumerate(row[:3])), row[3]]).rstrip() for row in columns]
    unlike = [row[0] for row in columns if row[3] == "differs"]
    last = "differ: " + ", ".join(unlike) if unlike else "no figure differs"
    equal = "; the boxes are equal" if one.given.box == other.given.box else ""
    return "\n".join([*shown, last + equal]) + "\n"


def _fields_beside(one: Sheet, other: Sheet) -> Iterator[list[object]]:
    """Both sheets as CSV, a field a line."""
    yield ["field", one.given.file, other.given.file, "differs"]
    for word, text in one.lines.items():
        for name, first, second in zip(_names(word), _cells(text, word), _cells(other.lines[word], word)):
            yield [name, first, second, "yes" if first != second else "no"]


def compare(given: Sequence[Given], args: argparse.Namespace, progress: Progress) -> Result:
    """The sheets of two boxes side by side."""
    found = []
    for one in given:
        args.file = one.file  # a message names the box that it is about
        found.append(sheet_of(one, args, progress))
    one, other = found
    differ = [word for word in one.lines if _difference(one.lines[word], other.lines[word]) == "differs"]
    equal = one.given.box == other.given.box
    return Result(
        lambda: _beside(one, other),
        lambda: _fields_beside(one, other),
        lambda: said("compare", sheets=[sheet.members() for sheet in found], differ=differ, equal=equal),
    )
