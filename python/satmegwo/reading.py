"""Rows from a table of numbers: a column, a CSV, a list of C or Python.

This is a convenience outside the proof. What it hands on is the box, which goes to the library as any other, and can be written as a
box file and looked at. A box is masked into silicon, so nothing is guessed and nothing is passed over: a word that is no number, and a
text that can be read in two ways, are turned down with their place and with the word that settles it.
"""
from __future__ import annotations

import itertools
import pathlib
import re
from typing import BinaryIO, Iterator, NamedTuple, NoReturn, Optional, Sequence, Union

from .notations import LONGEST, is_several, listed, notation, shown, why_no_row

MOST_BYTES = 1_000_000
MOST_OF_A_WORKBOOK = 50_000_000  # a workbook has many sheets
WORKBOOK = b"PK\3\4"  # how a workbook begins, as every zip archive does


class Unreadable(ValueError):
    """A text that is no table of rows, or could be two."""


class Word(NamedTuple):
    """A word of a text: its line, and which of the line's words it is, both from 1."""

    text: str
    line: int
    at: int
    what: str = "number"


# ---- files


def bytes_of_file(path: Union[str, pathlib.Path]) -> bytes:
    """The bytes of a file: see `bytes_of_stream`."""
    with open(path, "rb") as file:
        return bytes_of_stream(file)


def bytes_of_stream(stream: BinaryIO) -> bytes:
    """The bytes of an open file, unless they are more than any table of 256 rows has, or any workbook that is read."""
    data, most = stream.read(MOST_BYTES + 1), MOST_BYTES
    if data.startswith(WORKBOOK):
        data, most = data + stream.read(MOST_OF_A_WORKBOOK - MOST_BYTES), MOST_OF_A_WORKBOOK
    if len(data) > most:
        raise Unreadable(f"this is longer than {most} bytes, and a box has at most 256 rows")
    return data


def looks_like_text(data: bytes) -> bool:
    """Whether the bytes cannot be a box file: its first byte, n, is at most 8, and no text begins so."""
    return bool(data) and data[0] > 8


def text_of_bytes(data: bytes) -> str:
    """A text in UTF-8, or in UTF-16 with its mark; the mark is no part of it."""
    encoding = "utf-16" if data[:2] in (b"\xff\xfe", b"\xfe\xff") else "utf-8-sig"
    try:
        text = data.decode(encoding)
    except UnicodeDecodeError:
        raise Unreadable("this is no text in UTF-8, and none in UTF-16 that begins with its mark") from None
    if "\0" in text:
        raise Unreadable(
            "this is neither a text nor a box file: it has bytes of 0; a text in UTF-16 must begin with its mark"
        )
    return text


# ---- one number


DECIMAL = re.compile(r"0|[1-9][0-9]*")
PREFIXED = re.compile(r"0[xX][0-9a-fA-F]+")
STATED = {10: re.compile(r"[0-9]+"), 16: re.compile(r"(?:0[xX])?[0-9a-fA-F]+")}


def _value(text: str, base: Optional[int]) -> Optional[int]:
    """The number of a word, or None: in the stated base, or else in base ten, and with 0x in front in base sixteen."""
    if len(text) > LONGEST or (base == 16 and is_several(text)):
        return None
    if base is not None:
        return int(text, base) if STATED[base].fullmatch(text) else None
    if DECIMAL.fullmatch(text):
        return int(text)
    return int(text, 16) if PREFIXED.fullmatch(text) else None


def _number(word: Word, base: Optional[int], first_line: int = 0) -> int:
    """The number of a word, which may be a heading where it stands in the first line of a table."""
    value = _value(word.text, base)
    if value is None:
        raise Unreadable(f"line {word.line}, {word.what} {word.at}: {why_no_row(word.text, base, word.line == first_line)}")
    return value


# ---- a list of C or Python


DECLARED = r"(?:[A-Za-z_]\w*\s+)*[A-Za-z_]\w*\s*(?:\[\s*(?P<length>[0-9]*)\s*\])?\s*=\s*"
LIST = re.compile(
    rf"\s*(?:{DECLARED})?(?P<opening>[\[{{(])(?P<inside>[^\[\]{{}}()]*)(?P<closing>[\]}})])\s*;?\s*", re.ASCII
)
SUFFIX = re.compile(r"(0[xX][0-9a-fA-F]+|[0-9]+)(?:[uU][lL]{0,2}|[lL]{1,2}[uU]?)")
BRACKETS = {"{": "}", "[": "]", "(": ")"}
BRACKET = re.compile(r"[][{}()]")


def _cells_of_list(inside: str) -> list[tuple[int, str]]:
    """What stands between the commas of a list, with its offset; behind the last comma may stand nothing."""
    if "," not in inside:
        return [(match.start(), match[0]) for match in re.finditer(r"\S+", inside)]
    cells, offset = [], 0
    for cell in inside.split(","):
        cells.append((offset + len(cell) - len(cell.lstrip()), cell.strip()))
        offset += len(cell) + 1
    return cells if cells[-1][1] else cells[:-1]


def _turn_down_brackets(text: str) -> NoReturn:
    """Says why a text with brackets is no list. Where they open and close in the first line alone, it is a heading such as x,S(x)."""
    first, *below = text.split("\n")
    closed = sum(first.count(letter) for letter in BRACKETS) == sum(first.count(letter) for letter in BRACKETS.values())
    if closed and any(below) and not BRACKET.search("".join(below)) and not LIST.fullmatch(first):
        raise Unreadable(
            f"line 1: {shown(first.strip())} is no number; if it is a heading, state --heading; what is no row must be taken out"
        )
    raise Unreadable(
        "the brackets do not hold one list of numbers alone; a list of lists can be read in two ways:"
        " write one list, in the order of the inputs"
    )


def _words_of_list(text: str) -> list[list[Word]]:
    """The words of the one list that a text is, by lines; a line without a number does not count."""
    for number, words_of_line in enumerate(text.splitlines(), 1):
        comment = re.search(r"(?:/\*|//|^\s*#).*", words_of_line)
        if comment:
            raise Unreadable(f"line {number}: comments are not read; take this one out: {shown(comment[0].strip())}")
    found = LIST.fullmatch(text)
    if found is None or BRACKETS[found["opening"]] != found["closing"]:
        _turn_down_brackets(text)
    words: list[Word] = []
    for offset, cell in _cells_of_list(found["inside"]):
        line = text.count("\n", 0, found.start("inside") + offset) + 1
        at = words[-1].at + 1 if words and words[-1].line == line else 1
        if len(cell.split()) != 1:
            what = f"no comma stands in {shown(cell)}" if cell else "a cell is empty"
            raise Unreadable(f"line {line}, number {at}: {what}")
        suffixed = SUFFIX.fullmatch(cell) if found["opening"] == "{" else None
        words.append(Word(suffixed[1] if suffixed else cell, line, at))
    lines = [list(line) for _, line in itertools.groupby(words, key=lambda word: word.line)]
    if found["length"] and int(found["length"][:LONGEST]) != len(words):
        _must_be_even(lines)  # which names the line at fault, where one is seen
        raise Unreadable(f"the list is declared with {found['length'][:LONGEST]} numbers and has {len(words)}")
    return lines


# ---- the cells of lines


SEPARATORS = {",": "commas", ";": "semicolons", "\t": "tabs", "|": "upright lines"}
QUOTED = re.compile(r'"(?:[^"]|"")*"')
LINE = re.compile(r'(?:[^"\n]|"(?:[^"]|"")*")*')  # to its end, which is none within quotation marks
STATED_SEPARATOR = re.compile(r'("?)sep=([^\n])\1(?:\n|\Z)', re.IGNORECASE)


NOT_CLOSED = (
    "a quotation mark stands within a cell, or is not closed; such a cell begins and ends with one, and has \"\" for each within it"
)


class Table(NamedTuple):
    """The cells of a table's heading, where it has one, and of each line below."""

    heading: list[Word]
    lines: list[list[Word]]


def _separator(text: str) -> Optional[str]:
    """What separates the cells of a text: commas, semicolons or tabs that stand in no quotation marks, or None for spaces alone."""
    bare = QUOTED.sub("", text)
    found = [letter for letter in ",;\t" if letter in bare]
    if len(found) > 1:
        raise Unreadable(
            f"the text has {' and '.join(SEPARATORS[letter] for letter in found)}: only one of them can separate the numbers;"
            f" a first line such as sep={found[-1] if found[-1] != chr(9) else ';'} says which"
        )
    return found[0] if found else None


def _cells_with_quotes(text: str, separator: Optional[str], line: int) -> Iterator[list[Word]]:
    """The cells of each line, as RFC 4180 has them: in quotation marks may stand separators, line breaks, and "" for one mark."""
    cell = re.compile(rf' *"((?:[^"]|"")*)" *|[^"\n{re.escape(separator or "")}]*')
    words: list[Word] = []
    at, first = 0, line
    while True:
        found = cell.match(text, at)
        assert found is not None  # it may be empty
        at, end = found.end() + 1, text[found.end() : found.end() + 1]
        if end not in ("", "\n", separator):
            raise Unreadable(f"line {line}, number {len(words) + 1}: {NOT_CLOSED}")
        words.append(Word((found[0] if found[1] is None else found[1].replace('""', '"')).strip(), first, len(words) + 1))
        line += found[0].count("\n") + (end == "\n")
        if end != separator or not end:
            yield words
            words, first = [], line
        if not end:
            return


def _cells(text: str, separator: Optional[str], first: int) -> list[list[Word]]:
    """The cells of each line of a text whose lines are numbered from `first` on; separated by spaces where there is no separator."""
    if '"' in text:
        table = list(_cells_with_quotes(text, separator, first))
    else:
        table = [
            [Word(cell.strip(), number, at) for at, cell in enumerate(line.split(separator) if line.strip() else [], 1)]
            for number, line in enumerate(text.split("\n"), first)
        ]
    for number, line in enumerate(table, first):
        if not line or (len(line) == 1 and not line[0].text):
            number = line[0].line if line else number
            raise Unreadable(f"line {number} is empty: a row may be missing there; take the line out if none is")
    return table


def _table(text: str, has_heading: bool) -> Table:
    """The cells of a text. Its first line may state the separator, as Excel has it (sep=;); the line behind that may be a heading."""
    stated, first, separator = STATED_SEPARATOR.match(text), 1, None
    if stated:
        text, first, separator = text[stated.end() :], 2, stated[2]
        if separator not in SEPARATORS:
            raise Unreadable(f"line 1: sep= states {shown(separator)}, and cells are separated by , or ; or | or a tab")
    found = LINE.match(text)
    assert found is not None  # it may be empty
    end = found.end() if has_heading else -1
    if text[end : end + 1] == '"':
        raise Unreadable(f"line {first}: {NOT_CLOSED}")
    below, under = text[end + 1 :], first + text.count("\n", 0, end + 1)
    if not below.strip():
        return Table([], [])
    separator = separator or _separator(below)
    lines = _cells(below, separator, under)
    if not has_heading:
        return Table([], lines)
    # Over one column the heading is one cell, of however many words.
    alone = separator is None and len(lines[0]) == 1 and '"' not in text[:end]
    heading = [Word(text[:end].strip(), first, 1)] if alone else _cells(text[:end], separator, first)[0]
    return Table(heading, lines)


# ---- the rows of lines


def _must_be_even(table: list[list[Word]]) -> None:
    """Turns a table down unless every line has as many numbers as the first; only the last may have fewer.

    Where one row is cut in two (3,0, a decimal comma) and another is missing, the number of rows is right, and the rows between them
    are those of other inputs.
    """
    for line in table:
        first = table[0]
        if len(line) > len(first) or (len(line) < len(first) and line is not table[-1]):
            count = "1 number" if len(line) == 1 else f"{len(line)} numbers"
            raise Unreadable(
                f"line {line[0].line}: it has {count}, and line {first[0].line} has {len(first)}; a number may be cut in two or missing:"
                " if none is, write as many in every line (only the last may have fewer), or all in one line"
            )


def _counting_column(table: list[list[int]]) -> Optional[int]:
    """The first column, from 0, that only counts the lines, where a table has several columns and lines; the last line may be short."""
    across = len(table[0])
    if across == 1:
        return None
    for column in range(across):
        values = [line[column] for line in table if column < len(line)]
        for first, step in ((0, 1), (1, 1), (0, across - 1)):
            if len(values) > 1 and values == [first + step * place for place in range(len(values))]:
                return column
    return None


def _inputs_in_order(column: Sequence[str]) -> Optional[bool]:
    """Whether a column that has every input once, from 0 or 1 on and in any base, has them in order; None where it has not."""
    for base in (10, 16, 2):
        try:
            values = [int(cell, base) for cell in column]
        except ValueError:
            continue
        if len(values) > 1 and sorted(values) in ([*range(len(values))], [*range(1, len(values) + 1)]):
            return values == sorted(values)
    return None


def must_be_in_order(columns: Sequence[Sequence[str]], names: Sequence[str]) -> None:
    """Turns a table down where a column may be the inputs, out of order, and none has them in order: its lines must be sorted."""
    orders = [_inputs_in_order(column) for column in columns]
    if False in orders and True not in orders:
        raise Unreadable(
            f"{names[orders.index(False)]} has every number from 0 or 1 on once, and not in order: if these are the inputs, sort the"
            " lines by them; if not, and the lines are in the order of the inputs, state --no-pairs"
        )


def _rows_of_pairs(table: list[list[int]]) -> list[int]:
    """The second number of each line, where the first is the input."""
    if all(len(line) == 2 for line in table):
        if _inputs_in_order([str(line[0]) for line in table]) is False:
            raise Unreadable("the inputs in column 1 are not in order: sort the lines by them")
        if [line[0] for line in table] == list(range(len(table))) and len(table) > 1:
            return [line[1] for line in table]
    raise Unreadable("the lines are no pairs of an input, from 0 on, and its row")


def _rows_of_lines(table: list[list[int]], pairs: Optional[bool]) -> list[int]:
    """The rows of numbers in lines: all of them, or the second of each line where the lines are pairs."""
    if pairs:
        return _rows_of_pairs(table)
    if pairs is None:
        counting = _counting_column(table)
        if counting is not None:
            raise Unreadable(
                f"column {counting + 1} counts the lines: state --pairs if each line is an input and its row, --no-pairs if every"
                " number is a row, --column K if only column K has the rows, or take the column out"
            )
        if len(table) > 2 and all(len(line) == 2 for line in table):  # two lines have 0 and 1 in a column too often by chance
            must_be_in_order([[str(line[at]) for line in table] for at in (0, 1)], ["column 1", "column 2"])
    return [row for line in table for row in line]


def column_by_name(name: str, headings: Sequence[str]) -> int:
    """Which column, from 0, has a heading."""
    places = [place for place, heading in enumerate(headings) if heading == name.strip()]
    if len(places) > 1:
        columns = " and ".join(str(place + 1) for place in places)
        raise Unreadable(f"the columns {columns} have the heading {shown(name)}: state the number of one of them")
    if not places:
        raise Unreadable(f"no column has the heading {shown(name)}; the headings are {listed(headings)}")
    return places[0]


def column_by_number(column: Union[int, str], across: int) -> Optional[int]:
    """Which column, from 0, has a number, counted from 1; None where it is the name of a heading."""
    if isinstance(column, str) and not re.fullmatch("[0-9]+", column):
        return None
    if not 1 <= int(column) <= across:
        raise Unreadable(f"there is no column {shown(str(column))}: the columns are 1 to {across}")
    return int(column) - 1


def _rows_of_column(table: Table, column: Union[int, str], base: Optional[int], pairs: Optional[bool]) -> list[int]:
    """The rows in one column of a table; the others may hold anything, but not the inputs in another order."""
    first = table.lines[0]
    for line in [table.heading, *table.lines] if table.heading else table.lines:
        if len(line) != len(first):
            raise Unreadable(
                f"line {line[0].line}: it has {len(line)} cells, and line {first[0].line} has {len(first)}; a separator may be missing,"
                " or stand in a cell that needs quotation marks"
            )
    place = column_by_number(column, len(first))
    if place is None:
        place = column_by_name(str(column), [word.text for word in table.heading])
    rows = [_number(line[place]._replace(what="column"), base, 0 if table.heading else first[0].line) for line in table.lines]
    if pairs is None:
        others = [at for at in range(len(first)) if at != place]
        columns = [[line[at].text for line in table.lines] for at in others]
        must_be_in_order(columns, [f"column {at + 1}" for at in others])
    return rows


def _must_be_heading(heading: list[Word], column: Union[None, int, str], base: Optional[int]) -> None:
    """Turns a heading down that may be a row: it would be lost."""
    place = None if column is None else column_by_number(column, len(heading))
    read = heading if place is None else [heading[place]]
    if all(_value(word.text, base) is not None for word in read):
        words = shown(" ".join(word.text for word in read))
        raise Unreadable(f"line {heading[0].line}: {words} may be a row and no heading: leave --heading out, or take the line out")


def _rows_of_table(
    text: str,
    base: Optional[int],
    pairs: Optional[bool],
    lines: bool,
    heading: bool,
    column: Union[None, int, str],
) -> list[int]:
    """The rows of a text of lines."""
    named = isinstance(column, str) and not re.fullmatch("[0-9]+", column)
    table = _table(text.rstrip() if column is None else text.rstrip(" \n"), heading or named)
    if not table.lines:
        raise Unreadable("the text has no number")
    if table.heading:
        _must_be_heading(table.heading, column, base)
    if column is not None:
        return _rows_of_column(table, column, base, pairs)
    first = 0 if table.heading else table.lines[0][0].line
    numbers = [[_number(word, base, first) for word in line] for line in table.lines]
    _must_be_even(table.lines)
    _must_not_be_des(table.lines, lines)
    only = table.lines[0][0].text
    if len(numbers) == len(numbers[0]) == 1 and len(only) > 2:
        raise Unreadable(f"the text is one number, {shown(only)}; if it is several rows without separators, put one between them")
    return _rows_of_lines(numbers, pairs)


def _must_not_be_des(table: list[list[Word]], lines: bool) -> None:
    """Turns four lines of sixteen numbers down, unless it is stated that they are in order."""
    if not lines and [len(line) for line in table] == [16] * 4:
        raise Unreadable(
            "four lines of sixteen numbers may stand as DES prints its boxes, where the outer input bits choose the line:"
            " state --lines if they stand in the order of the inputs, or write them in that order"
        )


def _rows_of_list(text: str, base: Optional[int], pairs: Optional[bool], lines: bool) -> list[int]:
    """The rows of a text that is a list."""
    words = _words_of_list(text)
    if not words:
        raise Unreadable("the text has no number")
    if pairs:
        raise Unreadable("a list has no lines that could be pairs of an input and its row")
    rows = [_number(word, base) for line in words for word in line]
    _must_be_even(words)
    _must_not_be_des(words, lines)
    return rows


def rows_of_text(
    text: str,
    base: Optional[int] = None,
    pairs: Optional[bool] = None,
    lines: bool = False,
    heading: bool = False,
    column: Union[None, int, str] = None,
) -> list[int]:
    """The rows of a table of numbers, read line by line. The words that settle how are those of the command, such as --base:

    base     10 or 16, for numbers that do not say it; without it 0x means base sixteen, and all else is in base ten without a leading 0
    pairs    True: each line is an input and its row; False: every number is a row, even where a column counts
    lines    True: four lines of sixteen numbers, as DES prints its boxes, do stand in the order of the inputs
    heading  True: line 1 is a heading
    column   only this column has the rows: its number from 1, or its heading, so that line 1 is one

    Every line that has numbers has as many as the first of them, and only the last may have fewer. A cell may stand in quotation marks,
    as RFC 4180 has it, and a first line may state the separator, as Excel has it (sep=;).
    """
    if base not in (None, 10, 16):
        raise ValueError(f"the base is 10 or 16, and not {base}")
    if pairs and column is not None:
        raise Unreadable("--pairs and --column both say which column has the rows: state one of them")
    text = "\n".join((text[1:] if text[:1] == "\ufeff" else text).splitlines())
    if heading or column is not None:
        return _rows_of_table(text, base, pairs, lines, heading, column)
    try:
        if BRACKET.search(text):
            return _rows_of_list(text, base, pairs, lines)
        return _rows_of_table(text, base, pairs, lines, heading, column)
    except Unreadable as error:
        raise Unreadable(notation(text) or str(error)) from None
