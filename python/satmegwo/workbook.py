"""Rows from a workbook (.xlsx), by the module openpyxl where it is installed: one column of one sheet.

A cell of a workbook has a type, so that less can be misread than in a text. Every cell of the column must be a whole number; an error, a
text, a fraction, a truth value, a date and an empty cell are turned down with their address, such as Sheet1!B17.
"""
from __future__ import annotations

import importlib
import io
import re
import warnings
import zipfile
from typing import Any, NamedTuple, Optional, Union

from . import reading
from .notations import listed, shown
from .reading import Unreadable

OLD = b"\xd0\xcf\x11\xe0"  # how a workbook begins that Excel wrote before 2007
MOST_UNPACKED = 500_000_000
INSTEAD = "save it as .xlsx, or export the column as CSV"


class Sheet(NamedTuple):
    """A sheet, once with the values of its formulas and once with the formulas themselves, and its name."""

    values: Any
    formulas: Any

    @property
    def name(self) -> str:
        """The name as an address has it."""
        title = str(self.values.title)
        return title if re.fullmatch(r"\w+", title) else "'" + title.replace("'", "''") + "'"


def rows_of_data(
    data: bytes,
    base: Optional[int] = None,
    pairs: Optional[bool] = None,
    lines: bool = False,
    heading: bool = False,
    column: Union[None, int, str] = None,
    sheet: Optional[str] = None,
) -> list[int]:
    """The rows of what a file holds: a workbook, of which `column` is stated and `sheet` where it has several, or a text."""
    if data.startswith(OLD):
        raise Unreadable(f"this is a workbook of the old form (.xls), which is not read: {INSTEAD}")
    if data.startswith(reading.WORKBOOK):
        if base is not None:
            raise Unreadable("the cells of a workbook are numbers and have no base: leave --base out")
        return rows_of_workbook(data, column, sheet, heading, pairs)
    if sheet is not None:
        raise Unreadable("--sheet names a sheet of a workbook (.xlsx), and this is none")
    return reading.rows_of_text(reading.text_of_bytes(data), base, pairs, lines, heading, column)


def rows_of_workbook(
    data: bytes,
    column: Union[None, int, str],
    sheet: Optional[str] = None,
    heading: bool = False,
    pairs: Optional[bool] = None,
) -> list[int]:
    """The rows in a column of a sheet: `column` is a letter such as B, a number from 1, or a heading, so that row 1 is one."""
    _must_be_workbook(data)
    if column is None:
        raise Unreadable(
            "this is a workbook (.xlsx): state the column of the rows by --column (a letter such as B, a number or a heading), and"
            " by --sheet the sheet, if there are several"
        )
    if pairs:
        raise Unreadable("of a workbook --column says which column has the rows: leave --pairs out")
    found = _sheet(_opened(data, formulas=False), _opened(data, formulas=True), sheet)
    place, is_named = _place(found, column)
    first = 2 if heading or is_named else 1
    if first == 2:
        _must_be_heading(found, place)
    rows = [_row(found, at, place) for at in range(first, _last(found, place) + 1)]
    if not rows:
        raise Unreadable(f"{_address(found, first, place)}: the column is empty")
    if pairs is None:
        others = [at for at in range(1, found.values.max_column + 1) if at != place]
        below = range(first, first + len(rows))
        columns = [[_text(found.values.cell(row, at).value) for row in below] for at in others]
        reading.must_be_in_order(columns, [f"column {_letters(at)} of {found.name}" for at in others])
    return rows


# ---- the workbook


def _must_be_workbook(data: bytes) -> None:
    """Turns an archive down that is no workbook, or is damaged."""
    try:
        with zipfile.ZipFile(io.BytesIO(data)) as archive:
            names, size = archive.namelist(), sum(part.file_size for part in archive.infolist())
    except Exception:  # a damaged archive raises many kinds of errors
        raise Unreadable("this begins as a workbook (.xlsx) does, and is damaged or cut off") from None
    if "mimetype" in names:
        raise Unreadable(f"this is a document of the OpenDocument form (.ods), which is not read: {INSTEAD}")
    if "[Content_Types].xml" not in names:
        raise Unreadable("this is a zip archive and no workbook (.xlsx)")
    if size > MOST_UNPACKED:
        raise Unreadable(f"this workbook is longer than {MOST_UNPACKED} bytes when it is unpacked: export the column as CSV")


def _opened(data: bytes, formulas: bool) -> Any:
    """The workbook, with its formulas or with the values that were saved for them."""
    try:
        openpyxl = importlib.import_module("openpyxl")
    except ImportError:
        raise Unreadable(
            "this is a workbook (.xlsx), and to read it Python needs the module openpyxl: install it by pip install openpyxl, or on"
            " Debian the package python3-openpyxl; or export the column as CSV"
        ) from None
    try:
        with warnings.catch_warnings():
            warnings.simplefilter("ignore")  # of what it does not read, such as pictures
            return openpyxl.load_workbook(io.BytesIO(data), data_only=not formulas)
    except Exception as error:  # a damaged workbook raises many kinds of errors
        raise Unreadable(f"openpyxl cannot read this workbook: {shown(str(error)) or type(error).__name__}") from None


def _sheet(values: Any, formulas: Any, name: Optional[str]) -> Sheet:
    """The sheet of a name, or the only one."""
    names = [sheet.title for sheet in values.worksheets]
    if name is None and len(names) != 1:
        raise Unreadable(f"the workbook has the sheets {listed(names)}: state one by --sheet")
    if name is not None and name not in names:
        raise Unreadable(f"the workbook has no sheet {shown(name)}; its sheets are {listed(names)}")
    chosen = names[0] if name is None else name
    return Sheet(values[chosen], formulas[chosen])


# ---- the column


def _letters(place: int) -> str:
    """The letters of a column, which is counted from 1."""
    letters = ""
    while place:
        place, letter = divmod(place - 1, 26)
        letters = chr(ord("A") + letter) + letters
    return letters


def _address(sheet: Sheet, row: int, place: int) -> str:
    return f"{sheet.name}!{_letters(place)}{row}"


def _place(sheet: Sheet, column: Union[int, str]) -> tuple[int, bool]:
    """Which column is meant, from 1, and whether it is named by its heading."""
    across = sheet.values.max_column
    number = reading.column_by_number(column, across)
    if number is not None:
        return number + 1, False
    word, columns = str(column).strip(), range(1, across + 1)
    over = [sheet.values.cell(1, at).value for at in columns]
    headings = [value.strip() if isinstance(value, str) else "" for value in over]
    lettered = next((at for at in columns if _letters(at) == word.upper()), None)
    if word in headings or not re.fullmatch("[A-Za-z]{1,3}", word):
        named = reading.column_by_name(word, headings) + 1
        if lettered not in (None, named):
            raise Unreadable(
                f"{word} is a column's letters, and the heading of column {_letters(named)}: state {lettered} or {named}, its number"
            )
        return named, True
    if lettered is None:
        raise Unreadable(f"{sheet.name} has no column {word}, and no heading {word} in row 1: the columns are A to {_letters(across)}")
    return lettered, False


def _last(sheet: Sheet, place: int) -> int:
    """The last row of a column that is not empty."""
    rows = range(sheet.formulas.max_row, 0, -1)
    return next((row for row in rows if sheet.formulas.cell(row, place).value is not None), 0)


def _must_be_heading(sheet: Sheet, place: int) -> None:
    value = sheet.values.cell(1, place).value
    if not isinstance(value, str):
        what = "is empty" if value is None else f"has {shown(str(value))}, which may be a row"
        raise Unreadable(f"{_address(sheet, 1, place)}: this cell {what}, and no heading: leave --heading out")


def _text(value: object) -> str:
    """A cell as a text has it."""
    return str(int(value)) if isinstance(value, float) and value.is_integer() else str(value)


def _row(sheet: Sheet, row: int, place: int) -> int:
    """The whole number in a cell."""
    cell = sheet.values.cell(row, place)
    value, where = cell.value, _address(sheet, row, place)
    if cell.data_type == "e":
        raise Unreadable(f"{where}: {shown(str(value))} is an error of the spreadsheet and no number")
    if value is None:
        if sheet.formulas.cell(row, place).value is not None:
            raise Unreadable(
                f"{where}: the workbook holds a formula and not its value: open it in the spreadsheet program, and save it"
            )
        raise Unreadable(f"{where}: this cell is empty")
    if isinstance(value, bool):
        raise Unreadable(f"{where}: {str(value).upper()} is a truth value and no number")
    if isinstance(value, str):
        settled = "if row 1 is a heading, state --heading" if row == 1 else "format the cell as a number and type it again"
        raise Unreadable(f"{where}: {shown(value)} is a text and no number; {settled}, or export the column as CSV")
    if not isinstance(value, (int, float)):
        raise Unreadable(f"{where}: {shown(str(value))} is a date or a time and no number")
    if isinstance(value, float) and not value.is_integer():
        raise Unreadable(f"{where}: {value} is a fraction and no whole number")
    if value < 0:
        raise Unreadable(f"{where}: {_text(value)} is negative")
    return int(value)
