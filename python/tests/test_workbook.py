"""Workbooks: the column that is read, the cells that are turned down by their address, and what is said where openpyxl is missing.

Where this Python has no openpyxl, the tests that need it are run by another that has it; where none has it, a line says that they were
left out.
"""
import contextlib
import datetime
import importlib.util
import io
import os
import pathlib
import random
import re
import shutil
import subprocess
import sys
import tempfile
import unittest
import unittest.mock
import zipfile

from satmegwo import Box, Refusal, Unreadable, command, workbook

from .places import PACKAGE

ROWS = [3, 1, 4, 0, 2, 5, 6, 7]
IS_HERE = importlib.util.find_spec("openpyxl") is not None


def elsewhere():
    """Another Python that has openpyxl, or None."""
    for place in ("/usr/bin/python3", "/usr/local/bin/python3", shutil.which("python3"), shutil.which("python")):
        if place and os.path.exists(place) and subprocess.run([place, "-c", "import openpyxl"], capture_output=True).returncode == 0:
            return place
    return None


def saved(*sheets):
    """The bytes of a workbook of sheets, each a name and its rows of cells."""
    import openpyxl

    book, file = openpyxl.Workbook(), io.BytesIO()
    book.remove(book.active)
    for name, lines in sheets:
        sheet = book.create_sheet(name)
        for line in lines:
            sheet.append(line)
    book.save(file)
    return file.getvalue()


def edited(data, name, old, new):
    """A workbook in which one part's text is changed."""
    file = io.BytesIO()
    with zipfile.ZipFile(io.BytesIO(data)) as archive, zipfile.ZipFile(file, "w") as written:
        for part in archive.namelist():
            text = archive.read(part)
            if part == name:
                assert old in text, text
                text = text.replace(old, new)
            written.writestr(part, text)
    return file.getvalue()


def table(heading=("x", "S(x)"), more=()):
    return [list(heading), *([x, row] for x, row in enumerate(ROWS)), *more]


class Asked(unittest.TestCase):
    def turned_down(self, data, words, **how):
        with self.assertRaises(Unreadable) as caught:
            workbook.rows_of_data(data, **how)
        self.assertIn(words, str(caught.exception))


@unittest.skipUnless(IS_HERE, "this Python has no openpyxl")
class Cells(Asked):
    def test_columns(self):
        data = saved(("Sheet1", table()))
        for how in (
            {"column": "S(x)"},
            {"column": "S(x)", "heading": True},
            {"column": "B", "heading": True},
            {"column": "b", "heading": True},
            {"column": 2, "heading": True},
            {"column": "2", "heading": True, "sheet": "Sheet1"},
        ):
            with self.subTest(how):
                self.assertEqual(workbook.rows_of_data(data, **how), ROWS)
        self.assertEqual(workbook.rows_of_data(saved(("A", [[row] for row in ROWS])), column="A"), ROWS)
        longer = saved(("A", table(more=[[8, None, "notes"], [9]])))
        self.assertEqual(workbook.rows_of_data(longer, column="S(x)"), ROWS)
        self.assertEqual(Box.from_data(data, 3, 3, "a.xlsx", column="S(x)"), Box(ROWS, 3, 3))

    def test_sheets(self):
        data = saved(("One", table()), ("My box's", [[row] for row in reversed(ROWS)]))
        self.assertEqual(workbook.rows_of_data(data, column="A", sheet="My box's"), ROWS[::-1])
        self.turned_down(data, "the workbook has the sheets One, My box's: state one by --sheet", column="A")
        self.turned_down(data, "the workbook has no sheet Two; its sheets are One, My box's", column="A", sheet="Two")
        self.turned_down(data, "One!A1: x is a text and no number; if row 1 is a heading, state --heading", column="A", sheet="One")
        data = saved(("My box's", [[3], [1], [0.5], [0]]))
        self.turned_down(data, "'My box''s'!A3: 0.5 is a fraction", column="A")

    def test_which_column(self):
        data = saved(("Sheet1", table(("C", "S"))))
        for column, words in (
            ("Z", "Sheet1 has no column Z, and no heading Z in row 1: the columns are A to B"),
            (3, "there is no column 3: the columns are 1 to 2"),
            ("S box", "no column has the heading S box; the headings are C, S"),
        ):
            self.turned_down(data, words, column=column)
        self.assertEqual(workbook.rows_of_data(data, column="S"), ROWS)
        data = saved(("Sheet1", table(("B", "A"))))
        self.turned_down(data, "A is a column's letters, and the heading of column B: state 1 or 2, its number", column="A")
        self.assertEqual(workbook.rows_of_data(saved(("Sheet1", table(("A", "B")))), column="B"), ROWS)
        self.turned_down(saved(("Sheet1", table(("S", "S")))), "the columns 1 and 2 have the heading S", column="S")
        self.turned_down(saved(("Sheet1", table(("x", 3)))), "Sheet1!B1: this cell has 3, which may be a row", column="B", heading=True)
        self.turned_down(saved(("Sheet1", table(("x", None)))), "Sheet1!B1: this cell is empty, and no heading", column=2, heading=True)

    def test_cells(self):
        for value, words in (
            ("#NUM!", "#NUM! is an error of the spreadsheet"),
            ("4", "4 is a text and no number; format the cell as a number"),
            ("0x4", "0x4 is a text"),
            ("", "this cell is empty"),
            (None, "this cell is empty"),
            (4.5, "4.5 is a fraction and no whole number"),
            (True, "TRUE is a truth value"),
            (datetime.date(2020, 1, 4), "2020-01-04 00:00:00 is a date or a time"),
            (datetime.time(4), "04:00:00 is a date or a time"),
            (-4, "-4 is negative"),
            ("=2+2", "the workbook holds a formula and not its value: open it in the spreadsheet program, and save it"),
        ):
            for row in (2, 4, 9):
                with self.subTest((value, row)):
                    lines = table()
                    lines[row - 1][1] = value
                    if row == 9 and value in ("", None):
                        lines.append([8, 3])  # below the last cell nothing is asked
                    self.turned_down(saved(("Sheet1", lines)), f"Sheet1!B{row}: {words}", column="S(x)")
        self.turned_down(saved(("Sheet1", [["x", "S(x)"], [1]])), "Sheet1!B2: the column is empty", column="S(x)")

    def test_numbers(self):
        """A whole number is one however the workbook writes it, and a formula is the value that was saved for it."""
        data = saved(("Sheet1", [[row] for row in ROWS]))
        part = "xl/worksheets/sheet1.xml"
        for old, new in ((b"<v>4</v>", b"<v>4.0</v>"), (b"<v>4</v>", b"<v>4E0</v>"), (b"<v>4</v>", b"<f>2+2</f><v>4</v>")):
            self.assertEqual(workbook.rows_of_data(edited(data, part, old, new), column="A"), ROWS)
        self.assertEqual(workbook.rows_of_data(saved(("Sheet1", [[2**32 - 1], [0]])), column=1), [2**32 - 1, 0])
        # Uncounted formulas at the end are rows too, and not the end of the column.
        self.turned_down(saved(("Sheet1", [[3], [1], ["=1+1"], ["=2+2"]])), "Sheet1!A3: the workbook holds a formula", column="A")

    def test_order(self):
        lines = [["x", "S(x)"], *([x, ROWS[x] + 9] for x in (1, 0, 2, 3, 4, 5, 6, 7))]
        data = saved(("Sheet1", lines))
        self.turned_down(data, "column A of Sheet1 has every number from 0 or 1 on once, and not in order", column="S(x)")
        self.assertEqual(workbook.rows_of_data(data, column="S(x)", pairs=False), [ROWS[x] + 9 for x in (1, 0, 2, 3, 4, 5, 6, 7)])

    def test_words_that_do_not_fit(self):
        data = saved(("Sheet1", table()))
        self.turned_down(data, "leave --base out", column="B", base=16)
        self.turned_down(data, "leave --pairs out", column="B", pairs=True)

    def test_damaged(self):
        """A workbook that was changed somewhere is read, or turned down in words."""
        data, chance, outcomes = saved(("Sheet1", table())), random.Random(6), []
        for _ in range(300):
            changed = bytearray(data)
            for _ in range(chance.randrange(1, 4)):
                changed[chance.randrange(4, len(data))] = chance.randrange(256)
            if chance.randrange(4) == 0:
                del changed[chance.randrange(4, len(data)) :]
            try:
                outcomes.append(Box.from_data(bytes(changed), 3, 3, "a.xlsx", column="S(x)").rows == tuple(ROWS))
            except (Unreadable, Refusal) as error:
                self.assertTrue(str(error).isprintable(), str(error))
                outcomes.append(None)
        self.assertNotIn(False, outcomes)
        self.assertIn(None, outcomes)

    def test_the_command(self):
        with tempfile.TemporaryDirectory() as folder:
            path = pathlib.Path(folder, "box.xlsx")
            path.write_bytes(saved(("Notes", [["none"]]), ("Sheet1", table())))
            for words in (["--column", "S(x)"], ["--column", "B", "--heading"], ["--column", "2", "--heading"]):
                out = io.TextIOWrapper(io.BytesIO())
                with contextlib.redirect_stdout(out):
                    asked = ["sheet", str(path), "-n", "3", "-m", "3", "--sheet", "Sheet1", *words]
                    self.assertEqual(command.main(asked), 0)
                self.assertEqual(out.buffer.getvalue().decode(), Box(ROWS, 3, 3).sheet())


class WithoutTheModule(Asked):
    def archive(self, *names):
        file = io.BytesIO()
        with zipfile.ZipFile(file, "w") as archive:
            for name in names:
                archive.writestr(name, "")
        return file.getvalue()

    def test_what_to_install(self):
        data = self.archive("[Content_Types].xml")
        with unittest.mock.patch.dict(sys.modules, {"openpyxl": None}):
            self.turned_down(data, "install it by pip install openpyxl, or on Debian the package python3-openpyxl", column="B")
        self.turned_down(data, "this is a workbook (.xlsx): state the column of the rows by --column (a letter such as B")

    def test_other_files(self):
        self.turned_down(b"\xd0\xcf\x11\xe0\xa1\xb1\x1a\xe1" + bytes(600), "a workbook of the old form (.xls), which is not read")
        self.turned_down(self.archive("mimetype", "content.xml"), "a document of the OpenDocument form (.ods)")
        self.turned_down(self.archive("a.txt"), "this is a zip archive and no workbook")
        self.turned_down(b"PK\3\4" + bytes(50), "begins as a workbook (.xlsx) does, and is damaged or cut off")
        self.turned_down(b"3 1 4 0", "--sheet names a sheet of a workbook (.xlsx), and this is none", sheet="a")
        with unittest.mock.patch.object(workbook, "MOST_UNPACKED", -1):
            self.turned_down(self.archive("[Content_Types].xml"), "when it is unpacked", column="B")

    def test_length(self):
        """A workbook may be longer than a text."""
        with tempfile.TemporaryDirectory() as folder:
            path = pathlib.Path(folder, "box.xlsx")
            path.write_bytes(b"PK\3\4" + bytes(2_000_000))
            with self.assertRaisesRegex(Unreadable, "is damaged or cut off"):
                Box.from_file(path, 3, 3)
            with unittest.mock.patch.object(workbook.reading, "MOST_OF_A_WORKBOOK", 1_500_000):
                with self.assertRaisesRegex(Unreadable, "longer than 1500000 bytes"):
                    Box.from_file(path, 3, 3)

    def test_the_extra(self):
        """The package names openpyxl as an extra, in pyproject.toml and in the wheel that it makes."""
        self.assertIn('\n[project.optional-dependencies]\nworkbook = ["openpyxl"]\n', (PACKAGE / "pyproject.toml").read_text())
        made = "import backend, sys; print(backend.build_wheel(sys.argv[1]))"
        with tempfile.TemporaryDirectory() as folder:
            done = subprocess.run([sys.executable, "-B", "-c", made, folder], capture_output=True, cwd=PACKAGE, text=True)
            self.assertEqual(done.returncode, 0, done.stderr)
            with zipfile.ZipFile(pathlib.Path(folder, done.stdout.strip())) as wheel:
                told = next(wheel.read(name).decode() for name in wheel.namelist() if name.endswith("METADATA"))
        self.assertIn("\nProvides-Extra: workbook\n", told)
        self.assertIn('\nRequires-Dist: openpyxl; extra == "workbook"\n', told)

    @unittest.skipIf(IS_HERE, "this Python has openpyxl, and runs the tests itself")
    def test_by_another_python(self):
        other = elsewhere()
        if other is None:
            print("tests of workbooks were left out: no Python here has the module openpyxl", file=sys.stderr)
            self.skipTest("no Python here has openpyxl")
        asked = [other, "-B", "-W", "error", "-m", "unittest", "-v", f"{__name__}.Cells"]
        done = subprocess.run(asked, capture_output=True, cwd=PACKAGE, text=True)
        self.assertEqual(done.returncode, 0, done.stderr)
        tests = [name for name in vars(Cells) if name.startswith("test_")]
        self.assertIn(f"Ran {len(tests)} tests", done.stderr)
        self.assertIsNone(re.search("skipped", done.stderr), done.stderr)
