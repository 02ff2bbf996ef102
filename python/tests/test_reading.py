"""Tables of numbers: what is read, and what is turned down with its place and the word that settles it."""
import csv
import inspect
import io
import itertools
import pathlib
import random
import re
import tempfile
import unittest

from satmegwo import Box, Refusal, Unreadable
from satmegwo.reading import rows_of_text, text_of_bytes

from .places import example

ROWS = [3, 1, 4, 0, 2, 5, 6, 7]


class Readable(unittest.TestCase):
    def test_forms(self):
        for text in (
            "3 1 4 0 2 5 6 7",
            "3\n1\n4\n0\n2\n5\n6\n7\n",
            "3\r\n1\r\n4\r\n0\r\n2\r\n5\r\n6\r\n7\r\n\r\n",
            "3\r1\r4\r0\r2\r5\r6\r7\r",
            "3,1,4,0\n2,5,6,7\n",
            "3, 1, 4, 0, 2, 5, 6, 7",
            "3;1;4;0;2;5;6;7",
            "3\t1\t4\t0\n2\t5\t6\t7",
            "  3 1 4\n0 2 5\n6 7",
            "0x3 0x01 4 0 2 5 6 0X7",
            "[3, 1, 4, 0, 2, 5, 6, 7]",
            "S = [3, 1, 4, 0,\n\n     2, 5, 6, 7]\n",
            "(3, 1, 4, 0, 2, 5, 6, 7)",
            "[3 1 4 0 2 5 6 7]",
            "{3,1,4,0,2,5,6,7}",
            "static const uint8_t s[8] = {\n  0x3, 0x1u, 4UL, 0,\n  2, 5, 6, 7,\n};\n",
            "uint32_t s[] = { 3, 1, 4, 0, 2, 5, 6, 7 };",
            "\ufeff3 1 4 0 2 5 6 7",
            "3,1,4\n0,2,5\n6,7",
            "uint8_t s[8] = {\n\n 3, 1, 4,\n\n 0, 2, 5,\n 6, 7\n};",
            "[ 3\n, 1\n, 4\n, 0\n, 2\n, 5\n, 6\n, 7\n]",
            "[3 1 4\n 0 2 5\n 6 7]",
        ):
            with self.subTest(text):
                self.assertEqual(rows_of_text(text), ROWS)

    def test_stated_bases(self):
        self.assertEqual(rows_of_text("63 7C 0x77 7b", base=16), [0x63, 0x7C, 0x77, 0x7B])
        self.assertEqual(rows_of_text("10 20", base=16), [16, 32])
        self.assertEqual(rows_of_text("{010, 020}", base=16), [16, 32])
        self.assertEqual(rows_of_text("07 10", base=10), [7, 10])
        for base in (0, 2, 8):
            with self.assertRaises(ValueError):
                rows_of_text("1", base=base)

    def test_stated_pairs(self):
        counted = "".join(f"{x},{row}\n" for x, row in enumerate(ROWS))
        self.assertEqual(rows_of_text(counted, pairs=True), ROWS)
        self.assertEqual(rows_of_text("0 1\n1 0\n", pairs=False), [0, 1, 1, 0])
        self.assertEqual(rows_of_text("0 63\n1 7c\n", pairs=True, base=16), [0x63, 0x7C])
        with self.assertRaisesRegex(Unreadable, "the inputs in column 1 are not in order: sort the lines by them"):
            rows_of_text("1 3\n0 1\n", pairs=True)
        self.assertEqual(rows_of_text("1 3\n0 1\n", pairs=False), [1, 3, 0, 1])
        for text in ("2 3\n3 1\n", "3 0\n1 1\n", "0 3 3\n1 1 1\n", "0 3\n2 1\n", "0 3\n1", "3\n1\n", "[0, 3]"):
            with self.subTest(text), self.assertRaisesRegex(Unreadable, "pairs"):
                rows_of_text(text, pairs=True)

    def test_stated_lines(self):
        text = "\n".join(" ".join(str((x + 5 * line) % 16) for x in range(16)) for line in range(4))
        self.assertEqual(len(rows_of_text(text, lines=True)), 64)
        for printed in (text, "{" + ",\n".join(line.replace(" ", ", ") for line in text.splitlines()) + "}"):
            with self.assertRaisesRegex(Unreadable, "--lines"):
                rows_of_text(printed)

    def test_encodings(self):
        for encoding in ("ascii", "utf-8", "utf-8-sig", "utf-16"):
            self.assertEqual(rows_of_text(text_of_bytes("3 1 4 0".encode(encoding))), [3, 1, 4, 0])
        self.assertEqual(text_of_bytes("\ufeff3 1".encode("utf-16-be")), "3 1")


# A text, and what must stand in the message.
TURNED_DOWN = (
    ("3\n#NUM!\n4\n0", "line 2, number 1: #NUM! is an error of a spreadsheet"),
    ("#NUM!\n3", "line 1, number 1"),
    ("3 #N/A", "#N/A is an error"),
    ("NaN 3", "NaN is no number"),
    ("3 inf", "inf is no number"),
    ("3.0 1", "3.0 is not written as a whole number"),
    ("3e0 1", "3e0 is not written as a whole number"),
    ("1.39E+09 1", "1.39E+09 is not written as a whole number: format the cells as whole numbers"),
    ("1,39E+09;1\n", "commas and semicolons"),
    ("sep=;\n1,39E+09;1\n", "1,39E+09 is not written as a whole number"),
    ("3e0 1", "or state --base 16, if it is in base sixteen"),
    ("3 -1", "line 1, number 2: -1 is negative"),
    ("63 7c", "--base 16, or write 0x7c"),
    ("c 5 6 b", "--base 16, or write 0xc"),
    ("07 1", "--base 10 or --base 16"),
    ("{ 010, 1 }", "base eight in C"),
    ("1_0 2", "1_0 is no number"),
    ("+3 1", "+3 is no number"),
    ("\u0663 1", "is no number"),
    ("3\u00b2 1", "is no number"),
    ("0b11 1", "0b11 is in base two, which is not read: write 0x3"),
    ("0b11_00 1", "write 0xc"),
    ("0o17 1", "0o17 is in base eight, which is not read: write 0xf"),
    ("63h 7ch", "63h is in base sixteen, as assemblers write it, which is not read: write 0x63"),
    ("$63 $7c", "$63 is in base sixteen, which is not read: write 0x63"),
    ("0x 1", "0x is no number"),
    ("1/2", "1/2 is no number"),
    ("=A1", "=A1 is no number"),
    ('"3" 1', "line 1, number 1: a quotation mark stands within a cell"),
    ('3,"1', "line 1, number 2: a quotation mark stands within a cell, or is not closed"),
    ('3,1"1"', "line 1, number 2: a quotation mark"),
    ('"3","#NUM!"', "line 1, number 2: #NUM! is an error"),
    ('"3\n1",4', "line 1, number 1: no separator stands in 3\\x0a1"),
    ('3,4\n5,""', "line 2, number 2: a cell is empty"),
    ('"99,000"\n"1"', "line 1, number 1: 99,000 is not written as a whole number: format the cells"),
    ("99'000\n1", "99'000 is not written as a whole number"),
    ('["3", "1"]', '"3" is no number'),
    ("\x07 1", "\\x07 is no number"),
    ("sep=;\n3;1,5", "line 2, number 2: 1,5 is not written as a whole number"),
    ("sep=a\n3a1", "line 1: sep= states a, and cells are separated by"),
    ("sep=;", "no number"),
    ("sep=;\n3;1\n\n4;0", "line 3 is empty"),
    ("C56B90AD3EF84712", "is longer than any row; if it is several rows without separators, put one between them, and state --base 16"),
    ("637c777bf26b6fc53001" * 25, "is longer than any row; if it is several rows without separators"),
    ("3140256712345678", "the text is one number, 3140256712345678; if it is several rows"),
    ("8'h63, 8'h7c", "line 1: 8'h63 shows that this is Verilog, which is not read; write the rows alone, in the order of the inputs"),
    ("always @(*)\n  case (x)\n    0: y = 3;\n  endcase", "shows that this is Verilog"),
    ('constant S : t := (\n  x"63", x"7C");', "line 1: constant S : shows that this is VHDL, which is not read; write the rows alone"),
    ("(16#63#, 16#7C#)", "line 1: 16#63# shows that this is VHDL"),
    ('{"name": "S",\n "rows": [3, 1]}', "an object of JSON, which is not read; write its list of rows alone, from [ to ]"),
    ("S = {0: 3, 1: 1}", "a dict of Python, which is not read"),
    ("{\n  [0] = 3,\n  [1] = 1 }", "line 2: [0] = 3 shows that this is a list of C with an index before each number"),
    ("s[3] = 7;", "s[3] = 7"[1:]),
    ("9" * 5000, "longer than any row"),
    ("3 1 4 0 2 5 6 7 end", "line 1, number 9: end is no number"),
    ("@0000\n3", "@0000 is no number"),
    ("x,S(x)\n0,3\n1,1", "line 1: x,S(x) is no number; if it is a heading, state --heading"),
    ("S(x)\r3\r1", "line 1: S(x) is no number"),
    ("[3, 1]\n4, 0", "brackets"),
    ("S(x) = {3,\n1", "brackets"),
    ("x,y\n0,3\n1,1", "line 1, number 1: x is no number; if line 1 is a heading, state --heading"),
    ("0 3\n1 1\n", "column 1 counts the lines: state --pairs"),
    ("1,3\n2,1\n", "column 1 counts the lines"),
    ("3,0\n1,1\n4,2", "column 2 counts the lines"),
    ("2,3\n0,1\n1,4", "column 1 has every number from 0 or 1 on once, and not in order: if these are the inputs, sort the lines"),
    ("9,3\n4,1\n7,2", "column 2 has every number from 0 or 1 on once, and not in order"),
    ("0 3 1 4\n3 0 2 5\n", "column 1 counts the lines"),
    ("0 3 1\n1 4 2\n2 5", "column 1 counts the lines"),
    ("3 1 0\n4 2 1\n5 6", "column 3 counts the lines"),
    ("3,,4", "line 1, number 2: a cell is empty"),
    ("3,1,\n4,0", "line 1, number 3: a cell is empty"),
    (",3", "line 1, number 1: a cell is empty"),
    ("3\t\t4", "a cell is empty"),
    ("3\n\n4", "line 2 is empty"),
    ("\n3 4", "line 1 is empty"),
    ("3,1;4", "commas and semicolons: only one of them can separate the numbers; a first line such as sep=; says which"),
    ("3,0;1,0", "commas and semicolons"),
    ("3 1,4", "no separator stands in 3 1"),
    ("{3 1,4}", "no comma stands in 3 1"),
    ("{3,,1}", "line 1, number 2: a cell is empty"),
    ("{,3}", "a cell is empty"),
    ("{3,1,,}", "a cell is empty"),
    ("", "no number"),
    (" \n \n", "no number"),
    ("{}", "no number"),
    ("{3, 1", "one list"),
    ("3, 1}", "one list"),
    ("[3, 1)", "one list"),
    ("{{3, 1}, {4, 0}}", "a list of lists can be read in two ways"),
    ("a[2] = {1, 2}; b[2] = {3, 4};", "one list"),
    ("{3, 1} + 1", "one list"),
    ("s[3] = {3, 1}", "declared with 3 numbers and has 2"),
    ("s[3] = {}", "declared with 3 numbers and has 0"),
    ("/* S */ {3, 1}", "line 1: comments are not read"),
    ("{3, // the first\n 1}", "line 1: comments are not read"),
    ("{3,\n# 7,\n1}", "line 2: comments are not read"),
    ("# 3\n3 1", "comments are not read"),
    ("3 1 // end", "comments are not read"),
)


class TurnedDown(unittest.TestCase):
    def test_texts(self):
        for text, words in TURNED_DOWN:
            with self.subTest(text[:40]):
                with self.assertRaises(Unreadable) as caught:
                    rows_of_text(text)
                self.assertIn(words, str(caught.exception))

    def test_bytes(self):
        for data in (b"3\x00 \x001\x00", b"3 \xff", b"\xe4 1", b"\xff\xfe\x33"):
            with self.subTest(data), self.assertRaises(Unreadable):
                text_of_bytes(data)


class Csv(unittest.TestCase):
    """What a spreadsheet exports: cells in quotation marks, a stated separator, a heading, and more columns than that of the rows."""

    def test_quoted_cells(self):
        for text in (
            '"3"\n"1"\n"4"\n"0"',
            '"3","1"\n"4","0"\n',
            '"3";1\r\n4;"0"\r\n',
            '3\t"1"\t4\t "0" ',
            "sep=,\n3,1\n4,0",
            '"sep=;"\n3;1\n4;0',
            "SEP=\t\r\n3\t1\r\n4\t0\r\n",
            "sep=|\n3|1|4|0",
        ):
            with self.subTest(text):
                self.assertEqual(rows_of_text(text), [3, 1, 4, 0])

    def test_what_the_standard_library_writes(self):
        """Texts with every letter that needs quotation marks, as the module csv writes them: the column is the one that went in."""
        chance = random.Random(4180)
        for dialect in ({"delimiter": ","}, {"delimiter": ";"}, {"delimiter": "\t"}, {"quoting": csv.QUOTE_ALL}):
            for _ in range(50):
                file = io.StringIO(newline="")
                # A cell with a separator or a line break is quoted, and so is one with a mark.
                words = ["".join(chance.choice('ab ,;\t"\n(') for _ in range(chance.randrange(6))) for _ in range(16)]
                lines = [[words[2 * x], row, f'"{words[2 * x + 1]},'] for x, row in enumerate(ROWS)]
                quoting = {"quoting": csv.QUOTE_NONNUMERIC, **dialect}
                csv.writer(file, **quoting).writerows([["a, b", 'the\n"S(x)"', "c"], *lines])
                for column in (2, "2"):
                    self.assertEqual(rows_of_text(file.getvalue(), heading=True, column=column), ROWS)

    def test_headings(self):
        for text in ("S(x)\n3\n1\n4\n0", "AES S box\n3\n1\n4\n0", '"S, of DES"\n3\n1\n4\n0', "S(x)\n3 1\n4 0", "a,b\n3,1\n4,0"):
            with self.subTest(text):
                self.assertEqual(rows_of_text(text, heading=True), [3, 1, 4, 0])
        counted = "x;S(x)\n" + "".join(f"{x};{row}\n" for x, row in enumerate(ROWS))
        self.assertEqual(rows_of_text(counted, heading=True, pairs=True), ROWS)
        self.assertEqual(rows_of_text("sep=;\n" + counted, heading=True, pairs=True), ROWS)
        self.assertEqual(rows_of_text("S(x)\n63\n7C", heading=True, base=16), [0x63, 0x7C])

    def test_columns(self):
        text = "x,S(x),name\n" + "".join(f'{x},{row},"row {x}, (old)"\n' for x, row in enumerate(ROWS))
        for column in (2, "2", "S(x)", " S(x) "):
            for heading in (True, False) if column in ("S(x)", " S(x) ") else (True,):
                self.assertEqual(rows_of_text(text, heading=heading, column=column), ROWS)
        below = text.partition("\n")[2]
        self.assertEqual(rows_of_text(below, column=2), ROWS)
        self.assertEqual(rows_of_text(below, column=1, pairs=False), list(range(8)))
        self.assertEqual(rows_of_text("a 63\nb 7c\n", column=2, base=16), [0x63, 0x7C])
        self.assertEqual(rows_of_text("sep=;\nx;S\n1,5;3\n2,5;1", column="S"), [3, 1])
        self.assertEqual(rows_of_text("3\t\n1\t\n", column=1), [3, 1])

    def test_what_the_options_do_not_settle(self):
        sixteen = "\n".join(" ".join(str((x + 5 * line) % 16) for x in range(16)) for line in range(4))
        for text, how, words in (
            ("3\n1", {"heading": True}, "line 1: 3 may be a row and no heading: leave --heading out"),
            ("3,x\n1,2", {"heading": True, "column": 1}, "line 1: 3 may be a row and no heading"),
            ("c,f\n63,7c", {"heading": True, "base": 16}, "line 1: c f may be a row and no heading"),
            ("sep=;\n3\n1", {"heading": True}, "line 2: 3 may be a row"),
            ("S\n3\n\n1", {"heading": True}, "line 3 is empty"),
            ("S", {"heading": True}, "no number"),
            ("S\nx\n1", {"heading": True}, "line 2, number 1: x is no number; what is no row"),
            ("S\n0,3\n1,1", {"heading": True}, "column 1 counts the lines"),
            ("S\n3,1\n4", {"heading": True, "column": 1}, "line 1: it has 1 cells, and line 2 has 2"),
            ("S\n" + sixteen, {"heading": True}, "--lines"),
            ('S,"T\n3,1', {"heading": True}, "line 1: a quotation mark stands within a cell, or is not closed"),
            ("S\n{3, 1}", {"heading": True}, "line 2, number 1: {3 is no number"),
            ("3,1\n4,0", {"column": 3}, "there is no column 3: the columns are 1 to 2"),
            ("3,1\n4,0", {"column": 0}, "there is no column 0"),
            ("x,s\n4,0", {"column": "S"}, "no column has the heading S; the headings are x, s"),
            ("3,1\n4,0", {"column": "S"}, "line 1: 3 1 may be a row and no heading"),
            ("a,a\n4,0", {"column": "a"}, "the columns 1 and 2 have the heading a: state the number"),
            ("x,S\n0,3\n1,1,1", {"column": "S"}, "line 3: it has 3 cells, and line 2 has 2; a separator may be missing"),
            ("x,S\n0,3\n1", {"column": "S"}, "line 3: it has 1 cells"),
            ("x,S\n0,3\n1,", {"column": "S"}, "line 3, column 2: a cell is empty"),
            ("x,S\n0,3\n1,#NUM!", {"column": 2}, "line 1, column 2: S is no number; if line 1 is a heading, state --heading"),
            ("x,S\n0,3\n1,#NUM!", {"column": "S"}, "line 3, column 2: #NUM! is an error"),
            ("x,S\n1,3\n0,1", {"column": "S"}, "column 1 has every number from 0 or 1 on once, and not in order"),
            ("x,S\n0x1,3\n0x0,1", {"column": "S"}, "column 1 has every number"),
            ("x,S\n10,3\n01,9\n00,8\n11,7", {"column": "S"}, "column 1 has every number"),
            ("0,3\n1,1", {"column": 2, "pairs": True}, "--pairs and --column both say"),
            ("x;S\n0,5;3\n1,5;1", {"column": "S"}, "commas and semicolons"),
        ):
            with self.subTest((text, how)):
                with self.assertRaises(Unreadable) as caught:
                    rows_of_text(text, **how)
                self.assertIn(words, str(caught.exception))

    def test_inputs_in_order_or_none(self):
        """A column of the inputs in another order is turned down, unless another has them in order, or it is stated that there is none."""
        inverse = [ROWS.index(x) for x in range(8)]
        unsorted = "".join(f"{x},{row}\n" for x, row in zip(inverse, ROWS))
        self.assertEqual(rows_of_text(unsorted, column=2, pairs=False), ROWS)
        three = "".join(f"{x},{row},{back}\n" for x, (row, back) in enumerate(zip(ROWS, inverse)))
        self.assertEqual((rows_of_text(three, column=2), rows_of_text(three, column=3)), (ROWS, inverse))


SEEDS = (
    "3 1 4 0",
    "3,1,4,0\n2,5,6,7\n",
    '"3","1"\n"4","0"',
    '"S","T (x)"\n"3","1"\n"4","0"\n',
    "sep=;\nx;S\n0;3\n1;1\n",
    'x,S(x),"a ""b"", c"\n0,3,"q,q"\n1,1,"d\ne"\n2,4,(f)\n',
    "0x63 0x7c",
    "uint8_t s[4] = {\n3, 1,\n4, 0};",
    "[3, 1, 4, 0]",
    "3\t1\n4\t0",
    "8'h63 {1: 2} [3] = 7 63h 0b1 1.3E+09",
    "x;S;t\n0;3;\"a;b\"\n1;1;\n2;4;c\n3;0;d\n",
)
PIECES = (*"0179afx,;\t \n\r\"'()[]{}=.-+#/|_", "sep=", '""', '"a,b"', "S(x)", "\x0b", "\ufeff", "\u0663", "1e5", "--", "0x")


class Mutated(unittest.TestCase):
    """Texts in which something was changed, under options that fit them or not."""

    def mutated(self, chance):
        text = list(chance.choice(SEEDS))
        for _ in range(chance.randrange(5)):
            at = chance.randrange(len(text) + 1)
            text[at : at + chance.randrange(3)] = chance.choices(PIECES, k=chance.randrange(3))
        return "".join(text)

    def how(self, chance):
        return {
            "base": chance.choice((None, None, 10, 16)),
            "pairs": chance.choice((None, None, True, False)),
            "lines": chance.choice((True, False)),
            "heading": chance.choice((True, False)),
            "column": chance.choice((None, None, 1, 2, "2", "S", "S(x)", "x", "", 0, "9" * 30)),
        }

    def test_only_what_is_told_is_raised(self):
        """Whatever the text and the options, there are rows, or a message."""
        chance, outcomes = random.Random(11), []
        for _ in range(6000):
            text, how = self.mutated(chance), self.how(chance)
            with self.subTest((text, how)):
                try:
                    rows = rows_of_text(text, **how)
                    self.assertTrue(rows and all(isinstance(row, int) and row >= 0 for row in rows))
                    Box.from_text(text, 2, 8, **how)
                    outcomes.append(Box)
                except (Unreadable, Refusal) as error:
                    self.assertTrue(str(error).isprintable(), str(error))
                    outcomes.append(type(error))
        for outcome in (Box, Unreadable, Refusal):
            self.assertGreater(outcomes.count(outcome), 20, outcome)

    def again(self, text, base=None, pairs=None, lines=False, heading=False, column=None):
        """The rows of a text of lines, by the module csv: a second reading, which refuses nothing."""
        text = "\n".join((text[1:] if text[:1] == "\ufeff" else text).splitlines()).rstrip()
        stated = re.match(r'"?sep=(.)"?(\n|$)', text, re.IGNORECASE)
        text = text[stated.end() :] if stated else text
        named = isinstance(column, str) and not column.isdigit()
        unquoted = re.sub(r'"[^"]*"', "", text.partition("\n")[2] if heading or named else text)
        separator = stated[1] if stated else next((letter for letter in ",;\t" if letter in unquoted), None)
        reader = csv.reader(io.StringIO(text), delimiter=separator or "\1", skipinitialspace=True)
        table = [[cell.strip() for cell in line] for line in reader]
        if separator is None and '"' not in text:
            table = [line[0].split() for line in table]
        below = table[1:] if heading or named else table
        if column is not None:
            place = table[0].index(column.strip()) if named else int(column) - 1
            cells = [line[place] for line in below]
        else:
            cells = [line[1] for line in below] if pairs else [cell for line in below for cell in line]
        return [int(cell, base or (16 if cell[:2] in ("0x", "0X") else 10)) for cell in cells]

    def test_read_again(self):
        """Whatever is read of a text of lines is what a second reading has, with every option."""
        chance, kinds = random.Random(12), []
        for _ in range(8000):
            text, how = self.mutated(chance), self.how(chance)
            try:
                rows = rows_of_text(text, **how)
            except Unreadable:
                continue
            if how["heading"] or how["column"] is not None or not re.search(r"[][(){}]", text):
                with self.subTest((text, how)):
                    self.assertEqual(self.again(text, **how), rows)
                    kinds.append((how["heading"], how["column"] is not None, '"' in text))
        for kind in itertools.product((False, True), repeat=3):
            self.assertGreater(kinds.count(kind), 3, kind)


class UnevenLines(unittest.TestCase):
    """A row that is cut in two and one that is missing leave the number of rows right."""

    def setUp(self):
        self.rows = list(map(str, example("aes").rows))

    def lines(self, across, separator=","):
        return [separator.join(self.rows[at : at + across]) for at in range(0, 256, across)]

    def turned_down(self, lines, words, opening="", closing=""):
        with self.assertRaises(Unreadable) as caught:
            rows_of_text("\n".join([opening, *lines, closing] if opening else lines))
        self.assertTrue(str(caught.exception).startswith(words), str(caught.exception))

    def test_a_column(self):
        for cut in ("3,0", "3;0", "1 12", "1\t12"):
            for place in (0, 100, 254):
                with self.subTest(cut, place=place):
                    lines = self.lines(1)
                    lines[place] = cut
                    fault = f"line {place + 1}: it has 2 numbers, and line 1 has 1;"
                    words = fault if place else "line 2: it has 1 number, and line 1 has 2;"
                    self.turned_down(lines, words)
                    del lines[200]
                    words = words.replace("line 255", "line 254")
                    self.assertEqual(sum(len(line.replace(",", " ").replace(";", " ").split()) for line in lines), 256)
                    self.turned_down(lines, words)

    def test_a_grid(self):
        for separator in (",", " "):
            lines = self.lines(16, separator)
            lines[2] = lines[2].rpartition(separator)[0]
            self.turned_down(lines, "line 3: it has 15 numbers, and line 1 has 16;")
            lines[9] += separator + "0"
            self.turned_down(lines, "line 3: it has 15 numbers, and line 1 has 16;")
            lines = self.lines(16, separator)
            lines[-1] += separator + "0"
            self.turned_down(lines, "line 16: it has 17 numbers, and line 1 has 16;")
            lines = self.lines(16, separator)
            lines[0] = lines[0].rpartition(separator)[0]
            self.turned_down(lines, "line 2: it has 16 numbers, and line 1 has 15;")

    def test_lists(self):
        for opening, closing in (("uint8_t s[256] = {", "};"), ("uint8_t s[] = {", "}"), ("S = [", "]"), ("(", ")")):
            with self.subTest(opening):
                lines = [line + "," for line in self.lines(16)]
                whole = rows_of_text("\n".join([opening, *lines, closing]))
                self.assertEqual(whole, list(example("aes").rows))
                lines[5] += " 0,"
                self.turned_down(lines, "line 7: it has 17 numbers, and line 2 has 16;", opening, closing)
                lines[8] = lines[8].partition(",")[2]
                self.turned_down(lines, "line 7: it has 17 numbers, and line 2 has 16;", opening, closing)
        # A list that is wrapped by its width may be right, and is told what to do.
        with self.assertRaisesRegex(Unreadable, "line 2: it has 4 numbers, and line 1 has 3; .* or all in one line"):
            rows_of_text("[10, 11, 12,\n 1, 2, 3, 4,\n 5]")

    def test_the_last_line_may_have_fewer(self):
        for across in (3, 12, 100, 255):
            self.assertEqual(rows_of_text("\n".join(self.lines(across))), list(example("aes").rows))
            text = "{" + ",\n".join(self.lines(across)) + "\n}"
            self.assertEqual(rows_of_text(text), list(example("aes").rows))

    def test_what_is_no_number_is_told_first(self):
        self.turned_down(["AES S box", "99", "124"], "line 1, number 1: AES is no number")
        self.turned_down(["3", "1 #NUM!"], "line 2, number 2: #NUM! is an error")


class Files(unittest.TestCase):
    def test_the_options_are_named(self):
        """Every option of the reader is a keyword of Box.from_text and Box.from_file."""
        options = list(inspect.signature(rows_of_text).parameters)[1:]
        for take, more in ((Box.from_text, []), (Box.from_file, ["sheet"])):
            named = inspect.signature(take).parameters.values()
            self.assertEqual([one.name for one in named if one.kind is one.KEYWORD_ONLY], options + more)
        with tempfile.TemporaryDirectory() as folder:
            path = pathlib.Path(folder, "rows.csv")
            path.write_text("x;S\n" + "".join(f"{x:x};{row:x}\n" for x, row in enumerate(ROWS)))
            for how in ({"column": "S"}, {"column": 2, "heading": True, "base": 16}, {"pairs": True, "heading": True}):
                self.assertEqual(Box.from_file(path, 3, 3, **how), Box(ROWS, 3, 3))
                self.assertEqual(Box.from_text(path.read_text(), 3, 3, **how), Box(ROWS, 3, 3))
            with self.assertRaisesRegex(Unreadable, "--sheet names a sheet of a workbook"):
                Box.from_file(path, 3, 3, sheet="S")

    def test_which_of_the_two(self):
        box = Box(ROWS, n=3, m=3)
        self.assertEqual(Box.from_data(b"3 1 4 0 2 5 6 7", 3, 3), box)
        self.assertEqual(Box.from_data(box.to_bytes()), box)
        self.assertEqual(Box.from_data(box.to_bytes(), 3, 3, "a.box"), box)
        for data, n, m, name in (
            (b"3 1 4 0 2 5 6 7", 3, None, ""),
            (b"3 1 4 0 2 5 6 7", None, 3, ""),
            (box.to_bytes(), 4, 3, ""),
            (box.to_bytes(), 3, 4, ""),
            (b"", 3, 3, "a.txt"),
        ):
            with self.assertRaises(Unreadable):
                Box.from_data(data, n, m, name)
        for number, data, name in (
            (1, b"3 1 4 0 2 5 6 7", "a.box"),
            (10, b"", "a.box"),
            (10, b"\3\3", ""),
            (3, b"3 1 4", ""),
        ):
            with self.assertRaises(Refusal) as caught:
                Box.from_data(data, 3, 3, name)
            self.assertEqual(caught.exception.number, number)

    def test_files(self):
        with tempfile.TemporaryDirectory() as folder:
            path = pathlib.Path(folder, "rows.csv")
            path.write_text("3;1;4;0\n2;5;6;7\n")
            self.assertEqual(
                (Box.from_file(path, 3, 3), Box.from_file(str(path), 3, 3).name), (Box(ROWS, n=3, m=3), "rows.csv")
            )
            path.write_bytes(b"1 " * 500_001)
            with self.assertRaisesRegex(Unreadable, "longer than"):
                Box.from_file(path, 3, 3)
            with self.assertRaises(OSError):
                Box.from_file(folder, 3, 3)
