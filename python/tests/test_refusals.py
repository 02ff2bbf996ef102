"""Refusals from both sides of their bounds, and values that ctypes would cut to fit."""
import pickle
import types
import unittest

import satmegwo
from satmegwo import Box, Refusal

from .places import example

EIGHT = list(range(8))
WORD = 2**32
# What 32 bits would make of each of these is inside every range; so none may be cut.
CUT = (WORD, WORD + 1, WORD + 2, 2**64 + 1, -1, -WORD + 1)


class Refusals(unittest.TestCase):
    def refused(self, number, call, *arguments, **named):
        with self.assertRaises(Refusal, msg=(arguments, named)) as caught:
            call(*arguments, **named)
        self.assertEqual(caught.exception.number, number, (arguments, named))
        return str(caught.exception)

    def test_a_refusal_says_what_met_its_condition(self):
        self.assertEqual(
            self.refused(4, Box, EIGHT[:7] + [8], n=3, m=3),
            "the row for input 7 is 8, and 3 outputs end at 7 (refused 4: a row is not below 2^m, or a truth value is above 1)",
        )
        self.assertIn("7 rows are given, and 3 inputs need 8", self.refused(3, Box, EIGHT[:7], n=3, m=3))
        self.assertIn("n is 9", self.refused(1, Box, EIGHT, n=9, m=3))
        self.assertIn("m is 33", self.refused(2, Box, EIGHT, n=3, m=33))
        self.assertIn("a text and no box file", self.refused(1, Box.from_bytes, b"3 1 4 0 2 5 6 7"))
        self.assertIn("1 row is given, and 1 input needs 2", self.refused(3, Box, [0], n=1, m=1))
        self.assertEqual(str(Refusal(8)), "no function has this spectrum (refused 8)")
        kept = pickle.loads(pickle.dumps(Refusal(4, "here")))
        self.assertEqual((kept.number, kept.detail), (4, "here"))

    def test_refused_files_and_columns_say_what_met_the_condition(self):
        for number, words, data in (
            (10, "it has 0 bytes", b""),
            (10, "it has 1 byte", b"\3"),
            (10, "it has 3 bytes, and a box file of 3 inputs has 34", b"\3\3\0"),
            (1, "n is 0, and must be 1 to 8", bytes([0, 1, 0, 0, 0, 0])),
            (2, "m is 33, and must be 1 to 32", bytes([1, 33]) + bytes(8)),
            (4, "the row for input 1 is 258, and 8 outputs end at 255", bytes([1, 8, 0, 0, 0, 0, 2, 1, 0, 0])),
        ):
            self.assertEqual(self.refused(number, Box.from_bytes, data).split(" (refused ")[0], words)
        for number, words, packed, n, m in (
            (1, "n is 9, and must be 1 to 8", b"", 9, 1),
            (2, "m is 0, and must be 1 to 32", b"", 1, 0),
            (3, "it has 1 byte, and 2 columns of 4 inputs need 4 bytes", b"a", 4, 2),
            (16, "the byte of column 2 is 16, and only its lowest 4 bits may be set", b"\1\x10", 2, 2),
        ):
            self.assertEqual(self.refused(number, Box.from_packed, packed, n, m).split(" (refused ")[0], words)

    def test_refusal_6_names_the_argument_and_its_range(self):
        box = example("des-s1")
        limit, flips = "the limit i is {}, and must be 1 to 4", "the number j of flipped inputs is {}, and must be 1 to 6"
        combination, mask = "the combination c is {}, and must be 1 to 15", "the mask w is {}, and must be 0 to 63"
        for value in (-1, 2**40, 64):
            for words, call, arguments in (
                (limit, box.nonlinearity, [value]),
                (limit, box.nearest_pairs, [value]),
                (limit, box.autocorrelation, [value]),
                (limit, box.degree, [value]),
                (limit, box.dynamic_distance, [value, 0]),
                (flips, box.dynamic_distance, [4, value]),
                (limit, satmegwo.sum_nonlinearity, [[box, box], value]),
                (combination, box.spectrum, [value]),
                (combination, box.combination, [value]),
                (combination, box.normal_form, [value]),
                ("the input difference a is {}, and must be 1 to 63", box.xor_row, [value]),
                ("the column j is {}, and must be 1 to 4", box.add_to_column, [value, 0, 0]),
                (mask, box.add_to_column, [4, value, 2]),
                ("the constant b is {}, and must be 0 to 1", box.add_to_column, [4, 63, value]),
                ("the input x is {}, and must be 0 to 63", box.swapped, [value, value]),
                ("the input y is {}, and must be 0 to 63", box.swapped, [0, value]),
                ("the input k is {}, and must be 1 to 3", Box(EIGHT, 3, 3).enlarge, [8 * [0], value]),
                ("the input k is {}, and must be 1 to 3", satmegwo.enlarge_column, [8 * [0], value, 0]),
                ("the constant a is {}, and must be 0 to 1", satmegwo.enlarge_column, [8 * [0], 1, value]),
            ):
                told = self.refused(6, call, *arguments)
                self.assertEqual(told.split(" (refused 6: ")[0], words.format(value))
        self.assertIn("the limit i is 2, and must be 1 (refused 6", self.refused(6, Box([0, 1], n=1, m=1).bic))

    def test_other_refusals_say_what_met_the_condition(self):
        box, other = Box(EIGHT, n=3, m=3), Box([0, 1], n=1, m=1)
        self.assertIn("5 boxes are given, and must be 1 to 4 (", self.refused(11, satmegwo.sum_nonlinearity, 5 * [box]))
        self.assertIn("the boxes have 3, 1 outputs", self.refused(12, satmegwo.sum_nonlinearity, [box, other]))
        self.assertIn("the box has 9 outputs", self.refused(2, Box(EIGHT, n=3, m=9).raising_swap))
        self.assertIn("the box has 17 outputs", self.refused(2, Box(EIGHT, n=3, m=17).xor_row, 0))
        with self.assertRaisesRegex(TypeError, "a list of boxes"):
            satmegwo.sum_nonlinearity(box)

    def test_boxes(self):
        self.refused(1, Box, EIGHT, n=0, m=3)
        self.refused(1, Box, [0], n=0, m=1)
        self.refused(1, Box, range(512), n=9, m=9)
        self.refused(2, Box, EIGHT, n=3, m=0)
        self.refused(3, Box, [], n=3, m=3)
        self.refused(3, Box, EIGHT, n=2, m=3)
        self.assertEqual(Box([0] * 7 + [7], n=3, m=3).rows[7], 7)
        self.assertEqual(Box([0] * 7 + [WORD - 1], n=3, m=32).rows[7], WORD - 1)
        for row in (8, WORD, WORD + 1, 2**64, -1):
            self.refused(4, Box, EIGHT[:7] + [row], n=3, m=3)
        for row in (WORD, WORD + 1, 2**64, -1):
            self.refused(4, Box, EIGHT[:7] + [row], n=3, m=32)
            self.refused(3, Box, EIGHT[:6] + [row], n=3, m=32)
            self.refused(2, Box, EIGHT[:6] + [row], n=3, m=33)
            self.refused(1, Box, EIGHT[:6] + [row], n=9, m=33)

    def test_numbers_that_do_not_fit(self):
        box = example("des-s1")
        for value in CUT:
            with self.subTest(value):
                self.refused(1, Box, EIGHT, n=value, m=3)
                self.refused(2, Box, EIGHT, n=3, m=value)
                for call in (
                    box.nonlinearity,
                    box.nearest_pairs,
                    box.autocorrelation,
                    box.degree,
                    box.spectrum,
                    box.combination,
                    box.normal_form,
                    box.xor_row,
                ):
                    self.refused(6, call, value)
                self.refused(6, box.dynamic_distance, value, 1)
                self.refused(6, box.dynamic_distance, 1, value)
                self.refused(6, box.add_to_column, value, 0, 0)
                self.refused(6, box.add_to_column, 1, value, 0)
                self.refused(6, box.add_to_column, 1, 0, value)
                self.refused(6, box.swapped, value, 0)
                self.refused(6, box.swapped, 0, value)
                self.refused(6, satmegwo.sum_nonlinearity, [box], value)
                self.refused(6, satmegwo.enlarge_column, [0, 1], value, 0)
                self.refused(6, satmegwo.enlarge_column, [0, 1], 1, value)
                self.refused(6, Box(EIGHT, n=3, m=3).enlarge, [0] * 8, value)
                self.refused(1, Box.from_packed, b"\1", value, 1)
                self.refused(2, Box.from_packed, b"\1", 1, value)
                self.refused(4, satmegwo.spectrum, [0, value])
                self.refused(4, satmegwo.normal_form, [0, value])
                self.refused(5, satmegwo.bent_function, [0, value], [0, 0])
                self.refused(4, satmegwo.bent_function, [0, 1], [0, value])
                for call in (satmegwo.spectrum, satmegwo.normal_form, satmegwo.inverse_spectrum):
                    self.refused(1, call, [0, 1], n=value)
                design, server, kept = (
                    satmegwo.Design(box).mark(1),
                    satmegwo.Server().put(1, box),
                    satmegwo.Catalogue(258),
                )
                self.refused(6, design.swap, value, 0)
                self.refused(6, design.add, 1, 1, value)
                self.refused(6, design.mark, value)
                self.refused(6, design.return_to, value)
                self.refused(18, server.put, value, box)
                self.refused(18, server.withdraw, value)
                self.refused(18, server.ask, value)
                self.refused(15, kept.place, value)
                self.refused(15, kept.remove, value)
                self.refused(15, kept.__getitem__, value)
                self.refused(13, satmegwo.Catalogue, value)
        for value in (WORD + 1, 2**31, -WORD + 1):
            self.refused(8, satmegwo.inverse_spectrum, [value, 0])

    def test_bounds_of_parameters(self):
        box = Box(EIGHT, n=3, m=3)
        for outside in (0, 4):
            self.refused(6, box.nonlinearity, outside)
            self.refused(6, box.dynamic_distance, 1, outside)
        self.refused(6, box.spectrum, 8)
        self.refused(6, box.xor_row, 0)
        self.refused(6, box.add_to_column, 1, 8, 0)
        self.refused(6, box.add_to_column, 1, 0, 2)
        self.refused(6, Box([0, 1], n=1, m=1).bic)
        self.refused(2, Box(EIGHT, n=3, m=17).xor_row, 1)
        self.refused(2, Box(EIGHT, n=3, m=9).raising_swap)
        self.refused(9, box.nearest_pairs, most=0)

    def test_tables_and_sums(self):
        self.refused(8, satmegwo.inverse_spectrum, [1, 1, 1, 1])
        self.refused(3, satmegwo.spectrum, [0, 1, 1])
        self.refused(4, satmegwo.spectrum, [0, 2])
        self.refused(5, satmegwo.bent_function, [0, 0, 1, 2], [0] * 4)
        self.refused(3, satmegwo.bent_function, [0, 1], [0] * 4)
        self.refused(1, satmegwo.enlarge_column, [0] * 256, 1, 0)
        self.refused(11, satmegwo.sum_nonlinearity, [])
        self.refused(11, satmegwo.sum_nonlinearity, 5 * [Box([0, 1], n=1, m=1)])
        self.refused(12, satmegwo.sum_nonlinearity, [Box(EIGHT, n=3, m=3), Box([0, 1], n=1, m=1)])

    def test_files_and_holders(self):
        self.refused(10, Box.from_bytes, b"")
        self.refused(10, Box.from_bytes, b"\3\3\0")
        self.refused(16, Box.from_packed, b"\x10", 2, 1)
        self.refused(3, Box.from_packed, b"", 2, 1)
        for length in (0, 257, 65536, 10**15):
            self.refused(13, satmegwo.Catalogue, length)
        self.refused(13, satmegwo.Catalogue, b"\1" + bytes(300))
        self.refused(14, satmegwo.Catalogue(258).add, Box([0, 1], n=1, m=1))
        self.refused(10, satmegwo.Catalogue().add, b"\1")
        self.refused(17, satmegwo.Design(Box(EIGHT, n=3, m=3)).return_to, 2)
        self.refused(6, satmegwo.Design(Box(EIGHT, n=3, m=3)).return_to, 17)
        server = satmegwo.Server().put(1, Box(EIGHT, n=3, m=3))
        self.refused(19, server.put, 1, Box(EIGHT, n=3, m=3))
        self.refused(19, server.ask, 2)
        self.refused(2, server.put, 2, Box(EIGHT, n=3, m=17))

    def test_a_refused_operation_changes_nothing(self):
        design, kept = satmegwo.Design(Box(EIGHT, n=3, m=3)).mark(2), satmegwo.Catalogue(258)
        self.refused(17, design.return_to, 1)
        self.assertEqual((design.box, design.marks), (Box(EIGHT, n=3, m=3), [2]))
        self.refused(14, kept.add, Box([0, 1], n=1, m=1))
        self.assertEqual(bytes(kept), bytes(258))

    def test_both_widths_are_stated(self):
        rows = list(example("aes").rows)
        for named in ({}, {"m": 8}, {"n": 8}):
            with self.assertRaises(TypeError):
                Box(rows, **named)
        with self.assertRaises(TypeError):
            Box(rows, 8)
        self.assertIn("128 rows are given, and 8 inputs need 256", self.refused(3, Box, rows[:128], 8, 8))
        for count in (0, 1, 255, 257, 512):
            self.refused(3, Box, (rows + rows)[:count], 8, 8)
        box = Box(range(8), 3, 5)
        self.assertEqual((box.n, box.m), (3, 5))
        for wrong in (3.0, "3", None):
            with self.assertRaises(TypeError):
                Box(EIGHT, wrong, 3)
            with self.assertRaises(TypeError):
                Box(EIGHT, 3, wrong)

    def test_rows_without_an_order(self):
        rows = dict(enumerate(example("present").rows))
        order = "does not say the order of the inputs: give a list in that order, such as .d.x. for x in range.2 .. n.."
        for given in (rows, types.MappingProxyType(rows), rows.keys(), rows.values(), rows.items()):
            with self.subTest(type(given).__name__):
                with self.assertRaisesRegex(TypeError, order):
                    Box(given, n=4, m=4)
                with self.assertRaisesRegex(TypeError, order):
                    satmegwo.spectrum(given)
        for given in (set(range(16)), frozenset(range(16))):
            with self.subTest(type(given).__name__), self.assertRaisesRegex(TypeError, "has no order"):
                Box(given, n=4, m=4)
        self.assertEqual(Box([rows[x] for x in range(2**4)], n=4, m=4), example("present"))

    def test_tables_of_several_dimensions(self):
        class Frame:
            """As pandas has it: a line of sixteen numbers, whose iteration gives the names of the columns."""

            ndim = 2

            def __iter__(self):
                return iter(range(16))

        for given in (Frame(), memoryview(bytes(range(16))).cast("B", (4, 4))):
            with self.subTest(type(given).__name__), self.assertRaisesRegex(TypeError, "of 2 dimensions"):
                Box(given, n=4, m=4)
        self.assertEqual(Box(memoryview(bytes(range(16))), n=4, m=4), Box(range(16), n=4, m=4))
        with self.assertRaisesRegex(TypeError, "the row for input 0 is no whole number"):
            Box([range(4)] * 4, n=2, m=4)

    def test_what_is_no_whole_number(self):
        for row in (3.0, "3", None, float("nan"), [1]):
            with self.assertRaises(TypeError):
                Box([row, 1], n=1, m=2)
            with self.assertRaises(TypeError):
                satmegwo.spectrum([row, 1])
            with self.assertRaises(TypeError):
                Box(EIGHT, n=3, m=3).spectrum(row)
