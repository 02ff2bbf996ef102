"""The field's names stand where they are looked for: in the first sentence of a docstring, and in the help of the command."""
import unittest

import satmegwo
from satmegwo import Box, answers, box, functions

from .test_command import run

FIRST = (
    (satmegwo, "S-box"),
    (box, "S-box"),
    (Box, "S-box"),
    (Box.combination, "component function"),
    (Box.spectrum, "Walsh spectrum"),
    (functions.spectrum, "Walsh spectrum"),
    (functions.inverse_spectrum, "Walsh spectrum"),
    (Box.lat, "LAT (linear approximation table)"),
    (Box.ddt, "DDT (difference distribution table, XOR table)"),
    (Box.xor_row, "DDT"),
    (Box.largest_cell, "differential uniformity"),
    (Box.largest_cells, "differential uniformity"),
    (Box.nonlinearity, "linearity within them is 2^n - 2d"),
    (Box.autocorrelation, "absolute indicator"),
    (Box.autocorrelation_table, "component function"),
    (Box.degree, "least algebraic degree over the component functions of at most i outputs (Sage's min_degree)"),
    (Box.add_to_column, "coordinate function"),
    (Box.packed, "coordinate functions"),
    (functions.enlarge_column, "coordinate function"),
    (Box.normal_form, "algebraic normal form"),
    (functions.normal_form, "algebraic normal form"),
    (answers.Pair, "component function"),
    (answers.LargestCell, "differential uniformity"),
    (answers.Nonlinearity, "linearity"),
    (answers.Autocorrelation, "absolute indicator"),
    (answers.Degree, "least algebraic degree"),
)


class Words(unittest.TestCase):
    def test_first_sentences(self):
        for thing, words in FIRST:
            first = " ".join(thing.__doc__.split()).split(". ")[0]
            self.assertIn(words.lower(), first.lower(), thing)

    def test_whole_tables_say_which_way_they_lie(self):
        told = " ".join(Box.lat.__doc__.split())
        self.assertIn("A row is an output mask and a column an input mask; Sage and the textbooks have input masks as rows", told)
        self.assertIn("half of the Walsh value", told)

    def test_help(self):
        told = " ".join(run("--help").stdout.decode().split())
        for words in ("S-box", "LAT", "DDT", "Walsh", "xor (ddt)"):
            self.assertIn(words, told)
