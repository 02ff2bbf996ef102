"""The stored figures over all combinations: each witness is counted again from its definition, and parts are run again.

A whole file is what commands printed that took minutes: examples/README.md has them. Of each line two parts of 2^20 combinations are run
again: the one that holds the witness must give the same line, and one that the day's date picks must have nothing better.
"""
import datetime
import random
import unittest
from concurrent.futures import ThreadPoolExecutor

from satmegwo import definitions, explaining
from satmegwo.sweeping import Question

from .places import ROOT, example

PART = 2**20
STORED = sorted((ROOT / "examples").glob("*.whole"))
CAST = [f"cast-s{k}" for k in range(1, 9)]


def lines(path):
    """The lines of a stored file that come from a sweep: the question, and the figure with its witness."""
    for line in path.read_text().splitlines():
        word, *fields = line.split()
        if word in ("nonlinearity", "autocorrelation"):
            *found, limit = map(int, fields)
            yield Question(word, (example(path.stem),), limit), found
        if word == "distance":
            *found, limit, flips = map(int, fields)
            yield Question(word, (example(path.stem),), limit, flips), found
        if word == "sum":
            *found, limit = map(int, fields)
            yield Question(word, tuple(map(example, CAST[:4])), limit), found


def correlation(box, c, w):
    """At how many inputs combination c equals w·x, less at how many it does not."""
    differing = definitions.unlike(definitions.combination(box.rows, c), definitions.affine(box.n, w, 0))
    return 2**box.n - 2 * len(differing)


def counted(question, witness):
    """The figure at a witness, from its definition."""
    box, c = question.boxes[0], witness[0]
    values = definitions.combination(box.rows, c)
    if question.figure == "nonlinearity":
        return len(definitions.unlike(values, definitions.affine(box.n, *witness[1:])))
    if question.figure == "sum":
        # Over all inputs the sum equals the affine function so much more often than not.
        *masks, b = witness[1:]
        product = 1 - 2 * b
        for one, w in zip(question.boxes, masks):
            product *= correlation(one, c, w)
        return (2 ** sum(one.n for one in question.boxes) - product) // 2
    changing = len(definitions.unlike(values, definitions.flipped(values, witness[1])))
    half = 2 ** (box.n - 1)
    return abs(half - changing) * (2 if question.figure == "autocorrelation" else 1)


# What is stored: the questions of each file, as (figure, limit, flips). `make -C python whole` adds those of S5 to S8, of the sum of S1 to S4, and of
# S1 the autocorrelation and the distance of order (32, 1).
ASKED = {name: [("nonlinearity", 32, 0)] for name in CAST[:4]}
# What documents 001 and 002 print: 74, DHOBIC(32, 1) 36, DMOSAC 0, and the sum of four boxes; the distance is doubled.
PUBLISHED = {("distance", 1): 2 * 36, ("distance", 8): 0, ("sum", 0): 2_132_774_912}


class Whole(unittest.TestCase):
    def test_what_is_stored(self):
        asked = {path.stem: [(question.figure, question.limit, question.flips) for question, _ in lines(path)] for path in STORED}
        self.assertEqual(asked, ASKED)

    def test_published_figures(self):
        for path in STORED:
            for question, found in lines(path):
                with self.subTest(path.stem, figure=question.figure):
                    if question.figure == "nonlinearity" and path.stem in CAST[:4]:
                        self.assertEqual((found[0], question.boxes[0].largest_cell().figure), (74, 2))
                    self.assertEqual(found[0], PUBLISHED.get((question.figure, question.flips), found[0]))

    def test_the_columns_of_the_first_box(self):
        """DMOSAC 0 of document 001, which takes no sweep: the distance of order (1, 8)."""
        self.assertEqual(example("cast-s1").dynamic_distance(1, 8).figure, 0)

    def test_the_sentence_on_the_limit(self):
        within = example("cast-s2").nonlinearity()
        ((_, (figure, *_)),) = lines(ROOT / "examples" / "cast-s2.whole")
        self.assertIn(f"is {within.figure} within four outputs, and {figure} over all", explaining.CAST)
        self.assertEqual(within.limit, 4)

    def test_every_witness_is_counted_again(self):
        for path in STORED:
            for question, (figure, *witness) in lines(path):
                with self.subTest(path.stem, figure=question.figure):
                    self.assertEqual(counted(question, witness), figure)

    def test_parts_are_run_again(self):
        day = datetime.date.today().isoformat()
        with ThreadPoolExecutor() as threads:
            parts = []
            for path in STORED:
                for question, found in lines(path):
                    first = max(1, min(found[1] - found[1] % PART, question.end - PART + 1))
                    picked = random.Random(f"{day} {path.stem} {question}").randrange(1, question.end - PART + 2)
                    for start in (first, picked):
                        running = threads.submit(question.between, start, start + PART - 1)
                        parts.append((path.stem, question, found, start, running))
            for name, question, found, start, running in parts:
                with self.subTest(name, figure=question.figure, first=start):
                    part, stored = running.result(), [1, *found]
                    if start <= found[1] < start + PART:
                        self.assertEqual(part, stored)
                    self.assertEqual(question.merged(stored, part), stored)
