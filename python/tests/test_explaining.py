"""Explanations: the counts of every example, the board of the certificate, and that a false figure is not explained."""
import inspect
import random
import re
import unittest
import unittest.mock
import xml.etree.ElementTree as tree

import satmegwo
from satmegwo import Box, Contradiction, Pair, Refusal, definitions, explaining, theorems

from .places import EXAMPLES, ROOT, example

EXAMPLE = Box([3, 1, 4, 0, 2, 5, 6, 7], n=3, m=3)
SHEET = ("nonlinearity", "xor", "autocorrelation", "sac", "bic", "degree")


def marks(text: str) -> int:
    """The stars of a text's table."""
    return text.count("*")


class Explained(unittest.TestCase):
    def test_every_example(self):
        for path in EXAMPLES:
            box = Box.from_file(path)
            for figure in SHEET:
                with self.subTest((path.name, figure)):
                    explanation = box.explain(figure)
                    told = next(line for line in box.sheet().splitlines() if line.startswith(figure)).split()
                    self.assertEqual(explanation.heading.split(":")[0], f"{figure} {told[1]}")
                    self.assertEqual(marks(str(explanation)), len(explanation.counted))
                    for whole in (False, True):
                        page = tree.fromstring("<div>" + explanation.html(whole) + "</div>")
                        shaded = sum(cell.get("class") == "counted" for cell in page.iter("td"))
                        self.assertEqual(shaded % len(explanation.counted) if explanation.counted else shaded, 0)
                        self.assertEqual(
                            sum(int(cell.text) for cell in page.iter("td") if cell.get("class") == "sum"),
                            len(explanation.counted),
                        )

    def test_random_boxes(self):
        chance = random.Random(5)
        for n in range(1, 8):
            for m in (1, 2, 5, 8, 17):
                box = Box([chance.randrange(2**m) for _ in range(2**n)], n, m)
                for figure in SHEET:
                    if (figure, m) != ("bic", 1):
                        str(box.explain(figure))
                str(box.explain("distance", i=m if m < 17 else 3, j=n))

    def test_the_board_of_the_certificate(self):
        text = str(EXAMPLE.explain())
        self.assertRegex(text, r"\nx +0 1 2 3 4 5 6 7\n")
        self.assertRegex(text, r"\nS\(x\) +3 1 4 0 2 5 6 7\n")
        self.assertRegex(text, r"\nf\(x\), parity of S\(x\) AND 7 +0 1 1 0 1 0 0 1\n")
        self.assertRegex(text, r"\na\(x\), parity of x AND 7 +0 1 1 0 1 0 0 1\n")
        self.assertRegex(text, r"\ndiffer +\. \. \. \. \. \. \. \.  0\n")
        self.assertIn("Combination 7 is the sum (XOR) of the outputs 1, 2 and 3.", text)
        self.assertIn("w·x XOR b is x1 + x2 + x3,", text)
        self.assertIn("They differ at no input.", text)
        xor = str(EXAMPLE.explain("xor"))
        self.assertIn("at 4 inputs: 0, 3, 5 and 6; in pairs {0, 3} and {5, 6}.", xor)
        self.assertIn("The normal form is x1 + x2 + x3,", str(EXAMPLE.explain("degree")))
        self.assertIn("The strict avalanche criterion holds", str(EXAMPLE.explain("sac")))

    def test_counts_of_many_inputs_are_added_up(self):
        counts = re.search(r"\n([0-9 +]+) = 112\n", str(example("aes").explain()))[1]
        self.assertEqual(sum(map(int, counts.split(" + "))), 112)
        self.assertEqual(len(counts.split(" + ")), 16)

    def test_a_limit_below_m(self):
        wide = Box([random.Random(7).randrange(2**20) for _ in range(256)], n=8, m=20)
        for figure, side, theorem in (
            ("nonlinearity", "at most", "nonlinearity_falls"),
            ("degree", "at most", "degree_falls"),
            ("autocorrelation", "at least", "autocorrelation_rises"),
        ):
            explanation = wide.explain(figure)
            number = explanation.heading.split(":")[0].split()[1]
            self.assertIn(
                f"over all combinations the {figure} is {side} {number} (proved: {theorem}).", str(explanation)
            )
            self.assertIn(f"{side} {number}", explanation.html())
            self.assertIn("The command sheet FILE --limit all counts it over all 1,048,575 combinations", str(explanation))
            self.assertEqual("88 within four outputs, and 74 over all." in str(explanation), figure == "nonlinearity")
            self.assertNotIn("over all combinations", str(example("aes").explain(figure)))
        self.assertIn("over all combinations the nonlinearity is at most 2", str(EXAMPLE.explain("nonlinearity", i=2)))

    def test_a_bound_that_says_nothing_is_left_out(self):
        told = str(EXAMPLE.explain("sac"))
        self.assertEqual(EXAMPLE.sac().figure, 0)
        self.assertNotIn("at least 0", told)
        self.assertNotIn(theorems.LIMITS["distance"].name, told)
        self.assertIn("distance FILE --order all,1 counts the dynamic distance of order (3, 1) over all 7 combinations.", told)
        des = example("des-s1")
        self.assertIn(f"is at least {des.sac().figure} (proved: {theorems.LIMITS['distance']}).", str(des.explain("sac")))

    def test_commands_are_not_broken(self):
        self.assertIn("the command <code>distance FILE --order all,1</code> counts", EXAMPLE.explain("sac").html())
        self.assertIn("The command <code>sheet FILE --limit all</code> counts it", EXAMPLE.explain("nonlinearity", i=2).html())

    def test_refused_and_unknown(self):
        with self.assertRaises(Refusal):
            Box([0, 1], n=1, m=1).explain("bic")
        with self.assertRaises(ValueError):
            EXAMPLE.explain("score")
        with self.assertRaises(Refusal):
            EXAMPLE.explain("nonlinearity", i=4)


class FalseFigures(unittest.TestCase):
    def test_none_is_explained(self):
        told = {
            "nonlinearity": (
                "nonlinearity",
                [
                    satmegwo.Nonlinearity(2, Pair(7, 7, 0), 3),
                    satmegwo.Nonlinearity(0, Pair(7, 6, 0), 3),
                    satmegwo.Nonlinearity(0, Pair(7, 7, 1), 3),
                ],
            ),
            "xor": (
                "largest_cell",
                [satmegwo.LargestCell(2, satmegwo.Cell(3, 3)), satmegwo.LargestCell(4, satmegwo.Cell(1, 1))],
            ),
            "autocorrelation": (
                "autocorrelation",
                [
                    satmegwo.Autocorrelation(4, satmegwo.Shift(1, 3), 3),
                    satmegwo.Autocorrelation(8, satmegwo.Shift(1, 1), 3),
                ],
            ),
            "sac": (
                "dynamic_distance",
                [satmegwo.Distance(1, satmegwo.Change(1, 1), 1, 1), satmegwo.Distance(0, satmegwo.Change(1, 3), 1, 1)],
            ),
            "degree": (
                "degree",
                [satmegwo.Degree(2, satmegwo.Combination(7), 3), satmegwo.Degree(1, satmegwo.Combination(1), 3)],
            ),
        }
        for figure, (method, answers) in told.items():
            EXAMPLE.explain(figure)
            for answer in answers:
                with self.subTest(answer), unittest.mock.patch.object(
                    Box, method, lambda *_: answer
                ), self.assertRaises(Contradiction):
                    EXAMPLE.explain(figure)

    def test_false_tables(self):
        with unittest.mock.patch.object(Box, "spectrum", lambda box, c: [0] * 8), self.assertRaises(Contradiction):
            EXAMPLE.explain("nonlinearity")
        with unittest.mock.patch.object(Box, "normal_form", lambda box, c: [0, 1, 0, 0, 0, 0, 0, 0]), self.assertRaises(
            Contradiction
        ):
            EXAMPLE.explain("degree")


class Theorems(unittest.TestCase):
    """Every theorem that a sentence names is stated in the proofs, with the field that it names."""

    def statements(self, crate: str) -> dict:
        """The statements of a crate, or of all, by their names; a statement goes on in the lines that are further to the right."""
        found = {}
        for path in sorted((ROOT / "crates").glob(f"{crate}/proofs/*.antt")):
            text = path.read_text(encoding="utf-8")
            for _, name, statement in re.findall(r"^( *)pub ([\w-]+) : (.*(?:\n\1 {2,}.*)*)", text, re.MULTILINE):
                found[name] = " ".join(statement.split())
        return found

    def fields(self, record: str) -> list:
        """The fields of a record of specs/, which may be an instance of another."""
        for path in sorted((ROOT / "crates").glob("*/specs/*.antt")):
            text = path.read_text(encoding="utf-8")
            declared = re.search(rf"^pub record {record} .*?where\n((?:  .*\n)*)", text, re.MULTILINE)
            if declared:
                return re.findall(r"^  pub ([\w-]+) :", declared[1], re.MULTILINE)
            instance = re.search(rf"^{record} [^=]*=\s+(\w+)", text, re.MULTILINE)
            if instance:
                return self.fields(instance[1])
        return []

    def test_names_and_fields(self):
        claims, all_crates = self.statements("claims"), self.statements("*")
        self.assertGreater(len(claims), 40)
        for theorem in theorems.BOUNDS.values():
            with self.subTest(theorem.name):
                self.assertTrue(theorem.name in claims)
                self.assertIn(theorem.field, self.fields(re.search(r"→ (\w+) [\w ]+$", claims[theorem.name])[1]))
        for theorem in theorems.LIMITS.values():
            with self.subTest(theorem.name):
                self.assertTrue(theorem.name in all_crates and not theorem.field)

    def test_no_other_name_is_typed_in(self):
        for module in (explaining,):
            self.assertNotRegex(inspect.getsource(module), r"[a-z]+[-_](reported|falls|rises)")

    def test_definitions(self):
        self.assertEqual(definitions.combination([3, 1, 4, 0], 3), [0, 1, 0, 0])
        self.assertEqual(definitions.affine(2, 3, 1), [1, 0, 0, 1])
        self.assertEqual(definitions.flipped([3, 1, 4, 0], 2), [4, 0, 3, 1])
        self.assertEqual(definitions.ones_within([1, 1, 0, 1], 1), 2)
