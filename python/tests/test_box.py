"""Boxes and figures: the stored sheets, document 01's cases, tables against their figures, and ways back."""
import hashlib
import random
import unittest
import unittest.mock

import satmegwo
from satmegwo import Box, Cell, Pair, definitions

from .places import EXAMPLES, example

EXAMPLE = Box([3, 1, 4, 0, 2, 5, 6, 7], n=3, m=3)


def nearest(box: Box, limit: int) -> list:
    """All nearest pairs, counted by the definition."""
    masks = sorted(
        (c for c in range(1, 2**box.m) if definitions.ones(c) <= limit), key=lambda c: (definitions.ones(c), c)
    )
    pairs = [Pair(c, w, b) for c in masks for w in range(2**box.n) for b in (0, 1)]
    counts = [
        len(definitions.unlike(definitions.combination(box.rows, c), definitions.affine(box.n, w, b)))
        for c, w, b in pairs
    ]
    return [pair for pair, count in zip(pairs, counts) if count == min(counts)]


class Figures(unittest.TestCase):
    def test_stored_sheets(self):
        self.assertGreaterEqual(len(EXAMPLES), 23)
        for path in EXAMPLES:
            with self.subTest(path.name):
                box = Box.from_file(path)
                self.assertEqual(box.sheet(), path.with_suffix(".sheet").read_text())
                self.assertEqual(satmegwo.sheet(path.read_bytes()), box.sheet())
                self.assertEqual(box.to_bytes(), path.read_bytes())

    def test_figures_are_those_of_the_sheet(self):
        for path in EXAMPLES:
            box = Box.from_file(path)
            d, xor, r, g = box.nonlinearity(), box.largest_cell(), box.autocorrelation(), box.degree()
            lines = [
                ("box", box.n, box.m),
                ("nonlinearity", d.figure, *d.witness, d.limit),
                ("xor", xor.figure, *xor.witness),
                ("autocorrelation", r.figure, *r.witness, r.limit),
                ("sac", box.sac().figure, *box.sac().witness),
                ("bic", box.bic().figure, *box.bic().witness),
                ("degree", g.figure, *g.witness, g.limit),
                ("complete", "yes" if box.complete() else "no"),
                ("bijective", "yes" if box.bijective() else "no"),
            ]
            self.assertEqual(box.sheet(), "".join(" ".join(map(str, line)) + "\n" for line in lines))

    def test_sheet_of_a_refused_file(self):
        self.assertEqual(satmegwo.sheet(b""), "refused 10\n")
        self.assertEqual(satmegwo.sheet(b"3 1 4 0"), "refused 1\n")

    def test_worked_cases(self):
        self.assertEqual(satmegwo.spectrum([0, 0, 0, 1]), [1, 1, 1, -1])
        self.assertEqual(satmegwo.inverse_spectrum([1, 1, 1, -1]), [0, 0, 0, 1])
        self.assertEqual(satmegwo.enlarge_column([1, 1, 0, 0, 0, 1, 0, 1], k=1, a=1)[8:], [0, 0, 1, 1, 0, 1, 0, 1])
        nine = EXAMPLE.enlarge([1, 0, 0, 0, 1, 1, 0, 1], k=1)
        self.assertEqual(nine.rows, (11, 1, 4, 0, 10, 13, 6, 15, 9, 3, 8, 12, 5, 2, 7, 14))
        self.assertEqual(nine.nonlinearity(), (0, (12, 1, 1), 4))
        self.assertEqual("".join(map(str, satmegwo.bent_function(range(4), [0] * 4))), "0000010100110110")
        self.assertEqual(Box([0, 1], n=1, m=1).dynamic_distance(1, 1).figure, 1)
        self.assertEqual(Box([0, 0], n=1, m=1).degree(), (0, (1,), 1))

    def test_limits(self):
        self.assertEqual(EXAMPLE.nonlinearity(2).figure, 2)
        self.assertEqual(EXAMPLE.nonlinearity(), (0, (7, 7, 0), 3))
        self.assertEqual(Box([0] * 4, n=2, m=17).nonlinearity().limit, 4)
        self.assertEqual(Box([0] * 4, n=2, m=16).nonlinearity().limit, 16)

    def test_sum_of_boxes(self):
        box = example("des-s1")
        self.assertEqual(satmegwo.sum_nonlinearity([box]).figure, box.nonlinearity().figure)
        self.assertEqual(satmegwo.sum_nonlinearity([box]).witness, (15, (16,), 1))
        two = [Box([0, 1, 3, 2], n=2, m=2), Box([3, 1, 0, 2], n=2, m=2)]
        whole = Box([two[0](x & 3) ^ two[1](x >> 2) for x in range(16)], n=4, m=2)
        figure, (c, masks, b), limit = satmegwo.sum_nonlinearity(two, 2)
        self.assertEqual((figure, (c, masks[0] | masks[1] << 2, b), limit), whole.nonlinearity())


class Tables(unittest.TestCase):
    def test_tables_show_the_figures(self):
        box = Box(random.Random(1).sample(range(64), 64), n=6, m=6)
        largest = box.largest_cell()
        rows = {a: box.xor_row(a) for a in range(1, 64)}
        self.assertEqual(max(map(max, rows.values())), largest.figure)
        self.assertEqual(
            box.largest_cells(), [Cell(a, beta) for a in rows for beta in range(64) if rows[a][beta] == largest.figure]
        )
        self.assertEqual(box.largest_cells()[0], largest.witness)
        values = [value for c in range(1, 64) for value in box.spectrum(c)]
        self.assertEqual(32 - max(map(abs, values)), box.nonlinearity().figure)

    def test_nearest_pairs(self):
        chance = random.Random(3)
        for n, m in ((1, 1), (1, 4), (2, 3), (3, 3), (3, 5), (4, 4), (5, 2)):
            box = Box([chance.randrange(2**m) for _ in range(2**n)], n, m)
            for limit in range(1, m + 1):
                self.assertEqual(box.nearest_pairs(limit), nearest(box, limit))
                self.assertEqual(box.nearest_pairs(limit)[0], box.nonlinearity(limit).witness)

    def test_long_lists_of_pairs(self):
        box = Box([0] * 256, n=8, m=9)
        pairs = box.nearest_pairs()
        self.assertEqual(len(pairs), 511)
        bent = Box([value * 1023 for value in satmegwo.bent_function(range(16), [0] * 16)], n=8, m=10)
        pairs = (
            bent.nearest_pairs()
        )  # the odd combinations of the ten outputs, which are all the bent function, and the others, which are 0
        self.assertEqual(
            pairs,
            [
                Pair(c, 0, 0)
                for c in sorted(range(1, 1024), key=lambda c: (definitions.ones(c), c))
                if definitions.ones(c) % 2 == 0
            ],
        )
        flat = Box(satmegwo.bent_function(range(16), [0] * 16), n=8, m=1)
        self.assertEqual(len(flat.nearest_pairs()), 256)
        self.assertEqual(flat.nearest_pairs(), nearest(flat, 1))
        self.assertEqual(len(flat.nearest_pairs(most=256)), 256)

    def test_a_list_that_must_grow(self):
        box = example("aes")
        pairs = box.nearest_pairs()
        with unittest.mock.patch("satmegwo.box.FIRST_ROOM", 3):
            self.assertEqual(box.nearest_pairs(), pairs)

    def test_combinations(self):
        box = example("des-s1")
        for c in range(1, 16):
            table = definitions.combination(box.rows, c)
            self.assertEqual(box.combination(c), table)
            self.assertEqual(box.spectrum(c), satmegwo.spectrum(table))
            self.assertEqual(box.normal_form(c), [definitions.ones_within(table, u) % 2 for u in range(64)])


class WholeTables(unittest.TestCase):
    """Every value of the whole tables, counted by the definition; and where no whole table is given."""

    def boxes(self):
        chance = random.Random(5)
        for n, m in ((1, 1), (2, 5), (3, 3), (4, 4), (5, 2)):
            yield Box([chance.randrange(2**m) for _ in range(2**n)], n, m)

    def test_lat(self):
        for box in self.boxes():
            half, masks = 2 ** (box.n - 1), range(2**box.n)
            functions = [definitions.combination(box.rows, c) for c in range(2**box.m)]
            affine = [definitions.affine(box.n, w, 0) for w in masks]
            counted = [[half - len(definitions.unlike(one, other)) for other in affine] for one in functions]
            self.assertEqual(box.lat(), counted)

    def test_ddt(self):
        for box in self.boxes():
            counted = [[0] * 2**box.m for _ in range(2**box.n)]
            for a in range(2**box.n):
                for x in range(2**box.n):
                    counted[a][box(x) ^ box(x ^ a)] += 1
            self.assertEqual(box.ddt(), counted)

    def test_autocorrelation(self):
        for box in self.boxes():
            counted = []
            for c in range(2**box.m):
                values = definitions.combination(box.rows, c)
                changing = [len(definitions.unlike(values, definitions.flipped(values, s))) for s in range(2**box.n)]
                counted.append([2**box.n - 2 * count for count in changing])
            self.assertEqual(box.autocorrelation_table(), counted)
            largest = max(abs(value) for row in counted[1:] for value in row[1:])
            self.assertEqual(box.autocorrelation(box.m).figure, largest)

    def test_distances(self):
        for box in self.boxes():
            affine = [definitions.affine(box.n, w, b) for w in range(2**box.n) for b in (0, 1)]
            functions = [definitions.combination(box.rows, c) for c in range(2**box.m)]
            self.assertEqual(box.distances(), [min(len(definitions.unlike(one, other)) for other in affine) for one in functions])

    def test_no_whole_table_above_16_outputs(self):
        wide = Box([0, 1], n=1, m=17)
        self.assertEqual(Box([0, 65535], n=1, m=16).ddt()[1], 65535 * [0] + [2])
        for name in ("lat", "ddt", "autocorrelation_table", "distances"):
            with self.assertRaisesRegex(satmegwo.TooWide, "is given whole up to 16 outputs, and this box has 17: "):
                getattr(wide, name)()


class WaysBack(unittest.TestCase):
    def test_all_widths(self):
        chance = random.Random(2)
        for n in range(1, 9):
            table = [chance.randrange(2) for _ in range(2**n)]
            self.assertEqual(satmegwo.inverse_spectrum(satmegwo.spectrum(table)), table)
            self.assertEqual(satmegwo.normal_form(satmegwo.normal_form(table)), table)
            for m in (1, 9, 32):
                box = Box([chance.randrange(2**m) for _ in range(2**n)], n, m)
                self.assertEqual(Box.from_packed(box.packed(), n, m), box)
                self.assertEqual(Box.from_bytes(box.to_bytes()), box)
                self.assertEqual(box.add_to_column(m, 1, 1).add_to_column(m, 1, 1), box)
                self.assertEqual(box.swapped(0, 1).swapped(1, 0), box)

    def test_swaps(self):
        box = example("des-s1")
        swap = box.raising_swap()
        self.assertEqual(swap, (0, 17, 16))
        self.assertEqual(box.swapped(swap.lower, swap.higher).nonlinearity().figure, swap.figure)
        self.assertIsNone(example("aes").raising_swap())

    def test_a_box_is_a_value(self):
        self.assertEqual(eval(repr(EXAMPLE)), EXAMPLE)
        self.assertEqual(len({EXAMPLE, Box(EXAMPLE.rows, n=3, m=3), Box(EXAMPLE.rows, n=3, m=4)}), 2)
        self.assertEqual([EXAMPLE(x) for x in range(8)], list(EXAMPLE.rows))
        self.assertEqual(([EXAMPLE[x] for x in range(8)], list(EXAMPLE), len(EXAMPLE)), (list(EXAMPLE.rows), list(EXAMPLE.rows), 8))
        for outside in (-1, 8):
            with self.assertRaises(IndexError):
                EXAMPLE(outside)
            with self.assertRaises(IndexError):
                EXAMPLE[outside]
        for wrong in (1.0, "1", slice(0, 2)):
            with self.assertRaises(TypeError):
                EXAMPLE[wrong]
        same, other = Box(EXAMPLE.rows, n=3, m=3, name="same"), Box(EXAMPLE.rows, n=3, m=4)
        self.assertEqual(EXAMPLE.sha256, hashlib.sha256(EXAMPLE.to_bytes()).hexdigest())
        self.assertEqual((same.sha256 == EXAMPLE.sha256, other.sha256 == EXAMPLE.sha256), (True, False))
        with self.assertRaises(AttributeError):
            EXAMPLE.rows = (0, 1)


class Holding(unittest.TestCase):
    def test_catalogue(self):
        kept = satmegwo.Catalogue()
        boxes = [Box.from_file(path) for path in EXAMPLES[:5]]
        self.assertEqual([kept.add(box) for box in boxes], list(range(5)))
        self.assertEqual(list(kept), boxes)
        self.assertEqual(kept.place(0), (258, 2 + 4 * 2 ** boxes[0].n))
        kept.remove(1)
        self.assertEqual(list(kept), boxes[:1] + boxes[2:])
        kept.compact()
        self.assertEqual(list(satmegwo.Catalogue(bytes(kept))), boxes[:1] + boxes[2:])
        self.assertEqual(kept.add(boxes[1].to_bytes()), 4)

    def test_design(self):
        design = satmegwo.Design(Box(range(8), n=3, m=3)).mark(1).swap(0, 3)
        self.assertEqual(design.box, Box([3, 1, 2, 0, 4, 5, 6, 7], n=3, m=3))
        self.assertEqual(design.add(1, 7, 1).box, Box([3, 1, 2, 0, 4, 5, 6, 7], n=3, m=3).add_to_column(1, 7, 1))
        self.assertEqual(design.mark(16).marks, [1, 16])
        self.assertEqual(design.return_to(1).box, Box(range(8), n=3, m=3))

    def test_server(self):
        server = satmegwo.Server().put(1, EXAMPLE).put(8, example("present"))
        self.assertIsNone(server.run(12).ask(1))
        self.assertEqual(server.step().ask(1), EXAMPLE.nonlinearity())
        self.assertEqual((server.last, server.ask(8)), (1, None))
        self.assertEqual(server.run().ask(8), example("present").nonlinearity())
        self.assertEqual(
            server.withdraw(1).put(1, example("kim-4")).run(2**40).ask(1), example("kim-4").nonlinearity()
        )
        with self.assertRaises(ValueError):
            server.run(-1)
