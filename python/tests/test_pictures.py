"""Pictures, decoded: every cell and bar is the library's value, the ring is at the witness, and no text is cut off or covers another."""
import base64
import random
import struct
import unittest
import unittest.mock
import xml.etree.ElementTree as tree
import zlib

import satmegwo
from satmegwo import Box, Contradiction, Pair, definitions, pictures, svg

from .places import example

NAMESPACE = "{http://www.w3.org/2000/svg}"
DRAWN = (pictures.lat_map, pictures.xor_map, pictures.spectrum_bars, pictures.distance_bars, pictures.distance_histogram)
PICTURES = (pictures.lat, pictures.xor, pictures.spectrum, pictures.distances, pictures.histogram)

# What letters are wide in DejaVu Sans and in DejaVu Sans Bold, in thousandths of the type size.
REGULAR = {
    " ": 318,
    ",": 318,
    ".": 318,
    ":": 337,
    ";": 337,
    "-": 361,
    "=": 838,
    "(": 390,
    ")": 390,
    "'": 275,
    "β": 638,
    "\u00a0": 318,
}
REGULAR.update(zip("0123456789", [636] * 10))
REGULAR.update(zip("abcdefghijklm", [613, 635, 550, 635, 615, 352, 635, 634, 278, 278, 579, 278, 974]))
REGULAR.update(zip("nopqrstuvwxyz", [634, 612, 635, 635, 411, 521, 392, 634, 592, 818, 592, 592, 525]))
REGULAR.update({"A": 684, "H": 752, "L": 557, "X": 685, "O": 787, "R": 695, "S": 635, "D": 770, "N": 748, "M": 863, "T": 611, "W": 989})
BOLD = {" ": 348, ",": 380, ".": 380, ":": 400, "-": 415, "=": 838, "\u00a0": 348}
BOLD.update(zip("0123456789", [696] * 10))
BOLD.update(zip("abcdefghijklm", [675, 716, 593, 716, 678, 435, 716, 712, 343, 343, 665, 343, 1042]))
BOLD.update(zip("nopqrstuvwxyz", [712, 687, 716, 716, 493, 595, 478, 712, 652, 924, 645, 652, 582]))
BOLD.update({"A": 774, "H": 837, "L": 637, "X": 771, "O": 850, "R": 770, "S": 720, "D": 830, "T": 682, "(": 457, ")": 457})


def number(element, name):
    return float(element.get(name))


class Drawn:
    """A picture, taken apart."""

    def __init__(self, text):
        self.root = tree.fromstring(text)
        self.width, self.height = number(self.root, "width"), number(self.root, "height")

    def all(self, kind, marked=None):
        return [part for part in self.root.iter(NAMESPACE + kind) if marked is None or part.get("class") == marked]

    def frame(self):
        """The frame of the plot of a map: left, top, width, height."""
        image = self.all("image")
        if image:
            return [number(image[0], name) for name in ("x", "y", "width", "height")]
        cells = self.cells()
        left, top = min(x for x, _ in cells), min(y for _, y in cells)
        wide = number(self.backs()[0], "width")
        high = number(self.backs()[0], "height")
        return [
            left - wide / 2,
            top - high / 2,
            max(x for x, _ in cells) - left + wide,
            max(y for _, y in cells) - top + high,
        ]

    def backs(self):
        """The rectangles behind the numbers."""
        return [part for part in self.all("rect") if part.get("stroke") == svg.PALE and number(part, "width") >= 16]

    def cells(self):
        """The numbers of a map by the middle of their cells."""
        found = {}
        for back, text in zip(self.backs(), self.all("text", "cell")):
            x, y = number(back, "x") + number(back, "width") / 2, number(back, "y") + number(back, "height") / 2
            assert abs(number(text, "x") - x) < 0.01 and abs(number(text, "y") - y) < number(back, "height") / 2
            found[x, y] = (int(text.text), back.get("fill"), text.get("fill"))
        return found

    def table(self):
        """The numbers of a map, row by row."""
        rows = {}
        for (x, y), (value, _, _) in sorted(self.cells().items(), key=lambda cell: cell[0][::-1]):
            rows.setdefault(y, []).append(value)
        return list(rows.values())

    def pixels(self):
        """The colours of the image, row by row."""
        data = base64.b64decode(self.all("image")[0].get("href").split(",")[1])
        at, packed, palette = 8, b"", b""
        while at < len(data):
            length, kind = struct.unpack_from(">I4s", data, at)
            chunk = data[at + 8 : at + 8 + length]
            assert struct.unpack_from(">I", data, at + 8 + length)[0] == zlib.crc32(kind + chunk)
            if kind == b"IHDR":
                wide, high, bits = struct.unpack_from(">IIB", chunk)
            palette = chunk if kind == b"PLTE" else palette
            packed += chunk if kind == b"IDAT" else b""
            at += 12 + length
        raw, across = zlib.decompress(packed), 1 + (wide * bits + 7) // 8
        rows = [raw[start + 1 : start + across] for start in range(0, len(raw), across)]
        assert len(rows) == high and all(raw[start] == 0 for start in range(0, len(raw), across))
        colours = ["#" + palette[start : start + 3].hex() for start in range(0, len(palette), 3)]
        places = [(k * bits // 8, 8 - bits - k * bits % 8) for k in range(wide)]
        return [[colours[row[byte] >> shift & (2**bits - 1)] for byte, shift in places] for row in rows]

    def ring(self):
        """The middle of the ring."""
        rings = self.all("circle", "witness") or self.all("rect", "witness")
        middles = set()
        for ring in rings:
            if ring.get("cx"):
                middles.add((number(ring, "cx"), number(ring, "cy")))
            else:
                middles.add(
                    (number(ring, "x") + number(ring, "width") / 2, number(ring, "y") + number(ring, "height") / 2)
                )
        assert len(middles) == 1, middles
        return middles.pop()

    def ringed(self, columns, rows):
        """The column and row that the ring is at."""
        (x, y), (left, top, wide, high) = self.ring(), self.frame()
        return int((x - left) / wide * columns), int((y - top) / high * rows)

    def bars(self):
        """The bars from the left: the middle, and the height, which is negative below the line."""
        zero = [number(line, "y1") for line in self.all("line") if line.get("stroke") == svg.INK][0]
        found = []
        for bar in self.all("rect", "bar") + self.all("rect", "witness"):
            y, high = number(bar, "y"), number(bar, "height")
            found.append((number(bar, "x") + number(bar, "width") / 2, high if y < zero - 0.01 else -high))
        return [high for _, high in sorted(found)]

    def boxes(self):
        """Where each text stands: left, top, right, bottom."""
        for text in self.all("text"):
            size, bold = number(text, "font-size"), text.get("font-weight") == "bold"
            wide = size * sum((BOLD if bold else REGULAR)[letter] for letter in text.text) / 1000
            x, y, turned = number(text, "x"), number(text, "y"), text.get("transform")
            start = {"start": 0, "middle": -wide / 2, "end": -wide}[text.get("text-anchor")]
            if turned:
                assert turned.startswith("rotate(-90 ")
                yield text.text, (x - 0.75 * size, y - start - wide, x + 0.22 * size, y - start)
            else:
                yield text.text, (x + start, y - 0.75 * size, x + start + wide, y + 0.22 * size)


def luminance(colour):
    parts = [int(colour[place : place + 2], 16) / 255 for place in (1, 3, 5)]
    linear = [part / 12.92 if part <= 0.03928 else ((part + 0.055) / 1.055) ** 2.4 for part in parts]
    return 0.2126 * linear[0] + 0.7152 * linear[1] + 0.0722 * linear[2]


def contrast(one, other):
    low, high = sorted((luminance(one), luminance(other)))
    return (high + 0.05) / (low + 0.05)


def made(n, m, seed=1):
    chance = random.Random(100 * n + m + seed)
    return Box([chance.randrange(2**m) for _ in range(2**n)], n, m, name=f"made-{n}-{m}.box")


def across(table):
    """A table as it is drawn: its longer side goes across."""
    return [list(column) for column in zip(*table)] if len(table) > len(table[0]) else table


# Every size of a cell, tables that are turned and not, few rows and many.
WIDTHS = [
    (1, 1),
    (1, 3),
    (1, 8),
    (2, 4),
    (2, 7),
    (3, 3),
    (3, 5),
    (3, 8),
    (4, 1),
    (4, 4),
    (4, 6),
    (5, 5),
    (6, 1),
    (6, 4),
    (7, 7),
    (8, 1),
    (8, 3),
    (8, 8),
]


class Maps(unittest.TestCase):
    def drawn(self, box, draw, table, colour, column, row):
        """A map shows every cell of its table, and the ring is at a column and row."""
        picture = Drawn(draw(box))
        is_turned = len(table) > len(table[0])
        shown, most = across(table), max(abs(value) for line in table for value in line)
        values = {
            value: sum(line.count(value) for line in table) for value in {value for line in table for value in line}
        }
        colours = {value: colour(value, most) for value in values}
        if picture.all("image"):
            self.assertEqual(picture.pixels(), [[colours[value] for value in line] for line in shown])
        else:
            self.assertEqual(picture.table(), shown)
            for value, back, ink in picture.cells().values():
                self.assertEqual(back, colours[value])
                self.assertGreater(contrast(back, ink), 4.5)
        self.assertEqual(picture.ringed(len(shown[0]), len(shown)), (row, column) if is_turned else (column, row))
        texts = [text.text for text in picture.all("text")]
        if pictures.HEADING in texts:
            self.assertEqual(set(f"{value}: {count}" for value, count in values.items()) - set(texts), set())
        else:
            self.assertEqual({str(max(values)), str(min(values))} - set(texts), set())

    def test_every_cell(self):
        for n, m in WIDTHS:
            with self.subTest((n, m)):
                box = made(n, m)
                _, (c, w, _), _ = box.nonlinearity(m)
                lat = [box.spectrum(mask) for mask in range(1, 2**m)]
                self.drawn(box, pictures.lat_map, lat, pictures.signed_colour, w, c - 1)
                _, (a, beta) = box.largest_cell()
                xor = [box.xor_row(difference) for difference in range(1, 2**n)]
                self.drawn(box, pictures.xor_map, xor, pictures.count_colour, beta, a - 1)

    def test_the_example(self):
        """The lesson of the workbook: all values but one are at most 2, and that one is in the row of all three outputs."""
        picture = Drawn(pictures.lat_map(example("example")))
        table = picture.table()
        self.assertEqual([value for row in table[:6] for value in row if abs(value) > 2], [])
        self.assertEqual(table[6], [0, 0, 0, 0, 0, 0, 0, 4])
        self.assertEqual(picture.ringed(8, 7), (7, 6))
        self.assertIn(
            "the nonlinearity is 4\u00a0-\u00a04\u00a0=\u00a00.", " ".join(text.text for text in picture.all("text"))
        )

    def test_colours_differ(self):
        """Equal magnitudes of unlike signs are told by blue against brown, and magnitudes by how dark they are."""
        for most in (4, 18, 64):
            shades = [pictures.count_colour(value, most) for value in range(most + 1)]
            self.assertEqual(sorted(shades, key=luminance, reverse=True), shades)
            self.assertEqual(len(set(shades)), most + 1)
            for value in range(1, most + 1):
                blue, brown = pictures.signed_colour(-value, most), pictures.signed_colour(value, most)
                self.assertGreater(int(blue[5:], 16), int(blue[1:3], 16))
                self.assertLess(int(brown[5:], 16), int(brown[1:3], 16))


class Bars(unittest.TestCase):
    def test_every_bar(self):
        for n, m in WIDTHS:
            with self.subTest((n, m)):
                box = made(n, m)
                figure, (c, w, _), _ = box.nonlinearity(m)
                half = 2 ** (n - 1)
                values = box.spectrum(c)
                self.drawn(pictures.spectrum_bars(box), values, w)
                distances = [half - max(map(abs, box.spectrum(mask))) for mask in range(1, 2**m)]
                self.drawn(pictures.distance_bars(box), distances, c - 1)

    def drawn(self, text, values, witness):
        picture = Drawn(text)
        heights = picture.bars()
        self.assertEqual(len(heights), len(values))
        most = max(values, key=abs)
        for value, height in zip(values, heights):
            self.assertAlmostEqual(
                height if value else 0, value * heights[values.index(most)] / most if most else 0, delta=0.05
            )
        marked = picture.all("rect", "witness")[0]
        bars = sorted(number(bar, "x") for bar in picture.all("rect", "bar") + [marked])
        self.assertEqual(bars.index(number(marked, "x")), witness)
        numbers = [int(text.text) for text in picture.all("text", "value")]
        self.assertEqual(numbers, values if len(values) <= 32 else [])

    def test_another_combination(self):
        box = example("des-s1")
        picture = Drawn(pictures.spectrum_bars(box, 1))
        values = box.spectrum(1)
        self.assertEqual(
            [round(18 * height / 18) and 1 for height in picture.bars()], [1 if value else 0 for value in values]
        )
        self.assertIn(
            "Spectrum of combination 1: des-s1.box, 6\u00a0by\u00a04", [text.text for text in picture.all("text")]
        )

    def test_many_outputs(self):
        for m in (9, 17, 32):
            box = made(4, m)
            Drawn(pictures.spectrum_bars(box))
            Drawn(pictures.distance_histogram(box))
            for draw in (pictures.lat_map, pictures.xor_map, pictures.distance_bars):
                with self.assertRaisesRegex(pictures.Undrawable, f"up to 8 outputs, and this box has {m}"):
                    draw(box)


class Histogram(unittest.TestCase):
    def counted(self, box):
        """How many combinations within the limit have each distance, by the definitions."""
        affine = [definitions.affine(box.n, w, b) for w in range(2**box.n) for b in (0, 1)]
        counts = {}
        for c in range(1, 2**box.m):
            if definitions.ones(c) <= box.limit:
                values = definitions.combination(box.rows, c)
                distance = min(len(definitions.unlike(values, one)) for one in affine)
                counts[distance] = counts.get(distance, 0) + 1
        return counts

    def test_counts(self):
        for n, m in ((1, 1), (3, 3), (2, 9), (4, 9), (3, 10), (2, 17)):
            with self.subTest((n, m)):
                box = made(n, m)
                picture, counts = Drawn(pictures.distance_histogram(box)), self.counted(box)
                listed = [int(text.text) for text in picture.all("text", "distance")]
                many = [int(text.text.replace(",", "")) for text in picture.all("text", "many")]
                self.assertEqual(dict(zip(listed, many)), counts)
                self.assertEqual((listed, len(listed)), (sorted(counts), len(many)))
                bars = picture.all("rect", "witness") + picture.all("rect", "bar")  # the first is the marked one
                self.assertEqual(len(picture.all("rect", "witness")), 1)
                for bar, count in zip(bars, many):
                    wide = pictures.LONGEST_BAR * count / max(many)
                    self.assertAlmostEqual(number(bar, "width"), max(wide, 1), delta=0.01)
                figure, (c, _, _), limit = box.nonlinearity()
                told = " ".join(text.text for text in picture.all("text"))
                self.assertIn(f"the least distance, {figure}, which is the nonlinearity; c = {c} is the first", told)
                self.assertEqual(f"combinations of at most {limit} outputs" in told, limit < m)

    def test_false_figures_are_not_drawn(self):
        box = made(3, 9)
        figure, (c, w, b), limit = box.nonlinearity()
        other = next(one for one in range(1, 512) if max(map(abs, box.spectrum(one))) != max(map(abs, box.spectrum(c))))
        for answer in (
            satmegwo.Nonlinearity(figure + 1, Pair(c, w, b), limit),
            satmegwo.Nonlinearity(figure, Pair(other, w, b), limit),
        ):
            with unittest.mock.patch.object(Box, "nonlinearity", lambda *_: answer), self.assertRaises(Contradiction):
                pictures.histogram(box)


class Told(unittest.TestCase):
    """The title and the sentence: in the picture as a file of its own, beside it on a page, and for those who cannot see it in both."""

    def test_titles_and_descriptions(self):
        for draw in PICTURES:
            picture = draw(example("des-s1"))
            told, note = picture.title, picture.note.replace("\u00a0", " ")
            self.assertRegex(note, "^(Ringed|Marked): ")
            own = Drawn(picture.svg())
            shown = " ".join(text.text for text in own.all("text")).replace("\u00a0", " ")
            self.assertTrue(told.replace("\u00a0", " ") in shown and note in shown)
            figure = tree.fromstring(picture.html())
            bare = figure.find(f".//{NAMESPACE}svg")
            self.assertEqual(figure.find("figcaption").text, told)
            self.assertEqual("".join(figure.find("p").itertext()).replace("\u00a0", " "), note)
            self.assertEqual(figure.find("div").get("class"), "frame")
            for one in (own.root, bare):
                self.assertEqual(one.find(NAMESPACE + "title").text, told)
                self.assertEqual(one.find(NAMESPACE + "desc").text.replace("\u00a0", " "), note)
            # What is painted is the same, but for the height that it begins at.
            plain = [text.text for text in bare.iter(NAMESPACE + "text")]
            self.assertEqual(plain, [text.text for text in own.all("text") if text.text in plain][: len(plain)])
            self.assertFalse(set(plain) & {words for words in (told, note)})
            marks = [len([part for part in one.iter() if part.get("class") == "witness"]) for one in (own.root, bare)]
            self.assertTrue(marks[0] == marks[1] > 0)

    def test_sizes(self):
        """On paper every text but a number within a cell or over a bar has 9 points: 12 pixels of 96 to the inch."""
        for box in (example("example"), example("des-s1"), example("aes"), made(4, 9)):
            for draw in PICTURES if box.m <= 8 else PICTURES[2::2]:
                for text in Drawn(draw(box).svg()).all("text"):
                    if text.get("class") not in ("cell", "value"):
                        self.assertGreaterEqual(number(text, "font-size"), 12, text.text)


class Texts(unittest.TestCase):
    def test_no_text_is_cut_off_or_covers_another(self):
        boxes = [made(n, m) for n, m in WIDTHS + [(8, 12), (7, 17)]] + [
            example(name) for name in ("example", "des-s1", "aes", "present", "kim-6a")
        ]
        for box in boxes:
            for draw in DRAWN if box.m <= 8 else DRAWN[2::2]:
                with self.subTest((box.name, draw.__name__)):
                    picture = Drawn(draw(box))
                    self.assertLessEqual(
                        picture.width, 718
                    )  # what A4 has between margins of 10 mm, in pixels of 96 to the inch
                    found = list(picture.boxes())
                    for words, (left, top, right, bottom) in found:
                        self.assertTrue(
                            0 <= left and right <= picture.width and 0 <= top and bottom <= picture.height, words
                        )
                    found.sort(key=lambda entry: entry[1][1])
                    for place, (words, one) in enumerate(found):
                        for others, other in found[place + 1 :]:
                            if other[1] >= one[3]:
                                break
                            apart = one[2] <= other[0] or other[2] <= one[0] or one[3] <= other[1] or other[3] <= one[1]
                            self.assertTrue(apart, (words, others))

    def test_widths_are_not_underestimated(self):
        for letter, width in REGULAR.items():
            self.assertGreaterEqual(svg.text_width(letter, 1000) + 1, width, letter)
        for words in (
            "Linear approximation table:",
            "Distance of each combination from the affine functions:",
            "Spectrum of",
            "255",
            "XOR table:",
        ):
            self.assertGreaterEqual(
                svg.text_width(words, 1000, bold=True), sum(BOLD[letter] for letter in words), words
            )

    def test_long_names_are_wrapped(self):
        box = Box(
            range(8),
            n=3,
            m=3,
            name="a box with a name that is much longer than the picture of so few cells could ever be wide.csv",
        )
        for draw in DRAWN:
            picture = Drawn(draw(box))
            for words, (left, _, right, _) in picture.boxes():
                self.assertTrue(0 <= left and right <= picture.width, words)

    def test_names_are_escaped(self):
        for draw in DRAWN:
            self.assertNotIn("<b>", draw(Box([0, 1, 1, 0], n=2, m=1, name="<b>&")))
            Drawn(draw(Box([0, 1, 1, 0], n=2, m=1, name="<b>&")))


class SameAgain(unittest.TestCase):
    def test_same_bytes(self):
        for name in ("example", "des-s1", "aes"):
            for draw in DRAWN:
                self.assertEqual(draw(example(name)), draw(example(name)))

    def test_false_figures_are_not_drawn(self):
        box = example("example")
        for answer in (
            satmegwo.Nonlinearity(2, Pair(7, 7, 0), 3),
            satmegwo.Nonlinearity(0, Pair(6, 7, 0), 3),
            satmegwo.Nonlinearity(0, Pair(7, 7, 1), 3),
        ):
            with unittest.mock.patch.object(Box, "nonlinearity", lambda *_: answer):
                for draw in (pictures.lat_map, pictures.spectrum_bars):
                    with self.subTest((answer, draw.__name__)), self.assertRaises(Contradiction):
                        draw(box)
        for answer in (satmegwo.Nonlinearity(2, Pair(7, 7, 0), 3), satmegwo.Nonlinearity(0, Pair(6, 7, 0), 3)):
            with unittest.mock.patch.object(Box, "nonlinearity", lambda *_: answer), self.assertRaises(Contradiction):
                pictures.distance_bars(box)
        for answer in (satmegwo.LargestCell(2, satmegwo.Cell(3, 3)), satmegwo.LargestCell(4, satmegwo.Cell(1, 1))):
            with unittest.mock.patch.object(Box, "largest_cell", lambda *_: answer), self.assertRaises(Contradiction):
                pictures.xor_map(box)

    def test_large_images_are_valid(self):
        cells = [[(x * y) % 200 for x in range(300)] for y in range(400)]
        colours = ["#%02x%02x%02x" % (k, 255 - k, k) for k in range(200)]
        picture = svg.Drawing(300)
        picture.image(0, 0, 300, 400, svg.png(cells, colours))
        self.assertEqual(Drawn(picture.svg("")).pixels(), [[colours[cell] for cell in row] for row in cells])
