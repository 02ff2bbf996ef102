"""The page, read by an HTML parser: its parts, its pictures, what it says, and that the stored pages are made again byte for byte."""
import contextlib
import hashlib
import html.parser
import io
import pathlib
import random
import re
import tempfile
import time
import unittest
import unittest.mock
import xml.etree.ElementTree as tree

from satmegwo import Box, command, explaining, library, page, pictures, progress, svg, theorems

from .places import PACKAGE, ROOT, example

STORED = ROOT / "examples" / "pages"
EMPTY = {"meta", "rect", "line", "circle", "polygon", "image"}


class Reader(html.parser.HTMLParser):
    """Sees to it that every element ends where it must, and keeps the texts."""

    def __init__(self, text):
        super().__init__(convert_charrefs=True)
        self.open, self.elements, self.texts = [], [], {}
        self.feed(text)
        self.close()
        assert self.open == [], self.open

    def handle_starttag(self, tag, attributes):
        self.elements.append((tag, dict(attributes)))
        if tag not in EMPTY:
            self.open.append(tag)

    def handle_startendtag(self, tag, attributes):
        self.elements.append((tag, dict(attributes)))

    def handle_endtag(self, tag):
        assert self.open and self.open[-1] == tag, (tag, self.open)
        self.open.pop()

    def handle_data(self, data):
        if self.open:
            self.texts.setdefault(self.open[-1], []).append(data)

    def words(self, *tags):
        """The text of some elements, or of all but the style."""
        return " ".join(
            text for tag, texts in self.texts.items() if (tag in tags if tags else tag != "style") for text in texts
        )

    def count(self, tag, kind=None):
        return sum(
            name == tag and (kind is None or attributes.get("class") == kind) for name, attributes in self.elements
        )


def wide(m):
    chance = random.Random(m)
    return Box([chance.randrange(2**m) for _ in range(16)], n=4, m=m, name=f"wide-{m}.csv")


class Page(unittest.TestCase):
    def test_parts(self):
        for name in ("example", "des-s1", "aes", "present"):
            with self.subTest(name):
                box = example(name)
                read = Reader(page.page(box))
                self.assertEqual(read.texts["h1"], [f"{name}.box: {box.n} inputs, {box.m} outputs"])
                self.assertEqual(
                    read.texts["h2"],
                    [
                        "The sheet in sentences",
                        "Pictures",
                        "The counts behind the witnesses",
                        "What is certified",
                        "The sheet",
                    ],
                )
                self.assertEqual((read.count("svg"), read.count("figure"), read.count("section")), (4, 4, 6))
                self.assertIn(box.sheet(), read.texts["pre"])
                self.assertIn(f"Satmegwo {library.version()}", read.words("footer"))
                told = [
                    int(word, 16) for line in read.texts["pre"][0].splitlines() for word in line.split(": ")[1].split()
                ]
                self.assertEqual(told, list(box.rows))

    def test_pictures_are_those_of_the_command(self):
        for box, drawn in (
            (example("example"), (pictures.lat, pictures.distances, pictures.spectrum, pictures.xor)),
            (wide(9), (pictures.histogram, pictures.spectrum)),
        ):
            text = page.page(box)
            places = [text.find(draw(box).html()) for draw in drawn]
            self.assertTrue(-1 not in places and places == sorted(places), places)
            self.assertEqual(text.count("<figure>"), len(drawn))

    def test_nothing_else_is_needed(self):
        for box in (example("aes"), wide(12)):
            text = page.page(box)
            read = Reader(text)
            self.assertEqual(
                {"script", "link", "img", "iframe", "a", "object"} & {tag for tag, _ in read.elements}, set()
            )
            for _, attributes in read.elements:
                for name, value in attributes.items():
                    self.assertTrue(
                        name not in ("href", "src") or value.startswith("data:image/png;base64,"), (name, value)
                    )
            self.assertNotRegex(text, r"url\(|@import")

    def test_sentences(self):
        for box in [example("example"), example("des-s1"), example("aes"), wide(1), wide(9), wide(20)]:
            lines = {line.split()[0]: line.split()[1:] for line in box.sheet().splitlines()[1:]}
            told = page.sentences(box)
            self.assertEqual([sentence.word for sentence in told], list(lines))
            for sentence in told:
                fields = [str(sentence.figure), *re.findall(r"= ([0-9]+)", sentence.witness)]
                self.assertEqual(fields, lines[sentence.word][: len(fields)])
                if sentence.word in theorems.LIMITS:
                    self.assertEqual("over all combinations" in sentence.says, box.m > 16)
                    self.assertEqual("The command sheet FILE --limit all counts it" in sentence.says, box.m > 16)
                    self.assertEqual("of at most 4 outputs" in sentence.says, box.m > 16)

    def test_many_outputs(self):
        for m in (9, 17, 32):
            read = Reader(page.page(wide(m)))
            self.assertEqual(read.count("svg"), 2)
            self.assertIn(f"are drawn up to 8 outputs; this box has {m}. Shown are how many combinations", read.words("p"))

    def test_one_output(self):
        read = Reader(page.page(wide(1)))
        self.assertIn("none", read.texts["td"])
        self.assertEqual(read.count("section"), 5)

    def test_the_conditions_are_the_certificates(self):
        certificate = " ".join((ROOT / "docs" / "CERTIFICATE.md").read_text(encoding="utf-8").replace("*", "").split())
        for condition in page.CONDITIONS:
            self.assertTrue(condition in certificate, condition)
            self.assertIn(condition, Reader(page.page(example("example"))).words("p"))

    def test_a_limit_below_m_is_said_at_once(self):
        narrowed = "Every nonzero combination of at most 4 outputs, not single outputs or pairs."
        for box in (example("example"), wide(16), wide(17), wide(32)):
            words = Reader(page.page(box)).words("p")
            self.assertEqual(narrowed in words, box.m > 16)
            self.assertEqual("Every nonzero combination of outputs" in words, box.m <= 16)

    def test_the_fingerprint(self):
        """A page on paper is matched to a box file by its SHA-256."""
        for name in ("aes", "cast-s1"):
            digest = hashlib.sha256((ROOT / "examples" / f"{name}.box").read_bytes()).hexdigest()
            self.assertEqual([code for code in Reader(page.page(example(name))).texts["code"] if len(code) == 64], [digest])

    def test_the_sentences_have_heads(self):
        read = Reader(page.page(example("des-s1")))
        heads = [attributes for tag, attributes in read.elements if tag == "th" and attributes.get("scope") == "col"]
        self.assertEqual(len(heads), 4)
        self.assertEqual(read.texts["th"][:4], ["line of the sheet", "figure", "witness", "what it says"])

    def test_the_words_of_the_field(self):
        """Each stands in the sentences, once."""
        for box in (example("aes"), wide(20)):
            told = " ".join(sentence.says for sentence in page.sentences(box))
            for word in (
                "(component function)",
                "(difference distribution table, DDT)",
                "differential uniformity",
                "(absolute indicator)",
                "(algebraic degree, here the least over the components)",
            ):
                self.assertEqual(told.count(word), 1, word)
        self.assertIn("Linear approximation table (LAT): aes.box", Reader(page.page(example("aes"))).words("figcaption"))

    def test_no_score(self):
        words = Reader(page.page(example("des-s1"))).words().replace("There is no blended score.", "")
        self.assertNotRegex(words, r"(?i)\b(good|bad|better|worse|strong|weak|score|grade|secure)\b")

    def test_names_are_escaped(self):
        text = page.page(Box([0, 1, 1, 0], n=2, m=1, name="<script>alert(1)</script>&"))
        self.assertNotIn("<script", text)
        Reader(text)

    def test_theorems_come_from_the_table(self):
        for module in (page, pictures):
            source = pathlib.Path(module.__file__).read_text(encoding="utf-8")
            self.assertNotRegex(source, r"[a-z]+_(reported|falls|rises)")


def declared(selector, name, among=page.STYLE):
    """What the style declares for a selector, such as the padding of .count td."""
    for selectors, block in re.findall(r"^ *([^@{}\n]+) \{ (.*) \}$", among, re.MULTILINE):
        found = re.search(rf"(?:^|; ){name}: ([^;]+)", block)
        if selector in selectors.split(", ") and found:
            return found[1]
    raise AssertionError((selector, name))


SCREEN, PRINT = page.STYLE.split("@media print")
PAPER = 190 / 25.4 * 96  # A4 without its margins, in pixels of 96 to the inch
MONOSPACE = 0.6021  # what a letter of DejaVu Sans Mono is wide, in type sizes
SOME = [(1, 1), (2, 32), (3, 3), (4, 20), (6, 4), (6, 17), (6, 32), (7, 1), (7, 4), (7, 17), (8, 10), (8, 32)]


def sides(padding, size):
    """The left and right padding that words of a style declare, in pixels."""
    parts = [0.0 if part == "0" else float(part.replace("em", "")) * size for part in padding.split()]
    return (parts[1], parts[1]) if len(parts) == 2 else (parts[3], parts[1])


class Widths(unittest.TestCase):
    """What must be seen is on the page: by the letters' widths, nothing but a picture is wider than its column, on a screen or on A4."""

    def column(self):
        """The page's column at 1,280 pixels."""
        size = float(re.search(r"font: (\d+)px", SCREEN)[1])
        return min(float(declared("body", "max-width").replace("em", "")) * size, 1280 - 2 * size)

    def count_width(self, table, size):
        """The width of a table of a count, column by column."""
        around = sides(declared(".count td", "padding"), size)
        first = sides(declared(".count th:first-child", "padding"), size)
        behind = float(declared(".count .sum", "padding-left").replace("em", "")) * size
        columns = {}
        for row in table.iter("tr"):
            for at, cell in enumerate(row):
                left, right = first if at == 0 else around
                left = behind if cell.get("class") == "sum" else left
                columns[at] = max(columns.get(at, 0), len(cell.text or "") * MONOSPACE * size + left + right)
        return sum(columns.values())

    def boxes(self):
        chance = random.Random(9)
        for n, m in SOME:
            # The widest numbers that there are: in the witness, in the rows, and in the difference.
            yield Box([chance.choice((2**m - 1, chance.randrange(2**m))) for _ in range(2**n)], n, m)

    def test_counts(self):
        size = float(declared(".count", "font-size").replace("px", ""))
        narrowest, made = min(self.column(), PAPER), [example(name) for name in ("example", "des-s1", "aes", "cast-s1")]
        for box in made + list(self.boxes()):
            for figure in ("nonlinearity", "xor", "autocorrelation", "sac", "bic", "degree"):
                if (figure, box.m) != ("bic", 1):
                    with self.subTest((box.n, box.m, figure)):
                        text = explaining.explain(box, figure).html()
                        table = tree.fromstring(re.search("<table.*</table>", text, re.DOTALL)[0])
                        self.assertLessEqual(self.count_width(table, size), narrowest)
                        self.assertEqual("|" in text, box.n > 6 and figure != "xor")

    def test_no_heading_is_in_the_first_column(self):
        """What stands in the cells is told above the table, of any width."""
        for box in (example("aes"), example("des-s1")):
            text = explaining.explain(box, "nonlinearity").html()
            _, (c, w, _), _ = box.nonlinearity()
            caption = re.search("<caption><span>(.*)</span></caption>", text)[1]
            self.assertIn(f"f(x): parity of S(x) AND {c}; a(x): parity of x AND {w}, XOR 1.", caption)
            self.assertNotIn("parity", "".join(re.findall("<th.*?</th>", text)))
        a, beta = example("aes").largest_cell().witness
        caption = f"<span>In each cell: difference, S(x) XOR S(x XOR {a}). Shaded: is {beta}.</span>"
        self.assertIn(caption, explaining.explain(example("aes"), "xor").html())

    def longest(self, sentence, size):
        """The widths of what is not broken in a line of the sheet in sentences: two words, the witness, and any word of the sentence."""
        word, figure, witness, says = sentence
        code = [len(words) * MONOSPACE * size for words in re.findall("<code>(.*?)</code>", explaining.in_html(says))]
        told = max([svg.text_width(part, size) for part in says.split()] + code)
        return svg.text_width(word, size, True), svg.text_width(str(figure), size, True), svg.text_width(witness, size), told

    def test_sentences_and_rows(self):
        """The table of sentences can be as narrow as its longest words; the rows are lines of type."""
        for box in [example("aes"), example("cast-s1"), *self.boxes()]:
            told, rows = page.sentences(box), page._rows(box).split("\n")
            for size, most in ((14, self.column()), (12, PAPER)):
                columns = map(max, zip(*(self.longest(sentence, size) for sentence in told)))
                self.assertLessEqual(sum(columns) + 4 * size, most)
                self.assertLessEqual(max(map(len, rows)) * MONOSPACE * size, most)

    def test_pictures_scroll_in_their_frames(self):
        """On a phone a picture is wider than the screen, and its title and sentence, which stand outside of the frame, are not."""
        self.assertEqual((declared(".frame", "overflow-x"), declared("figure", "max-width")), ("auto", "100%"))
        for figure in re.findall("<figure>.*?</figure>", page.page(example("aes")), re.DOTALL):
            read = Reader(figure)
            self.assertEqual([tag for tag, _ in read.elements][:4], ["figure", "figcaption", "div", "svg"])
            self.assertTrue(read.texts["p"][0].startswith(("Ringed: ", "Marked: ")))

    def test_paper_has_nine_points(self):
        """No size that holds on paper is below 12 pixels, which are 9 points."""
        body = float(declared("body", "font-size", PRINT).replace("px", ""))
        self.assertGreaterEqual(body, 12)
        self.assertEqual(float(re.search(r"@media print.*?\n  pre \{ font-size: (\d+)px", page.STYLE, re.DOTALL)[1]), 12)
        for size in re.findall(r"font-size: ([\d.]+)(px|em)", page.STYLE):
            self.assertGreaterEqual(float(size[0]) * (body if size[1] == "em" else 1), 12, size)


class Stored(unittest.TestCase):
    """examples/pages is what the command makes; `make -C python pages` makes it again."""

    def test_pages(self):
        names = sorted(path.name for path in STORED.iterdir())
        self.assertEqual(names, ["aes.html", "des-s1.html", "example-lat.svg", "example.html"])
        with tempfile.TemporaryDirectory() as folder:
            for name in names:
                box, _, what = (
                    name.partition(".")[0].partition("-lat") if name.endswith(".svg") else (name[:-5], "", "")
                )
                out = pathlib.Path(folder, name)
                asked = [
                    "lat" if name.endswith(".svg") else "report",
                    str(ROOT / "examples" / f"{box}.box"),
                    "-o",
                    str(out),
                ]
                self.assertEqual(command.main(asked), 0)
                self.assertEqual(
                    out.read_bytes(), (STORED / name).read_bytes(), f"{name}: make -C python pages makes it again"
                )

    def test_the_makefile_makes_them(self):
        made = (PACKAGE / "Makefile").read_text(encoding="utf-8")
        for path in STORED.iterdir():
            self.assertIn(path.name.replace(".html", ""), made)


class Terminal(io.StringIO):
    def isatty(self):
        return True


class Telling(unittest.TestCase):
    def told(self, stream, seconds, patience=0.05):
        with unittest.mock.patch.object(progress, "PATIENCE", patience):
            with progress.Progress(stream) as line:
                for step in ("first", "second"):
                    line.say(step)
                    time.sleep(seconds)
        return stream.getvalue()

    def test_what_ends_soon_is_not_told(self):
        self.assertEqual(self.told(io.StringIO(), 0, patience=30), "")

    def test_each_step_has_a_line(self):
        self.assertEqual(self.told(io.StringIO(), 0.5), "first ..\nsecond ..\n")

    def test_a_terminal_has_one_line(self):
        told = self.told(Terminal(), 0.5)
        self.assertIn("\r\x1b[Kfirst, 0 s", told)
        self.assertIn("\r\x1b[Ksecond, ", told)
        self.assertTrue(told.endswith("\r\x1b[K"))
        self.assertNotIn("\n", told)

    def test_the_command_tells(self):
        def slow(box, say):
            say("a long step")
            time.sleep(0.5)
            return ""

        error = io.StringIO()
        with unittest.mock.patch.object(progress, "PATIENCE", 0.05), unittest.mock.patch("satmegwo.page.page", slow):
            with contextlib.redirect_stderr(error), contextlib.redirect_stdout(io.TextIOWrapper(io.BytesIO())):
                self.assertEqual(command.main(["report", str(ROOT / "examples" / "example.box")]), 0)
        self.assertEqual(error.getvalue(), "a long step ..\n")

    def test_the_page_says_its_steps(self):
        steps = []
        page.page(example("example"), steps.append)
        self.assertEqual(len(steps), 11)
        self.assertIn("picture of the linear approximation table", steps)
