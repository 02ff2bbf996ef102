"""Why a figure holds: the count behind its witness, as one writes it on the board.

An explanation does not repeat the library's figure. It counts, by `definitions`, and where its count is not the figure it raises
`Contradiction` and shows nothing.
"""
from __future__ import annotations

import html
import re
from typing import Any, Callable, NamedTuple, Optional, Sequence

from . import definitions, theorems
from .box import Box

LISTED = 16  # so many inputs are named one by one
SHORT = 64  # with more columns than this a page shows one cell for each
# A table on a page, in pixels of 96 to the inch: what A4 has between margins of 10 mm (a page's column on a screen is wider), a letter of
# its type at 9 points, what its style has around a cell and beside a label, and the last column with its counts, or with its head too.
ACROSS, LETTER, AROUND, BESIDE, COUNTS, COUNT = 718.0, 7.23, 7.2, 12.0, 31.0, 44.0


class Contradiction(AssertionError):
    """A count from the definition is not the figure that the library gave."""


class Line(NamedTuple):
    """A line of a table: what stands in it, a name and behind a comma what it means, and a value for each column."""

    label: str
    values: Sequence[int]

    @property
    def name(self) -> str:
        return self.label.partition(", ")[0]

    @property
    def meaning(self) -> str:
        return self.label.partition(", ")[2]


class Explanation:
    """The heading, the sentences before the table, its lines, the columns that are counted, and the sentences after it.

    The first line numbers the columns from 0. `compared` names the lines that decide which columns are counted.
    """

    def __init__(
        self,
        heading: str,
        before: list[str],
        lines: list[Line],
        compared: list[int],
        counted: Sequence[int],
        mark: str,
        after: list[str],
    ) -> None:
        self.heading, self.before, self.lines, self.compared = heading, before, lines, compared
        self.counted, self.mark, self.after = frozenset(counted), mark, after
        widest = max(len(str(value)) for line in lines for value in line.values)
        step = 16 if widest <= 4 else 8
        self._blocks = [
            range(start, min(start + step, len(lines[0].values))) for start in range(0, len(lines[0].values), step)
        ]

    def _count(self, block: range) -> int:
        return sum(place in self.counted for place in block)

    def _addition(self, blocks: Sequence[range]) -> list[str]:
        """The counts of the blocks, added up."""
        counts = [self._count(block) for block in blocks]
        return [f"{' + '.join(map(str, counts))} = {sum(counts)}"] if len(counts) > 1 else []

    # ---- as text

    def __str__(self) -> str:
        parts = [self.heading, "", *self.before, "", *self._table(), *self._addition(self._blocks), *self.after]
        return "\n".join(parts) + "\n"

    def _table(self) -> list[str]:
        name = max(len(label) for label in [self.mark] + [line.label for line in self.lines])
        wide = max(len(str(value)) for line in self.lines for value in line.values)
        text = []
        for block in self._blocks:
            for line in self.lines:
                text.append(f"{line.label:<{name}}  " + " ".join(f"{line.values[place]:>{wide}}" for place in block))
            marks = " ".join(f"{'*' if place in self.counted else '.':>{wide}}" for place in block)
            text += [f"{self.mark:<{name}}  {marks}  {self._count(block)}", ""]
        return text

    # ---- for a page

    def html(self, whole: bool = False) -> str:
        """The same as HTML. A table of more than 64 columns has one cell for each, with the values that are compared, unless `whole`."""
        is_short = not whole and len(self.lines[0].values) > SHORT
        blocks, rows = self._short() if is_short else self._whole()
        parts = [
            f"<h3>{html.escape(self.heading)}</h3>",
            *map(_paragraph, self.before),
            '<div class="wide"><table class="count">',
            *self._caption(is_short),
            *rows,
            "</table></div>",
        ]
        return "\n".join(parts + list(map(_paragraph, self._addition(blocks) + self.after)))

    def _caption(self, is_short: bool) -> list[str]:
        """What stands in the cells: above the table, since a first column of so many words would push the others out of the page."""
        lines = [self.lines[at] for at in self.compared] if is_short else self.lines
        meanings = "; ".join(f"{line.name}: {line.meaning}" for line in lines if line.meaning)
        words = [f"{meanings}."] if meanings else []
        if is_short:
            alone = len(lines) == 1
            cells = lines[0].label if alone else " | ".join(line.name for line in lines)
            words = [f"In each cell: {cells}.", *([] if alone else words), f"Shaded: {self.mark}."]
        return [f"<caption><span>{html.escape(' '.join(words))}</span></caption>"] if words else []

    def _blocks_of_page(self, label: int, cell: int, last: float) -> list[range]:
        """The columns in blocks as broad as the page takes, where labels and cells have so many letters."""
        total, left = len(self.lines[0].values), ACROSS - (LETTER * label + BESIDE) - last
        step = next((step for step in (16, 8, 4) if step * (LETTER * cell + AROUND) <= left), 2)
        return [range(start, min(start + step, total)) for start in range(0, total, step)]

    def _cell(self, place: int, words: str) -> str:
        return f'<td class="counted">{words}</td>' if place in self.counted else f"<td>{words}</td>"

    def _whole(self) -> tuple[list[range], list[str]]:
        """All lines, a block of columns at a time, and behind each block its count."""
        label = max(len(name) for name in [self.mark] + [line.name for line in self.lines])
        blocks = self._blocks_of_page(label, max(len(str(value)) for line in self.lines for value in line.values), COUNTS)
        rows = []
        for block in blocks:
            for at, line in enumerate(self.lines):
                first = ' class="first"' if at == 0 else ""
                cells = "".join(self._cell(place, str(line.values[place])) for place in block)
                rows.append(f'<tr{first}><th scope="row">{html.escape(line.name)}</th>{cells}<td></td></tr>')
            marks = "".join(self._cell(place, "*" if place in self.counted else "") for place in block)
            rows.append(
                f'<tr><th scope="row">{html.escape(self.mark)}</th>{marks}<td class="sum">{self._count(block)}</td></tr>'
            )
        return blocks, rows

    def _short(self) -> tuple[list[range], list[str]]:
        """A cell for each column, with the values that are compared."""
        first = self.lines[0]
        texts = ["|".join(str(self.lines[at].values[place]) for at in self.compared) for place in first.values]
        blocks = self._blocks_of_page(len(str(first.values[-1])), max(map(len, ["+15", *texts])), COUNT)
        across = "".join(f'<th scope="col">+{step}</th>' for step in range(len(blocks[0])))
        rows = [f'<tr class="first"><th scope="col">{first.name}</th>{across}<th scope="col">count</th></tr>']
        for block in blocks:
            cells = "".join(self._cell(place, texts[place]) for place in block)
            rows.append(f'<tr><th scope="row">{block[0]}</th>{cells}<td class="sum">{self._count(block)}</td></tr>')
        return blocks, rows


def in_html(sentence: str) -> str:
    """A sentence as HTML, in which a command is not broken."""
    return re.sub(r"\b\w+ FILE --\w+ [\w,]+\w", r"<code>\g<0></code>", html.escape(sentence))


def _paragraph(sentence: str) -> str:
    return f"<p>{in_html(sentence)}</p>"


# ---- words


def places(mask: int) -> list[int]:
    """The places of the ones in a mask, the lowest being 1."""
    return [place + 1 for place in range(mask.bit_length()) if mask >> place & 1]


def listed(words: Sequence[Any]) -> str:
    """Words in a row, the last behind an 'and'."""
    texts = [str(word) for word in words]
    return texts[0] if len(texts) == 1 else ", ".join(texts[:-1]) + " and " + texts[-1]


def inputs(count: int) -> str:
    """So many inputs."""
    return f"{count} input" + ("" if count == 1 else "s")


def combination_in_words(c: int) -> str:
    """Which outputs combination c adds."""
    outputs = places(c)
    return (
        f"Combination {c} is output {outputs[0]} alone."
        if len(outputs) == 1
        else f"Combination {c} is the sum (XOR) of the outputs {listed(outputs)}."
    )


def _affine_in_words(w: int, b: int) -> str:
    terms = [f"x{place}" for place in places(w)] + (["1"] if b else [])
    return " + ".join(terms) if terms else "0"


def _flip_in_words(change: int) -> str:
    flipped = places(change)
    return f"input {flipped[0]} is flipped" if len(flipped) == 1 else f"the inputs {listed(flipped)} are flipped"


def _normal_form_in_words(terms: Sequence[int]) -> str:
    """The sum of products, those of most factors first."""
    longest_first = sorted(terms, key=lambda u: (-definitions.ones(u), u))
    products = ["".join(f"x{place}" for place in places(u)) or "1" for u in longest_first] or ["0"]
    more = [f"{len(products) - LISTED} more"] if len(products) > LISTED else []
    return " + ".join(products[:LISTED] + more)


def _where(found: Sequence[int]) -> str:
    if not found:
        return "at no input"
    return f"at {inputs(len(found))}" + (f": {listed(found)}" if len(found) <= LISTED else "")


def within(limit: int, m: int) -> str:
    """The combinations that a figure is over."""
    return (
        "nonzero combination of outputs"
        if limit == m
        else f"nonzero combination of at most {limit} output" + ("" if limit == 1 else "s")
    )


# Why a figure within a limit is not enough: what examples/cast-s2.sheet and examples/cast-s2.whole have.
CAST = "of the box S2 of CAST-128 the nonlinearity is 88 within four outputs, and 74 over all"


def over_all(kind: str, figure: int, limit: int, m: int, name: str, command: str = "sheet FILE --limit all") -> list[str]:
    """With a limit below m: on which side of the figure that over all combinations lies, and which command counts it."""
    if limit == m:
        return []
    unseen, all_of_them = f"Combinations of more than {limit} of the {m} outputs are not looked at here", f"all {2**m - 1:,} combinations"
    side = "at most" if kind in ("nonlinearity", "degree") else "at least"
    if (side, figure) == ("at least", 0):  # which says nothing
        return [f"{unseen}: the command {command} counts the {name} over {all_of_them}."]
    return [
        f"{unseen}: over all combinations the {name} is {side} {figure} (proved: {theorems.LIMITS[kind]}).",
        f"The command {command} counts it over {all_of_them}"
        + (f", and that can matter: {CAST}." if kind == "nonlinearity" else "."),
    ]


def _agree(what: str, counted: int, reported: int) -> None:
    if counted != reported:
        raise Contradiction(f"{what}: counted {counted}, reported {reported}")


# ---- the figures


def nonlinearity(box: Box, i: Optional[int] = None) -> Explanation:
    """The inputs at which the combination and the affine function of the witness differ."""
    figure, (c, w, b), limit = box.nonlinearity(i)
    values, affine = definitions.combination(box.rows, c), definitions.affine(box.n, w, b)
    differing = definitions.unlike(values, affine)
    _agree("nonlinearity", len(differing), figure)
    half = 2 ** (box.n - 1)
    equal = 2**box.n - len(definitions.unlike(values, definitions.affine(box.n, w, 0)))
    _agree("linear approximation value", equal - half, box.spectrum(c)[w])
    return Explanation(
        f"nonlinearity {figure}: c = {c}, w = {w}, b = {b}, limit {limit}",
        [combination_in_words(c), f"The affine function w·x XOR b is {_affine_in_words(w, b)}, + being XOR."],
        [
            Line("x", range(2**box.n)),
            Line("S(x)", box.rows),
            Line(f"f(x), parity of S(x) AND {c}", values),
            Line(f"a(x), parity of x AND {w}" + (", XOR 1" if b else ""), affine),
        ],
        [2, 3],
        differing,
        "differ",
        [
            f"They differ {_where(differing)}.",
            f"f(x) equals w·x at {inputs(equal)}; less half of all, {half}, this is the linear approximation value at (c, w):"
            f" {equal - half}.",
            f"That no {within(limit, box.m)} differs from any affine function at fewer inputs is proved"
            f" ({theorems.BOUNDS['nonlinearity']}).",
            *over_all("nonlinearity", figure, limit, box.m, "nonlinearity"),
        ],
    )


def xor(box: Box) -> Explanation:
    """The inputs at which the input difference of the witness gives its output difference."""
    figure, (a, beta) = box.largest_cell()
    other = definitions.flipped(box.rows, a)
    differences = [one ^ two for one, two in zip(box.rows, other)]
    giving = [x for x in range(2**box.n) if differences[x] == beta]
    _agree("xor", len(giving), figure)
    pairs = [f"{{{x}, {x ^ a}}}" for x in giving if x < x ^ a]
    return Explanation(
        f"xor {figure}: a = {a}, β = {beta}",
        [f"Between x and x XOR {a} {_flip_in_words(a)}. At how many inputs is the difference of the outputs {beta}?"],
        [
            Line("x", range(2**box.n)),
            Line("S(x)", box.rows),
            Line(f"S(x XOR {a})", other),
            Line(f"difference, S(x) XOR S(x XOR {a})", differences),
        ],
        [3],
        giving,
        f"is {beta}",
        [
            f"The difference is {beta} {_where(giving)}"
            + (f"; in pairs {listed(pairs)}." if len(pairs) <= LISTED else "."),
            f"That no nonzero input difference gives any output difference at more inputs is proved ({theorems.BOUNDS['xor']}).",
        ],
    )


def _changing(box: Box, c: int, change: int) -> tuple[list[Line], list[int]]:
    """The table of combination c under a change, and the inputs at which it changes."""
    values = definitions.combination(box.rows, c)
    moved = definitions.flipped(values, change)
    lines = [
        Line("x", range(2**box.n)),
        Line("S(x)", box.rows),
        Line(f"f(x), parity of S(x) AND {c}", values),
        Line(f"f(x XOR {change})", moved),
    ]
    return lines, definitions.unlike(values, moved)


def autocorrelation(box: Box, i: Optional[int] = None) -> Explanation:
    """The inputs at which the combination of the witness changes under its input change."""
    figure, (c, s), limit = box.autocorrelation(i)
    lines, changing = _changing(box, c, s)
    staying = 2**box.n - len(changing)
    _agree("autocorrelation", abs(staying - len(changing)), figure)
    return Explanation(
        f"autocorrelation {figure}: c = {c}, s = {s}, limit {limit}",
        [combination_in_words(c), f"Between x and x XOR {s} {_flip_in_words(s)}."],
        lines,
        [2, 3],
        changing,
        "changes",
        [
            f"f changes at {inputs(len(changing))} and stays the same at {inputs(staying)}:"
            f" r({s}) = {staying} - {len(changing)}, of magnitude {figure}.",
            f"That no {within(limit, box.m)} has a larger magnitude under any nonzero change is proved"
            f" ({theorems.BOUNDS['autocorrelation']}).",
            *over_all("autocorrelation", figure, limit, box.m, "autocorrelation"),
        ],
    )


CRITERIA = {(1, 1): ("sac", "strict avalanche criterion"), (2, 1): ("bic", "bit independence criterion")}


def distance(box: Box, i: int, j: int) -> Explanation:
    """The inputs at which the combination of the witness changes under its flipped inputs, against half of all."""
    figure, (c, d), limit, flips = box.dynamic_distance(i, j)
    lines, changing = _changing(box, c, d)
    half = 2 ** (box.n - 1)
    _agree("dynamic distance", abs(half - len(changing)), figure)
    name, criterion = CRITERIA.get((limit, flips), (f"dynamic distance of order ({limit}, {flips})", ""))
    verdict = (
        [f"The {criterion} {'holds' if figure == 0 else 'does not hold'}: it holds exactly where this figure is 0."]
        if criterion
        else []
    )
    flipped = "one flipped input" if flips == 1 else f"at most {flips} flipped inputs"
    return Explanation(
        f"{name} {figure}: c = {c}, d = {d}, order ({limit}, {flips})",
        [combination_in_words(c), f"Between x and x XOR {d} {_flip_in_words(d)}."],
        lines,
        [2, 3],
        changing,
        "changes",
        [
            f"f changes at {inputs(len(changing))}; half of all inputs are {half}, and the distance from them is {figure}.",
            f"That no {within(limit, box.m)} under {flipped} is further from half is proved ({theorems.BOUNDS['distance']}).",
            *verdict,
            *over_all(
                "distance",
                figure,
                limit,
                box.m,
                f"dynamic distance of order ({box.m}, {flips})",
                f"distance FILE --order all,{flips}",
            ),
        ],
    )


def degree(box: Box, i: Optional[int] = None) -> Explanation:
    """The normal form of the witness's combination: for each u the parity of the ones at the inputs within u."""
    figure, (c,), limit = box.degree(i)
    values = definitions.combination(box.rows, c)
    counts = [definitions.ones_within(values, u) for u in range(2**box.n)]
    coefficients = [count % 2 for count in counts]
    if coefficients != box.normal_form(c):
        raise Contradiction(f"degree: the normal form of combination {c} is not the one that was reported")
    terms = [u for u in range(2**box.n) if coefficients[u]]
    _agree("degree", max((definitions.ones(u) for u in terms), default=0), figure)
    longest = [u for u in terms if definitions.ones(u) == figure]
    if terms:
        share = f"No product has more than {inputs(figure)}, and {len(longest)} of {len(terms)} have that many."
    else:
        share = "There is no product: f is 0 everywhere, of degree 0."
    return Explanation(
        f"degree {figure}: c = {c}, limit {limit}",
        [
            combination_in_words(c),
            "The coefficient at u is 1 where f is 1 at an odd number of the inputs x whose ones lie within u;"
            " its product is of the inputs in u.",
        ],
        [
            Line("u", range(2**box.n)),
            Line("f(u)", values),
            Line("ones of f within u", counts),
            Line("coefficient", coefficients),
        ],
        [2, 3],
        longest,
        f"{figure} factor" + ("" if figure == 1 else "s"),
        [
            f"The normal form is {_normal_form_in_words(terms)}, + being XOR.",
            share,
            f"That no {within(limit, box.m)} has a lower degree is proved ({theorems.BOUNDS['degree']}).",
            *over_all("degree", figure, limit, box.m, "degree"),
        ],
    )


def sac(box: Box) -> Explanation:
    """The distance of order (1, 1)."""
    return distance(box, 1, 1)


def bic(box: Box) -> Explanation:
    """The distance of order (2, 1)."""
    return distance(box, 2, 1)


FIGURES: dict[str, Callable[..., Explanation]] = {
    "nonlinearity": nonlinearity,
    "xor": xor,
    "autocorrelation": autocorrelation,
    "sac": sac,
    "bic": bic,
    "degree": degree,
    "distance": distance,
}


def explain(box: Box, figure: str, *, i: Optional[int] = None, j: Optional[int] = None) -> Explanation:
    """The explanation of a figure: `i` is the limit where it has one, and for 'distance' i and j are the order."""
    if figure not in FIGURES:
        raise ValueError(f"there is no explanation of {figure!r}, but of {listed(list(FIGURES))}")
    stated = {name: value for name, value in (("i", i), ("j", j)) if value is not None}
    return FIGURES[figure](box, **stated)
