"""Pictures of a box: its two tables as maps, a spectrum, the distance of each combination and how many have each as bars.

The witness is marked in each. A picture is SVG with its title above and a sentence below; on a page these two are HTML, so that they stay
whole where the picture is wider than the screen.

Every value is the library's (`Box.spectrum`, `Box.xor_row`); before a picture is drawn they are compared with the figure that it
shows, and `Contradiction` is raised where they differ. A cell or bar with room for it has its number as text. Colours go from white to
blue, or to blue and to brown, which colour-blind readers can tell and printers can print; the witness is marked by a ring and by arrows,
and by no colour alone.
"""
from __future__ import annotations

import html
import itertools
import re
from typing import Callable, Iterator, NamedTuple, Optional, Sequence

from .box import Box
from .explaining import Contradiction, within
from .library import SIGNED, call, room
from .svg import GREY, INK, MARGIN, PALE, Drawing, png, shortest, text_width

MOST_OUTPUTS = 8  # of a box whose tables are drawn whole
BROWN, BLUE, NIGHT, BAR, MARKED = (140, 81, 10), (33, 102, 172), (8, 48, 107), "#6b9bc9", "#a6611a"
TITLE, TEXT, TICK, LINE = 13.0, 12.0, 12.0, 15.0  # 12 is 9 points on paper
NUMBERED, RING = 16, 7.0  # a cell so wide has its number; the ring around one that has not
GAP, LEAST = 14.0, 354.0  # between plot and scale; two pictures of the least width stand side by side on A4


class Undrawable(ValueError):
    """A box of more outputs than are drawn."""


class Picture(NamedTuple):
    """A picture: its title, the sentence below it, its width, and what paints the plot from a height on and gives where it ends."""

    title: str
    note: str
    width: float
    paint: Callable[[Drawing, float], float]

    def svg(self) -> str:
        """The picture as a file of its own."""
        drawing = Drawing(self.width)
        bottom = self.paint(drawing, drawing.paragraph(MARGIN, MARGIN + TITLE, self.title, TITLE, bold=True))
        drawing.paragraph(MARGIN, bottom + 1.5 * TEXT, self.note, TEXT)
        return drawing.svg(self.title, self.note)

    def html(self) -> str:
        """The picture as a part of a page, which scrolls within its frame."""
        drawing = Drawing(self.width)
        self.paint(drawing, MARGIN + TITLE)
        return (
            f'<figure><figcaption>{html.escape(self.title)}</figcaption>\n<div class="frame">{drawing.svg(self.title, self.note)}</div>\n'
            f"<p>{kept_in_line(html.escape(self.note))}</p></figure>"
        )


class Axis(NamedTuple):
    """One side of a plot: its name, the number of its first line, and the line of the witness."""

    name: str
    first: int
    witness: int


class Plot(NamedTuple):
    """Where the cells of a plot lie: its left upper corner, the size of a cell, and how many there are."""

    left: float
    top: float
    wide: float
    high: float
    columns: int
    rows: int

    @property
    def right(self) -> float:
        return self.left + self.wide * self.columns

    @property
    def bottom(self) -> float:
        return self.top + self.high * self.rows

    def x(self, column: int) -> float:
        """The middle of a column."""
        return self.left + (column + 0.5) * self.wide

    def y(self, row: int) -> float:
        """The middle of a row."""
        return self.top + (row + 0.5) * self.high


def _mixed(colour: tuple[int, int, int], share: float) -> str:
    """A colour between white and this one."""
    return "#" + "".join(f"{round(255 + (part - 255) * share):02x}" for part in colour)


def signed_colour(value: int, most: int) -> str:
    """From blue, for what is negative, by white, for 0, to brown."""
    return _mixed(BROWN if value > 0 else BLUE, abs(value) / most if most else 0)


def count_colour(value: int, most: int) -> str:
    """From white, for 0, to dark blue."""
    return _mixed(NIGHT, value / most if most else 0)


def _kept(words: str) -> str:
    """Words that stay in one line."""
    return words.replace(" ", "\u00a0")


def kept_in_line(words: str) -> str:
    """HTML in which what `_kept` joined is not broken: a browser breaks lines behind a minus all the same."""
    return re.sub(r"\S+(?:\u00a0\S+)+", r'<span class="kept">\g<0></span>', words)


def _ink(back: str) -> str:
    """Black or white, whichever is seen better on a colour."""
    parts = [int(back[place : place + 2], 16) / 255 for place in (1, 3, 5)]
    light = sum(share * part**2.2 for share, part in zip((0.2126, 0.7152, 0.0722), parts))
    return "#ffffff" if light < 0.18 else "#000000"


def _name(box: Box) -> str:
    return (f"{box.name}, " if box.name else "") + _kept(f"{box.n} by {box.m}")


def _drawable(box: Box, what: str) -> None:
    if box.m > MOST_OUTPUTS:
        raise Undrawable(f"{what} is drawn up to {MOST_OUTPUTS} outputs, and this box has {box.m}")


def _left(labels: Sequence[int]) -> float:
    """Where a plot begins: behind the name of its side, the numbers and the arrow."""
    return 24 + max(text_width(str(label), TICK, bold=True) for label in labels) + 13


def _ticks(first: int, count: int, cell: float, witness: int, apart: float = 0.0) -> list[int]:
    """The numbers along a side that have room: that of the witness, and of the others the multiples of a power of two."""
    apart = apart or text_width(str(first + count), TICK, bold=True) + 6
    step = 1
    while step * cell < apart:
        step *= 2
    return [
        value
        for value in range(first, first + count)
        if value == witness or (value % step == 0 and abs(value - witness) * cell >= apart)
    ]


def _size(columns: int, rows: int) -> tuple[float, float]:
    """The width and height of a cell."""
    across = next(size for most, size in ((8, 26), (16, 24), (32, 17), (64, 8), (128, 4), (256, 2)) if columns <= most)
    return across, max(across, min(17, 160 // rows))


def _weight(is_witness: bool) -> dict[str, object]:
    return {"font_weight": "bold"} if is_witness else {}


def _columns_named(drawing: Drawing, plot: Plot, axis: Axis, base: float) -> None:
    """The numbers of the columns, on a base line."""
    for value in _ticks(axis.first, plot.columns, plot.wide, axis.witness):
        drawing.text(plot.x(value - axis.first), base, value, TICK, "middle", **_weight(value == axis.witness))


def _turned(drawing: Drawing, middle: float, words: str) -> None:
    """The name of the left side, from below to above."""
    drawing.text(17, middle, words, TEXT, "middle", transform=f"rotate(-90 17 {shortest(middle)})")


# ---- maps


HEADING = "value: cells"


def _legend(drawing: Drawing, x: float, plot: Plot, labels: dict[int, str], colour: Callable[[int], str]) -> None:
    """The scale: each value with its colour and the number of its cells; where they are too many, the ends and 0 alone."""
    values, height = list(labels), max(plot.bottom - plot.top, 130)
    listed = LINE * (len(values) + 1) <= max(height, 270)
    drawing.text(x, plot.top + 9, HEADING if listed else "value", TICK, fill=GREY)
    step = LINE if listed else (height - 16) / len(values)
    for place, value in enumerate(values):
        top = plot.top + 16 + place * step
        drawing.rect(x, top, 14, step, fill=colour(value), **({"stroke": PALE, "stroke_width": 0.5} if listed else {}))
        if listed:
            drawing.text(x + 20, top + 11.5, labels[value], TICK)
        elif value == 0 or place in (0, len(values) - 1):
            drawing.text(x + 20, top + step / 2 + 4, value, TICK)
    drawing.rect(x, plot.top + 16, 14, step * len(values), fill="none", stroke=GREY, stroke_width=0.7)


def _witness(drawing: Drawing, plot: Plot, x: float, y: float) -> None:
    """A ring around a cell, black on white, so that it is seen on every colour, and arrows at both sides, unless the ring is there."""
    ring = 1.0 if plot.wide >= NUMBERED else RING
    if y - ring > plot.top:
        drawing.triangle([(x, plot.top - 2), (x - 4, plot.top - 9), (x + 4, plot.top - 9)])
    if x - ring > plot.left:
        drawing.triangle([(plot.left - 2, y), (plot.left - 9, y - 4), (plot.left - 9, y + 4)])
    for stroke, thick in (("#ffffff", 4.5), (INK, 2.2)):
        how: dict[str, object] = {"fill": "none", "stroke": stroke, "stroke_width": thick, "class_": "witness"}
        if plot.wide >= NUMBERED:
            drawing.rect(x - plot.wide / 2 - 1, y - plot.high / 2 - 1, plot.wide + 2, plot.high + 2, rx=3, **how)
        else:
            drawing.circle(x, y, RING, **how)


def _cells(drawing: Drawing, plot: Plot, table: Sequence[Sequence[int]], colour: Callable[[int], str]) -> None:
    """The cells: with their numbers where there is room, and else as an image."""
    if plot.wide < NUMBERED:
        values = sorted({value for row in table for value in row})
        places = {value: place for place, value in enumerate(values)}
        image = png([[places[value] for value in row] for row in table], [colour(value) for value in values])
        drawing.image(plot.left, plot.top, plot.right - plot.left, plot.bottom - plot.top, image)
        return
    size = min(12.0, plot.wide / 2)
    for r, row in enumerate(table):
        for k, value in enumerate(row):
            x, y, back = plot.x(k), plot.y(r), colour(value)
            drawing.rect(
                x - plot.wide / 2, y - plot.high / 2, plot.wide, plot.high, fill=back, stroke=PALE, stroke_width=0.5
            )
            drawing.text(x, y + size * 0.36, value, size, "middle", fill=_ink(back) if value else GREY, class_="cell")


def _map(
    table: list[list[int]], across: Axis, down: Axis, shade: Callable[[int, int], str], title: str, note: str
) -> Picture:
    """A map of a table, whose longer side goes across."""
    if len(table) > len(table[0]):
        table, across, down = [list(column) for column in zip(*table)], down, across
    most = max(abs(value) for row in table for value in row)

    def colour(value: int) -> str:
        return shade(value, most)

    values = sorted({value for row in table for value in row}, reverse=True)
    labels = {value: f"{value}: {sum(row.count(value) for row in table)}" for value in values}
    legend = max(20 + max(text_width(label, TICK) for label in labels.values()), text_width(HEADING, TICK))
    left, (wide, high) = _left([down.first + len(table) - 1]), _size(len(table[0]), len(table))

    def paint(drawing: Drawing, top: float) -> float:
        named = top + 6
        # A map of few rows begins so low that the name of its side ends below the title.
        half = text_width(down.name, TEXT) / 2
        plot = Plot(left, named + 28, wide, high, len(table[0]), len(table))
        middle = max(plot.y(0) / 2 + plot.y(plot.rows - 1) / 2, named + half - 8)
        centre = max(plot.left / 2 + plot.right / 2, 26 + text_width(across.name, TEXT) / 2)
        drawing.text(centre, named, across.name, TEXT, "middle")
        _turned(drawing, middle, down.name)
        _cells(drawing, plot, table, colour)
        frame = {"fill": "none", "stroke": GREY, "stroke_width": 0.7}
        drawing.rect(plot.left, plot.top, plot.right - plot.left, plot.bottom - plot.top, **frame)
        _columns_named(drawing, plot, across, plot.top - 11)
        for value in _ticks(down.first, plot.rows, high, down.witness, apart=TICK + 3):
            y = plot.y(value - down.first)
            drawing.text(left - 11, y + 4, value, TICK, "end", **_weight(value == down.witness))
        _witness(drawing, plot, plot.x(across.witness - across.first), plot.y(down.witness - down.first))
        _legend(drawing, plot.right + GAP, plot, labels, colour)
        return max(drawing.height - MARGIN, middle + half)

    return Picture(title, note, max(left + wide * len(table[0]) + GAP + legend + MARGIN, LEAST), paint)


def lat(box: Box) -> Picture:
    """The linear approximation table over all combinations, with the nonlinearity's witness."""
    _drawable(box, "the linear approximation table")
    figure, (c, w, b), _ = box.nonlinearity(box.m)
    table = [box.spectrum(mask) for mask in range(1, 2**box.m)]
    half = 2 ** (box.n - 1)
    nearest = half - figure
    if max(abs(value) for row in table for value in row) != nearest or table[c - 1][w] != (-nearest if b else nearest):
        raise Contradiction("the linear approximation table does not show the nonlinearity that was reported")
    return _map(
        table,
        Axis("mask w", 0, w),
        Axis("combination c", 1, c),
        signed_colour,
        f"Linear approximation table (LAT): {_name(box)}",
        f"Ringed: c = {c}, w = {w} with the value {table[c - 1][w]}. No value has a magnitude above {nearest}, so that the nonlinearity is "
        + _kept(f"{half} - {nearest} = {figure}."),
    )


def xor(box: Box) -> Picture:
    """The XOR table (difference distribution table), with the witness of its largest cell."""
    _drawable(box, "the XOR table")
    figure, (a, beta) = box.largest_cell()
    table = [box.xor_row(difference) for difference in range(1, 2**box.n)]
    if max(value for row in table for value in row) != figure or table[a - 1][beta] != figure:
        raise Contradiction("the XOR table does not show the largest cell that was reported")
    return _map(
        table,
        Axis("output difference β", 0, beta),
        Axis("input difference a", 1, a),
        count_colour,
        f"XOR table (DDT): {_name(box)}",
        f"Ringed: a = {a} gives β = {beta} at {figure} inputs. No cell has more.",
    )


# ---- bars


def _levels(drawing: Drawing, plot: Plot, levels: dict[int, str], others: Sequence[int]) -> None:
    """Lines at some levels, with their names, and the numbers of others that have room. A unit is as high as a row; the top is level 0."""
    for level, words in levels.items():
        y = plot.top - level * plot.high
        drawing.line(plot.left, y, plot.right, y, stroke=GREY, stroke_width=0.8, stroke_dasharray="4 3")
        drawing.text(plot.right + 8, y + 4, words, TICK)
    roomy = [level for level in others if all(abs(level - other) * plot.high >= LINE for other in levels)]
    for level in (*levels, *roomy):
        drawing.text(plot.left - 6, plot.top - level * plot.high + 4, level, TICK, "end")


def _bar(drawing: Drawing, plot: Plot, place: int, value: int, is_witness: bool) -> None:
    """A bar on level 0, with its number where there is room."""
    length, x = abs(value) * plot.high, plot.x(place)
    broad = plot.wide * (0.84 if plot.wide >= 8 else 1.0)
    how: dict[str, object] = {"fill": BAR, "class_": "bar"}
    if is_witness:
        how = {"fill": MARKED, "stroke": INK, "stroke_width": 0.8, "class_": "witness"}
    drawing.rect(x - broad / 2, plot.top - (length if value > 0 else 0), broad, max(length, 0.5), **how)
    if plot.wide >= NUMBERED:
        y = plot.top - length - 3 if value >= 0 else plot.top + length + 10
        drawing.text(x, y, value, min(TICK, plot.wide / 2), "middle", class_="value", **_weight(is_witness))


def _bars(values: list[int], axis: Axis, what: str, levels: dict[int, str], title: str, note: str) -> Picture:
    """A bar for each value; that of the witness is marked, and some levels have a line and a name."""
    most, least = max([*values, *levels, 1]), min([*values, *levels, 0])
    left, wide = _left([*levels, most]), _size(len(values), 1)[0]
    named = max(text_width(words, TICK) for words in levels.values())
    unit = (150 if least < 0 else 120) / (most - least)

    def paint(drawing: Drawing, above: float) -> float:
        top = above + 10
        plot = Plot(left, top + most * unit, wide, unit, len(values), 0)
        bottom = plot.top - least * unit
        _turned(drawing, (top + bottom) / 2, what)
        _levels(drawing, plot, levels, (0, most))
        for place, value in enumerate(values):
            _bar(drawing, plot, place, value, place + axis.first == axis.witness)
        drawing.line(plot.left, plot.top, plot.right, plot.top, stroke_width=0.8)
        low, x = bottom + (14 if wide >= NUMBERED and least < 0 else 4), plot.x(axis.witness - axis.first)
        drawing.triangle([(x, low), (x - 4, low + 7), (x + 4, low + 7)])
        _columns_named(drawing, plot, axis, low + 19)
        drawing.text(plot.left / 2 + plot.right / 2, low + 35, axis.name, TEXT, "middle")
        return low + 37

    return Picture(title, note, max(left + wide * len(values) + 8 + named + MARGIN, LEAST), paint)


def spectrum(box: Box, c: Optional[int] = None) -> Picture:
    """The linear approximation values of a combination; without c of the nonlinearity's witness."""
    figure, (first, w, b), limit = box.nonlinearity()
    chosen = first if c is None else c
    values, half = box.spectrum(chosen), 2 ** (box.n - 1)
    nearest = max(abs(value) for value in values)
    if chosen == first and (nearest != half - figure or values[w] != (-nearest if b else nearest)):
        raise Contradiction("the spectrum does not show the nonlinearity that was reported")
    marked = next(place for place, value in enumerate(values) if abs(value) == nearest)
    is_least = f", and no {within(limit, box.m)} comes nearer" if nearest == half - figure else ""
    return _bars(
        values,
        Axis("mask w", 0, marked),
        "value",
        {nearest: f"d = {half - nearest}, b = 0", -nearest: f"d = {half - nearest}, b = 1"},
        f"Spectrum of combination {chosen}: {_name(box)}",
        f"Marked: w = {marked} with the value {values[marked]}, the first of the largest magnitude. With "
        + _kept(f"b = {0 if values[marked] > 0 else 1}")
        + " the combination differs from this affine function at "
        + _kept(f"{half} - {nearest} = {half - nearest}")
        + f" inputs{is_least}.",
    )


def distances(box: Box) -> Picture:
    """For each combination how near it comes to an affine function; none lies below the nonlinearity."""
    _drawable(box, "the distance of each combination")
    figure, (c, _, _), _ = box.nonlinearity(box.m)
    half = 2 ** (box.n - 1)
    values = [half - max(abs(value) for value in box.spectrum(mask)) for mask in range(1, 2**box.m)]
    if min(values) != figure or values[c - 1] != figure:
        raise Contradiction("the combinations do not show the nonlinearity that was reported")
    many = values.count(figure)
    return _bars(
        values,
        Axis("combination c", 1, c),
        "inputs",
        {figure: f"d = {figure}"},
        f"Distance of each combination from the affine functions: {_name(box)}",
        f"Marked: c = {c} differs from the nearest affine function at {figure} inputs, "
        + (
            "as no other combination does."
            if many == 1
            else f"the first of {many} combinations that do, fewest outputs first."
        )
        + " None differs at fewer.",
    )


# ---- how many combinations have each distance


LONGEST_BAR = 380.0


def _combinations(box: Box) -> Iterator[int]:
    """The combinations within the sheet's limit, fewest outputs first."""
    for count in range(1, box.limit + 1):
        for places in itertools.combinations(range(box.m), count):
            yield sum(1 << place for place in places)


def _counted_distances(box: Box) -> dict[int, int]:
    """How many combinations within the sheet's limit have each distance from the affine functions, least distance first."""
    counts: dict[int, int] = {}
    half, values = 2 ** (box.n - 1), room(SIGNED, 2**box.n)
    figure, (c, _, _), _ = box.nonlinearity()
    shown = 0
    for mask in _combinations(box):
        call("component_spectrum", *box.arguments(), mask, values)
        spectrum_values = values[:]
        distance = half - max(max(spectrum_values), -min(spectrum_values))
        counts[distance] = counts.get(distance, 0) + 1
        if mask == c:
            shown = distance
    if min(counts) != figure or shown != figure:
        raise Contradiction("the distances of the combinations do not show the nonlinearity that was reported")
    return dict(sorted(counts.items()))


def histogram(box: Box) -> Picture:
    """How many combinations within the sheet's limit have each distance from the affine functions; the least is the nonlinearity."""
    counts = _counted_distances(box)
    _, (c, _, _), limit = box.nonlinearity()
    figure, total = min(counts), sum(counts.values())
    left = MARGIN + text_width("distance", TICK) + 16
    numbers = max(text_width(f"{count:,}", TICK, bold=True) for count in counts.values())

    def paint(drawing: Drawing, top: float) -> float:
        drawing.text(MARGIN, top + 4, "distance", TICK, fill=GREY)
        drawing.text(left, top + 4, "combinations", TICK, fill=GREY)
        for place, (distance, count) in enumerate(counts.items()):
            y, is_least = top + 14 + 18 * place, distance == figure
            length = max(LONGEST_BAR * count / max(counts.values()), 1)
            marked: dict[str, object] = {"fill": MARKED, "stroke": INK, "stroke_width": 0.8, "class_": "witness"}
            drawing.rect(left, y, length, 14, **(marked if is_least else {"fill": BAR, "class_": "bar"}))
            drawing.text(left - 12, y + 11, distance, TICK, "end", class_="distance", **_weight(is_least))
            drawing.text(left + length + 6, y + 11, f"{count:,}", TICK, class_="many", **_weight(is_least))
            if is_least:
                drawing.triangle([(left - 2, y + 7), (left - 9, y + 3), (left - 9, y + 11)])
        return drawing.height - MARGIN

    many = f"{counts[figure]:,} of the {total:,} combinations" + ("" if limit == box.m else f" of at most {limit} outputs")
    return Picture(
        f"How many combinations have each distance from the affine functions: {_name(box)}",
        f"Marked: {many} {'has' if counts[figure] == 1 else 'have'} the least distance, {figure}, which is the nonlinearity; c = {c} is the"
        " first, fewest outputs first. A distance that no combination has is not listed.",
        max(left + LONGEST_BAR + 6 + numbers + MARGIN, LEAST),
        paint,
    )


# ---- as files of their own


def lat_map(box: Box) -> str:
    """The linear approximation table, as SVG."""
    return lat(box).svg()


def xor_map(box: Box) -> str:
    """The XOR table (difference distribution table), as SVG."""
    return xor(box).svg()


def spectrum_bars(box: Box, c: Optional[int] = None) -> str:
    """The linear approximation values of a combination, as SVG; without c of the nonlinearity's witness."""
    return spectrum(box, c).svg()


def distance_bars(box: Box) -> str:
    """The distance of each combination from the affine functions, as SVG."""
    return distances(box).svg()


def distance_histogram(box: Box) -> str:
    """How many combinations have each distance from the affine functions, as SVG."""
    return histogram(box).svg()
