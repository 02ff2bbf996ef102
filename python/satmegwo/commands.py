"""The other commands: what each makes of the boxes that were read."""
from __future__ import annotations

import argparse
from typing import Callable, NamedTuple, Sequence

from . import explaining, page, pictures, sheets, sweeping
from .answers import Swap
from .box import Box
from .progress import Progress
from .reading import Unreadable
from .results import Given, Result, line, said
from .sheets import STOPPED, ctrl_c_is_heard, how, limit_of
from .sums import sum_nonlinearity
from .tables import Table

Making = Callable[[Sequence[Given], argparse.Namespace, Progress], Result]


def _figure(given: Given, word: str, fields: dict[str, int]) -> Result:
    """A figure of one box with its fields, as the sheet has one."""
    return Result(
        lambda: line(word, *fields.values()),
        lambda: [list(fields), list(fields.values())],
        lambda: said(word, box=given.members(), **{word: fields}),
    )


def _distance(given: Sequence[Given], args: argparse.Namespace, progress: Progress) -> Result:
    """The dynamic distance, doubled: the figure, c, d, and the order."""
    box = given[0].box
    limit, flips = limit_of(args.order[0], box), args.order[1]
    with ctrl_c_is_heard():
        figure, (c, d), _, _ = box.dynamic_distance(limit, flips, **how("distance", args, progress))
    return _figure(given[0], "distance", {"figure": figure, "c": c, "d": d, "limit": limit, "flips": flips})


def _sum(given: Sequence[Given], args: argparse.Namespace, progress: Progress) -> Result:
    """The nonlinearity of a sum of boxes: the figure, c, a mask for each box, b, and the limit."""
    args.file = " + ".join(one.file for one in given)
    limit = limit_of(args.limit, given[0].box)
    with ctrl_c_is_heard():
        found = sum_nonlinearity([one.box for one in given], limit, **how("sum", args, progress))
    figure, (c, masks, b), _ = found
    names = [f"w{k}" for k in range(1, len(masks) + 1)]
    fields = {"figure": figure, "c": c, "masks": list(masks), "b": b, "limit": limit}
    return Result(
        lambda: line("sum", figure, c, *masks, b, limit),
        lambda: [["figure", "c", *names, "b", "limit"], [figure, c, *masks, b, limit]],
        lambda: said("sum", boxes=[one.members() for one in given], sum=fields),
    )


# ---- lists


def _listed(given: Given, word: str, heading: str, fields: dict[str, int], found: Sequence[NamedTuple], shown: str) -> Result:
    """A list of what reaches a figure, with that figure above it."""
    listed = [one._asdict() for one in found]
    return Result(
        lambda: "".join([line(heading), *(line(shown.format(**one)) for one in listed)]),
        lambda: [list(found[0]._fields), *found],
        lambda: said(word, box=given.members(), **fields, **{word: listed}),
    )


def _pairs(given: Sequence[Given], args: argparse.Namespace, progress: Progress) -> Result:
    """All nearest pairs, which must go before the box gets better."""
    box = given[0].box
    limit = limit_of(args.limit, box)
    progress.say(f"nearest pairs of {box.n} by {box.m} within {limit} outputs")
    with ctrl_c_is_heard():
        pairs = sweeping.heard(lambda: box.nearest_pairs(limit))
        figure = sweeping.Question("nonlinearity", (box,), limit).between(pairs[0].c, pairs[0].c)[1]
    heading = f"nonlinearity {figure}, limit {limit}; pairs that reach it: {len(pairs)}"
    shown = "combination {c} against w = {w}, b = {b}"
    return _listed(given[0], "pairs", heading, {"figure": figure, "limit": limit}, pairs, shown)


def _cells(given: Sequence[Given], args: argparse.Namespace, progress: Progress) -> Result:
    """All cells of the XOR table that reach the largest."""
    figure, cells = given[0].box.largest_cell().figure, given[0].box.largest_cells()
    heading = f"largest cell {figure}; cells that reach it: {len(cells)}"
    return _listed(given[0], "cells", heading, {"figure": figure}, cells, "a = {a}, beta = {beta}")


# ---- tables


def _whole(word: str, axes: tuple[str, str], ask: Callable[[Box], Table], draw: Callable[[Box], str]) -> Making:
    """A command that draws a table, or gives it as data."""

    def make(given: Sequence[Given], args: argparse.Namespace, progress: Progress) -> Result:
        box, (row, column) = given[0].box, axes

        def lines() -> list[list[object]]:
            table = ask(box)
            return [[f"{row}\\{column}", *range(len(table[0]))], *([at, *values] for at, values in enumerate(table))]

        return Result(
            lambda: draw(box),
            lines,
            lambda: said(word, box=given[0].members(), **{word: {"row": row, "column": column, "values": ask(box)}}),
        )

    return make


def _spectrum(given: Sequence[Given], args: argparse.Namespace, progress: Progress) -> Result:
    """The spectrum of a combination; without one of the nonlinearity's witness."""
    box = given[0].box
    c = box.nonlinearity().witness.c if args.combination is None else args.combination
    values = box.spectrum(c)
    return Result(
        lambda: pictures.spectrum_bars(box, args.combination),
        lambda: [["c", "w", "value"], *([c, w, value] for w, value in enumerate(values))],
        lambda: said("spectrum", box=given[0].members(), spectrum={"c": c, "values": values}),
    )


def _counts(given: Sequence[Given], args: argparse.Namespace, progress: Progress) -> Result:
    """The distance of each combination from the affine functions."""
    box = given[0].box
    combinations = range(1, 2**box.m)
    return Result(
        lambda: pictures.distance_bars(box),
        lambda: [["c", "distance"], *zip(combinations, box.distances()[1:])],
        lambda: said("counts", box=given[0].members(), counts={"c": list(combinations), "distance": box.distances()[1:]}),
    )


# ---- boxes made from a box


class Improvement(NamedTuple):
    """The swaps that raised the nonlinearity one after the other, the box that they lead to, and whether no swap raises it further."""

    swaps: list[Swap]
    box: Box
    is_finished: bool
    is_stopped: bool = False  # by Ctrl-C


def _improved(box: Box, steps: int, progress: Progress) -> Improvement:
    """Swaps two rows as long as that raises the nonlinearity, each time the smallest such swap, and at most so many times."""
    swaps: list[Swap] = []
    with ctrl_c_is_heard():
        while len(swaps) < steps:
            progress.say(f"swap {len(swaps) + 1}" + (f", nonlinearity {swaps[-1].figure} so far" if swaps else ""))
            try:
                swap = sweeping.heard(box.raising_swap)
            except KeyboardInterrupt:
                return Improvement(swaps, box, False, True)
            if swap is None:
                return Improvement(swaps, box, True)
            box = box.swapped(swap.lower, swap.higher)
            swaps.append(swap)
    return Improvement(swaps, box, False)


def _improve(given: Sequence[Given], args: argparse.Namespace, progress: Progress) -> Result:
    """The swaps that improve a box; -o writes the box that they lead to."""
    found = _improved(given[0].box, args.steps, progress)
    first = given[0].box.nonlinearity(given[0].box.m).figure
    last = found.swaps[-1].figure if found.swaps else first
    end = "no swap raises it" if found.is_finished else "stopped: another swap may raise it"
    improved = {"n": found.box.n, "m": found.box.m, "sha256": found.box.sha256, "rows": list(found.box)}
    named = [{"lower": swap.lower, "higher": swap.higher, "nonlinearity": swap.figure} for swap in found.swaps]
    return Result(
        lambda: "".join(
            [
                line("nonlinearity", first),
                *(line(f"swap {lower} {higher}, nonlinearity {figure}") for lower, higher, figure in found.swaps),
                line(end),
            ]
        ),
        lambda: [["step", "lower", "higher", "nonlinearity"], [0, "", "", first], *([k, *swap] for k, swap in enumerate(found.swaps, 1))],
        lambda: said(
            "improve",
            box=given[0].members(),
            nonlinearity={"before": first, "after": last},
            swaps=named,
            finished=found.is_finished,
            improved=improved,
        ),
        found.box.to_bytes(),
        STOPPED if found.is_stopped else 0,
    )


def _pack(given: Sequence[Given], args: argparse.Namespace, progress: Progress) -> Result:
    """The columns, packed for the mask, as bytes or a line in base sixteen for each; with --unpack the box file of packed columns."""
    box = given[0].box
    if args.unpack:
        return Result(box.to_bytes)
    packed = box.packed()
    size = len(packed) // box.m
    shown = [line("column", j + 1, packed[j * size : (j + 1) * size].hex()) for j in range(box.m)]
    return Result(lambda: "".join(shown) if args.hex else packed)


def _boxfile(given: Sequence[Given], args: argparse.Namespace, progress: Progress) -> Result:
    return Result(given[0].box.to_bytes)


# ---- for readers


def _explain(given: Sequence[Given], args: argparse.Namespace, progress: Progress) -> Result:
    box = given[0].box
    limit = None if args.limit is None else limit_of(args.limit, box)
    try:
        explanation = explaining.explain(box, args.figure, i=limit, j=args.flips)
    except TypeError:
        words = "distance needs --limit and --flips, and xor, sac and bic have neither"
        raise Unreadable(f"{args.figure} takes other words than these: {words}") from None
    return Result(lambda: explanation.html(whole=True) + "\n" if args.html else str(explanation))


def _report(given: Sequence[Given], args: argparse.Namespace, progress: Progress) -> Result:
    return Result(lambda: page.page(given[0].box, progress.say))


class Command(NamedTuple):
    """A command: what it does, in words, how, and whether it has CSV and JSON."""

    words: str
    make: Making
    has_forms: bool = True


COMMANDS: dict[str, Command] = {
    "sheet": Command("prints the sheet: each figure with its witness, as boxsheet does, or within another limit", sheets.sheet),
    "compare": Command("prints the sheets of two boxes side by side, and which figures differ", sheets.compare),
    "distance": Command("prints the dynamic distance of an order, doubled: the figure, c, d, i, j", _distance),
    "sum": Command("prints the nonlinearity of the sum of up to four boxes: the figure, c, a mask for each box, b, i", _sum),
    "pairs": Command("lists all pairs of a combination and an affine function that reach the nonlinearity", _pairs),
    "cells": Command("lists all cells of the XOR table (DDT) that reach the largest", _cells),
    "explain": Command("shows the count behind the witness of a figure", _explain, False),
    "report": Command("writes a page of HTML: the sheet in sentences, pictures, and the counts", _report, False),
    "lat": Command(
        "draws the linear approximation table (LAT), as SVG, or gives it as data: a row is an output mask c",
        _whole("lat", ("c", "w"), Box.lat, pictures.lat_map),
    ),
    "xor": Command(
        "draws the XOR table (DDT), as SVG, or gives it as data: a row is an input difference a",
        _whole("xor", ("a", "beta"), Box.ddt, pictures.xor_map),
    ),
    "spectrum": Command("draws the spectrum of a combination (half of Walsh's), as SVG, or gives it as data", _spectrum),
    "counts": Command(
        "draws the distance of each combination from the affine functions, as SVG, or gives it as data", _counts
    ),
    "improve": Command("swaps rows as long as that raises the nonlinearity over all combinations, up to 8 outputs", _improve),
    "pack": Command("writes the columns packed for the mask, or the box file of packed columns", _pack, False),
    "boxfile": Command("writes the box file", _boxfile, False),
}
ALIASES = {"xor": "ddt"}
