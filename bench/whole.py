#!/usr/bin/env python3
"""What a sweep over all combinations costs: the time of one combination for each figure and number of inputs, and what follows for 2^m - 1 of them.

It needs the shared library (`make shared`) and a quiet machine, takes about a minute, and prints the tables of docs/PERFORMANCE.md ("What a whole
sweep costs"). A part of a sweep is timed on one core, and as many parts as there are cores side by side; the least of several rounds counts.

usage: PYTHONPATH=python python3 bench/whole.py [--short]      (--short: one small round, for the gate, which looks at no time)
"""
import math
import random
import sys
import time
from concurrent.futures import ThreadPoolExecutor

from satmegwo import Box
from satmegwo.sweeping import Question, cores

OUTPUTS = 32
FIGURES = {
    "nonlinearity": lambda n: Question("nonlinearity", boxes(n, 1), OUTPUTS),
    "autocorrelation": lambda n: Question("autocorrelation", boxes(n, 1), OUTPUTS),
    "distance (m, 1)": lambda n: Question("distance", boxes(n, 1), OUTPUTS, 1),
    "sum of four boxes": lambda n: Question("sum", boxes(n, 4), OUTPUTS),
}
MINUTES = 20  # what a designer waits for
FIRST = 2**10  # combinations of the part that says how long the others must be


def boxes(n, count):
    """Boxes with rows at random, the same ones in every run."""
    rows = random.Random(f"{n} inputs")
    return tuple(Box([rows.randrange(2**OUTPUTS) for _ in range(2**n)], n, OUTPUTS) for _ in range(count))


def seconds(question, combinations, workers):
    """How long `workers` parts of so many combinations take side by side."""
    starts = [1 + (2 * k + 1) * question.end // (2 * workers) for k in range(workers)]
    with ThreadPoolExecutor(workers) as pool:
        list(pool.map(lambda _: question.between(1, 1), starts))  # the threads are there
        began = time.perf_counter()
        list(pool.map(lambda first: question.between(first, first + combinations - 1), starts))
        return time.perf_counter() - began


def cost(question, workers, rounds, length):
    """Seconds for one combination where so many workers share the sweep, from parts that take `length` seconds or so."""
    combinations = max(FIRST, int(FIRST * length / seconds(question, FIRST, 1)))
    return min(seconds(question, combinations, workers) for _ in range(rounds)) / (combinations * workers)


def shown(time_needed):
    """Seconds as a person says them."""
    if time_needed < 100:
        return f"{time_needed:.2g} s" if time_needed < 10 else f"{time_needed:.0f} s"
    return f"{time_needed / 60:.0f} min" if time_needed < 6000 else f"{time_needed / 3600:.1f} h"


def table(head, rows):
    """A table of Markdown."""
    for line in (head, len(head) * ["---"], *rows):
        print("| " + " | ".join(line) + " |")
    print()


def main():
    short = sys.argv[1:] == ["--short"]
    if sys.argv[1:] and not short:
        sys.exit(__doc__)
    rounds, length, widths = (1, 0.0, (8,)) if short else (3, 0.7, (4, 5, 6, 7, 8))
    one = {name: {n: cost(make(n), 1, rounds, length) for n in widths} for name, make in FIGURES.items()}
    all_cores = {name: cost(make(8), cores(), rounds, length) for name, make in FIGURES.items()}
    print("Nanoseconds for one combination, on one core:\n")
    table(["inputs", *FIGURES], [[str(n), *(f"{one[name][n] * 1e9:.0f}" for name in FIGURES)] for n in widths])
    print(f"All combinations of a box with 8 inputs, on one core and on {cores()}:\n")
    swept = [(m, 2**m - 1) for m in (16, 20, 24, 28, 32)]
    rows = [[str(m), *(f"{shown(one[name][8] * c)}, {shown(all_cores[name] * c)}" for name in FIGURES)] for m, c in swept]
    rows.append([f"{cores()} cores to one", *(f"{all_cores[name] / one[name][8]:.2f}" for name in FIGURES)])
    rows.append([f"cores for 32 outputs in {MINUTES} minutes", *(str(math.ceil(one[name][8] * 2**32 / 60 / MINUTES)) for name in FIGURES)])
    table(["outputs", *FIGURES], rows)


if __name__ == "__main__":
    main()
