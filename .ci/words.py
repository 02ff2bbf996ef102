#!/usr/bin/env python3
"""Looks for the field's words where a cryptographer searches for them: on the pages, and beside the calls of each language.

Each word of WORDS stands in every place that its row names, in one of the files of that place at least. It is looked for as a whole word, also
where a comment breaks it over two lines: `nonlinearity` is no `linearity`. A word in capitals is found in capitals only: the command `lat` is no
`LAT`. In README.md a word stands in a row of a table, with the word of this project beside it.

usage: words.py ROOT
"""
import pathlib
import re
import sys

PLACES = {
    "README": ("README.md",),
    "designers": ("docs/DESIGNERS.md",),
    "C": ("include/satmegwo.h",),
    "Python": ("python/README.md", "python/satmegwo/box.py"),
    "Rust": ("rust/src/sbox.rs", "rust/src/lib.rs"),
}
PAGES, EVERYWHERE = ("README", "designers"), tuple(PLACES)
# The word, the places that must have it, and what it is called here.
WORDS = (
    ("S-box", EVERYWHERE, "box"),
    ("coordinate function", EVERYWHERE, "column"),
    ("component function", EVERYWHERE, "combination"),
    ("output mask", PAGES, "c"),
    ("input mask", PAGES, "w"),
    ("Walsh", EVERYWHERE, "spectrum, of half the values"),
    ("LAT", EVERYWHERE, "spectrum"),
    ("linear approximation table", PAGES, "spectrum"),
    ("linearity", EVERYWHERE, "2^n less twice the nonlinearity"),
    ("DDT", EVERYWHERE, "XOR table"),
    ("difference distribution table", PAGES, "XOR table"),
    ("differential uniformity", EVERYWHERE, "largest cell of the XOR table"),
    ("absolute indicator", EVERYWHERE, "autocorrelation of a box"),
    ("algebraic degree", EVERYWHERE, "degree, the least over the combinations"),
    ("min_degree", PAGES, "degree"),
    ("BIC", EVERYWHERE, "dynamic distance of order (2, 1)"),
    ("Webster and Tavares", PAGES, "another measure of BIC"),
)
WRITTEN_OUT = {"BIC": "bit independence criterion"}  # what may stand in place of the short word
LEADER = re.compile(r"^[ \t]*(?:///|//!|//|/\*+|\*|#)?[ \t]*", re.M)  # what begins a line of a comment


def pattern(word):
    """The word, whole, in the singular or plural."""
    return re.compile(rf"(?<![\w-]){re.escape(word)}(?:e?s)?(?![\w-])", 0 if word.isupper() else re.IGNORECASE)


def has(text, word):
    """Whether a text has the word, wherever its lines end."""
    return bool(pattern(word).search(" ".join(LEADER.sub("", text).split())))


def table(text):
    """The rows of a page's tables."""
    return "\n".join(line for line in text.splitlines() if line.startswith("|"))


def faults(files):
    """What is missing in the files, each given with its text."""
    lost = [f"no file {file}" for place in PLACES.values() for file in place if file not in files]
    for word, places, ours in WORDS:
        for place in places:
            texts = [files.get(file, "") for file in PLACES[place]]
            if place == "README":
                texts = [table(text) for text in texts]
            if not any(has(text, spelling) for text in texts for spelling in (word, WRITTEN_OUT.get(word, word))):
                lost.append(f"{' or '.join(PLACES[place])}: no {word} (here: {ours})")
    return lost


def main():
    if len(sys.argv) != 2:
        sys.exit("usage: words.py ROOT")
    root = pathlib.Path(sys.argv[1])
    held = {file: root / file for place in PLACES.values() for file in place}
    found = faults({file: path.read_text(encoding="utf-8") for file, path in held.items() if path.is_file()})
    for fault in found:
        print(f"words: {fault}")
    if found:
        sys.exit(f"the field's words have {len(found)} faults")
    print(f"{len(WORDS)} words of the field are found in {len(PLACES)} places")


if __name__ == "__main__":
    main()
